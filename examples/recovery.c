/*
 * A crash in a library of four controllers, what follows from it, readings that go out to be cited, two
 * that leave together, a ceiling on replay, a list of steps in one call, and messages that are handed out
 * until none is left, told in words. It comes across every answer, and shows two refusals and the two
 * returns that are no answers.
 *
 *     tools/build
 *     cc examples/recovery.c -Iinclude -Ltarget/staticlib -lgoulvizad -o target/recovery
 */
#include "goulvizad.h"

#include <inttypes.h>
#include <stdio.h>

enum { ARM, DRIVE, CATALOGUE, BENCH, CONTROLLERS };

static const char *const names[CONTROLLERS] = {"arm", "drive", "catalogue", "bench"};

/* The house. A real one is kept where it survives: these words are all that the machine knows. */
static uint32_t table[GOULVIZAD_TABLE_WORDS];

/* What it has published. It belongs to the table, and is kept with it. */
static uint32_t ledger[GOULVIZAD_LEDGER_WORDS];

static const char *name(uint32_t controller)
{
    return controller < CONTROLLERS ? names[controller] : "unknown";
}

/* The controllers that a mask names. */
static void print_mask(uint32_t mask)
{
    const char *between = "";
    uint32_t controller;

    if (mask == 0)
        printf("nobody");
    for (controller = 0; controller < 32; controller++) {
        if ((mask >> controller & 1) != 0) {
            printf("%s%s", between, name(controller));
            between = ", ";
        }
    }
}

/* What became of a message. */
static void print_message(uint32_t answer, const uint32_t *v)
{
    printf("message %" PRIu32, v[0]);
    switch (answer) {
    case GOULVIZAD_SENT:
        printf(" is sent");
        break;
    case GOULVIZAD_RELEASED:
        printf(" is released, and could be revoked by ");
        print_mask(v[1]);
        break;
    case GOULVIZAD_HELD:
        printf(" is held: it could be revoked by ");
        print_mask(v[1]);
        break;
    case GOULVIZAD_DELIVERED:
        printf(" is delivered and begins interval %" PRIu32 " of incarnation %" PRIu32, v[2], v[1]);
        break;
    case GOULVIZAD_DROPPED:
        printf(" is dropped: it rests on work lost in the crash that ended");
        printf(" incarnation %" PRIu32 " of %s", v[2], name(v[1]));
        break;
    case GOULVIZAD_WAITS:
        printf(" waits: its receiver has more to hear or to be told first");
        break;
    }
}

/* What became of a controller's work. */
static void print_controller(uint32_t answer, const uint32_t *v)
{
    printf("%s", name(v[0]));
    switch (answer) {
    case GOULVIZAD_CRASHED:
        printf(" ends incarnation %" PRIu32 "; intervals kept up to %" PRIu32, v[1], v[2]);
        printf(", %" PRIu32 " lost, %" PRIu32 " replayed", v[3], v[4]);
        break;
    case GOULVIZAD_HEARD:
        printf(" has nothing to undo");
        break;
    case GOULVIZAD_ROLLED:
        printf(" rolls back; intervals kept up to %" PRIu32, v[1]);
        printf(", %" PRIu32 " undone, %" PRIu32 " replayed", v[2], v[3]);
        printf(", for the crash that ended incarnation %" PRIu32 " of %s", v[5], name(v[4]));
        break;
    }
}

static const char *refusal(uint32_t number)
{
    switch (number) {
    case GOULVIZAD_LENGTH:
        return "the table has another length";
    case GOULVIZAD_FORM:
        return "the table is not in form";
    case GOULVIZAD_LEDGER:
        return "the ledger has another length or is not in order";
    case GOULVIZAD_CONTROLLER:
        return "no such controller";
    case GOULVIZAD_MESSAGE:
        return "no such message";
    case GOULVIZAD_DEGREE:
        return "not 1 to 8 controllers, a degree above their number, or a gap above 64";
    case GOULVIZAD_SAME_CONTROLLER:
        return "the two controllers are equal, or a set has none, too many or one twice";
    case GOULVIZAD_STATE:
        return "the message is not held, or not released";
    case GOULVIZAD_SENDERS:
        return "the messages have more than one sender";
    case GOULVIZAD_LOG_COUNT:
        return "not so many intervals to log, or none asked for";
    case GOULVIZAD_NO_SUCH_CRASH:
        return "no crash ended that incarnation";
    case GOULVIZAD_ALREADY_HEARD:
        return "that crash has been heard of";
    case GOULVIZAD_MESSAGES_USED_UP:
        return "the messages are used up";
    case GOULVIZAD_PLACES_USED_UP:
        return "the places are used up";
    case GOULVIZAD_INCARNATIONS_USED_UP:
        return "the incarnations are used up";
    case GOULVIZAD_LEDGER_USED_UP:
        return "the ledger is used up";
    default:
        return "unknown";
    }
}

/* Says what a call returned. The two returns that are no answers leave the values as they were. */
static void print_answer(uint32_t answer, const uint32_t *v)
{
    switch (answer) {
    case GOULVIZAD_DONE:
        printf("done");
        break;
    case GOULVIZAD_SENT:
    case GOULVIZAD_RELEASED:
    case GOULVIZAD_HELD:
    case GOULVIZAD_DELIVERED:
    case GOULVIZAD_DROPPED:
    case GOULVIZAD_WAITS:
        print_message(answer, v);
        break;
    case GOULVIZAD_CRASHED:
    case GOULVIZAD_HEARD:
    case GOULVIZAD_ROLLED:
        print_controller(answer, v);
        break;
    case GOULVIZAD_REFUSED:
        printf("refused %" PRIu32 ", %s", v[0], refusal(v[0]));
        break;
    case GOULVIZAD_SET_RELEASED:
        printf("all are released, and could be revoked by ");
        print_mask(v[0]);
        break;
    case GOULVIZAD_SET_HELD:
        printf("all are held: they could be revoked by ");
        print_mask(v[0]);
        break;
    case GOULVIZAD_IDLE:
        printf("no message is left that could go");
        break;
    case GOULVIZAD_UNKNOWN_LETTER:
        printf("no step has this letter");
        break;
    case GOULVIZAD_WRONG_VALUES:
        printf("the value buffer has another length");
        break;
    default:
        printf("answer %" PRIu32 ", unknown to this program", answer);
    }
    printf("\n");
}

/* Does a step, says what came of it, and returns the answer. */
static uint32_t step(const char *what, char letter, uint32_t a, uint32_t b, uint32_t c)
{
    uint32_t values[GOULVIZAD_VALUE_WORDS];
    uint32_t answer;

    answer = goulvizad_step(table, GOULVIZAD_TABLE_WORDS, ledger, GOULVIZAD_LEDGER_WORDS,
                            (uint32_t)letter, a, b, c, 0, values, GOULVIZAD_VALUE_WORDS);
    printf("%s: ", what);
    print_answer(answer, values);
    return answer;
}

/* Releases a set of messages, says what came of it, and returns the answer. */
static uint32_t release_set(const char *what, const uint32_t *messages, size_t count)
{
    uint32_t values[GOULVIZAD_VALUE_WORDS];
    uint32_t answer;

    answer = goulvizad_release_set(table, GOULVIZAD_TABLE_WORDS, ledger, GOULVIZAD_LEDGER_WORDS,
                                   messages, count, values, GOULVIZAD_VALUE_WORDS);
    printf("%s: ", what);
    print_answer(answer, values);
    return answer;
}

/* Sets the gap of the house, and says what came of it. */
static void set_gap(const char *what, uint32_t gap)
{
    uint32_t values[GOULVIZAD_VALUE_WORDS];
    uint32_t answer;

    answer = goulvizad_set_gap(table, GOULVIZAD_TABLE_WORDS, gap, values, GOULVIZAD_VALUE_WORDS);
    printf("%s: ", what);
    print_answer(answer, values);
}

/* Asks whether a controller is at a checkpoint. One that the gap forces shows in no answer to a step. */
static void ask(uint32_t controller)
{
    uint32_t due = goulvizad_is_checkpoint(table, GOULVIZAD_TABLE_WORDS, controller);

    printf("is %s at a checkpoint: %s\n", name(controller), due ? "yes, it has to be written" : "no");
}

/* Hands out what is on its way, message by message, until none is left that could go. */
static void hand_out(void)
{
    uint32_t values[GOULVIZAD_VALUE_WORDS];
    uint32_t answer;

    do {
        answer = goulvizad_dispatch(table, GOULVIZAD_TABLE_WORDS, values, GOULVIZAD_VALUE_WORDS);
        printf("hand out the next: ");
        print_answer(answer, values);
        if (answer == GOULVIZAD_DELIVERED)
            ask(table[GOULVIZAD_SERVED_WORD]);
    } while (answer == GOULVIZAD_DELIVERED || answer == GOULVIZAD_DROPPED);
}

/* The drive works on from two messages that it hasn't written to stable storage. */
static void work(void)
{
    step("arm sends 7 to drive", 'S', ARM, DRIVE, 7);
    step("release 1", 'R', 1, 0, 0);
    step("deliver 1", 'D', 1, 0, 0);
    step("arm sends 8 to drive", 'S', ARM, DRIVE, 8);
    step("release 2", 'R', 2, 0, 0);
    step("deliver 2", 'D', 2, 0, 0);

    /* What it sends rests on that work, and its releases say so. Message 4 is long on its way. */
    step("drive sends 9 to catalogue", 'S', DRIVE, CATALOGUE, 9);
    step("release 3", 'R', 3, 0, 0);
    step("deliver 3", 'D', 3, 0, 0);
    step("drive sends 4 to bench", 'S', DRIVE, BENCH, 4);
    step("release 4", 'R', 4, 0, 0);

    /* Two could revoke message 5, and the degree is 1: one of them has to write its work first. */
    step("catalogue sends 5 to arm", 'S', CATALOGUE, ARM, 5);
    if (step("release 5", 'R', 5, 0, 0) == GOULVIZAD_HELD) {
        step("catalogue logs 1", 'L', CATALOGUE, 1, 0);
        step("release 5", 'R', 5, 0, 0);
    }
    step("deliver 5", 'D', 5, 0, 0);
    step("bench sends 6 to drive", 'S', BENCH, DRIVE, 6);
    step("release 6", 'R', 6, 0, 0);

    /* The drive counts frames. A reading goes out of the house only when nobody could revoke it. */
    step("drive sends 23 to desk", 'S', DRIVE, GOULVIZAD_DESK, 23);
    step("release 7", 'R', 7, 0, 0);
}

/* The drive crashes and works on, and the others hear of it one by one. */
static void crash(void)
{
    step("drive crashes", 'X', DRIVE, 0, 0);

    /* Its work is lost, and not the messages: it is offered them again, beside one on its way. */
    step("deliver 1", 'D', 1, 0, 0);
    step("deliver 2", 'D', 2, 0, 0);
    step("deliver 6", 'D', 6, 0, 0);
    step("drive sends 2 to arm", 'S', DRIVE, ARM, 2);
    step("release 8", 'R', 8, 0, 0);

    /* The arm's work rests on the ended incarnation: it must hear of the crash first. */
    if (step("deliver 8", 'D', 8, 0, 0) == GOULVIZAD_WAITS) {
        step("arm hears of drive", 'H', ARM, DRIVE, 0);
        step("deliver 8", 'D', 8, 0, 0);
    }

    /* Whatever rests on lost work is undone or dropped, and nothing else. */
    step("catalogue hears of drive", 'H', CATALOGUE, DRIVE, 0);
    step("bench hears of drive", 'H', BENCH, DRIVE, 0);
    hand_out();

    /* A refused step changes nothing. The reading was dropped too: it never goes out. */
    step("bench hears of drive", 'H', BENCH, DRIVE, 0);
    step("release 7", 'R', 7, 0, 0);
}

/* The bench counts the frames again, from what the drive sends it. */
static void publish(void)
{
    step("drive sends 3 to bench", 'S', DRIVE, BENCH, 3);
    step("release 9", 'R', 9, 0, 0);
    step("deliver 9", 'D', 9, 0, 0);
    step("bench sends 24 to desk", 'S', BENCH, GOULVIZAD_DESK, 24);

    /* Both have to write their work, and the bench has to be told that the drive did. */
    if (step("release 10", 'R', 10, 0, 0) == GOULVIZAD_HELD) {
        step("bench logs 1", 'L', BENCH, 1, 0);
        step("drive logs 3", 'L', DRIVE, 3, 0);
        step("release 10", 'R', 10, 0, 0);
        step("drive tells bench", 'T', DRIVE, BENCH, 0);
        step("release 10", 'R', 10, 0, 0);
    }

    /* What the drive reads from written work goes out at once, and no later crash takes it back. */
    step("drive sends 18 to desk", 'S', DRIVE, GOULVIZAD_DESK, 18);
    step("release 11", 'R', 11, 0, 0);
    step("drive crashes", 'X', DRIVE, 0, 0);
}

/* The bench reads both parts of a reel, one for the catalogue and one to be cited. */
static void leave_together(void)
{
    static const uint32_t reel[] = {13, 14};

    step("drive sends 4 to bench", 'S', DRIVE, BENCH, 4);
    step("release 12", 'R', 12, 0, 0);
    step("deliver 12", 'D', 12, 0, 0);
    step("bench sends 31 to catalogue", 'S', BENCH, CATALOGUE, 31);
    step("bench sends 32 to desk", 'S', BENCH, GOULVIZAD_DESK, 32);

    /* The first could go by itself, as the degree is 1. With one for the desk all have to wait. */
    if (release_set("release 13 and 14 together", reel, 2) == GOULVIZAD_SET_HELD) {
        step("bench logs 1", 'L', BENCH, 1, 0);
        release_set("release 13 and 14 together", reel, 2);
    }
}

/* The drive's last crash replayed four intervals. A gap has the next one checkpointed as it begins. */
static void bound_replay(void)
{
    set_gap("set a gap of 2", 2);
    step("bench sends 5 to drive", 'S', BENCH, DRIVE, 5);
    step("release 15", 'R', 15, 0, 0);
    ask(DRIVE);
    step("deliver 15", 'D', 15, 0, 0);

    /* It counts as stable from here on, so the drive has to write the checkpoint. */
    ask(DRIVE);
    step("drive crashes", 'X', DRIVE, 0, 0);
    ask(DRIVE);
}

/* A message from its sending to its delivery in one call, which looks at the form of the table once. */
static void pass_on(void)
{
    enum { COUNT = 3 };
    static const char *const what[COUNT] = {"bench sends 6 to drive", "release 16", "deliver 16"};
    static const uint32_t steps[COUNT * GOULVIZAD_STEP_WORDS] = {
        'S', BENCH, DRIVE, 6, 0, /* no step has a fourth number */
        'R', 16, 0, 0, 0,
        'D', 16, 0, 0, 0,
    };
    uint32_t answers[COUNT * GOULVIZAD_ANSWER_WORDS];
    const uint32_t *answer = answers;
    int i;

    if (goulvizad_run(table, GOULVIZAD_TABLE_WORDS, ledger, GOULVIZAD_LEDGER_WORDS, steps,
                      COUNT * GOULVIZAD_STEP_WORDS, answers,
                      COUNT * GOULVIZAD_ANSWER_WORDS) != GOULVIZAD_DONE)
        return;
    for (i = 0; i < COUNT; i++, answer += GOULVIZAD_ANSWER_WORDS) {
        printf("%s: ", what[i]);
        print_answer(answer[0], answer + 1);
    }

    /* Here the last step alone has begun an interval, so that one question tells of all. */
    ask(DRIVE);
}

/* Message 13 is still on its way to the catalogue. The drive gets two more, and takes only its turns. */
static void take_turns(void)
{
    step("bench sends 10 to drive", 'S', BENCH, DRIVE, 10);
    step("release 17", 'R', 17, 0, 0);
    step("bench sends 11 to drive", 'S', BENCH, DRIVE, 11);
    step("release 18", 'R', 18, 0, 0);
    hand_out();
}

/* The ledger for the printed filmography, in the order of publishing. */
static void cite(void)
{
    uint32_t i;

    for (i = 0; i < ledger[0]; i++) {
        printf("cited from message %" PRIu32, ledger[1 + 2 * i]);
        printf(": %" PRIu32 " frames\n", ledger[2 + 2 * i]);
    }
}

/* Two faults of a caller, which change nothing either. */
static void no_steps(void)
{
    uint32_t values[GOULVIZAD_VALUE_WORDS];
    uint32_t answer;

    step("a letter of no step", 'Q', 0, 0, 0);
    answer = goulvizad_step(table, GOULVIZAD_TABLE_WORDS, ledger, GOULVIZAD_LEDGER_WORDS, 'C', ARM, 0,
                            0, 0, values, GOULVIZAD_VALUE_WORDS - 1);
    printf("a value buffer too short: ");
    print_answer(answer, values);
}

int main(void)
{
    /* A table that was saved in form, with its ledger, is a house that goes on. These are all zeros. */
    if (goulvizad_in_form(table, GOULVIZAD_TABLE_WORDS) == 0)
        if (step("open a house of four, degree 1", 'O', CONTROLLERS, 1, 0) != GOULVIZAD_DONE)
            return 1;
    work();
    crash();
    publish();
    leave_together();
    bound_replay();
    pass_on();
    take_turns();
    cite();
    no_steps();
    return 0;
}
