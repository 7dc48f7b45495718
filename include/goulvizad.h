/*
 * The house recovery machine: one step function over a lent table and a lent ledger, by the step or for
 * a list of steps, three steps beside it, one that sets the gap, one that releases a set of messages and
 * one that chooses the next delivery, and two questions. README.md says what it is for,
 * examples/recovery.c shows a crash, all that follows, readings that go out, a set of them, a gap, a
 * list, and deliveries that are handed out until none is left, docs/GUIDE.md leads through the rules,
 * and crates/rules/specs has them.
 *
 * The caller owns both buffers and lends them for one call at a time. All that the machine knows stands
 * in them; nothing is kept between calls.
 *
 * For the length of a call
 * - each pointer is to as many words, aligned for uint32_t, as the length beside it says; with length 0
 *   it may be null;
 * - the table, the ledger and the value buffer must not overlap, nor in goulvizad_run the table, the
 *   ledger, the steps and the answers, nor in goulvizad_release_set the messages and any other;
 * - nobody else writes the table, the ledger, the steps or the messages, nor reads the table or the
 *   ledger during goulvizad_step, goulvizad_run and goulvizad_release_set, nor the table during
 *   goulvizad_set_gap and goulvizad_dispatch. Different houses, each with a table, a ledger and other
 *   buffers of its own, may be used from several threads at once.
 *
 * A table and its ledger that are saved or moved between calls are the same house. They belong together
 * and are saved together, as the same step left them. A ledger that is older than its table lacks what
 * was published meanwhile, and no later release makes up for it. One that is younger cites a message
 * which the table still holds: its work can still be lost.
 *
 * A table that anybody else has written to in between is looked at as it stands: in form it is taken for
 * a house, else it is refused. It is in form when each word is in its range, and all that n, the live
 * counts and the messages sent leave unused is 0 (crates/rules/specs/Form.antt). What 'O' and steps
 * after it leave is in form; but form alone doesn't say that steps have led there.
 *
 * To build, first with Rattle's rt, then with any C compiler:
 *     tools/build
 *     cc prog.c -Iinclude -Ltarget/staticlib -lgoulvizad
 * The archive, target/staticlib/libgoulvizad.a, is for Linux on x86-64 with glibc 2.34 or newer, as
 * Rattle's kit asks, and links only into x86-64 programs.
 */
#ifndef GOULVIZAD_H
#define GOULVIZAD_H

#include <stddef.h>
#include <stdint.h>

#ifdef __cplusplus
extern "C" {
#endif

/* The lengths of the three buffers, and of a step and an answer in a list, in words of 32 bits. */
#define GOULVIZAD_TABLE_WORDS 15152
#define GOULVIZAD_LEDGER_WORDS 257
#define GOULVIZAD_VALUE_WORDS 6
#define GOULVIZAD_STEP_WORDS 5
#define GOULVIZAD_ANSWER_WORDS 7

/* The most messages of a set. */
#define GOULVIZAD_SET_MOST 16

/* The receiver that is no controller: the desk, where readings leave the house. The same for every n. */
#define GOULVIZAD_DESK 8

/* The word of the table that has the controller which the dispatcher served last. */
#define GOULVIZAD_SERVED_WORD 12

/*
 * The steps. A letter is given by its ASCII code ('O' and so on), its numbers as a, b, c and d in the
 * order of its line. Those that it hasn't are not looked at; d is one that no step has yet. Controllers
 * count from 0, messages from 1.
 *
 *   letter  a           b         c
 *   'O'     n           degree                 open a house of n controllers (1 to 8), degree 0 to n
 *   'K'     controller  degree                 set its degree
 *   'S'     sender      receiver  payload      send a payload (any word), to a controller or the desk
 *   'R'     message                            release a message; one to the desk is published
 *   'D'     message                            deliver a message at its receiver
 *   'L'     controller  count                  log so many of its oldest live intervals not yet stable
 *   'C'     controller                         take a checkpoint
 *   'T'     owner       holder                 tell the holder which of the owner's intervals are stable
 *   'X'     controller                         crash
 *   'H'     hearer      crashed   incarnation  hear of the crash that ended that incarnation
 *
 * The message that began an interval which is lost by 'X' or undone by 'H' is released again: it can be
 * delivered once more. It is dropped where it rests itself on work lost in a crash that this controller
 * has heard of, its own crash included.
 */

/*
 * The gap, a ceiling on replay. After a crash or a rollback a controller replays from the latest
 * checkpoint that it keeps; `replayed` is how many numbers the newest interval kept stands above it. The
 * gap Q, 0 to 64, is one for the whole house. 0 means off, and an 'O' that is done makes it 0. Only
 * goulvizad_set_gap sets it, no letter does; word 11 of the table has it.
 *
 * A new interval, of a delivery or the first one after a crash or a rollback, that would stand Q or more
 * numbers above the latest checkpoint among the intervals before it that are live is checkpointed as it
 * begins. As with 'C' this logs all before it and itself. The answer to the step is the same as without
 * a gap, but all of this counts as stable from then on, so the checkpoint has to be written to stable
 * storage as one that was asked for. goulvizad_is_checkpoint tells that it is due: ask it after each
 * GOULVIZAD_DELIVERED, GOULVIZAD_CRASHED and GOULVIZAD_ROLLED, for the controller at which the interval
 * began. After a list of steps it tells of the newest interval alone; which of those before it are
 * checkpoints follows by this rule from the steps and their answers.
 *
 * Numbers end at 64 and the first interval is a checkpoint, so a gap of 64 asks for none. Where the 64th
 * interval is checkpointed as it begins, all 64 are stable, and a crash of that controller is refused by
 * GOULVIZAD_PLACES_USED_UP, as after a 'C' there.
 *
 * So the longest restart is known beforehand: in a house where the first step after 'O' set the gap to
 * at least 1 and it was never 0 again, and whose table only steps have written, `replayed` is below the
 * largest gap set so far. Where the gap was set later, or was 0 in between, nothing is promised: what
 * began while it was off may stand any number above its checkpoint.
 */

/*
 * The desk and the ledger. A message to GOULVIZAD_DESK is held until nobody could revoke it, whatever
 * the degree of its sender: its release answers GOULVIZAD_RELEASED with mask 0, or GOULVIZAD_HELD with
 * those who could. If the work that it was sent from is lost or undone meanwhile, it is dropped. Once it
 * is released it is published: it is never delivered, and it stands in the ledger.
 *
 * A published reading may be cited. In a house that was opened, and whose table and ledger only steps
 * have written since, the interval that sent it is never lost or undone before the next opening.
 *
 *   word       of the ledger, i from 0
 *   0          how many messages were published since the opening, at most 128
 *   1 + 2 * i  the number of the message that was published i-th
 *   2 + 2 * i  its payload
 *
 * All words past the last pair are 0. An 'O' that is done makes every word 0, and an 'R' or a set that
 * publishes appends a pair for each message; nothing else writes the ledger, and the caller mustn't
 * either. Every 'R' and every set, whatever the receivers of the messages, looks at the count and at the
 * words past the last pair. No step looks at the pairs themselves: one that somebody else has put there
 * is not found out. The other eight letters don't look at the ledger at all, and take one of any length
 * and content, null with length 0 too. The step that sets the gap and the dispatcher have none.
 */

/*
 * Sets. Messages that belong together, such as the readings of one reel, leave together: a set goes
 * whole or not at all. It is 1 to GOULVIZAD_SET_MOST held messages of one sender. Only
 * goulvizad_release_set releases one; no letter does, so that no set stands in a list of steps.
 *
 * The mask of a set is the union of those that 'R' would show for its messages one by one: it names all
 * who could revoke any of them. Where these are no more than the degree of the sender, all messages are
 * released, and else all stay held and no word changes. If one of them is for the desk, all go only
 * where the mask is 0, whatever the degree. Messages to the desk enter the ledger in the order given.
 *
 * A set that goes leaves the table and the ledger as 'R' would, message by message in the order given.
 * One that is held may have messages which could go by themselves. A set of one is its 'R', but for the
 * number and the values of the answer.
 */

/*
 * The dispatcher chooses the next delivery, so that nobody is starved. It goes round the controllers, from
 * the one after that which it served last, and takes the first that has a released message for it which
 * 'D' would deliver or drop; of these messages it takes the one with the lowest number, and does its 'D'.
 * Only goulvizad_dispatch does this; no letter does, so that it stands in no list of steps.
 *
 * table[GOULVIZAD_SERVED_WORD] has the controller that it served last: after GOULVIZAD_DELIVERED whom to
 * hand the message to. One whose message was dropped is served, too. An 'O' that is done makes it n - 1, so that
 * the first round begins with controller 0, and nothing else writes it. A table from elsewhere may have
 * any number up to 7 there, whatever n is: the round begins with it plus 1, less n as often as needed.
 *
 * A message that is passed over waits, or its receiver has 64 live intervals. GOULVIZAD_IDLE says that
 * this is so of every message that is released, if there are any, and changes no word. Call it again and
 * again until it says so; after other steps there may be more that can go.
 *
 * A controller that has a message which 'D' would deliver or drop before each of n calls running is served
 * in one of them, whatever other steps but 'O' come between the calls.
 */

/*
 * What goulvizad_step, goulvizad_set_gap, goulvizad_release_set and goulvizad_dispatch return, and the
 * values that they write; goulvizad_run writes both for each of its steps. Zeros follow the values, up to
 * the sixth word.
 * A mask has 2 to the power c for each controller c that it names. Kept is the highest number that is
 * kept; by GOULVIZAD_ROLLED what is kept becomes stable, all of it, so that the hearer has to have
 * written it.
 *
 * GOULVIZAD_DROPPED and GOULVIZAD_ROLLED name a crash at their end, by the controller that crashed and the
 * incarnation that the crash ended: whom to look at. A rollback names the crash just heard, and whatever
 * it undid rests on work lost in it. A message that is dropped rests on work lost in the crash named, and
 * its receiver has heard of that crash; where there are several such crashes it is the one of the lowest
 * controller. (In a house that was opened, and whose table only steps have written since. On any other
 * table it is the lowest controller whose pair in the message's vector exceeds the receiver's end word for
 * it, with the incarnation of that pair.)
 */
enum {
    GOULVIZAD_DONE = 0,      /* no values: to O, K, L, C and T, and to the gap; to a list of steps */
    GOULVIZAD_SENT = 1,      /* message: the number given to it */
    GOULVIZAD_RELEASED = 2,  /* message, mask: let out; who could still revoke it, nobody at the desk */
    GOULVIZAD_HELD = 3,      /* message, mask: kept back; who could revoke it, more than the degree, or
                                for the desk anybody at all */
    GOULVIZAD_DELIVERED = 4, /* message, incarnation, number: of the new interval */
    GOULVIZAD_DROPPED = 5,   /* message, crashed controller, ended incarnation: it rests on what was lost
                                there */
    GOULVIZAD_WAITS = 6,     /* message: not yet; its receiver has more to hear or to be told first */
    GOULVIZAD_CRASHED = 7,   /* controller, ended incarnation, kept, lost, replayed */
    GOULVIZAD_HEARD = 8,     /* hearer: nothing to undo */
    GOULVIZAD_ROLLED = 9,    /* hearer, kept, undone, replayed, crashed controller, ended incarnation */
    GOULVIZAD_REFUSED = 10,  /* number: one of the refusals below; no word of the table or of the ledger
                                changed */
    GOULVIZAD_SET_RELEASED = 11, /* mask: all messages of a set are let out; who could still revoke one
                                    of them, nobody where one went to the desk */
    GOULVIZAD_SET_HELD = 12,     /* mask: all are kept back, and no word changed; who could revoke one of
                                    them, more than the degree, or with one for the desk anybody */
    GOULVIZAD_IDLE = 13,         /* no values: to the dispatcher, where no released message would be
                                    delivered or dropped; no word changed */

    /*
     * These two are no answers, and change neither the table nor the ledger nor the value buffer, nor
     * the answers to a list. The length of the value buffer is looked at first, then the letter; both
     * come before GOULVIZAD_LENGTH.
     */
    GOULVIZAD_UNKNOWN_LETTER = 100, /* the letter, or one of a list, is none of the ten */
    GOULVIZAD_WRONG_VALUES = 101    /* the value buffer hasn't GOULVIZAD_VALUE_WORDS words; the words of
                                       a list are not those of as many steps as answers */
};

/*
 * The refusals, by whom they are caused. Where several apply, the one that stands first here is given.
 * That is the lowest number, but for three: GOULVIZAD_LEDGER comes directly after GOULVIZAD_FORM at R
 * and at a set, and directly after GOULVIZAD_LENGTH at O, which doesn't look at the form;
 * GOULVIZAD_SENDERS comes directly after GOULVIZAD_STATE; GOULVIZAD_LEDGER_USED_UP comes last.
 */
enum {
    /* The host that lends the table and the ledger: */
    GOULVIZAD_LENGTH = 1,  /* the table's length is not GOULVIZAD_TABLE_WORDS */
    GOULVIZAD_FORM = 2,    /* the table is not in form; not looked at by O */
    GOULVIZAD_LEDGER = 14, /* R, a set and O: the ledger's length is not GOULVIZAD_LEDGER_WORDS; R and a
                              set: its count is above 128, or a word past its last pair is not 0 */

    /* The caller naming things: */
    GOULVIZAD_CONTROLLER = 3,      /* a controller not below n; a receiver may be GOULVIZAD_DESK */
    GOULVIZAD_MESSAGE = 4,         /* message number 0, or above the messages sent; one such in a set,
                                      whatever its length */
    GOULVIZAD_DEGREE = 5,          /* n not 1 to 8, a degree above n, or a gap above 64 */
    GOULVIZAD_SAME_CONTROLLER = 6, /* the two controllers of S or T are equal; a set is of no messages or
                                      of more than GOULVIZAD_SET_MOST, or names one twice */

    /* The order of steps: */
    GOULVIZAD_STATE = 7,         /* release of a message not held, also in a set, delivery of one not
                                    released: one to the desk is never delivered */
    GOULVIZAD_SENDERS = 15,      /* the messages of a set have more than one sender */
    GOULVIZAD_LOG_COUNT = 8,     /* the count is 0, or above the live intervals that are not stable */
    GOULVIZAD_NO_SUCH_CRASH = 9, /* no crash ended that incarnation, or it is above 15 */
    GOULVIZAD_ALREADY_HEARD = 10, /* the hearer has heard of it; a controller has heard its own */

    /* Too much used: */
    GOULVIZAD_MESSAGES_USED_UP = 11,     /* 128 messages were sent since the opening */
    GOULVIZAD_PLACES_USED_UP = 12,       /* delivery with 64 live intervals, unless it drops or waits;
                                            crash with 64 stable ones */
    GOULVIZAD_INCARNATIONS_USED_UP = 13, /* crash, or a hearing that must undo, in incarnation 15 */
    GOULVIZAD_LEDGER_USED_UP = 18        /* R that would publish, with all 128 pairs used; a set, with
                                            too few left for all that it would publish. Steps after an
                                            opening never come to it: messages are as few */
};

/*
 * Does one step on the table and the ledger, whatever their lengths and content, and whatever the
 * numbers. Returns a number of the first list above. A house begins with 'O', on a table and a ledger
 * with any content.
 */
uint32_t goulvizad_step(uint32_t *table, size_t table_words, uint32_t *ledger, size_t ledger_words,
                        uint32_t letter, uint32_t a, uint32_t b, uint32_t c, uint32_t d,
                        uint32_t *values, size_t values_words);

/*
 * Does a list of steps in one call, each on the table and the ledger that the one before has left. In
 * `steps` a step has GOULVIZAD_STEP_WORDS words: its letter, a, b, c and d. In `answers` its answer has
 * GOULVIZAD_ANSWER_WORDS: the number that goulvizad_step returns for it, and the six values. The two
 * lengths are in words.
 *
 * Answers, table and ledger are those of the same calls of goulvizad_step one by one, on whatever table
 * and ledger. A step that is refused leaves them, as it does there, and the next one is done. The form
 * of the table is looked at once for the whole list, and not by each step, so that a list is far faster.
 *
 * Returns GOULVIZAD_DONE where all steps have their answers, refusals included; an empty list is done.
 * Returns GOULVIZAD_WRONG_VALUES where the lengths are not those of as many steps as answers, which is
 * looked at first, and GOULVIZAD_UNKNOWN_LETTER where one of the letters is none of the ten, wherever it
 * stands: nothing is done then, and no word of any buffer changes.
 */
uint32_t goulvizad_run(uint32_t *table, size_t table_words, uint32_t *ledger, size_t ledger_words,
                       const uint32_t *steps, size_t steps_words, uint32_t *answers,
                       size_t answers_words);

/* 1 where the table has GOULVIZAD_TABLE_WORDS words and is in form, else 0. Writes nothing. */
uint32_t goulvizad_in_form(const uint32_t *table, size_t table_words);

/*
 * 1 where the newest live interval of a controller is a checkpoint, by 'C', by the gap, or as the first
 * of all; else 0. It is 0 too where the controller is not below n, and where the table has another
 * length than GOULVIZAD_TABLE_WORDS or is not in form. Writes nothing.
 */
uint32_t goulvizad_is_checkpoint(const uint32_t *table, size_t table_words, uint32_t controller);

/*
 * The step that sets the gap, on a table of any length and content. Returns GOULVIZAD_DONE;
 * GOULVIZAD_REFUSED, by GOULVIZAD_LENGTH, GOULVIZAD_FORM or GOULVIZAD_DEGREE; or GOULVIZAD_WRONG_VALUES.
 */
uint32_t goulvizad_set_gap(uint32_t *table, size_t table_words, uint32_t gap, uint32_t *values,
                           size_t values_words);

/*
 * The step that releases a set, on a table and a ledger of any length and content. `messages` has the
 * numbers of its messages, `message_count` of them, any number; it is only read. Returns
 * GOULVIZAD_SET_RELEASED; GOULVIZAD_SET_HELD; GOULVIZAD_REFUSED, by GOULVIZAD_LENGTH, GOULVIZAD_FORM,
 * GOULVIZAD_LEDGER, GOULVIZAD_MESSAGE, GOULVIZAD_SAME_CONTROLLER, GOULVIZAD_STATE, GOULVIZAD_SENDERS or
 * GOULVIZAD_LEDGER_USED_UP, the first of these that applies; or GOULVIZAD_WRONG_VALUES.
 */
uint32_t goulvizad_release_set(uint32_t *table, size_t table_words, uint32_t *ledger,
                               size_t ledger_words, const uint32_t *messages, size_t message_count,
                               uint32_t *values, size_t values_words);

/*
 * The step that chooses the next delivery and does it, on a table of any length and content. Returns
 * GOULVIZAD_DELIVERED or GOULVIZAD_DROPPED, with the values that 'D' gives for that message;
 * GOULVIZAD_IDLE; GOULVIZAD_REFUSED, by GOULVIZAD_LENGTH or GOULVIZAD_FORM, and for nothing else; or
 * GOULVIZAD_WRONG_VALUES.
 */
uint32_t goulvizad_dispatch(uint32_t *table, size_t table_words, uint32_t *values,
                            size_t values_words);

#ifdef __cplusplus
}
#endif

#endif
