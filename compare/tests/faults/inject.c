/*
 * For LD_PRELOAD: faults in a program's reads from descriptor 0 and its writes to descriptor 1.
 *
 * FAULTS has words, a space between them; the first word that fits a call counts for it:
 *   r3=EIO   the third read fails with this error and reads nothing
 *   w2:7     the second write is made with at most 7 bytes
 *   r:1      every read is made with at most 1 byte
 * A word that can't be understood changes nothing.
 *
 * FAULTS_LOG names a file, which gets a line for each such call: its name, how many bytes were
 * asked for, the answer (how many bytes, or an error), and the word that was carried out, or "-".
 */
#define _GNU_SOURCE
#include <errno.h>
#include <stdio.h>
#include <stdlib.h>
#include <string.h>
#include <sys/syscall.h>
#include <unistd.h>

#define WORD 32

static const struct error {
    const char *name;
    int number;
} errors[] = {
    {"EAGAIN", EAGAIN}, {"EINTR", EINTR}, {"EIO", EIO},
    {"ENOSPC", ENOSPC}, {"EPIPE", EPIPE}, {"another", 0},
};

/* The error with this name or number, or the last one. */
static const struct error *find(const char *name, int number)
{
    const struct error *error = errors;

    while (error->number && error->number != number && strcmp(error->name, name) != 0)
        error++;
    return error;
}

/* Puts the first word that fits this call where `word` points, or "-". Returns what it asks for. */
static const char *planned(char letter, int call, char *word)
{
    const char *plan = getenv("FAULTS");
    size_t length;

    for (; plan && *plan; plan += length + strspn(plan + length, " ")) {
        char *asked;
        long number = strtol(plan + 1, &asked, 10);

        length = strcspn(plan, " ");
        if (*plan != letter || length < 2 || WORD <= length)
            continue;
        if (number == call || asked == plan + 1) {
            memcpy(word, plan, length);
            word[length] = '\0';
            return word + (asked - plan);
        }
    }
    strcpy(word, "-");
    return "";
}

/* A line of the log. A program of which nobody would know what was injected is not to go on. */
static void report(char letter, int call, size_t asked, ssize_t answer, const char *word)
{
    int kept = errno;
    const char *path = getenv("FAULTS_LOG");
    FILE *log = path ? fopen(path, "a") : NULL;

    if (!log)
        abort();
    fprintf(log, "%c%d %zu ", letter, call, asked);
    if (answer < 0)
        fprintf(log, "%s %s\n", find("", kept)->name, word);
    else
        fprintf(log, "%zd %s\n", answer, word);
    fclose(log);
    errno = kept;
}

/* One call, as planned. A cut counts as carried out where the call took all that it left. */
static ssize_t call(int descriptor, void *bytes, size_t asked)
{
    static int calls[2];
    int kept = errno;
    char letter = "rw"[descriptor], word[WORD];
    const char *plan = planned(letter, ++calls[descriptor], word);
    int error = *plan == '=' ? find(plan + 1, 0)->number : 0;
    size_t most = *plan == ':' ? strtoul(plan + 1, NULL, 10) : asked;
    ssize_t answer = -1;

    errno = error ? error : kept;
    if (!error) {
        answer = syscall(descriptor == STDIN_FILENO ? SYS_read : SYS_write, descriptor, bytes,
                         most < asked ? most : asked);
        if (most >= asked || answer != (ssize_t)most)
            strcpy(word, "-");
    }
    report(letter, calls[descriptor], asked, answer, word);
    return answer;
}

ssize_t read(int descriptor, void *bytes, size_t asked)
{
    return descriptor == STDIN_FILENO ? call(descriptor, bytes, asked)
                                      : syscall(SYS_read, descriptor, bytes, asked);
}

ssize_t write(int descriptor, const void *bytes, size_t asked)
{
    return descriptor == STDOUT_FILENO ? call(descriptor, (void *)bytes, asked)
                                       : syscall(SYS_write, descriptor, bytes, asked);
}
