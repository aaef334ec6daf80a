/*
 * Reads a journal from a file, and prints what is in it: each record's range, length and how it was
 * stored, each range in doubt and why, each that is skipped without a loss, and how it ends.
 *
 *   cc -std=c99 -Iinclude examples/read_file.c crates/mellansko/out/libmellansko.a \
 *     -o read_file &&
 *   ./read_file samples/damaged.log
 *
 * It holds all of the file in memory, and a record. examples/feed_stdin.c prints the same of a
 * journal on standard input, a file or a pipe, and holds a block and a record.
 *
 * The exit status is 0 if no damage was found, 1 if something is in doubt, 2 if the file could not
 * be read, or the lines not be printed.
 */
#define _POSIX_C_SOURCE 200809L
#include <errno.h>
#include <inttypes.h>
#include <stdio.h>
#include <stdlib.h>
#include <string.h>
#include <sys/stat.h>

#include "mellansko.h"

/* The exit status. */
enum { NO_DAMAGE = 0, IN_DOUBT = 1, NOT_READ = 2 };

static uint8_t buffer[MELLANSKO_LONGEST_RECORD];

static uint8_t *fail(const char *name, const char *why)
{
    fprintf(stderr, "%s: could not be read: %s\n", name, why);
    return NULL;
}

/* Reads the file into memory, to be freed; gives NULL if it could not. */
static uint8_t *read_all(FILE *file, const char *name, size_t *length)
{
    struct stat about;
    uint8_t *bytes;
    if (fstat(fileno(file), &about) != 0)
        return fail(name, strerror(errno));
    if (!S_ISREG(about.st_mode))
        return fail(name, "it is not a plain file, and only such a one has a length");
    if (about.st_size > MELLANSKO_LONGEST_LOG)
        return fail(name, mellansko_refusal_text(MELLANSKO_LOG_TOO_LONG));
    *length = (size_t)about.st_size;
    bytes = malloc(*length + 1);
    if (bytes == NULL)
        return fail(name, strerror(errno));
    /* One byte more is asked for: by it a file that has grown meanwhile shows. */
    if (fread(bytes, 1, *length + 1, file) == *length && !ferror(file))
        return bytes;
    fail(name, ferror(file) ? strerror(errno) : "its length and its bytes differ");
    free(bytes);
    return NULL;
}

static uint8_t *read_file(const char *name, size_t *length)
{
    FILE *file = fopen(name, "rb");
    uint8_t *bytes;
    if (file == NULL)
        return fail(name, strerror(errno));
    bytes = read_all(file, name, length);
    fclose(file); /* it was only read: nothing is lost if this fails */
    return bytes;
}

/* Prints each answer, up to the end, and gives the status. */
static int print_log(const char *name, const uint8_t *bytes, size_t length)
{
    struct mellansko_answer answer;
    int loss, status = NO_DAMAGE;
    size_t place = 0;
    for (;;) {
        switch (mellansko_next(bytes, length, place, sizeof buffer, buffer, sizeof buffer,
                               &answer)) {
        case MELLANSKO_RECORD:
            printf("record %" PRIu64 " to %" PRIu64 ": %" PRIu64 " bytes; fragments: %" PRIu64
                   ", last at %" PRIu64 "\n",
                   answer.record.start, answer.record.end, answer.record.length,
                   answer.record.fragments, answer.record.last_header);
            break;
        case MELLANSKO_SKIP:
            loss = mellansko_reason_is_loss(answer.skip.reason);
            printf("%s %" PRIu64 " to %" PRIu64 ": %s\n", loss ? "in doubt" : "skipped",
                   answer.skip.start, answer.skip.end, mellansko_reason_text(answer.skip.reason));
            if (loss)
                status = IN_DOUBT;
            break;
        case MELLANSKO_END:
            if (answer.end.tail == MELLANSKO_CLEAN) {
                printf("clean end at %zu\n", length);
                return status;
            }
            printf("torn from %" PRIu64 " to %zu\n", answer.end.start, length);
            return IN_DOUBT;
        default: /* MELLANSKO_NEXT_REFUSED: of no call that is made here */
            fail(name, mellansko_refusal_text(answer.refused.number));
            return NOT_READ;
        }
        place = answer.place;
    }
}

int main(int count, char **words)
{
    uint8_t *bytes;
    size_t length;
    int status;
    if (count != 2) {
        fprintf(stderr, "usage: read_file FILE\n");
        return NOT_READ;
    }
    bytes = read_file(words[1], &length);
    if (bytes == NULL)
        return NOT_READ;
    status = print_log(words[1], bytes, length);
    free(bytes);
    if (fflush(stdout) != 0 || ferror(stdout)) {
        fprintf(stderr, "could not be printed\n");
        return NOT_READ;
    }
    return status;
}
