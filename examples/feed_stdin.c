/*
 * Reads a journal from standard input as it comes, over a slow line say, and prints what is in it,
 * each line as soon as nothing that may still come can change it: each record's range, length and
 * how it was stored, each range in doubt and why, each that is skipped without a loss, and how it
 * ends.
 *
 *   cc -std=c99 -Iinclude examples/feed_stdin.c crates/mellansko/out/libmellansko.a \
 *     -o feed_stdin &&
 *   ./feed_stdin <samples/damaged.log
 *
 * It holds one block and one record in memory, however long the journal is.
 *
 * The exit status is 0 if no damage was found, 1 if something is in doubt, 2 if standard input
 * could not be read to its end, or the lines not be printed.
 */
#define _POSIX_C_SOURCE 200809L
#include <errno.h>
#include <inttypes.h>
#include <stdio.h>
#include <string.h>
#include <unistd.h>

#include "mellansko.h"

/* The exit status: the worst that was found so far. */
enum { NO_DAMAGE = 0, IN_DOUBT = 1, NOT_READ = 2 };
static int status = NO_DAMAGE;

static struct mellansko_feed feed;
static uint8_t block[MELLANSKO_BLOCK];
static uint8_t buffer[MELLANSKO_LONGEST_RECORD];

static void fail(const char *why)
{
    fprintf(stderr, "standard input: %s\n", why);
    status = NOT_READ;
}

static void doubt(void)
{
    if (status == NO_DAMAGE)
        status = IN_DOUBT;
}

/* Prints the answers that are certain. */
static void print_certain(void)
{
    struct mellansko_answer answer;
    int loss;
    for (;;) {
        switch (mellansko_feed_next(&feed, block, buffer, sizeof buffer, &answer)) {
        case MELLANSKO_RECORD: /* its bytes are the buffer's first */
            printf("record %" PRIu64 " to %" PRIu64 ": %" PRIu64 " bytes; fragments: %" PRIu64
                   ", last at %" PRIu64 "\n",
                   answer.record.start, answer.record.end, answer.record.length,
                   answer.record.fragments, answer.record.last_header);
            break;
        case MELLANSKO_SKIP:
            loss = mellansko_reason_is_loss(answer.skip.reason);
            printf("%s %" PRIu64 " to %" PRIu64 ": %s\n", loss ? "in doubt" : "skipped",
                   answer.skip.start, answer.skip.end, mellansko_reason_text(answer.skip.reason));
            if (loss)
                doubt();
            break;
        case MELLANSKO_END:
            if (answer.end.tail == MELLANSKO_CLEAN) {
                printf("clean end at %" PRIu64 "\n", feed.came);
            } else {
                printf("torn from %" PRIu64 " to %" PRIu64 "\n", answer.end.start, feed.came);
                doubt();
            }
            return;
        case MELLANSKO_NOT_YET:
            return;
        default: /* MELLANSKO_NEXT_REFUSED: of no feed that the calls made */
            fail(mellansko_refusal_text(answer.refused.number));
            return;
        }
    }
}

/* Feeds all of a piece, and prints what is then certain. */
static void feed_piece(const uint8_t *piece, size_t length)
{
    struct mellansko_answer answer;
    while (length > 0 && status != NOT_READ) {
        if (mellansko_feed_take(&feed, block, piece, length, &answer) != MELLANSKO_TAKEN) {
            fail(mellansko_refusal_text(answer.refused.number));
            return;
        }
        /* There may have been room for a part only. Once answers are drawn, there is for more. */
        piece += answer.taken.length;
        length -= (size_t)answer.taken.length;
        print_certain();
    }
}

/* Feeds what comes, up to its end. */
static void feed_all(void)
{
    static uint8_t piece[4096];
    while (status != NOT_READ && !feed.over) {
        /* It waits for some bytes, and not for as many as there is room for. */
        ssize_t length = read(STDIN_FILENO, piece, sizeof piece);
        if (length > 0) {
            feed_piece(piece, (size_t)length);
        } else if (length == 0) {
            mellansko_feed_end(&feed);
            print_certain();
        } else if (errno != EINTR) {
            fail(strerror(errno));
        }
        /* What is certain is to be seen before more comes. */
        if (fflush(stdout) != 0)
            fail("what it holds could not be printed");
    }
}

int main(void)
{
    struct mellansko_answer answer;
    if (mellansko_feed_begin(sizeof buffer, &feed, &answer) != MELLANSKO_BEGUN)
        fail(mellansko_refusal_text(answer.refused.number));
    feed_all();
    return status;
}
