/*
 * The two figures of include/mellansko.h, held to the calls: what has as many bytes is accepted,
 * and with one more it is refused. The long slices are zeros from calloc, of which little is looked
 * at and less is written, so that they take up little memory. That a refusal leaves all of them as
 * they were is tested in Rust.
 */
#include <stdlib.h>

#include "held.h"

static const size_t most = MELLANSKO_LONGEST_LOG, longest = MELLANSKO_LONGEST_RECORD;

/* One byte more than is accepted. */
static uint8_t *bytes, *fresh;
static uint8_t record[MELLANSKO_LONGEST_RECORD + 1], buffer[MELLANSKO_LONGEST_RECORD + 1];

#define CALL(call, ...) (unwritten(), answered(__LINE__, call, ANSWER(__VA_ARGS__)))
#define APPEND(log_len, mark, length, ...)                                                \
    CALL(mellansko_append(bytes, log_len, mark, record, length, &lent_answer.answer), \
         __VA_ARGS__)
#define NEXT(log_len, place, limit, buffer_len, ...)                          \
    CALL(mellansko_next(bytes, log_len, place, limit, buffer, buffer_len, \
                        &lent_answer.answer),                             \
         __VA_ARGS__)
#define MEND(bad_len, fresh_len, limit, buffer_len, ...)                               \
    CALL(mellansko_mend(bytes, bad_len, fresh, fresh_len, limit, buffer, buffer_len, \
                        &lent_answer.answer),                                        \
         __VA_ARGS__)

/* Each condition with all of a higher number, and as few as there can be. */
static void appends(void)
{
    const uint64_t refused = MELLANSKO_APPEND_REFUSED;
    APPEND(most + 1, most + 2, longest + 1, refused, MELLANSKO_LOG_TOO_LONG, most + 2);
    APPEND(most + 1, 0, 0, refused, MELLANSKO_LOG_TOO_LONG, 0);
    APPEND(most, most + 1, longest + 1, refused, MELLANSKO_OUTSIDE, most + 1);
    APPEND(most, most, longest + 1, refused, MELLANSKO_RECORD_TOO_LONG, most);
    APPEND(most, 5, longest + 1, refused, MELLANSKO_RECORD_TOO_LONG, 5);
    APPEND(most, most, longest, refused, MELLANSKO_NO_ROOM, most);
    APPEND(most, most - HEADER, 1, refused, MELLANSKO_NO_ROOM, most - HEADER);
    APPEND(most, most - HEADER, 0, MELLANSKO_ACCEPTED, most);
}

static void readings(void)
{
    const uint64_t refused = MELLANSKO_NEXT_REFUSED;
    NEXT(most + 1, most + 2, longest + 1, 0, refused, MELLANSKO_LOG_TOO_LONG, most + 2);
    NEXT(most + 1, 0, 0, 0, refused, MELLANSKO_LOG_TOO_LONG, 0);
    NEXT(most, most + 1, longest + 1, 0, refused, MELLANSKO_OUTSIDE, most + 1);
    NEXT(most, most, longest + 1, longest + 1, refused, MELLANSKO_LIMIT_TOO_HIGH, most);
    NEXT(20, 5, longest + 1, longest + 1, refused, MELLANSKO_LIMIT_TOO_HIGH, 5);
    NEXT(20, 5, longest, longest - 1, refused, MELLANSKO_BUFFER_TOO_SHORT, 5);
    NEXT(most, most, longest, longest, MELLANSKO_END, MELLANSKO_CLEAN, 0, 0, 0, 0, most);
    NEXT(most, most - HEADER, longest, longest, MELLANSKO_RECORD, most - HEADER, most, 0,
         MELLANSKO_WHOLE, most, most, 1, most - HEADER);
}

/* A record that fills its log, and comes back. */
static void longest_record(void)
{
    const size_t data = MELLANSKO_BLOCK - HEADER, fragments = (longest + data - 1) / data;
    const size_t end = longest + HEADER * fragments, last = (fragments - 1) * MELLANSKO_BLOCK;
    size_t i;
    for (i = 0; i < longest; i++)
        record[i] = (uint8_t)(i % 251);
    APPEND(end - 1, 0, longest, MELLANSKO_APPEND_REFUSED, MELLANSKO_NO_ROOM, 0);
    APPEND(end, 0, longest, MELLANSKO_ACCEPTED, end);
    NEXT(end, 0, longest, longest, MELLANSKO_RECORD, 0, end, longest, MELLANSKO_GATHERED, 0, end,
         fragments, last);
    holds(__LINE__, "the record", memcmp(buffer, record, longest) == 0);
    memset(bytes, 0, end);
}

/* A feed of which all but the last block has been read, and a piece that would pass the end. */
static void feeds(void)
{
    const size_t before = most - MELLANSKO_BLOCK;
    static struct mellansko_feed feed;
    static uint8_t block[MELLANSKO_BLOCK];
    struct mellansko_answer *answer = &lent_answer.answer;
    CALL(mellansko_feed_begin(longest + 1, &feed, answer), MELLANSKO_BEGIN_REFUSED,
         MELLANSKO_LIMIT_TOO_HIGH);
    CALL(mellansko_feed_begin(longest, &feed, answer), MELLANSKO_BEGUN);
    CALL(mellansko_feed_take(&feed, block, bytes, most + 1, answer), MELLANSKO_TAKE_REFUSED,
         MELLANSKO_LOG_TOO_LONG);
    CALL(mellansko_feed_take(&feed, block, bytes, most, answer), MELLANSKO_TAKEN, MELLANSKO_BLOCK);
    feed.place = feed.came = before;
    CALL(mellansko_feed_take(&feed, block, bytes, MELLANSKO_BLOCK + 1, answer),
         MELLANSKO_TAKE_REFUSED, MELLANSKO_LOG_TOO_LONG);
    CALL(mellansko_feed_take(&feed, block, bytes, MELLANSKO_BLOCK, answer), MELLANSKO_TAKEN,
         MELLANSKO_BLOCK);
    CALL(mellansko_feed_next(&feed, block, buffer, longest - 1, answer), MELLANSKO_NEXT_REFUSED,
         MELLANSKO_BUFFER_TOO_SHORT);
    CALL(mellansko_feed_next(&feed, block, buffer, longest, answer), MELLANSKO_SKIP, before, most,
         MELLANSKO_BLANK, 0, 0, most);
    CALL(mellansko_feed_take(&feed, block, bytes, 1, answer), MELLANSKO_TAKE_REFUSED,
         MELLANSKO_LOG_TOO_LONG);
}

static void mendings(void)
{
    const uint64_t refused = MELLANSKO_MEND_REFUSED;
    MEND(most + 1, 0, longest + 1, 0, refused, MELLANSKO_LOG_TOO_LONG);
    MEND(54, most + 1, longest + 1, 0, refused, MELLANSKO_LOG_TOO_LONG);
    MEND(54, most + 1, longest, longest, refused, MELLANSKO_LOG_TOO_LONG);
    MEND(most + 1, most, longest, longest, refused, MELLANSKO_LOG_TOO_LONG);
    MEND(most, most, longest + 1, longest + 1, refused, MELLANSKO_LIMIT_TOO_HIGH);
    MEND(most, most, longest, longest - 1, refused, MELLANSKO_BUFFER_TOO_SHORT);
    memset(bytes + most - HEADER, 0, HEADER);
    MEND(most, most, longest, longest, MELLANSKO_MENDED, 0, most);
}

int main(void)
{
    bytes = calloc(most + 1, 1);
    fresh = calloc(most + 1, 1);
    if (bytes == NULL || fresh == NULL) {
        printf("no memory for two logs\n");
        return 1;
    }
    appends();
    readings();
    longest_record();
    feeds();
    mendings();
    free(bytes);
    free(fresh);
    return failures != 0;
}
