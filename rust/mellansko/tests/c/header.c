/* What include/mellansko.h says, held to what the calls do; its two figures are in figures.c. */
#include "held.h"

/* Room for a record that lies in several blocks. All of it is compared at every call. */
#define LOG 100000
#define RECORD 40000

/* What is lent, and as it was before the call. Each slice starts at an odd place: it may. */
struct lent {
    uint8_t before_log;
    uint8_t log[LOG];
    uint8_t before_record;
    uint8_t record[RECORD];
    uint8_t before_buffer;
    uint8_t buffer[RECORD];
    uint8_t before_block;
    uint8_t block[MELLANSKO_BLOCK];
    uint8_t before_fresh;
    uint8_t fresh[LOG];
};
static struct lent now, before;

/* A feed and more words after it, which no call writes. */
static struct {
    struct mellansko_feed feed;
    uint64_t after[8];
} lent_feed;

#define CHECK(claim) holds(__LINE__, #claim, claim)

static void prepare(void)
{
    memcpy(&before, &now, sizeof now);
    unwritten();
}

/* Nothing that is lent has changed but these bytes, which are put back to see it. */
static void changed_only(int line, uint8_t *bytes, size_t length)
{
    static uint8_t changed[LOG];
    const uint8_t *old = (uint8_t *)&before + (bytes - (uint8_t *)&now);
    memcpy(changed, bytes, length);
    memcpy(bytes, old, length);
    holds(line, "bytes that are left as they were", memcmp(&now, &before, sizeof now) == 0);
    memcpy(bytes, changed, length);
}

static void append(int line, size_t log_len, size_t mark, size_t length, const uint64_t *expected)
{
    int accepted = expected[0] == MELLANSKO_ACCEPTED && expected[1] > mark;
    uint64_t kind;
    prepare();
    kind = mellansko_append(now.log, log_len, mark, now.record, length, &lent_answer.answer);
    answered(line, kind, expected);
    if (accepted)
        changed_only(line, now.log + mark, (size_t)expected[1] - mark);
    else
        changed_only(line, now.log, 0);
}

static void next(int line, size_t log_len, size_t place, size_t limit, size_t buffer_len,
                 const uint64_t *expected)
{
    int handed_out = expected[0] == MELLANSKO_RECORD;
    int gathered = handed_out && expected[4] == MELLANSKO_GATHERED;
    const uint8_t *bytes = gathered ? now.buffer : now.log + expected[5];
    uint64_t kind;
    prepare();
    kind = mellansko_next(now.log, log_len, place, limit, now.buffer, buffer_len,
                          &lent_answer.answer);
    answered(line, kind, expected);
    changed_only(line, now.buffer, gathered ? (size_t)expected[3] : 0);
    if (handed_out)
        holds(line, "a record's bytes", memcmp(bytes, now.record, (size_t)expected[3]) == 0);
}

/* A feed with this limit, over words that are all ones. */
static void begin(int line, size_t limit, const uint64_t *expected)
{
    uint64_t kind;
    memset(&lent_feed, 0xFF, sizeof lent_feed);
    prepare();
    kind = mellansko_feed_begin(limit, &lent_feed.feed, &lent_answer.answer);
    answered(line, kind, expected);
    changed_only(line, now.log, 0);
}

/* The feed has these words, and what lies after it is as it was. */
static void fed(int line, const uint64_t *expected)
{
    uint64_t words[10];
    size_t i;
    memcpy(words, &lent_feed.feed, sizeof words);
    for (i = 0; i < 10; i++)
        holds(line, "the feed", words[i] == expected[i]);
    for (i = 0; i < sizeof lent_feed.after / sizeof *lent_feed.after; i++)
        holds(line, "what lies after the feed", lent_feed.after[i] == UINT64_MAX);
}

/* Takes a piece of the log's bytes from a place on. */
static void take(int line, size_t place, size_t length, const uint64_t *expected)
{
    size_t came = (size_t)lent_feed.feed.came % MELLANSKO_BLOCK;
    size_t taken = expected[0] == MELLANSKO_TAKEN ? (size_t)expected[1] : 0;
    uint64_t kind;
    prepare();
    kind = mellansko_feed_take(&lent_feed.feed, now.block, now.log + place, length,
                               &lent_answer.answer);
    answered(line, kind, expected);
    changed_only(line, now.block + came, taken);
    holds(line, "the piece", memcmp(now.block + came, now.log + place, taken) == 0);
}

/* The next answer, which writes so many bytes of the buffer from a place on. */
static void feed_next(int line, size_t buffer_len, size_t place, size_t written,
                      const uint64_t *expected)
{
    uint64_t kind;
    prepare();
    kind = mellansko_feed_next(&lent_feed.feed, now.block, now.buffer, buffer_len,
                               &lent_answer.answer);
    answered(line, kind, expected);
    changed_only(line, now.buffer + place, written);
}

/* How long the last record is in each mended log here: one that was gathered. */
#define LAST_MENDED 3

/* Mends the log's first bytes, to those that are given. */
static void mend(int line, size_t bad_len, size_t fresh_len, size_t limit, size_t buffer_len,
                 const uint8_t *mended, const uint64_t *expected)
{
    size_t length = expected[0] == MELLANSKO_MENDED ? (size_t)expected[1] : 0;
    size_t gathered = length > 0 ? LAST_MENDED : 0;
    uint64_t kind;
    prepare();
    kind = mellansko_mend(now.log, bad_len, now.fresh, fresh_len, limit, now.buffer, buffer_len,
                          &lent_answer.answer);
    answered(line, kind, expected);
    holds(line, "the mended log", memcmp(now.fresh, mended, length) == 0);
    holds(line, "the buffer", memcmp(now.buffer, now.record, gathered) == 0);
    memcpy(now.fresh, before.fresh, length);
    changed_only(line, now.buffer, gathered);
}

#define APPEND(log_len, mark, length, ...) \
    append(__LINE__, log_len, mark, length, ANSWER(__VA_ARGS__))
#define NEXT(log_len, place, limit, buffer_len, ...) \
    next(__LINE__, log_len, place, limit, buffer_len, ANSWER(__VA_ARGS__))
#define BEGIN(limit, ...) begin(__LINE__, limit, ANSWER(__VA_ARGS__))
#define FEED(...) fed(__LINE__, ANSWER(__VA_ARGS__))
#define TAKE(place, length, ...) take(__LINE__, place, length, ANSWER(__VA_ARGS__))
#define FEED_NEXT(buffer_len, place, written, ...) \
    feed_next(__LINE__, buffer_len, place, written, ANSWER(__VA_ARGS__))
#define MEND(bad_len, fresh_len, limit, buffer_len, mended, ...) \
    mend(__LINE__, bad_len, fresh_len, limit, buffer_len, mended, ANSWER(__VA_ARGS__))
#define MEND_REFUSED(bad_len, fresh_len, limit, buffer_len, number) \
    MEND(bad_len, fresh_len, limit, buffer_len, now.log, MELLANSKO_MEND_REFUSED, number)

/* A fragment of the record's first bytes, fewer than 256. */
static void put(size_t place, uint8_t type, size_t data_len)
{
    const uint8_t *data = now.record;
    uint32_t sum = mellansko_crc32c(0, &type, 1);
    uint32_t stored = mellansko_mask(mellansko_crc32c(sum, data, data_len));
    size_t i;
    for (i = 0; i < 4; i++)
        now.log[place + i] = (uint8_t)(stored >> (8 * i));
    now.log[place + 4] = (uint8_t)data_len;
    now.log[place + 5] = 0;
    now.log[place + 6] = type;
    memcpy(now.log + place + HEADER, data, data_len);
}

/* Exactly these types, or it does not compile: a call alone would convert to others. */
uint32_t mellansko_crc32c(uint32_t, const uint8_t *, size_t);
uint32_t mellansko_mask(uint32_t);

static void checksums(void)
{
    const uint8_t digits[] = "123456789";
    const uint32_t first = mellansko_crc32c(0, digits, 4);
    CHECK(mellansko_crc32c(0, digits, 9) == 0xE3069283);
    CHECK(first == 0xF63AF4EE);
    CHECK(mellansko_crc32c(first, digits + 4, 5) == 0xE3069283);
    CHECK(mellansko_crc32c(0, digits, 0) == 0);
    CHECK(mellansko_crc32c(1, digits, 0) == 1);
    CHECK(mellansko_crc32c(first, digits + 4, 0) == first);
    CHECK(mellansko_crc32c(0x80000000, digits, 0) == 0x80000000);
    CHECK(mellansko_crc32c(UINT32_MAX, digits, 0) == UINT32_MAX);
    CHECK(mellansko_mask(1) == 0xA284EAD8);
}

/* Which word a name stands for: what the calls write there, the expected answers below say. */
#define WORD(name, number)                                         \
    CHECK(offsetof(struct mellansko_answer, name) == 8 * number && \
          sizeof ((struct mellansko_answer *)0)->name == 8)

static void names(void)
{
    CHECK(sizeof(struct mellansko_answer) == 80);
    WORD(words[9], 9);
    WORD(kind, 0);
    WORD(place, 6);
    WORD(accepted.kind, 0);
    WORD(accepted.mark, 1);
    WORD(taken.kind, 0);
    WORD(taken.length, 1);
    WORD(mended.kind, 0);
    WORD(mended.length, 1);
    WORD(mended.skipped, 2);
    WORD(record.kind, 0);
    WORD(record.start, 1);
    WORD(record.end, 2);
    WORD(record.length, 3);
    WORD(record.stored, 4);
    WORD(record.data, 5);
    WORD(record.place, 6);
    WORD(record.fragments, 7);
    WORD(record.last_header, 8);
    WORD(skip.kind, 0);
    WORD(skip.start, 1);
    WORD(skip.end, 2);
    WORD(skip.reason, 3);
    WORD(skip.place, 6);
    WORD(end.kind, 0);
    WORD(end.tail, 1);
    WORD(end.start, 2);
    WORD(end.place, 6);
    WORD(refused.kind, 0);
    WORD(refused.number, 1);
    WORD(refused.given, 2);
}

static void sizes(void)
{
    const size_t all = RECORD, end = RECORD + 2 * HEADER;
    APPEND(LOG, 0, all, MELLANSKO_ACCEPTED, end);
    NEXT(LOG, 0, all, all, MELLANSKO_RECORD, 0, end, all, MELLANSKO_GATHERED, 0, end, 2,
         MELLANSKO_BLOCK);
    APPEND(LOG, 0, MELLANSKO_BLOCK - HEADER, MELLANSKO_ACCEPTED, MELLANSKO_BLOCK);
    APPEND(LOG, 0, MELLANSKO_BLOCK - HEADER + 1, MELLANSKO_ACCEPTED, MELLANSKO_BLOCK + HEADER + 1);
    APPEND(LOG, MELLANSKO_BLOCK - 6, 3, MELLANSKO_ACCEPTED, MELLANSKO_BLOCK + HEADER + 3);
}

/* Each condition alone or with all of a higher number, and its neighbour that is accepted. */
static void refused_appends(void)
{
    APPEND(LOG, LOG + 1, 0, MELLANSKO_APPEND_REFUSED, MELLANSKO_OUTSIDE, LOG + 1);
    APPEND(LOG, LOG, 0, MELLANSKO_APPEND_REFUSED, MELLANSKO_NO_ROOM, LOG);
    APPEND(20, 10, 4, MELLANSKO_APPEND_REFUSED, MELLANSKO_NO_ROOM, 10);
    APPEND(20, 10, 3, MELLANSKO_ACCEPTED, 20);
}

static void refused_readings(void)
{
    const size_t too_high = MELLANSKO_LONGEST_RECORD + 1;
    NEXT(20, 21, too_high, 0, MELLANSKO_NEXT_REFUSED, MELLANSKO_OUTSIDE, 21);
    NEXT(20, 20, too_high, 0, MELLANSKO_NEXT_REFUSED, MELLANSKO_LIMIT_TOO_HIGH, 20);
    NEXT(20, 5, 9, 8, MELLANSKO_NEXT_REFUSED, MELLANSKO_BUFFER_TOO_SHORT, 5);
    NEXT(20, 20, 9, 9, MELLANSKO_END, MELLANSKO_CLEAN, 0, 0, 0, 0, 20);
}

static void answers(void)
{
    /* Types: 1 is all of a record, 2 its first part, 3 one between, 4 its last. */
    put(10, 1, 3);
    NEXT(20, 10, 3, 3, MELLANSKO_RECORD, 10, 20, 3, MELLANSKO_WHOLE, 17, 20, 1, 10);
    NEXT(20, 10, 2, 2, MELLANSKO_SKIP, 10, 20, MELLANSKO_OVER_LIMIT, 0, 0, 20);
    NEXT(20, 20, 3, 3, MELLANSKO_END, MELLANSKO_CLEAN, 0, 0, 0, 0, 20);
    NEXT(19, 10, 3, 3, MELLANSKO_END, MELLANSKO_TORN, 10, 0, 0, 0, 10);
    now.log[18] ^= 1;
    NEXT(50, 10, 3, 3, MELLANSKO_SKIP, 10, 50, MELLANSKO_CHECKSUM, 0, 0, 50);
    now.log[15] = 0x80;
    NEXT(50, 10, 3, 3, MELLANSKO_SKIP, 10, 50, MELLANSKO_BAD_LENGTH, 0, 0, 50);
    memset(now.log + 10, 0, 7);
    NEXT(50, 10, 3, 3, MELLANSKO_SKIP, 10, 50, MELLANSKO_BLANK, 0, 0, 50);
    put(10, 4, 3);
    NEXT(50, 10, 3, 3, MELLANSKO_SKIP, 10, 20, MELLANSKO_ORPHAN, 0, 0, 20);
    put(10, 5, 3);
    NEXT(50, 10, 3, 3, MELLANSKO_SKIP, 10, 20, MELLANSKO_UNKNOWN_TYPE, 0, 0, 20);
    put(10, 2, 3);
    put(20, 1, 3);
    NEXT(50, 10, 3, 3, MELLANSKO_SKIP, 10, 20, MELLANSKO_INTERRUPTED, 0, 0, 20);
    put(20, 4, 0);
    NEXT(50, 10, 5, 5, MELLANSKO_RECORD, 10, 27, 3, MELLANSKO_GATHERED, 0, 27, 2, 20);
    put(20, 3, 0);
    put(27, 4, 0);
    NEXT(50, 10, 5, 5, MELLANSKO_RECORD, 10, 34, 3, MELLANSKO_GATHERED, 0, 34, 3, 27);
}

/* A record that has no bytes yet, what it is begun afresh with, and what interrupts it. */
static void empty_starts(void)
{
    put(10, 2, 0);
    put(17, 1, 3);
    NEXT(50, 10, 3, 3, MELLANSKO_SKIP, 10, 17, MELLANSKO_EMPTY_START, 0, 0, 17);
    NEXT(50, 10, 2, 2, MELLANSKO_SKIP, 10, 17, MELLANSKO_EMPTY_START, 0, 0, 17);
    put(17, 2, 3);
    NEXT(50, 10, 3, 3, MELLANSKO_SKIP, 10, 17, MELLANSKO_EMPTY_START, 0, 0, 17);
    put(17, 3, 0);
    put(24, 1, 0);
    NEXT(50, 10, 3, 3, MELLANSKO_SKIP, 10, 24, MELLANSKO_EMPTY_START, 0, 0, 24);
    put(17, 5, 3);
    NEXT(50, 10, 3, 3, MELLANSKO_SKIP, 10, 17, MELLANSKO_INTERRUPTED, 0, 0, 17);
    memset(now.log + 17, 0, 7);
    NEXT(50, 10, 3, 3, MELLANSKO_SKIP, 10, 17, MELLANSKO_INTERRUPTED, 0, 0, 17);
    put(17, 1, 3);
    NEXT(26, 10, 3, 3, MELLANSKO_END, MELLANSKO_TORN, 10, 0, 0, 0, 10);
}

/* A trailer of six bytes after a record, and after one that is begun. */
static void dirty_trailers(void)
{
    const size_t block = MELLANSKO_BLOCK, start = block - 6, log = block + HEADER + 3;
    put(start - HEADER, 1, 0);
    memset(now.log + start, 0, 6);
    put(block, 1, 3);
    NEXT(log, start, 3, 3, MELLANSKO_RECORD, block, log, 3, MELLANSKO_WHOLE, block + HEADER, log, 1,
         block);
    now.log[block - 4] = 1;
    NEXT(log, start, 3, 3, MELLANSKO_SKIP, start, block, MELLANSKO_DIRTY_TRAILER, 0, 0, block);
    NEXT(block - 3, start, 3, 3, MELLANSKO_SKIP, start, block - 3, MELLANSKO_DIRTY_TRAILER, 0, 0,
         block - 3);
    NEXT(block - 4, start, 3, 3, MELLANSKO_END, MELLANSKO_CLEAN, 0, 0, 0, 0, block - 4);
    NEXT(log, block - 3, 3, 3, MELLANSKO_RECORD, block, log, 3, MELLANSKO_WHOLE, block + HEADER,
         log, 1, block);
    put(start - HEADER, 2, 0);
    NEXT(log, start - HEADER, 3, 3, MELLANSKO_SKIP, start - HEADER, start, MELLANSKO_INTERRUPTED, 0,
         0, start);
}

/* Which word of a feed a name stands for, by a feed whose words are their own numbers. */
static void feed_names(void)
{
    const uint64_t words[10] = {0, 1, 2, 3, 4, 5, 6, 7, 8, 9};
    struct mellansko_feed feed;
    CHECK(sizeof feed == sizeof words);
    memcpy(&feed, words, sizeof feed);
    CHECK(feed.limit == 0 && feed.place == 1 && feed.came == 2 && feed.over == 3);
    CHECK(feed.opened == 4 && feed.start == 5 && feed.length == 6 && feed.bad == 7);
    CHECK(feed.fragments == 8 && feed.last_header == 9);
}

/* A record of two fragments, a bad one, and the end of both the log and the block. */
static void feeding(void)
{
    const size_t all = RECORD;
    put(10, 2, 3);
    put(20, 4, 2);
    memset(now.log + 29, 0, 20);
    BEGIN(all, MELLANSKO_BEGUN);
    FEED(all);
    FEED_NEXT(all, 0, 0, MELLANSKO_NOT_YET);
    TAKE(10, 0, MELLANSKO_TAKEN, 0);
    TAKE(10, 9, MELLANSKO_TAKEN, 9);
    FEED_NEXT(all, 0, 0, MELLANSKO_NOT_YET);
    TAKE(19, 2, MELLANSKO_TAKEN, 2);
    FEED_NEXT(all, 0, 3, MELLANSKO_NOT_YET);
    FEED(all, 10, 11, 0, 1, 0, 3, 0, 1, 0);
    TAKE(21, 15, MELLANSKO_TAKEN, 15);
    FEED_NEXT(all, 3, 2, MELLANSKO_RECORD, 0, 19, 5, MELLANSKO_GATHERED, 0, 19, 2, 10);
    CHECK(memcmp(now.buffer, now.record, 3) == 0 && memcmp(now.buffer + 3, now.record, 2) == 0);
    FEED(all, 19, 26);
    FEED_NEXT(all, 0, 0, MELLANSKO_NOT_YET);
    FEED(all, 19, 26, 0, 0, 0, 0, MELLANSKO_BLANK);
    mellansko_feed_end(&lent_feed.feed);
    mellansko_feed_end(&lent_feed.feed);
    FEED(all, 19, 26, 1, 0, 0, 0, MELLANSKO_BLANK);
    FEED_NEXT(all, 0, 0, MELLANSKO_SKIP, 19, 26, MELLANSKO_BLANK, 0, 0, 26);
    FEED_NEXT(all, 0, 0, MELLANSKO_END, MELLANSKO_CLEAN, 0, 0, 0, 0, 26);
    FEED_NEXT(all, 0, 0, MELLANSKO_END, MELLANSKO_CLEAN, 0, 0, 0, 0, 26);
    FEED(all, 26, 26, 1);
}

/* An empty start is certain when all of the fragment has come with which the record begins. */
static void fed_empty_start(void)
{
    put(10, 2, 0);
    put(17, 1, 2);
    BEGIN(3, MELLANSKO_BEGUN);
    TAKE(10, 15, MELLANSKO_TAKEN, 15);
    FEED_NEXT(3, 0, 0, MELLANSKO_NOT_YET);
    FEED(3, 7, 15, 0, 1, 0, 0, 0, 1, 0);
    TAKE(25, 1, MELLANSKO_TAKEN, 1);
    FEED_NEXT(3, 0, 0, MELLANSKO_SKIP, 0, 7, MELLANSKO_EMPTY_START, 0, 0, 7);
    FEED(3, 7, 16);
    FEED_NEXT(3, 0, 2, MELLANSKO_RECORD, 7, 16, 2, MELLANSKO_GATHERED, 0, 16, 1, 7);
}

/* A byte that is not zero interrupts an open record at once; the trailer waits for its end. */
static void fed_dirty_trailer(void)
{
    const size_t block = MELLANSKO_BLOCK, start = block - 6;
    put(start - HEADER, 2, 0);
    memset(now.log + start, 0, 6);
    now.log[block - 4] = 1;
    BEGIN(3, MELLANSKO_BEGUN);
    /* As if all before it had been read. */
    lent_feed.feed.place = lent_feed.feed.came = start - HEADER;
    TAKE(start - HEADER, HEADER + 2, MELLANSKO_TAKEN, HEADER + 2);
    FEED_NEXT(3, 0, 0, MELLANSKO_NOT_YET);
    FEED(3, start, start + 2, 0, 1, start - HEADER, 0, 0, 1, start - HEADER);
    TAKE(start + 2, 1, MELLANSKO_TAKEN, 1);
    FEED_NEXT(3, 0, 0, MELLANSKO_SKIP, start - HEADER, start, MELLANSKO_INTERRUPTED, 0, 0, start);
    FEED_NEXT(3, 0, 0, MELLANSKO_NOT_YET);
    FEED(3, start, start + 3);
    TAKE(start + 3, 3, MELLANSKO_TAKEN, 3);
    FEED_NEXT(3, 0, 0, MELLANSKO_SKIP, start, block, MELLANSKO_DIRTY_TRAILER, 0, 0, block);
    FEED(3, block, block);
}

/* Of an open record both numbers are in the feed, of its last fragment so far, empty or not. */
static void fed_fragments(void)
{
    put(10, 2, 1);
    put(18, 3, 2);
    put(27, 3, 0);
    put(34, 4, 0);
    BEGIN(3, MELLANSKO_BEGUN);
    TAKE(10, 17, MELLANSKO_TAKEN, 17);
    FEED_NEXT(3, 0, 3, MELLANSKO_NOT_YET);
    FEED(3, 17, 17, 0, 1, 0, 3, 0, 2, 8);
    TAKE(27, 7, MELLANSKO_TAKEN, 7);
    FEED_NEXT(3, 0, 0, MELLANSKO_NOT_YET);
    FEED(3, 24, 24, 0, 1, 0, 3, 0, 3, 17);
    TAKE(34, 7, MELLANSKO_TAKEN, 7);
    FEED_NEXT(3, 0, 0, MELLANSKO_RECORD, 0, 31, 3, MELLANSKO_GATHERED, 0, 31, 4, 24);
    FEED(3, 31, 31);
}

/* A feed that is made up is gone on from if its numbers fit; with one more or less they do not. */
static void fed_made_up(void)
{
    const struct mellansko_feed fits = {3, 30, 30, 0, 1, 2, 0, 0, 4, 23};
    struct mellansko_feed *feed = &lent_feed.feed;
    put(10, 4, 2);
    BEGIN(3, MELLANSKO_BEGUN);
    *feed = fits;
    TAKE(10, 9, MELLANSKO_TAKEN, 9);
    FEED_NEXT(3, 0, 2, MELLANSKO_RECORD, 2, 39, 2, MELLANSKO_GATHERED, 0, 39, 5, 30);
    *feed = fits, feed->fragments = 5;
    TAKE(10, 9, MELLANSKO_TAKE_REFUSED, MELLANSKO_UNFIT);
    *feed = fits, feed->fragments = 0;
    FEED_NEXT(3, 0, 0, MELLANSKO_NEXT_REFUSED, MELLANSKO_UNFIT);
    *feed = fits, feed->last_header = 24;
    FEED_NEXT(3, 0, 0, MELLANSKO_NEXT_REFUSED, MELLANSKO_UNFIT);
    *feed = fits, feed->last_header = 1;
    FEED_NEXT(3, 0, 0, MELLANSKO_NEXT_REFUSED, MELLANSKO_UNFIT);
    BEGIN(3, MELLANSKO_BEGUN);
    feed->fragments = 1;
    mellansko_feed_end(feed);
    FEED(3, 0, 0, 0, 0, 0, 0, 0, 1);
}

/* A torn tail, and a piece that is longer than a block. */
static void fed_to_the_end(void)
{
    put(10, 2, 3);
    BEGIN(3, MELLANSKO_BEGUN);
    TAKE(10, 15, MELLANSKO_TAKEN, 15);
    mellansko_feed_end(&lent_feed.feed);
    FEED_NEXT(3, 0, 3, MELLANSKO_END, MELLANSKO_TORN, 0, 0, 0, 0, 0);
    memset(now.log + 10, 0, 7);
    BEGIN(3, MELLANSKO_BEGUN);
    TAKE(10, 40000, MELLANSKO_TAKEN, MELLANSKO_BLOCK);
    TAKE(10, 40000, MELLANSKO_TAKEN, 0);
    FEED_NEXT(3, 0, 0, MELLANSKO_SKIP, 0, MELLANSKO_BLOCK, MELLANSKO_BLANK, 0, 0, MELLANSKO_BLOCK);
    TAKE(10, 40000, MELLANSKO_TAKEN, MELLANSKO_BLOCK);
}

/* Each condition alone or with all of a higher number. What is refused changes no word. */
static void refused_feeds(void)
{
    const size_t limit = RECORD;
    BEGIN(MELLANSKO_LONGEST_RECORD + 1, MELLANSKO_BEGIN_REFUSED, MELLANSKO_LIMIT_TOO_HIGH);
    CHECK(lent_feed.feed.limit == UINT64_MAX && lent_feed.feed.last_header == UINT64_MAX);
    BEGIN(limit, MELLANSKO_BEGUN);
    TAKE(0, 9, MELLANSKO_TAKEN, 9);
    mellansko_feed_end(&lent_feed.feed);
    TAKE(0, 9, MELLANSKO_TAKE_REFUSED, MELLANSKO_AFTER_END);
    TAKE(0, 0, MELLANSKO_TAKE_REFUSED, MELLANSKO_AFTER_END);
    FEED_NEXT(limit - 1, 0, 0, MELLANSKO_NEXT_REFUSED, MELLANSKO_BUFFER_TOO_SHORT);
    FEED(limit, 0, 9, 1);
    lent_feed.feed.opened = 2;
    TAKE(0, 0, MELLANSKO_TAKE_REFUSED, MELLANSKO_UNFIT);
    FEED_NEXT(limit - 1, 0, 0, MELLANSKO_NEXT_REFUSED, MELLANSKO_UNFIT);
    lent_feed.feed.over = 0;
    mellansko_feed_end(&lent_feed.feed);
    FEED(limit, 0, 9, 0, 2);
}

/*
 * An orphan, a record of one fragment, an empty start, which is not counted, a record of two, and a
 * torn tail; and what becomes of them.
 */
static void mending(void)
{
    const uint8_t *both = now.log + 1000, *last = both + HEADER + 5;
    put(0, 3, 1);
    put(8, 1, 5);
    put(20, 2, 0);
    put(27, 2, LAST_MENDED);
    put(37, 4, 0);
    put(44, 2, 3);
    put(1000, 1, 5);
    put(1000 + HEADER + 5, 1, LAST_MENDED);
    /* So that what is gathered there shows. */
    memset(now.buffer, 0xA5, 20);
    MEND(54, 54, 9, 9, both, MELLANSKO_MENDED, 22, 8);
    MEND(54, 22, 5, 20, both, MELLANSKO_MENDED, 22, 8);
    MEND(54, 54, 4, 4, last, MELLANSKO_MENDED, 10, 8 + 12);
    MEND(0, 0, 0, 0, both, MELLANSKO_MENDED, 0, 0);
}

/* Each condition alone or with all that are judged after it, and its neighbour that is mended. */
static void refused_mendings(void)
{
    const size_t too_high = MELLANSKO_LONGEST_RECORD + 1;
    MEND_REFUSED(54, 0, too_high, 0, MELLANSKO_LIMIT_TOO_HIGH);
    MEND_REFUSED(54, 54, too_high, 0, MELLANSKO_LIMIT_TOO_HIGH);
    MEND_REFUSED(54, 0, 9, 8, MELLANSKO_BUFFER_TOO_SHORT);
    MEND_REFUSED(54, 54, 9, 8, MELLANSKO_BUFFER_TOO_SHORT);
    memset(now.buffer, 0xA5, 20);
    MEND_REFUSED(54, 21, 9, 9, MELLANSKO_NO_ROOM);
    MEND_REFUSED(54, 0, 9, 9, MELLANSKO_NO_ROOM);
    MEND(54, 22, 9, 9, now.log + 1000, MELLANSKO_MENDED, 22, 8);
    memset(now.log, 0, sizeof now.log);
    MEND(LOG, LOG, 9, 9, now.log, MELLANSKO_MENDED, 0, LOG);
}

int main(void)
{
    size_t i;
    for (i = 0; i < sizeof now; i++)
        ((uint8_t *)&now)[i] = (uint8_t)(i % 251);
    checksums();
    names();
    sizes();
    refused_appends();
    refused_readings();
    answers();
    empty_starts();
    dirty_trailers();
    feed_names();
    feeding();
    fed_empty_start();
    fed_dirty_trailer();
    fed_fragments();
    fed_made_up();
    fed_to_the_end();
    refused_feeds();
    mending();
    refused_mendings();
    return failures != 0;
}
