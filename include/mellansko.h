/*
 * Mellansko: a writer and a reader of journals in the LevelDB log format, for C99 and C++.
 *
 * A log is up to 1,073,741,824 bytes that the caller lends, in blocks of 32,768 from the first on.
 * A record is 0 to 4,194,304 bytes of the caller's. It is stored as one or more fragments, each a
 * header of 7 bytes and then data. None crosses a block's end; if fewer than 7 bytes are left
 * before it, they are a trailer, which holds nothing of a record and has to be zeros. A record's
 * span is the range of its fragments, headers included. docs/FORMAT.md has the rules, and numbers
 * here, as 3.7, are that page's.
 *
 * The mark is how many bytes of a log are used: mellansko_append writes a record there and answers
 * the new mark. A place is where mellansko_next reads: 0, and then what the last answer says. It
 * skips a record of more bytes than the limit, and gathers one of several fragments in the buffer.
 * For a log that is still coming there are the calls of a reader that is fed in pieces.
 * mellansko_mend writes the records that are left in a damaged log into another one.
 *
 * What is said here of answers and of lent bytes is proved for every input, and so is that each
 * call ends and does nothing undefined; docs/PROOF.md says what that rests on. The names of the
 * words, and the texts, are this header's own: tests hold them to the calls. The caller sees to
 * this:
 *
 * - No pointer is NULL, not even one with length 0. A pointer and a length are a slice that really
 *   has that many bytes. A slice and a block may start at any address, an answer and a feed where C
 *   may put one.
 * - What a call writes (an append's log, a reading's buffer, a feed and its block, a mending's
 *   fresh log and buffer, the answer) overlaps nothing else that it is passed, and no other thread
 *   uses it until the call returns. Nothing writes what it reads.
 *
 * The calls allocate nothing, share no state, and keep nothing of what they are passed. They take
 * time in proportion to the bytes that they look at. They are for Linux on x86-64.
 *
 * What has to be in memory, besides an answer:
 *
 * - For mellansko_next the log, and a buffer of as many bytes as the limit. No record has more
 *   bytes than its log, so for a short log a limit and a buffer of its length will do.
 * - For the reader that is fed in pieces a feed, a block, a buffer of as many bytes as the limit,
 *   and a piece of any length: nothing else of the log, however long it is. examples/feed_stdin.c
 *   reads so.
 * - For mellansko_append the record, and a log with room for what is added. Nothing of what comes
 *   before the mark is needed (3.9): a record for the end of a file can be appended in a scratch
 *   log, at the file's length modulo 32,768. examples/append_file.c does so.
 * - For mellansko_mend both logs, and a buffer as for mellansko_next.
 *
 * A buffer for any record has MELLANSKO_LONGEST_RECORD bytes, 4 MiB. That is no array for the
 * stack, which often has 8 MiB in all, and in a thread less: make it static, or take it from
 * malloc. Memory for a log is best taken from malloc, by the log's length: MELLANSKO_LONGEST_LOG
 * bytes are 1 GiB, and a program with two static arrays of as many may not link.
 *
 * What no reader of this format can always tell (8, 13.6): whether a log was cut exactly between
 * two records; whether a block was left out, is there twice, or was replaced by another sound one;
 * whether bytes with a right checksum are those that were written.
 *
 * In crates/mellansko `rt lib --cpu x86-64` makes the archive to link with, out/libmellansko.a, and
 * `./install PREFIX` installs it with this header. It needs nothing but the C library.
 * examples/journal.c is a program to start from, examples/append_file.c, examples/read_file.c and
 * examples/mend_file.c are for files, and examples/feed_stdin.c is for what comes over a pipe.
 */
#ifndef MELLANSKO_H
#define MELLANSKO_H

#include <stddef.h>
#include <stdint.h>

#define MELLANSKO_VERSION "0.1.0"
#define MELLANSKO_VERSION_MAJOR 0
#define MELLANSKO_VERSION_MINOR 1
#define MELLANSKO_VERSION_PATCH 0

/*
 * The bytes of a block, and the most that a record and a log have. An int holds each of them and
 * one more; it does not hold the longest log twice.
 */
#define MELLANSKO_BLOCK 32768
#define MELLANSKO_LONGEST_RECORD 4194304
#define MELLANSKO_LONGEST_LOG 1073741824

/* For compilers that know the words: they warn of a result that is dropped, and of a NULL. */
#if defined(__GNUC__)
#define MELLANSKO_KEEP __attribute__((__warn_unused_result__))
#define MELLANSKO_NOT_NULL __attribute__((__nonnull__))
#define MELLANSKO_PURE __attribute__((__pure__))
#define MELLANSKO_UNNAMED __extension__
#else
#if defined(__cplusplus) ? __cplusplus >= 201703L : __STDC_VERSION__ >= 202311L
#define MELLANSKO_KEEP [[nodiscard]]
#else
#define MELLANSKO_KEEP
#endif
#define MELLANSKO_NOT_NULL
#define MELLANSKO_PURE
#define MELLANSKO_UNNAMED
#endif

#ifdef __cplusplus
extern "C" {
#endif

/* ---- answers */

/* An answer's kind, as mellansko_append returns it. */
enum mellansko_appended {
    MELLANSKO_ACCEPTED = 0,
    MELLANSKO_APPEND_REFUSED = 1
};

/* An answer's kind, as mellansko_next and mellansko_feed_next return it. */
enum mellansko_next_kind {
    MELLANSKO_RECORD = 0,
    MELLANSKO_SKIP = 1,
    MELLANSKO_END = 2,
    MELLANSKO_NEXT_REFUSED = 3,
    MELLANSKO_NOT_YET = 4  /* mellansko_feed_next alone: nothing more is certain yet */
};

/* An answer's kind, as mellansko_feed_begin returns it. */
enum mellansko_begun {
    MELLANSKO_BEGUN = 0,
    MELLANSKO_BEGIN_REFUSED = 1
};

/* An answer's kind, as mellansko_feed_take returns it. */
enum mellansko_take_kind {
    MELLANSKO_TAKEN = 0,
    MELLANSKO_TAKE_REFUSED = 1
};

/* An answer's kind, as mellansko_mend returns it. */
enum mellansko_mend_kind {
    MELLANSKO_MENDED = 0,
    MELLANSKO_MEND_REFUSED = 1
};

/*
 * The words of an answer (10.1, 11.14, 12.10): a call writes all ten. Those that its kind does not
 * name are 0.
 */
#define MELLANSKO_ANSWER 10

/* Each begins with word 0 of an answer. An end is exclusive. */
struct mellansko_accepted { uint64_t kind, mark; };
struct mellansko_taken { uint64_t kind, length; };
struct mellansko_mended { uint64_t kind, length, skipped; };
struct mellansko_record {
    uint64_t kind, start, end, length, stored, data, place, fragments, last_header;
};
struct mellansko_skip { uint64_t kind, start, end, reason, zero[2], place; };
struct mellansko_end { uint64_t kind, tail, start, zero[3], place; };
struct mellansko_refused { uint64_t kind, number, given; };

MELLANSKO_UNNAMED struct mellansko_answer {
    union {
        uint64_t words[MELLANSKO_ANSWER];
        struct { uint64_t kind, by_kind[5], place; };  /* by these names in any answer */
        struct mellansko_accepted accepted;            /* MELLANSKO_ACCEPTED */
        struct mellansko_taken taken;                  /* MELLANSKO_TAKEN */
        struct mellansko_mended mended;                /* MELLANSKO_MENDED */
        struct mellansko_record record;                /* MELLANSKO_RECORD */
        struct mellansko_skip skip;                    /* MELLANSKO_SKIP */
        struct mellansko_end end;                      /* MELLANSKO_END */
        struct mellansko_refused refused;              /* MELLANSKO_..._REFUSED */
    };
};

/* If these were not the calls' words, this would not compile. */
typedef char mellansko_answer_has_the_words_of_the_calls[
    sizeof(struct mellansko_answer) == 80 &&
    offsetof(struct mellansko_answer, kind) == 0 &&
    offsetof(struct mellansko_answer, place) == 48 &&
    offsetof(struct mellansko_answer, accepted.mark) == 8 &&
    offsetof(struct mellansko_answer, taken.length) == 8 &&
    offsetof(struct mellansko_answer, mended.skipped) == 16 &&
    offsetof(struct mellansko_answer, record.place) == 48 &&
    offsetof(struct mellansko_answer, record.fragments) == 56 &&
    offsetof(struct mellansko_answer, record.last_header) == 64 &&
    offsetof(struct mellansko_answer, skip.place) == 48 &&
    offsetof(struct mellansko_answer, end.place) == 48 &&
    offsetof(struct mellansko_answer, refused.given) == 16 ? 1 : -1];

/*
 * A refusal's number (5, 11.11, 12.5): why the call did nothing. No lent byte but the answer's has
 * changed. If several conditions hold, it is the lowest number; but mellansko_mend judges
 * MELLANSKO_NO_ROOM last. There are no other refusals. Its `given` is the mark or place that the
 * call was given, and 0 from mellansko_mend and the calls with a feed.
 */
enum mellansko_refusal {
    MELLANSKO_LOG_TOO_LONG = 1,     /* append, next: log_len is above MELLANSKO_LONGEST_LOG;
                                       mend: bad_len or fresh_len is;
                                       feed_take: what has come and the piece together are */
    MELLANSKO_OUTSIDE = 2,          /* append, next: the mark or place is above log_len */
    MELLANSKO_UNFIT = 2,            /* feed_take, feed_next: the feed's numbers do not fit together;
                                       those that calls lead to do */
    MELLANSKO_RECORD_TOO_LONG = 3,  /* append: record_len is above MELLANSKO_LONGEST_RECORD */
    MELLANSKO_NO_ROOM = 4,          /* append: the size added is above log_len - mark;
                                       mend: all sizes added together are above fresh_len */
    MELLANSKO_LIMIT_TOO_HIGH = 5,   /* next, mend, feed_begin: the limit is above
                                       MELLANSKO_LONGEST_RECORD */
    MELLANSKO_BUFFER_TOO_SHORT = 6, /* next, mend, feed_next: buffer_len is below the limit */
    MELLANSKO_AFTER_END = 20        /* feed_take: the end is announced */
};

/* A record's `stored`: where its bytes are. */
enum mellansko_stored {
    MELLANSKO_WHOLE = 0,    /* in the log, from log + data on: it is one fragment */
    MELLANSKO_GATHERED = 1  /* at the front of the buffer, until that is lent again; data is 0 */
};

/*
 * A skip's reason (4.7). With any but MELLANSKO_EMPTY_START its range is in doubt: what was written
 * there can't be trusted, or can't be handed out. With reasons 1 to 3 all that is left of the
 * block, or of a log that ends sooner, is skipped: it may be the length that is damaged. Reason 9
 * goes as far, but has 1 to 6 bytes; every other range has 7 at least.
 */
enum mellansko_reason {
    MELLANSKO_BAD_LENGTH = 1,    /* the header's length runs past the end of the block */
    MELLANSKO_BLANK = 2,         /* the header's type and length are both 0 */
    MELLANSKO_CHECKSUM = 3,      /* the header's checksum is not that of its type and data */
    MELLANSKO_INTERRUPTED = 4,   /* a record that is begun and not finished, and no empty start, up
                                    to what stands where its next fragment should, or to a dirty
                                    trailer before that; the next call answers for what it goes up
                                    to */
    MELLANSKO_ORPHAN = 5,        /* one fragment, which continues a record that was not begun */
    MELLANSKO_UNKNOWN_TYPE = 6,  /* one fragment, of a type that the format does not have */
    MELLANSKO_OVER_LIMIT = 7,    /* a record, up to the end of the fragment that takes it above the
                                    limit; sound fragments of it after that one are orphans */
    MELLANSKO_EMPTY_START = 8,   /* a record that is begun and has no bytes so far, up to a sound
                                    fragment that begins a record; the next call answers for that.
                                    Early LevelDB writers began a record again like that (13) */
    MELLANSKO_DIRTY_TRAILER = 9  /* a trailer that is not all zeros, up to the end of the block or
                                    of the log. In a log read from place 0 no record has a byte in
                                    it; something wrote where only zeros belong (14) */
};

/*
 * Whether a skip of this reason is in doubt, since something may be lost there: 0 for
 * MELLANSKO_EMPTY_START, and 1 for any other number. Where it is 0, nothing is, as far as a reader
 * can tell (13.5, 13.6). It is 1 for MELLANSKO_DIRTY_TRAILER too: no record has a byte there, but
 * whatever wrote there may have done more.
 */
static inline int mellansko_reason_is_loss(uint64_t reason)
{
    return reason != MELLANSKO_EMPTY_START;
}

/* An end's tail. The end's start is 0 if it is clean. */
enum mellansko_tail {
    MELLANSKO_CLEAN = 0,  /* nothing is begun and not finished; also of a log cut between records */
    MELLANSKO_TORN = 1    /* the log ends inside of what starts at the end's start */
};

/* ---- writing */

/*
 * Writes a record (record, record_len) into a log (log, log_len: all that is lent, the unused
 * bytes too) from the mark on. Returns the answer's kind:
 *
 *   MELLANSKO_ACCEPTED         accepted.mark is the new mark
 *   MELLANSKO_APPEND_REFUSED   refused.number, refused.given
 *
 * Only the bytes from the mark to the new mark are written. The first append is made at mark 0,
 * each later one at the mark that the last one answered, or that its refusal gave back. What the
 * log holds makes no difference: an append at a lower mark writes over records.
 *
 * A log that was read, from a file say, may be appended to at its length if all of it reads as
 * records, empty starts (MELLANSKO_EMPTY_START) if there are any, and a clean end. If not, begin
 * another log: a record after what is in doubt may be skipped with it, and one at the start of a
 * torn tail writes over what the tail holds. mellansko_mend begins one with the records that are
 * left.
 *
 * The number of bytes added can be worked out (3.7). Let r = 32,768 - mark % 32,768, what is left
 * of the block. If r < 7 there is a trailer first, of p = r zeros, and room for a = 32,761 bytes of
 * data in the first fragment; otherwise p = 0 and a = r - 7. If a record's n bytes are a or fewer,
 * it adds p + 7 + n; else p + n + 7 * (1 + q), q being (n - a) / 32,761 rounded up. Its span starts
 * at mark + p. The bytes added depend on the record and on mark % 32,768 alone (3.9).
 */
MELLANSKO_KEEP MELLANSKO_NOT_NULL
uint64_t mellansko_append(uint8_t *log, size_t log_len, size_t mark, const uint8_t *record,
                          size_t record_len, struct mellansko_answer *answer);

/* ---- reading */

/*
 * Reads the next thing in a log (log, log_len: the bytes up to the mark) from a place on, with a
 * limit on a record's length and a buffer (buffer, buffer_len) of at least as many bytes. Returns
 * the answer's kind:
 *
 *   MELLANSKO_RECORD         record.start and .end, its span; .length, .stored and .data, its
 *                            bytes; .fragments and .last_header, how it was stored
 *   MELLANSKO_SKIP           skip.start, .end and .reason
 *   MELLANSKO_END            end.tail and .start
 *   MELLANSKO_NEXT_REFUSED   refused.number, refused.given
 *
 * The log is never written. The buffer is for a gathered record alone: its first length bytes.
 *
 * All but a refusal have a place to go on from (4.2): that of a record or a skip is its end, that
 * of a clean end log_len, and that of a torn one the tail's start. To read a log, call at place 0
 * and then at each answer's place, up to the end. After a record or a skip it is greater by 7 at
 * least, but for MELLANSKO_DIRTY_TRAILER by 1 at least, and no block has more than one of these. So
 * that takes log_len / 7 + 1 calls at most, and one more for each block that the log reaches into
 * (6.3). Every byte is then in exactly one span, skipped range or torn tail, or is a zero of a
 * trailer outside of these (6.2, 14.4). A call at any other place reads a header where there may be
 * none.
 *
 * record.fragments is how many fragments the record was read from, and .last_header the place where
 * the header of the last of them starts (16.1). There is 1 exactly if .stored is MELLANSKO_WHOLE,
 * and otherwise there are 2 or more. The last one's header of 7 bytes and then its data go from
 * .last_header to .end; with 1 that is all of the span. What the span has besides 7 bytes for each
 * fragment and .length bytes are zeros of trailers between them (16.3). A record that
 * mellansko_append wrote, if it comes out as written, has no such zeros: 7 * .fragments is
 * .end - .start - .length. And its .last_header is where the block of its last byte starts,
 * (.end - 1) / 32,768 * 32,768, or .start if that is greater (16.5). A record with other numbers is
 * not as an append wrote it.
 *
 * Do not treat what is torn as never written, nor what is skipped, unless mellansko_reason_is_loss
 * gives 0 for the reason. A torn tail may be the record that was being written when the power went.
 * But it may also hold records that were written whole: a damaged length in the last block that
 * runs past the log's end looks the same (8.4).
 */
MELLANSKO_KEEP MELLANSKO_NOT_NULL
uint64_t mellansko_next(const uint8_t *log, size_t log_len, size_t place, size_t limit,
                        uint8_t *buffer, size_t buffer_len, struct mellansko_answer *answer);

/* ---- reading in pieces */

/*
 * What a reader that is fed in pieces keeps from call to call, besides a block and a buffer (11.2).
 * mellansko_feed_begin makes one, and the other calls go on from it. It may be looked at, and be
 * copied together with block and buffer. One that is made up does no harm: it is refused if its
 * numbers do not fit together (11.3).
 */
struct mellansko_feed {
    uint64_t limit;        /* the most bytes of a record that is handed out */
    uint64_t place;        /* the place that reading has come to */
    uint64_t came;         /* how many bytes of the log have come */
    uint64_t over;         /* 1 if the end is announced, else 0 */
    uint64_t opened;       /* 1 if a record is open: begun, and not finished yet; else 0 */
    uint64_t start;        /* where the open record started; 0 if none is open */
    uint64_t length;       /* how many bytes of it the buffer holds; 0 if none is open */
    uint64_t bad;          /* the reason, 1 to 3, to skip from the place on, if seen; else 0 */
    uint64_t fragments;    /* how many fragments the open record has so far; 0 if none is open */
    uint64_t last_header;  /* where the last of them starts; 0 if none is open */
};

/* If these were not the calls' words (11.14), this would not compile. */
typedef char mellansko_feed_has_the_words_of_the_calls[
    sizeof(struct mellansko_feed) == 80 &&
    offsetof(struct mellansko_feed, limit) == 0 &&
    offsetof(struct mellansko_feed, place) == 8 &&
    offsetof(struct mellansko_feed, came) == 16 &&
    offsetof(struct mellansko_feed, over) == 24 &&
    offsetof(struct mellansko_feed, opened) == 32 &&
    offsetof(struct mellansko_feed, start) == 40 &&
    offsetof(struct mellansko_feed, length) == 48 &&
    offsetof(struct mellansko_feed, bad) == 56 &&
    offsetof(struct mellansko_feed, fragments) == 64 &&
    offsetof(struct mellansko_feed, last_header) == 72 ? 1 : -1];

/*
 * Begins to read a log that comes in pieces of any length, with a limit on a record's length.
 * Writes the feed, unless it is refused, and returns the answer's kind:
 *
 *   MELLANSKO_BEGUN           the feed is begun, at place 0
 *   MELLANSKO_BEGIN_REFUSED   refused.number: MELLANSKO_LIMIT_TOO_HIGH
 *
 * To read a log: take its first piece, draw answers (mellansko_feed_next) until they say
 * MELLANSKO_NOT_YET, take what is left of the piece, draw again, and so on with each piece. After
 * the last announce the end, and draw up to it. The answers are those of mellansko_next for all of
 * the log, at one limit and in the same order, but that every record is gathered. Where the pieces
 * are cut, and when answers are drawn, makes no difference to them, if the log is not too long. If
 * it is, a piece that would pass MELLANSKO_LONGEST_LOG is refused whole: to have all answers up to
 * there, offer what is left to that length first.
 *
 * The block is the caller's, MELLANSKO_BLOCK bytes, and so is the buffer, limit bytes at least.
 * Both may hold anything at first, and are then handed on from call to call. If they are altered in
 * between, answers speak of what is there, and no harm comes of it.
 */
MELLANSKO_KEEP MELLANSKO_NOT_NULL
uint64_t mellansko_feed_begin(size_t limit, struct mellansko_feed *feed,
                              struct mellansko_answer *answer);

/*
 * Takes the first bytes of a piece (piece, piece_len), as many as the block has room for up to its
 * end. Returns the answer's kind:
 *
 *   MELLANSKO_TAKEN          taken.length: so many bytes, and feed.came has grown by it
 *   MELLANSKO_TAKE_REFUSED   refused.number: MELLANSKO_LOG_TOO_LONG, judged for all of the piece,
 *                            MELLANSKO_UNFIT or MELLANSKO_AFTER_END
 *
 * If fewer than piece_len were taken, the rest is to be offered once answers are drawn: after
 * MELLANSKO_NOT_YET there is room for a byte at least. A piece may have no bytes.
 */
MELLANSKO_KEEP MELLANSKO_NOT_NULL
uint64_t mellansko_feed_take(struct mellansko_feed *feed, uint8_t block[MELLANSKO_BLOCK],
                             const uint8_t *piece, size_t piece_len,
                             struct mellansko_answer *answer);

/*
 * Announces that the log ends with what has come. A second time changes nothing, and a feed whose
 * numbers do not fit together is left as it is.
 */
MELLANSKO_NOT_NULL
void mellansko_feed_end(struct mellansko_feed *feed);

/*
 * Gives the next answer, as soon as no byte that may still come can change it; the log may also end
 * with what has come. Returns the answer's kind:
 *
 *   MELLANSKO_RECORD         record.start and .end, its span; .length: the buffer's first so many
 *                            bytes, until the next call; .stored is MELLANSKO_GATHERED;
 *                            .fragments and .last_header, as mellansko_next answers them for the
 *                            whole log: here .fragments tells whether it stood in one piece, and
 *                            .stored does not (16.7)
 *   MELLANSKO_SKIP           skip.start, .end and .reason
 *   MELLANSKO_END            end.tail and .start, once the end is announced; and again if called
 *                            again
 *   MELLANSKO_NEXT_REFUSED   refused.number: MELLANSKO_UNFIT or MELLANSKO_BUFFER_TOO_SHORT
 *   MELLANSKO_NOT_YET        nothing more is certain before another byte, or the end
 *
 * A sound fragment is dealt with when its last byte has come. One that is bad waits, with no record
 * open, for the end of its block or of the log, since all up to there is skipped (11.8). A trailer
 * waits for that too; but the first byte of it that is not zero interrupts a record that is open.
 * The block is only read. In the buffer the open record's bytes are gathered, and they stay there if
 * it turns out to be skipped; no other byte is changed.
 *
 * The feed goes on by itself after an answer. After an end it stays, and answers that end again.
 * What is torn, or skipped with a loss, is not to be treated as never written: see mellansko_next.
 */
MELLANSKO_KEEP MELLANSKO_NOT_NULL
uint64_t mellansko_feed_next(struct mellansko_feed *feed, const uint8_t block[MELLANSKO_BLOCK],
                             uint8_t *buffer, size_t buffer_len, struct mellansko_answer *answer);

/* ---- mending */

/*
 * Writes the records of a log (bad, bad_len), which need not be damaged, into another (fresh,
 * fresh_len: all that is lent) from mark 0 on: those that mellansko_next hands out from place 0 to
 * the end, at the limit and with the buffer (buffer, buffer_len) that are given here, in order.
 * Returns the answer's kind:
 *
 *   MELLANSKO_MENDED         mended.length: the fresh log's first so many bytes are the mended log;
 *                            .skipped: how many bytes of the bad log are in ranges skipped, without
 *                            those of empty starts, which count as no loss
 *   MELLANSKO_MEND_REFUSED   refused.number: the first of these that holds, in this order:
 *                            MELLANSKO_LOG_TOO_LONG, of either log, MELLANSKO_LIMIT_TOO_HIGH,
 *                            MELLANSKO_BUFFER_TOO_SHORT, MELLANSKO_NO_ROOM
 *
 * The fresh log may hold anything at first, and from mended.length on it is as it was. The buffer
 * is left as the reading leaves it: each gathered record is put to its front in turn. The bad log
 * is never written, and can't be mended in place: the fresh log must not overlap it. A refusal
 * leaves all of them as they were, also one for want of room.
 *
 * The mended log is never longer than the bad one: a fresh log of bad_len bytes has room (12.4). At
 * the same limit it reads as the same records, with no skip and a clean end (12.6), so it may be
 * appended to at its length. Their spans, .fragments and .last_header are those that they have in
 * it, as mellansko_append stored them there, whatever they were in the bad log (16.6).
 *
 * A mended log does not show that anything was lost, nor where: it reads as whole (12.8). Where
 * something is missing, though not what, is said by a reading of the bad log, as far as a reader
 * can tell (8). mended.skipped does not count a torn tail: it is 0 too if that is all that was
 * lost. It counts a dirty trailer, in which no record has a byte: it is not 0 if that is all that
 * was wrong. So keep the bad log.
 */
MELLANSKO_KEEP MELLANSKO_NOT_NULL
uint64_t mellansko_mend(const uint8_t *bad, size_t bad_len, uint8_t *fresh, size_t fresh_len,
                        size_t limit, uint8_t *buffer, size_t buffer_len,
                        struct mellansko_answer *answer);

/* ---- the checksum */

/*
 * Carries on over any number of bytes (bytes, bytes_len) from the checksum of what came before, and
 * returns the checksum of all of it (2.8): a CRC32C, as in RFC 3720. If nothing came before,
 * `checksum` is 0. Over no bytes, `checksum` is given back. The checksum of A followed by B, each a
 * pointer and a length, is mellansko_crc32c(mellansko_crc32c(0, A), B). Each call makes a table
 * before its first byte, so that a few long goes take less time than many short ones.
 *
 * What is carried on from is the checksum, not its masked form, and may be any number. zlib's crc32
 * carries on in the same way, but also takes NULL, and then gives the number to begin with. Here
 * too that is 0, but bytes is not NULL, not even with length 0.
 *
 * What a fragment's header stores is that of the type byte first and then the data, masked (2.4,
 * 2.5):
 *
 *   uint32_t sum = mellansko_crc32c(0, &type, 1);
 *   uint32_t stored = mellansko_mask(mellansko_crc32c(sum, data, data_len));
 */
MELLANSKO_KEEP MELLANSKO_NOT_NULL MELLANSKO_PURE
uint32_t mellansko_crc32c(uint32_t checksum, const uint8_t *bytes, size_t bytes_len);

/* The masked form (2.5) of a CRC32C, in which a header stores that of its type and data (2.4). */
MELLANSKO_KEEP MELLANSKO_PURE
uint32_t mellansko_mask(uint32_t crc);

/* ---- texts */

/* A reason in plain words. */
static inline const char *mellansko_reason_text(uint64_t reason)
{
    switch (reason) {
    case MELLANSKO_BAD_LENGTH: return "a stored length runs past the end of its block";
    case MELLANSKO_BLANK: return "a header with neither type nor length, as in a stretch of zeros";
    case MELLANSKO_CHECKSUM: return "the stored checksum is not that of the bytes";
    case MELLANSKO_INTERRUPTED: return "a record that breaks off before its last piece";
    case MELLANSKO_ORPHAN: return "a piece of a record whose beginning is missing";
    case MELLANSKO_UNKNOWN_TYPE: return "a piece of a kind that this format does not have";
    case MELLANSKO_OVER_LIMIT: return "a record longer than the limit";
    case MELLANSKO_EMPTY_START:
        return "an empty start: a record begun with no bytes, and then begun again";
    case MELLANSKO_DIRTY_TRAILER: return "the bytes that fill up a block are not all zero";
    default: return "a number that is no reason's";
    }
}

/* A refusal in plain words. */
static inline const char *mellansko_refusal_text(uint64_t number)
{
    switch (number) {
    case MELLANSKO_LOG_TOO_LONG: return "the log is longer than 1073741824 bytes";
    case MELLANSKO_OUTSIDE: /* and MELLANSKO_UNFIT: whoever calls knows which it is */
        return "the mark or place is beyond the log's end, or the feed's numbers do not fit";
    case MELLANSKO_RECORD_TOO_LONG: return "the record is longer than 4194304 bytes";
    case MELLANSKO_NO_ROOM: return "the log has no room for what is to be written";
    case MELLANSKO_LIMIT_TOO_HIGH: return "the limit is above 4194304 bytes";
    case MELLANSKO_BUFFER_TOO_SHORT: return "the buffer is shorter than the limit";
    case MELLANSKO_AFTER_END: return "the log's end was announced before the piece";
    default: return "a number that is no refusal's";
    }
}

#ifdef __cplusplus
}
#endif

#undef MELLANSKO_KEEP
#undef MELLANSKO_NOT_NULL
#undef MELLANSKO_PURE
#undef MELLANSKO_UNNAMED

#endif
