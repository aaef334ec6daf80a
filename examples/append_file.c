/*
 * Appends a record, from standard input or from the command line, to a journal in a file.
 *
 *   cc -std=c99 -Iinclude examples/append_file.c crates/mellansko/out/libmellansko.a \
 *     -o append_file &&
 *   : >new.log && ./append_file new.log 'LW10-1 0.9137' &&
 *   printf 'LW11 0.8412' | ./append_file new.log
 *
 * It holds one block and a record's room in memory, and not the file: what an append adds depends
 * on the record and on the mark's place in its block alone (docs/FORMAT.md 3.9). So it appends in a
 * scratch log at the file's length modulo 32,768, and writes what was added at the file's end.
 *
 * It does not read the journal. The caller must know that nothing in it is in doubt, as `mellansko
 * verify` says: that all of it reads as records, empty starts if there are any, and a clean end. A
 * record after what is in doubt, or after a torn tail, may not be found again. If it does not read
 * so, begin another journal.
 *
 * The file must be there: an empty one is a journal without records. It is locked as the tool locks
 * it, so that two of these or of `mellansko append` do not mix. A record that could not be written
 * whole, or not be brought to the disk, is cut off again; if that fails too, it says so, and the
 * journal is not to be appended to any more. If the power goes, the tail may be torn.
 *
 * The exit status is 0 if the record is in the file and on the disk, and 2 if not.
 */
#define _POSIX_C_SOURCE 200809L
#include <errno.h>
#include <fcntl.h>
#include <inttypes.h>
#include <signal.h>
#include <stdio.h>
#include <string.h>
#include <sys/file.h>
#include <sys/stat.h>
#include <unistd.h>

#include "mellansko.h"

/* The most that an append adds: a trailer, the record, and a header for each fragment. */
#define HEADER 7
#define DATA (MELLANSKO_BLOCK - HEADER)
#define FRAGMENTS (1 + (MELLANSKO_LONGEST_RECORD + DATA - 1) / DATA)
#define MOST_ADDED (HEADER - 1 + MELLANSKO_LONGEST_RECORD + HEADER * FRAGMENTS)

static uint8_t scratch[MELLANSKO_BLOCK + MOST_ADDED];
/* One byte more than a record may have, by which one that is too long shows. */
static uint8_t record[MELLANSKO_LONGEST_RECORD + 1];

static int fail(const char *name, const char *why)
{
    fprintf(stderr, "%s: nothing was appended: %s\n", name, why);
    return 0;
}

/* Reads the record, and gives whether it could. */
static int read_record(const char *given, size_t *length)
{
    if (given != NULL) {
        *length = strlen(given) < sizeof record ? strlen(given) : sizeof record;
        memcpy(record, given, *length);
        return 1;
    }
    *length = fread(record, 1, sizeof record, stdin);
    return ferror(stdin) ? fail("standard input", strerror(errno)) : 1;
}

/* The length of a plain file that no other append can change now; -1 if there is none. */
static off_t locked_length(int file, const char *name)
{
    struct stat about;
    if (flock(file, LOCK_EX | LOCK_NB) != 0)
        fail(name, errno == EWOULDBLOCK ? "another program has it locked" : strerror(errno));
    else if (fstat(file, &about) != 0)
        fail(name, strerror(errno));
    else if (!S_ISREG(about.st_mode))
        fail(name, "it is not a plain file");
    else
        return about.st_size;
    return -1;
}

/* Writes all of the bytes at a place, however many calls that takes, and on to the disk. */
static int write_all(int file, const uint8_t *bytes, size_t length, off_t place)
{
    while (length > 0) {
        ssize_t written = pwrite(file, bytes, length, place);
        if (written < 0 && errno == EINTR)
            continue;
        if (written <= 0)
            return 0;
        bytes += written;
        length -= (size_t)written;
        place += written;
    }
    return fsync(file) == 0;
}

/* Puts the added bytes at the file's end: all of them, or none. */
static int put(int file, const char *name, const uint8_t *added, size_t length, off_t end)
{
    const char *why;
    if (write_all(file, added, length, end))
        return 1;
    why = strerror(errno);
    if (ftruncate(file, end) == 0 && fsync(file) == 0)
        return fail(name, why);
    fprintf(stderr, "%s: could not be written (%s), nor be cut back to its %jd bytes\n", name, why,
            (intmax_t)end);
    return 0;
}

/* Appends the record at the file's end, and gives whether it is there. */
static int append(int file, const char *name, size_t length)
{
    struct mellansko_answer answer;
    size_t mark, added;
    off_t end = locked_length(file, name);
    if (end < 0)
        return 0;
    mark = (size_t)(end % MELLANSKO_BLOCK);
    switch (mellansko_append(scratch, sizeof scratch, mark, record, length, &answer)) {
    case MELLANSKO_ACCEPTED:
        added = answer.accepted.mark - mark;
        break;
    default: /* MELLANSKO_APPEND_REFUSED: here only of a record that is too long */
        return fail(name, mellansko_refusal_text(answer.refused.number));
    }
    /* A longer one could not be read again with mellansko_next. */
    if (end > MELLANSKO_LONGEST_LOG - (off_t)added)
        return fail(name, "a journal has no room for it: begin another");
    return put(file, name, scratch + mark, added, end);
}

int main(int count, char **words)
{
    size_t length;
    int file, done;
    if (count != 2 && count != 3) {
        fprintf(stderr, "usage: append_file FILE [RECORD]\n");
        return 2;
    }
    if (!read_record(count == 3 ? words[2] : NULL, &length))
        return 2;
    /* A write above the size that files may have then fails, and does not end the program. */
    signal(SIGXFSZ, SIG_IGN);
    file = open(words[1], O_WRONLY);
    if (file < 0) {
        fail(words[1], strerror(errno));
        return 2;
    }
    done = append(file, words[1], length);
    close(file); /* what it held is on the disk, or was cut off */
    return done ? 0 : 2;
}
