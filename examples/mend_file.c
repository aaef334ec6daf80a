/*
 * Mends a journal: writes the records that can be read in the file BAD into a new file NEW, and
 * prints how many bytes that has, and how many of BAD were skipped.
 *
 *   cc -std=c99 -Iinclude examples/mend_file.c crates/mellansko/out/libmellansko.a \
 *     -o mend_file &&
 *   ./mend_file samples/damaged.log mended.log
 *
 * BAD is only read, and no file is written over: there must be none called NEW. If NEW could not be
 * written whole, or not be brought to the disk, it is removed again; if that fails too, it says so.
 * If the power goes meanwhile, NEW may hold a part, which may read as whole: remove it, and mend
 * again. Only the file is brought to the disk, not its folder: if the power goes soon afterwards,
 * NEW's name may be missing.
 *
 * NEW reads as whole. It does not show that anything was lost, nor where: of BAD, as far as a
 * reader can tell, examples/read_file.c says where. Not counted as skipped are empty starts, which
 * are no loss, and a torn tail, which is lost too. So keep BAD.
 *
 * It holds both journals in memory, each with as many bytes as BAD has: a mended journal is never
 * longer than the bad one.
 *
 * The exit status is 0 if NEW is written, whatever was skipped. It is 2 if not, or if the lines
 * could not be printed.
 */
#define _POSIX_C_SOURCE 200809L
#include <errno.h>
#include <fcntl.h>
#include <inttypes.h>
#include <signal.h>
#include <stdio.h>
#include <stdlib.h>
#include <string.h>
#include <sys/stat.h>
#include <unistd.h>

#include "mellansko.h"

/* Both journals, and how many bytes each has room for: one more than BAD has. */
static uint8_t *bad, *fresh;
static size_t room;
static uint8_t buffer[MELLANSKO_LONGEST_RECORD];

static int fail(const char *name, const char *why)
{
    fprintf(stderr, "%s: nothing was mended: %s\n", name, why);
    return 0;
}

/* Takes the memory for a file and for what is made of it, and gives whether it could. */
static int make_room(FILE *file, const char *name)
{
    struct stat about;
    if (fstat(fileno(file), &about) != 0)
        return fail(name, strerror(errno));
    if (!S_ISREG(about.st_mode))
        return fail(name, "it is not a plain file, and only such a one has a length");
    if (about.st_size > MELLANSKO_LONGEST_LOG)
        return fail(name, mellansko_refusal_text(MELLANSKO_LOG_TOO_LONG));
    /* A file that has grown meanwhile shows by the byte more. */
    room = (size_t)about.st_size + 1;
    bad = malloc(room);
    fresh = malloc(room);
    return bad != NULL && fresh != NULL ? 1 : fail(name, strerror(errno));
}

/* Reads all of a file, and gives whether it could. */
static int read_file(const char *name)
{
    FILE *file = fopen(name, "rb");
    int whole;
    if (file == NULL)
        return fail(name, strerror(errno));
    whole = make_room(file, name);
    if (whole && (fread(bad, 1, room, file) != room - 1 || ferror(file)))
        whole = fail(name, ferror(file) ? strerror(errno) : "its length and its bytes differ");
    fclose(file); /* it was only read: nothing is lost if this fails */
    return whole;
}

/* Writes all of the fresh log's first bytes, however many calls that takes, and on to the disk. */
static int write_all(int file, size_t length)
{
    size_t done = 0;
    while (done < length) {
        ssize_t written = pwrite(file, fresh + done, length - done, (off_t)done);
        if (written < 0 && errno == EINTR)
            continue;
        if (written == 0)
            errno = EIO; /* nothing was written, and no reason given */
        if (written <= 0)
            return 0;
        done += (size_t)written;
    }
    return fsync(file) == 0;
}

/* Makes a file of the fresh log's first bytes: all of them, or none is left. */
static int put(const char *name, size_t length)
{
    const char *why = NULL;
    /* What is there already is not opened, not even by way of a link. */
    int file = open(name, O_WRONLY | O_CREAT | O_EXCL, 0666);
    if (file < 0)
        return fail(name, strerror(errno));
    if (!write_all(file, length))
        why = strerror(errno);
    if (close(file) != 0 && why == NULL)
        why = strerror(errno);
    if (why == NULL)
        return 1;
    if (unlink(name) == 0)
        return fail(name, why);
    fprintf(stderr, "%s: could not be written (%s), nor be removed: do not use it\n", name, why);
    return 0;
}

/* Mends the bad log into a new file, and gives whether that is there and was said. */
static int mend(const char *bad_name, const char *new_name)
{
    struct mellansko_answer answer;
    size_t length = room - 1;
    switch (mellansko_mend(bad, length, fresh, length, sizeof buffer, buffer, sizeof buffer,
                           &answer)) {
    case MELLANSKO_MENDED:
        break;
    default: /* MELLANSKO_MEND_REFUSED: of no call that is made here */
        return fail(bad_name, mellansko_refusal_text(answer.refused.number));
    }
    if (!put(new_name, (size_t)answer.mended.length))
        return 0;
    printf("written to %s: %" PRIu64 " bytes\n", new_name, answer.mended.length);
    printf("skipped in %s: %" PRIu64 " bytes, with no empty start or torn tail counted\n", bad_name,
           answer.mended.skipped);
    if (fflush(stdout) == 0 && !ferror(stdout))
        return 1;
    fprintf(stderr, "%s: is written, but what was skipped could not be printed\n", new_name);
    return 0;
}

int main(int count, char **words)
{
    int done;
    if (count != 3) {
        fprintf(stderr, "usage: mend_file BAD NEW\n");
        return 2;
    }
    /* A write above the size that files may have then fails, and does not end the program. */
    signal(SIGXFSZ, SIG_IGN);
    done = read_file(words[1]) && mend(words[1], words[2]);
    free(bad);
    free(fresh);
    return done ? 0 : 2;
}
