/*
 * A race day's journal: written, read back, read with a byte changed, and read after a cut; and one
 * that an early LevelDB writer could have begun.
 *
 *   (cd crates/mellansko && rt lib --cpu x86-64) &&
 *   cc -std=c99 -Iinclude examples/journal.c crates/mellansko/out/libmellansko.a -o journal &&
 *   ./journal
 */
#include <inttypes.h>
#include <stdio.h>
#include <string.h>

#include "mellansko.h"

/* What is lent: room for the log, and for a record that lies in several blocks. */
static uint8_t journal[80];
static uint8_t buffer[MELLANSKO_LONGEST_RECORD];

/* Appends a record at the mark, and gives the new mark; the old one, if there is a refusal. */
static size_t append(size_t mark, const char *text)
{
    struct mellansko_answer answer;
    const uint8_t *record = (const uint8_t *)text;
    switch (mellansko_append(journal, sizeof journal, mark, record, strlen(text), &answer)) {
    case MELLANSKO_ACCEPTED:
        printf("appended up to %" PRIu64 "\n", answer.accepted.mark);
        return answer.accepted.mark;
    default: /* MELLANSKO_APPEND_REFUSED */
        printf("refused at %" PRIu64 ", %s: %s\n", answer.refused.given,
               mellansko_refusal_text(answer.refused.number), text);
        return answer.refused.given;
    }
}

/* Reads the journal's first bytes as a log, from answer to answer up to the end. */
static void read_all(size_t length)
{
    struct mellansko_answer answer;
    const uint8_t *bytes;
    size_t place = 0;
    for (;;) {
        switch (mellansko_next(journal, length, place, sizeof buffer, buffer, sizeof buffer,
                               &answer)) {
        case MELLANSKO_RECORD:
            bytes = answer.record.stored == MELLANSKO_WHOLE ? journal + answer.record.data : buffer;
            printf("record %" PRIu64 " to %" PRIu64 ": ", answer.record.start, answer.record.end);
            fwrite(bytes, 1, answer.record.length, stdout);
            printf("\n");
            break;
        case MELLANSKO_SKIP:
            printf("%s %" PRIu64 " to %" PRIu64 ": %s\n",
                   mellansko_reason_is_loss(answer.skip.reason) ? "in doubt" : "skipped",
                   answer.skip.start, answer.skip.end, mellansko_reason_text(answer.skip.reason));
            break;
        case MELLANSKO_END:
            if (answer.end.tail == MELLANSKO_TORN)
                printf("torn from %" PRIu64 " to %zu\n", answer.end.start, length);
            else
                printf("clean end at %" PRIu64 "\n", answer.end.place);
            return;
        default: /* MELLANSKO_NEXT_REFUSED */
            printf("refused at %" PRIu64 ": %s\n", answer.refused.given,
                   mellansko_refusal_text(answer.refused.number));
            return;
        }
        place = answer.place;
    }
}

int main(void)
{
    size_t mark = 0;
    mark = append(mark, "factor LW10-1 0.9137");
    mark = append(mark, "start 17 LW10-1");
    mark = append(mark, "finish 17 2:04.31");
    /* For this one the journal has no room left. */
    mark = append(mark, "finish 18 2:07.90");

    printf("as written\n");
    read_all(mark);

    /* A byte of the second record: all that comes after it in its block is in doubt too. */
    printf("with byte 40 changed\n");
    journal[40] ^= 1;
    read_all(mark);
    journal[40] ^= 1;

    printf("cut 5 bytes before its end\n");
    read_all(mark - 5);

    /* A record begun with no bytes, and then begun again: skipped, but not in doubt. */
    printf("with an empty start\n");
    memcpy(journal, "\x64\x51\xd0\xe9\0\0\2", 7);
    mark = append(7, "factor LW10-1 0.9137");
    read_all(mark);
    /* What could not be written was not said. */
    return fflush(stdout) != 0 || ferror(stdout);
}
