/*
 * What the programs that hold include/mellansko.h to the calls have in common. Each prints the
 * lines that do not hold.
 */
#include <stdio.h>
#include <string.h>

#include "mellansko.h"

#define HEADER 7

/* An answer and more words after it, all ones before a call. */
static struct {
    struct mellansko_answer answer;
    uint64_t after[8];
} lent_answer;

static int failures;

static void holds(int line, const char *what, int claim)
{
    if (!claim) {
        printf("line %d: %s\n", line, what);
        failures++;
    }
}

static void unwritten(void)
{
    memset(&lent_answer, 0xFF, sizeof lent_answer);
}

/* The kind is returned, all ten words are written, and no other. */
static void answered(int line, uint64_t kind, const uint64_t *expected)
{
    size_t i;
    holds(line, "the kind", kind == expected[0]);
    for (i = 0; i < MELLANSKO_ANSWER; i++)
        holds(line, "answer", lent_answer.answer.words[i] == expected[i]);
    for (i = 0; i < sizeof lent_answer.after / sizeof *lent_answer.after; i++)
        holds(line, "what lies after the answer", lent_answer.after[i] == UINT64_MAX);
}

/* The words that are not named are 0. */
#define ANSWER(...) (const uint64_t[MELLANSKO_ANSWER]){__VA_ARGS__}
