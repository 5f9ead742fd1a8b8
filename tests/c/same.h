/* Compares numbers and counts, for programs that have their expected numbers written out. */
#ifndef SAME_H
#define SAME_H

#include <inttypes.h>
#include <stdio.h>

static unsigned compared, wrong;

static inline void same(const char *what, int64_t got, int64_t expected)
{
    compared++;
    if (got == expected)
        return;
    printf("%s: %" PRId64 ", not %" PRId64 "\n", what, got, expected);
    wrong++;
}

/* The status of the program. */
static inline int said_same(const char *program)
{
    printf("%s: %u compared, %u wrong\n", program, compared, wrong);
    return wrong != 0;
}

#endif
