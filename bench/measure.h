/* What the benchmarks share: words to run on, and the processor's time. Wants _POSIX_C_SOURCE 199309L. */
#ifndef MEASURE_H
#define MEASURE_H

#include <stdint.h>
#include <stdlib.h>
#include <time.h>

/* q, of a modulus as the calls take it. */
static inline uint64_t q_of(uint32_t modulus)
{
    return modulus ? modulus : UINT64_C(1) << 32;
}

/* Words below a number up to 2^32; any serve a benchmark. */
static inline uint32_t *words(size_t len, uint64_t below)
{
    static uint64_t state = 1;
    uint32_t *p = malloc(len * sizeof *p);

    if (!p)
        exit(1);
    for (size_t i = 0; i < len; i++) {
        state = state * UINT64_C(6364136223846793005) + UINT64_C(1442695040888963407);
        p[i] = (uint32_t)((state >> 32) * below >> 32);
    }
    return p;
}

static inline double now(void)
{
    struct timespec t;
    clock_gettime(CLOCK_PROCESS_CPUTIME_ID, &t);
    return (double)t.tv_sec + 1e-9 * (double)t.tv_nsec;
}

#endif
