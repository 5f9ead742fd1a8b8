/*
 * The same calls through two archives in one run, in turn: processor time of the one as it is over that of the one before, the least of many runs
 * each. What they write is compared, so a ratio is of equal answers. scripts/bench_before.sh builds it.
 */
#define _POSIX_C_SOURCE 199309L
#include <stdio.h>
#include <string.h>

#include "calls.h"
#include "measure.h"

enum { RUNS = 60, ROWS = MOST_ROWS, N = 630, M = 630, BASE_LOG = 4 };

size_t run_before(enum which which, const struct job *j), run_now(enum which which, const struct job *j); /* run_call of each archive */

typedef size_t run(enum which which, const struct job *j);

static void fail(const char *why)
{
    printf("before: FAILED, %s\n", why);
    exit(1);
}

/* One call from the same output, timed: the least stays in `least`. What it wrote goes to `kept`. */
static size_t once(run *side, enum which which, const struct job *j, const uint32_t *first, size_t len, double *least, uint32_t *kept)
{
    memcpy(j->out, first, len * sizeof *first);
    double start = now();
    size_t wrote = side(which, j);
    double spent = now() - start;
    if (wrote == 0)
        fail("a call was refused");
    *least = spent < *least ? spent : *least;
    memcpy(kept, j->out, wrote * sizeof *kept);
    return wrote;
}

/* Each side is the first in every other run. */
static double ratio(enum which which, const struct job *j, const uint32_t *first, size_t len)
{
    static run *const sides[2] = {run_before, run_now};
    double least[2] = {1e9, 1e9};
    uint32_t *kept[2] = {words(len, 1), words(len, 1)};

    for (int i = 0; i < RUNS; i++) {
        size_t wrote = 0;
        for (int s = 0; s < 2; s++) {
            int side = (i + s) % 2;
            wrote = once(sides[side], which, j, first, len, &least[side], kept[side]);
        }
        if (memcmp(kept[0], kept[1], wrote * sizeof *kept[0]) != 0)
            fail("the two archives wrote different words");
    }
    free(kept[0]), free(kept[1]);
    return least[1] / least[0];
}

static void report(uint32_t modulus, uint32_t t)
{
    const uint64_t q = q_of(modulus);
    size_t bits = 0;
    while (UINT64_C(1) << bits < q)
        bits++;
    struct job j = {.modulus = modulus, .t = t, .error_limit = 3, .base_log = BASE_LOG, .n = N, .m = M, .rows = ROWS};
    const size_t room = ROWS * (M + 1);

    j.key_len = N * (bits / BASE_LOG) * (M + 1);
    j.secret = words(N, 2);
    j.signed_secret = (int32_t *)words(N, 2);
    j.key = words(j.key_len, q);
    j.masks = words(ROWS * N, q);
    j.ciphertexts = words(ROWS * (N + 1), q);
    j.messages = words(ROWS * N, t);
    j.words = words(ROWS * N, q);
    j.errors = (int32_t *)words(ROWS, 4);
    j.out = words(room, q);
    uint32_t *first = words(room, q);
    printf("| %10lu | %5lu |", (unsigned long)modulus, (unsigned long)t);
    for (int which = 0; which < CALLS; which++) {
        printf(" %5.2f |", ratio((enum which)which, &j, first, room));
        fflush(stdout);
    }
    puts("");
    free(j.secret), free(j.signed_secret), free(j.key), free(j.masks), free(j.ciphertexts), free(j.messages), free(j.words);
    free(j.errors), free(j.out), free(first);
}

int main(void)
{
    puts("| modulus (0 native) | t | batch switch | add | encrypt | signed | open | signed | encode | decode |");
    puts("|---|---|---|---|---|---|---|---|---|---|");
    report(65536, 16);
    report(65536, 10);
    report(1u << 31, 16);
    report(0, 16);
    report(65537, 16);
    report(2147483647, 16);
    report(4294967291u, 10);
    return 0;
}
