/* Where the time of a batch switch goes, through the C calls: the checks alone (the same call with a last word that is not below q is
 * refused by 14 after every check; natively every word is, and an output one word short is refused by 11), the digits of the same
 * mask words alone, and the rest. Processor time, the least of several runs. */
#include <stdio.h>

#include "measure.h"
#include "saigagalena.h"

enum { RUNS = 7, BASE_LOG = 4, BATCH = 64 };

struct job {
    uint32_t modulus;
    size_t n, m, levels;
    uint32_t *key, *input, *out, *mask, *digits;
    size_t key_len, input_len, out_len, mask_len;
};

/* Release 6 is the first whose batch of switches is lent tags. */
static uint32_t switch_batch(struct job *j, size_t out_len)
{
#if SAIGAGALENA_VERSION >= 6
    static saigagalena_tag tags[BATCH];

    return saigagalena_key_switch_batch(j->modulus, BASE_LOG, 0, j->n, j->m, j->key, j->key_len, j->input, j->input_len, tags, BATCH,
                                        j->out, out_len);
#else
    return saigagalena_key_switch_batch(j->modulus, BASE_LOG, 0, j->n, j->m, j->key, j->key_len, j->input, j->input_len, j->out, out_len)
        .refusal;
#endif
}

static uint32_t whole(struct job *j)
{
    return switch_batch(j, j->out_len);
}

static uint32_t checks(struct job *j)
{
    uint32_t *last = &j->input[j->input_len - 1], good = *last;
    size_t shorter = j->modulus ? 0 : 1;

    *last = UINT32_MAX;
    uint32_t answer = switch_batch(j, j->out_len - shorter);
    *last = good;
    return answer;
}

static uint32_t digits(struct job *j)
{
    return saigagalena_decompose(j->modulus, BASE_LOG, 0, j->mask, j->mask_len, j->digits, j->mask_len * j->levels);
}

/* Seconds of the quickest run; the answer must be the one expected. */
static double least(uint32_t (*part)(struct job *), struct job *j, uint32_t expected)
{
    double best = 1e9;
    for (int i = 0; i < RUNS; i++) {
        double start = now();
        uint32_t answer = part(j);
        double spent = now() - start;
        if (answer != expected)
            exit(1);
        if (spent < best)
            best = spent;
    }
    return best;
}

static struct job prepared(uint32_t modulus, size_t n, size_t m)
{
    uint32_t basis[6];
    if (saigagalena_basis(modulus, BASE_LOG, 0, basis, 6))
        exit(1);
    struct job j = {.modulus = modulus, .n = n, .m = m, .levels = basis[2]};
    j.key_len = n * j.levels * (m + 1);
    j.input_len = BATCH * (n + 1);
    j.out_len = BATCH * (m + 1);
    j.mask_len = BATCH * n;
    j.key = words(j.key_len, q_of(modulus));
    j.input = words(j.input_len, q_of(modulus));
    j.out = words(j.out_len, q_of(modulus));
    j.mask = words(j.mask_len, q_of(modulus));
    j.digits = words(j.mask_len * j.levels, q_of(modulus));
    return j;
}

static void report(uint32_t modulus, size_t n, size_t m)
{
    struct job j = prepared(modulus, n, m);
    uint32_t refusal = modulus ? SAIGAGALENA_WORD_NOT_BELOW_Q : SAIGAGALENA_OUTPUT_LENGTH;
    double all = least(whole, &j, 0), judged = least(checks, &j, refusal), read = least(digits, &j, 0);
    printf("| %10lu | %4zu / %4zu | %7.1f ms | %4.1f %% | %4.1f %% | %4.1f %% |\n", (unsigned long)modulus, n, m, 1e3 * all,
           100 * judged / all, 100 * read / all, 100 * (all - judged - read) / all);
    free(j.key);
    free(j.input);
    free(j.out);
    free(j.mask);
    free(j.digits);
}

int main(void)
{
    if (saigagalena_version() != SAIGAGALENA_VERSION)
        return 1;
    static const uint32_t moduli[] = {0, 2147483629, 65536};
    puts("| modulus (0 native) | n / m | a batch of 64 | checks | digits | sums |\n|---|---|---|---|---|---|");
    for (size_t i = 0; i < sizeof moduli / sizeof *moduli; i++) {
        report(moduli[i], 630, 630);
        report(moduli[i], 1024, 571);
    }
    return 0;
}
