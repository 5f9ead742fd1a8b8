/* Decodes through the C call and compares the answers with those of document 01. scripts/c_test.sh builds and runs it. */
#include <inttypes.h>
#include <stdio.h>

#include "saigagalena.h"

struct row {
    uint32_t modulus, t, word;
    uint64_t answer;
};

static const struct row rows[] = {
    {17, 4, 16, 0},                             /* the case of document 01: the final mod t */
    {17, 4, 9, 2},                              /* the encoding of 2, Unsigned */
    {17, 4, 8, 2},                              /* and Centered */
    {17, 4, 2, 0},                              /* below half a step */
    {17, 4, 3, 1},                              /* above it */
    {16, 4, 2, 1},                              /* a half rounds up */
    {0, 65536, 4294967295u, 0},                 /* native */
    {0, 65536, 4294934528u, 0},                 /* native, the last half */
    {0, 65536, 4294934527u, 65535},             /* and the word before it */
    {4294967295u, 65536, 2147483648u, 32768},   /* the widest explicit modulus */
    {0, 65537, 0, 0},                           /* t has no limit of its own */
    {0, 1000003, 858993459u, 200001},           /* cents: a fifth of 2^32 is a fifth of 1,000,003 */
    {0, 4294967295u, 4294967295u, 4294967294u}, /* the widest t and word: 65 bits on the way */
    {4294967295u, 4294967294u, 4294967294u, 4294967293u},
    {1, 4, 0, SAIGAGALENA_REFUSED + SAIGAGALENA_MODULUS_BELOW_4},
    {3, 2, 0, SAIGAGALENA_REFUSED + SAIGAGALENA_MODULUS_BELOW_4},
    {17, 0, 0, SAIGAGALENA_REFUSED + SAIGAGALENA_PLAINTEXT_MODULUS},
    {17, 1, 17, SAIGAGALENA_REFUSED + SAIGAGALENA_PLAINTEXT_MODULUS},
    {65537, 65537, 0, SAIGAGALENA_REFUSED + SAIGAGALENA_MODULUS_AT_MOST_T},
    {17, 17, 99, SAIGAGALENA_REFUSED + SAIGAGALENA_MODULUS_AT_MOST_T},
    {17, 16, 16, 15},
    {17, 4, 17, SAIGAGALENA_REFUSED + SAIGAGALENA_WORD_NOT_BELOW_Q},
};

int main(void)
{
    int wrong = 0;
    const size_t n = sizeof rows / sizeof rows[0];

    for (size_t i = 0; i < n; i++) {
        const struct row *r = &rows[i];
        const uint64_t got = saigagalena_decode(r->modulus, r->t, r->word);

        if (got != r->answer) {
            printf("decode(%" PRIu32 ", %" PRIu32 ", %" PRIu32 ") = %" PRIu64 ", not %" PRIu64 "\n", r->modulus, r->t, r->word, got, r->answer);
            wrong++;
        }
    }
    printf("%zu compared, %d wrong\n", n, wrong);
    return wrong != 0;
}
