/*
 * The mark, with the numbers written out: "The mark becomes 2t × tally + c × t < q. A good total, formed by additions from single
 * encryptions of messages under one secret, q and t, must open to the sum of the messages modulo t, with either embedding." The model
 * has no part in this.
 */
#include "saigagalena.h"
#include "same.h"

#define COUNT(list) (sizeof(list) / sizeof(list)[0])
#define NONE SAIGAGALENA_NO_TALLY
#define TWO32 (UINT64_C(1) << 32)

struct mark {
    uint32_t modulus, t;
    uint64_t tally;
    uint32_t c;
    uint64_t answer;
};

static const struct mark marks[] = {
    /* t does not divide q: 3c < 10 without errors, and 6 + 3c < 10 */
    {10, 3, 0, 0, 1}, {10, 3, 0, 1, 1}, {10, 3, 0, 3, 1}, {10, 3, 0, 4, 0}, {10, 3, 1, 0, 1}, {10, 3, 1, 1, 1}, {10, 3, 1, 2, 0},
    {10, 3, 2, 0, 0}, {10, 3, 0, 65536, 0},
    /* equal is not below: q = 12, and one more */
    {12, 3, 1, 1, 1}, {12, 3, 1, 2, 0}, {12, 3, 2, 0, 0}, {12, 3, 0, 3, 1}, {12, 3, 0, 4, 0}, {13, 3, 1, 2, 1}, {13, 3, 2, 0, 1},
    {13, 3, 0, 4, 1}, {13, 3, 0, 5, 0},
    /* document 01's 14 < 17 at a tally of 3, and 18 at 4 */
    {17, 2, 3, 1, 1}, {17, 2, 3, 2, 1}, {17, 2, 3, 3, 0}, {17, 2, 4, 0, 1}, {17, 2, 4, 1, 0},
    /* native */
    {0, 65536, 0, 65535, 1}, {0, 65536, 0, 65536, 0}, {0, 65536, 1, 65533, 1}, {0, 65536, 1, 65534, 0}, {0, 65535, 0, 65536, 1},
    {0, 65535, 0, 65535, 1}, {0, 65536, 32767, 1, 1}, {0, 65536, 32768, 0, 0}, {0, 2, 1073741823, 1, 1}, {0, 2, 1073741823, 2, 0},
    {0, 2, 1073741824, 0, 0}, {0, UINT32_MAX, 0, 1, 1}, {0, UINT32_MAX, 0, 2, 0}, {0, UINT32_MAX, 1, 0, 0}, {0, UINT32_MAX, 0, 0, 1},
    {0, UINT32_MAX, 0, 65536, 0},
    /* past 64 bits, where 2t * tally is 2^64 or more */
    {0, 2147483648u, TWO32, 0, 0}, {0, 2147483648u, TWO32, 1, 0}, {0, UINT32_MAX, TWO32, 0, 0}, {0, UINT32_MAX, TWO32, 65536, 0},
    /* without a tally there is no mark */
    {0, 2, NONE, 0, 0}, {0, 2, NONE, 1, 0}, {10, 3, NONE, 65536, 0},
    /* 17, and what comes before it; 65,536 and 2^32 themselves are served */
    {0, 2, TWO32, 65536, 0}, {0, 2, TWO32 + 1, 1, TWO32 + 17}, {0, 2, NONE - 1, 1, TWO32 + 17}, {0, 2, 0, 65537, TWO32 + 17},
    {0, 2, NONE, 65537, TWO32 + 17}, {0, 2, 0, UINT32_MAX, TWO32 + 17}, {0, 2, NONE, 2147483648u, TWO32 + 17},
    {3, 2, 0, 65537, TWO32 + 2}, {17, 1, 0, 65537, TWO32 + 7}, {17, 17, 0, 65537, TWO32 + 8}, {17, 17, TWO32 + 1, 1, TWO32 + 8},
};

static void compare_marks(void)
{
    for (size_t i = 0; i < COUNT(marks); i++) {
        const struct mark *m = &marks[i];
        char what[99];

        snprintf(what, sizeof what, "q %" PRIu32 ", t %" PRIu32 ", tally %" PRIu64 ", c %" PRIu32, m->modulus, m->t, m->tally, m->c);
        same(what, (int64_t)saigagalena_is_good(m->modulus, m->t, saigagalena_saved_tag(m->tally, m->c)), (int64_t)m->answer);
    }
}

/* --- Totals of q = 10, t = 3 and E = 0: 1 is encoded as 3, 2 as 7; c messages are c roundings --- */

struct total {
    uint32_t message, c, good, opens;
};

/* Three ones are marked good and open to 0, as 3 modulo 3; of six, which opened good before, the six roundings make 8, which opens to 2. */
static const struct total totals[] = {
    {1, 1, 1, 1}, {1, 2, 1, 2}, {1, 3, 1, 0}, {1, 4, 0, 1}, {1, 5, 0, 2}, {1, 6, 0, 2},
    {2, 1, 1, 2}, {2, 2, 1, 1}, {2, 3, 1, 0}, {2, 4, 0, 2}, {2, 5, 0, 2}, {2, 6, 0, 1},
    {0, 6, 0, 0},
};

static const uint32_t secret[1] = {7};

static saigagalena_tag encrypted(uint32_t message, uint32_t centered, uint32_t place, uint32_t out[2])
{
    const uint32_t mask[1] = {(3 * place + 4) % 10};
    static const int32_t no_error[1] = {0};

    return saigagalena_encrypt_message(10, 1, 3, 0, centered, secret, 1, mask, 1, no_error, 1, message, out, 2).tag;
}

static void compare_total(const struct total *total, uint32_t centered)
{
    uint32_t x[2] = {0}, y[2] = {0};
    saigagalena_tag tag = encrypted(total->message, centered, 0, x);

    for (uint32_t i = 1; i < total->c; i++) {
        const saigagalena_tag one = encrypted(total->message, centered, i, y);
        const saigagalena_answer sum = saigagalena_add(10, 1, x, 2, tag, y, 2, one);

        same("added", sum.refusal, 0);
        tag = sum.tag;
    }
    same("its tally", (int64_t)tag.tally, 0);
    same("its c", tag.count, total->c);
    same("its mark", (int64_t)saigagalena_is_good(10, 3, tag), total->good);
    same("opened", (int64_t)saigagalena_decrypt_message(10, 1, 3, secret, 1, x, 2), total->opens);
}

/* A total whose errors are all E, natively, at the edge: t = 2^16 and E = 100 have 201 in each, so 326 are good and 327 are not. */
static uint32_t good_with(uint32_t count, uint32_t centered)
{
    static const uint32_t mask[1] = {123456789};
    static const int32_t error[1] = {100};
    uint32_t x[2] = {0}, y[2] = {0};
    saigagalena_tag tag = saigagalena_encrypt_message(0, 1, 65536, 100, centered, secret, 1, mask, 1, error, 1, 65535, x, 2).tag;

    for (uint32_t i = 1; i < count; i++) {
        const saigagalena_tag one = saigagalena_encrypt_message(0, 1, 65536, 100, centered, secret, 1, mask, 1, error, 1, 65535, y, 2).tag;

        tag = saigagalena_add(0, 1, x, 2, tag, y, 2, one).tag;
    }
    same("the tally", (int64_t)tag.tally, 100 * (int64_t)count);
    same("c", tag.count, count);
    same("opened", (int64_t)saigagalena_decrypt_message(0, 1, 65536, secret, 1, x, 2), 65536 - (int64_t)count);
    return (uint32_t)saigagalena_is_good(0, 65536, tag);
}

int main(void)
{
    compare_marks();
    for (uint32_t centered = 0; centered < 2; centered++) {
        for (size_t i = 0; i < COUNT(totals); i++)
            compare_total(&totals[i], centered);
        same("326", good_with(326, centered), 1);
        same("327", good_with(327, centered), 0);
    }
    return said_same("marks");
}
