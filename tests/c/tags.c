/*
 * The tag of each call that writes a ciphertext, sums of tags, and those that a switch and a sample keep, with the numbers written out.
 * Document 01 says "a fresh single secret-key ciphertext has tally E; a public-key, packed or switched one has none", request T-02 "the
 * number c of encryptions summed in it, 1 when fresh, kept by a switch; adding two adds these numbers, and one saved without c is read
 * as c 1 with no tally". The model has no part in this.
 */
#include <stddef.h>
#include <string.h>

#include "saigagalena.h"
#include "same.h"

#define COUNT(list) (sizeof(list) / sizeof(list)[0])
#define NONE SAIGAGALENA_NO_TALLY

/* As both sides hold them. */
_Static_assert(sizeof(saigagalena_tag) == 16, "a tag");
_Static_assert(offsetof(saigagalena_tag, tally) == 0, "its tally");
_Static_assert(offsetof(saigagalena_tag, count) == 8, "its c");
_Static_assert(sizeof(saigagalena_answer) == 24, "an answer");
_Static_assert(offsetof(saigagalena_answer, tag) == 8, "its tag");

static const uint64_t two32 = UINT64_C(1) << 32;

/* q = 17, n = m = 1, t = 4 */
static const uint32_t secret[1] = {1}, mask[2] = {3, 4}, messages[1] = {2};
static const int32_t signed_secret[1] = {-1}, errors[2] = {0, 1}, coefficients[1] = {-1};

/* Tallies are compared as signed numbers; NONE is -1. */
static void same_tag(const char *what, saigagalena_tag got, uint64_t tally, uint32_t c)
{
    same(what, (int64_t)got.tally, (int64_t)tally);
    same(what, got.count, c);
}

/* Refused, there is no tally, and c is 1. */
static void answers(const char *what, saigagalena_answer got, uint32_t refusal, uint64_t tally, uint32_t c)
{
    same(what, got.refusal, refusal);
    same_tag(what, got.tag, tally, c);
}

/* Each call with the limit E: written, the tally is E; for E = 17, which is not below q, 13 and no tally. */
static void compare_fresh(uint32_t E, uint32_t refusal, uint64_t tally)
{
    uint32_t out[4] = {0};

    answers("encoded", saigagalena_encrypt_encoded(17, 1, E, secret, 1, mask, 1, errors, 1, 9, out, 2), refusal, tally, 1);
    answers("encoded, signed", saigagalena_encrypt_encoded_signed(17, 1, E, signed_secret, 1, mask, 1, errors, 1, 9, out, 2),
            refusal, tally, 1);
    answers("message", saigagalena_encrypt_message(17, 1, 4, E, 0, secret, 1, mask, 1, errors, 1, 2, out, 2), refusal, tally, 1);
    answers("message, signed",
            saigagalena_encrypt_message_signed(17, 1, 4, E, 0, signed_secret, 1, mask, 1, errors, 1, 2, out, 2), refusal, tally, 1);
    answers("batch", saigagalena_encrypt_message_batch(17, 1, 4, E, 0, secret, 1, mask, 1, errors, 1, messages, 1, out, 2),
            refusal, tally, 1);
    answers("batch of none", saigagalena_encrypt_message_batch(17, 1, 4, E, 0, secret, 1, NULL, 0, NULL, 0, NULL, 0, NULL, 0),
            refusal, tally, 1);
}

/* Written or refused, there is no tally: E is no tally of these. */
static void compare_without(uint32_t E, uint32_t refusal)
{
    static const uint32_t public_key[2] = {3, 4};
    uint32_t out[2] = {0};

    answers("packed", saigagalena_encrypt_encoded_packed(17, 1, E, secret, 1, mask, 1, errors, 1, messages, 1, out, 2), refusal,
            NONE, 1);
    answers("packed messages",
            saigagalena_encrypt_message_packed(17, 1, 4, E, 0, secret, 1, mask, 1, errors, 1, messages, 1, out, 2), refusal, NONE, 1);
    answers("public", saigagalena_public_key_encrypt_encoded(17, 1, E, public_key, 2, errors, 2, coefficients, 1, 9, out, 2),
            refusal, NONE, 1);
    answers("public message",
            saigagalena_public_key_encrypt_message(17, 1, 4, E, 0, public_key, 2, errors, 2, coefficients, 1, 2, out, 2), refusal,
            NONE, 1);
}

/* --- Sums --- */

struct sum {
    uint64_t x;
    uint32_t x_c;
    uint64_t y;
    uint32_t y_c;
    uint32_t refusal;
    uint64_t tally;
    uint32_t c;
};

static const struct sum sums[] = {
    {3, 1, 4, 1, 0, 7, 2},
    {0, 0, 0, 0, 0, 0, 0}, /* c = 0 has no number of its own */
    {3, 2, NONE, 5, 0, NONE, 7},
    {NONE, 5, 3, 2, 0, NONE, 7},
    {NONE, 0, NONE, 9, 0, NONE, 9},
    /* tallies about 2^32 */
    {UINT64_C(1) << 32, 1, 0, 1, 0, UINT64_C(1) << 32, 2},
    {UINT32_MAX, 1, 1, 1, 0, UINT64_C(1) << 32, 2},
    {UINT64_C(1) << 32, 1, NONE, 1, 0, NONE, 2},
    {UINT64_C(1) << 32, 1, 1, 1, 17, NONE, 1},
    {(UINT64_C(1) << 32) + 1, 1, 0, 1, 17, NONE, 1},
    {0, 1, (UINT64_C(1) << 32) + 1, 1, 17, NONE, 1},
    {UINT64_C(1) << 31, 1, (UINT64_C(1) << 31) + 1, 1, 17, NONE, 1},
    {(UINT64_C(1) << 32) + 1, 1, NONE, 1, 17, NONE, 1},
    {NONE, 1, (UINT64_C(1) << 32) + 1, 1, 17, NONE, 1},
    {NONE - 1, 1, 2, 1, 17, NONE, 1},
    {NONE - 1, 1, NONE - 1, 1, 17, NONE, 1},
    {UINT64_C(1) << 63, 1, UINT64_C(1) << 63, 1, 17, NONE, 1},
    /* c about 65,536: given, summed, and where a sum wraps in 32 bits */
    {7, 65536, 0, 0, 0, 7, 65536},
    {7, 0, 0, 65536, 0, 7, 65536},
    {7, 65535, 2, 1, 0, 9, 65536},
    {7, 32768, 2, 32768, 0, 9, 65536},
    {NONE, 65535, NONE, 1, 0, NONE, 65536},
    {7, 65537, 0, 0, 17, NONE, 1},
    {7, 0, 0, 65537, 17, NONE, 1},
    {7, 65536, 2, 1, 17, NONE, 1},
    {7, 32768, 2, 32769, 17, NONE, 1},
    {7, 65536, 2, 65536, 17, NONE, 1},
    {NONE, 65536, NONE, 1, 17, NONE, 1},
    {NONE, 65536, 2, 1, 17, NONE, 1},
    {7, 1, NONE, 65537, 17, NONE, 1},
    {7, UINT32_MAX, 2, 1, 17, NONE, 1},
    {7, 1, 2, UINT32_MAX, 17, NONE, 1},
    {7, UINT32_MAX, 2, UINT32_MAX, 17, NONE, 1},
    {NONE, UINT32_C(1) << 31, NONE, UINT32_C(1) << 31, 17, NONE, 1},
};

/* (10, 12) + (9, 7) modulo 17, with these tags. Refused, the words stay and the answer has no tally. */
static void compare_sums(void)
{
    for (size_t i = 0; i < COUNT(sums); i++) {
        static const uint32_t y[2] = {9, 7}, sum[2] = {2, 2}, unmoved[2] = {10, 12};
        const struct sum *s = &sums[i];
        uint32_t x[2] = {10, 12};
        const saigagalena_tag x_tag = saigagalena_saved_tag(s->x, s->x_c), y_tag = saigagalena_saved_tag(s->y, s->y_c);

        same_tag("a saved tag", x_tag, s->x, s->x_c);
        same_tag("another", y_tag, s->y, s->y_c);
        answers("sum", saigagalena_add(17, 1, x, 2, x_tag, y, 2, y_tag), s->refusal, s->tally, s->c);
        same("its words", memcmp(x, s->refusal == 0 ? sum : unmoved, sizeof x), 0);
    }
}

/* The other refusals of a sum come before 17, and give no tally either. */
static void compare_refused_sums(void)
{
    static const uint32_t y[2] = {9, 17}, unmoved[2] = {10, 12};
    const saigagalena_tag good = saigagalena_saved_tag(3, 1);
    const saigagalena_tag bad[2] = {saigagalena_saved_tag(two32 + 1, 1), saigagalena_saved_tag(3, 65537)};
    uint32_t x[2] = {10, 12};

    for (size_t i = 0; i < 2; i++) {
        answers("q = 3", saigagalena_add(3, 1, x, 2, good, y, 2, bad[i]), 2, NONE, 1);
        answers("n = 0", saigagalena_add(17, 0, x, 2, good, y, 2, bad[i]), 6, NONE, 1);
        answers("x of one word", saigagalena_add(17, 1, x, 1, bad[i], y, 2, good), 10, NONE, 1);
        answers("y of one word", saigagalena_add(17, 1, x, 2, good, y, 1, bad[i]), 10, NONE, 1);
        answers("y has q", saigagalena_add(17, 1, x, 2, bad[i], y, 2, bad[1 - i]), 14, NONE, 1);
    }
    answers("y has q, tags in order", saigagalena_add(17, 1, x, 2, good, y, 2, good), 14, NONE, 1);
    same("x", memcmp(x, unmoved, sizeof x), 0);
}

/* --- What a sample and a switch keep --- */

/* (9, 12) gives the sample (9, 12), and switched (10, 11): document 01's key of q = 17. */
static const uint32_t key[4] = {3, 5, 4, 13}, input[2] = {9, 12}, switched[2] = {10, 11};

struct kept {
    uint64_t tally;
    uint32_t c;
    uint32_t refusal;
    uint32_t kept; /* c of the output, which has no tally; 1 where it is refused */
};

static const struct kept kept[] = {
    {3, 1, 0, 1}, {3, 0, 0, 0}, {NONE, 1, 0, 1}, {NONE, 4711, 0, 4711}, {0, 65535, 0, 65535}, {0, 65536, 0, 65536},
    {UINT64_C(1) << 32, 2, 0, 2}, {0, 65537, 17, 1}, {NONE, 65537, 17, 1}, {NONE, UINT32_MAX, 17, 1},
    {NONE, UINT32_C(1) << 31, 17, 1}, {(UINT64_C(1) << 32) + 1, 1, 17, 1}, {NONE - 1, 1, 17, 1},
};

/* Refused, the output stays, here 99 and 99. */
static void compare_kept(void)
{
    static const uint32_t unmoved[2] = {99, 99};

    for (size_t i = 0; i < COUNT(kept); i++) {
        const struct kept *k = &kept[i];
        const saigagalena_tag tag = saigagalena_saved_tag(k->tally, k->c);
        uint32_t x[2] = {99, 99}, y[2] = {99, 99};

        answers("body", saigagalena_extract(17, 1, input, 2, tag, 0, x, 2), k->refusal, NONE, k->kept);
        same("its words", memcmp(x, k->refusal == 0 ? input : unmoved, sizeof x), 0);
        answers("switched", saigagalena_key_switch(17, 2, 0, 1, 1, key, 4, input, 2, tag, y, 2), k->refusal, NONE, k->kept);
        same("its words", memcmp(y, k->refusal == 0 ? switched : unmoved, sizeof y), 0);
    }
}

/* What comes before 17, of one sample and one switch: 10, 11, 14. */
static void compare_refused_kept(void)
{
    static const uint32_t of_q[2] = {9, 17};
    const saigagalena_tag bad = saigagalena_saved_tag(0, 65537), good = saigagalena_saved_tag(0, 5);
    uint32_t out[2] = {0};

    answers("no such body", saigagalena_extract(17, 1, input, 2, bad, 1, out, 2), 10, NONE, 1);
    answers("body, one word", saigagalena_extract(17, 1, input, 2, bad, 0, out, 1), 11, NONE, 1);
    answers("body of q", saigagalena_extract(17, 1, of_q, 2, bad, 0, out, 2), 14, NONE, 1);
    answers("body of q, a tag in order", saigagalena_extract(17, 1, of_q, 2, good, 0, out, 2), 14, NONE, 1);
    answers("switched, input", saigagalena_key_switch(17, 2, 0, 1, 1, key, 4, input, 1, bad, out, 2), 10, NONE, 1);
    answers("switched, one word", saigagalena_key_switch(17, 2, 0, 1, 1, key, 4, input, 2, bad, out, 1), 11, NONE, 1);
    answers("switched, of q", saigagalena_key_switch(17, 2, 0, 1, 1, key, 4, of_q, 2, bad, out, 2), 14, NONE, 1);
    same("out", out[0] + out[1], 0);
}

/* --- The tags of a batch --- */

/* Three rows; a tag that is refused by 17 in each of their places, and other numbers of tags. */
static void compare_batch(void)
{
    static const uint32_t rows[6] = {9, 12, 10, 12, 9, 12};
    const saigagalena_tag given[4] = {saigagalena_saved_tag(3, 1), saigagalena_saved_tag(NONE, 70), saigagalena_saved_tag(0, 65536),
                                      saigagalena_saved_tag(8, 9)};
    saigagalena_tag tags[4];
    uint32_t out[6] = {0};

    memcpy(tags, given, sizeof tags);
    same("batch", saigagalena_key_switch_batch(17, 2, 0, 1, 1, key, 4, rows, 6, tags, 3, out, 6), 0);
    same_tag("row 0", tags[0], NONE, 1);
    same_tag("row 1", tags[1], NONE, 70);
    same_tag("row 2", tags[2], NONE, 65536);
    same_tag("a tag beside them", tags[3], 8, 9);
    for (size_t i = 0; i < 6; i++)
        same("a word", out[i], switched[i % 2]);
    same("no row, no tag", saigagalena_key_switch_batch(17, 2, 0, 1, 1, key, 4, NULL, 0, NULL, 0, NULL, 0), 0);
    same("again, of what was switched", saigagalena_key_switch_batch(17, 2, 0, 1, 1, key, 4, rows, 6, tags, 3, out, 6), 0);
    same_tag("row 2 again", tags[2], NONE, 65536);
}

/* A refused batch, whose tags and words must be as they were. */
static void refused_batch(const char *what, const uint32_t *rows, size_t words, const saigagalena_tag *given, size_t count,
                          size_t out_len, uint32_t refusal)
{
    saigagalena_tag tags[4];
    uint32_t out[7] = {0};

    memcpy(tags, given, sizeof tags);
    same(what, saigagalena_key_switch_batch(17, 2, 0, 1, 1, key, 4, rows, words, tags, count, out, out_len), refusal);
    for (size_t i = 0; i < 4; i++)
        same_tag(what, tags[i], given[i].tally, given[i].count);
    for (size_t i = 0; i < 7; i++)
        same(what, out[i], 0);
}

static void compare_refused_batch(void)
{
    static const uint32_t rows[6] = {9, 12, 10, 12, 9, 12}, of_q[6] = {9, 12, 10, 12, 9, 17};
    const saigagalena_tag fine = saigagalena_saved_tag(3, 5);
    const saigagalena_tag bad[4] = {saigagalena_saved_tag(3, 65537), saigagalena_saved_tag(two32 + 1, 1),
                                    saigagalena_saved_tag(NONE, UINT32_MAX), saigagalena_saved_tag(NONE - 1, 0)};
    const saigagalena_tag good[4] = {fine, fine, fine, fine};

    refused_batch("two tags", rows, 6, good, 2, 6, 12);
    refused_batch("four tags", rows, 6, good, 4, 6, 12);
    refused_batch("no tag", rows, 6, good, 0, 6, 12);
    refused_batch("a tag without a row", rows, 0, good, 1, 0, 12);
    refused_batch("10 before 12", rows, 5, good, 4, 6, 10);
    refused_batch("11 before 12", rows, 6, good, 4, 7, 11);
    refused_batch("12 before 14", of_q, 6, good, 4, 6, 12);
    refused_batch("12 before 17", rows, 6, bad, 4, 6, 12);
    refused_batch("14 before 17", of_q, 6, bad, 3, 6, 14);
    refused_batch("14", of_q, 6, good, 3, 6, 14);
    for (size_t row = 0; row < 3; row++) {
        for (size_t i = 0; i < 4; i++) {
            saigagalena_tag tags[4];

            memcpy(tags, good, sizeof tags);
            tags[row] = bad[i];
            refused_batch("one tag", rows, 6, tags, 3, 6, 17);
        }
    }
}

/* Data of an earlier release: c 1, and a tally of it has no way in. */
static void compare_uncounted(void)
{
    static const uint32_t y[2] = {9, 7};
    uint32_t x[2] = {10, 12};
    const saigagalena_tag tag = saigagalena_uncounted_tag();

    same_tag("saved without c", tag, NONE, 1);
    answers("with one of its kind", saigagalena_add(17, 1, x, 2, tag, y, 2, tag), 0, NONE, 2);
    answers("with one that has a tally", saigagalena_add(17, 1, x, 2, saigagalena_saved_tag(3, 4), y, 2, tag), 0, NONE, 5);
    same("no mark", (int64_t)saigagalena_is_good(0, 2, tag), 0);
}

/* --- Passed and returned: all bits of both numbers, wherever the operands before them leave room --- */

static void compare_bits(void)
{
    static const uint64_t tallies[] = {UINT64_C(0x0123456789abcdef), UINT64_C(0xfedcba9876543210), NONE, 0, NONE - 1};
    static const uint32_t counts[] = {UINT32_C(0x89abcdef), UINT32_C(0x76543210), 0, UINT32_MAX, 1};

    for (size_t i = 0; i < COUNT(tallies); i++)
        same_tag("all bits", saigagalena_saved_tag(tallies[i], counts[i]), tallies[i], counts[i]);
}

/* Six words fill the registers before a tag: what each operand is shows in the answer, the sum and the words. */
static void compare_positions(void)
{
    static const uint32_t y[3] = {9, 7, 5}, sum[3] = {2, 2, 6}, packed[4] = {1, 2, 3, 4}, sample[3] = {15, 1, 4};
    uint32_t x[3] = {10, 12, 1}, out[3] = {0}, narrow[2] = {0};

    answers("a sum", saigagalena_add(17, 2, x, 3, saigagalena_saved_tag(1000, 21), y, 3, saigagalena_saved_tag(24, 300)), 0, 1024, 321);
    same("its words", memcmp(x, sum, sizeof x), 0);
    answers("a body", saigagalena_extract(17, 2, packed, 4, saigagalena_saved_tag(24, 301), 1, out, 3), 0, NONE, 301);
    same("its words", memcmp(out, sample, sizeof out), 0);
    answers("a switch", saigagalena_key_switch(17, 2, 0, 1, 1, key, 4, input, 2, saigagalena_saved_tag(24, 302), narrow, 2), 0, NONE, 302);
    same("its words", memcmp(narrow, switched, sizeof narrow), 0);
    same("a mark", (int64_t)saigagalena_is_good(17, 2, saigagalena_saved_tag(3, 2)), 1);
}

int main(void)
{
    compare_fresh(1, 0, 1);
    compare_fresh(16, 0, 16);
    compare_fresh(17, 13, NONE);
    compare_without(1, 0);
    compare_without(16, 0);
    compare_without(17, 13);
    compare_sums();
    compare_refused_sums();
    compare_kept();
    compare_refused_kept();
    compare_batch();
    compare_refused_batch();
    compare_uncounted();
    compare_bits();
    compare_positions();
    return said_same("tags");
}
