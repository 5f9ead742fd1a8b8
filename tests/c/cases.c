/* The cases that document 01 writes out, through C. The numbers are the document's own; the model has no part in this. */
#include <string.h>

#include "saigagalena.h"
#include "same.h"

#define COUNT(list) (sizeof(list) / sizeof(list)[0])

struct reading_case {
    uint32_t modulus, levels, word;
    int64_t reading, error, digits[2]; /* the digits of one level have 0 as the second */
};

static const struct reading_case readings[] = {
    {17, 0, 0, 0, 0, {0, 0}},   {17, 0, 10, 10, 0, {1, 1}},  {17, 0, 11, -6, 0, {1, -1}}, {17, 0, 12, -4, -1, {-2, 0}},
    {17, 0, 16, 0, -1, {0, 0}}, {17, 0, 9, 10, -1, {1, 1}},  {16, 0, 5, 5, 0, {1, 1}},    {16, 0, 6, -10, 0, {-2, -2}},
    {16, 0, 15, -1, 0, {-1, 0}}, {16, 1, 5, 4, 1, {1, 0}},   {16, 1, 6, -8, -2, {-2, 0}},
};

static void compare_readings(void)
{
    for (size_t i = 0; i < COUNT(readings); i++) {
        const struct reading_case *c = &readings[i];
        int64_t out[2] = {99, 99};
        uint32_t digits[2] = {0, 0};
        const size_t levels = c->levels == 1 ? 1 : 2;

        same("reading", saigagalena_reading(c->modulus, 2, c->levels, c->word, out, 2), 0);
        same("reading", out[0], c->reading);
        same("error", out[1], c->error);
        same("decompose", saigagalena_decompose(c->modulus, 2, c->levels, &c->word, 1, digits, levels), 0);
        for (size_t j = 0; j < 2; j++)
            same("digit", digits[j], c->digits[j] < 0 ? c->modulus + c->digits[j] : c->digits[j]);
    }
}

/* basis 17 5 2 2 1 1 11: k, B, L, d, H, T */
static void compare_bases(void)
{
    static const uint32_t expected[6] = {5, 4, 2, 1, 1, 11};
    uint32_t out[6] = {0};

    same("basis", saigagalena_basis(17, 2, 0, out, 6), 0);
    for (size_t i = 0; i < 6; i++)
        same("basis word", out[i], expected[i]);
    same("native, base log 31", saigagalena_basis(0, 31, 0, out, 6), 0);
    same("its levels", out[2], 1);
    same("its dropped bits", out[3], 1);
    same("native, base log 32", saigagalena_basis(0, 32, 0, out, 6), 1);
    same("q = 4", saigagalena_basis(4, 2, 0, out, 6), 0);
    same("q = 3", saigagalena_basis(3, 2, 0, out, 6), 2);
    same("q = 17, L = 3", saigagalena_basis(17, 2, 3, out, 6), 5);
}

/* "q = 16 gives 1, 6, 9 and q = 17 gives 2, 8, 7" (T-13), with base log 2 and L left open */
static void compare_counts(void)
{
    static const uint32_t expected[2][3] = {{1, 6, 9}, {2, 8, 7}};
    uint32_t out[4] = {99, 99, 99, 99};

    for (uint32_t i = 0; i < 2; i++) {
        same("counts", saigagalena_digit_counts(16 + i, 2, 0, out, 3), 0);
        for (size_t j = 0; j < 3; j++)
            same("a count", out[j], expected[i][j]);
    }
    same("counts, native, base log 31", saigagalena_digit_counts(0, 31, 0, out, 2), 0);
    same("no digit", out[0], 2);
    same("one digit", out[1], INT64_C(4294967294));
    same("counts, 65536", saigagalena_digit_counts(65536, 16, 0, out, 2), 0);
    same("counts, 65537", saigagalena_digit_counts(65537, 16, 0, out, 2), 26);
    same("counts, 65537, one more level than fits", saigagalena_digit_counts(65537, 16, 2, out, 3), 5);
    same("counts, 65537, no room", saigagalena_digit_counts(65537, 16, 0, NULL, 0), 26);
    same("counts, no room", saigagalena_digit_counts(17, 2, 0, out, 2), 11);
    same("a number beside them", out[3], 99);
}

static void compare_switches(void)
{
    static const uint32_t secret[1] = {1}, masks[2] = {3, 4}, inputs[2][2] = {{9, 12}, {10, 12}};
    static const int32_t errors[2] = {0, 1};
    static const uint32_t expected[4] = {3, 5, 4, 13};
    const saigagalena_tag fresh = saigagalena_saved_tag(1, 1);
    uint32_t key[4] = {0};

    same("key", saigagalena_switching_key_generate(17, 2, 0, 1, 1, 1, secret, 1, secret, 1, masks, 2, errors, 2, key, 4), 0);
    for (size_t i = 0; i < 4; i++)
        same("key word", key[i], expected[i]);
    for (size_t i = 0; i < 2; i++) {
        uint32_t out[2] = {0};

        same("switch", saigagalena_key_switch(17, 2, 0, 1, 1, key, 4, inputs[i], 2, fresh, out, 2).refusal, 0);
        same("mask", out[0], 10);
        same("body", out[1], 11);
        same("output phase", (int64_t)saigagalena_decrypt_phase(17, 1, secret, 1, out, 2), 1);
    }
    same("input phase", (int64_t)saigagalena_decrypt_phase(17, 1, secret, 1, inputs[0], 2), 3);
}

static void compare_limits(void)
{
    static uint32_t words[2 * 2050], out[2 * 2050];
    const saigagalena_tag none = saigagalena_saved_tag(SAIGAGALENA_NO_TALLY, 1);

    same("encode", (int64_t)saigagalena_encode(17, 4, 0, 2), 9);
    same("encode, centered", (int64_t)saigagalena_encode(17, 4, 1, 2), 8);
    same("decode", (int64_t)saigagalena_decode(17, 4, 16), 0);
    same("n = 2048", saigagalena_add(0, 2048, out, 2049, none, words, 2049, none).refusal, 0);
    same("n = 2049", saigagalena_add(0, 2049, out, 2050, none, words, 2050, none).refusal, 6);
    same("packed, n bodies", saigagalena_decrypt_phase_packed(0, 2048, words, 2048, words, 4096, out, 2048), 0);
    same("packed, n + 1 bodies", saigagalena_decrypt_phase_packed(0, 2048, words, 2048, words, 4097, out, 2049), 10);
}

/* What only C can say: null with length 0 is an empty slice. */
static void compare_nulls(void)
{
    static const uint32_t key[4] = {3, 5, 4, 13};
    const saigagalena_tag none = saigagalena_uncounted_tag();
    uint32_t word = 7;

    same("no words", saigagalena_decompose(17, 2, 0, NULL, 0, NULL, 0), 0);
    same("no messages", saigagalena_encode_slice(17, 4, 0, NULL, 0, NULL, 0), 0);
    same("no phases", saigagalena_decode_slice(17, 4, NULL, 0, NULL, 0), 0);
    same("no rows", saigagalena_key_switch_batch(17, 2, 0, 1, 1, key, 4, NULL, 0, NULL, 0, NULL, 0), 0);
    same("no key", saigagalena_key_switch_batch(17, 2, 0, 1, 1, NULL, 0, NULL, 0, NULL, 0, NULL, 0), 9);
    same("no ciphertext", saigagalena_key_switch(17, 2, 0, 1, 1, key, 4, NULL, 0, none, &word, 1).refusal, 10);
    same("no output", saigagalena_basis(17, 2, 0, NULL, 0), 11);
    same("a word that was lent", word, 7);
}

/* The limits of the lengths: their smallest and their largest. */
static void compare_lengths(void)
{
    const int64_t refused = (int64_t)SAIGAGALENA_REFUSED;

    same("a ciphertext, n = 1", (int64_t)saigagalena_ciphertext_words(1), 2);
    same("a ciphertext, n = 2048", (int64_t)saigagalena_ciphertext_words(2048), 2049);
    same("a ciphertext, n = 0", (int64_t)saigagalena_ciphertext_words(0), refused + 6);
    same("a ciphertext, n = 2049", (int64_t)saigagalena_ciphertext_words(2049), refused + 6);
    same("a ciphertext, n = 2^64 - 1", (int64_t)saigagalena_ciphertext_words(SIZE_MAX), refused + 6);
    same("packed, none", (int64_t)saigagalena_packed_words(5, 0), 5);
    same("packed, n bodies", (int64_t)saigagalena_packed_words(2048, 2048), 4096);
    same("packed, n + 1 bodies", (int64_t)saigagalena_packed_words(2048, 2049), refused + 10);
    same("packed, 6 before 10", (int64_t)saigagalena_packed_words(0, 1), refused + 6);
    same("a public key", (int64_t)saigagalena_public_key_words(2048), 2048 * 2049);
    same("a public key, n = 2049", (int64_t)saigagalena_public_key_words(2049), refused + 6);
    same("a switching key, L = 2", (int64_t)saigagalena_switching_key_words(17, 2, 0, 3, 4), 3 * 2 * 5);
    same("the largest", (int64_t)saigagalena_switching_key_words(0, 2, 16, 2048, 2048), INT64_C(2048) * 16 * 2049);
    same("its base log", (int64_t)saigagalena_switching_key_words(0, 32, 1, 1, 1), refused + 1);
    same("its modulus", (int64_t)saigagalena_switching_key_words(3, 2, 0, 1, 1), refused + 2);
    same("its base", (int64_t)saigagalena_switching_key_words(4, 3, 0, 1, 1), refused + 3);
    same("its levels", (int64_t)saigagalena_switching_key_words(17, 2, 3, 0, 1), refused + 5);
    same("its n", (int64_t)saigagalena_switching_key_words(17, 2, 2, 0, 1), refused + 6);
    same("its m", (int64_t)saigagalena_switching_key_words(17, 2, 2, 1, 2049), refused + 6);
}

/* Every number of document 01 has a text of its own, and no other number has one. */
static void compare_texts(void)
{
    const char *const unknown = "unknown refusal";

    for (uint32_t x = 0; x <= 19; x++) {
        same("a text is there", strcmp(saigagalena_refusal_text(x), unknown) != 0 && *saigagalena_refusal_text(x) != 0, 1);
        for (uint32_t y = 0; y < x; y++)
            same("texts differ", strcmp(saigagalena_refusal_text(x), saigagalena_refusal_text(y)) != 0, 1);
    }
    same("17 is the tally's", strstr(saigagalena_refusal_text(SAIGAGALENA_TALLY), "tally") != NULL, 1);
    same("and that of c", strstr(saigagalena_refusal_text(SAIGAGALENA_TALLY), "encryptions 65536") != NULL, 1);
    same("12 is the tags' too", strstr(saigagalena_refusal_text(SAIGAGALENA_LENT_LENGTH), "tags") != NULL, 1);
    same("13 is the limit's", strstr(saigagalena_refusal_text(SAIGAGALENA_ERROR_LIMIT), "error limit") != NULL, 1);
    same("26 is the large modulus's", strstr(saigagalena_refusal_text(SAIGAGALENA_LARGE_MODULUS), "65536") != NULL, 1);
    same("no text of 25", strcmp(saigagalena_refusal_text(25), unknown), 0);
    same("no text of 20", strcmp(saigagalena_refusal_text(20), unknown), 0);
    same("no text of 2^32 - 1", strcmp(saigagalena_refusal_text(UINT32_MAX), unknown), 0);
}

int main(void)
{
    same("the release", saigagalena_version(), SAIGAGALENA_VERSION);
    compare_readings();
    compare_bases();
    compare_counts();
    compare_switches();
    compare_limits();
    compare_nulls();
    compare_lengths();
    compare_texts();
    return said_same("cases");
}
