/*
 * Errors as words, with the numbers written out: "a word w counts as w when w <= q/2, otherwise as w - q. The limit E applies to the
 * signed value. A word not below q gets 14, one outside [-E .. E] gets 15." The model has no part in this.
 */
#include <string.h>

#include "saigagalena.h"
#include "same.h"

#define COUNT(list) (sizeof(list) / sizeof(list)[0])
#define HALF UINT32_C(2147483648)
#define NONE SAIGAGALENA_NO_TALLY
#define WORDS(call) saigagalena_##call##_error_words

struct word_case {
    uint32_t modulus, E, word, refusal;
    int64_t error; /* what the word counts as, where it is not refused */
};

static const struct word_case words[] = {
    /* q/2 itself, and the words beside it */
    {16, 8, 8, 0, 8}, {16, 7, 8, 15, 0}, {16, 7, 7, 0, 7}, {16, 6, 7, 15, 0}, {16, 7, 9, 0, -7}, {16, 6, 9, 15, 0},
    {4, 2, 2, 0, 2}, {4, 1, 2, 15, 0}, {4, 1, 1, 0, 1}, {4, 1, 3, 0, -1}, {4, 3, 2, 0, 2},
    {65536, 32768, 32768, 0, 32768}, {65536, 32767, 32768, 15, 0}, {65536, 32767, 32769, 0, -32767},
    /* an odd q: floor(q/2) and the word after it */
    {17, 8, 8, 0, 8}, {17, 7, 8, 15, 0}, {17, 8, 9, 0, -8}, {17, 7, 9, 15, 0}, {17, 16, 9, 0, -8},
    {5, 2, 2, 0, 2}, {5, 2, 3, 0, -2}, {5, 1, 2, 15, 0}, {5, 1, 3, 15, 0},
    /* the ends */
    {16, 0, 0, 0, 0}, {16, 0, 1, 15, 0}, {16, 0, 15, 15, 0}, {16, 1, 15, 0, -1}, {17, 1, 16, 0, -1}, {17, 2, 15, 0, -2},
    /* q and above; E is q - 1, and then as small as can be */
    {16, 15, 16, 14, 0}, {16, 15, 17, 14, 0}, {16, 0, 16, 14, 0}, {17, 16, 17, 14, 0}, {17, 16, UINT32_MAX, 14, 0},
    {UINT32_MAX, 1048576, UINT32_MAX, 14, 0}, {UINT32_MAX, 1, UINT32_MAX - 1, 0, -1}, {HALF, 1048576, HALF, 14, 0},
    {HALF, 1, HALF - 1, 0, -1}, {HALF, 1048576, HALF / 2, 15, 0},
    /* native: no word is refused by 14 */
    {0, 1, UINT32_MAX, 0, -1}, {0, 0, UINT32_MAX, 15, 0}, {0, 1048576, 1048576, 0, 1048576}, {0, 1048576, 1048577, 15, 0},
    {0, 1048576, UINT32_MAX - 1048575, 0, -1048576}, {0, 1048576, UINT32_MAX - 1048576, 15, 0},
    {0, 1048576, HALF, 15, 0}, {0, 1048576, HALF - 1, 15, 0}, {0, 1048576, HALF + 1, 15, 0},
    /* 13 comes before both */
    {16, 16, 16, 13, 0}, {17, 1048577, 17, 13, 0}, {0, 1048577, HALF, 13, 0},
};

/* Under a secret of 0 the body is the plaintext, 1, and the error; refused, the output stays and there is no tally. */
static void compare_words(void)
{
    static const uint32_t secret[1] = {0}, mask[1] = {3};

    for (size_t i = 0; i < COUNT(words); i++) {
        const struct word_case *c = &words[i];
        const int64_t q = c->modulus == 0 ? INT64_C(1) << 32 : c->modulus;
        uint32_t out[2] = {99, 99};
        const saigagalena_answer got = WORDS(encrypt_encoded)(c->modulus, 1, c->E, secret, 1, mask, 1, &c->word, 1, 1, out, 2);

        same("a word", got.refusal, c->refusal);
        same("its tally", (int64_t)got.tag.tally, c->refusal == 0 ? (int64_t)c->E : -1);
        same("its c", got.tag.count, 1);
        same("its mask", out[0], c->refusal == 0 ? 3 : 99);
        same("its body", out[1], c->refusal == 0 ? (1 + c->error + q) % q : 99);
    }
}

/* Of two words, one that gets 14 and one that gets 15, in either place: 14; one that gets 15 beside a good one, in either place: 15.
 * q = 17, n = m = 2, t = 4, E = 1; of the messages one is not below t, which is judged later. */
static void compare_places(void)
{
    static const uint32_t two[2] = {1, 16}, masks[4] = {3, 4, 5, 6}, messages[2] = {2, 4};
    static const uint32_t pairs[4][2] = {{17, 8}, {8, 17}, {8, 1}, {1, 8}};
    uint32_t out[6] = {0};

    for (size_t i = 0; i < 4; i++) {
        const uint32_t *w = pairs[i], refusal = i < 2 ? 14 : 15;

        same("a batch", WORDS(encrypt_message_batch)(17, 2, 4, 1, 0, two, 2, masks, 4, w, 2, messages, 2, out, 6).refusal, refusal);
        same("packed", WORDS(encrypt_encoded_packed)(17, 2, 1, two, 2, masks, 2, w, 2, messages, 2, out, 4).refusal, refusal);
        same("packed messages", WORDS(encrypt_message_packed)(17, 2, 4, 1, 0, two, 2, masks, 2, w, 2, messages, 2, out, 4).refusal,
             refusal);
        same("a key", WORDS(public_key_generate)(17, 2, 1, two, 2, masks, 4, w, 2, out, 6), refusal);
        same("a switching key", WORDS(switching_key_generate)(17, 2, 1, 2, 2, 1, two, 2, two, 2, masks, 4, w, 2, out, 6), refusal);
    }
    for (size_t x = 0; x < 6; x++)
        same("a refused output", out[x], 0);
}

/* 14 of one operand beside 15 of another, and both beside a message that is not below t; then lengths. q = 17, n = 1, t = 4, E = 1. */
static const uint32_t one[1] = {1}, fine_mask[1] = {3}, mask_of_q[1] = {17}, far[1] = {8}, above[1] = {17};

static uint32_t encoded(const uint32_t *mask, const uint32_t *errors, size_t count, uint32_t plaintext)
{
    uint32_t out[2] = {0};

    return WORDS(encrypt_encoded)(17, 1, 1, one, 1, mask, 1, errors, count, plaintext, out, 2).refusal;
}

static uint32_t message_of_t(const uint32_t *errors)
{
    uint32_t out[2] = {0};

    return WORDS(encrypt_message)(17, 1, 4, 1, 0, one, 1, fine_mask, 1, errors, 1, 4, out, 2).refusal;
}

/* Under a public key, with one coefficient. */
static uint32_t with_coefficient(const uint32_t errors[2], int32_t coefficient)
{
    static const uint32_t key[2] = {3, 4};
    uint32_t out[2] = {0};

    return WORDS(public_key_encrypt_encoded)(17, 1, 1, key, 2, errors, 2, &coefficient, 1, 9, out, 2).refusal;
}

static void compare_beside(void)
{
    static const uint32_t fine[2] = {1, 16}, one_above[2] = {16, 17}, one_far[2] = {16, 8};

    same("nothing amiss", encoded(fine_mask, fine, 1, 9), 0);
    same("a mask of q", encoded(mask_of_q, far, 1, 9), 14);
    same("a plaintext of q", encoded(fine_mask, far, 1, 17), 14);
    same("no error", encoded(fine_mask, NULL, 0, 9), 12);
    same("two errors", encoded(fine_mask, one_above, 2, 9), 12);
    same("a message of t, 15", message_of_t(far), 15);
    same("a message of t, 14", message_of_t(above), 14);
    same("a message of t", message_of_t(fine), 16);
    same("no coefficient amiss", with_coefficient(fine, -1), 0);
    same("an error, 14", with_coefficient(one_above, -1), 14);
    same("an error, 15", with_coefficient(one_far, -1), 15);
    same("a coefficient, 14", with_coefficient(one_above, 2), 14);
    same("a coefficient, 15", with_coefficient(fine, 2), 15);
}

/* No message, no error: nothing is refused by a word that is not there. */
static void compare_empty(void)
{
    uint32_t out[1] = {0};
    const saigagalena_answer batch = WORDS(encrypt_message_batch)(17, 1, 4, 1, 0, one, 1, NULL, 0, NULL, 0, NULL, 0, NULL, 0);
    const saigagalena_answer packed = WORDS(encrypt_encoded_packed)(17, 1, 1, one, 1, fine_mask, 1, NULL, 0, NULL, 0, out, 1);

    same("an empty batch", batch.refusal, 0);
    same("its tally", (int64_t)batch.tag.tally, 1);
    same("its c", batch.tag.count, 1);
    same("none packed", packed.refusal, 0);
    same("no tally", (int64_t)packed.tag.tally, (int64_t)NONE);
    same("c of each body", packed.tag.count, 1);
    same("its mask", out[0], 3);
}

/* Each call with words writes what its namesake writes with the numbers that they count as, and gives the same tag: 8 and 9, which
 * stand on the two sides of q/2. q = 17, E = 8, n = m = 1, t = 4, L = 2. */
static const uint32_t secret[1] = {5}, masks[2] = {3, 4}, messages[1] = {2}, public[2] = {3, 4}, two_words[2] = {8, 9};
static const int32_t signed_secret[1] = {-5}, coefficients[1] = {-1}, two_numbers[2] = {8, -8};

static void same_outputs(const char *what, saigagalena_answer x, const uint32_t *out_x, saigagalena_answer y, const uint32_t *out_y)
{
    same(what, x.refusal, 0);
    same(what, y.refusal, 0);
    same(what, (int64_t)x.tag.tally, (int64_t)y.tag.tally);
    same(what, x.tag.count, y.tag.count);
    same(what, memcmp(out_x, out_y, 4 * sizeof *out_x), 0);
}

/* What returns no tag. */
static saigagalena_answer number(uint32_t refusal)
{
    return (saigagalena_answer){refusal, saigagalena_uncounted_tag()};
}

/* One word, and the number that it counts as. */
static void compare_ciphertexts(const uint32_t *w, const int32_t *e)
{
    uint32_t x[4] = {0}, y[4] = {0};

    same_outputs("encoded", WORDS(encrypt_encoded)(17, 1, 8, secret, 1, masks, 1, w, 1, 9, x, 2), x,
                 saigagalena_encrypt_encoded(17, 1, 8, secret, 1, masks, 1, e, 1, 9, y, 2), y);
    same_outputs("encoded, signed",
                 WORDS(encrypt_encoded_signed)(17, 1, 8, signed_secret, 1, masks, 1, w, 1, 9, x, 2), x,
                 saigagalena_encrypt_encoded_signed(17, 1, 8, signed_secret, 1, masks, 1, e, 1, 9, y, 2), y);
    same_outputs("message", WORDS(encrypt_message)(17, 1, 4, 8, 1, secret, 1, masks, 1, w, 1, 2, x, 2), x,
                 saigagalena_encrypt_message(17, 1, 4, 8, 1, secret, 1, masks, 1, e, 1, 2, y, 2), y);
    same_outputs("message, signed",
                 WORDS(encrypt_message_signed)(17, 1, 4, 8, 1, signed_secret, 1, masks, 1, w, 1, 2, x, 2), x,
                 saigagalena_encrypt_message_signed(17, 1, 4, 8, 1, signed_secret, 1, masks, 1, e, 1, 2, y, 2), y);
}

/* Runs of one message or plaintext. */
static void compare_runs(const uint32_t *w, const int32_t *e)
{
    uint32_t x[4] = {0}, y[4] = {0};

    same_outputs("batch",
                 WORDS(encrypt_message_batch)(17, 1, 4, 8, 0, secret, 1, masks, 1, w, 1, messages, 1, x, 2), x,
                 saigagalena_encrypt_message_batch(17, 1, 4, 8, 0, secret, 1, masks, 1, e, 1, messages, 1, y, 2), y);
    same_outputs("packed", WORDS(encrypt_encoded_packed)(17, 1, 8, secret, 1, masks, 1, w, 1, messages, 1, x, 2), x,
                 saigagalena_encrypt_encoded_packed(17, 1, 8, secret, 1, masks, 1, e, 1, messages, 1, y, 2), y);
    same_outputs("packed messages",
                 WORDS(encrypt_message_packed)(17, 1, 4, 8, 0, secret, 1, masks, 1, w, 1, messages, 1, x, 2), x,
                 saigagalena_encrypt_message_packed(17, 1, 4, 8, 0, secret, 1, masks, 1, e, 1, messages, 1, y, 2), y);
}

static void compare_public(const uint32_t *w, const int32_t *e)
{
    uint32_t x[4] = {0}, y[4] = {0};

    same_outputs("public key", number(WORDS(public_key_generate)(17, 1, 8, secret, 1, masks, 1, w, 1, x, 2)), x,
                 number(saigagalena_public_key_generate(17, 1, 8, secret, 1, masks, 1, e, 1, y, 2)), y);
    same_outputs("public key, signed",
                 number(WORDS(public_key_generate_signed)(17, 1, 8, signed_secret, 1, masks, 1, w, 1, x, 2)), x,
                 number(saigagalena_public_key_generate_signed(17, 1, 8, signed_secret, 1, masks, 1, e, 1, y, 2)), y);
    same_outputs("public",
                 WORDS(public_key_encrypt_encoded)(17, 1, 8, public, 2, two_words, 2, coefficients, 1, 9, x, 2), x,
                 saigagalena_public_key_encrypt_encoded(17, 1, 8, public, 2, two_numbers, 2, coefficients, 1, 9, y, 2), y);
    same_outputs("public message",
                 WORDS(public_key_encrypt_message)(17, 1, 4, 8, 0, public, 2, two_words, 2, coefficients, 1, 2, x, 2), x,
                 saigagalena_public_key_encrypt_message(17, 1, 4, 8, 0, public, 2, two_numbers, 2, coefficients, 1, 2, y, 2), y);
}

/* Entries with the masks 3 and 4 and the errors 8 and -8. */
static void compare_switching(void)
{
    uint32_t x[4] = {0}, y[4] = {0};

    same_outputs("switching key",
                 number(WORDS(switching_key_generate)(17, 2, 0, 1, 1, 8, secret, 1, secret, 1, masks, 2, two_words, 2, x, 4)), x,
                 number(saigagalena_switching_key_generate(17, 2, 0, 1, 1, 8, secret, 1, secret, 1, masks, 2, two_numbers, 2, y, 4)),
                 y);
    same_outputs("switching key, signed",
                 number(WORDS(switching_key_generate_signed)(17, 2, 0, 1, 1, 8, signed_secret, 1, secret, 1, masks, 2, two_words, 2, x,
                                                             4)),
                 x,
                 number(saigagalena_switching_key_generate_signed(17, 2, 0, 1, 1, 8, signed_secret, 1, secret, 1, masks, 2, two_numbers,
                                                                  2, y, 4)),
                 y);
}

int main(void)
{
    compare_words();
    compare_places();
    compare_beside();
    compare_empty();
    for (size_t i = 0; i < 2; i++) {
        compare_ciphertexts(two_words + i, two_numbers + i);
        compare_runs(two_words + i, two_numbers + i);
        compare_public(two_words + i, two_numbers + i);
    }
    compare_switching();
    return said_same("error words");
}
