/*
 * The formulas of document 01, and of request T-02, for operands that pass its checks. Words are below q, which is at most 2^32: a product
 * of two fits 64 bits, and so does a digit times a word with its sign.
 */
#include "model.h"

/* x modulo q, from 0 to q - 1, also for x below 0. */
static uint32_t residue(int64_t x, uint64_t q)
{
    const int64_t r = x % (int64_t)q;

    return (uint32_t)(r < 0 ? r + (int64_t)q : r);
}

static uint32_t plus(uint64_t x, uint64_t y, uint64_t q)
{
    return (uint32_t)((x + y) % q);
}

static uint32_t minus(uint64_t x, uint64_t y, uint64_t q)
{
    return (uint32_t)((x + q - y) % q);
}

static uint32_t times(uint64_t x, uint64_t y, uint64_t q)
{
    return (uint32_t)(x * y % q);
}

/* --- Basis, reading, digits --- */

struct basis {
    uint64_t q, k, B, L, d, H, T;
};

static struct basis basis_of(const struct operands *o)
{
    struct basis b = {.q = q_of(o->modulus), .B = UINT64_C(1) << o->base_log, .L = level_count(o)};
    uint64_t P = 0;

    b.k = value_bits(b.q);
    b.d = b.k - b.L * o->base_log;
    b.H = b.d == 0 ? 0 : UINT64_C(1) << (b.d - 1);
    /* (B/2 - 1)(B^L - 1)/(B - 1) is B/2 - 1 in each of L places */
    for (uint64_t j = 0; j < b.L; j++)
        P = P * b.B + b.B / 2 - 1;
    b.T = (P << b.d) + (b.H > 1 ? b.H : 1);
    return b;
}

uint64_t threshold(const struct operands *o)
{
    return basis_of(o).T;
}

/* 2^d * B^j */
static uint64_t weight(const struct basis *b, uint64_t j)
{
    uint64_t w = UINT64_C(1) << b->d;

    while (j-- > 0)
        w *= b->B;
    return w;
}

static int64_t floor_division(int64_t x, int64_t y)
{
    return x / y - (x % y < 0);
}

/* a' = a below T, else a - q */
static int64_t lifted(const struct basis *b, uint32_t a)
{
    return a < b->T ? (int64_t)a : (int64_t)a - (int64_t)b->q;
}

/* r; the reading is r * 2^d */
static int64_t rounded(const struct basis *b, uint32_t a)
{
    return floor_division(lifted(b, a) + (int64_t)b->H, INT64_C(1) << b->d);
}

/* The only L numbers in -B/2 .. B/2 - 1 that stand for r in base B, lowest first. */
static void digits_of(const struct basis *b, uint32_t a, int64_t digits[32])
{
    const int64_t B = (int64_t)b->B, half = B / 2;
    int64_t r = rounded(b, a);

    for (uint64_t j = 0; j < b->L; j++) {
        digits[j] = r + half - B * floor_division(r + half, B) - half;
        r = (r - digits[j]) / B;
    }
}

uint64_t basis_result(const struct operands *o, void *out)
{
    const struct basis b = basis_of(o);
    const uint64_t words[6] = {b.k, b.B, b.L, b.d, b.H, b.T};

    for (int i = 0; i < 6; i++)
        ((uint32_t *)out)[i] = (uint32_t)words[i];
    return 0;
}

uint64_t reading_result(const struct operands *o, void *out)
{
    const struct basis b = basis_of(o);
    const int64_t reading = rounded(&b, o->value) * (INT64_C(1) << b.d);

    ((int64_t *)out)[0] = reading;
    ((int64_t *)out)[1] = lifted(&b, o->value) - reading;
    return 0;
}

uint64_t decompose_result(const struct operands *o, void *out)
{
    const struct basis b = basis_of(o);
    const size_t count = len(o, INPUT);
    int64_t digits[32];

    for (size_t i = 0; i < count; i++) {
        digits_of(&b, word(o, INPUT, i), digits);
        for (size_t j = 0; j < b.L; j++)
            ((uint32_t *)out)[j * count + i] = residue(digits[j], b.q);
    }
    return 0;
}

/* The words below q by how many of their digits are not zero, one by one. */
static void count_words(const struct basis *b, uint32_t *counts)
{
    int64_t digits[32];

    for (uint64_t a = 0; a < b->q; a++) {
        size_t busy = 0;

        digits_of(b, (uint32_t)a, digits);
        for (uint64_t j = 0; j < b->L; j++)
            busy += digits[j] != 0;
        counts[busy]++;
    }
}

/* Where q is 2^k, every choice of L digits stands for 2^d words: level by level, a digit is 0 or one of B - 1 others. */
static void count_choices(const struct basis *b, uint32_t *counts)
{
    counts[0] = UINT32_C(1) << b->d;
    for (uint64_t level = 1; level <= b->L; level++)
        for (uint64_t j = level; j > 0; j--)
            counts[j] += (uint32_t)(counts[j - 1] * (b->B - 1));
}

uint64_t counts_result(const struct operands *o, void *out)
{
    const struct basis b = basis_of(o);

    for (uint64_t j = 0; j <= b.L; j++)
        ((uint32_t *)out)[j] = 0;
    if ((b.q & (b.q - 1)) == 0 && b.q > 65536)
        count_choices(&b, out);
    else
        count_words(&b, out);
    return 0;
}

/* --- Codec --- */

/* 2mq + t has up to 65 bits */
__extension__ typedef unsigned __int128 wide;

static uint64_t rounded_up(const struct operands *o, wide m)
{
    return (uint64_t)((2 * m * q_of(o->modulus) + o->t) / (2 * (wide)o->t));
}

static uint32_t encode(const struct operands *o, uint64_t m)
{
    const uint64_t start = ((uint64_t)o->t + 1) / 2;

    if (o->centered != 0 && m >= start)
        return (uint32_t)(q_of(o->modulus) - rounded_up(o, o->t - m));
    return (uint32_t)rounded_up(o, m);
}

static uint32_t decode(const struct operands *o, wide p)
{
    const wide q = q_of(o->modulus);

    return (uint32_t)((2 * p * o->t + q) / (2 * q) % o->t);
}

uint64_t encode_result(const struct operands *o, void *out)
{
    (void)out;
    return encode(o, o->value);
}

uint64_t decode_result(const struct operands *o, void *out)
{
    (void)out;
    return decode(o, o->value);
}

uint64_t encode_slice_result(const struct operands *o, void *out)
{
    for (size_t i = 0; i < len(o, INPUT); i++)
        ((uint32_t *)out)[i] = encode(o, word(o, INPUT, i));
    return 0;
}

uint64_t decode_slice_result(const struct operands *o, void *out)
{
    for (size_t i = 0; i < len(o, INPUT); i++)
        ((uint32_t *)out)[i] = decode(o, word(o, INPUT, i));
    return 0;
}

/* --- Encryption under a secret key --- */

/* Error i as a word: a signed number, or a word that counts as one. */
static uint32_t error(const struct operands *o, size_t i)
{
    const uint64_t q = q_of(o->modulus);

    return residue(len(o, ERROR_WORDS) > 0 ? counts_as(word(o, ERROR_WORDS, i), q) : number(o, ERRORS, i), q);
}

/* s_i as a word; a signed number c stands for c modulo q. */
static uint32_t secret(const struct operands *o, size_t i)
{
    return len(o, SIGNED_KEY) > 0 ? residue(number(o, SIGNED_KEY, i), q_of(o->modulus)) : word(o, KEY, i);
}

/* <a, s> under the key at hand */
static uint32_t product(const struct operands *o, const uint32_t *a)
{
    const uint64_t q = q_of(o->modulus);
    uint32_t sum = 0;

    for (size_t i = 0; i < o->n; i++)
        sum = plus(sum, times(a[i], secret(o, i), q), q);
    return sum;
}

/* What body i of a packed ciphertext uses. */
static uint32_t rotated_product(const struct operands *o, const uint32_t *a, size_t i)
{
    const uint64_t q = q_of(o->modulus);
    const size_t n = o->n;
    uint32_t sum = 0;

    for (size_t j = 0; j < n; j++) {
        if (j < n - i)
            sum = plus(sum, times(a[j], secret(o, j + i), q), q);
        else
            sum = minus(sum, times(a[j], secret(o, j - (n - i)), q), q);
    }
    return sum;
}

/* Ciphertext `row`: its mask, then <a, s> + e + p. */
static void encrypt_row(const struct operands *o, size_t row, uint32_t plaintext, uint32_t *out)
{
    const uint64_t q = q_of(o->modulus);
    const uint32_t *a = (const uint32_t *)o->slice[MASK].at + row * o->n;

    for (size_t i = 0; i < o->n; i++)
        out[row * (o->n + 1) + i] = a[i];
    out[row * (o->n + 1) + o->n] = plus(plus(product(o, a), error(o, row), q), plaintext, q);
}

uint64_t encrypt_encoded_result(const struct operands *o, void *out)
{
    encrypt_row(o, 0, o->value, out);
    return 0;
}

uint64_t encrypt_message_result(const struct operands *o, void *out)
{
    encrypt_row(o, 0, encode(o, o->value), out);
    return 0;
}

uint64_t encrypt_rows_result(const struct operands *o, void *out)
{
    for (size_t row = 0; row < len(o, INPUT); row++)
        encrypt_row(o, row, encode(o, word(o, INPUT, row)), out);
    return 0;
}

static void pack(const struct operands *o, int messages, uint32_t *out)
{
    const uint64_t q = q_of(o->modulus);
    const uint32_t *a = o->slice[MASK].at;

    for (size_t i = 0; i < o->n; i++)
        out[i] = a[i];
    for (size_t i = 0; i < len(o, INPUT); i++) {
        const uint32_t given = word(o, INPUT, i), p = messages ? encode(o, given) : given;

        out[o->n + i] = plus(plus(rotated_product(o, a, i), error(o, i), q), p, q);
    }
}

uint64_t packed_result(const struct operands *o, void *out)
{
    pack(o, 0, out);
    return 0;
}

uint64_t packed_messages_result(const struct operands *o, void *out)
{
    pack(o, 1, out);
    return 0;
}

/* --- Opening --- */

/* b - <a, s> of ciphertext `row` */
static uint32_t phase(const struct operands *o, size_t row)
{
    const uint32_t *a = (const uint32_t *)o->slice[INPUT].at + row * (o->n + 1);

    return minus(a[o->n], product(o, a), q_of(o->modulus));
}

static uint32_t packed_phase(const struct operands *o, size_t i)
{
    return minus(word(o, INPUT, o->n + i), rotated_product(o, o->slice[INPUT].at, i), q_of(o->modulus));
}

uint64_t phase_result(const struct operands *o, void *out)
{
    (void)out;
    return phase(o, 0);
}

uint64_t message_result(const struct operands *o, void *out)
{
    (void)out;
    return decode(o, phase(o, 0));
}

uint64_t phases_result(const struct operands *o, void *out)
{
    for (size_t row = 0; row < len(o, OUT); row++)
        ((uint32_t *)out)[row] = phase(o, row);
    return 0;
}

uint64_t messages_result(const struct operands *o, void *out)
{
    for (size_t row = 0; row < len(o, OUT); row++)
        ((uint32_t *)out)[row] = decode(o, phase(o, row));
    return 0;
}

uint64_t packed_phases_result(const struct operands *o, void *out)
{
    for (size_t i = 0; i < len(o, OUT); i++)
        ((uint32_t *)out)[i] = packed_phase(o, i);
    return 0;
}

uint64_t packed_open_result(const struct operands *o, void *out)
{
    for (size_t i = 0; i < len(o, OUT); i++)
        ((uint32_t *)out)[i] = decode(o, packed_phase(o, i));
    return 0;
}

/* --- Public key --- */

uint64_t public_key_result(const struct operands *o, void *out)
{
    for (size_t row = 0; row < o->n; row++)
        encrypt_row(o, row, 0, out);
    return 0;
}

/* n + 1 errors, p added to the body, row i added or subtracted by coefficient i. */
static void public_encrypt(const struct operands *o, uint32_t plaintext, uint32_t *out)
{
    const uint64_t q = q_of(o->modulus);

    for (size_t j = 0; j <= o->n; j++) {
        uint32_t sum = error(o, j);

        if (j == o->n)
            sum = plus(sum, plaintext, q);
        for (size_t i = 0; i < o->n; i++)
            sum = plus(sum, times(residue(number(o, COEFFICIENTS, i), q), word(o, KEY, i * (o->n + 1) + j), q), q);
        out[j] = sum;
    }
}

uint64_t public_encoded_result(const struct operands *o, void *out)
{
    public_encrypt(o, o->value, out);
    return 0;
}

uint64_t public_message_result(const struct operands *o, void *out)
{
    public_encrypt(o, encode(o, o->value), out);
    return 0;
}

/* --- Tags --- */

/* "c of encryptions summed in it, 1 when fresh" */
saigagalena_tag fresh_tag(const struct operands *o)
{
    return (saigagalena_tag){o->bound, 1};
}

/* Of a packed or a public-key ciphertext; and where there is nothing to say. */
saigagalena_tag untallied_tag(const struct operands *o)
{
    (void)o;
    return (saigagalena_tag){SAIGAGALENA_NO_TALLY, 1};
}

static uint64_t sum_tally(uint64_t x, uint64_t y)
{
    if (x == SAIGAGALENA_NO_TALLY || y == SAIGAGALENA_NO_TALLY)
        return SAIGAGALENA_NO_TALLY;
    return x + y;
}

/* "adding two adds these numbers" */
saigagalena_tag sum_tag(const struct operands *o)
{
    return (saigagalena_tag){sum_tally(o->tag[0].tally, o->tag[1].tally), o->tag[0].count + o->tag[1].count};
}

saigagalena_tag saved_tag(const struct operands *o)
{
    return o->tag[0];
}

/* "one saved without c is read as c 1 with no tally", whatever tally was saved */
saigagalena_tag uncounted_tag(const struct operands *o)
{
    (void)o;
    return (saigagalena_tag){SAIGAGALENA_NO_TALLY, 1};
}

/* Of a body of a packed ciphertext, and of what was switched: "kept by a switch" speaks of c alone. */
saigagalena_tag kept_tag(const struct operands *o)
{
    return (saigagalena_tag){SAIGAGALENA_NO_TALLY, o->tag[0].count};
}

saigagalena_tag row_tag(const struct operands *o, size_t i)
{
    const saigagalena_tag *tags = o->slice[TAGS].at;

    return (saigagalena_tag){SAIGAGALENA_NO_TALLY, tags[i].count};
}

/* --- Lengths --- */

uint64_t ciphertext_words_result(const struct operands *o, void *out)
{
    (void)out;
    return o->n + 1;
}

uint64_t packed_words_result(const struct operands *o, void *out)
{
    (void)out;
    return o->n + o->index;
}

uint64_t public_key_words_result(const struct operands *o, void *out)
{
    (void)out;
    return o->n * (o->n + 1);
}

uint64_t switching_key_words_result(const struct operands *o, void *out)
{
    (void)out;
    return o->n * level_count(o) * (o->m + 1);
}

/* --- Sums, marks, extraction --- */

uint64_t sum_result(const struct operands *o, void *out)
{
    for (size_t i = 0; i <= o->n; i++)
        ((uint32_t *)out)[i] = plus(word(o, OUT, i), word(o, INPUT, i), q_of(o->modulus));
    return 0;
}

/* Only a tag. */
uint64_t tag_result(const struct operands *o, void *out)
{
    (void)o;
    (void)out;
    return 0;
}

/* "The mark becomes 2t × tally + c × t < q." */
uint64_t good_result(const struct operands *o, void *out)
{
    const wide t = o->t, tally = o->tag[0].tally, c = o->tag[0].count;

    (void)out;
    return o->tag[0].tally != SAIGAGALENA_NO_TALLY && 2 * t * tally + c * t < q_of(o->modulus);
}

/* The mask for which <mask, s> is what body `index` uses, for every s. */
uint64_t extract_result(const struct operands *o, void *out)
{
    const size_t n = o->n, i = o->index;
    uint32_t *words = out;

    for (size_t j = 0; j < n; j++) {
        if (j < n - i)
            words[j + i] = word(o, INPUT, j);
        else
            words[j - (n - i)] = minus(0, word(o, INPUT, j), q_of(o->modulus));
    }
    words[n] = word(o, INPUT, n + i);
    return 0;
}

/* --- Key switching --- */

/* <a, s'> under the output key */
static uint32_t output_product(const struct operands *o, const uint32_t *a)
{
    const uint64_t q = q_of(o->modulus);
    uint32_t sum = 0;

    for (size_t i = 0; i < o->m; i++)
        sum = plus(sum, times(a[i], word(o, OUTPUT_KEY, i), q), q);
    return sum;
}

/* Entry (i, j) encrypts s_i * weight j under the output key. */
uint64_t generate_result(const struct operands *o, void *out)
{
    const struct basis b = basis_of(o);

    for (size_t i = 0; i < o->n; i++) {
        for (size_t j = 0; j < b.L; j++) {
            const size_t at = i * b.L + j;
            const uint32_t *a = (const uint32_t *)o->slice[MASK].at + at * o->m;
            const uint32_t e = error(o, at), p = times(secret(o, i), weight(&b, j), b.q);
            uint32_t *entry = (uint32_t *)out + at * (o->m + 1);

            for (size_t x = 0; x < o->m; x++)
                entry[x] = a[x];
            entry[o->m] = plus(plus(output_product(o, a), e, b.q), p, b.q);
        }
    }
    return 0;
}

/* (0, b) minus the sum of digit(i, j) * entry(i, j) */
static void switch_row(const struct operands *o, const struct basis *b, size_t row, uint32_t *out)
{
    const uint32_t *input = (const uint32_t *)o->slice[INPUT].at + row * (o->n + 1);
    int64_t digits[32];

    out += row * (o->m + 1);
    for (size_t x = 0; x < o->m; x++)
        out[x] = 0;
    out[o->m] = input[o->n];
    for (size_t i = 0; i < o->n; i++) {
        digits_of(b, input[i], digits);
        for (size_t j = 0; j < b->L; j++) {
            const uint32_t *entry = (const uint32_t *)o->slice[KEY].at + (i * b->L + j) * (o->m + 1);

            for (size_t x = 0; x <= o->m; x++)
                out[x] = minus(out[x], residue(digits[j] * (int64_t)entry[x], b->q), b->q);
        }
    }
}

uint64_t switch_result(const struct operands *o, void *out)
{
    const struct basis b = basis_of(o);

    switch_row(o, &b, 0, out);
    return 0;
}

uint64_t switch_rows_result(const struct operands *o, void *out)
{
    const struct basis b = basis_of(o);

    for (size_t row = 0; row < len(o, INPUT) / (o->n + 1); row++)
        switch_row(o, &b, row, out);
    return 0;
}
