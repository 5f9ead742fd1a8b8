/* The table of checks of documents 01 and 02, in order, and what each call takes. */
#include "model.h"

static const uint64_t two32 = UINT64_C(1) << 32;

uint64_t q_of(uint32_t modulus)
{
    return modulus == 0 ? two32 : modulus;
}

/* k: trailing zeros of a power of two, else the bit width. */
uint64_t value_bits(uint64_t q)
{
    uint64_t width = 0;

    while (q >> width != 0)
        width++;
    return q == UINT64_C(1) << (width - 1) ? width - 1 : width;
}

uint64_t full_count(const struct operands *o)
{
    return o->base_log == 0 ? 0 : value_bits(q_of(o->modulus)) / o->base_log;
}

/* L; levels of 0 are left open. */
uint64_t level_count(const struct operands *o)
{
    return o->levels == 0 ? full_count(o) : o->levels;
}

/* --- What each number says; of an operand that the call takes --- */

static int below_base(const struct operands *o)
{
    return o->modulus != 0 && (o->base_log > 31 || o->modulus < UINT64_C(1) << o->base_log);
}

static int is_power(uint64_t q)
{
    return (q & (q - 1)) == 0;
}

static int dimension_fails(size_t n)
{
    return n == 0 || n > 2048;
}

static int bound_fails(const struct operands *o)
{
    return o->bound > 1048576 || o->bound >= q_of(o->modulus);
}

static int words_fail(const struct operands *o, enum field f)
{
    int fail = 0;

    for (size_t i = 0; i < len(o, f); i++)
        fail |= word(o, f, i) >= q_of(o->modulus);
    return fail;
}

/* "a word w counts as w when w <= q/2, otherwise as w - q"; of a word that is not below q nothing is asked, as 14 comes before 15. */
int64_t counts_as(uint32_t w, uint64_t q)
{
    return 2 * (uint64_t)w <= q ? (int64_t)w : (int64_t)w - (int64_t)q;
}

/* Whether a word of the errors counts as a number outside -E .. E. */
static int error_words_fail(const struct operands *o)
{
    int fail = 0;

    for (size_t i = 0; i < len(o, ERROR_WORDS); i++) {
        const int64_t e = counts_as(word(o, ERROR_WORDS, i), q_of(o->modulus));

        fail |= e > o->bound || e < -(int64_t)o->bound;
    }
    return fail;
}

/* Whether a number of the slice lies outside -limit .. limit. */
static int numbers_fail(const struct operands *o, enum field f, int64_t limit)
{
    int fail = 0;

    for (size_t i = 0; i < len(o, f); i++)
        fail |= number(o, f, i) > limit || number(o, f, i) < -limit;
    return fail;
}

static int messages_fail(const struct operands *o)
{
    int fail = 0;

    for (size_t i = 0; i < len(o, INPUT); i++)
        fail |= word(o, INPUT, i) >= o->t;
    return fail;
}

static int tally_fails(uint64_t tally)
{
    return tally != SAIGAGALENA_NO_TALLY && tally > two32;
}

/* "A c, given or summed, above 65,536 falls under 17." */
static int count_fails(uint64_t c)
{
    return c > 65536;
}

static int tag_fails(saigagalena_tag x)
{
    return tally_fails(x.tally) || count_fails(x.count);
}

/* Given or summed; a sum of two tallies that are at most 2^32 does not overflow. */
static int two_tags_fail(saigagalena_tag x, saigagalena_tag y)
{
    const int none = x.tally == SAIGAGALENA_NO_TALLY || y.tally == SAIGAGALENA_NO_TALLY;

    return tag_fails(x) || tag_fails(y) || (!none && x.tally + y.tally > two32) || count_fails((uint64_t)x.count + y.count);
}

static int tags_fail(const struct operands *o)
{
    int fail = 0;

    for (size_t i = 0; i < len(o, TAGS); i++)
        fail |= tag_fails(((const saigagalena_tag *)o->slice[TAGS].at)[i]);
    return fail;
}

static int input_fails(enum input_kind kind, const struct operands *o)
{
    const size_t have = len(o, INPUT), n = o->n;

    switch (kind) {
    case CIPHERTEXT:
        return have != n + 1;
    case CIPHERTEXTS:
        return n == SIZE_MAX || have % (n + 1) != 0;
    case UP_TO_N:
        return have > n;
    case PACKED:
        return have < n || have - n > n;
    case PACKED_INDEX:
        return have < n || have - n > n || o->index >= have - n;
    case BODY_COUNT:
        return o->index > n;
    default:
        return 0;
    }
}

static int differs(const struct operands *o, const uint64_t expected[FIELDS], enum field f)
{
    return len(o, f) != expected[f];
}

/* 14 speaks of every word that is read, the errors' too, and of a signed key. */
static int any_word_fails(const struct call *call, const struct operands *o)
{
    const unsigned takes = call->takes;

    return ((takes & WORD) && o->value >= q_of(o->modulus)) || words_fail(o, KEY) || words_fail(o, OUTPUT_KEY)
        || words_fail(o, MASK) || words_fail(o, ERROR_WORDS) || (!(takes & MESSAGES) && words_fail(o, INPUT))
        || ((takes & SUM) && words_fail(o, OUT)) || numbers_fail(o, SIGNED_KEY, (int64_t)q_of(o->modulus) - 1);
}

void model_lengths(const struct call *call, const struct operands *o, uint64_t expected[FIELDS])
{
    for (int f = 0; f < FIELDS; f++)
        expected[f] = 0;
    call->lengths(o, expected);
    /* a signed key is as long as a key of words */
    if (call->fields & 1u << SIGNED_KEY) {
        expected[SIGNED_KEY] = expected[KEY];
        expected[KEY] = 0;
    }
    /* there are as many errors of either form */
    if (call->fields & 1u << ERROR_WORDS) {
        expected[ERROR_WORDS] = expected[ERRORS];
        expected[ERRORS] = 0;
    }
}

struct check {
    int applies;
    unsigned number;
};

/* A check applies where the call takes what it speaks of. */
uint32_t model_applying(const struct call *call, const struct operands *o)
{
    const unsigned takes = call->takes;
    const int base = (takes & BASE) != 0, t = (takes & T) != 0;
    uint64_t want[FIELDS];

    model_lengths(call, o, want);
    const struct check checks[] = {
        {base && (o->base_log < 2 || o->base_log > 31), 1},
        {(takes & MODULUS) && o->modulus != 0 && o->modulus < 4, 2},
        {base && below_base(o), 3},
        {base && full_count(o) == 0, 4},
        {base && (level_count(o) == 0 || level_count(o) > full_count(o)), 5},
        {(takes & COUNTED) && o->modulus > 65536 && !is_power(o->modulus), 26},
        {((takes & N) && dimension_fails(o->n)) || ((takes & M) && dimension_fails(o->m)), 6},
        {t && o->t < 2, 7},
        {t && o->modulus != 0 && o->modulus <= o->t, 8},
        {differs(o, want, KEY) || differs(o, want, SIGNED_KEY) || differs(o, want, OUTPUT_KEY), 9},
        {input_fails(call->input, o) || ((takes & SUM) && differs(o, want, OUT)), 10},
        {!(takes & SUM) && differs(o, want, OUT), 11},
        {differs(o, want, MASK) || differs(o, want, ERRORS) || differs(o, want, ERROR_WORDS) || differs(o, want, COEFFICIENTS)
             || differs(o, want, TAGS), 12},
        {(takes & BOUND) && bound_fails(o), 13},
        {any_word_fails(call, o), 14},
        {numbers_fail(o, ERRORS, o->bound) || error_words_fail(o) || numbers_fail(o, COEFFICIENTS, 1), 15},
        {((takes & MESSAGE) && o->value >= o->t) || ((takes & MESSAGES) && messages_fail(o)), 16},
        {((takes & TAG) && tag_fails(o->tag[0])) || ((takes & TWO_TAGS) && two_tags_fail(o->tag[0], o->tag[1])) || tags_fail(o), 17},
    };
    uint32_t applying = 0;

    for (size_t i = 0; i < sizeof checks / sizeof checks[0]; i++)
        if (checks[i].applies)
            applying |= UINT32_C(1) << checks[i].number;
    return applying;
}

const unsigned model_order[] = {1, 2, 3, 4, 5, 26, 6, 7, 8, 9, 10, 11, 12, 13, 14, 15, 16, 17};
const size_t model_order_count = sizeof model_order / sizeof model_order[0];

uint32_t model_refusal(const struct call *call, const struct operands *o)
{
    const uint32_t applying = model_applying(call, o);

    for (size_t i = 0; i < model_order_count; i++) {
        const unsigned number = model_order[i];

        if (applying >> number & 1)
            return number;
    }
    return 0;
}

struct answer model_refused(const struct call *call, uint32_t number)
{
    return (struct answer){(call->takes & ANSWER ? SAIGAGALENA_REFUSED : 0) + number, {SAIGAGALENA_NO_TALLY, 1}};
}

struct answer model_answer(const struct call *call, const struct operands *o, void *out, saigagalena_tag *tags)
{
    const uint32_t refusal = model_refusal(call, o);

    if (refusal != 0)
        return model_refused(call, refusal);
    for (size_t i = 0; i < len(o, TAGS); i++)
        tags[i] = row_tag(o, i);
    return (struct answer){call->result(o, out), call->tag(o)};
}

size_t element_size(const struct call *call, enum field field)
{
    if (field == TAGS)
        return sizeof(saigagalena_tag);
    return call->result == reading_result && field == OUT ? sizeof(int64_t) : sizeof(uint32_t);
}

/* --- What each call takes, and the numbers that the header lists for it --- */

#define F(f) (1u << (f))
#define LENT (F(MASK) | F(ERRORS) | F(OUT))
#define LENT_WORDS (F(MASK) | F(ERROR_WORDS) | F(OUT))
#define ENCODED "2 6 9 11 12 13 14 15"
#define MESSAGED "2 6 7 8 9 11 12 13 14 15 16"
#define GENERATES "1 2 3 4 5 6 9 11 12 13 14 15"

const struct call calls[] = {
    {"ciphertext_words", N | ANSWER, 0, NO_INPUT, no_lengths, ciphertext_words_result, untallied_tag, "6"},
    {"packed_words", N | ANSWER, 0, BODY_COUNT, no_lengths, packed_words_result, untallied_tag, "6 10"},
    {"public_key_words", N | ANSWER, 0, NO_INPUT, no_lengths, public_key_words_result, untallied_tag, "6"},
    {"switching_key_words", MODULUS | BASE | N | M | ANSWER, 0, NO_INPUT, no_lengths, switching_key_words_result, untallied_tag,
     "1 2 3 4 5 6"},
    {"basis", MODULUS | BASE, F(OUT), NO_INPUT, basis_lengths, basis_result, untallied_tag, "1 2 3 4 5 11"},
    {"reading", MODULUS | BASE | WORD, F(OUT), NO_INPUT, reading_lengths, reading_result, untallied_tag, "1 2 3 4 5 11 14"},
    {"decompose", MODULUS | BASE, F(INPUT) | F(OUT), ANY, decompose_lengths, decompose_result, untallied_tag, "1 2 3 4 5 11 14"},
    {"digit_counts", MODULUS | BASE | COUNTED, F(OUT), NO_INPUT, counts_lengths, counts_result, untallied_tag, "1 2 3 4 5 11 26"},
    {"encode", MODULUS | T | MESSAGE | ANSWER, 0, NO_INPUT, no_lengths, encode_result, untallied_tag, "2 7 8 16"},
    {"decode", MODULUS | T | WORD | ANSWER, 0, NO_INPUT, no_lengths, decode_result, untallied_tag, "2 7 8 14"},
    {"encode_slice", MODULUS | T | MESSAGES, F(INPUT) | F(OUT), ANY, same_lengths, encode_slice_result, untallied_tag,
     "2 7 8 11 16"},
    {"decode_slice", MODULUS | T, F(INPUT) | F(OUT), ANY, same_lengths, decode_slice_result, untallied_tag, "2 7 8 11 14"},
    {"encrypt_encoded", MODULUS | N | BOUND | WORD, F(KEY) | LENT, NO_INPUT, encrypt_lengths, encrypt_encoded_result,
     fresh_tag, ENCODED},
    {"encrypt_encoded_signed", MODULUS | N | BOUND | WORD, F(SIGNED_KEY) | LENT, NO_INPUT, encrypt_lengths,
     encrypt_encoded_result, fresh_tag, ENCODED},
    {"encrypt_message", MODULUS | N | T | BOUND | MESSAGE, F(KEY) | LENT, NO_INPUT, encrypt_lengths, encrypt_message_result,
     fresh_tag, MESSAGED},
    {"encrypt_message_signed", MODULUS | N | T | BOUND | MESSAGE, F(SIGNED_KEY) | LENT, NO_INPUT, encrypt_lengths,
     encrypt_message_result, fresh_tag, MESSAGED},
    {"encrypt_message_batch", MODULUS | N | T | BOUND | MESSAGES, F(KEY) | F(INPUT) | LENT, ANY, encrypt_rows_lengths,
     encrypt_rows_result, fresh_tag, MESSAGED},
    {"encrypt_encoded_packed", MODULUS | N | BOUND, F(KEY) | F(INPUT) | LENT, UP_TO_N, packed_lengths, packed_result, untallied_tag,
     "2 6 9 10 11 12 13 14 15"},
    {"encrypt_message_packed", MODULUS | N | T | BOUND | MESSAGES, F(KEY) | F(INPUT) | LENT, UP_TO_N, packed_lengths,
     packed_messages_result, untallied_tag, "2 6 7 8 9 10 11 12 13 14 15 16"},
    {"decrypt_phase", MODULUS | N | ANSWER, F(KEY) | F(INPUT), CIPHERTEXT, open_lengths, phase_result, untallied_tag, "2 6 9 10 14"},
    {"decrypt_phase_signed", MODULUS | N | ANSWER, F(SIGNED_KEY) | F(INPUT), CIPHERTEXT, open_lengths, phase_result, untallied_tag,
     "2 6 9 10 14"},
    {"decrypt_message", MODULUS | N | T | ANSWER, F(KEY) | F(INPUT), CIPHERTEXT, open_lengths, message_result, untallied_tag,
     "2 6 7 8 9 10 14"},
    {"decrypt_message_signed", MODULUS | N | T | ANSWER, F(SIGNED_KEY) | F(INPUT), CIPHERTEXT, open_lengths, message_result,
     untallied_tag, "2 6 7 8 9 10 14"},
    {"decrypt_phase_batch", MODULUS | N, F(KEY) | F(INPUT) | F(OUT), CIPHERTEXTS, open_rows_lengths, phases_result, untallied_tag,
     "2 6 9 10 11 14"},
    {"decrypt_message_batch", MODULUS | N | T, F(KEY) | F(INPUT) | F(OUT), CIPHERTEXTS, open_rows_lengths, messages_result,
     untallied_tag, "2 6 7 8 9 10 11 14"},
    {"decrypt_phase_packed", MODULUS | N, F(KEY) | F(INPUT) | F(OUT), PACKED, open_packed_lengths, packed_phases_result,
     untallied_tag, "2 6 9 10 11 14"},
    {"decrypt_message_packed", MODULUS | N | T, F(KEY) | F(INPUT) | F(OUT), PACKED, open_packed_lengths, packed_open_result,
     untallied_tag, "2 6 7 8 9 10 11 14"},
    {"public_key_generate", MODULUS | N | BOUND, F(KEY) | LENT, NO_INPUT, public_key_lengths, public_key_result, untallied_tag,
     ENCODED},
    {"public_key_generate_signed", MODULUS | N | BOUND, F(SIGNED_KEY) | LENT, NO_INPUT, public_key_lengths, public_key_result,
     untallied_tag, ENCODED},
    {"public_key_encrypt_encoded", MODULUS | N | BOUND | WORD, F(KEY) | F(ERRORS) | F(COEFFICIENTS) | F(OUT), NO_INPUT,
     public_encrypt_lengths, public_encoded_result, untallied_tag, ENCODED},
    {"public_key_encrypt_message", MODULUS | N | T | BOUND | MESSAGE, F(KEY) | F(ERRORS) | F(COEFFICIENTS) | F(OUT), NO_INPUT,
     public_encrypt_lengths, public_message_result, untallied_tag, MESSAGED},
    {"saved_tag", SAVED, 0, NO_INPUT, no_lengths, tag_result, saved_tag, ""},
    {"uncounted_tag", 0, 0, NO_INPUT, no_lengths, tag_result, uncounted_tag, ""},
    {"add", MODULUS | N | SUM | TWO_TAGS, F(INPUT) | F(OUT), CIPHERTEXT, ciphertext_lengths, sum_result, sum_tag,
     "2 6 10 14 17"},
    {"is_good", MODULUS | T | TAG | ANSWER, 0, NO_INPUT, no_lengths, good_result, untallied_tag, "2 7 8 17"},
    {"extract", MODULUS | N | TAG, F(INPUT) | F(OUT), PACKED_INDEX, ciphertext_lengths, extract_result, kept_tag,
     "2 6 10 11 14 17"},
    {"switching_key_generate", MODULUS | BASE | N | M | BOUND, F(KEY) | F(OUTPUT_KEY) | LENT, NO_INPUT, generate_lengths,
     generate_result, untallied_tag, GENERATES},
    {"switching_key_generate_signed", MODULUS | BASE | N | M | BOUND, F(SIGNED_KEY) | F(OUTPUT_KEY) | LENT, NO_INPUT,
     generate_lengths, generate_result, untallied_tag, GENERATES},
    {"key_switch", MODULUS | BASE | N | M | TAG, F(KEY) | F(INPUT) | F(OUT), CIPHERTEXT, switch_lengths, switch_result, kept_tag,
     "1 2 3 4 5 6 9 10 11 14 17"},
    {"key_switch_batch", MODULUS | BASE | N | M, F(KEY) | F(INPUT) | F(TAGS) | F(OUT), CIPHERTEXTS, switch_rows_lengths,
     switch_rows_result, untallied_tag, "1 2 3 4 5 6 9 10 11 12 14 17"},
    {"encrypt_encoded_error_words", MODULUS | N | BOUND | WORD, F(KEY) | LENT_WORDS, NO_INPUT, encrypt_lengths,
     encrypt_encoded_result, fresh_tag, ENCODED},
    {"encrypt_encoded_signed_error_words", MODULUS | N | BOUND | WORD, F(SIGNED_KEY) | LENT_WORDS, NO_INPUT, encrypt_lengths,
     encrypt_encoded_result, fresh_tag, ENCODED},
    {"encrypt_message_error_words", MODULUS | N | T | BOUND | MESSAGE, F(KEY) | LENT_WORDS, NO_INPUT, encrypt_lengths,
     encrypt_message_result, fresh_tag, MESSAGED},
    {"encrypt_message_signed_error_words", MODULUS | N | T | BOUND | MESSAGE, F(SIGNED_KEY) | LENT_WORDS, NO_INPUT,
     encrypt_lengths, encrypt_message_result, fresh_tag, MESSAGED},
    {"encrypt_message_batch_error_words", MODULUS | N | T | BOUND | MESSAGES, F(KEY) | F(INPUT) | LENT_WORDS, ANY,
     encrypt_rows_lengths, encrypt_rows_result, fresh_tag, MESSAGED},
    {"encrypt_encoded_packed_error_words", MODULUS | N | BOUND, F(KEY) | F(INPUT) | LENT_WORDS, UP_TO_N, packed_lengths,
     packed_result, untallied_tag, "2 6 9 10 11 12 13 14 15"},
    {"encrypt_message_packed_error_words", MODULUS | N | T | BOUND | MESSAGES, F(KEY) | F(INPUT) | LENT_WORDS, UP_TO_N,
     packed_lengths, packed_messages_result, untallied_tag, "2 6 7 8 9 10 11 12 13 14 15 16"},
    {"public_key_generate_error_words", MODULUS | N | BOUND, F(KEY) | LENT_WORDS, NO_INPUT, public_key_lengths,
     public_key_result, untallied_tag, ENCODED},
    {"public_key_generate_signed_error_words", MODULUS | N | BOUND, F(SIGNED_KEY) | LENT_WORDS, NO_INPUT, public_key_lengths,
     public_key_result, untallied_tag, ENCODED},
    {"public_key_encrypt_encoded_error_words", MODULUS | N | BOUND | WORD,
     F(KEY) | F(ERROR_WORDS) | F(COEFFICIENTS) | F(OUT), NO_INPUT, public_encrypt_lengths, public_encoded_result, untallied_tag,
     ENCODED},
    {"public_key_encrypt_message_error_words", MODULUS | N | T | BOUND | MESSAGE,
     F(KEY) | F(ERROR_WORDS) | F(COEFFICIENTS) | F(OUT), NO_INPUT, public_encrypt_lengths, public_message_result, untallied_tag,
     MESSAGED},
    {"switching_key_generate_error_words", MODULUS | BASE | N | M | BOUND, F(KEY) | F(OUTPUT_KEY) | LENT_WORDS, NO_INPUT,
     generate_lengths, generate_result, untallied_tag, GENERATES},
    {"switching_key_generate_signed_error_words", MODULUS | BASE | N | M | BOUND, F(SIGNED_KEY) | F(OUTPUT_KEY) | LENT_WORDS,
     NO_INPUT, generate_lengths, generate_result, untallied_tag, GENERATES},
};

const size_t call_count = sizeof calls / sizeof calls[0];
