/*
 * A plain model of document 01, and of request T-02 in document 02, for every call of saigagalena.h: what each call takes, the table
 * of checks and the formulas, over whole numbers of 64 bits. The tests and the fuzzing take their expected answers from here.
 */
#ifndef MODEL_H
#define MODEL_H

#include <stddef.h>
#include <stdint.h>

#include "saigagalena.h"

/* The slices that calls take. KEY is what a call reads as a key: a secret, a public key or a switching key. TAGS is read and written. */
enum field { KEY, SIGNED_KEY, OUTPUT_KEY, MASK, ERRORS, ERROR_WORDS, COEFFICIENTS, INPUT, TAGS, OUT, FIELDS };

struct slice {
    void *at;
    size_t len;
};

/* What a call is given. A slice that the call does not take is null and empty. */
struct operands {
    uint32_t modulus, base_log, levels, t, bound, centered;
    uint32_t value; /* a word, plaintext or message given by itself */
    size_t n, m, index; /* index: a body, or how many there are to be */
    saigagalena_tag tag[2];
    struct slice slice[FIELDS];
};

/* What a call takes beside its slices. */
enum takes {
    MODULUS = 1,
    BASE = 2,
    N = 4,
    M = 8,
    T = 16,
    BOUND = 32,
    WORD = 64,            /* value is a word */
    MESSAGE = 128,        /* value is a message */
    MESSAGES = 256,       /* INPUT holds messages, else words */
    SUM = 512,            /* OUT is read too, as a ciphertext */
    TAG = 1024,           /* the first tag */
    TWO_TAGS = 2048,      /* both tags, which are summed */
    SAVED = 4096,         /* the numbers of the first tag, which are not judged */
    COUNTED = 16384,      /* words are counted, one by one where q is no power of two */
    ANSWER = 8192,        /* it returns a number of 64 bits: the result, or 2^32 plus the refusal */
};

/* What document 01 says of the length of INPUT (check 10). */
enum input_kind { NO_INPUT, ANY, CIPHERTEXT, CIPHERTEXTS, UP_TO_N, PACKED, PACKED_INDEX, BODY_COUNT };

/* What a call returns: a number, and the tag of what it wrote. Where it was refused, or returns no tag, there is no tally and c is 1. */
struct answer {
    uint64_t number;
    saigagalena_tag tag;
};

typedef void lengths_of(const struct operands *o, uint64_t expected[FIELDS]);
typedef uint64_t result_of(const struct operands *o, void *out);
typedef saigagalena_tag tag_of(const struct operands *o);

struct call {
    const char *name;
    unsigned takes;
    unsigned fields; /* a bit for each slice */
    enum input_kind input;
    lengths_of *lengths;
    result_of *result;
    tag_of *tag;
    const char *refusals; /* as saigagalena.h lists them */
};

extern const struct call calls[];
extern const size_t call_count;

/* The length that each slice should have; INPUT is judged by itself. */
void model_lengths(const struct call *call, const struct operands *o, uint64_t expected[FIELDS]);

/* Bit i is set where check i applies. */
uint32_t model_applying(const struct call *call, const struct operands *o);

/* The order in which numbers are judged. */
extern const unsigned model_order[];
extern const size_t model_order_count;

/* The first check that applies, or 0. */
uint32_t model_refusal(const struct call *call, const struct operands *o);

/* What the call returns; its output goes to `out`, and what becomes of the tags it was lent to `tags`. Both are left alone where the
 * call is refused. */
struct answer model_answer(const struct call *call, const struct operands *o, void *out, saigagalena_tag *tags);

/* What the call returns where it is refused by this number. */
struct answer model_refused(const struct call *call, uint32_t number);

/* The bytes of an element of a slice. */
size_t element_size(const struct call *call, enum field field);

/* What a word of the errors counts as, of any word. */
int64_t counts_as(uint32_t w, uint64_t q);

/* For those who draw operands. */
uint64_t q_of(uint32_t modulus);
uint64_t value_bits(uint64_t q);
uint64_t full_count(const struct operands *o);
uint64_t level_count(const struct operands *o);
uint64_t threshold(const struct operands *o);

/* The formulas, and the lengths that the calls expect: results.c and lengths.c. */
result_of basis_result, reading_result, decompose_result, counts_result, encode_result, decode_result, encode_slice_result, decode_slice_result;
result_of encrypt_encoded_result, encrypt_message_result, encrypt_rows_result, packed_result, packed_messages_result;
result_of phase_result, message_result, phases_result, messages_result, packed_phases_result, packed_open_result;
result_of public_key_result, public_encoded_result, public_message_result, sum_result, good_result, extract_result;
result_of generate_result, switch_result, switch_rows_result, tag_result;
result_of ciphertext_words_result, packed_words_result, public_key_words_result, switching_key_words_result;
tag_of fresh_tag, untallied_tag, sum_tag, saved_tag, uncounted_tag, kept_tag;
lengths_of no_lengths, basis_lengths, reading_lengths, decompose_lengths, counts_lengths, same_lengths, encrypt_lengths, encrypt_rows_lengths;
lengths_of packed_lengths, open_lengths, open_rows_lengths, open_packed_lengths, public_key_lengths, public_encrypt_lengths;
lengths_of ciphertext_lengths, generate_lengths, switch_lengths, switch_rows_lengths;

/* What becomes of the tag of row i of a batch that is switched. */
saigagalena_tag row_tag(const struct operands *o, size_t i);

static inline size_t len(const struct operands *o, enum field f)
{
    return o->slice[f].len;
}

static inline uint32_t word(const struct operands *o, enum field f, size_t i)
{
    return ((const uint32_t *)o->slice[f].at)[i];
}

static inline int32_t number(const struct operands *o, enum field f, size_t i)
{
    return ((const int32_t *)o->slice[f].at)[i];
}

#endif
