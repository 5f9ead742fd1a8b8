/* Each call of the library with the operands of the model, in the order of saigagalena.h. */
#include "library.h"

/* A slice as pointer and length. */
#define SLICE(f) o->slice[f].at, o->slice[f].len

typedef struct answer library_call(const struct operands *o);

static struct answer number_only(uint64_t number)
{
    return (struct answer){number, {SAIGAGALENA_NO_TALLY, 1}};
}

static struct answer with_tag(saigagalena_answer answer)
{
    return (struct answer){answer.refusal, answer.tag};
}

static struct answer call_ciphertext_words(const struct operands *o)
{
    return number_only(saigagalena_ciphertext_words(o->n));
}

static struct answer call_packed_words(const struct operands *o)
{
    return number_only(saigagalena_packed_words(o->n, o->index));
}

static struct answer call_public_key_words(const struct operands *o)
{
    return number_only(saigagalena_public_key_words(o->n));
}

static struct answer call_switching_key_words(const struct operands *o)
{
    return number_only(saigagalena_switching_key_words(o->modulus, o->base_log, o->levels, o->n, o->m));
}

static struct answer call_basis(const struct operands *o)
{
    return number_only(saigagalena_basis(o->modulus, o->base_log, o->levels, SLICE(OUT)));
}

static struct answer call_reading(const struct operands *o)
{
    return number_only(saigagalena_reading(o->modulus, o->base_log, o->levels, o->value, SLICE(OUT)));
}

static struct answer call_decompose(const struct operands *o)
{
    return number_only(saigagalena_decompose(o->modulus, o->base_log, o->levels, SLICE(INPUT), SLICE(OUT)));
}

static struct answer call_digit_counts(const struct operands *o)
{
    return number_only(saigagalena_digit_counts(o->modulus, o->base_log, o->levels, SLICE(OUT)));
}

static struct answer call_encode(const struct operands *o)
{
    return number_only(saigagalena_encode(o->modulus, o->t, o->centered, o->value));
}

static struct answer call_decode(const struct operands *o)
{
    return number_only(saigagalena_decode(o->modulus, o->t, o->value));
}

static struct answer call_encode_slice(const struct operands *o)
{
    return number_only(saigagalena_encode_slice(o->modulus, o->t, o->centered, SLICE(INPUT), SLICE(OUT)));
}

static struct answer call_decode_slice(const struct operands *o)
{
    return number_only(saigagalena_decode_slice(o->modulus, o->t, SLICE(INPUT), SLICE(OUT)));
}

static struct answer call_encrypt_encoded(const struct operands *o)
{
    return with_tag(saigagalena_encrypt_encoded(o->modulus, o->n, o->bound, SLICE(KEY), SLICE(MASK),
        SLICE(ERRORS), o->value, SLICE(OUT)));
}

static struct answer call_encrypt_encoded_signed(const struct operands *o)
{
    return with_tag(saigagalena_encrypt_encoded_signed(o->modulus, o->n, o->bound, SLICE(SIGNED_KEY),
        SLICE(MASK), SLICE(ERRORS), o->value, SLICE(OUT)));
}

static struct answer call_encrypt_message(const struct operands *o)
{
    return with_tag(saigagalena_encrypt_message(o->modulus, o->n, o->t, o->bound, o->centered, SLICE(KEY),
        SLICE(MASK), SLICE(ERRORS), o->value, SLICE(OUT)));
}

static struct answer call_encrypt_message_signed(const struct operands *o)
{
    return with_tag(saigagalena_encrypt_message_signed(o->modulus, o->n, o->t, o->bound, o->centered,
        SLICE(SIGNED_KEY), SLICE(MASK), SLICE(ERRORS), o->value, SLICE(OUT)));
}

static struct answer call_encrypt_message_batch(const struct operands *o)
{
    return with_tag(saigagalena_encrypt_message_batch(o->modulus, o->n, o->t, o->bound, o->centered, SLICE(KEY),
        SLICE(MASK), SLICE(ERRORS), SLICE(INPUT), SLICE(OUT)));
}

static struct answer call_encrypt_encoded_packed(const struct operands *o)
{
    return with_tag(saigagalena_encrypt_encoded_packed(o->modulus, o->n, o->bound, SLICE(KEY), SLICE(MASK),
        SLICE(ERRORS), SLICE(INPUT), SLICE(OUT)));
}

static struct answer call_encrypt_message_packed(const struct operands *o)
{
    return with_tag(saigagalena_encrypt_message_packed(o->modulus, o->n, o->t, o->bound, o->centered,
        SLICE(KEY), SLICE(MASK), SLICE(ERRORS), SLICE(INPUT), SLICE(OUT)));
}

static struct answer call_decrypt_phase(const struct operands *o)
{
    return number_only(saigagalena_decrypt_phase(o->modulus, o->n, SLICE(KEY), SLICE(INPUT)));
}

static struct answer call_decrypt_phase_signed(const struct operands *o)
{
    return number_only(saigagalena_decrypt_phase_signed(o->modulus, o->n, SLICE(SIGNED_KEY), SLICE(INPUT)));
}

static struct answer call_decrypt_message(const struct operands *o)
{
    return number_only(saigagalena_decrypt_message(o->modulus, o->n, o->t, SLICE(KEY), SLICE(INPUT)));
}

static struct answer call_decrypt_message_signed(const struct operands *o)
{
    return number_only(saigagalena_decrypt_message_signed(o->modulus, o->n, o->t, SLICE(SIGNED_KEY),
        SLICE(INPUT)));
}

static struct answer call_decrypt_phase_batch(const struct operands *o)
{
    return number_only(saigagalena_decrypt_phase_batch(o->modulus, o->n, SLICE(KEY), SLICE(INPUT), SLICE(OUT)));
}

static struct answer call_decrypt_message_batch(const struct operands *o)
{
    return number_only(saigagalena_decrypt_message_batch(o->modulus, o->n, o->t, SLICE(KEY), SLICE(INPUT),
        SLICE(OUT)));
}

static struct answer call_decrypt_phase_packed(const struct operands *o)
{
    return number_only(saigagalena_decrypt_phase_packed(o->modulus, o->n, SLICE(KEY), SLICE(INPUT),
        SLICE(OUT)));
}

static struct answer call_decrypt_message_packed(const struct operands *o)
{
    return number_only(saigagalena_decrypt_message_packed(o->modulus, o->n, o->t, SLICE(KEY), SLICE(INPUT),
        SLICE(OUT)));
}

static struct answer call_public_key_generate(const struct operands *o)
{
    return number_only(saigagalena_public_key_generate(o->modulus, o->n, o->bound, SLICE(KEY), SLICE(MASK),
        SLICE(ERRORS), SLICE(OUT)));
}

static struct answer call_public_key_generate_signed(const struct operands *o)
{
    return number_only(saigagalena_public_key_generate_signed(o->modulus, o->n, o->bound, SLICE(SIGNED_KEY),
        SLICE(MASK), SLICE(ERRORS), SLICE(OUT)));
}

static struct answer call_public_key_encrypt_encoded(const struct operands *o)
{
    return with_tag(saigagalena_public_key_encrypt_encoded(o->modulus, o->n, o->bound, SLICE(KEY),
        SLICE(ERRORS), SLICE(COEFFICIENTS), o->value, SLICE(OUT)));
}

static struct answer call_public_key_encrypt_message(const struct operands *o)
{
    return with_tag(saigagalena_public_key_encrypt_message(o->modulus, o->n, o->t, o->bound, o->centered,
        SLICE(KEY), SLICE(ERRORS), SLICE(COEFFICIENTS), o->value, SLICE(OUT)));
}

/* The tags of the model are saved ones. */
static saigagalena_tag tag(const struct operands *o, int which)
{
    return saigagalena_saved_tag(o->tag[which].tally, o->tag[which].count);
}

static struct answer call_saved_tag(const struct operands *o)
{
    return (struct answer){0, tag(o, 0)};
}

static struct answer call_uncounted_tag(const struct operands *o)
{
    (void)o;
    return (struct answer){0, saigagalena_uncounted_tag()};
}

static struct answer call_add(const struct operands *o)
{
    return with_tag(saigagalena_add(o->modulus, o->n, SLICE(OUT), tag(o, 0), SLICE(INPUT), tag(o, 1)));
}

static struct answer call_is_good(const struct operands *o)
{
    return number_only(saigagalena_is_good(o->modulus, o->t, tag(o, 0)));
}

static struct answer call_extract(const struct operands *o)
{
    return with_tag(saigagalena_extract(o->modulus, o->n, SLICE(INPUT), tag(o, 0), o->index, SLICE(OUT)));
}

static struct answer call_switching_key_generate(const struct operands *o)
{
    return number_only(saigagalena_switching_key_generate(o->modulus, o->base_log, o->levels, o->n, o->m,
        o->bound, SLICE(KEY), SLICE(OUTPUT_KEY), SLICE(MASK), SLICE(ERRORS), SLICE(OUT)));
}

static struct answer call_switching_key_generate_signed(const struct operands *o)
{
    return number_only(saigagalena_switching_key_generate_signed(o->modulus, o->base_log, o->levels, o->n, o->m,
        o->bound, SLICE(SIGNED_KEY), SLICE(OUTPUT_KEY), SLICE(MASK), SLICE(ERRORS), SLICE(OUT)));
}

static struct answer call_key_switch(const struct operands *o)
{
    return with_tag(saigagalena_key_switch(o->modulus, o->base_log, o->levels, o->n, o->m, SLICE(KEY),
        SLICE(INPUT), tag(o, 0), SLICE(OUT)));
}

static struct answer call_key_switch_batch(const struct operands *o)
{
    return number_only(saigagalena_key_switch_batch(o->modulus, o->base_log, o->levels, o->n, o->m, SLICE(KEY),
        SLICE(INPUT), SLICE(TAGS), SLICE(OUT)));
}

static struct answer call_encrypt_encoded_error_words(const struct operands *o)
{
    return with_tag(saigagalena_encrypt_encoded_error_words(o->modulus, o->n, o->bound, SLICE(KEY), SLICE(MASK),
        SLICE(ERROR_WORDS), o->value, SLICE(OUT)));
}

static struct answer call_encrypt_encoded_signed_error_words(const struct operands *o)
{
    return with_tag(saigagalena_encrypt_encoded_signed_error_words(o->modulus, o->n, o->bound,
        SLICE(SIGNED_KEY), SLICE(MASK), SLICE(ERROR_WORDS), o->value, SLICE(OUT)));
}

static struct answer call_encrypt_message_error_words(const struct operands *o)
{
    return with_tag(saigagalena_encrypt_message_error_words(o->modulus, o->n, o->t, o->bound, o->centered,
        SLICE(KEY), SLICE(MASK), SLICE(ERROR_WORDS), o->value, SLICE(OUT)));
}

static struct answer call_encrypt_message_signed_error_words(const struct operands *o)
{
    return with_tag(saigagalena_encrypt_message_signed_error_words(o->modulus, o->n, o->t, o->bound,
        o->centered, SLICE(SIGNED_KEY), SLICE(MASK), SLICE(ERROR_WORDS), o->value, SLICE(OUT)));
}

static struct answer call_encrypt_message_batch_error_words(const struct operands *o)
{
    return with_tag(saigagalena_encrypt_message_batch_error_words(o->modulus, o->n, o->t, o->bound, o->centered,
        SLICE(KEY), SLICE(MASK), SLICE(ERROR_WORDS), SLICE(INPUT), SLICE(OUT)));
}

static struct answer call_encrypt_encoded_packed_error_words(const struct operands *o)
{
    return with_tag(saigagalena_encrypt_encoded_packed_error_words(o->modulus, o->n, o->bound, SLICE(KEY),
        SLICE(MASK), SLICE(ERROR_WORDS), SLICE(INPUT), SLICE(OUT)));
}

static struct answer call_encrypt_message_packed_error_words(const struct operands *o)
{
    return with_tag(saigagalena_encrypt_message_packed_error_words(o->modulus, o->n, o->t, o->bound,
        o->centered, SLICE(KEY), SLICE(MASK), SLICE(ERROR_WORDS), SLICE(INPUT), SLICE(OUT)));
}

static struct answer call_public_key_generate_error_words(const struct operands *o)
{
    return number_only(saigagalena_public_key_generate_error_words(o->modulus, o->n, o->bound, SLICE(KEY),
        SLICE(MASK), SLICE(ERROR_WORDS), SLICE(OUT)));
}

static struct answer call_public_key_generate_signed_error_words(const struct operands *o)
{
    return number_only(saigagalena_public_key_generate_signed_error_words(o->modulus, o->n, o->bound,
        SLICE(SIGNED_KEY), SLICE(MASK), SLICE(ERROR_WORDS), SLICE(OUT)));
}

static struct answer call_public_key_encrypt_encoded_error_words(const struct operands *o)
{
    return with_tag(saigagalena_public_key_encrypt_encoded_error_words(o->modulus, o->n, o->bound, SLICE(KEY),
        SLICE(ERROR_WORDS), SLICE(COEFFICIENTS), o->value, SLICE(OUT)));
}

static struct answer call_public_key_encrypt_message_error_words(const struct operands *o)
{
    return with_tag(saigagalena_public_key_encrypt_message_error_words(o->modulus, o->n, o->t, o->bound,
        o->centered, SLICE(KEY), SLICE(ERROR_WORDS), SLICE(COEFFICIENTS), o->value, SLICE(OUT)));
}

static struct answer call_switching_key_generate_error_words(const struct operands *o)
{
    return number_only(saigagalena_switching_key_generate_error_words(o->modulus, o->base_log, o->levels, o->n,
        o->m, o->bound, SLICE(KEY), SLICE(OUTPUT_KEY), SLICE(MASK), SLICE(ERROR_WORDS), SLICE(OUT)));
}

static struct answer call_switching_key_generate_signed_error_words(const struct operands *o)
{
    return number_only(saigagalena_switching_key_generate_signed_error_words(o->modulus, o->base_log, o->levels,
        o->n, o->m, o->bound, SLICE(SIGNED_KEY), SLICE(OUTPUT_KEY), SLICE(MASK), SLICE(ERROR_WORDS),
        SLICE(OUT)));
}

/* In the order of the model's table. */
static library_call *const library_calls[] = {
    call_ciphertext_words, call_packed_words, call_public_key_words, call_switching_key_words, call_basis,
    call_reading, call_decompose, call_digit_counts, call_encode, call_decode, call_encode_slice, call_decode_slice,
    call_encrypt_encoded, call_encrypt_encoded_signed, call_encrypt_message, call_encrypt_message_signed,
    call_encrypt_message_batch, call_encrypt_encoded_packed, call_encrypt_message_packed, call_decrypt_phase,
    call_decrypt_phase_signed, call_decrypt_message, call_decrypt_message_signed, call_decrypt_phase_batch,
    call_decrypt_message_batch, call_decrypt_phase_packed, call_decrypt_message_packed,
    call_public_key_generate, call_public_key_generate_signed, call_public_key_encrypt_encoded,
    call_public_key_encrypt_message, call_saved_tag, call_uncounted_tag, call_add, call_is_good, call_extract,
    call_switching_key_generate, call_switching_key_generate_signed, call_key_switch, call_key_switch_batch,
    call_encrypt_encoded_error_words, call_encrypt_encoded_signed_error_words, call_encrypt_message_error_words,
    call_encrypt_message_signed_error_words, call_encrypt_message_batch_error_words,
    call_encrypt_encoded_packed_error_words, call_encrypt_message_packed_error_words,
    call_public_key_generate_error_words, call_public_key_generate_signed_error_words,
    call_public_key_encrypt_encoded_error_words, call_public_key_encrypt_message_error_words,
    call_switching_key_generate_error_words, call_switching_key_generate_signed_error_words,
};

struct answer library_answer(const struct call *call, const struct operands *o)
{
    return library_calls[call - calls](o);
}
