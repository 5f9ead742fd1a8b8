/* Compiled and linked once with each of the two archives and its own header, so that both stand in one program. */
#include "calls.h"

#include <stdio.h>

#include "saigagalena.h"

/* Release 6 is the first whose tags have c, and whose batch of switches is lent them. */
#if SAIGAGALENA_VERSION >= 6
static saigagalena_tag tag_of_one(void)
{
    return saigagalena_saved_tag(1, 1);
}

static uint32_t switch_batch(const struct job *j)
{
    static saigagalena_tag tags[MOST_ROWS];

    for (size_t i = 0; i < j->rows; i++)
        tags[i] = tag_of_one();
    return saigagalena_key_switch_batch(j->modulus, j->base_log, 0, j->n, j->m, j->key, j->key_len, j->ciphertexts,
                                        j->rows * (j->n + 1), tags, j->rows, j->out, j->rows * (j->m + 1));
}
#else
static saigagalena_tag tag_of_one(void)
{
    return saigagalena_saved_tag(1);
}

static uint32_t switch_batch(const struct job *j)
{
    return saigagalena_key_switch_batch(j->modulus, j->base_log, 0, j->n, j->m, j->key, j->key_len, j->ciphertexts,
                                        j->rows * (j->n + 1), j->out, j->rows * (j->m + 1))
        .refusal;
}
#endif

/* Each row of `out` and the row of ciphertexts at its place. */
static uint32_t add(const struct job *j)
{
    const saigagalena_tag tag = tag_of_one();
    const size_t width = j->n + 1;
    uint32_t refusal = 0;

    for (size_t i = 0; i < j->rows; i++)
        refusal |= saigagalena_add(j->modulus, j->n, j->out + i * width, width, tag, j->ciphertexts + i * width, width, tag).refusal;
    return refusal;
}

static uint32_t encrypt(const struct job *j)
{
    return saigagalena_encrypt_message_batch(j->modulus, j->n, j->t, j->error_limit, 0, j->secret, j->n, j->masks, j->rows * j->n,
                                             j->errors, j->rows, j->messages, j->rows, j->out, j->rows * (j->n + 1))
        .refusal;
}

static uint32_t encrypt_signed(const struct job *j)
{
    const size_t width = j->n + 1;
    uint32_t refusal = 0;

    for (size_t i = 0; i < j->rows; i++)
        refusal |= saigagalena_encrypt_message_signed(j->modulus, j->n, j->t, j->error_limit, 0, j->signed_secret, j->n,
                                                      j->masks + i * j->n, j->n, j->errors + i, 1, j->messages[i],
                                                      j->out + i * width, width)
                       .refusal;
    return refusal;
}

static uint32_t open_batch(const struct job *j)
{
    return saigagalena_decrypt_message_batch(j->modulus, j->n, j->t, j->secret, j->n, j->ciphertexts, j->rows * (j->n + 1), j->out,
                                             j->rows);
}

static uint32_t open_signed(const struct job *j)
{
    const size_t width = j->n + 1;

    for (size_t i = 0; i < j->rows; i++) {
        uint64_t opened = saigagalena_decrypt_message_signed(j->modulus, j->n, j->t, j->signed_secret, j->n,
                                                             j->ciphertexts + i * width, width);
        if (opened > UINT32_MAX)
            return 1;
        j->out[i] = (uint32_t)opened;
    }
    return 0;
}

static uint32_t encode(const struct job *j)
{
    return saigagalena_encode_slice(j->modulus, j->t, 0, j->messages, j->rows * j->n, j->out, j->rows * j->n);
}

static uint32_t decode(const struct job *j)
{
    return saigagalena_decode_slice(j->modulus, j->t, j->words, j->rows * j->n, j->out, j->rows * j->n);
}

size_t run_call(enum which which, const struct job *j)
{
    static uint32_t (*const calls[CALLS])(const struct job *) = {switch_batch, add,         encrypt, encrypt_signed,
                                                                 open_batch,   open_signed, encode,  decode};
    const size_t words[CALLS] = {j->rows * (j->m + 1), j->rows * (j->n + 1), j->rows * (j->n + 1), j->rows * (j->n + 1),
                                 j->rows,              j->rows,              j->rows * j->n,       j->rows * j->n};

    if (saigagalena_version() != SAIGAGALENA_VERSION || j->rows > MOST_ROWS) {
        fprintf(stderr, "calls: the header is of release %d, its archive of %d\n", SAIGAGALENA_VERSION, (int)saigagalena_version());
        return 0;
    }
    return calls[which](j) == 0 ? words[which] : 0;
}
