/*
 * The calls of the C service. Link target/staticlib/libsaigagalena.a, which scripts/staticlib.sh writes.
 *
 * What holds of every call:
 *
 *   modulus      the ciphertext modulus q; 0 stands for the native modulus 2^32
 *   n, m         dimensions, from 1 to 2048; a ciphertext has n mask words, then the body
 *   t            the plaintext modulus, from 2 to q - 1
 *   error_limit  E: lent errors lie within -E .. E
 *   errors       signed numbers; the calls whose names end in _error_words, which stand last, take words
 *   base_log     log2 of the base B of the digits, from 2 to 31
 *   levels       L; 0 stands for as many as fit
 *   centered     0 encodes a message m as m; any other number as m - t from ceil(t/2) on
 *   p, p_len     a slice: p_len elements from p on. The pointer may be null where the length is 0.
 *
 * A call that writes ciphertexts returns a saigagalena_answer: 0 and the tag of what was written, or the first refusal number
 * that applies and a tag without a tally (c is 1 in it). Another call that writes, the batch of switches among them, returns 0 or
 * that number. A call that answers one number returns it as 64 bits, or SAIGAGALENA_REFUSED plus the first refusal number that
 * applies. A refused call has written nothing.
 * Every length and every number is judged, and before a slice is read: a call that is refused by 1 to 13 or 26 has not touched one.
 * What no number can say is the caller's to see to: each pointer is aligned for its elements and good for its length, a buffer
 * that is written overlaps no other, and no other thread writes a buffer during a call.
 * The library is for x86-64 Linux, and passes structs as its C does. Nothing is allocated or kept; the stack used stays below
 * 256 KiB; calls from several threads are fine.
 * Running time depends on secrets in general: no promise is made about it.
 */
#ifndef SAIGAGALENA_H
#define SAIGAGALENA_H

#include <stddef.h>
#include <stdint.h>

/* The release that this header is of; saigagalena_version() says which one the library is of. */
#define SAIGAGALENA_VERSION 6

/* An answer of 64 bits above this is a refusal: this plus the refusal number. */
#define SAIGAGALENA_REFUSED UINT64_C(0x100000000)

/* 2^64 - 1: no tally. A public-key, packed or switched ciphertext has none, and a sum with one that has none has none. */
#define SAIGAGALENA_NO_TALLY UINT64_MAX

/* The most encryptions that may be summed in a ciphertext: a greater c, given or summed, is refused by 17. */
#define SAIGAGALENA_MOST_SUMMED 65536

/* Refusal numbers. Where several apply, the first in the order of document 01 is given: of these the smallest, with 26 between 5 and 6. */
#define SAIGAGALENA_BASE_LOG 1            /* the base log is below 2 or above 31 */
#define SAIGAGALENA_MODULUS_BELOW_4 2     /* the modulus is 1, 2 or 3 */
#define SAIGAGALENA_MODULUS_BELOW_BASE 3  /* the modulus is not 0 and below 2^(base log) */
#define SAIGAGALENA_NO_LEVEL_FITS 4       /* retired: no call gives it, and nothing else will bear the number */
#define SAIGAGALENA_LEVELS 5              /* more levels than fit */
#define SAIGAGALENA_DIMENSION 6           /* a dimension is 0 or above 2048 */
#define SAIGAGALENA_PLAINTEXT_MODULUS 7   /* t is below 2 */
#define SAIGAGALENA_MODULUS_AT_MOST_T 8   /* the modulus is not 0 and at most t */
#define SAIGAGALENA_KEY_LENGTH 9          /* a key has another length than its dimensions and levels give */
#define SAIGAGALENA_INPUT_LENGTH 10       /* ciphertexts of the wrong length, more than n packed messages, no such body */
#define SAIGAGALENA_OUTPUT_LENGTH 11      /* an output has the wrong length */
#define SAIGAGALENA_LENT_LENGTH 12        /* masks, errors, coefficients or tags have the wrong length */
#define SAIGAGALENA_ERROR_LIMIT 13        /* E is above 1048576, or not below the modulus */
#define SAIGAGALENA_WORD_NOT_BELOW_Q 14   /* a word, or a signed key number's magnitude, is not below q */
#define SAIGAGALENA_ERROR_OUTSIDE 15      /* an error is outside -E .. E, or a coefficient none of -1, 0, 1 */
#define SAIGAGALENA_MESSAGE_NOT_BELOW_T 16 /* a message is not below t */
#define SAIGAGALENA_TALLY 17              /* a tally, given or summed, exceeds 2^32, or a number of encryptions 65536 */
#define SAIGAGALENA_LARGE_MODULUS 26      /* counts of words: the modulus is above 65536 and no power of two */

/* A refusal number in words; 0 is none. 18 and 19 are given by programs only. */
static inline const char *saigagalena_refusal_text(uint32_t refusal)
{
    static const char *const texts[] = {
        "no refusal",
        "the base log is below 2 or above 31",
        "the modulus is below 4",
        "the modulus is below the base",
        "retired",
        "the level count is 0 or above what fits",
        "a dimension is 0 or above 2048",
        "the plaintext modulus is below 2",
        "the modulus is at most the plaintext modulus",
        "a key has the wrong length",
        "ciphertexts of the wrong length, too many packed messages, or no such body",
        "an output has the wrong length",
        "masks, errors, coefficients or tags have the wrong length",
        "the error limit is above 1048576 or not below the modulus",
        "a word, or the magnitude of a signed key number, is not below the modulus",
        "an error is outside its limit, or a coefficient is none of -1, 0, 1",
        "a message is not below the plaintext modulus",
        "a tally, given or summed, exceeds 2^32, or a number of encryptions 65536",
        "a word command before any accepted basis",
        "an unknown command, operands cut off, or not a whole file of this kind",
    };

    if (refusal == SAIGAGALENA_LARGE_MODULUS)
        return "the modulus is above 65536 and no power of two";
    return refusal < sizeof texts / sizeof texts[0] ? texts[refusal] : "unknown refusal";
}

#ifdef __cplusplus
extern "C" {
#endif

/*
 * What a ciphertext carries beside its words. Keep it with them. It comes from the call that wrote them, or from saved data by
 * saigagalena_saved_tag or saigagalena_uncounted_tag, and from nowhere else.
 */
typedef struct {
    uint64_t tally; /* bounds its error; SAIGAGALENA_NO_TALLY where it has none */
    uint32_t count; /* c, the number of encryptions summed in it: 1 when fresh, kept by a switch */
} saigagalena_tag;

/* What a call that writes ciphertexts returns: 0 and the tag of each, or the first refusal number, no tally and c 1. */
typedef struct {
    uint32_t refusal;
    saigagalena_tag tag;
} saigagalena_answer;

/* SAIGAGALENA_VERSION of the library. */
uint32_t saigagalena_version(void);

/* ---- how many words to make room for */

/* n + 1, or a refusal by 6. */
uint64_t saigagalena_ciphertext_words(size_t n);

/* n + count, for `count` messages under one mask, or a refusal by 6, 10. */
uint64_t saigagalena_packed_words(size_t n, size_t count);

/* n (n + 1), or a refusal by 6. */
uint64_t saigagalena_public_key_words(size_t n);

/* n L (m + 1), or a refusal by 1 to 3, 5, 6. */
uint64_t saigagalena_switching_key_words(uint32_t modulus, uint32_t base_log, uint32_t levels, size_t n, size_t m);

/* ---- basis and readings */

/* The basis in six words: k, B, L, d, H, T. Refuses by 1 to 3, 5, 11 (out_len is not 6). */
uint32_t saigagalena_basis(uint32_t modulus, uint32_t base_log, uint32_t levels, uint32_t *out, size_t out_len);

/* The reading of a word and its error, in two numbers. Refuses by 1 to 3, 5, 11 (out_len is not 2), 14. */
uint32_t saigagalena_reading(uint32_t modulus, uint32_t base_log, uint32_t levels, uint32_t word, int64_t *out, size_t out_len);

/* The digits of each word, as L runs of input_len words, lowest level first; a negative digit is stored as q + digit.
 * Refuses by 1 to 3, 5, 11, 14. */
uint32_t saigagalena_decompose(uint32_t modulus, uint32_t base_log, uint32_t levels, const uint32_t *input, size_t input_len,
                               uint32_t *out, size_t out_len);

/* How busy a switch will be: out[j] is how many words below q have just j digits that are not zero, for j from 0 to L. Takes L + 1
 * steps where q is a power of two, else q L: some milliseconds at most. Refuses by 1 to 3, 5, 26, 11 (out_len is not L + 1). */
uint32_t saigagalena_digit_counts(uint32_t modulus, uint32_t base_log, uint32_t levels, uint32_t *out, size_t out_len);

/* ---- codec */

/* floor((2 m q + t) / (2 t)); centered, q minus that of t - m from ceil(t/2) on. The word, or a refusal by 2, 7, 8, 16. */
uint64_t saigagalena_encode(uint32_t modulus, uint32_t t, uint32_t centered, uint32_t message);

/* The message of a phase: floor((2 * word * t + q) / (2 * q)) mod t. The message, or a refusal by 2, 7, 8, 14. */
uint64_t saigagalena_decode(uint32_t modulus, uint32_t t, uint32_t word);

/* The same of each message or word, in its place. Refuse by 2, 7, 8, 11, and 16 or 14. */
uint32_t saigagalena_encode_slice(uint32_t modulus, uint32_t t, uint32_t centered, const uint32_t *messages, size_t messages_len,
                                  uint32_t *out, size_t out_len);
uint32_t saigagalena_decode_slice(uint32_t modulus, uint32_t t, const uint32_t *words, size_t words_len, uint32_t *out,
                                  size_t out_len);

/* ---- encryption under a secret key: n words below q, or n signed numbers, each standing for itself modulo q */

/* out: the mask, then <mask, secret> + error + plaintext modulo q. The mask has n words, the errors one.
 * Tag: the tally is E, c is 1. Refuse by 2, 6, 9, 11, 12, 13, 14, 15. */
saigagalena_answer saigagalena_encrypt_encoded(uint32_t modulus, size_t n, uint32_t error_limit, const uint32_t *secret,
                                               size_t secret_len, const uint32_t *mask, size_t mask_len, const int32_t *errors,
                                               size_t errors_len, uint32_t plaintext, uint32_t *out, size_t out_len);
saigagalena_answer saigagalena_encrypt_encoded_signed(uint32_t modulus, size_t n, uint32_t error_limit, const int32_t *secret,
                                                      size_t secret_len, const uint32_t *mask, size_t mask_len,
                                                      const int32_t *errors, size_t errors_len, uint32_t plaintext, uint32_t *out,
                                                      size_t out_len);

/* The same of an encoded message. Tag: the tally is E, c is 1. Refuse by 2, 6, 7, 8, 9, 11, 12, 13, 14, 15, 16. */
saigagalena_answer saigagalena_encrypt_message(uint32_t modulus, size_t n, uint32_t t, uint32_t error_limit, uint32_t centered,
                                               const uint32_t *secret, size_t secret_len, const uint32_t *mask, size_t mask_len,
                                               const int32_t *errors, size_t errors_len, uint32_t message, uint32_t *out,
                                               size_t out_len);
saigagalena_answer saigagalena_encrypt_message_signed(uint32_t modulus, size_t n, uint32_t t, uint32_t error_limit,
                                                      uint32_t centered, const int32_t *secret, size_t secret_len,
                                                      const uint32_t *mask, size_t mask_len, const int32_t *errors,
                                                      size_t errors_len, uint32_t message, uint32_t *out, size_t out_len);

/* A ciphertext for each message: n mask words and an error for each, n + 1 output words. Tag: the tally of each is E,
 * its c is 1. Refuses as encrypt_message. */
saigagalena_answer saigagalena_encrypt_message_batch(uint32_t modulus, size_t n, uint32_t t, uint32_t error_limit,
                                                     uint32_t centered, const uint32_t *secret, size_t secret_len,
                                                     const uint32_t *masks, size_t masks_len, const int32_t *errors,
                                                     size_t errors_len, const uint32_t *messages, size_t messages_len,
                                                     uint32_t *out, size_t out_len);

/* Up to n plaintexts or messages under one mask: n mask words, then a body for each. Tag: no tally,
 * and c is 1, as each body is one encryption. Refuse by 2, 6, 9, 10, 11, 12, 13, 14, 15, and for messages 7, 8, 16 too. */
saigagalena_answer saigagalena_encrypt_encoded_packed(uint32_t modulus, size_t n, uint32_t error_limit, const uint32_t *secret,
                                                      size_t secret_len, const uint32_t *mask, size_t mask_len,
                                                      const int32_t *errors, size_t errors_len, const uint32_t *plaintexts,
                                                      size_t plaintexts_len, uint32_t *out, size_t out_len);
saigagalena_answer saigagalena_encrypt_message_packed(uint32_t modulus, size_t n, uint32_t t, uint32_t error_limit,
                                                      uint32_t centered, const uint32_t *secret, size_t secret_len,
                                                      const uint32_t *mask, size_t mask_len, const int32_t *errors,
                                                      size_t errors_len, const uint32_t *messages, size_t messages_len,
                                                      uint32_t *out, size_t out_len);

/* ---- opening */

/* body - <mask, secret> modulo q. The phase, or a refusal by 2, 6, 9, 10, 14. Opening asks for no E and for no tag. */
uint64_t saigagalena_decrypt_phase(uint32_t modulus, size_t n, const uint32_t *secret, size_t secret_len,
                                   const uint32_t *ciphertext, size_t ciphertext_len);
uint64_t saigagalena_decrypt_phase_signed(uint32_t modulus, size_t n, const int32_t *secret, size_t secret_len,
                                          const uint32_t *ciphertext, size_t ciphertext_len);

/* The message in the phase, or a refusal by 2, 6, 7, 8, 9, 10, 14. */
uint64_t saigagalena_decrypt_message(uint32_t modulus, size_t n, uint32_t t, const uint32_t *secret, size_t secret_len,
                                     const uint32_t *ciphertext, size_t ciphertext_len);
uint64_t saigagalena_decrypt_message_signed(uint32_t modulus, size_t n, uint32_t t, const int32_t *secret, size_t secret_len,
                                            const uint32_t *ciphertext, size_t ciphertext_len);

/* The phase or message of each ciphertext of n + 1 words; any number of them, none is fine.
 * Refuse by 2, 6, 9, 10, 11, 14, and for messages 7, 8 too. */
uint32_t saigagalena_decrypt_phase_batch(uint32_t modulus, size_t n, const uint32_t *secret, size_t secret_len,
                                         const uint32_t *input, size_t input_len, uint32_t *out, size_t out_len);
uint32_t saigagalena_decrypt_message_batch(uint32_t modulus, size_t n, uint32_t t, const uint32_t *secret, size_t secret_len,
                                           const uint32_t *input, size_t input_len, uint32_t *out, size_t out_len);

/* The phase or message of each body of a packed ciphertext. Refuse as the batches. */
uint32_t saigagalena_decrypt_phase_packed(uint32_t modulus, size_t n, const uint32_t *secret, size_t secret_len,
                                          const uint32_t *input, size_t input_len, uint32_t *out, size_t out_len);
uint32_t saigagalena_decrypt_message_packed(uint32_t modulus, size_t n, uint32_t t, const uint32_t *secret, size_t secret_len,
                                            const uint32_t *input, size_t input_len, uint32_t *out, size_t out_len);

/* ---- public key: n ciphertexts of 0, one after the other */

/* From n masks and n errors. Refuse by 2, 6, 9, 11, 12, 13, 14, 15. */
uint32_t saigagalena_public_key_generate(uint32_t modulus, size_t n, uint32_t error_limit, const uint32_t *secret,
                                         size_t secret_len, const uint32_t *masks, size_t masks_len, const int32_t *errors,
                                         size_t errors_len, uint32_t *out, size_t out_len);
uint32_t saigagalena_public_key_generate_signed(uint32_t modulus, size_t n, uint32_t error_limit, const int32_t *secret,
                                                size_t secret_len, const uint32_t *masks, size_t masks_len, const int32_t *errors,
                                                size_t errors_len, uint32_t *out, size_t out_len);

/* One ciphertext from n + 1 errors and n coefficients, each -1, 0 or 1. Tag: no tally, c is 1.
 * Refuse by 2, 6, 9, 11, 12, 13, 14, 15, and for a message 7, 8, 16 too. */
saigagalena_answer saigagalena_public_key_encrypt_encoded(uint32_t modulus, size_t n, uint32_t error_limit, const uint32_t *key,
                                                          size_t key_len, const int32_t *errors, size_t errors_len,
                                                          const int32_t *coefficients, size_t coefficients_len,
                                                          uint32_t plaintext, uint32_t *out, size_t out_len);
saigagalena_answer saigagalena_public_key_encrypt_message(uint32_t modulus, size_t n, uint32_t t, uint32_t error_limit,
                                                          uint32_t centered, const uint32_t *key, size_t key_len,
                                                          const int32_t *errors, size_t errors_len, const int32_t *coefficients,
                                                          size_t coefficients_len, uint32_t message, uint32_t *out,
                                                          size_t out_len);

/* ---- tags, sums and marks */

/* The tag of saved data, from the tally and the c that were saved: any numbers; SAIGAGALENA_NO_TALLY is no tally. They are the sender's
 * word, which no call can check against the words: the calls refuse a tally above 2^32 and a c above SAIGAGALENA_MOST_SUMMED by 17,
 * and believe all others. */
saigagalena_tag saigagalena_saved_tag(uint64_t tally, uint32_t count);

/* The tag of data saved without c, by a release before 6: c 1 and no tally, whatever tally was saved with it, since that may be the
 * tally of a sum whose roundings nobody counted. */
saigagalena_tag saigagalena_uncounted_tag(void);

/* x + y modulo q, word by word, in x. Tag: the sum of the two tallies, or no tally where one has none; the sum of the two c. Refused,
 * the words of x are as they were, and so is the tag that they had. Refuses by 2, 6, 10, 14, 17 (what is given, or the sum). */
saigagalena_answer saigagalena_add(uint32_t modulus, size_t n, uint32_t *x, size_t x_len, saigagalena_tag x_tag,
                                   const uint32_t *y, size_t y_len, saigagalena_tag y_tag);

/* 1 where 2 t * tally + c * t < q, so that the ciphertext is marked good; else, and where there is no tally, 0; or a refusal by 2, 7,
 * 8, 17. A good total, formed by additions from single encryptions of messages under one secret, q and t, opens to the sum of the
 * messages modulo t, with either embedding. */
uint64_t saigagalena_is_good(uint32_t modulus, uint32_t t, saigagalena_tag tag);

/* Body `index` of a packed ciphertext, whose tag is given, as a ciphertext of one message. Tag: no tally, and the c that is given.
 * Refuses by 2, 6, 10 (also where there is no such body), 11, 14, 17. */
saigagalena_answer saigagalena_extract(uint32_t modulus, size_t n, const uint32_t *input, size_t input_len, saigagalena_tag tag,
                                       size_t index, uint32_t *out, size_t out_len);

/* ---- key switching */

/*
 * A switching key: for each place i of the input key, then each level j, an encryption of s_i * weight j under the
 * output key: m + 1 words. Masks (m words each) and errors (one each) are lent in that order; errors lie within
 * -error_limit .. error_limit. Refuse by 1 to 3, 5, 6, 9, 11, 12, 13, 14, 15.
 */
uint32_t saigagalena_switching_key_generate(uint32_t modulus, uint32_t base_log, uint32_t levels, size_t n, size_t m,
                                            uint32_t error_limit, const uint32_t *input_key, size_t input_key_len,
                                            const uint32_t *output_key, size_t output_key_len, const uint32_t *masks,
                                            size_t masks_len, const int32_t *errors, size_t errors_len, uint32_t *out,
                                            size_t out_len);
uint32_t saigagalena_switching_key_generate_signed(uint32_t modulus, uint32_t base_log, uint32_t levels, size_t n, size_t m,
                                                   uint32_t error_limit, const int32_t *input_key, size_t input_key_len,
                                                   const uint32_t *output_key, size_t output_key_len, const uint32_t *masks,
                                                   size_t masks_len, const int32_t *errors, size_t errors_len, uint32_t *out,
                                                   size_t out_len);

/* One ciphertext, whose tag is given, under the output key: (0, b) minus the sum of digit(i, j) * entry(i, j) modulo q. Tag: no
 * tally, and the c that is given. Refuses by 1 to 3, 5, 6, 9, 10, 11, 14, 17. */
saigagalena_answer saigagalena_key_switch(uint32_t modulus, uint32_t base_log, uint32_t levels, size_t n, size_t m,
                                          const uint32_t *key, size_t key_len, const uint32_t *input, size_t input_len,
                                          saigagalena_tag tag, uint32_t *out, size_t out_len);

/* Each ciphertext of n + 1 words to its own of m + 1; any number of them, none is fine. There is a tag for each ciphertext of the
 * input, and that of the output takes its place: no tally, and the c that was given. Refused, the tags are as they were.
 * Refuses by 1 to 3, 5, 6, 9, 10, 11, 12 (another number of tags), 14, 17. */
uint32_t saigagalena_key_switch_batch(uint32_t modulus, uint32_t base_log, uint32_t levels, size_t n, size_t m,
                                      const uint32_t *key, size_t key_len, const uint32_t *input, size_t input_len,
                                      saigagalena_tag *tags, size_t tags_len, uint32_t *out, size_t out_len);

/* ---- errors as words: as a sampler modulo q gives them */

/*
 * Each of these is the call of its name without _error_words, with the same operands, result, tag and refusals, but its errors are
 * words. A word w counts as w where 2 w <= q, else as w - q; q/2 itself counts as q/2. A word that is not below q is refused by 14
 * (with modulus 0, which is 2^32, no word is), one that counts as a number outside -error_limit .. error_limit by 15; over a whole
 * call 14 comes before 15. `_signed` speaks of the key, here too.
 */
saigagalena_answer saigagalena_encrypt_encoded_error_words(uint32_t modulus, size_t n, uint32_t error_limit,
                                                           const uint32_t *secret, size_t secret_len, const uint32_t *mask,
                                                           size_t mask_len, const uint32_t *errors, size_t errors_len,
                                                           uint32_t plaintext, uint32_t *out, size_t out_len);
saigagalena_answer saigagalena_encrypt_encoded_signed_error_words(uint32_t modulus, size_t n, uint32_t error_limit,
                                                                  const int32_t *secret, size_t secret_len,
                                                                  const uint32_t *mask, size_t mask_len, const uint32_t *errors,
                                                                  size_t errors_len, uint32_t plaintext, uint32_t *out,
                                                                  size_t out_len);
saigagalena_answer saigagalena_encrypt_message_error_words(uint32_t modulus, size_t n, uint32_t t, uint32_t error_limit,
                                                           uint32_t centered, const uint32_t *secret, size_t secret_len,
                                                           const uint32_t *mask, size_t mask_len, const uint32_t *errors,
                                                           size_t errors_len, uint32_t message, uint32_t *out, size_t out_len);
saigagalena_answer saigagalena_encrypt_message_signed_error_words(uint32_t modulus, size_t n, uint32_t t, uint32_t error_limit,
                                                                  uint32_t centered, const int32_t *secret, size_t secret_len,
                                                                  const uint32_t *mask, size_t mask_len, const uint32_t *errors,
                                                                  size_t errors_len, uint32_t message, uint32_t *out,
                                                                  size_t out_len);
saigagalena_answer saigagalena_encrypt_message_batch_error_words(uint32_t modulus, size_t n, uint32_t t, uint32_t error_limit,
                                                                 uint32_t centered, const uint32_t *secret, size_t secret_len,
                                                                 const uint32_t *masks, size_t masks_len,
                                                                 const uint32_t *errors, size_t errors_len,
                                                                 const uint32_t *messages, size_t messages_len, uint32_t *out,
                                                                 size_t out_len);
saigagalena_answer saigagalena_encrypt_encoded_packed_error_words(uint32_t modulus, size_t n, uint32_t error_limit,
                                                                  const uint32_t *secret, size_t secret_len,
                                                                  const uint32_t *mask, size_t mask_len, const uint32_t *errors,
                                                                  size_t errors_len, const uint32_t *plaintexts,
                                                                  size_t plaintexts_len, uint32_t *out, size_t out_len);
saigagalena_answer saigagalena_encrypt_message_packed_error_words(uint32_t modulus, size_t n, uint32_t t, uint32_t error_limit,
                                                                  uint32_t centered, const uint32_t *secret, size_t secret_len,
                                                                  const uint32_t *mask, size_t mask_len, const uint32_t *errors,
                                                                  size_t errors_len, const uint32_t *messages,
                                                                  size_t messages_len, uint32_t *out, size_t out_len);
uint32_t saigagalena_public_key_generate_error_words(uint32_t modulus, size_t n, uint32_t error_limit, const uint32_t *secret,
                                                     size_t secret_len, const uint32_t *masks, size_t masks_len,
                                                     const uint32_t *errors, size_t errors_len, uint32_t *out, size_t out_len);
uint32_t saigagalena_public_key_generate_signed_error_words(uint32_t modulus, size_t n, uint32_t error_limit,
                                                            const int32_t *secret, size_t secret_len, const uint32_t *masks,
                                                            size_t masks_len, const uint32_t *errors, size_t errors_len,
                                                            uint32_t *out, size_t out_len);
saigagalena_answer saigagalena_public_key_encrypt_encoded_error_words(uint32_t modulus, size_t n, uint32_t error_limit,
                                                                      const uint32_t *key, size_t key_len,
                                                                      const uint32_t *errors, size_t errors_len,
                                                                      const int32_t *coefficients, size_t coefficients_len,
                                                                      uint32_t plaintext, uint32_t *out, size_t out_len);
saigagalena_answer saigagalena_public_key_encrypt_message_error_words(uint32_t modulus, size_t n, uint32_t t,
                                                                      uint32_t error_limit, uint32_t centered,
                                                                      const uint32_t *key, size_t key_len,
                                                                      const uint32_t *errors, size_t errors_len,
                                                                      const int32_t *coefficients, size_t coefficients_len,
                                                                      uint32_t message, uint32_t *out, size_t out_len);
uint32_t saigagalena_switching_key_generate_error_words(uint32_t modulus, uint32_t base_log, uint32_t levels, size_t n,
                                                        size_t m, uint32_t error_limit, const uint32_t *input_key,
                                                        size_t input_key_len, const uint32_t *output_key, size_t output_key_len,
                                                        const uint32_t *masks, size_t masks_len, const uint32_t *errors,
                                                        size_t errors_len, uint32_t *out, size_t out_len);
uint32_t saigagalena_switching_key_generate_signed_error_words(uint32_t modulus, uint32_t base_log, uint32_t levels, size_t n,
                                                               size_t m, uint32_t error_limit, const int32_t *input_key,
                                                               size_t input_key_len, const uint32_t *output_key,
                                                               size_t output_key_len, const uint32_t *masks, size_t masks_len,
                                                               const uint32_t *errors, size_t errors_len, uint32_t *out,
                                                               size_t out_len);

#ifdef __cplusplus
}
#endif

#endif
