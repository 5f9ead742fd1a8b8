/* The calls that bench/before.c measures through two archives in one run. */
#ifndef CALLS_H
#define CALLS_H

#include <stddef.h>
#include <stdint.h>

enum which { SWITCH, ADD, ENCRYPT, ENCRYPT_SIGNED, OPEN, OPEN_SIGNED, ENCODE, DECODE, CALLS };

enum { MOST_ROWS = 64 };

struct job {
    uint32_t modulus, t, error_limit, base_log;
    size_t n, m, rows;
    uint32_t *secret, *key, *masks, *ciphertexts, *messages, *words; /* read */
    int32_t *signed_secret, *errors;
    size_t key_len;
    uint32_t *out; /* written: room for the longest output */
};

/* Makes the call; how many words it wrote to `out`, or 0 where it was refused. */
size_t run_call(enum which which, const struct job *j);

#endif
