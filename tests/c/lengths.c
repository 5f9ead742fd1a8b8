/* The lengths that calls expect (checks 9, 11 and 12). Where a dimension is refused they may wrap: 6 comes first. */
#include "model.h"

static uint64_t row_count(const struct operands *o)
{
    return o->n == SIZE_MAX ? 0 : len(o, INPUT) / (o->n + 1);
}

void no_lengths(const struct operands *o, uint64_t expected[FIELDS])
{
    (void)o;
    (void)expected;
}

void basis_lengths(const struct operands *o, uint64_t expected[FIELDS])
{
    (void)o;
    expected[OUT] = 6;
}

void reading_lengths(const struct operands *o, uint64_t expected[FIELDS])
{
    (void)o;
    expected[OUT] = 2;
}

void decompose_lengths(const struct operands *o, uint64_t expected[FIELDS])
{
    expected[OUT] = level_count(o) * len(o, INPUT);
}

void counts_lengths(const struct operands *o, uint64_t expected[FIELDS])
{
    expected[OUT] = level_count(o) + 1;
}

void same_lengths(const struct operands *o, uint64_t expected[FIELDS])
{
    expected[OUT] = len(o, INPUT);
}

void ciphertext_lengths(const struct operands *o, uint64_t expected[FIELDS])
{
    expected[OUT] = o->n + 1;
}

void encrypt_lengths(const struct operands *o, uint64_t expected[FIELDS])
{
    expected[KEY] = o->n;
    expected[MASK] = o->n;
    expected[ERRORS] = 1;
    expected[OUT] = o->n + 1;
}

void encrypt_rows_lengths(const struct operands *o, uint64_t expected[FIELDS])
{
    const uint64_t count = len(o, INPUT);

    expected[KEY] = o->n;
    expected[MASK] = count * o->n;
    expected[ERRORS] = count;
    expected[OUT] = count * (o->n + 1);
}

void packed_lengths(const struct operands *o, uint64_t expected[FIELDS])
{
    const uint64_t count = len(o, INPUT);

    expected[KEY] = o->n;
    expected[MASK] = o->n;
    expected[ERRORS] = count;
    expected[OUT] = o->n + count;
}

void open_lengths(const struct operands *o, uint64_t expected[FIELDS])
{
    expected[KEY] = o->n;
}

void open_rows_lengths(const struct operands *o, uint64_t expected[FIELDS])
{
    expected[KEY] = o->n;
    expected[OUT] = row_count(o);
}

void open_packed_lengths(const struct operands *o, uint64_t expected[FIELDS])
{
    expected[KEY] = o->n;
    expected[OUT] = len(o, INPUT) - o->n;
}

void public_key_lengths(const struct operands *o, uint64_t expected[FIELDS])
{
    expected[KEY] = o->n;
    expected[MASK] = o->n * o->n;
    expected[ERRORS] = o->n;
    expected[OUT] = o->n * (o->n + 1);
}

void public_encrypt_lengths(const struct operands *o, uint64_t expected[FIELDS])
{
    expected[KEY] = o->n * (o->n + 1);
    expected[ERRORS] = o->n + 1;
    expected[COEFFICIENTS] = o->n;
    expected[OUT] = o->n + 1;
}

void generate_lengths(const struct operands *o, uint64_t expected[FIELDS])
{
    const uint64_t entries = o->n * level_count(o);

    expected[KEY] = o->n;
    expected[OUTPUT_KEY] = o->m;
    expected[MASK] = entries * o->m;
    expected[ERRORS] = entries;
    expected[OUT] = entries * (o->m + 1);
}

void switch_lengths(const struct operands *o, uint64_t expected[FIELDS])
{
    expected[KEY] = o->n * level_count(o) * (o->m + 1);
    expected[OUT] = o->m + 1;
}

void switch_rows_lengths(const struct operands *o, uint64_t expected[FIELDS])
{
    expected[KEY] = o->n * level_count(o) * (o->m + 1);
    expected[TAGS] = row_count(o);
    expected[OUT] = row_count(o) * (o->m + 1);
}
