/*
 * Three shops send encrypted counts of worn parts. The box adds them without opening any, marks the sums, and switches them
 * to the buyers' key; the buyers open the totals. Rows that are cut short, or have a tally or a number of encryptions that cannot be,
 * are refused and touch nothing.
 * scripts/c_test.sh builds this and compares its output with pool.out.
 */
#include <inttypes.h>
#include <stdio.h>
#include <stdlib.h>
#include <string.h>

#include "saigagalena.h"

enum {
    MODULUS = 0, /* native: 2^32 */
    N = 64,      /* dimension of the shops' key */
    M = 32,      /* dimension of the buyers' key */
    T = 1000,    /* totals are below this; it need not divide the modulus */
    BOUND = 16,  /* errors lie within -BOUND .. BOUND */
    BASE_LOG = 4,
    LEVELS = 7,
    PARTS = 4, /* counts in a row */
    SHOPS = 3,
    CIPHERTEXT = N + 1,
    ROW = PARTS * CIPHERTEXT,
    ENTRIES = N * LEVELS, /* of the switching key */
    SWITCHED = M + 1,
};

/*
 * Masks and errors for this example only, so that it prints the same everywhere. A real program MUST draw masks, errors and
 * keys from a cryptographic random generator (getrandom, BCryptGenRandom): these can be computed by anyone.
 */
static uint32_t example_word(void)
{
    static uint64_t state = 1;

    state = state * UINT64_C(6364136223846793005) + UINT64_C(1442695040888963407);
    return (uint32_t)(state >> 32);
}

static void example_mask(uint32_t *words, size_t count)
{
    for (size_t i = 0; i < count; i++)
        words[i] = example_word();
}

static void example_errors(int32_t *errors, size_t count)
{
    for (size_t i = 0; i < count; i++)
        errors[i] = (int32_t)(example_word() % (2 * BOUND + 1)) - BOUND;
}

/* Keys of 0 and 1: the switch adds an error that grows with the key's numbers. */
static void example_key(uint32_t *key, size_t count)
{
    for (size_t i = 0; i < count; i++)
        key[i] = example_word() >> 31;
}

/* For calls that this program gives good operands only: a refusal is a fault of the program. */
static void must(const char *what, uint32_t number)
{
    if (number == 0)
        return;
    fprintf(stderr, "%s: refused by %" PRIu32 ": %s\n", what, number, saigagalena_refusal_text(number));
    exit(1);
}

/* The same of an answer of 64 bits. */
static uint64_t answered(const char *what, uint64_t answer)
{
    if (answer > SAIGAGALENA_REFUSED)
        must(what, (uint32_t)(answer - SAIGAGALENA_REFUSED));
    return answer;
}

/* The tag of what a call wrote. */
static saigagalena_tag written(const char *what, saigagalena_answer answer)
{
    must(what, answer.refusal);
    return answer.tag;
}

/* --- A shop --- */

/* What a shop sends: the words, how many they are, and the tally and c of each ciphertext. */
struct row {
    uint32_t words[ROW];
    size_t len;
    uint64_t tally;
    uint32_t count;
};

static void encrypt_row(const uint32_t key[N], const uint32_t counts[PARTS], struct row *row)
{
    uint32_t masks[PARTS * N];
    int32_t errors[PARTS];

    example_mask(masks, PARTS * N);
    example_errors(errors, PARTS);
    const saigagalena_tag tag = written("encrypt_message_batch",
                                        saigagalena_encrypt_message_batch(MODULUS, N, T, BOUND, 0, key, N, masks, PARTS * N, errors,
                                                                          PARTS, counts, PARTS, row->words, ROW));

    row->tally = tag.tally;
    row->count = tag.count;
    row->len = ROW;
}

/* --- The box --- */

/* The sums so far and their tag, one for all of them, since every row adds the same to each. */
struct pool {
    uint32_t sums[ROW];
    saigagalena_tag tag;
};

/* Words of 0: the sum of no encryption, with no error. */
static struct pool empty_pool(void)
{
    return (struct pool){{0}, saigagalena_saved_tag(0, 0)};
}

/*
 * Adds a row that came from outside, or refuses it by a number. Each call touches nothing where it refuses; that the whole row
 * touches nothing where one of its ciphertexts is refused is for us to see to: we add to a copy.
 */
static uint32_t add_row(struct pool *pool, const struct row *row)
{
    const saigagalena_tag tag = saigagalena_saved_tag(row->tally, row->count); /* the shop's word */
    struct pool next = *pool;

    for (size_t part = 0; part < PARTS; part++) {
        const size_t at = part * CIPHERTEXT, left = row->len > at ? row->len - at : 0;
        /* the last ciphertext is all that is left, so that a row that is too long is refused as one that is too short */
        const size_t have = part + 1 < PARTS && left > CIPHERTEXT ? (size_t)CIPHERTEXT : left;
        const saigagalena_answer answer = saigagalena_add(MODULUS, N, next.sums + at, CIPHERTEXT, pool->tag,
                                                          have ? row->words + at : NULL, have, tag);

        if (answer.refusal != 0)
            return answer.refusal;
        next.tag = answer.tag;
    }
    *pool = next;
    return 0;
}

/* A sum that is marked good opens to the total modulo T: to the total itself, as long as that is below T. */
static int is_good(saigagalena_tag tag)
{
    return answered("is_good", saigagalena_is_good(MODULUS, T, tag)) == 1;
}

/* --- The maker of the switching key, who knows both secrets --- */

static void make_switching_key(const uint32_t shops_key[N], const uint32_t buyers_key[M], uint32_t key[ENTRIES * SWITCHED])
{
    static uint32_t masks[ENTRIES * M];
    int32_t errors[ENTRIES];

    example_mask(masks, ENTRIES * M);
    example_errors(errors, ENTRIES);
    must("switching_key_generate",
         saigagalena_switching_key_generate(MODULUS, BASE_LOG, LEVELS, N, M, BOUND, shops_key, N, buyers_key, M, masks,
                                            ENTRIES * M, errors, ENTRIES, key, ENTRIES * SWITCHED));
}

/* --- All of them --- */

static void print_counts(const char *who, const uint32_t counts[PARTS])
{
    printf("%-12s", who);
    for (size_t part = 0; part < PARTS; part++)
        printf(" %4" PRIu32, counts[part]);
    printf("\n");
}

static void refuse_row(const char *what, struct pool *pool, const struct row *row)
{
    const uint32_t number = add_row(pool, row);

    printf("%-13srefused by %" PRIu32 ": %s\n", what, number, saigagalena_refusal_text(number));
}

static void pool_rows(const uint32_t shops_key[N], struct pool *pool)
{
    static const uint32_t counts[SHOPS][PARTS] = {{12, 0, 140, 7}, {3, 25, 260, 0}, {40, 1, 199, 88}};
    struct row row;

    for (int shop = 0; shop < SHOPS; shop++) {
        encrypt_row(shops_key, counts[shop], &row);
        print_counts("a shop has", counts[shop]);
        const uint32_t number = add_row(pool, &row);
        printf("its row      %s\n", number == 0 ? "added" : saigagalena_refusal_text(number));
    }
    const struct pool before = *pool;

    row.len = ROW - 1;
    refuse_row("a short row", pool, &row);
    row.len = ROW;
    row.tally = UINT64_C(1) << 33;
    refuse_row("a bad tally", pool, &row);
    row.tally = BOUND;
    row.count = SAIGAGALENA_MOST_SUMMED + 1;
    refuse_row("a bad c", pool, &row);
    const int same = memcmp(before.sums, pool->sums, sizeof before.sums) == 0 && before.tag.tally == pool->tag.tally
        && before.tag.count == pool->tag.count;

    printf("the sums     %s\n", same ? "are as before" : "HAVE CHANGED");
}

/* The sums under the buyers' key. Each has the tag of the pool, and afterwards its own: they differ in nothing here. */
static saigagalena_tag switch_sums(const uint32_t key[ENTRIES * SWITCHED], const struct pool *pool, uint32_t switched[PARTS * SWITCHED])
{
    saigagalena_tag tags[PARTS];

    for (size_t part = 0; part < PARTS; part++)
        tags[part] = pool->tag;
    must("key_switch_batch", saigagalena_key_switch_batch(MODULUS, BASE_LOG, LEVELS, N, M, key, ENTRIES * SWITCHED, pool->sums, ROW,
                                                          tags, PARTS, switched, PARTS * SWITCHED));
    return tags[0];
}

int main(void)
{
    static uint32_t switching_key[ENTRIES * SWITCHED];
    uint32_t shops_key[N], buyers_key[M], switched[PARTS * SWITCHED], totals[PARTS];
    struct pool pool = empty_pool();

    example_key(shops_key, N);
    example_key(buyers_key, M);
    make_switching_key(shops_key, buyers_key, switching_key);

    pool_rows(shops_key, &pool);
    printf("the tally    %" PRIu64 " of %" PRIu32 " encryptions, %s\n", pool.tag.tally, pool.tag.count,
           is_good(pool.tag) ? "marked good" : "NOT marked good");

    /* The switch adds an error of at most H * (sum of the key) + n * L * (B/2) * BOUND, here 8 * 64 + 64 * 7 * 8 * 16 = 57856.
     * With the tally and c / 2 that is far below q / 2t = 2147483, so the totals still open; choose parameters with such room. */
    const saigagalena_tag tag = switch_sums(switching_key, &pool, switched);

    printf("switched     %" PRIu32 " encryptions still; %s\n", tag.count, is_good(tag) ? "MARKED" : "no mark: there is no tally");
    must("decrypt_message_batch", saigagalena_decrypt_message_batch(MODULUS, M, T, buyers_key, M, switched, PARTS * SWITCHED,
                                                                    totals, PARTS));
    print_counts("the totals", totals);
    return 0;
}
