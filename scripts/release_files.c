/* Writes the files of scripts/release_files.py once more, from the same seeds, through the calls of the library: every key, ciphertext and
 * message in them is what a call wrote. scripts/release_files.sh builds and runs it, and compares. Usage: release_files FOLDER
 * With the header of a release before 6 it makes what that release can: no c. */
#include <inttypes.h>
#include <stdio.h>
#include <stdlib.h>
#include <string.h>

#include "saigagalena.h"

enum { SECRET = 1, SIGNED_SECRET, SWITCHING_KEY, PUBLIC_KEY, CIPHERTEXTS, PACKED, MESSAGES };
enum { N = 24, M = 16, BASE_LOG = 4, ROWS = 4, ROOM = 8192 };
enum { TALLIES = 1, COUNTS = 2 }; /* what is saved beside the words, as bits */

/* ---- the draws of scripts/scheme01.py */

struct draw {
    uint64_t state;
    uint32_t modulus;
};

static uint32_t below(struct draw *d, uint64_t bound)
{
    d->state = d->state * UINT64_C(6364136223846793005) + UINT64_C(1442695040888963407);
    return (uint32_t)((d->state >> 32) * bound >> 32);
}

static uint64_t size(uint32_t modulus)
{
    return modulus == 0 ? UINT64_C(0x100000000) : modulus;
}

static void words(struct draw *d, uint32_t *out, size_t count)
{
    for (size_t i = 0; i < count; i++)
        out[i] = below(d, size(d->modulus));
}

static void numbers(struct draw *d, int32_t *out, size_t count, int32_t bound)
{
    for (size_t i = 0; i < count; i++)
        out[i] = (int32_t)below(d, 2 * (uint64_t)bound + 1) - bound;
}

/* A secret of -1, 0 and 1, as words modulo q. */
static void secret_words(struct draw *d, uint32_t *out, size_t count)
{
    int32_t c[ROOM];

    numbers(d, c, count, 1);
    for (size_t i = 0; i < count; i++)
        out[i] = c[i] < 0 ? (uint32_t)(size(d->modulus) - 1) : (uint32_t)c[i];
}

/* The least, the greatest, and then any. */
static void messages(struct draw *d, uint32_t *out, size_t count, uint32_t t)
{
    out[0] = 0;
    out[1] = t - 1;
    for (size_t i = 2; i < count; i++)
        out[i] = below(d, t);
}

/* ---- what a ciphertext carries, and the calls that a release spelled otherwise */

struct carried {
    uint64_t tally;
    uint32_t count;
};

static struct carried carried_by(saigagalena_tag tag)
{
#if SAIGAGALENA_VERSION >= 6
    return (struct carried){tag.tally, tag.count};
#else
    return (struct carried){tag.tally, 1};
#endif
}

static saigagalena_tag tag_of(struct carried x)
{
#if SAIGAGALENA_VERSION >= 6
    return saigagalena_saved_tag(x.tally, x.count);
#else
    return saigagalena_saved_tag(x.tally);
#endif
}

/* Rows of n + 1 words to rows of M + 1, and what each carries, in its place; the refusal. */
static uint32_t switch_rows(uint32_t modulus, const uint32_t *key, size_t len, const uint32_t *rows, struct carried carried[ROWS], uint32_t *out)
{
#if SAIGAGALENA_VERSION >= 6
    saigagalena_tag tags[ROWS];

    for (size_t i = 0; i < ROWS; i++)
        tags[i] = tag_of(carried[i]);
    const uint32_t refusal = saigagalena_key_switch_batch(modulus, BASE_LOG, 0, N, M, key, len, rows, ROWS * (N + 1), tags, ROWS, out, ROWS * (M + 1));
    for (size_t i = 0; i < ROWS; i++)
        carried[i] = carried_by(tags[i]);
    return refusal;
#else
    const saigagalena_answer answer = saigagalena_key_switch_batch(modulus, BASE_LOG, 0, N, M, key, len, rows, ROWS * (N + 1), out, ROWS * (M + 1));

    for (size_t i = 0; i < ROWS; i++)
        carried[i] = carried_by(answer.tag);
    return answer.refusal;
#endif
}

/* ---- files */

struct head {
    uint32_t kind, modulus, n, m, base_log, levels, t, bound, count, beside;
};

static const char *folder;

static void called(const char *name, uint32_t refusal)
{
    if (refusal != 0) {
        fprintf(stderr, "%s: refused %" PRIu32 "\n", name, refusal);
        exit(1);
    }
}

/* What each ciphertext carries that a call wrote. */
static struct carried written(const char *name, saigagalena_answer answer)
{
    called(name, answer.refusal);
    return carried_by(answer.tag);
}

static unsigned char *put32(unsigned char *at, uint32_t x)
{
    for (int i = 0; i < 4; i++)
        *at++ = (unsigned char)(x >> (8 * i));
    return at;
}

/* The bytes of a file, and their number. A packed ciphertext carries one c for all its bodies. */
static size_t layout(unsigned char *bytes, struct head h, const uint32_t *w, size_t len, const struct carried *carried)
{
    const uint32_t fields[] = {1, h.kind, h.modulus, h.n, h.m, h.base_log, h.levels, h.t, h.bound, h.count, (uint32_t)len, h.beside, 0, 0, 0};
    const size_t ciphertexts = h.kind == PACKED ? 1 : h.count;
    unsigned char *at = bytes + 4;

    memcpy(bytes, "SGLN", 4);
    for (size_t i = 0; i < sizeof fields / sizeof fields[0]; i++)
        at = put32(at, fields[i]);
    for (size_t i = 0; i < len; i++)
        at = put32(at, w[i]);
    for (size_t i = 0; h.beside & TALLIES && i < ciphertexts; i++) {
        at = put32(at, (uint32_t)carried[i].tally);
        at = put32(at, (uint32_t)(carried[i].tally >> 32));
    }
    for (size_t i = 0; h.beside & COUNTS && i < ciphertexts; i++)
        at = put32(at, carried[i].count);
    return (size_t)(at - bytes);
}

static void write_bytes(const char *setting, const char *name, const char *suffix, const unsigned char *bytes, size_t len)
{
    char path[512];
    FILE *f;

    snprintf(path, sizeof path, "%s/%s/%s%s", folder, setting, name, suffix);
    f = fopen(path, "wb");
    if (f == NULL || fwrite(bytes, 1, len, f) != len || fclose(f) != 0) {
        perror(path);
        exit(1);
    }
}

static void save(const char *setting, const char *name, const char *suffix, struct head h, const uint32_t *w, size_t len, const struct carried *carried)
{
    static unsigned char bytes[64 + 4 * ROOM + 12 * ROWS];

    write_bytes(setting, name, suffix, bytes, layout(bytes, h, w, len, carried));
}

/* ---- the files of one modulus */

struct release {
    const char *name;
    struct draw d;
    uint32_t t, bound, levels;
    int counted; /* c is saved */
    uint32_t secret[N], group[M], key[ROOM], signed_key[ROOM], public_key[ROOM];
    int32_t signed_secret[N];
    uint32_t fresh[ROWS * (N + 1)], signed_fresh[ROWS * (N + 1)];
    struct carried fresh_carried[ROWS], signed_carried[ROWS];
};

static struct head ciphertexts(const struct release *r, uint32_t n, uint32_t count, int tallied)
{
    return (struct head){.kind = CIPHERTEXTS, .modulus = r->d.modulus, .n = n, .t = r->t, .bound = r->bound, .count = count,
                         .beside = (tallied ? TALLIES : 0) | (r->counted ? COUNTS : 0)};
}

static void save_opens(const struct release *r, const char *name, const uint32_t *told, uint32_t count)
{
    const struct head h = {.kind = MESSAGES, .modulus = r->d.modulus, .t = r->t, .count = count};

    save(r->name, name, ".opens", h, told, count, NULL);
}

/* Rows, and what they open to under a secret of n words; a tally for each, or none. */
static void save_rows(const struct release *r, const char *name, const uint32_t *rows, uint32_t n, uint32_t count, const uint32_t *secret,
                      const struct carried *carried)
{
    const size_t len = (size_t)count * (n + 1);
    uint32_t told[ROWS];

    save(r->name, name, "", ciphertexts(r, n, count, carried[0].tally != SAIGAGALENA_NO_TALLY), rows, len, carried);
    called(name, saigagalena_decrypt_message_batch(r->d.modulus, n, r->t, secret, n, rows, len, told, count));
    save_opens(r, name, told, count);
}

static void make_secrets(struct release *r)
{
    struct head h = {.kind = SECRET, .modulus = r->d.modulus, .n = N};

    secret_words(&r->d, r->secret, N);
    numbers(&r->d, r->signed_secret, N, 1);
    secret_words(&r->d, r->group, M);
    save(r->name, "secret", "", h, r->secret, N, NULL);
    h.kind = SIGNED_SECRET;
    save(r->name, "signed_secret", "", h, (const uint32_t *)r->signed_secret, N, NULL);
    h.kind = SECRET;
    h.n = M;
    save(r->name, "group_secret", "", h, r->group, M, NULL);
}

static struct head switching_head(const struct release *r)
{
    return (struct head){.kind = SWITCHING_KEY, .modulus = r->d.modulus, .n = N, .m = M, .base_log = BASE_LOG, .levels = r->levels, .bound = r->bound};
}

static void find_levels(struct release *r)
{
    uint32_t basis[6];

    called("basis", saigagalena_basis(r->d.modulus, BASE_LOG, 0, basis, 6));
    r->levels = basis[2];
}

static size_t key_len(const struct release *r)
{
    return (size_t)N * r->levels * (M + 1);
}

static void make_key(struct release *r)
{
    static uint32_t masks[ROOM];
    static int32_t errors[ROOM];
    const size_t count = (size_t)N * r->levels;

    words(&r->d, masks, count * M);
    numbers(&r->d, errors, count, (int32_t)r->bound);
    called("switching key", saigagalena_switching_key_generate(r->d.modulus, BASE_LOG, 0, N, M, r->bound, r->secret, N, r->group, M, masks, count * M,
                                                               errors, count, r->key, key_len(r)));
    save(r->name, "switching_key", "", switching_head(r), r->key, key_len(r), NULL);
}

static void make_signed_key(struct release *r)
{
    static uint32_t masks[ROOM];
    static int32_t errors[ROOM];
    const size_t count = (size_t)N * r->levels;

    words(&r->d, masks, count * M);
    numbers(&r->d, errors, count, (int32_t)r->bound);
    called("signed switching key", saigagalena_switching_key_generate_signed(r->d.modulus, BASE_LOG, 0, N, M, r->bound, r->signed_secret, N, r->group,
                                                                             M, masks, count * M, errors, count, r->signed_key, key_len(r)));
    save(r->name, "signed_switching_key", "", switching_head(r), r->signed_key, key_len(r), NULL);
}

static void make_public_key(struct release *r)
{
    const struct head h = {.kind = PUBLIC_KEY, .modulus = r->d.modulus, .n = N, .bound = r->bound};
    uint32_t masks[N * N];
    int32_t errors[N];

    words(&r->d, masks, N * N);
    numbers(&r->d, errors, N, (int32_t)r->bound);
    called("public key", saigagalena_public_key_generate(r->d.modulus, N, r->bound, r->secret, N, masks, N * N, errors, N, r->public_key, N * (N + 1)));
    save(r->name, "public_key", "", h, r->public_key, N * (N + 1), NULL);
}

static void make_fresh(struct release *r)
{
    uint32_t masks[ROWS * N], told[ROWS];
    int32_t errors[ROWS];

    words(&r->d, masks, ROWS * N);
    numbers(&r->d, errors, ROWS, (int32_t)r->bound);
    messages(&r->d, told, ROWS, r->t);
    const struct carried each = written("fresh", saigagalena_encrypt_message_batch(r->d.modulus, N, r->t, r->bound, 0, r->secret, N, masks, ROWS * N,
                                                                                   errors, ROWS, told, ROWS, r->fresh, ROWS * (N + 1)));

    for (size_t i = 0; i < ROWS; i++)
        r->fresh_carried[i] = each;
    save_rows(r, "fresh", r->fresh, N, ROWS, r->secret, r->fresh_carried);
}

static void make_signed_fresh(struct release *r)
{
    uint32_t masks[ROWS * N], told[ROWS];
    int32_t errors[ROWS];

    words(&r->d, masks, ROWS * N);
    numbers(&r->d, errors, ROWS, (int32_t)r->bound);
    messages(&r->d, told, ROWS, r->t);
    for (size_t i = 0; i < ROWS; i++) {
        uint32_t *row = r->signed_fresh + i * (N + 1);

        r->signed_carried[i] = written("signed fresh", saigagalena_encrypt_message_signed(r->d.modulus, N, r->t, r->bound, 1, r->signed_secret, N,
                                                                                          masks + i * N, N, errors + i, 1, told[i], row, N + 1));
        told[i] = (uint32_t)saigagalena_decrypt_message_signed(r->d.modulus, N, r->t, r->signed_secret, N, row, N + 1);
    }
    save(r->name, "signed_fresh", "", ciphertexts(r, N, ROWS, 1), r->signed_fresh, ROWS * (N + 1), r->signed_carried);
    save_opens(r, "signed_fresh", told, ROWS);
}

struct sums {
    uint32_t rows[ROWS * (N + 1)];
    struct carried carried[ROWS];
};

/* The sum of `count` fresh ciphertexts, from the one at i on, round. */
static void make_sum(const struct release *r, const char *name, size_t i, uint32_t count, struct sums *sums)
{
    for (uint32_t k = 1; k < count; k++) {
        const size_t at = (i + k) % ROWS;
        const saigagalena_tag tag = tag_of(sums->carried[i]), other = tag_of(r->fresh_carried[at]);

        sums->carried[i] = written(name, saigagalena_add(r->d.modulus, N, sums->rows + i * (N + 1), N + 1, tag, r->fresh + at * (N + 1), N + 1, other));
    }
}

static void make_sums(const struct release *r, const char *name, const uint32_t counts[ROWS], struct sums *sums)
{
    memcpy(sums->rows, r->fresh, sizeof r->fresh);
    memcpy(sums->carried, r->fresh_carried, sizeof r->fresh_carried);
    for (size_t i = 0; i < ROWS; i++)
        make_sum(r, name, i, counts[i], sums);
    save_rows(r, name, sums->rows, N, ROWS, r->secret, sums->carried);
}

static void make_packed(struct release *r)
{
    enum { MANY = N / 2 };
    const struct head h = {.kind = PACKED, .modulus = r->d.modulus, .n = N, .t = r->t, .bound = r->bound, .count = MANY,
                           .beside = r->counted ? COUNTS : 0};
    uint32_t mask[N], told[MANY], out[N + MANY];
    int32_t errors[MANY];

    words(&r->d, mask, N);
    numbers(&r->d, errors, MANY, (int32_t)r->bound);
    messages(&r->d, told, MANY, r->t);
    const struct carried all = written("packed", saigagalena_encrypt_message_packed(r->d.modulus, N, r->t, r->bound, 0, r->secret, N, mask, N, errors,
                                                                                    MANY, told, MANY, out, N + MANY));

    called("packed", saigagalena_decrypt_message_packed(r->d.modulus, N, r->t, r->secret, N, out, N + MANY, told, MANY));
    save(r->name, "packed", "", h, out, N + MANY, &all);
    save_opens(r, "packed", told, MANY);
}

static void make_public(struct release *r)
{
    enum { COUNT = 3 };
    uint32_t told[COUNT], rows[COUNT * (N + 1)];
    struct carried carried[COUNT];

    messages(&r->d, told, COUNT, r->t);
    for (size_t i = 0; i < COUNT; i++) {
        int32_t errors[N + 1], coefficients[N];

        numbers(&r->d, errors, N + 1, (int32_t)r->bound);
        numbers(&r->d, coefficients, N, 1);
        carried[i] = written("public", saigagalena_public_key_encrypt_message(r->d.modulus, N, r->t, r->bound, 0, r->public_key, N * (N + 1), errors,
                                                                              N + 1, coefficients, N, told[i], rows + i * (N + 1), N + 1));
    }
    save_rows(r, "public", rows, N, COUNT, r->secret, carried);
}

static void make_switched(struct release *r, const char *name, const uint32_t *key, const uint32_t *rows, const struct carried *carried)
{
    uint32_t out[ROWS * (M + 1)];
    struct carried switched[ROWS];

    memcpy(switched, carried, sizeof switched);
    called(name, switch_rows(r->d.modulus, key, key_len(r), rows, switched, out));
    save_rows(r, name, out, M, ROWS, r->group, switched);
}

static void make_release(const char *name, uint32_t modulus, uint32_t t, uint64_t seed, int counted)
{
    static const uint32_t twos[ROWS] = {2, 2, 2, 2}, many[ROWS] = {1, 4, 7, 3};
    static struct release r;
    static struct sums summed, total;

    r.name = name;
    r.counted = counted;
    r.d = (struct draw){seed, modulus};
    r.t = t;
    r.bound = 3;
    find_levels(&r);
    make_secrets(&r);
    make_key(&r);
    make_signed_key(&r);
    make_public_key(&r);
    make_fresh(&r);
    make_signed_fresh(&r);
    make_sums(&r, "summed", twos, &summed);
    make_packed(&r);
    make_public(&r);
    make_switched(&r, "switched", r.key, summed.rows, summed.carried);
    make_switched(&r, "signed_switched", r.signed_key, r.signed_fresh, r.signed_carried);
    if (counted) {
        make_sums(&r, "total", many, &total);
        make_switched(&r, "switched_total", r.key, total.rows, total.carried);
    }
}

/* ---- the pooling box's files, the damaged ones among them */

static const uint32_t counts[9][ROWS] = {
    {12, 0, 31, 7}, {5, 18, 0, 7}, {9, 9, 9, 9}, {40, 2, 11, 3}, {8, 1, 0, 0}, {6, 6, 1, 2}, {3, 3, 3, 3}, {20, 4, 2, 60}, {1, 1, 1, 1},
};

/* What scripts/release_files.py does to a shop's file; the length that is left. */
static size_t damage(int shop, unsigned char *bytes, size_t len, uint32_t q)
{
    switch (shop) {
    case 3:
        return len - 10;
    case 4:
        put32(bytes + 64 + 4 * 70, q);
        break;
    case 6:
        put32(put32(bytes + 64 + 4 * ROWS * (N + 1) + 8 * 2, 1), 1);
        break;
    case 7:
        memcpy(bytes, "\x89PNG", 4);
        break;
    case 9:
        put32(bytes + 32, 512);
        break;
    }
    return len;
}

static void make_shop(struct release *r, int shop)
{
    static unsigned char bytes[64 + 4 * ROOM];
    const uint32_t n = shop == 5 ? N - 4 : N;
    const char name[] = {'s', 'h', 'o', 'p', '_', (char)('0' + shop), 0};
    uint32_t masks[ROWS * N];
    int32_t errors[ROWS];
    size_t len;

    words(&r->d, masks, (size_t)ROWS * n);
    numbers(&r->d, errors, ROWS, (int32_t)r->bound);
    const struct carried each = written(name, saigagalena_encrypt_message_batch(r->d.modulus, n, r->t, r->bound, 0, r->secret, n, masks,
                                                                                (size_t)ROWS * n, errors, ROWS, counts[shop - 1], ROWS, r->fresh,
                                                                                (size_t)ROWS * (n + 1)));
    const struct carried carried[ROWS] = {each, each, each, each};

    len = layout(bytes, ciphertexts(r, n, ROWS, 1), r->fresh, (size_t)ROWS * (n + 1), carried);
    write_bytes(r->name, name, "", bytes, damage(shop, bytes, len, r->d.modulus));
}

static void make_box(void)
{
    static struct release r;
    const struct head h = {.kind = SECRET, .modulus = 4294967291u, .n = M};

    r.name = "box";
    r.counted = 1;
    r.d = (struct draw){104, 4294967291u};
    r.t = 1024;
    r.bound = 3;
    find_levels(&r);
    secret_words(&r.d, r.secret, N);
    secret_words(&r.d, r.group, M);
    make_key(&r);
    save(r.name, "group_secret", "", h, r.group, M, NULL);
    for (int shop = 1; shop <= 9; shop++)
        make_shop(&r, shop);
}

int main(int argc, char **argv)
{
    if (argc != 2) {
        fprintf(stderr, "usage: release_files FOLDER, with a folder for each setting in it\n");
        return 2;
    }
    folder = argv[1];
    make_release("release_1/native", 0, 256, 101, 0);
    make_release("release_1/prime", 132120577, 256, 102, 0);
    make_release("release_1/power", 1u << 27, 256, 103, 0);
    make_release("release_3/native", 0, 1000003, 105, 0);
    make_release("release_3/prime", 4294967291u, 1000003, 106, 0);
#if SAIGAGALENA_VERSION >= 6
    make_release("release_6/native", 0, 1000, 107, 1);
    make_release("release_6/prime", 132120577, 1000, 108, 1);
    make_release("release_6/power", 1u << 27, 1000, 109, 1);
#endif
    make_box();
    return 0;
}
