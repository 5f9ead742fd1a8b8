/* The ways in which good operands are damaged. */
#include "draw.h"

#include "place.h"

#define COUNT(list) (sizeof(list) / sizeof(list)[0])

/* --- The list --- */

struct kind {
    enum what what;
    unsigned takes; /* any of these */
    unsigned variants;
};

/* Parameters, each damaged early and late. */
static const struct kind parameters[] = {
    {BAD_BASE_LOG, BASE, 5}, {BAD_MODULUS, MODULUS, 3}, {BAD_MODULUS_FOR_BASE, BASE, 3}, {BAD_LEVELS, BASE, 4},
    {BAD_N, N, 6}, {BAD_M, M, 6}, {BAD_T, T, 2}, {BAD_MODULUS_FOR_T, T, 4}, {BAD_BOUND, BOUND, 4},
};

/* What fits nothing else is damaged late only. */
static const struct kind numbers[] = {
    {BAD_VALUE, WORD | MESSAGE, 5}, {BAD_TALLY, TAG | TWO_TAGS | SAVED, 15}, {BAD_COUNT, TAG | TWO_TAGS | SAVED, 16},
};

static size_t add_damages(struct damage *list, size_t count, struct damage first, unsigned variants)
{
    for (first.variant = 0; first.variant < variants && count < MOST_DAMAGES; first.variant++)
        list[count++] = first;
    return count;
}

static int has_bad_content(const struct call *call, enum field f)
{
    return f != OUT || call->takes & SUM;
}

/* How many numbers bad_element has of a field. */
static unsigned bad_kinds(enum field f)
{
    return f == ERROR_WORDS ? 8 : f == TAGS ? 6 : 4;
}

size_t list_damages(const struct call *call, struct damage list[MOST_DAMAGES])
{
    size_t count = 0;

    for (size_t i = 0; i < COUNT(parameters); i++) {
        if (!(call->takes & parameters[i].takes))
            continue;
        count = add_damages(list, count, (struct damage){parameters[i].what, EARLY, 0, 0}, parameters[i].variants);
        count = add_damages(list, count, (struct damage){parameters[i].what, LATE, 0, 0}, parameters[i].variants);
    }
    for (size_t i = 0; i < COUNT(numbers); i++)
        if (call->takes & numbers[i].takes)
            count = add_damages(list, count, (struct damage){numbers[i].what, LATE, 0, 0}, numbers[i].variants);
    if (call->input == PACKED_INDEX || call->input == BODY_COUNT)
        count = add_damages(list, count, (struct damage){BAD_INDEX, LATE, 0, 0}, 4);
    if (call->fields >> INPUT & 1)
        count = add_damages(list, count, (struct damage){BAD_LENGTH, INPUT_LENGTH, INPUT, 0}, 8);
    for (int f = 0; f < FIELDS; f++) {
        if (!(call->fields >> f & 1))
            continue;
        count = add_damages(list, count, (struct damage){BAD_LENGTH, LENGTHS, (enum field)f, 0}, f == INPUT ? 8 : 6);
        if (has_bad_content(call, (enum field)f))
            count = add_damages(list, count, (struct damage){BAD_CONTENT, CONTENTS, (enum field)f, 0}, 3 * bad_kinds((enum field)f));
    }
    return count;
}

/* --- The deeds --- */

static void damage_base(const struct damage *damage, struct operands *o)
{
    static const uint32_t base_logs[] = {0, 1, 32, 2147483648u, UINT32_MAX};
    const uint64_t full = full_count(o);
    const uint32_t levels[] = {(uint32_t)full + 1, 17, 2147483648u, UINT32_MAX};

    if (damage->what == BAD_BASE_LOG)
        o->base_log = base_logs[damage->variant];
    else
        o->levels = levels[damage->variant];
}

/* A modulus below the base, or a base above the modulus. */
static void damage_modulus_for_base(const struct damage *damage, struct operands *o)
{
    const int wide = o->base_log >= 3 && o->base_log <= 31;

    if (damage->variant == 0 && wide)
        o->modulus = 4;
    else if (damage->variant == 1 && wide)
        o->modulus = (UINT32_C(1) << o->base_log) - 1;
    else if (damage->variant == 2 && o->modulus != 0)
        while (o->base_log < 31 && UINT64_C(1) << o->base_log <= o->modulus)
            o->base_log++;
}

static void damage_dimension(const struct damage *damage, size_t *n)
{
    static const size_t dimensions[] = {0, 2049, SIZE_MAX, SIZE_MAX - 1, SIZE_MAX / 2 + 1, (size_t)UINT32_MAX + 2};

    *n = dimensions[damage->variant];
}

static void damage_t(const struct damage *damage, struct operands *o)
{
    if (damage->what == BAD_T)
        o->t = damage->variant;
    else if (damage->variant < 2 && o->modulus >= 4 && o->modulus <= UINT32_MAX - damage->variant)
        o->t = o->modulus + damage->variant;
    else if (damage->variant >= 2 && o->t >= 6)
        o->modulus = o->t - (damage->variant - 2);
}

static void damage_bound(const struct damage *damage, struct operands *o)
{
    const uint64_t q = q_of(o->modulus), bounds[] = {1048577, UINT32_MAX, q, q + 1};

    if (bounds[damage->variant] <= UINT32_MAX)
        o->bound = (uint32_t)bounds[damage->variant];
}

/* A body that is not there; or more bodies than n. */
static void damage_index(const struct call *call, const struct damage *damage, struct operands *o)
{
    const size_t places[] = {len(o, INPUT) - o->n, o->n, SIZE_MAX, (size_t)UINT32_MAX + 1};
    const size_t counts[] = {o->n + 1, SIZE_MAX - o->n + 1, SIZE_MAX, (size_t)UINT32_MAX + 1};

    o->index = call->input == BODY_COUNT ? counts[damage->variant] : places[damage->variant];
}

static void damage_value(const struct call *call, const struct damage *damage, struct operands *o)
{
    const uint64_t q = q_of(o->modulus), t = o->t;
    const uint64_t words[] = {q, q + 1, UINT32_MAX, UINT32_MAX - 1, q + 2}, messages[] = {t, t + 1, q, UINT32_MAX, q + 1};
    const uint64_t bad = call->takes & WORD ? words[damage->variant] : messages[damage->variant];

    if (bad <= UINT32_MAX)
        o->value = (uint32_t)bad;
}

/* The first, the second or both; near 2^32, where a sum passes it, and near 2^64, where it wraps. */
static void damage_tally(const struct damage *damage, struct operands *o)
{
    const uint64_t two32 = UINT64_C(1) << 32;
    const uint64_t bad[] = {two32 + 1, two32 / 2 + 1, UINT64_C(1) << 63, UINT64_MAX - 1, UINT64_MAX - two32 + 1};
    const unsigned which = damage->variant / 5;

    if (which != 1)
        o->tag[0].tally = bad[damage->variant % 5];
    if (which != 0)
        o->tag[1].tally = bad[damage->variant % 5];
}

/* The same of c: above 65,536, or where a sum passes it or wraps in 32 bits; and the least c whose sum with the first is too large. */
static void damage_count(const struct damage *damage, struct operands *o)
{
    static const uint32_t bad[] = {65537, 32769, 65536, 2147483648u, UINT32_MAX};
    const unsigned which = damage->variant / 5;

    if (which == 3)
        o->tag[1].count = 65537 - o->tag[0].count;
    else if (which != 1)
        o->tag[0].count = bad[damage->variant % 5];
    if (which == 1 || which == 2)
        o->tag[1].count = bad[damage->variant % 5];
}

static void damage_length(const struct call *call, const struct damage *damage, struct operands *o)
{
    const size_t have = len(o, damage->field), n = o->n > 2048 ? 2048 : o->n;
    const size_t bad[] = {0, have - 1, have + 1, have + n, have + n + 1, 2 * have, 2 * n + 1, n - 1};
    const size_t length = bad[damage->variant];

    if (length <= MOST_BYTES / element_size(call, damage->field))
        o->slice[damage->field].len = length;
}

/* A number that the check of the field refuses, in 64 bits: it may not fit 32. */
static int64_t bad_element(const struct call *call, enum field f, unsigned variant, const struct operands *o)
{
    const int64_t q = (int64_t)q_of(o->modulus), t = o->t, E = o->bound;
    const int64_t words[] = {q, UINT32_MAX, q + 1, q}, messages[] = {t, t + 1, q, UINT32_MAX};
    const int64_t keys[] = {q, -q, INT32_MIN, INT32_MAX};
    const int64_t errors[] = {E + 1, -E - 1, INT32_MIN, INT32_MAX}, coefficients[] = {2, -2, INT32_MIN, INT32_MAX};
    /* four that are not below an explicit q; four that are refused where E is below the magnitude of what they count as */
    const int64_t error_words[] = {q, UINT32_MAX, q + 1, q + E, E + 1, q - E - 1, q / 2, q / 2 + 1};

    switch (f) {
    case SIGNED_KEY:
        return keys[variant];
    case ERRORS:
        return errors[variant];
    case ERROR_WORDS:
        return error_words[variant];
    case COEFFICIENTS:
        return coefficients[variant];
    default:
        return f == INPUT && call->takes & MESSAGES ? messages[variant] : words[variant];
    }
}

/* A tag that is refused for its tally or for its c; the other number is as it was where that is possible. */
static void damage_tag(unsigned variant, saigagalena_tag *tag)
{
    const uint64_t tallies[] = {(UINT64_C(1) << 32) + 1, UINT64_C(1) << 63, UINT64_MAX - 1};
    static const uint32_t counts[] = {65537, 2147483648u, UINT32_MAX};

    if (variant < 3)
        tag->tally = tallies[variant];
    else
        tag->count = counts[variant - 3];
}

/* In the first place, in the last or in any. */
static void damage_content(struct draw *d, const struct call *call, const struct damage *damage, struct operands *o)
{
    const enum field f = damage->field;
    const size_t have = len(o, f);
    const unsigned kind = damage->variant % bad_kinds(f);
    const int64_t bad = f == TAGS ? 0 : bad_element(call, f, kind, o);
    const int is_signed = f == SIGNED_KEY || f == ERRORS || f == COEFFICIENTS;

    if (have == 0 || bad > (is_signed ? INT32_MAX : (int64_t)UINT32_MAX) || bad < INT32_MIN)
        return;
    const size_t places[] = {0, have - 1, draw_below(d, have)}, at = places[damage->variant / bad_kinds(f)];

    if (f == TAGS)
        damage_tag(kind, (saigagalena_tag *)o->slice[f].at + at);
    else
        ((uint32_t *)o->slice[f].at)[at] = (uint32_t)bad;
}

static void damage_parameter(const struct damage *damage, struct operands *o)
{
    switch (damage->what) {
    case BAD_BASE_LOG:
    case BAD_LEVELS:
        damage_base(damage, o);
        break;
    case BAD_MODULUS:
        o->modulus = 1 + damage->variant;
        break;
    case BAD_MODULUS_FOR_BASE:
        damage_modulus_for_base(damage, o);
        break;
    case BAD_N:
        damage_dimension(damage, &o->n);
        break;
    case BAD_M:
        damage_dimension(damage, &o->m);
        break;
    case BAD_T:
    case BAD_MODULUS_FOR_T:
        damage_t(damage, o);
        break;
    default:
        damage_bound(damage, o);
    }
}

void do_damage(struct draw *d, const struct call *call, const struct damage *damage, enum stage stage, struct operands *o)
{
    if (damage->stage != stage)
        return;
    switch (damage->what) {
    case BAD_INDEX:
        damage_index(call, damage, o);
        break;
    case BAD_VALUE:
        damage_value(call, damage, o);
        break;
    case BAD_TALLY:
        damage_tally(damage, o);
        break;
    case BAD_COUNT:
        damage_count(damage, o);
        break;
    case BAD_LENGTH:
        damage_length(call, damage, o);
        break;
    case BAD_CONTENT:
        damage_content(d, call, damage, o);
        break;
    default:
        damage_parameter(damage, o);
    }
}
