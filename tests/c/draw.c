#include "draw.h"

#include <string.h>

#include "place.h"

#define COUNT(list) (sizeof(list) / sizeof(list)[0])
#define CHOOSE(d, list) ((list)[draw_below(d, COUNT(list))])

static uint32_t *room[FIELDS];

/* A linear congruential generator: the same numbers everywhere. For tests only. */
uint32_t draw_word(struct draw *d)
{
    d->state = d->state * UINT64_C(6364136223846793005) + UINT64_C(1442695040888963407);
    return (uint32_t)(d->state >> 32);
}

/* For bounds up to 2^32. */
uint64_t draw_below(struct draw *d, uint64_t bound)
{
    return draw_word(d) * bound >> 32;
}

static uint64_t least(uint64_t x, uint64_t y)
{
    return x < y ? x : y;
}

/* --- Parameters --- */

static uint32_t draw_modulus(struct draw *d)
{
    static const uint32_t moduli[] = {0,     0,     0,          4,           5,           16,          17,         257,
                                      65535, 65536, 65537, 2147483647, 2147483648u, 2147483649u, 4294967291u, 4294967295u};

    switch (draw_below(d, 8)) {
    case 0:
        return (uint32_t)(4 + draw_below(d, 60));
    case 1:
        return (uint32_t)(4 + draw_below(d, UINT32_MAX - 3));
    default:
        return CHOOSE(d, moduli);
    }
}

/* A base log with 2^(base log) at most q, and levels, half of the time left open. */
static void draw_base(struct draw *d, struct operands *o)
{
    uint64_t most = 31;

    while (q_of(o->modulus) >> most == 0)
        most--;
    o->base_log = (uint32_t)(2 + draw_below(d, most - 1));
    o->levels = draw_below(d, 2) ? 0 : (uint32_t)(1 + draw_below(d, full_count(o)));
}

static uint32_t draw_bound(struct draw *d, uint64_t q)
{
    const uint64_t most = least(q - 1, 1048576);
    const uint64_t bounds[] = {0, least(1, most), least(3, most), least(q / 2 - 1, most), least(q / 2, most), most,
                               draw_below(d, most + 1)};

    return (uint32_t)CHOOSE(d, bounds);
}

static uint32_t draw_t(struct draw *d, uint64_t q)
{
    const uint64_t most = q - 1;
    const uint64_t values[] = {2,    2,    least(3, most),          least(4, most), least(256, most), least(65536, most), least(65537, most), least(1000003, most),
                               most, most, 2 + draw_below(d, most - 1)};

    return (uint32_t)CHOOSE(d, values);
}

static size_t draw_dimension(struct draw *d)
{
    static const size_t sizes[] = {1, 1, 2, 3, 4, 5, 7, 8, 9, 16, 17};

    switch (draw_below(d, 64)) {
    case 0:
        return 2048 - draw_below(d, 3);
    case 1:
    case 2:
        return 1 + draw_below(d, 200);
    default:
        return CHOOSE(d, sizes);
    }
}

static uint64_t draw_tally(struct draw *d)
{
    const uint64_t two32 = UINT64_C(1) << 32;
    const uint64_t tallies[] = {0,         1,         1048576, draw_below(d, 1 << 24), draw_word(d),
                                two32 / 2, two32 - 1, two32,   SAIGAGALENA_NO_TALLY};

    return CHOOSE(d, tallies);
}

static uint32_t draw_count(struct draw *d)
{
    const uint64_t counts[] = {0, 1, 1, 1, 2, 3, draw_below(d, 256), draw_below(d, 65537), 32768, 65535, 65536};

    return (uint32_t)CHOOSE(d, counts);
}

/* One that is not refused. */
static saigagalena_tag draw_tag(struct draw *d)
{
    saigagalena_tag tag;

    tag.tally = draw_tally(d);
    tag.count = draw_count(d);
    return tag;
}

/* The second of two whose sum is not refused. */
static saigagalena_tag draw_second_tag(struct draw *d, saigagalena_tag first)
{
    saigagalena_tag tag = draw_tag(d);

    if (tag.tally != SAIGAGALENA_NO_TALLY && first.tally != SAIGAGALENA_NO_TALLY)
        tag.tally = least(tag.tally, (UINT64_C(1) << 32) - first.tally);
    tag.count = (uint32_t)least(tag.count, 65536 - first.count);
    return tag;
}

/* The tally with which the mark, 2 * tally + c < q / t, is all but good or all but not. */
static void draw_near_mark(struct draw *d, struct operands *o)
{
    const uint64_t steps = q_of(o->modulus) / o->t, c = o->tag[0].count;

    if (c <= steps)
        o->tag[0].tally = (steps - c) / 2 + draw_below(d, 2);
    /* the least tally with 2t * tally at 2^64: a product in 64 bits would be small, and good */
    if (o->t >= UINT32_C(1) << 31 && draw_below(d, 2)) {
        o->tag[0].tally = ((UINT64_C(1) << 63) + o->t - 1) / o->t;
        o->tag[0].count = (uint32_t)draw_below(d, 2);
    }
}

/* The longest slice of the call, about; the input is not drawn yet. */
static uint64_t longest(const struct call *call, const struct operands *o)
{
    uint64_t want[FIELDS], most = 0;

    model_lengths(call, o, want);
    for (int f = 0; f < FIELDS; f++)
        most = want[f] > most && f != INPUT && call->fields >> f & 1 ? want[f] : most;
    return most;
}

/* Dimensions that the plan leaves open shrink until the slices are as short as it says. */
static void draw_dimensions(struct draw *d, const struct call *call, const struct plan *plan, struct operands *o)
{
    o->n = plan->n != 0 ? plan->n : draw_dimension(d);
    o->m = plan->m != 0 ? plan->m : draw_dimension(d);
    while (longest(call, o) > plan->words) {
        size_t *n = plan->n == 0 && o->n > 1 ? &o->n : NULL, *m = plan->m == 0 && o->m > 1 ? &o->m : NULL;

        if (n == NULL && m == NULL)
            break;
        if (n == NULL || (m != NULL && o->m > o->n))
            n = m;
        *n /= 2;
    }
}

static void draw_parameters(struct draw *d, const struct call *call, const struct plan *plan, struct operands *o)
{
    static const uint32_t centered[] = {0, 0, 1, 2, 2147483648u, UINT32_MAX};

    memset(o, 0, sizeof *o);
    o->modulus = plan->any_modulus ? draw_modulus(d) : plan->modulus;
    draw_base(d, o);
    o->t = draw_t(d, q_of(o->modulus));
    o->bound = draw_bound(d, q_of(o->modulus));
    o->centered = CHOOSE(d, centered);
    draw_dimensions(d, call, plan, o);
    o->tag[0] = draw_tag(d);
    o->tag[1] = draw_second_tag(d, o->tag[0]);
    if (call->takes & TAG && call->takes & T && draw_below(d, 2))
        draw_near_mark(d, o);
}

/* --- Lengths --- */

static void damage_all(struct draw *d, const struct call *call, const struct damage *damages, size_t count, enum stage stage,
                       struct operands *o)
{
    for (size_t i = 0; i < count; i++)
        do_damage(d, call, &damages[i], stage, o);
}

static size_t draw_input_length(struct draw *d, const struct call *call, const struct plan *plan, struct operands *o)
{
    static const size_t counts[] = {0, 1, 1, 2, 3, 7, 8, 9, 17};
    const size_t width = o->n + 1, rows = least(CHOOSE(d, counts), plan->words / (width ? width : 1) + 1);

    switch (call->input) {
    case ANY:
        return rows;
    case CIPHERTEXT:
        return width;
    case CIPHERTEXTS:
        return rows * width;
    case UP_TO_N:
        return draw_below(d, 4) ? least(rows, o->n) : o->n;
    case PACKED:
        return o->n + (draw_below(d, 4) ? least(rows, o->n) : o->n);
    case PACKED_INDEX:
        o->index = o->n == 0 ? 0 : draw_below(d, o->n);
        return o->n + least(o->index + 1 + draw_below(d, 3), o->n);
    case BODY_COUNT:
        o->index = draw_below(d, 4) ? least(rows, o->n) : o->n;
        return 0;
    default:
        return 0;
    }
}

/* The other lengths, to fit the parameters and the input; 0 where one would be far too long. */
static int fit_lengths(const struct call *call, const struct plan *plan, struct operands *o)
{
    uint64_t want[FIELDS];
    int fits = 1;

    model_lengths(call, o, want);
    for (int f = 0; f < FIELDS; f++) {
        if (f == INPUT)
            want[f] = len(o, f);
        fits &= want[f] <= plan->words * 2 + 8192;
        o->slice[f].len = call->fields >> f & 1 ? want[f] : 0;
    }
    return fits;
}

/* Damaged parameters may ask for more than there is: then the lengths are those of `fitting`, the parameters undamaged. */
static void draw_lengths(struct draw *d, const struct call *call, const struct plan *plan, const struct damage *damages,
                         size_t count, struct operands *fitting, struct operands *o)
{
    o->slice[INPUT].len = draw_input_length(d, call, plan, o);
    damage_all(d, call, damages, count, INPUT_LENGTH, o);
    if (fit_lengths(call, plan, o))
        return;
    fitting->slice[INPUT].len = draw_input_length(d, call, plan, fitting);
    fit_lengths(call, plan, fitting);
    o->index = fitting->index;
    memcpy(o->slice, fitting->slice, sizeof o->slice);
}

/* --- Contents --- */

/* A word below q: the ends, what lies about the threshold, or any. */
static uint32_t draw_below_q(struct draw *d, uint64_t q, uint64_t T)
{
    switch (draw_below(d, 8)) {
    case 0:
        return 0;
    case 1:
        return (uint32_t)(q - 1);
    case 2:
        return (uint32_t)((T + q - 1 + draw_below(d, 3)) % q);
    default:
        return (uint32_t)draw_below(d, q);
    }
}

/* A number from -limit to limit, as far as 32 bits go. */
static int32_t draw_within(struct draw *d, uint64_t limit)
{
    const int64_t most = (int64_t)least(limit, INT32_MAX);

    switch (draw_below(d, 6)) {
    case 0:
        return (int32_t)most;
    case 1:
        return limit > INT32_MAX ? INT32_MIN : (int32_t)-most;
    case 2:
        return (int32_t)least((uint64_t)most, 1);
    default:
        return (int32_t)((int64_t)draw_below(d, (uint64_t)(2 * most + 1)) - most);
    }
}

/* A word below q that counts as a number from -limit to limit: one about q/2 where that is so, or that of any such number. */
static uint32_t draw_error_word(struct draw *d, uint64_t q, uint64_t limit)
{
    const uint32_t half = (uint32_t)(q / 2 + draw_below(d, 3) - 1);
    const int64_t most = (int64_t)limit, e = counts_as(half, q), any = draw_within(d, limit);

    if (draw_below(d, 3) == 0 && -most <= e && e <= most)
        return half;
    return (uint32_t)(any < 0 ? any + (int64_t)q : any);
}

static uint32_t draw_message(struct draw *d, uint32_t t)
{
    if (t == 0)
        return 0;
    return draw_below(d, 4) ? (uint32_t)draw_below(d, t) : t - 1;
}

static uint32_t draw_element(struct draw *d, const struct call *call, const struct operands *o, enum field f, uint64_t T)
{
    const uint64_t q = q_of(o->modulus);

    switch (f) {
    case SIGNED_KEY:
        return (uint32_t)draw_within(d, q - 1);
    case ERRORS:
        return (uint32_t)draw_within(d, o->bound);
    case ERROR_WORDS:
        return draw_error_word(d, q, o->bound);
    case COEFFICIENTS:
        return (uint32_t)draw_within(d, 1);
    case INPUT:
        return call->takes & MESSAGES ? draw_message(d, o->t) : draw_below_q(d, q, T);
    case OUT:
        return call->takes & SUM ? draw_below_q(d, q, T) : draw_word(d);
    default:
        return draw_below_q(d, q, T);
    }
}

/* T, or 0 where there is no basis: 1 to 3 or 5 apply, or the call takes none. */
static uint64_t threshold_or_0(const struct call *call, const struct operands *o)
{
    struct operands bare = *o;

    memset(bare.slice, 0, sizeof bare.slice);
    return call->takes & BASE && (model_applying(call, &bare) & 0x3e) == 0 ? threshold(o) : 0;
}

static void draw_tags(struct draw *d, struct operands *o)
{
    saigagalena_tag *tags = o->slice[TAGS].at;

    for (size_t i = 0; i < len(o, TAGS); i++)
        tags[i] = draw_tag(d);
}

static void draw_contents(struct draw *d, const struct call *call, struct operands *o)
{
    const uint64_t T = threshold_or_0(call, o);

    for (int f = 0; f < FIELDS; f++) {
        const size_t words = f == TAGS ? 0 : len(o, f) * element_size(call, f) / sizeof(uint32_t);

        if (room[f] == NULL)
            room[f] = new_room();
        o->slice[f].at = room[f];
        for (size_t i = 0; i < words; i++)
            room[f][i] = draw_element(d, call, o, f, T);
    }
    draw_tags(d, o);
    o->value = call->takes & MESSAGE ? draw_message(d, o->t) : draw_below_q(d, q_of(o->modulus), T);
}

void draw_operands(struct draw *d, const struct call *call, const struct plan *plan, const struct damage *damages, size_t count,
                   struct operands *o)
{
    struct operands fitting;

    draw_parameters(d, call, plan, o);
    fitting = *o;
    damage_all(d, call, damages, count, EARLY, o);
    draw_lengths(d, call, plan, damages, count, &fitting, o);
    damage_all(d, call, damages, count, LENGTHS, o);
    draw_contents(d, call, o);
    damage_all(d, call, damages, count, CONTENTS, o);
    damage_all(d, call, damages, count, LATE, o);
}
