/*
 * Every call of the library with operands that it accepts, under powers of two and under other moduli, for scripts/divisions.sh, which stops at
 * each division of the library and looks at what it divides by. Refused calls are not made: they reduce nothing.
 */
#include <stdio.h>

#include "draw.h"
#include "library.h"

#define COUNT(list) (sizeof(list) / sizeof(list)[0])

/* What the call at hand was given, by the names of document 01; the script reads it wherever a division stops it. */
struct {
    uint64_t q, power_of_two, t, n, m, base_log, base, levels, words, counts;
} at_hand;

static struct draw generator = {20261117};

/* 0 where the call was refused, which no operands drawn here should be. */
static int make(const struct call *call, uint32_t modulus)
{
    /* with these dimensions, and at most 17 words or rows, no other divisor is by chance a q or 2q of those below */
    const struct plan plan = {.modulus = modulus, .words = 300, .n = 6, .m = 10};
    const uint64_t q = q_of(modulus);
    struct operands o;

    draw_operands(&generator, call, &plan, NULL, 0, &o);
    at_hand.q = q;
    at_hand.power_of_two = (q & (q - 1)) == 0;
    at_hand.t = o.t;
    at_hand.n = o.n;
    at_hand.m = o.m;
    at_hand.base_log = o.base_log;
    at_hand.base = UINT64_C(1) << o.base_log;
    at_hand.levels = level_count(&o);
    at_hand.words = len(&o, INPUT);
    at_hand.counts = call->takes & COUNTED ? at_hand.levels + 1 : 0;
    library_answer(call, &o);
    return model_refusal(call, &o) == 0;
}

/* Words are counted one by one where q is no power of two: no more than 65,536 of them. */
static int refuses_by_26(const struct call *call, uint32_t modulus)
{
    return call->takes & COUNTED && modulus > 65536 && (modulus & (modulus - 1)) != 0;
}

static int make_all(const uint32_t *moduli, size_t count, int draws)
{
    int accepted = 1;

    for (size_t m = 0; m < count; m++)
        for (size_t c = 0; c < call_count; c++)
            for (int i = 0; i < draws && !refuses_by_26(&calls[c], moduli[m]); i++)
                accepted &= make(&calls[c], moduli[m]);
    printf("%zu calls or fewer ", count * call_count * (size_t)draws);
    return accepted;
}

int main(void)
{
    static const uint32_t powers[] = {0, 16, 64, 65536, 1048576, 2147483648u};
    static const uint32_t others[] = {65535, 65537, 2147483647, 4294967291u};

    return !(make_all(powers, COUNT(powers), 24) & make_all(others, COUNT(others), 4));
}
