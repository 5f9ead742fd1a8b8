/*
 * Every call of the library against the model of the documents: accepted calls, every refusal alone, every pair of damages
 * (the first in the order wins), and empty slices with null pointers. Each comparison is of the answer, of all buffers and of
 * what lies around them; where a number below 14, or 26, applies, the call is made again over pages that may not be
 * read.
 * scripts/c_test.sh builds and runs it. With an argument it ends at the first difference.
 */
#include <stdio.h>
#include <stdlib.h>
#include <string.h>

#include "compare.h"
#include "draw.h"

#define NUMBERS 27
#define FIRST_OF_VALUES 14 /* numbers below it are judged before a word is read */
#define COUNT(list) (sizeof(list) / sizeof(list)[0])

/* What was seen of a call. */
struct seen {
    unsigned long accepted, refused, empty, wrong;
    unsigned long first[NUMBERS], alone[NUMBERS]; /* by refusal number */
    unsigned long pair[NUMBERS][NUMBERS];         /* both apply, and this one was first */
};

static struct draw generator = {20261116};
static unsigned turn;
static int ends_early;

static void note(int right, struct seen *seen)
{
    seen->wrong += !right;
    if (!right && ends_early)
        exit(1);
}

static void try(const struct call *call, const struct operands *o, struct seen *seen)
{
    const uint32_t applying = model_applying(call, o), first = model_refusal(call, o);

    note(agrees(call, o, turn % PLACEMENTS, turn / PLACEMENTS % 2), seen);
    turn++;
    if (first == 0) {
        seen->accepted++;
        return;
    }
    seen->refused++;
    if (first < FIRST_OF_VALUES || first == 26)
        note(refuses_unread(call, o, first), seen);
    seen->first[first]++;
    seen->alone[first] += applying == UINT32_C(1) << first;
    for (unsigned other = 1; other < NUMBERS; other++)
        seen->pair[first][other] += other != first && applying >> other & 1;
}

static void try_drawn(const struct call *call, const struct plan *plan, const struct damage *damages, size_t count,
                      struct seen *seen)
{
    struct operands o;

    draw_operands(&generator, call, plan, damages, count, &o);
    try(call, &o, seen);
}

/* Good operands: small ones, many of them, and the largest dimensions. */
static void try_accepted(const struct call *call, struct seen *seen)
{
    static const struct plan largest[] = {{.any_modulus = 1, .words = 70000, .n = 2048},
                                          {.any_modulus = 1, .words = 70000, .m = 2048},
                                          {.modulus = 0, .words = 4400000, .n = 2048},
                                          {.modulus = 4294967291u, .words = 4400000, .m = 2048}};
    const struct plan small = {.any_modulus = 1, .words = 2000};

    for (int i = 0; i < 600; i++)
        try_drawn(call, &small, NULL, 0, seen);
    for (size_t i = 0; i < COUNT(largest) && call->takes & N; i++)
        if (largest[i].n != 0 || call->takes & M)
            try_drawn(call, &largest[i], NULL, 0, seen);
}

/* Moduli of every kind; some refusals need a small one, some an explicit one. */
static const struct plan plans[] = {
    {.modulus = 0, .words = 300}, {.modulus = 17, .words = 300}, {.modulus = 65536, .words = 300},
    {.modulus = 2147483647, .words = 300}, {.modulus = 4294967291u, .words = 300}, {.any_modulus = 1, .words = 300},
};

static void try_damages(const struct call *call, struct seen *seen)
{
    struct damage list[MOST_DAMAGES];
    const size_t count = list_damages(call, list);

    for (size_t i = 0; i < count; i++)
        for (size_t p = 0; p < COUNT(plans); p++)
            for (int again = 0; again < 16; again++)
                try_drawn(call, &plans[p], &list[i], 1, seen);
    for (size_t i = 0; i < count; i++) {
        for (size_t j = i + 1; j < count; j++) {
            const struct damage both[2] = {list[i], list[j]};

            try_drawn(call, &plans[(i + j) % COUNT(plans)], both, 2, seen);
        }
    }
}

/* Each slice by itself, and then all, of length 0 with a null pointer; the others as they were drawn. */
static void try_empty(const struct call *call, struct seen *seen)
{
    for (int f = 0; f <= FIELDS; f++) {
        for (size_t p = 0; p < COUNT(plans); p++) {
            struct operands o;

            if (call->fields == 0 || (f < FIELDS && !(call->fields >> f & 1)))
                continue;
            draw_operands(&generator, call, &plans[p], NULL, 0, &o);
            for (int g = 0; g < FIELDS; g++)
                if (f == FIELDS || g == f)
                    o.slice[g].len = 0;
            note(agrees(call, &o, BETWEEN_WORDS, 1), seen);
            seen->empty++;
        }
    }
}

/* Bit i for each number i that the header lists for the call. */
static uint32_t listed(const struct call *call)
{
    uint32_t numbers = 0;
    char *rest;

    for (const char *at = call->refusals; *at != 0; at = rest)
        numbers |= UINT32_C(1) << strtoul(at, &rest, 10);
    return numbers;
}

/* Whether both were to be seen with x first. Never 4: where it applies, 1 or 3 does. Nor 7 before 8: where q <= t < 2, 2 applies. Nor 2 before
 * 26: one is of small moduli, the other of large ones. */
static int missing_pair(uint32_t numbers, const struct seen *seen, unsigned x, unsigned y)
{
    return x != 4 && !(x == 7 && y == 8) && !(x == 2 && y == 26) && numbers >> x & 1 && numbers >> y & 1 && seen->pair[x][y] == 0;
}

/* The numbers that were given are those that the header lists, each also alone, and each before every later one. */
static int covered(const struct call *call, const struct seen *seen)
{
    const uint32_t numbers = listed(call);
    int good = 1;

    for (size_t i = 0; i < model_order_count; i++) {
        const unsigned x = model_order[i];
        const int due = x != 4 && numbers >> x & 1;
        /* a modulus below 4 is below every base, so 3 applies too */
        const int due_alone = due && !(x == 2 && call->takes & BASE);

        if (due != (seen->first[x] != 0) || (due_alone && seen->alone[x] == 0)) {
            printf("  %u was first %lu times, alone %lu times\n", x, seen->first[x], seen->alone[x]);
            good = 0;
        }
        for (size_t j = i + 1; j < model_order_count; j++) {
            const unsigned y = model_order[j];

            if (missing_pair(numbers, seen, x, y)) {
                printf("  %u before %u was not seen\n", x, y);
                good = 0;
            }
        }
    }
    return good;
}

static unsigned long pairs(const struct seen *seen)
{
    unsigned long sum = 0;

    for (unsigned x = 0; x < NUMBERS; x++)
        for (unsigned y = 0; y < NUMBERS; y++)
            sum += seen->pair[x][y] != 0;
    return sum;
}

int main(int arguments, char **argument)
{
    unsigned long wrong = 0, all = 0;
    int good = 1;

    (void)argument;
    ends_early = arguments > 1;
    watch_calls(600);
    printf("%-41s %9s %9s %9s %9s %9s\n", "call", "accepted", "refused", "pairs", "empty", "wrong");
    for (size_t i = 0; i < call_count; i++) {
        struct seen seen = {0};

        try_accepted(&calls[i], &seen);
        try_damages(&calls[i], &seen);
        try_empty(&calls[i], &seen);
        printf("%-41s %9lu %9lu %9lu ", calls[i].name, seen.accepted, seen.refused, pairs(&seen));
        printf("%9lu %9lu\n", seen.empty, seen.wrong);
        good &= covered(&calls[i], &seen);
        wrong += seen.wrong;
        all += seen.accepted + seen.refused + seen.empty;
    }
    printf("%zu calls, %lu compared, %lu wrong\n", call_count, all, wrong);
    return wrong != 0 || !good;
}
