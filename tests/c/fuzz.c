/*
 * Fuzzing of the library through C: good operands of every call, damaged in random ways, against the model of the documents.
 *
 *     fuzz [SEED [COUNT [SECONDS]]]
 *
 * Ends after COUNT calls or SECONDS, whichever comes first. A difference or a crash prints all operands; the status is then 1.
 * The same seed gives the same calls.
 */
#define _DEFAULT_SOURCE
#include <inttypes.h>
#include <stdio.h>
#include <stdlib.h>
#include <time.h>

#include "compare.h"
#include "draw.h"

#define NUMBERS 27
#define MOST_CALLS 64
#define COUNT(list) (sizeof(list) / sizeof(list)[0])

static struct draw generator;
static unsigned long seen[MOST_CALLS][NUMBERS]; /* by call and refusal number; 0 is accepted */

/* Any number, with those that are near a limit more often. */
static uint64_t any_number(void)
{
    static const uint64_t edges[] = {0, 1, 2, 3, 4, 17, 31, 32, 33, 2047, 2048, 2049, 65535, 65536, 65537, 1048576, 1048577,
                                     INT32_MAX, UINT64_C(1) << 31, UINT32_MAX, UINT64_C(1) << 32, (UINT64_C(1) << 32) + 1,
                                     UINT64_C(1) << 63, UINT64_MAX - 1, UINT64_MAX};
    const uint64_t high = draw_word(&generator);

    if (draw_below(&generator, 3))
        return edges[draw_below(&generator, COUNT(edges))];
    return (high << 32 | draw_word(&generator)) >> draw_below(&generator, 64);
}

/* Sets one number, whatever it is; the slices stay. */
static void set_any(struct operands *o)
{
    uint32_t *const words[] = {&o->modulus, &o->base_log, &o->levels, &o->t, &o->bound, &o->centered, &o->value};
    size_t *const sizes[] = {&o->n, &o->m, &o->index};
    const uint64_t which = draw_below(&generator, 14);

    if (which < 7)
        *words[which] = (uint32_t)any_number();
    else if (which < 10)
        *sizes[which - 7] = (size_t)any_number();
    else if (which < 12)
        o->tag[which - 10].tally = any_number();
    else
        o->tag[which - 12].count = (uint32_t)any_number();
}

/* Either number of a tag. */
static void set_any_tag(saigagalena_tag *tag)
{
    if (draw_below(&generator, 2))
        tag->tally = any_number();
    else
        tag->count = (uint32_t)any_number();
}

/* Sets one element of a slice to any number. */
static void set_any_element(const struct call *call, struct operands *o)
{
    const enum field f = (enum field)draw_below(&generator, FIELDS);

    if (f == TAGS && len(o, f) != 0)
        set_any_tag((saigagalena_tag *)o->slice[f].at + draw_below(&generator, len(o, f)));
    else if (len(o, f) != 0 && element_size(call, f) == sizeof(uint32_t))
        ((uint32_t *)o->slice[f].at)[draw_below(&generator, len(o, f))] = (uint32_t)any_number();
}

/* None to three damages from the list, and now and then a number that no list has. */
static void draw_call(const struct call *call, struct operands *o)
{
    static const size_t words[] = {100, 100, 400, 4000};
    const struct plan plan = {.any_modulus = 1, .words = draw_below(&generator, 512) ? words[draw_below(&generator, 4)] : 50000};
    struct damage list[MOST_DAMAGES], chosen[3];
    const size_t count = list_damages(call, list), damages = count == 0 ? 0 : draw_below(&generator, 4);

    for (size_t i = 0; i < damages; i++)
        chosen[i] = list[draw_below(&generator, count)];
    draw_operands(&generator, call, &plan, chosen, damages, o);
    if (draw_below(&generator, 8) == 0)
        set_any(o);
    if (draw_below(&generator, 8) == 0)
        set_any_element(call, o);
}

static int try_one(void)
{
    const size_t which = draw_below(&generator, call_count);
    const struct call *call = &calls[which];
    struct operands o;

    draw_call(call, &o);
    seen[which][model_refusal(call, &o)]++;
    return agrees(call, &o, (enum placement)draw_below(&generator, PLACEMENTS), (int)draw_below(&generator, 2));
}

static double now(void)
{
    struct timespec t;

    clock_gettime(CLOCK_MONOTONIC, &t);
    return (double)t.tv_sec + (double)t.tv_nsec / 1e9;
}

static void print_table(void)
{
    printf("%-41s %8s", "call", "accepted");
    for (size_t x = 0; x < model_order_count; x++)
        printf(" %6u", model_order[x]);
    printf("\n");
    for (size_t i = 0; i < call_count; i++) {
        printf("%-41s %8lu", calls[i].name, seen[i][0]);
        for (size_t x = 0; x < model_order_count; x++)
            printf(seen[i][model_order[x]] ? " %6lu" : " %6.0lu", seen[i][model_order[x]]);
        printf("\n");
    }
}

/* Argument i, which is a number of at least `from`, or what stands for it where it is not given. */
static uint64_t argument(int count, char **arguments, int i, uint64_t from, uint64_t otherwise)
{
    char *rest;
    uint64_t number;

    if (i >= count)
        return otherwise;
    number = strtoull(arguments[i], &rest, 10);
    if (rest == arguments[i] || *rest != 0 || arguments[i][0] == '-' || number < from || count > 4) {
        fprintf(stderr, "usage: c_fuzz.sh [SEED [COUNT [SECONDS]]], numbers, the last two at least 1\n");
        exit(2);
    }
    return number;
}

int main(int count, char **arguments)
{
    const uint64_t seed = argument(count, arguments, 1, 0, 1);
    const uint64_t most = argument(count, arguments, 2, 1, 1000000);
    const unsigned seconds = (unsigned)argument(count, arguments, 3, 1, 120);
    const double start = now();
    uint64_t done = 0;
    int good = 1;

    generator.state = seed * UINT64_C(0x9e3779b97f4a7c15);
    watch_calls(seconds + 60);
    while (good && done < most && (done % 256 != 0 || now() - start < seconds)) {
        good = try_one();
        done++;
    }
    print_table();
    printf("seed %" PRIu64 ": %" PRIu64 " calls in %.1f s, ", seed, done, now() - start);
    printf(good ? "no difference\n" : "the last one differs\n");
    return !good;
}
