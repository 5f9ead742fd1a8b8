#define _DEFAULT_SOURCE
#include "compare.h"

#include <inttypes.h>
#include <signal.h>
#include <stdio.h>
#include <string.h>
#include <unistd.h>

#include "library.h"

static const char *const field_names[FIELDS] = {"key",         "signed key",   "output key", "mask", "errors",
                                                "error words", "coefficients", "input",      "tags", "out"};
static const char *const placement_names[PLACEMENTS] = {"behind a closed page", "before a closed page", "between guard words",
                                                        "on the heap"};

/* A slice of 64-bit numbers is printed as words too, the lower half first. */
static void print_words(const char *name, const void *at, size_t words, int is_signed)
{
    printf("  %s, %zu words of 32 bits:", name, words);
    for (size_t i = 0; i < words; i++)
        printf(" %" PRId64, is_signed ? (int64_t)((const int32_t *)at)[i] : (int64_t)((const uint32_t *)at)[i]);
    printf("\n");
}

static void print_tags(const char *name, const saigagalena_tag *tags, size_t count)
{
    printf("  %s, %zu tags:", name, count);
    for (size_t i = 0; i < count; i++)
        printf(" %" PRIu64 ",%" PRIu32, tags[i].tally, tags[i].count);
    printf("\n");
}

static void print_field(const struct call *call, const char *name, int f, const void *at, size_t count)
{
    if (f == TAGS)
        print_tags(name, at, count);
    else
        print_words(name, at, count * element_size(call, f) / 4, f == SIGNED_KEY || f == ERRORS || f == COEFFICIENTS);
}

static void print_operands(const struct call *call, const struct operands *o)
{
    printf("  modulus %" PRIu32 ", base log %" PRIu32 ", levels %" PRIu32, o->modulus, o->base_log, o->levels);
    printf(", n %zu, m %zu, t %" PRIu32 ", bound %" PRIu32, o->n, o->m, o->t, o->bound);
    printf(", centered %" PRIu32 ", value %" PRIu32 ", index %zu", o->centered, o->value, o->index);
    printf("\n");
    print_tags("given one by one", o->tag, 2);
    for (int f = 0; f < FIELDS; f++)
        if (call->fields >> f & 1)
            print_field(call, field_names[f], f, o->slice[f].at, len(o, f));
}

static const struct call *current_call;
static const struct operands *current;

/* The library does no input or output, so printing is safe where a call of it crashed. */
static void crashed(int signal)
{
    printf(signal == SIGALRM ? "out of time" : "crashed by signal %d", signal);
    if (current != NULL) {
        printf(" in %s with\n", current_call->name);
        print_operands(current_call, current);
    }
    fflush(stdout);
    _exit(1);
}

void watch_calls(unsigned seconds)
{
    static const int signals[] = {SIGSEGV, SIGBUS, SIGFPE, SIGILL, SIGABRT, SIGALRM};
    static char room[65536]; /* the stack itself may be what ran out */
    const stack_t stack = {.ss_sp = room, .ss_size = sizeof room};
    struct sigaction action = {.sa_handler = crashed, .sa_flags = SA_ONSTACK};

    sigaltstack(&stack, NULL);
    for (size_t i = 0; i < sizeof signals / sizeof signals[0]; i++)
        sigaction(signals[i], &action, NULL);
    alarm(seconds);
}

static int same_bytes(const void *x, const void *y, size_t bytes)
{
    return bytes == 0 || memcmp(x, y, bytes) == 0;
}

/* What lies between the numbers of a tag is nothing. */
static int same_tag(saigagalena_tag x, saigagalena_tag y)
{
    return x.tally == y.tally && x.count == y.count;
}

static int same_tags(const saigagalena_tag *x, const saigagalena_tag *y, size_t count)
{
    int same = 1;

    for (size_t i = 0; i < count; i++)
        same &= same_tag(x[i], y[i]);
    return same;
}

static int same_field(const struct call *call, int f, const void *x, const void *y, size_t count)
{
    return f == TAGS ? same_tags(x, y, count) : same_bytes(x, y, count * element_size(call, f));
}

/* Every slice is as it was, and those that are written as expected. */
static int buffers_agree(const struct call *call, const struct operands *o, const struct operands *placed, void *const expected[FIELDS])
{
    int agree = 1;

    for (int f = 0; f < FIELDS; f++) {
        const void *want = expected[f] != NULL ? expected[f] : o->slice[f].at;

        if (!(call->fields >> f & 1) || same_field(call, f, placed->slice[f].at, want, len(o, f)))
            continue;
        printf("%s: %s differs\n", call->name, field_names[f]);
        print_field(call, "got", f, placed->slice[f].at, len(o, f));
        print_field(call, "expected", f, want, len(o, f));
        agree = 0;
    }
    return agree;
}

static int same_answer(const struct call *call, struct answer got, struct answer want, const char *where)
{
    if (got.number != want.number)
        printf("%s: answered %" PRIu64 ", not %" PRIu64 "%s\n", call->name, got.number, want.number, where);
    if (got.tag.tally != want.tag.tally)
        printf("%s: its tally is %" PRIu64 ", not %" PRIu64 "%s\n", call->name, got.tag.tally, want.tag.tally, where);
    if (got.tag.count != want.tag.count)
        printf("%s: its c is %" PRIu32 ", not %" PRIu32 "%s\n", call->name, got.tag.count, want.tag.count, where);
    return got.number == want.number && same_tag(got.tag, want.tag);
}

/* What a field that is written holds before the call: the model works on this. */
static void copy_written(const struct call *call, const struct operands *placed, enum field f, void *expected[FIELDS])
{
    if (expected[f] == NULL)
        expected[f] = new_room();
    if (len(placed, f) != 0)
        memcpy(expected[f], placed->slice[f].at, len(placed, f) * element_size(call, f));
}

int agrees(const struct call *call, const struct operands *o, enum placement placement, int null)
{
    static void *expected[FIELDS];
    struct operands placed;
    int agree = 1;

    current_call = call;
    current = o;
    place(call, o, placement, null, &placed);
    copy_written(call, &placed, TAGS, expected);
    copy_written(call, &placed, OUT, expected);
    const struct answer want = model_answer(call, &placed, expected[OUT], expected[TAGS]);

    agree &= same_answer(call, library_answer(call, &placed), want, "");
    agree &= buffers_agree(call, o, &placed, expected);
    if (!unplace(&placed)) {
        printf("%s: words around a buffer were written\n", call->name);
        agree = 0;
    }
    if (!agree) {
        printf("%s with buffers %s%s, and\n", call->name, placement_names[placement], null ? ", empty ones null" : "");
        print_operands(call, o);
    }
    return agree;
}

int refuses_unread(const struct call *call, const struct operands *o, uint32_t number)
{
    struct operands closed = *o;

    current_call = call;
    current = o;
    close_slices(call, &closed);
    return same_answer(call, library_answer(call, &closed), model_refused(call, number), ", where no slice may be read");
}
