/* Draws operands that a call accepts, and damages them. */
#ifndef DRAW_H
#define DRAW_H

#include "model.h"

struct draw {
    uint64_t state;
};

uint32_t draw_word(struct draw *d);
uint64_t draw_below(struct draw *d, uint64_t bound);

/*
 * A damage is done at its stage: to a parameter, or to the length of the input, before all else is drawn to fit it; to a
 * length; to a content; or to a parameter afterwards, so that lengths and contents fit what it was.
 */
enum stage { EARLY, INPUT_LENGTH, LENGTHS, CONTENTS, LATE };

enum what {
    BAD_BASE_LOG,
    BAD_MODULUS,
    BAD_MODULUS_FOR_BASE,
    BAD_LEVELS,
    BAD_N,
    BAD_M,
    BAD_T,
    BAD_MODULUS_FOR_T,
    BAD_BOUND,
    BAD_INDEX,
    BAD_VALUE,
    BAD_TALLY,
    BAD_COUNT,
    BAD_LENGTH,
    BAD_CONTENT,
};

struct damage {
    enum what what;
    enum stage stage;
    enum field field;
    unsigned variant;
};

#define MOST_DAMAGES 256

/* Every damage that says something to the call. */
size_t list_damages(const struct call *call, struct damage list[MOST_DAMAGES]);

/* Does the damage where the stage is its own; one that cannot be done leaves all as it is. */
void do_damage(struct draw *d, const struct call *call, const struct damage *damage, enum stage stage, struct operands *o);

/* What is drawn: a modulus from a list (or any), dimensions up to a size. */
struct plan {
    int any_modulus;
    uint32_t modulus;
    size_t words; /* about how many words the longest slice may have */
    size_t n, m;  /* these dimensions; 0 for any */
};

/* Operands for the call with `count` damages done. The slices hold until the next draw. */
void draw_operands(struct draw *d, const struct call *call, const struct plan *plan, const struct damage *damages, size_t count,
                   struct operands *o);

#endif
