/* Puts operands where a stray read or write shows. */
#ifndef PLACE_H
#define PLACE_H

#include "model.h"

/* The most bytes that a slice may have. */
#define MOST_BYTES ((size_t)20 << 20)

/*
 * Where the slices of a call lie: right behind a page that may not be touched, right before one, between guard words,
 * or in a block of the heap of just that size (for the address sanitizer, which sees what C code does).
 */
enum placement { BEHIND_PAGE, BEFORE_PAGE, BETWEEN_WORDS, ON_HEAP, PLACEMENTS };

/* Copies every slice of `from`; an empty slice is a null pointer where `null` is set. */
void place(const struct call *call, const struct operands *from, enum placement placement, int null, struct operands *to);

/* Whether all words around the placed slices are as they were; frees what is on the heap. */
int unplace(struct operands *placed);

/* Points every slice of the call at pages that may not even be read. */
void close_slices(const struct call *call, struct operands *o);

/* Room for a slice of MOST_BYTES; pages are taken as they are touched. */
void *new_room(void);

#endif
