#define _DEFAULT_SOURCE
#include "place.h"

#include <stdio.h>
#include <stdlib.h>
#include <string.h>
#include <sys/mman.h>
#include <unistd.h>

#define GUARD ((size_t)256)
#define GUARD_BYTE 0xa5

static struct {
    unsigned char *start, *end; /* between two pages that may not be touched */
    unsigned char *at;          /* the slice that lies here now, or null */
    size_t bytes;
} room[FIELDS];
static enum placement now;

static void *pages(size_t bytes)
{
    void *at = mmap(NULL, bytes, PROT_NONE, MAP_PRIVATE | MAP_ANONYMOUS | MAP_NORESERVE, -1, 0);

    if (at == MAP_FAILED) {
        perror("mmap");
        exit(2);
    }
    return at;
}

void *new_room(void)
{
    const size_t page = (size_t)sysconf(_SC_PAGESIZE);
    unsigned char *at = pages(MOST_BYTES + 2 * page);

    if (mprotect(at + page, MOST_BYTES, PROT_READ | PROT_WRITE) != 0) {
        perror("mprotect");
        exit(2);
    }
    return at + page;
}

void close_slices(const struct call *call, struct operands *o)
{
    static unsigned char *closed;

    if (closed == NULL)
        closed = pages((size_t)sysconf(_SC_PAGESIZE));
    for (int f = 0; f < FIELDS; f++)
        if (call->fields >> f & 1)
            o->slice[f].at = closed;
}

static void make_rooms(void)
{
    for (int f = 0; f < FIELDS; f++) {
        room[f].start = new_room();
        room[f].end = room[f].start + MOST_BYTES;
    }
}

static unsigned char *heap_block(size_t bytes)
{
    unsigned char *at = malloc(bytes);

    if (at == NULL && bytes != 0) {
        perror("malloc");
        exit(2);
    }
    return at;
}

static unsigned char *address(int f, enum placement placement, size_t bytes)
{
    switch (placement) {
    case BEHIND_PAGE:
        return room[f].start;
    case BEFORE_PAGE:
        return room[f].end - bytes;
    case BETWEEN_WORDS:
        return room[f].start + GUARD;
    default:
        return heap_block(bytes);
    }
}

/* Guard words stand on each side that has no page. */
static void guards(int f, enum placement placement, int write, int *intact)
{
    unsigned char *before = room[f].at - GUARD, *after = room[f].at + room[f].bytes;
    unsigned char word[GUARD];

    memset(word, GUARD_BYTE, GUARD);
    if (placement == BEFORE_PAGE || placement == BETWEEN_WORDS) {
        if (write)
            memcpy(before, word, GUARD);
        *intact &= memcmp(before, word, GUARD) == 0;
    }
    if (placement == BEHIND_PAGE || placement == BETWEEN_WORDS) {
        if (write)
            memcpy(after, word, GUARD);
        *intact &= memcmp(after, word, GUARD) == 0;
    }
}

void place(const struct call *call, const struct operands *from, enum placement placement, int null, struct operands *to)
{
    int intact = 1;

    if (room[0].start == NULL)
        make_rooms();
    now = placement;
    *to = *from;
    for (int f = 0; f < FIELDS; f++) {
        const size_t bytes = len(from, f) * element_size(call, f);

        room[f].at = NULL;
        to->slice[f].at = NULL;
        if (!(call->fields >> f & 1) || (bytes == 0 && null))
            continue;
        room[f].bytes = bytes;
        room[f].at = address(f, placement, bytes);
        to->slice[f].at = room[f].at;
        if (bytes != 0)
            memcpy(room[f].at, from->slice[f].at, bytes);
        if (placement != ON_HEAP)
            guards(f, placement, 1, &intact);
    }
}

int unplace(struct operands *placed)
{
    int intact = 1;

    for (int f = 0; f < FIELDS; f++) {
        if (room[f].at == NULL)
            continue;
        if (now == ON_HEAP)
            free(placed->slice[f].at);
        else
            guards(f, now, 0, &intact);
        room[f].at = NULL;
    }
    return intact;
}
