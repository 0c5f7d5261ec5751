/* What the calls are lent: slices that end where memory ends, so that no access beside one goes unseen. */
#ifndef MEMORY_H
#define MEMORY_H

#include <stdbool.h>
#include <stddef.h>
#include <stdint.h>

/* Where a slice lies. */
enum place {
    LOW,  /* directly after a page that can't be accessed */
    HIGH, /* directly before one */
    HEAP, /* a block of its own of just that size, between the sanitizer's red zones; NULL where it is empty */
    PLACES
};

/* A stretch of memory between two pages that can't be accessed. */
struct arena {
    uint8_t *own;  /* as this program has it */
    uint8_t *lent; /* as the calls have it */
    size_t bytes;
};

struct slice {
    uint8_t *lent; /* what a call is handed */
    uint8_t *own;  /* the same bytes, as this program has them */
    size_t bytes;
    struct arena *arena; /* NULL on the heap */
};

/* An arena of at least so many bytes; the calls may write to it or not. */
struct arena arena_new(size_t bytes, bool writable);

/* A slice at a place. Beside it, the arena holds bytes that must stay as they are. */
struct slice slice_new(struct arena *arena, enum place place, size_t bytes);

/* Whether nothing was written beside the slice. */
bool slice_is_intact_around(const struct slice *slice);

void slice_free(struct slice *slice);

#endif
