#define _GNU_SOURCE
#include "memory.h"

#include <stdio.h>
#include <stdlib.h>
#include <string.h>
#include <sys/mman.h>
#include <unistd.h>

/* Bytes beside a slice that are looked at, and what they hold. */
#define GUARDS 256
#define GUARD 0x5A

static void *checked(void *mapped) {
    if (mapped == MAP_FAILED) {
        perror("mmap");
        exit(2);
    }
    return mapped;
}

/* The memory is mapped twice: for this program, and for the calls between two pages without access. */
struct arena arena_new(size_t bytes, bool writable) {
    size_t page = (size_t)sysconf(_SC_PAGESIZE);
    struct arena arena = {.bytes = (bytes + page - 1) / page * page};
    int file = memfd_create("arena", 0);
    if (file < 0 || ftruncate(file, (off_t)arena.bytes) != 0) {
        perror("memfd_create");
        exit(2);
    }
    int access = writable ? PROT_READ | PROT_WRITE : PROT_READ;
    uint8_t *around = checked(mmap(NULL, arena.bytes + 2 * page, PROT_NONE, MAP_PRIVATE | MAP_ANONYMOUS, -1, 0));
    arena.lent = checked(mmap(around + page, arena.bytes, access, MAP_SHARED | MAP_FIXED, file, 0));
    arena.own = checked(mmap(NULL, arena.bytes, PROT_READ | PROT_WRITE, MAP_SHARED, file, 0));
    close(file);
    return arena;
}

/* The bytes of the arena beside a slice, on the side that has no page without access. */
static uint8_t *guards(const struct slice *slice, size_t *count) {
    const struct arena *arena = slice->arena;
    size_t left = arena->bytes - slice->bytes;
    *count = left < GUARDS ? left : GUARDS;
    return slice->own == arena->own ? slice->own + slice->bytes : slice->own - *count;
}

struct slice slice_new(struct arena *arena, enum place place, size_t bytes) {
    struct slice slice = {.bytes = bytes};
    if (place == HEAP) {
        slice.own = slice.lent = bytes == 0 ? NULL : malloc(bytes);
        return slice;
    }
    size_t start = place == LOW ? 0 : arena->bytes - bytes, count;
    slice.arena = arena;
    slice.lent = arena->lent + start;
    slice.own = arena->own + start;
    uint8_t *beside = guards(&slice, &count);
    memset(beside, GUARD, count);
    return slice;
}

bool slice_is_intact_around(const struct slice *slice) {
    if (slice->arena == NULL)
        return true;
    size_t count;
    const uint8_t *beside = guards(slice, &count);
    for (size_t i = 0; i < count; i++)
        if (beside[i] != GUARD)
            return false;
    return true;
}

void slice_free(struct slice *slice) {
    if (slice->arena == NULL)
        free(slice->lent);
}
