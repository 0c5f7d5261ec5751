/* A small seeded generator (splitmix64). */
#ifndef RANDOM_H
#define RANDOM_H

#include <stddef.h>
#include <stdint.h>

struct random {
    uint64_t state;
};

static inline uint64_t random_word(struct random *random) {
    uint64_t word = random->state += 0x9E3779B97F4A7C15;
    word = (word ^ (word >> 30)) * 0xBF58476D1CE4E5B9;
    word = (word ^ (word >> 27)) * 0x94D049BB133111EB;
    return word ^ (word >> 31);
}

/* From 0 up to, not with, `limit`, which is at least 1. */
static inline size_t random_below(struct random *random, size_t limit) {
    return random_word(random) % limit;
}

#endif
