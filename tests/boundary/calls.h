/* The calls, each made at every place, with what must hold of any answer. */
#ifndef CALLS_H
#define CALLS_H

#include "inputs.h"
#include "memory.h"
#include "windosprio.h"

/* The most words lent: more than a message of the most bytes can need. */
#define MOST_ROOM 65600

/* The most bytes lent for a message of a stream: more than a message can have. */
#define MOST_LENT 20000

struct answer {
    uint32_t number;
    size_t row, count;
    size_t at;             /* the place in the text */
    const uint32_t *words; /* as they were left */
    size_t room;           /* how many were lent */
};

/* What a call of a stream gives, with the state that it leaves. */
struct fed {
    uint32_t number;
    size_t taken, message_bytes, place;
    uint64_t state[WINDOSPRIO_STREAM_WORDS];
};

/* How often each number was given, and each soundness; of a stream 0 with a message, and the refusals. */
struct tally {
    uint64_t calls, schema[14], message[31], sound[2], stream[25];
};

extern struct tally tally;

/* Ends the program with what is wrong, and in which case. */
_Noreturn void fail(const char *what);

/* Maps the memory. */
void calls_open(void);

/* Each call at every place; all must answer the same. The words are left in `words`. */
struct answer compile(const struct text *schema, uint32_t *words, size_t room);
struct answer check(const struct table *table, const struct text *schema, const struct text *message, uint32_t *words,
                    size_t room);
bool is_sound(const struct text *schema, const struct table *table);

/* A piece from a state. The buffer, of so many bytes lent, is left as the call leaves it. */
struct fed feed(const uint64_t *state, uint8_t *buffer, size_t lent, const struct text *piece);

/* That an answer is the one that follows from the answer in a room that is large enough. */
void check_room(struct answer got, struct answer whole, size_t width, uint32_t no_room);

#endif
