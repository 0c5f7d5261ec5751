/* Schemas, tables and messages to hand over: whole, damaged, at the limits, and random. */
#ifndef INPUTS_H
#define INPUTS_H

#include "random.h"

/* The most bytes of a text, and words of a table, that are made; both go beyond the limits of the calls. */
#define MOST_BYTES 40000
#define MOST_WORDS 8448

struct text {
    uint8_t bytes[MOST_BYTES];
    size_t count;
};

struct table {
    uint32_t words[MOST_WORDS];
    size_t count;
};

/* A schema that is accepted, with messages for it, the last NULL. */
struct seed {
    const char *schema;
    const char *messages[16];
};

/* The seeds, the last without a schema. */
extern const struct seed seeds[];

/* Schemas that are refused, for each number from 2 to 11; the last is NULL. */
extern const char *const refused_schemas[];

/* One of the seeds. */
const struct seed *pick_seed(struct random *random);

void text_set(struct text *text, const char *bytes);

/* Any schema to compile: the seed's, most often changed. */
void make_schema(struct random *random, const struct seed *seed, struct text *text);

/* Any message to check: one of the seed's, most often changed. */
void make_message(struct random *random, const struct seed *seed, struct text *text);

/* Leaves a table as it is, or changes it. */
void vary_table(struct random *random, struct table *table);

/* Changes a text at a few places. */
void damage(struct random *random, struct text *text);

#endif
