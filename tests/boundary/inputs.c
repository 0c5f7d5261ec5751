#include "inputs.h"

#include <stdio.h>
#include <string.h>

#include "windosprio.h"

/* Bytes that matter to one of the two texts. */
static const char telling[] =
    "{}[]:,\"'\\#*-+.eE0159tfnuDd8c/ \t\r\n\x0B\x1F\x7E\x7F\x80\x9F\xA0\xBF\xC0\xC2\xE0\xED\xEF\xF0\xF4\xF5\xFF";

static size_t smaller(size_t a, size_t b) {
    return a < b ? a : b;
}

static uint8_t any_byte(struct random *random) {
    if (random_below(random, 4) == 0)
        return (uint8_t)random_word(random);
    return (uint8_t)telling[random_below(random, sizeof telling)];
}

const struct seed *pick_seed(struct random *random) {
    size_t count = 0;
    while (seeds[count].schema != NULL)
        count++;
    return &seeds[random_below(random, count)];
}

static const char *pick_string(struct random *random, const char *const *strings) {
    size_t count = 0;
    while (strings[count] != NULL)
        count++;
    return strings[random_below(random, count)];
}

void text_set(struct text *text, const char *bytes) {
    text->count = strlen(bytes);
    memcpy(text->bytes, bytes, text->count);
}

/* Makes room for so many bytes at a place; those beyond the most are dropped. */
static size_t open_gap(struct text *text, size_t place, size_t bytes) {
    bytes = smaller(bytes, MOST_BYTES - text->count);
    memmove(text->bytes + place + bytes, text->bytes + place, text->count - place);
    text->count += bytes;
    return bytes;
}

static void close_gap(struct text *text, size_t place, size_t bytes) {
    bytes = smaller(bytes, text->count - place);
    memmove(text->bytes + place, text->bytes + place + bytes, text->count - place - bytes);
    text->count -= bytes;
}

/* Copies a few bytes to the place before them. */
static void double_some(struct random *random, struct text *text, size_t place) {
    uint8_t some[40];
    size_t count = smaller(random_below(random, sizeof some), text->count - place);
    memcpy(some, text->bytes + place, count);
    memcpy(text->bytes + place, some, open_gap(text, place, count));
}

static void damage_once(struct random *random, struct text *text) {
    size_t place = random_below(random, text->count + 1);
    size_t kind = random_below(random, 6);
    if (kind == 0 && open_gap(text, place, 1) == 1)
        text->bytes[place] = any_byte(random);
    if (place == text->count)
        return;
    switch (kind) {
    case 1: text->count = place; break;
    case 2: text->bytes[place] = any_byte(random); break;
    case 3: text->bytes[place] ^= (uint8_t)(1u << random_below(random, 8)); break;
    case 4: close_gap(text, place, 1 + random_below(random, 4)); break;
    case 5: double_some(random, text, place); break;
    }
}

void damage(struct random *random, struct text *text) {
    for (size_t times = 1 + random_below(random, 3); times > 0; times--)
        damage_once(random, text);
}

static void fill_random(struct random *random, struct text *text) {
    text->count = random_below(random, 300);
    for (size_t i = 0; i < text->count; i++)
        text->bytes[i] = any_byte(random);
}

/* Blanks before or after, so that the text has about so many bytes: at times one too many. */
static void pad(struct random *random, struct text *text, size_t bytes) {
    bytes = bytes - 1 + random_below(random, 3);
    size_t place = random_below(random, 2) == 0 ? 0 : text->count;
    size_t blanks = open_gap(text, place, bytes - text->count);
    memset(text->bytes + place, ' ', blanks);
}

/* About as many commands as there may be rows. */
static void fill_rows(struct random *random, struct text *text) {
    size_t commands = WINDOSPRIO_ROWS - 1 + random_below(random, 4);
    text->count = 0;
    for (size_t i = 0; i < commands; i++)
        text->count += (size_t)sprintf((char *)text->bytes + text->count, "{'command':'c%zu'}", i);
}

void make_schema(struct random *random, const struct seed *seed, struct text *text) {
    text_set(text, seed->schema);
    switch (random_below(random, 20)) {
    case 0: fill_random(random, text); break;
    case 1: fill_rows(random, text); break;
    case 2: pad(random, text, WINDOSPRIO_SCHEMA_BYTES); break;
    case 3: case 4: case 5: case 6: text_set(text, pick_string(random, refused_schemas)); break;
    case 7: case 8: case 9: case 10: break;
    default: damage(random, text); break;
    }
}

/* About as many levels of brackets as there may be, as the id of a message. */
static void fill_levels(struct random *random, struct text *text) {
    static const char before[] = "{\"execute\":\"c\",\"id\":";
    size_t levels = 30 + random_below(random, 4);
    text_set(text, before);
    memset(text->bytes + text->count, '[', levels);
    memset(text->bytes + text->count + levels, ']', levels);
    text->count += 2 * levels;
    text->bytes[text->count++] = '}';
}

void make_message(struct random *random, const struct seed *seed, struct text *text) {
    text_set(text, pick_string(random, seed->messages));
    switch (random_below(random, 20)) {
    case 0: fill_random(random, text); break;
    case 1: fill_levels(random, text); break;
    case 2: pad(random, text, WINDOSPRIO_MESSAGE_BYTES); break;
    case 3: text->count = 0; break;
    case 4: case 5: case 6: case 7: case 8: case 9: case 10: case 11: case 12: break;
    default: damage(random, text); break;
    }
}

/* Words that occur in rows, and any others. */
static uint32_t any_word(struct random *random) {
    switch (random_below(random, 4)) {
    case 0: return (uint32_t)random_word(random);
    case 1: return UINT32_MAX - (uint32_t)random_below(random, 20);
    default: return (uint32_t)random_below(random, 40);
    }
}

void vary_table(struct random *random, struct table *table) {
    switch (random_below(random, 20)) {
    case 0: table->count = random_below(random, table->count + 1); break;
    case 1:
        table->count = random_below(random, 100);
        if (random_below(random, 2) == 0)
            table->count = MOST_WORDS - 3 * table->count;
        for (size_t i = 0; i < table->count; i++)
            table->words[i] = any_word(random);
        break;
    case 2:
        for (size_t more = random_below(random, 9); more > 0; more--)
            table->words[table->count++] = 0;
        break;
    case 3: case 4: case 5:
        for (size_t times = 1 + random_below(random, 2); times > 0 && table->count > 0; times--) {
            uint32_t *word = &table->words[random_below(random, table->count)];
            *word = any_word(random);
        }
        break;
    }
}
