/*
 * Hands schemas, tables, messages and pieces of streams to the calls over the C boundary, in memory where no access
 * beside a slice goes unseen, and checks what must hold of every answer.
 *
 *     boundary [--cases COUNT] [--seed SEED] [--first CASE]
 */
#include <sanitizer/common_interface_defs.h>
#include <stdio.h>
#include <stdlib.h>
#include <string.h>
#include <time.h>

#include "calls.h"
#include "windosprio.h"

#define ROOM_FOR_ROWS (WINDOSPRIO_ROWS * WINDOSPRIO_ROW_WORDS)

static uint64_t cases = 10000, seed = 1, first_case = 0, current;

static void say_case(void) {
    fprintf(stderr, "in case %llu from seed %llu\n", (unsigned long long)current, (unsigned long long)seed);
}

_Noreturn void fail(const char *what) {
    fprintf(stderr, "boundary: %s\n", what);
    say_case();
    exit(1);
}

/* Hardly any words, some, or about as many as are needed. */
static size_t any_room(struct random *random, size_t needed) {
    switch (random_below(random, 4)) {
    case 0: return random_below(random, 12);
    case 1: return random_below(random, needed + 1);
    case 2: return needed;
    default: return needed + random_below(random, 40);
    }
}

/* The words of an answer in a room that is never too small, and in any other. */
static uint32_t whole_words[MOST_ROOM], words[MOST_ROOM];

/* Compiles a schema in both rooms. Gives its table if it is accepted. */
static bool run_schema(struct random *random, const struct text *schema, struct table *table) {
    struct answer whole = compile(schema, whole_words, ROOM_FOR_ROWS + random_below(random, 8));
    size_t needed = whole.count * WINDOSPRIO_ROW_WORDS;
    struct answer any = compile(schema, words, any_room(random, needed));
    check_room(any, whole, WINDOSPRIO_ROW_WORDS, WINDOSPRIO_SCHEMA_NO_ROOM);
    table->count = needed;
    memcpy(table->words, whole_words, needed * sizeof(uint32_t));
    if (whole.number == 0 && !is_sound(schema, table))
        fail("the table of an accepted schema isn't sound");
    return whole.number == 0;
}

/* Checks a message in both rooms. */
static void run_message(struct random *random, const struct text *schema, const struct table *table,
                        const struct text *message) {
    size_t bytes = message->count <= WINDOSPRIO_MESSAGE_BYTES ? message->count : 0;
    size_t enough = bytes * WINDOSPRIO_RECORD_WORDS + random_below(random, 8);
    struct answer whole = check(table, schema, message, whole_words, enough);
    if (whole.number == WINDOSPRIO_MESSAGE_NO_ROOM)
        fail("as many records as the message has bytes are too few");
    if (is_sound(schema, table) != (whole.number != WINDOSPRIO_MESSAGE_UNSOUND_TABLE))
        fail("number and soundness disagree");
    struct answer any = check(table, schema, message, words, any_room(random, whole.count * WINDOSPRIO_RECORD_WORDS));
    check_room(any, whole, WINDOSPRIO_RECORD_WORDS, WINDOSPRIO_MESSAGE_NO_ROOM);
}

/* How many bytes are lent for a message: hardly any, some, about as many as the limit. */
static size_t any_lent(struct random *random) {
    switch (random_below(random, 4)) {
    case 0: return random_below(random, 4);
    case 1: return random_below(random, 400);
    case 2: return WINDOSPRIO_MESSAGE_BYTES - 1 + random_below(random, 3);
    default: return random_below(random, MOST_LENT + 1);
    }
}

/* Two messages, at times with a clearing byte between them. */
static void make_stream(struct random *random, const struct seed *origin, struct text *stream) {
    static struct text second;
    make_message(random, origin, stream);
    make_message(random, origin, &second);
    if (stream->count + 1 + second.count > MOST_BYTES)
        return;
    if (random_below(random, 2) == 0)
        stream->bytes[stream->count++] = 0xFF;
    memcpy(stream->bytes + stream->count, second.bytes, second.count);
    stream->count += second.count;
}

/* Reads a stream in pieces, and an empty one last. What is handed out from a fresh state is text within the limits. */
static void run_stream(struct random *random, const struct text *stream, const struct text *schema,
                       const struct table *table) {
    static uint8_t buffer[MOST_LENT];
    static struct text piece, message;
    bool is_fresh = random_below(random, 4) > 0;
    size_t lent = any_lent(random), left = 1;
    struct fed fed = {0};
    windosprio_stream_start(fed.state);
    for (size_t i = 0; i < WINDOSPRIO_STREAM_WORDS && !is_fresh; i++)
        fed.state[i] = random_word(random) >> random_below(random, 64);
    memset(buffer, '[', lent);
    for (size_t start = 0; left > 0; start += fed.taken) {
        left = stream->count - start;
        piece.count = left == 0 ? 0 : 1 + random_below(random, left);
        memcpy(piece.bytes, stream->bytes + start, piece.count);
        fed = feed(fed.state, buffer, lent, &piece);
        if (is_fresh && fed.message_bytes > 0) {
            message.count = fed.message_bytes;
            memcpy(message.bytes, buffer, message.count);
            uint32_t number = check(table, schema, &message, words, 0).number;
            if (number >= WINDOSPRIO_MESSAGE_TOO_LONG && number <= WINDOSPRIO_MESSAGE_TOO_DEEP)
                fail("a message of a stream isn't text within the limits");
        }
    }
}

/* A schema; then a message with its table or, where it is refused, the seed's, at times changed; then a stream. */
static void run_case(struct random *random) {
    static struct text schema, message;
    static struct table table;
    const struct seed *origin = pick_seed(random);
    make_schema(random, origin, &schema);
    if (!run_schema(random, &schema, &table)) {
        text_set(&schema, origin->schema);
        if (!run_schema(random, &schema, &table))
            fail("the schema of a seed is refused");
    }
    vary_table(random, &table);
    if (random_below(random, 16) == 0)
        make_schema(random, origin, &schema);
    make_message(random, origin, &message);
    run_message(random, &schema, &table, &message);
    make_stream(random, origin, &message);
    run_stream(random, &message, &schema, &table);
}

/* Prints how often each number was given; gives how many never were. */
static unsigned print_numbers(const char *what, const uint64_t *counts, size_t from, size_t to) {
    unsigned missing = counts[0] == 0;
    printf("%s numbers: 0=%llu", what, (unsigned long long)counts[0]);
    for (size_t number = from; number <= to; number++) {
        printf(" %zu=%llu", number, (unsigned long long)counts[number]);
        missing += counts[number] == 0;
    }
    printf("\n");
    return missing;
}

static void read_options(int count, char **arguments) {
    for (int i = 1; i < count; i += 2) {
        uint64_t *option = strcmp(arguments[i], "--cases") == 0 ? &cases
                         : strcmp(arguments[i], "--seed") == 0  ? &seed
                         : strcmp(arguments[i], "--first") == 0 ? &first_case
                                                            : NULL;
        if (option == NULL || i + 1 == count) {
            fprintf(stderr, "usage: boundary [--cases COUNT] [--seed SEED] [--first CASE]\n");
            exit(2);
        }
        *option = strtoull(arguments[i + 1], NULL, 10);
    }
}

int main(int count, char **arguments) {
    read_options(count, arguments);
    __sanitizer_set_death_callback(say_case);
    calls_open();
    time_t begun = time(NULL);
    for (uint64_t i = 0; i < cases; i++) {
        current = first_case + i;
        struct random random = {(seed << 32) + current};
        run_case(&random);
    }
    unsigned missing = print_numbers("schema", tally.schema, 1, 13) + print_numbers("message", tally.message, 21, 30);
    missing += print_numbers("stream", tally.stream, 22, 24);
    missing += (tally.sound[0] == 0) + (tally.sound[1] == 0);
    printf("tables: sound=%llu unsound=%llu\n", (unsigned long long)tally.sound[1], (unsigned long long)tally.sound[0]);
    printf("boundary: %llu cases, %llu calls in %ld s, %u outcomes never reached\n", (unsigned long long)cases,
           (unsigned long long)tally.calls, (long)(time(NULL) - begun), missing);
    return missing == 0 ? 0 : 1;
}
