#include "calls.h"

#include <string.h>

#include "windosprio.h"

/* What is lent, apart: nothing that a call writes lies near what it reads. */
static struct arena schema_memory, table_memory, message_memory, words_memory, row_memory, count_memory;
static struct arena state_memory, buffer_memory, place_memory;

struct tally tally;

void calls_open(void) {
    schema_memory = arena_new(MOST_BYTES, false);
    table_memory = arena_new(MOST_WORDS * sizeof(uint32_t), false);
    message_memory = arena_new(MOST_BYTES, false);
    words_memory = arena_new(MOST_ROOM * sizeof(uint32_t), true);
    row_memory = arena_new(sizeof(size_t), true);
    count_memory = arena_new(sizeof(size_t), true);
    state_memory = arena_new(WINDOSPRIO_STREAM_WORDS * sizeof(uint64_t), true);
    buffer_memory = arena_new(MOST_LENT, true);
    place_memory = arena_new(sizeof(size_t), true);
}

/* Bytes that a call is to read, or to change. */
static struct slice lend_in(struct arena *arena, enum place place, const void *bytes, size_t count) {
    struct slice slice = slice_new(arena, place, count);
    if (count > 0)
        memcpy(slice.own, bytes, count);
    return slice;
}

static struct slice lend_text(struct arena *arena, enum place place, const struct text *text) {
    return lend_in(arena, place, text->bytes, text->count);
}

static struct slice lend_table(enum place place, const struct table *table) {
    return lend_in(&table_memory, place, table->words, table->count * sizeof(uint32_t));
}

/* Memory that a call is to set, holding something else. */
static struct slice lend_out(struct arena *arena, enum place place, size_t bytes) {
    struct slice slice = slice_new(arena, place, bytes);
    if (bytes > 0)
        memset(slice.own, 0xA5, bytes);
    return slice;
}

/* A slice that is given back. */
static void take_back(struct slice *slice) {
    if (!slice_is_intact_around(slice))
        fail("bytes beside a slice were written");
    slice_free(slice);
}

static size_t take_count(struct slice *slice) {
    size_t count;
    memcpy(&count, slice->own, sizeof count);
    take_back(slice);
    return count;
}

/* Keeps the words or bytes of the first place, and compares those of the others with them. */
static void take_words(struct slice *slice, enum place place, void *words) {
    if (slice->bytes > 0) {
        if (place == LOW)
            memcpy(words, slice->own, slice->bytes);
        else if (memcmp(words, slice->own, slice->bytes) != 0)
            fail("the words differ by place");
    }
    take_back(slice);
}

/* Whether an answer of this number has a place. */
static bool points(uint32_t number) {
    switch (number) {
    case WINDOSPRIO_SCHEMA_NOT_TEXT:
    case WINDOSPRIO_SCHEMA_REPEATED_KEY:
    case WINDOSPRIO_MESSAGE_NOT_TEXT:
    case WINDOSPRIO_MESSAGE_TOO_DEEP:
    case WINDOSPRIO_MESSAGE_REPEATED_KEY:
    case WINDOSPRIO_MESSAGE_NO_READING:
    case WINDOSPRIO_MESSAGE_NO_ROOM: return true;
    default: return false;
    }
}

/* That counts, place and words are as the number says: no count after a refusal, no place where it points nowhere and
 * none beyond the text, and zeros after the last of an acceptance. */
static void check_shape(struct answer answer, size_t width, const struct text *text) {
    if (!points(answer.number) && answer.at != 0)
        fail("an answer that points nowhere has a place");
    if (answer.at > text->count)
        fail("the place lies beyond the text");
    if (answer.number != 0 && (answer.row != 0 || answer.count != 0))
        fail("a refusal has a count");
    if (answer.count > answer.room / width)
        fail("there are more rows or records than there is room for");
    for (size_t i = answer.count * width; i < answer.room; i++)
        if (answer.words[i] != 0)
            fail("a word after the last isn't 0");
}

static void check_same(enum place place, struct answer first, struct answer answer) {
    if (place != LOW && (first.number != answer.number || first.row != answer.row || first.count != answer.count ||
                         first.at != answer.at))
        fail("the answers differ by place");
}

struct answer compile(const struct text *schema, uint32_t *words, size_t room) {
    struct answer first = {0};
    for (enum place place = LOW; place < PLACES; place++) {
        struct slice text = lend_text(&schema_memory, place, schema);
        struct slice rows = lend_out(&words_memory, place, room * sizeof(uint32_t));
        struct slice count = lend_out(&count_memory, place, sizeof(size_t));
        struct slice at = lend_out(&place_memory, place, sizeof(size_t));
        struct answer answer = {.words = words, .room = room};
        answer.number = windosprio_compile_schema(text.lent, text.bytes, (uint32_t *)rows.lent, room,
                                                  (size_t *)count.lent, (size_t *)at.lent);
        answer.count = take_count(&count);
        answer.at = take_count(&at);
        take_words(&rows, place, words);
        take_back(&text);
        check_same(place, first, answer);
        first = answer;
    }
    if (first.number > 13)
        fail("a schema's number isn't an answer's");
    check_shape(first, WINDOSPRIO_ROW_WORDS, schema);
    for (size_t i = 0; i < first.count; i++)
        if (first.words[i * WINDOSPRIO_ROW_WORDS] - 1 > 8)
            fail("a row's kind isn't one of 1 to 9");
    tally.schema[first.number]++;
    tally.calls += PLACES;
    return first;
}

/* That the command is one, and that each record lies in the message and has a type. */
static void check_records(struct answer answer, const struct table *table, const struct text *message) {
    size_t rows = table->count / WINDOSPRIO_ROW_WORDS;
    if (answer.row >= rows || table->words[answer.row * WINDOSPRIO_ROW_WORDS] != 9)
        fail("the command's row is none");
    for (size_t i = 0; i < answer.count; i++) {
        const uint32_t *record = answer.words + i * WINDOSPRIO_RECORD_WORDS;
        if (record[0] > record[1] || record[1] > message->count || record[2] >= 16 + rows || record[3] > 1)
            fail("a record points nowhere");
    }
}

struct answer check(const struct table *table, const struct text *schema, const struct text *message, uint32_t *words,
                    size_t room) {
    struct answer first = {0};
    for (enum place place = LOW; place < PLACES; place++) {
        struct slice rows = lend_table(place, table);
        struct slice text = lend_text(&schema_memory, place, schema);
        struct slice command = lend_text(&message_memory, place, message);
        struct slice records = lend_out(&words_memory, place, room * sizeof(uint32_t));
        struct slice row = lend_out(&row_memory, place, sizeof(size_t));
        struct slice count = lend_out(&count_memory, place, sizeof(size_t));
        struct slice at = lend_out(&place_memory, place, sizeof(size_t));
        struct answer answer = {.words = words, .room = room};
        answer.number = windosprio_check_message((const uint32_t *)rows.lent, table->count, text.lent, text.bytes,
                                                 command.lent, command.bytes, (uint32_t *)records.lent, room,
                                                 (size_t *)row.lent, (size_t *)count.lent, (size_t *)at.lent);
        answer.row = take_count(&row);
        answer.count = take_count(&count);
        answer.at = take_count(&at);
        take_words(&records, place, words);
        take_back(&command);
        take_back(&text);
        take_back(&rows);
        check_same(place, first, answer);
        first = answer;
    }
    if (first.number != 0 && (first.number < 21 || first.number > 30))
        fail("a message's number isn't an answer's");
    check_shape(first, WINDOSPRIO_RECORD_WORDS, message);
    if (first.number == 0)
        check_records(first, table, message);
    tally.message[first.number]++;
    tally.calls += PLACES;
    return first;
}

bool is_sound(const struct text *schema, const struct table *table) {
    bool first = false;
    for (enum place place = LOW; place < PLACES; place++) {
        struct slice text = lend_text(&schema_memory, place, schema);
        struct slice rows = lend_table(place, table);
        bool sound = windosprio_is_sound(text.lent, text.bytes, (const uint32_t *)rows.lent, table->count);
        take_back(&rows);
        take_back(&text);
        if (place != LOW && sound != first)
            fail("the soundness differs by place");
        first = sound;
    }
    tally.sound[first]++;
    tally.calls += PLACES;
    return first;
}

/* That an answer over a piece of so many bytes is one of those that there are. */
static void check_fed(struct fed fed, size_t piece_bytes, size_t lent) {
    bool is_refusal = fed.number >= WINDOSPRIO_MESSAGE_TOO_LONG && fed.number <= WINDOSPRIO_MESSAGE_TOO_DEEP;
    size_t limit = lent < WINDOSPRIO_MESSAGE_BYTES ? lent : WINDOSPRIO_MESSAGE_BYTES;
    if (fed.number != 0 && !is_refusal)
        fail("a stream's number isn't one that a stream gives");
    if (fed.place != 0)
        fail("a stream's place isn't 0");
    if (fed.message_bytes > limit || (is_refusal && fed.message_bytes > 0))
        fail("a stream's message is too long, or comes with a refusal");
    bool is_over = fed.number == 0 && fed.message_bytes == 0;
    if (is_over ? fed.taken != piece_bytes : fed.taken < 1 || fed.taken > piece_bytes)
        fail("a stream's piece isn't taken as it should be");
}

struct fed feed(const uint64_t *state, uint8_t *buffer, size_t lent, const struct text *piece) {
    static uint8_t before[MOST_LENT];
    struct fed first = {0};
    memcpy(before, buffer, lent);
    for (enum place place = LOW; place < PLACES; place++) {
        struct slice words = lend_in(&state_memory, place, state, sizeof first.state);
        struct slice bytes = lend_in(&buffer_memory, place, before, lent);
        struct slice text = lend_text(&message_memory, place, piece);
        struct slice taken = lend_out(&row_memory, place, sizeof(size_t));
        struct slice count = lend_out(&count_memory, place, sizeof(size_t));
        struct slice zero = lend_out(&place_memory, place, sizeof(size_t));
        struct fed fed = first;
        fed.number = windosprio_stream_feed((uint64_t *)words.lent, bytes.lent, lent, text.lent, text.bytes,
                                            (size_t *)taken.lent, (size_t *)count.lent, (size_t *)zero.lent);
        fed.taken = take_count(&taken);
        fed.message_bytes = take_count(&count);
        fed.place = take_count(&zero);
        take_words(&words, place, fed.state);
        take_words(&bytes, place, buffer);
        take_back(&text);
        if (place != LOW && (fed.number != first.number || fed.taken != first.taken ||
                             fed.message_bytes != first.message_bytes || fed.place != first.place))
            fail("the answers differ by place");
        first = fed;
    }
    check_fed(first, piece->count, lent);
    if (lent > WINDOSPRIO_MESSAGE_BYTES &&
        memcmp(buffer + WINDOSPRIO_MESSAGE_BYTES, before + WINDOSPRIO_MESSAGE_BYTES, lent - WINDOSPRIO_MESSAGE_BYTES))
        fail("bytes of a buffer beyond the limit were written");
    if (first.number != 0 || first.message_bytes > 0)
        tally.stream[first.number]++;
    tally.calls += PLACES;
    return first;
}

void check_room(struct answer got, struct answer whole, size_t width, uint32_t no_room) {
    bool fits = whole.number != 0 || got.room / width >= whole.count;
    if (got.number != (fits ? whole.number : no_room))
        fail("the number doesn't follow from the room");
    if (got.number == 0 && (got.row != whole.row || got.count != whole.count))
        fail("row or count differs by room");
    if (fits && got.at != whole.at)
        fail("the place differs by room");
    if (got.count > 0 && memcmp(got.words, whole.words, got.count * width * sizeof(uint32_t)) != 0)
        fail("the words differ by room");
}
