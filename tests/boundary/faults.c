/*
 * Calls that misbehave, to see that the checks notice: linked in before the library's by the linker's --wrap. The
 * environment variable FAULT says how.
 */
#include <stdlib.h>
#include <string.h>

#include "windosprio.h"

uint32_t __real_windosprio_check_message(const uint32_t *, size_t, const uint8_t *, size_t, const uint8_t *, size_t,
                                         uint32_t *, size_t, size_t *, size_t *, size_t *);
uint32_t __wrap_windosprio_check_message(const uint32_t *, size_t, const uint8_t *, size_t, const uint8_t *, size_t,
                                         uint32_t *, size_t, size_t *, size_t *, size_t *);

uint32_t __real_windosprio_stream_feed(uint64_t *, uint8_t *, size_t, const uint8_t *, size_t, size_t *, size_t *,
                                       size_t *);
uint32_t __wrap_windosprio_stream_feed(uint64_t *, uint8_t *, size_t, const uint8_t *, size_t, size_t *, size_t *,
                                       size_t *);

static int is_fault(const char *name) {
    const char *fault = getenv("FAULT");
    return fault != NULL && strcmp(fault, name) == 0;
}

/* Reads a byte so that it isn't left out. */
static void touch(const uint8_t *byte) {
    volatile uint8_t read = *(const volatile uint8_t *)byte;
    (void)read;
}

/* The sanitizer doesn't look at this function, as it doesn't look at the library. */
__attribute__((no_sanitize("address", "undefined"))) uint32_t
__wrap_windosprio_check_message(const uint32_t *table, size_t table_words, const uint8_t *schema, size_t schema_bytes,
                                const uint8_t *message, size_t message_bytes, uint32_t *records, size_t record_words,
                                size_t *command_row, size_t *record_count, size_t *place) {
    uint32_t number = __real_windosprio_check_message(table, table_words, schema, schema_bytes, message, message_bytes,
                                                      records, record_words, command_row, record_count, place);
    if (is_fault("read-after")) touch(message + message_bytes);
    if (is_fault("read-before")) touch(schema - 1);
    if (is_fault("read-table-after")) touch((const uint8_t *)(table + table_words));
    if (is_fault("write-input") && schema_bytes > 0) memset((void *)(uintptr_t)schema, 0, 1);
    if (is_fault("write-after")) records[record_words] = 0;
    if (is_fault("write-before")) records[-1] = 0;
    if (is_fault("word-left") && record_words > 0) records[record_words - 1] = 1;
    if (is_fault("count-left") && number != 0) *record_count = 1;
    if (is_fault("row-left") && number == 0) *command_row = SIZE_MAX;
    if (is_fault("place-left") && number == 0) *place = 1;
    if (is_fault("place-beyond") && number == WINDOSPRIO_MESSAGE_NOT_TEXT) *place = message_bytes + 1;
    if (is_fault("number")) return 31;
    if (is_fault("by-room") && number == WINDOSPRIO_MESSAGE_NO_ROOM) return WINDOSPRIO_MESSAGE_NO_READING;
    return number;
}

__attribute__((no_sanitize("address", "undefined"))) uint32_t
__wrap_windosprio_stream_feed(uint64_t *state, uint8_t *buffer, size_t buffer_bytes, const uint8_t *piece,
                              size_t piece_bytes, size_t *taken, size_t *message_bytes, size_t *place) {
    uint32_t number = __real_windosprio_stream_feed(state, buffer, buffer_bytes, piece, piece_bytes, taken,
                                                    message_bytes, place);
    if (is_fault("piece-after")) touch(piece + piece_bytes);
    if (is_fault("piece-write") && piece_bytes > 0) memset((void *)(uintptr_t)piece, 0, 1);
    if (is_fault("buffer-after")) buffer[buffer_bytes] = 0;
    if (is_fault("buffer-beyond") && buffer_bytes > WINDOSPRIO_MESSAGE_BYTES) buffer[WINDOSPRIO_MESSAGE_BYTES] = 0;
    if (is_fault("state-after")) state[WINDOSPRIO_STREAM_WORDS] = 0;
    if (is_fault("byte-lost") && piece_bytes > 1 && *taken == piece_bytes) --*taken;
    if (is_fault("stream-place-left")) *place = *taken + 1;
    if (is_fault("message-cut") && *message_bytes > 1) --*message_bytes;
    return number;
}
