/*
 * Windosprio: a gateway that stands before a QEMU monitor. Two calls turn a QAPI schema into a table of rows and read
 * QMP commands against it; a third judges a table alone; two more take whole messages out of a stream of bytes. The
 * library is libgateway.a, for x86-64 Linux.
 *
 * What is lent. Everything is lent for the time of a call only: the calls keep no pointer, allocate nothing and free
 * nothing. Any bytes and any words may be handed over.
 *   - A slice is a pointer and a length, in bytes or in words of 32 bits. A pointer to words is aligned as a uint32_t,
 *     one to a state as a uint64_t. With a length of 0 nothing is read or written there, and the pointer may be NULL.
 *     No other pointer may be NULL.
 *   - What a call writes to (rows, records, counts, a place, a state, a buffer) overlaps with nothing else that it is
 *     handed. What it reads may.
 *   - A call sets every word of rows and records lent to it, whatever it held before, so more room than needed costs
 *     time. Of a stream's buffer only bytes of the message that is being read are written.
 *
 * Threads. The calls keep nothing themselves. Any number may run at once, as long as none writes to what another is
 * handed.
 *
 * Stack. A call works in its own stack frames. WINDOSPRIO_..._STACK bytes suffice, at least a quarter more than the
 * project's tests measure; with too little the program ends at the guard page of that stack.
 *
 * Answers. A call gives 0 or the lowest number that applies, never another. A refusal leaves every word of rows and
 * records and every count of them 0.
 *
 * Places. The place of a refusal says where the text goes wrong, in bytes from its start. For 2, 23 and 24 it is the
 * length of the longest start that some valid text within the levels has: the first byte that can't stand there, or
 * the end of a text that stops short. For 3 and 25 it is the opening quote of the earliest key that repeats one before
 * it in its object. For 29 and 30 it is the start of the arguments, 0 where they are absent. For every other number, 0
 * included, it is 0, and for all that a stream hands out.
 */
#ifndef WINDOSPRIO_H
#define WINDOSPRIO_H

#include <stdbool.h>
#include <stddef.h>
#include <stdint.h>

#ifdef __cplusplus
extern "C" {
#endif

/* The most bytes of a schema and of a message, and the most rows of a table. */
#define WINDOSPRIO_SCHEMA_BYTES 32768
#define WINDOSPRIO_MESSAGE_BYTES 16384
#define WINDOSPRIO_ROWS 1024

/* Words of a row and of a record. */
#define WINDOSPRIO_ROW_WORDS 8
#define WINDOSPRIO_RECORD_WORDS 4

/* Words of a stream's state, of 64 bits. */
#define WINDOSPRIO_STREAM_WORDS 3

/* Bytes of stack that suffice for a call. */
#define WINDOSPRIO_COMPILE_STACK 1572864
#define WINDOSPRIO_CHECK_STACK 393216
#define WINDOSPRIO_IS_SOUND_STACK 65536
#define WINDOSPRIO_STREAM_STACK 4096

/* The number of an acceptance. */
#define WINDOSPRIO_ACCEPTED 0

/* Why a schema is refused. */
enum windosprio_schema_refusal {
    WINDOSPRIO_SCHEMA_TOO_LONG = 1,         /* over WINDOSPRIO_SCHEMA_BYTES bytes */
    WINDOSPRIO_SCHEMA_NOT_TEXT = 2,         /* not schema text */
    WINDOSPRIO_SCHEMA_REPEATED_KEY = 3,     /* a key twice in one object */
    WINDOSPRIO_SCHEMA_NOT_DEFINITIONS = 4,  /* a definition of no or two kinds, or a key or value not of its kind */
    WINDOSPRIO_SCHEMA_BAD_NAME = 5,         /* a name that is not well formed */
    WINDOSPRIO_SCHEMA_REPEATED_NAME = 6,    /* two names that are one in C, or a built-in type's */
    WINDOSPRIO_SCHEMA_UNKNOWN_NAME = 7,     /* a name that refers to no definition of a fitting kind */
    WINDOSPRIO_SCHEMA_BAD_CHAIN = 8,        /* a chain of bases with a cycle, over 16 structs, or a member twice */
    WINDOSPRIO_SCHEMA_BAD_UNION = 9,        /* no branch, or a discriminator or branch that doesn't fit */
    WINDOSPRIO_SCHEMA_BAD_ALTERNATE = 10,   /* an alternate without alternatives, or two that can't be told apart */
    WINDOSPRIO_SCHEMA_BAD_RETURN = 11,      /* a return other than a struct, a union or an array of these */
    WINDOSPRIO_SCHEMA_TOO_MANY_ROWS = 12,   /* over WINDOSPRIO_ROWS rows needed */
    WINDOSPRIO_SCHEMA_NO_ROOM = 13          /* fewer whole rows lent than needed */
};

/* Why a message is refused. */
enum windosprio_message_refusal {
    WINDOSPRIO_MESSAGE_UNSOUND_TABLE = 21,   /* the table is not sound; one that the compile call gave always is */
    WINDOSPRIO_MESSAGE_TOO_LONG = 22,        /* over WINDOSPRIO_MESSAGE_BYTES bytes */
    WINDOSPRIO_MESSAGE_NOT_TEXT = 23,        /* not JSON text in UTF-8 */
    WINDOSPRIO_MESSAGE_TOO_DEEP = 24,        /* a bracket opens level 33 */
    WINDOSPRIO_MESSAGE_REPEATED_KEY = 25,    /* a key twice in one object, by meaning */
    WINDOSPRIO_MESSAGE_NOT_ENVELOPE = 26,    /* not a command: other keys, or a value of a wrong kind */
    WINDOSPRIO_MESSAGE_UNKNOWN_COMMAND = 27, /* no command of that name */
    WINDOSPRIO_MESSAGE_NOT_OUT_OF_BAND = 28, /* exec-oob of a command without allow-oob */
    WINDOSPRIO_MESSAGE_NO_READING = 29,      /* the arguments don't fit the command's types */
    WINDOSPRIO_MESSAGE_NO_ROOM = 30          /* fewer whole records lent than needed */
};

/*
 * Compiles a schema into a table.
 *
 *   schema, schema_bytes  the schema, read only
 *   rows, row_words       the words lent for rows, WINDOSPRIO_ROW_WORDS each; WINDOSPRIO_ROWS rows are never too few
 *   row_count             set to the number of rows, 0 where the schema is refused
 *   place                 set to the place of a refusal in the schema
 *
 * Gives 0 or a windosprio_schema_refusal. The table of an accepted schema is the first
 * row_count * WINDOSPRIO_ROW_WORDS words; those after it are 0. Stack: WINDOSPRIO_COMPILE_STACK.
 *
 * Proved of this call, whatever comes: CompileCall in crates/gateway/specs/Calls.antt.
 */
uint32_t windosprio_compile_schema(const uint8_t *schema, size_t schema_bytes, uint32_t *rows, size_t row_words,
                                   size_t *row_count, size_t *place);

/*
 * Reads a message against a table.
 *
 *   table, table_words      the rows that the compile call counted, read only; a row of zeros isn't sound
 *   schema, schema_bytes    the schema that the table is of, read only
 *   message, message_bytes  one message, read only
 *   records, record_words   the words lent for records, WINDOSPRIO_RECORD_WORDS each: start, end, type reference, 1 if
 *                           array. As many records as the message has bytes are never too few
 *   command_row             set to the row of the command, 0 where the message is refused
 *   record_count            set to the number of records, 0 where the message is refused
 *   place                   set to the place of a refusal in the message
 *
 * Gives 0 or a windosprio_message_refusal. The words after the last record are 0. Stack: WINDOSPRIO_CHECK_STACK.
 *
 * Proved of this call, whatever comes: CheckCall in crates/gateway/specs/Calls.antt.
 */
uint32_t windosprio_check_message(const uint32_t *table, size_t table_words, const uint8_t *schema, size_t schema_bytes,
                                  const uint8_t *message, size_t message_bytes, uint32_t *records, size_t record_words,
                                  size_t *command_row, size_t *record_count, size_t *place);

/*
 * Says whether words are a sound table beside schema bytes: the check call answers any other with 21.
 *
 *   schema, schema_bytes  the schema, read only
 *   table, table_words    the words, read only
 *
 * Stack: WINDOSPRIO_IS_SOUND_STACK. Proved of this call, whatever comes: SoundCall in crates/gateway/specs/Calls.antt.
 */
bool windosprio_is_sound(const uint8_t *schema, size_t schema_bytes, const uint32_t *table, size_t table_words);

/*
 * Sets a state to that of a stream of which nothing is read: all its words to 0.
 *
 *   state  WINDOSPRIO_STREAM_WORDS words
 *
 * Stack: WINDOSPRIO_STREAM_STACK.
 */
void windosprio_stream_start(uint64_t *state);

/*
 * Reads a piece of a stream, up to its first message or refusal.
 *
 *   state                 the words of the call before, set to those for the next one. All of them 0 is a stream of
 *                         which nothing is read; any words stand for some state, so none is refused
 *   buffer, buffer_bytes  lent for the message that is being read, and the same from call to call; of more than
 *                         WINDOSPRIO_MESSAGE_BYTES bytes the rest is left alone
 *   piece, piece_bytes    the bytes that came, as many as there are, read only
 *   taken                 set to how many bytes of the piece were read; the rest is for the next call
 *   message_bytes         set to the bytes of a whole message, which is then at the start of the buffer; 0 if there is
 *                         none
 *   place                 set to 0
 *
 * Gives 0 or a windosprio_message_refusal:
 *   - 0, and message_bytes above 0: a whole message, from the bracket that opens it to the one that closes it. In a
 *     stream from its start it is JSON text within the limits: the check call never answers TOO_LONG, NOT_TEXT or
 *     TOO_DEEP for it.
 *   - 0, and message_bytes 0: the piece is over, and more bytes are wanted. All of it is taken.
 *   - TOO_LONG, NOT_TEXT or TOO_DEEP: a message is lost, or a byte between messages that is neither a blank nor an
 *     opening bracket. All is skipped up to and with the next clearing byte, which may be the one that it was lost at.
 * A clearing byte is 0xFF or a byte below 0x20 other than tab, CR and LF. Wherever it comes, it drops what was begun
 * and the stream starts afresh: with NOT_TEXT if a message had begun, else with nothing. A message's byte after the
 * limit, which is the smaller of WINDOSPRIO_MESSAGE_BYTES and buffer_bytes, is TOO_LONG whatever it is, unless it
 * clears.
 *
 * Call it in a loop: while a message or a refusal comes, hand in the rest of the piece. How the bytes are cut into
 * pieces makes no difference. Bytes of the message that is being read are at the start of the buffer, each at its
 * index; nothing else in the buffer is changed. Stack: WINDOSPRIO_STREAM_STACK.
 *
 * Proved of this call, whatever comes: FeedCall in crates/gateway/specs/Calls.antt; of calls one after another,
 * wherever the bytes are cut: StreamRun and SameRun in crates/gateway/specs/StreamRuns.antt.
 */
uint32_t windosprio_stream_feed(uint64_t *state, uint8_t *buffer, size_t buffer_bytes, const uint8_t *piece,
                                size_t piece_bytes, size_t *taken, size_t *message_bytes, size_t *place);

#ifdef __cplusplus
}
#endif

#endif
