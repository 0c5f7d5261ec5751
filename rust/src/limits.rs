//! What the calls take at most, how wide rows and records are, and how much stack a call needs: at least a quarter
//! more than the project's tests measure.

/// The most bytes of a schema; one more is refused with 1.
pub const SCHEMA_BYTES: usize = 32_768;

/// The most bytes of a message; one more is refused with 22.
pub const MESSAGE_BYTES: usize = 16_384;

/// The most rows of a table.
pub const ROWS: usize = 1_024;

/// Words of a row.
pub const ROW_WORDS: usize = 8;

/// Words of a record.
pub const RECORD_WORDS: usize = 4;

/// Words of a stream's state.
pub const STREAM_WORDS: usize = 3;

/// Bytes of stack that suffice for compiling a schema.
pub const COMPILE_STACK: usize = 1_536 * 1_024;

/// Bytes of stack that suffice for checking a message.
pub const CHECK_STACK: usize = 384 * 1_024;

/// Bytes of stack that suffice for judging a table.
pub const IS_SOUND_STACK: usize = 64 * 1_024;

/// Bytes of stack that suffice for reading a piece of a stream.
pub const STREAM_STACK: usize = 4 * 1_024;

/// As many records as an accepted message of so many bytes can have, so that a room for them is never too small.
///
/// It is the number of bytes: a theorem (`crates/rules`, specs/Room `RecordsSuffice`). A value has at most two records,
/// an alternate's and its alternative's, and its text a byte or more and a comma or a closing bracket after it.
///
/// A message over the limit has none: it is refused.
pub const fn most_records(message_bytes: usize) -> usize {
    match message_bytes {
        0..=MESSAGE_BYTES => message_bytes,
        _ => 0,
    }
}
