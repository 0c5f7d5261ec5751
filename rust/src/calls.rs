//! The calls as the library exports them: over slices that the caller lends, with the numbers of docs/REFERENCE.md.
//!
//! Any bytes and any words may be handed over. A call sets every word of rows and records lent to it. A refusal leaves
//! them all zero, an acceptance those after the last row or record. A place is where a refused text goes wrong, in bytes
//! from its start (docs/REFERENCE.md, Places); it is 0 for an acceptance and for a refusal that points nowhere. No call
//! keeps anything, so calls may run on several threads at once. How much stack they need is in
//! [`limits`](crate::limits).

use crate::limits::STREAM_WORDS;

mod exports {
    extern "C" {
        pub fn windosprio_compile_schema(
            schema: *const u8,
            schema_bytes: usize,
            rows: *mut u32,
            row_words: usize,
            row_count: *mut usize,
            place: *mut usize,
        ) -> u32;

        pub fn windosprio_check_message(
            table: *const u32,
            table_words: usize,
            schema: *const u8,
            schema_bytes: usize,
            message: *const u8,
            message_bytes: usize,
            records: *mut u32,
            record_words: usize,
            command_row: *mut usize,
            record_count: *mut usize,
            place: *mut usize,
        ) -> u32;

        pub fn windosprio_is_sound(
            schema: *const u8,
            schema_bytes: usize,
            table: *const u32,
            table_words: usize,
        ) -> bool;

        pub fn windosprio_stream_start(state: *mut u64);

        pub fn windosprio_stream_feed(
            state: *mut u64,
            buffer: *mut u8,
            buffer_bytes: usize,
            piece: *const u8,
            piece_bytes: usize,
            taken: *mut usize,
            message_bytes: *mut usize,
            place: *mut usize,
        ) -> u32;
    }
}

/// What a count or a place holds before a call sets it; no answer has it.
const UNSET: usize = usize::MAX;

/// Compiles a schema into the rows lent, [`ROW_WORDS`](crate::limits::ROW_WORDS) words each; gives the number, 0 or 1
/// to 13, the count of rows and the place of a refusal.
pub fn compile(schema: &[u8], rows: &mut [u32]) -> (u32, usize, usize) {
    let (mut count, mut place) = (UNSET, UNSET);
    // SAFETY: each pointer goes with the length of its slice, which lives and isn't used otherwise during the call.
    let number = unsafe {
        exports::windosprio_compile_schema(
            schema.as_ptr(),
            schema.len(),
            rows.as_mut_ptr(),
            rows.len(),
            &mut count,
            &mut place,
        )
    };
    (number, count, place)
}

/// Checks a message with a table and the schema it is of, into the records lent,
/// [`RECORD_WORDS`](crate::limits::RECORD_WORDS) words each; gives the number, 0 or 21 to 30, the command's row, the
/// count of records and the place of a refusal.
///
/// The table is the rows that [`compile`] counted, not the whole room lent to it: a row of zeros isn't sound.
pub fn check(table: &[u32], schema: &[u8], message: &[u8], records: &mut [u32]) -> (u32, usize, usize, usize) {
    let (mut row, mut count, mut place) = (UNSET, UNSET, UNSET);
    // SAFETY: each pointer goes with the length of its slice, which lives and isn't used otherwise during the call.
    let number = unsafe {
        exports::windosprio_check_message(
            table.as_ptr(),
            table.len(),
            schema.as_ptr(),
            schema.len(),
            message.as_ptr(),
            message.len(),
            records.as_mut_ptr(),
            records.len(),
            &mut row,
            &mut count,
            &mut place,
        )
    };
    (number, row, count, place)
}

/// Whether words are a sound table beside schema bytes; [`check`] refuses any other with 21.
pub fn is_sound(schema: &[u8], table: &[u32]) -> bool {
    // SAFETY: each pointer goes with the length of its slice, which lives during the call.
    unsafe { exports::windosprio_is_sound(schema.as_ptr(), schema.len(), table.as_ptr(), table.len()) }
}

/// The state of a stream between calls. Any words stand for some state; all of them 0 for one of which nothing is read.
pub type StreamState = [u64; STREAM_WORDS];

/// What a call of [`stream_feed`] gives.
#[derive(Clone, Copy, Debug, PartialEq, Eq)]
pub struct Fed {
    /// 0, or 22, 23 or 24.
    pub number: u32,
    /// How many bytes of the piece were read.
    pub taken: usize,
    /// The bytes of a whole message, which is then at the start of the buffer; 0 if there is none.
    pub message_bytes: usize,
    /// Always 0.
    pub place: usize,
}

/// The state of a stream of which nothing is read.
pub fn stream_start() -> StreamState {
    let mut state = [u64::MAX; STREAM_WORDS];
    // SAFETY: the pointer is to as many words as the call sets.
    unsafe { exports::windosprio_stream_start(state.as_mut_ptr()) };
    state
}

/// Reads a piece of a stream up to its first message or refusal. The buffer is lent for the message that is being read,
/// the same from call to call; of more than [`MESSAGE_BYTES`](crate::limits::MESSAGE_BYTES) bytes the rest is left
/// alone.
pub fn stream_feed(state: &mut StreamState, buffer: &mut [u8], piece: &[u8]) -> Fed {
    let mut fed = Fed { number: 0, taken: UNSET, message_bytes: UNSET, place: UNSET };
    // SAFETY: each pointer goes with the length of its slice, which lives and isn't used otherwise during the call;
    // that of the state is to as many words as the call reads and sets.
    fed.number = unsafe {
        exports::windosprio_stream_feed(
            state.as_mut_ptr(),
            buffer.as_mut_ptr(),
            buffer.len(),
            piece.as_ptr(),
            piece.len(),
            &mut fed.taken,
            &mut fed.message_bytes,
            &mut fed.place,
        )
    };
    fed
}
