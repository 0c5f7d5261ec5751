//! What the tests ask of the two calls.

use reference::message::{self, check};
use reference::schema::{self, compile};

pub const SCHEMA_ROOM: usize = 1_024 * 8;
pub const MESSAGE_ROOM: usize = 4_096 * 4;

/// The schema's number; of every refusal, that count and words are 0.
pub fn schema_number(text: &[u8]) -> u32 {
    answer_with_room(text, SCHEMA_ROOM).number
}

pub fn answer_with_room(text: &[u8], room: usize) -> schema::Answer {
    let answer = compile(text, room);
    let used = answer.count as usize * 8;
    assert_eq!(answer.words.len(), room);
    assert!(answer.words[used..].iter().all(|&word| word == 0));
    assert!(answer.number == 0 || answer.count == 0);
    assert!(matches!(answer.number, 2 | 3) || answer.place == 0);
    answer
}

/// The rows of an accepted schema.
pub fn table(text: &[u8]) -> Vec<u32> {
    let mut answer = answer_with_room(text, SCHEMA_ROOM);
    assert_eq!(answer.number, 0, "{}", String::from_utf8_lossy(text));
    answer.words.truncate(answer.count as usize * 8);
    answer.words
}

pub fn message_answer(schema: &str, message: &[u8], room: usize) -> message::Answer {
    let answer = check(&table(schema.as_bytes()), schema.as_bytes(), message, room);
    let used = answer.count as usize * 4;
    assert_eq!(answer.words.len(), room);
    assert!(answer.words[used..].iter().all(|&word| word == 0));
    assert!(answer.number == 0 || answer.count == 0 && answer.row == 0);
    assert!(matches!(answer.number, 23..=25 | 29 | 30) || answer.place == 0);
    answer
}

pub fn message_number(schema: &str, message: impl AsRef<[u8]>) -> u32 {
    message_answer(schema, message.as_ref(), MESSAGE_ROOM).number
}

/// The records of an accepted message.
pub fn records(schema: &str, message: &str) -> Vec<[u32; 4]> {
    let answer = message_answer(schema, message.as_bytes(), MESSAGE_ROOM);
    assert_eq!(answer.number, 0, "{message}");
    let words = &answer.words[..answer.count as usize * 4];
    words.chunks(4).map(|record| record.try_into().unwrap()).collect()
}
