//! What the program prints of a case, or what its stream gives, over the product's calls: the only use of its library
//! here.

use numbers::Case;
use windosprio::calls::{check, compile};
use windosprio::limits::{MESSAGE_BYTES, RECORD_WORDS, ROWS, ROW_WORDS};
use windosprio::StreamReader;

/// What the program lends for records.
const RECORDS: usize = 4_096;

/// The line of a case's answer. A schema that is refused beside a message has its own line.
pub fn answer(case: &Case) -> String {
    if let Some(stream) = &case.stream {
        return given(stream, case.message_bytes.unwrap_or(MESSAGE_BYTES));
    }
    let mut rows = vec![0; case.row_words.unwrap_or(ROWS * ROW_WORDS)];
    let (number, count, place) = compile(&case.schema, &mut rows);
    let Some(message) = case.message.as_deref().filter(|_| number == 0) else {
        return format!("{number} {count} {place}");
    };
    let table = case.table.as_deref().unwrap_or(&rows[..count * ROW_WORDS]);
    let mut records = vec![0; case.record_words.unwrap_or(RECORDS * RECORD_WORDS)];
    let (number, row, count, place) = check(table, &case.schema, message, &mut records);
    let words: String = records[..count * RECORD_WORDS].iter().map(|word| format!(" {word}")).collect();
    format!("{number} {row} {count} {place}{words}")
}

/// The numbers that a stream gives, 0 for a message.
fn given(stream: &[u8], message_bytes: usize) -> String {
    let mut reader = StreamReader::with_room(message_bytes);
    let mut chunk = reader.push(stream);
    let mut numbers = Vec::new();
    while let Some(item) = chunk.next() {
        numbers.push(item.map_or_else(|refusal| refusal.number(), |_| 0).to_string());
    }
    numbers.join(" ")
}
