//! Product and reference asked the same: number, counts, place and every word lent must agree, and the answer must be
//! the expected one.

use harness::{check_expected, ensure};
use reference::{message, schema, table};
use windosprio::calls;

/// Words that the program lends, and what they hold before.
const SCHEMA_ROOM: usize = 1_024 * ROW;
const MESSAGE_ROOM: usize = 4_096 * 4;
const GARBAGE: u32 = 0xA5A5_A5A5;
/// Words of a row.
const ROW: usize = 8;

/// Gives the number, if number and row count are those expected.
pub fn check_schema(schema: &[u8], expected: (u32, usize)) -> Result<u32, String> {
    let (number, count, _) = compile(schema)?;
    check_expected("number and rows", schema, (number, count), expected)?;
    Ok(number)
}

/// Gives the number, if the schema is accepted and the message's number, command row and record count are those
/// expected.
pub fn check_message(schema: &[u8], message: &[u8], expected: (u32, usize, usize)) -> Result<u32, String> {
    let (number, _, table) = compile(schema)?;
    check_expected("number of the schema beside a message", schema, number, 0)?;
    let answer = check(&table, schema, message)?;
    check_expected("number, command row and records", message, answer, expected)?;
    Ok(answer.0)
}

/// Number, row count and table.
fn compile(text: &[u8]) -> Result<(u32, usize, Vec<u32>), String> {
    let mut words = vec![GARBAGE; SCHEMA_ROOM];
    let (number, count, place) = calls::compile(text, &mut words);
    let answer = schema::compile(text, SCHEMA_ROOM);
    let expected = (answer.number, answer.count as usize, answer.place as usize);
    agree("number, rows and place", (number, count, place), expected)?;
    agree_on_words(&words, &answer.words)?;
    words.truncate(count * ROW);
    if number == 0 {
        agree("soundness", calls::is_sound(text, &words), table::is_sound(&words, text))?;
        ensure(table::is_sound(&words, text), || "the table of an accepted schema isn't sound".to_string())?;
    }
    Ok((number, count, words))
}

/// Number, command row and record count.
fn check(table: &[u32], schema: &[u8], text: &[u8]) -> Result<(u32, usize, usize), String> {
    let mut words = vec![GARBAGE; MESSAGE_ROOM];
    let (number, row, count, place) = calls::check(table, schema, text, &mut words);
    let answer = message::check(table, schema, text, MESSAGE_ROOM);
    let expected = (answer.number, answer.row as usize, answer.count as usize, answer.place as usize);
    agree("number, command row, records and place", (number, row, count, place), expected)?;
    agree_on_words(&words, &answer.words)?;
    Ok((number, row, count))
}

fn agree_on_words(product: &[u32], reference: &[u32]) -> Result<(), String> {
    match product.iter().zip(reference).position(|(product, reference)| product != reference) {
        Some(place) => agree(&format!("word {place}"), product[place], reference[place]),
        None => agree("count of words", product.len(), reference.len()),
    }
}

fn agree<T: PartialEq + std::fmt::Debug>(what: &str, product: T, reference: T) -> Result<(), String> {
    ensure(product == reference, || format!("{what}: product {product:?}, reference {reference:?}"))
}

#[cfg(test)]
mod tests {
    use super::*;

    const SCHEMA: &[u8] = b"{'command':'stop-lot','data':{'lot':'str'}}";
    const MESSAGE: &[u8] = br#"{"execute":"stop-lot","arguments":{"lot":"007"}}"#;

    #[test]
    fn an_answer_other_than_expected_is_noticed() {
        assert_eq!(check_schema(SCHEMA, (0, 3)), Ok(0));
        assert_eq!(check_schema(b"{}", (4, 0)), Ok(4));
        assert!(check_schema(SCHEMA, (0, 2)).is_err() && check_schema(b"{}", (2, 0)).is_err());
        assert_eq!(check_message(SCHEMA, MESSAGE, (0, 0, 2)), Ok(0));
        for expected in [(0, 0, 1), (0, 1, 2), (29, 0, 0)] {
            assert!(check_message(SCHEMA, MESSAGE, expected).is_err());
        }
        assert!(check_message(b"{}", b"", (21, 0, 0)).is_err());
    }

    #[test]
    fn words_that_differ_are_noticed() {
        assert!(agree_on_words(&[1, 2], &[1, 2]).is_ok());
        assert!(agree_on_words(&[1, 2], &[1, 3]).is_err() && agree_on_words(&[1, 2], &[1]).is_err());
    }
}
