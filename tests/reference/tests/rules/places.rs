//! The places of refusals (docs/REFERENCE.md, Places).

use crate::common::*;

const ANY: &str = "{'command':'c','data':{'a':'any'}}{'command':'d'}";

fn schema_place(text: &[u8]) -> (u32, u32) {
    let answer = answer_with_room(text, SCHEMA_ROOM);
    (answer.number, answer.place)
}

fn message_place(message: impl AsRef<[u8]>) -> (u32, u32) {
    let answer = message_answer(ANY, message.as_ref(), MESSAGE_ROOM);
    (answer.number, answer.place)
}

#[test]
fn text_that_stops_short_has_its_own_length() {
    for text in ["", " ", "{", "[1,", "\"", "\"\\", "\"\\u12", "\"\\ud83d", "-", "1.", "1e", "tru"] {
        assert_eq!(message_place(text), (23, text.len() as u32), "{text}");
    }
    for text in ["{", "{'a", "{'a\\", "{'a':[", "{'a':fals", " #c\n{"] {
        assert_eq!(schema_place(text.as_bytes()), (2, text.len() as u32), "{text}");
    }
}

#[test]
fn a_fault_is_at_the_first_byte_that_no_text_has_there() {
    let cases: &[(&[u8], u32)] = &[
        (b"x", 0),
        (b"007", 1),
        (b"[1,]", 3),
        (b"{\"a\":1,}", 7),
        (b"1 2", 2),
        (b"\"\\udc00\"", 4),
        (b"\"\\ud800x", 7),
        (b"\"\\ud800\\ud800\"", 10),
        (b"\"\xE0\x9F\x80\"", 2),
        (b"\"\xFF\"", 1),
        (b"\"\x1F\"", 1),
        (b"\xEF\xBB\xBF1", 0),
    ];
    for &(text, place) in cases {
        assert_eq!(message_place(text), (23, place), "{}", text.escape_ascii());
    }
    assert_eq!(schema_place(b"{'a':1}"), (2, 5));
    assert_eq!(schema_place(b"{} []"), (2, 3));
    assert_eq!(schema_place(b"{'a':[[[[[[[[]]]]]]]]}"), (2, 12));
}

#[test]
fn one_level_too_many_is_at_its_bracket() {
    assert_eq!(message_place("[".repeat(33)), (24, 32));
    assert_eq!(message_place(format!("{} {{", "[".repeat(32))), (24, 33));
    assert_eq!(message_place(format!("{}1,[", "[".repeat(32))), (24, 34));
    assert_eq!(message_place("[".repeat(32)), (23, 32));
}

#[test]
fn a_repeat_is_at_the_earliest_second_key_of_all_objects() {
    assert_eq!(message_place(r#"{"a":1,"a":{"b":1,"b":2}}"#), (25, 7));
    assert_eq!(message_place(r#"{"a":{"b":1,"b":2},"a":1}"#), (25, 12));
    assert_eq!(message_place(r#"[{"a":1,"b":2,"b":3,"a":4}]"#), (25, 14));
    assert_eq!(message_place(r#"{"a":1,"a":2,"a":3}"#), (25, 7));
    assert_eq!(message_place(r#"[{"a":1},{"a":1, "\u0061":2}]"#), (25, 17));
    assert_eq!(schema_place(b"{'a':'b','a':{'c':'d','c':'d'}}"), (3, 9));
    assert_eq!(schema_place(b"{} # c\n{'a':'b', 'a':'b'}"), (3, 17));
}

#[test]
fn arguments_without_a_reading_have_their_start() {
    assert_eq!(message_place(r#"{"execute":"d", "arguments": {"a":1}}"#), (29, 29));
    assert_eq!(message_place(r#"{"arguments":{},"execute":"c"}"#), (29, 13));
    assert_eq!(message_place(r#"{"execute":"c"}"#), (29, 0));
    let absent = message_answer(ANY, br#"{"execute":"d"}"#, 3);
    assert_eq!((absent.number, absent.place), (30, 0));
}
