//! P1 to P12 of docs/REFERENCE.md, Cases, and cases at the limits.

use crate::common::*;
use reference::message::{check, check_into};
use reference::schema::{compile, compile_into};
use reference::table::is_sound;

const STOP_LOT: &str = "{'command':'stop-lot','data':{'lot':'str'}}";
const STOP_007: &str = r#"{"execute":"stop-lot","arguments":{"lot":"007"}}"#;

#[test]
fn p1_is_whole() {
    assert_eq!((STOP_LOT.len(), STOP_007.len()), (43, 48));
    let rows = [[9, 12, 8, 2, 0, 0, 0, 0], [3, 0, 0, 1, 0, 0, 0, 0], [4, 31, 3, 1, 0, 0, 0, 0]];
    assert_eq!(table(STOP_LOT.as_bytes()), rows.concat());
    let answer = message_answer(STOP_LOT, STOP_007.as_bytes(), MESSAGE_ROOM);
    assert_eq!((answer.number, answer.row, answer.count, answer.place), (0, 0, 2, 0));
    assert_eq!(records(STOP_LOT, STOP_007), [[34, 47, 17, 0], [41, 46, 1, 0]]);
}

#[test]
fn p2_to_p7_are_refused_with_their_numbers_and_places() {
    let cases = [
        (29, 34, r#"{"execute":"stop-lot","arguments":{"lot":7}}"#),
        (23, 42, r#"{"execute":"stop-lot","arguments":{"lot":007}}"#),
        (29, 0, r#"{"execute":"stop-lot"}"#),
        (25, 47, r#"{"execute":"stop-lot","arguments":{"lot":"007","lot":"007"}}"#),
        (28, 0, r#"{"exec-oob":"stop-lot","arguments":{"lot":"007"}}"#),
        (23, 0, ""),
        (26, 0, "5"),
    ];
    for (number, place, message) in cases {
        let answer = message_answer(STOP_LOT, message.as_bytes(), MESSAGE_ROOM);
        assert_eq!((answer.number, answer.place), (number, place), "{message}");
    }
}

#[test]
fn p8_room_for_one_record_is_too_little() {
    let answer = |room| message_answer(STOP_LOT, STOP_007.as_bytes(), room);
    assert_eq!([0, 1, 4, 7, 8, 9].map(|room| answer(room).number), [30, 30, 30, 30, 0, 0]);
    assert_eq!([4, 8].map(|room| answer(room).place), [34, 0]);
}

#[test]
fn every_lent_word_is_written_whatever_it_held() {
    let mut words = [7; 40];
    for schema in [STOP_LOT, "", "{}", "{'command':'c','returns':'int'}"] {
        words.fill(7);
        let (number, count, place) = compile_into(schema.as_bytes(), &mut words);
        let answer = compile(schema.as_bytes(), words.len());
        assert_eq!((number, count, place), (answer.number, answer.count, answer.place), "{schema}");
        assert_eq!(words[..], answer.words, "{schema}");
    }
    let rows = table(STOP_LOT.as_bytes());
    let cases = [(&rows[..], STOP_007), (&rows[1..], STOP_007), (&rows, "5"), (&rows, r#"{"execute":"stop-lot"}"#)];
    for (rows, message) in cases {
        for room in [7, 8, 11, 40] {
            words.fill(7);
            let got = check_into(rows, STOP_LOT.as_bytes(), message.as_bytes(), &mut words[..room]);
            let answer = check(rows, STOP_LOT.as_bytes(), message.as_bytes(), room);
            assert_eq!(got, (answer.number, answer.row, answer.count, answer.place), "{message}");
            assert_eq!(words[..room], answer.words, "{message}");
        }
    }
}

#[test]
fn p9_and_p10_integers_are_taken_up_to_the_ends_of_their_ranges() {
    let cases = [
        ("int8", "-128", 0),
        ("int8", "127", 0),
        ("int8", "-129", 29),
        ("int8", "128", 29),
        ("uint64", "18446744073709551615", 0),
        ("uint64", "18446744073709551616", 29),
        ("uint64", "-1", 29),
        ("uint64", "18446744073709551623", 29),
        ("size", "18446744073709551615", 0),
        ("int", "9223372036854775807", 0),
        ("int", "9223372036854775808", 29),
        ("int", "1.0", 29),
        ("int", "1e2", 29),
        ("number", "1e999999", 0),
    ];
    for (built_in, value, number) in cases {
        let schema = format!("{{'command':'c','data':{{'a':'{built_in}'}}}}");
        let message = format!("{{\"execute\":\"c\",\"arguments\":{{\"a\":{value}}}}}");
        assert_eq!(message_number(&schema, &message), number, "{value} at {built_in}");
    }
}

#[test]
fn p11_alternatives_are_told_apart_by_json_kind() {
    assert_eq!(schema_number(b"{'alternate':'a','data':{'i':'int','n':'number'}}"), 10);
    assert_eq!(schema_number(b"{'alternate':'a','data':{'t':'s','u':'str'}}{'struct':'s','data':{}}"), 0);
}

#[test]
fn p12_a_struct_is_not_its_own_base() {
    assert_eq!(schema_number(b"{'struct':'s','base':'s','data':{}}"), 8);
}

#[test]
fn levels_32_and_33() {
    let message = |levels: usize| {
        let (open, close) = ("[".repeat(levels - 1), "]".repeat(levels - 1));
        format!("{{\"id\":{open}{close},\"execute\":\"stop-lot\",\"arguments\":{{\"lot\":\"\"}}}}")
    };
    assert_eq!(message_number(STOP_LOT, message(32)), 0);
    assert_eq!(message_number(STOP_LOT, message(33)), 24);
}

#[test]
fn chains_of_16_and_17_structs() {
    let chain = |length: usize| {
        let own = |i: usize| format!("{{'struct':'s{i}','base':'s{}','data':{{}}}}", i + 1);
        let last = format!("{{'struct':'s{length}','data':{{}}}}");
        (1..length).map(own).chain([last]).collect::<String>()
    };
    assert_eq!(schema_number(chain(16).as_bytes()), 0);
    assert_eq!(schema_number(chain(17).as_bytes()), 8);
}

#[test]
fn rows_1024_and_1025() {
    let rows = |count: usize| {
        let values: Vec<_> = (1..count).map(|i| format!("'v{i}'")).collect();
        format!("{{'enum':'e','data':[{}]}}", values.join(","))
    };
    assert_eq!(schema_number(rows(1_024).as_bytes()), 0);
    assert_eq!(schema_number(rows(1_025).as_bytes()), 12);
    assert!(is_sound(&table(rows(1_024).as_bytes()), rows(1_024).as_bytes()));
    assert_eq!(answer_with_room(rows(1_024).as_bytes(), SCHEMA_ROOM - 1).number, 13);
    assert_eq!(answer_with_room(rows(1_025).as_bytes(), 0).number, 12);
}

#[test]
fn bytes_at_and_over_the_limits() {
    let padded = |text: &str, length: usize| format!("{text:length$}").into_bytes();
    assert_eq!(message_number(STOP_LOT, padded(STOP_007, 16_384)), 0);
    assert_eq!(message_number(STOP_LOT, padded(STOP_007, 16_385)), 22);
    assert_eq!(schema_number(&padded(STOP_LOT, 32_768)), 0);
    assert_eq!(schema_number(&padded(STOP_LOT, 32_769)), 1);
}
