//! P1 to P12 of docs/REFERENCE.md, Cases, through the calls: every number and every word lent.

use windosprio::calls::{check, compile, is_sound};

const STOP_LOT: &str = "{'command':'stop-lot','data':{'lot':'str'}}";
const STOP_LOT_ROWS: &[[u32; 8]] = &[[9, 12, 8, 2, 0, 0, 0, 0], [3, 0, 0, 1, 0, 0, 0, 0], [4, 31, 3, 1, 0, 0, 0, 0]];
const TAKES_INT8: &str = "{'command':'c','data':{'a':'int8'}}";
const TAKES_UINT64: &str = "{'command':'c','data':{'a':'uint64'}}";

/// A schema; what is expected of it. None of those refused has a place.
const SCHEMAS: &[(&str, &str, Expected<8>)] = &[
    ("P1", STOP_LOT, Ok(STOP_LOT_ROWS)),
    ("P11", "{'alternate':'a','data':{'i':'int','n':'number'}}", Err((10, 0))),
    (
        "P11",
        "{'alternate':'a','data':{'t':'s','u':'str'}}{'struct':'s','data':{}}",
        Ok(&[
            [7, 14, 1, 2, 0, 0, 0, 0],
            [8, 26, 1, 19, 0, 0, 0, 0],
            [8, 34, 1, 1, 0, 0, 0, 0],
            [3, 55, 1, 0, 0, 0, 0, 0],
        ]),
    ),
    ("P12", "{'struct':'s','base':'s','data':{}}", Err((8, 0))),
];

/// A schema, a message for it and the words lent; what is expected of the message. Every command is row 0.
const MESSAGES: &[(&str, &str, &str, usize, Expected<4>)] = &[
    (
        "P1",
        STOP_LOT,
        r#"{"execute":"stop-lot","arguments":{"lot":"007"}}"#,
        4_096 * 4,
        Ok(&[[34, 47, 17, 0], [41, 46, 1, 0]]),
    ),
    ("P2", STOP_LOT, r#"{"execute":"stop-lot","arguments":{"lot":7}}"#, 40, Err((29, 34))),
    ("P3", STOP_LOT, r#"{"execute":"stop-lot","arguments":{"lot":007}}"#, 40, Err((23, 42))),
    ("P4", STOP_LOT, r#"{"execute":"stop-lot"}"#, 40, Err((29, 0))),
    ("P5", STOP_LOT, r#"{"execute":"stop-lot","arguments":{"lot":"007","lot":"007"}}"#, 40, Err((25, 47))),
    ("P6", STOP_LOT, r#"{"exec-oob":"stop-lot","arguments":{"lot":"007"}}"#, 40, Err((28, 0))),
    ("P7", STOP_LOT, "", 40, Err((23, 0))),
    ("P7", STOP_LOT, "5", 40, Err((26, 0))),
    ("P8", STOP_LOT, r#"{"execute":"stop-lot","arguments":{"lot":"007"}}"#, 4, Err((30, 34))),
    ("P9", TAKES_INT8, r#"{"execute":"c","arguments":{"a":-128}}"#, 40, Ok(&[[27, 37, 17, 0], [32, 36, 4, 0]])),
    ("P9", TAKES_INT8, r#"{"execute":"c","arguments":{"a":127}}"#, 40, Ok(&[[27, 36, 17, 0], [32, 35, 4, 0]])),
    ("P9", TAKES_INT8, r#"{"execute":"c","arguments":{"a":-129}}"#, 40, Err((29, 27))),
    ("P9", TAKES_INT8, r#"{"execute":"c","arguments":{"a":128}}"#, 40, Err((29, 27))),
    (
        "P10",
        TAKES_UINT64,
        r#"{"execute":"c","arguments":{"a":18446744073709551615}}"#,
        40,
        Ok(&[[27, 53, 17, 0], [32, 52, 11, 0]]),
    ),
    ("P10", TAKES_UINT64, r#"{"execute":"c","arguments":{"a":18446744073709551616}}"#, 40, Err((29, 27))),
    ("P10", TAKES_UINT64, r#"{"execute":"c","arguments":{"a":-1}}"#, 40, Err((29, 27))),
];

/// The rows or records of what is accepted, or the number and the place of a refusal.
type Expected<const N: usize> = Result<&'static [[u32; N]], (u32, usize)>;

/// Words that hold something before they are lent.
fn lent(count: usize) -> Vec<u32> {
    vec![0xA5A5_A5A5; count]
}

/// The number, the count, the place and every word of so many lent.
fn answer<const N: usize>(expected: Expected<N>, room: usize) -> (u32, usize, usize, Vec<u32>) {
    let ((number, place), parts) = expected.map_or_else(|refused| (refused, &[][..]), |parts| ((0, 0), parts));
    let mut words = parts.as_flattened().to_vec();
    words.resize(room, 0);
    (number, parts.len(), place, words)
}

#[test]
fn each_schema_has_its_answer() {
    for (name, schema, expected) in SCHEMAS {
        for room in [1_024 * 8, 1_024 * 8 + 5, 40] {
            let mut words = lent(room);
            let (number, count, place) = compile(schema.as_bytes(), &mut words);
            assert_eq!((number, count, place, words), answer(*expected, room), "{name}: {schema}");
        }
        if let Ok(rows) = expected {
            assert!(is_sound(schema.as_bytes(), rows.as_flattened()), "{name}: {schema}");
        }
    }
}

#[test]
fn each_message_has_its_answer() {
    for (name, schema, message, room, expected) in MESSAGES {
        let mut rows = lent(1_024 * 8);
        let (number, count, place) = compile(schema.as_bytes(), &mut rows);
        assert_eq!((number, place), (0, 0), "{name}: {schema}");
        let mut words = lent(*room);
        let (number, row, count, place) = check(&rows[..count * 8], schema.as_bytes(), message.as_bytes(), &mut words);
        assert_eq!(row, 0, "{name}: {message}");
        assert_eq!((number, count, place, words), answer(*expected, *room), "{name}: {message}");
    }
}

#[test]
fn p1_has_the_lengths_that_the_cases_say() {
    assert_eq!((STOP_LOT.len(), MESSAGES[0].2.len()), (43, 48));
}
