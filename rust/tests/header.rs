//! The C header has the limits and the numbers of this crate, and no others.

use std::collections::BTreeMap;

use windosprio::limits::*;
use windosprio::{MessageRefusal, Refusal, SchemaRefusal};

const HEADER: &str = include_str!("../../include/windosprio.h");

/// The constants that the header defines, without their prefix.
fn in_header() -> BTreeMap<String, u32> {
    let names_and_values = HEADER.lines().filter_map(|line| {
        let line = line.trim().trim_start_matches("#define ");
        let (name, rest) = line.strip_prefix("WINDOSPRIO_")?.split_once(' ')?;
        let value = rest.trim_start_matches("= ").split([',', ' ']).next()?;
        Some((name.to_string(), value.parse().ok()?))
    });
    names_and_values.collect()
}

/// The name of a variant as C has it: `TooLong` as `TOO_LONG`.
fn screaming(variant: &str) -> String {
    let letters = variant.char_indices().flat_map(|(place, letter)| {
        let gap = (place > 0 && letter.is_uppercase()).then_some('_');
        gap.into_iter().chain([letter.to_ascii_uppercase()])
    });
    letters.collect()
}

#[test]
fn the_header_has_the_limits_and_the_numbers() {
    let limits = [
        ("SCHEMA_BYTES", SCHEMA_BYTES),
        ("MESSAGE_BYTES", MESSAGE_BYTES),
        ("ROWS", ROWS),
        ("ROW_WORDS", ROW_WORDS),
        ("RECORD_WORDS", RECORD_WORDS),
        ("STREAM_WORDS", STREAM_WORDS),
        ("COMPILE_STACK", COMPILE_STACK),
        ("CHECK_STACK", CHECK_STACK),
        ("IS_SOUND_STACK", IS_SOUND_STACK),
        ("STREAM_STACK", STREAM_STACK),
        ("ACCEPTED", 0),
    ];
    let limits = limits.map(|(name, value)| (name.to_string(), value as u32));
    let schema = SchemaRefusal::ALL.iter().map(|x| (format!("SCHEMA_{}", screaming(&format!("{x:?}"))), x.number()));
    let message = MessageRefusal::ALL.iter().map(|x| (format!("MESSAGE_{}", screaming(&format!("{x:?}"))), x.number()));
    assert_eq!(in_header(), limits.into_iter().chain(schema).chain(message).collect());
}
