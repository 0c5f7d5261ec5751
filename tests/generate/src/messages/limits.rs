//! Messages on either side of each limit, and every built-in type with every JSON kind.

use super::faults::{beside_range, wrong_integers};
use super::{MessageCase, MOST_BYTES, MOST_LEVELS};
use crate::integers::range;
use crate::model::{Definition, Fields, Member, Model, Type, BUILT_INS};
use crate::schemas::{from_model, Schema};

/// A schema, and messages for it with their numbers.
pub fn limits() -> (Schema, Vec<MessageCase>) {
    let schema = from_model(&model());
    let mut cases = Vec::new();
    for (name, built_in) in BUILT_INS.iter().zip(1..) {
        for (kind, value) in ["null", "true", "false", "7", "\"7\"", "[]", "{}"].iter().enumerate() {
            add(&mut cases, &schema, &with_member(name, value), 8, if takes(built_in, kind) { 0 } else { 29 });
        }
    }
    for (name, built_in) in BUILT_INS.iter().zip(1..).filter(|(_, built_in)| (3..=12).contains(built_in)) {
        let (low, high) = range(built_in);
        for value in [low.to_string(), high.to_string(), "0".to_string(), "-0".to_string()] {
            add(&mut cases, &schema, &with_member(name, &value), 8, 0);
        }
        for value in beside_range(built_in).into_iter().chain(wrong_integers(built_in)) {
            add(&mut cases, &schema, &with_member(name, &value), 8, 29);
        }
    }
    add_lengths(&mut cases, &schema);
    add_levels(&mut cases, &schema);
    add_rooms(&mut cases, &schema);
    (schema, cases)
}

/// One command with an optional member of each built-in type, named like it.
fn model() -> Model {
    let member = |name: &&str| Member {
        name: name.to_string(),
        optional: true,
        of: Type { name: name.to_string(), array: false },
    };
    let data = Some(Fields::Inline(BUILT_INS.iter().map(member).collect()));
    let command = Definition::Command { name: "c".to_string(), data, returns: None, allow_oob: None };
    Model { definitions: vec![command] }
}

/// Kinds in the order null, true, false, number, string, array, object.
fn takes(built_in: u32, kind: usize) -> bool {
    match built_in {
        1 => kind == 4,
        2..=12 => kind == 3,
        13 => kind == 1 || kind == 2,
        14 => kind == 0,
        _ => true,
    }
}

fn with_member(name: &str, value: &str) -> String {
    format!("{{\"execute\":\"c\",\"arguments\":{{\"{name}\":{value}}}}}")
}

fn add(cases: &mut Vec<MessageCase>, schema: &Schema, message: &str, room: usize, number: u32) {
    let message = message.as_bytes().to_vec();
    cases.push(MessageCase { table: schema.words.clone(), message, room, number: Some(number), reading: None });
}

fn add_lengths(cases: &mut Vec<MessageCase>, schema: &Schema) {
    let message = with_member("str", "\"\"");
    for (length, number) in [(MOST_BYTES, 0), (MOST_BYTES + 1, 22)] {
        let blanks = " ".repeat(length - message.len());
        add(cases, schema, &format!("{message}{blanks}"), 8, number);
        add(cases, schema, &format!("{blanks}{message}"), 8, number);
    }
}

fn add_levels(cases: &mut Vec<MessageCase>, schema: &Schema) {
    for (open, close) in [("[", "]"), ("{\"\":", "}")] {
        for (levels, number) in [(MOST_LEVELS, 0), (MOST_LEVELS + 1, 24)] {
            let nested = |outside: usize| {
                let brackets = levels - outside;
                format!("{}[]{}", open.repeat(brackets - 1), close.repeat(brackets - 1))
            };
            add(cases, schema, &format!("{{\"execute\":\"c\",\"id\":{}}}", nested(1)), 4, number);
            add(cases, schema, &with_member("any", &nested(2)), 8, number);
        }
    }
}

fn add_rooms(cases: &mut Vec<MessageCase>, schema: &Schema) {
    for room in 0..12 {
        add(cases, schema, &with_member("int", "1"), room, if room < 8 { 30 } else { 0 });
        add(cases, schema, "{\"execute\":\"c\"}", room, if room < 4 { 30 } else { 0 });
    }
}
