//! The places of refusals, found anew: the longest start by trying every start of a text, the earliest repeat by one set
//! of all keys with their objects.

use std::collections::HashSet;

use harness::{ensure, Check};
use reference::message::MESSAGE_LEVELS;
use reference::schema::SCHEMA_LEVELS;
use reference::strings::Token;
use reference::text::{children, read, Dialect, Kind, Node, Verdict};

/// The most bytes of a text whose starts are all tried.
const TRIED: usize = 300;

/// The place that a schema's refusal must have, if it is looked for.
fn schema_place(number: u32, schema: &[u8]) -> Option<usize> {
    match number {
        2 => longest_start(Dialect::Schema, schema, SCHEMA_LEVELS),
        3 => earliest_repeat(schema, &nodes_of(Dialect::Schema, schema, SCHEMA_LEVELS)),
        _ => Some(0),
    }
}

fn message_place(number: u32, message: &[u8]) -> Option<usize> {
    match number {
        23 | 24 => longest_start(Dialect::Message, message, MESSAGE_LEVELS),
        25 => earliest_repeat(message, &nodes_of(Dialect::Message, message, MESSAGE_LEVELS)),
        29 | 30 => Some(start_of_arguments(message, &nodes_of(Dialect::Message, message, MESSAGE_LEVELS))),
        _ => Some(0),
    }
}

pub fn check_schema(number: u32, place: u32, schema: &[u8]) -> Check {
    check(place, schema_place(number, schema))
}

pub fn check_message(number: u32, place: u32, message: &[u8]) -> Check {
    check(place, message_place(number, message))
}

fn check(place: u32, expected: Option<usize>) -> Check {
    let right = expected.is_none_or(|expected| expected == place as usize);
    ensure(right, || format!("place {place}, but it is {expected:?}"))
}

fn nodes_of(dialect: Dialect, text: &[u8], levels: usize) -> Vec<Node> {
    match read(dialect, text, levels) {
        Verdict::Whole(nodes) => nodes,
        Verdict::Fault(_) | Verdict::Deep(_) => Vec::new(),
    }
}

/// How many bytes, tried one after another, are still a start of some whole text.
fn longest_start(dialect: Dialect, text: &[u8], levels: usize) -> Option<usize> {
    let is_start = |length: usize| match read(dialect, &text[..length], levels) {
        Verdict::Whole(_) => true,
        Verdict::Fault(place) => place == length,
        Verdict::Deep(_) => false,
    };
    (text.len() <= TRIED).then(|| (1..=text.len()).take_while(|&length| is_start(length)).count())
}

/// Nodes stand in the order of the text, so the first key that its object has already is the earliest.
fn earliest_repeat(text: &[u8], nodes: &[Node]) -> Option<usize> {
    let mut open = Vec::new();
    let mut seen = HashSet::new();
    for (number, node) in nodes.iter().enumerate() {
        open.retain(|&object: &usize| number < nodes[object].next as usize);
        if node.kind == Kind::Object {
            open.push(number);
        }
        let object = open.last().copied();
        if node.kind.is_key() && !seen.insert((object, Token::new(text, *node).meaning())) {
            return Some(node.start as usize);
        }
    }
    None
}

fn start_of_arguments(text: &[u8], nodes: &[Node]) -> usize {
    let is_arguments = |&key: &usize| *Token::new(text, nodes[key]).meaning() == *b"arguments";
    children(nodes, 0).find(is_arguments).map_or(0, |key| nodes[key + 1].start as usize)
}

#[cfg(test)]
mod tests {
    use super::*;

    #[test]
    fn another_place_is_noticed() {
        assert!(check_message(23, 3, b"[1,]").is_ok() && check_message(23, 2, b"[1,]").is_err());
        assert!(check_message(24, 32, &[b'['; 40]).is_ok() && check_message(24, 33, &[b'['; 40]).is_err());
        let repeats = br#"{"a":{"b":1,"b":2},"a":1}"#;
        assert!(check_message(25, 12, repeats).is_ok() && check_message(25, 19, repeats).is_err());
        let arguments = br#"{"execute":"a","arguments":{}}"#;
        assert!(check_message(29, 27, arguments).is_ok() && check_message(29, 29, arguments).is_err());
        assert!(check_message(26, 0, b"5").is_ok() && check_message(26, 1, b"5").is_err());
        assert!(check_schema(3, 8, b"{'a':[],'a':[]}").is_ok() && check_schema(3, 1, b"{'a':[],'a':[]}").is_err());
    }
}
