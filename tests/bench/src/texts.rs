//! Reading text into nodes: the product into lent words, the reference's reader into a vector that it is lent.

use generate::Random;
use product::text::{words_for, Verdict};
use reference::message::MESSAGE_LEVELS;
use reference::schema::SCHEMA_LEVELS;
use reference::text::{read_into, Dialect};

use crate::inputs::Inputs;
use crate::line::{measured, Line, Task};

const MESSAGES: usize = 5_000;
const LONG_TEXTS: usize = 100;
const LONG: usize = 16_384;
const REPETITIONS: usize = 25;

pub fn lines(random: &mut Random, inputs: &Inputs) -> Vec<Line> {
    let messages = &inputs.messages[..MESSAGES];
    let long: Vec<_> = (0..LONG_TEXTS).map(|_| long_text(random, messages)).collect();
    let schemas: Vec<_> = inputs.schemas.iter().map(|schema| schema.bytes.clone()).collect();
    vec![
        reading("read messages of 200 to 4,000 bytes", Dialect::Message, messages),
        reading("read a text of 16,384 bytes", Dialect::Message, &long),
        reading("read a schema of about 32 KB", Dialect::Schema, &schemas),
    ]
}

/// A list of accepted messages, filled up with a few blanks.
fn long_text(random: &mut Random, messages: &[Vec<u8>]) -> Vec<u8> {
    let mut text = b"[0".to_vec();
    let mut misses = 0;
    while misses < 100 {
        let message = random.pick(messages);
        let longer = [&text, &b","[..], message].concat();
        if longer.len() < LONG && is_whole(&[&longer, &b"]"[..]].concat()) {
            text = longer;
        } else {
            misses += 1;
        }
    }
    text.push(b']');
    text.resize(LONG, b' ');
    text
}

fn is_whole(text: &[u8]) -> bool {
    read_into(Dialect::Message, text, MESSAGE_LEVELS, &mut Vec::new()).is_ok()
}

/// Both give the number of nodes.
fn reading(what: &'static str, dialect: Dialect, inputs: &[Vec<u8>]) -> Line {
    let (schema, levels) = match dialect {
        Dialect::Schema => (true, SCHEMA_LEVELS),
        Dialect::Message => (false, MESSAGE_LEVELS),
    };
    let longest = inputs.iter().map(Vec::len).max().unwrap_or(0);
    let mut words = vec![0; words_for(longest)];
    let mut nodes = Vec::new();
    let product = |text: &Vec<u8>| match product::text::read(schema, text, &mut words) {
        Verdict::Whole(count) => count,
        other => panic!("{other:?}"),
    };
    let rust = |text: &Vec<u8>| match read_into(dialect, text, levels, &mut nodes) {
        Ok(()) => nodes.len(),
        Err(refused) => panic!("{refused:?}"),
    };
    let [line] =
        measured(inputs, Vec::len, REPETITIONS, [Task { what, product: Box::new(product), rust: Box::new(rust) }]);
    line
}
