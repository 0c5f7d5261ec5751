//! Measures how much stack each call uses, over inputs that take it deep, beside what the documents say suffices.

mod inputs;
mod painted;

use windosprio::calls;
use windosprio::limits::{
    CHECK_STACK, COMPILE_STACK, IS_SOUND_STACK, MESSAGE_BYTES, RECORD_WORDS, ROWS, ROW_WORDS, STREAM_STACK,
};

/// A call, the most bytes that it used, and those that suffice by the documents.
struct Use {
    call: &'static str,
    most: usize,
    documented: usize,
}

fn main() {
    for Use { call, most, documented } in uses() {
        println!("{call}: {most} bytes of stack used, {documented} documented");
    }
}

fn uses() -> Vec<Use> {
    vec![
        Use { call: "compile", most: compile(), documented: COMPILE_STACK },
        Use { call: "check", most: check(), documented: CHECK_STACK },
        Use { call: "is_sound", most: is_sound(), documented: IS_SOUND_STACK },
        Use { call: "stream", most: stream(), documented: STREAM_STACK },
    ]
}

/// One thread makes all calls: its stack shows the deepest of them.
fn compile() -> usize {
    let schemas = inputs::schemas();
    let mut rows = vec![0; ROWS * ROW_WORDS];
    painted::bytes_used(|| {
        for schema in &schemas {
            calls::compile(schema, &mut rows);
        }
    })
}

fn check() -> usize {
    let inputs = inputs::messages();
    let mut records = vec![0; MESSAGE_BYTES * RECORD_WORDS];
    painted::bytes_used(|| {
        for input in &inputs {
            for message in &input.messages {
                calls::check(&input.table, &input.schema, message, &mut records);
            }
        }
    })
}

fn is_sound() -> usize {
    let inputs = inputs::messages();
    painted::bytes_used(|| {
        for input in &inputs {
            calls::is_sound(&input.schema, &input.table);
        }
    })
}

/// Every message of a schema as a stream, whole and a byte at a time, with a clearing byte between two.
fn stream() -> usize {
    let inputs = inputs::messages();
    let streams: Vec<_> = inputs.iter().map(|input| input.messages.join(&b"\xFF"[..])).collect();
    let mut buffer = vec![0; MESSAGE_BYTES];
    painted::bytes_used(|| {
        let mut state = calls::stream_start();
        for stream in &streams {
            for piece in [&stream[..]].into_iter().chain(stream.chunks(1)) {
                let mut rest = piece;
                while !rest.is_empty() {
                    rest = &rest[calls::stream_feed(&mut state, &mut buffer, rest).taken..];
                }
            }
        }
    })
}

#[cfg(test)]
mod tests {
    use super::*;

    #[test]
    fn calls_use_less_stack_than_documented_by_a_quarter() {
        for Use { call, most, documented } in uses() {
            assert!(most + most / 4 <= documented, "{call}: {most} bytes of stack used, {documented} documented");
        }
    }
}
