//! The calls, with as many words lent as the program lends. Both set every word lent.

use generate::schemas::Schema;
use reference::message::check_into;
use reference::schema::compile_into;
use reference::table::is_sound;
use windosprio::calls;

use crate::inputs::{self, Inputs};
use crate::line::{measured, Line, Task};

pub const ROWS: usize = 1_024 * 8;
const RECORDS: usize = 4_096 * 4;
/// How often each batch of schemas, and of messages, is run in each way.
const SCHEMA_REPETITIONS: usize = 100;
const MESSAGE_REPETITIONS: usize = 7;

pub fn lines(inputs: &Inputs) -> Vec<Line> {
    let large = ["compile a schema of about 32 KB and 1,000 rows", "judge its table"];
    let alternates = ["compile 200 alternates of an enum of 300 values", "judge their table"];
    [
        schema_lines(large, &inputs.schemas),
        schema_lines(alternates, &[inputs::alternates()]),
        message_lines(&inputs.schemas[0], &inputs.messages),
    ]
    .concat()
}

fn schema_lines([compiled, judged]: [&'static str; 2], schemas: &[Schema]) -> Vec<Line> {
    let (mut rows, mut rust_rows) = (vec![0; ROWS], vec![0; ROWS]);
    let compile = Task {
        what: compiled,
        product: Box::new(|schema: &Schema| {
            let (number, count, _) = calls::compile(&schema.bytes, &mut rows);
            accepted(number, count)
        }),
        rust: Box::new(|schema: &Schema| {
            let (number, count, _) = compile_into(&schema.bytes, &mut rust_rows);
            accepted(number, count as usize)
        }),
    };
    let judge = Task {
        what: judged,
        product: Box::new(|schema: &Schema| usize::from(calls::is_sound(&schema.bytes, &schema.words))),
        rust: Box::new(|schema: &Schema| usize::from(is_sound(&schema.words, &schema.bytes))),
    };
    measured(schemas, |schema| schema.bytes.len(), SCHEMA_REPETITIONS, [compile, judge]).to_vec()
}

fn accepted(number: u32, count: usize) -> usize {
    assert_eq!(number, 0, "only what is accepted is timed");
    count
}

/// The table is judged with each message by both; judging it is timed apart in the same run, and taken off.
fn message_lines(schema: &Schema, messages: &[Vec<u8>]) -> Vec<Line> {
    let Schema { bytes, words, .. } = schema;
    let check = check_task("check a message of 200 to 4,000 bytes", bytes, words);
    let judge = Task {
        what: "- judging its table of about 1,000 rows alone",
        product: Box::new(|_: &Vec<u8>| usize::from(calls::is_sound(bytes, words))),
        rust: Box::new(|_: &Vec<u8>| usize::from(is_sound(words, bytes))),
    };
    let [check, judge] = measured(messages, Vec::len, MESSAGE_REPETITIONS, [check, judge]);
    vec![check, judge, check.without("- the rest, by subtraction", judge)]
}

/// Checks messages against a schema's table.
pub fn check_task<'a>(what: &'static str, schema: &'a [u8], table: &'a [u32]) -> Task<'a, Vec<u8>> {
    let (mut records, mut rust_records) = (vec![0; RECORDS], vec![0; RECORDS]);
    Task {
        what,
        product: Box::new(move |message: &Vec<u8>| {
            let (number, _, count, _) = calls::check(table, schema, message, &mut records);
            accepted(number, count)
        }),
        rust: Box::new(move |message: &Vec<u8>| {
            let (number, _, count, _) = check_into(table, schema, message, &mut rust_records);
            accepted(number, count as usize)
        }),
    }
}
