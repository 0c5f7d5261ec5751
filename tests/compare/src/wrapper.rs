//! The wrapper for Rust: a schema and a reading with types say what the reference's words say.

use generate::messages::Messages;
use generate::{aims, schemas, Random};
use harness::{check_expected, ensure, for_each_round, Check, Options, Tally};
use reference::message::check;
use reference::rows::{Rows, ALTERNATE, ENUM, FIRST_ROW_REFERENCE, STRUCT, UNION};
use reference::schema::compile;
use windosprio::limits::{RECORD_WORDS, ROWS, ROW_WORDS};
use windosprio::{Definition, Reading, Record, Room, Schema, Type};

const DEFAULT_ROUNDS: u64 = 1_000;
/// Messages of each sort for one schema.
const MESSAGES: u64 = 4;

pub fn run(options: &Options, tally: &mut Tally) -> Check {
    tally.must_reach("schemas", 0..=12);
    tally.must_reach("messages", [0].into_iter().chain(22..=29));
    tally.must_reach("types", ["no data", "built-in", "enum", "struct", "inline struct", "union", "alternate"]);
    let mut room = Room::new();
    for_each_round(options.rounds_or(DEFAULT_ROUNDS), |random, round| {
        compare_schema(&schemas::aimed(random, &aims::in_turn(1..13, round)).bytes, tally)?;
        let source = schemas::valid(random);
        let schema = Schema::compile(&source.bytes[..]).map_err(|refused| refused.to_string())?;
        let messages = Messages::new(&source);
        (round * MESSAGES..(round + 1) * MESSAGES)
            .flat_map(|turn| several(random, &messages, turn))
            .try_for_each(|message| compare_message(&schema, &mut room, &message, tally))
    })
}

fn several(random: &mut Random, messages: &Messages, turn: u64) -> [Vec<u8>; 3] {
    let aimed = messages.aimed(random, &aims::in_turn(22..30, turn));
    [messages.valid(random), messages.mutated(random), aimed].map(|case| case.message)
}

fn compare_schema(bytes: &[u8], tally: &mut Tally) -> Check {
    let mut expected = compile(bytes, ROWS * ROW_WORDS);
    expected.words.truncate(expected.count as usize * ROW_WORDS);
    let (number, place, table) = match Schema::compile(bytes) {
        Ok(schema) => (0, 0, schema.table().to_vec()),
        Err(refused) => (refused.number(), refused.place() as u32, Vec::new()),
    };
    let said = (number, place, table);
    check_expected("number, place and table", bytes, said, (expected.number, expected.place, expected.words))?;
    tally.add("schemas", number);
    tally.pass();
    Ok(())
}

/// In a room of its own, and in one that was used before. The reference has room enough.
fn compare_message(schema: &Schema, room: &mut Room, message: &[u8], tally: &mut Tally) -> Check {
    let mut expected = check(schema.table(), schema.bytes(), message, (message.len() + 1) * RECORD_WORDS);
    expected.words.truncate(expected.count as usize * RECORD_WORDS);
    let alone = schema.check(message);
    check_expected("answer in a room used before", message, &schema.check_in(room, message), &alone)?;
    let (number, row, place, words) = match &alone {
        Ok(reading) => (0, reading.command().row as u32, 0, reading.records().flat_map(words_of).collect()),
        Err(refused) => (refused.number(), 0, refused.place() as u32, Vec::new()),
    };
    let said = (number, row, place, words);
    let expected = (expected.number, expected.row, expected.place, expected.words);
    check_expected("number, row, place and records", message, said, expected)?;
    alone.map_or(Ok(()), |reading| check_types(schema, &reading, tally))?;
    tally.add("messages", number);
    tally.pass();
    Ok(())
}

/// A record without its types.
fn words_of(record: Record) -> [u32; RECORD_WORDS] {
    let reference = match record.value_type {
        Type::NoData => 0,
        Type::BuiltIn(built_in) => built_in.number(),
        Type::Enum(Definition { row, .. })
        | Type::Struct(Definition { row, .. })
        | Type::InlineStruct(row)
        | Type::Union(Definition { row, .. })
        | Type::Alternate(Definition { row, .. }) => FIRST_ROW_REFERENCE + row as u32,
    };
    [record.start as u32, record.end as u32, reference, u32::from(record.array)]
}

/// Types are of the kind of their rows, and have their names; texts are what stands at their place.
fn check_types(schema: &Schema, reading: &Reading, tally: &mut Tally) -> Check {
    let rows = Rows::new(schema.table(), schema.bytes());
    let is = |kind: u32, Definition { row, name }: Definition| {
        rows.kind(row) == kind && rows.name(row) == name.as_bytes() && !rows.is_inline(row)
    };
    for record in reading.records() {
        let (kind, fits) = match record.value_type {
            Type::NoData => ("no data", true),
            Type::BuiltIn(_) => ("built-in", true),
            Type::Enum(definition) => ("enum", is(ENUM, definition)),
            Type::Struct(definition) => ("struct", is(STRUCT, definition)),
            Type::InlineStruct(row) => ("inline struct", rows.is_inline(row)),
            Type::Union(definition) => ("union", is(UNION, definition)),
            Type::Alternate(definition) => ("alternate", is(ALTERNATE, definition)),
        };
        let text = &reading.message()[record.start..record.end];
        ensure(fits && record.text == text, || format!("{record:?} isn't {text}, a value of its type"))?;
        tally.add("types", kind);
    }
    let command = rows.name(reading.command().row);
    check_expected("command", reading.message().as_bytes(), reading.command().name.as_bytes(), command)
}
