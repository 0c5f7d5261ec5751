//! The compile call: number, count, place and every word lent.

use generate::schemas::{self, Schema, SchemaCase};
use generate::{aims, Random};
use harness::{check_bytes, check_expected, ensure, for_each_round, Check, Options, Tally};
use reference::schema::{compile, Answer};
use windosprio::calls;

use crate::lent::{LentWords, PlacedText};
use crate::rooms::{Need, KINDS};

const DEFAULT_ROUNDS: u64 = 10_000;
/// Rounds from one schema of about 1,000 rows to the next.
const ROUNDS_A_LARGE_ONE: u64 = 100;
/// Words of a row, and of the most rows there may be.
const ROW: usize = 8;
const MOST_WORDS: usize = 1_024 * ROW;

pub fn run(options: &Options, tally: &mut Tally) -> Check {
    tally.must_reach("schema numbers", 0..=13);
    tally.must_reach("rows lent", KINDS);
    compare_fixed(tally).map_err(|reason| format!("{reason}\nin a fixed schema"))?;
    for_each_round(options.rounds_or(DEFAULT_ROUNDS), |random, round| {
        let aimed = schemas::aimed(random, &aims::in_turn(1..14, round));
        compare_case(random, &aimed, tally)?;
        let mutated = schemas::mutated(random);
        compare_case(random, &mutated, tally)?;
        let large = round % ROUNDS_A_LARGE_ONE == ROUNDS_A_LARGE_ONE - 1;
        let valid = if large { schemas::large(random) } else { schemas::valid(random) };
        compare_valid(random, &valid, tally)
    })
}

/// The table that a schema compiles to by the reference; that of a refused one is empty.
pub fn table_of(schema: &[u8]) -> Vec<u32> {
    let mut answer = compile(schema, MOST_WORDS);
    answer.words.truncate(answer.count as usize * ROW);
    answer.words
}

/// Schemas beside the limits, with each fault, with names that meet or nearly do and with alternates of every two
/// types, each in rooms of every kind.
fn compare_fixed(tally: &mut Tally) -> Check {
    let cases = schemas::limits().into_iter().chain(schemas::every_fault());
    for case in cases.chain(schemas::every_pair()).chain(schemas::every_mix()) {
        let answer = compare_schema(&case.bytes, case.room, 1, tally)?;
        check_number(&case, answer.number)?;
        for room in need(&case.bytes).every_room() {
            compare_schema(&case.bytes, room, room as u64, tally)?;
        }
        tally.pass();
    }
    Ok(())
}

/// A case in its own room, and in another.
fn compare_case(random: &mut Random, case: &SchemaCase, tally: &mut Tally) -> Check {
    let answer = compare_schema(&case.bytes, case.room, random.word(), tally)?;
    check_number(case, answer.number)?;
    let room = need(&case.bytes).any_room(random);
    compare_schema(&case.bytes, room, random.word(), tally)?;
    tally.pass();
    Ok(())
}

/// A valid schema compiles to the rows of its model.
fn compare_valid(random: &mut Random, schema: &Schema, tally: &mut Tally) -> Check {
    let rooms = Need { words: schema.words.len(), unit: ROW };
    for room in [rooms.words, rooms.any_room(random), rooms.any_room(random)] {
        let answer = compare_schema(&schema.bytes, room, random.word(), tally)?;
        if rooms.words <= room {
            let rows = &answer.words[..answer.count as usize * ROW];
            check_expected("rows as made", &schema.bytes, (answer.number, rows), (0, &schema.words))?;
        }
    }
    tally.pass();
    Ok(())
}

fn check_number(case: &SchemaCase, number: u32) -> Check {
    match case.number {
        Some(expected) => check_expected("number as made", &case.bytes, number, expected),
        None => Ok(()),
    }
}

/// What the schema needs; of a refused one, a row.
fn need(schema: &[u8]) -> Need {
    let Answer { number, count, .. } = compile(schema, MOST_WORDS);
    Need { words: if number == 0 { count as usize * ROW } else { ROW }, unit: ROW }
}

/// Fails with the smallest part of a schema that the two answer differently; else gives their answer.
fn compare_schema(schema: &[u8], room: usize, seed: u64, tally: &mut Tally) -> Result<Answer, String> {
    let answer = compare_once(schema, room, seed).map_err(|reason| {
        let agrees = |part: &[u8]| compare_once(part, room, seed).map(drop);
        check_bytes("schema", schema, agrees).err().unwrap_or(reason)
    })?;
    tally.add("schema numbers", answer.number);
    match answer.number {
        0 => tally.add("rows lent", Need { words: answer.count as usize * ROW, unit: ROW }.kind(room)),
        13 => tally.add("rows lent", need(schema).kind(room)),
        _ => {}
    }
    Ok(answer)
}

fn compare_once(schema: &[u8], room: usize, seed: u64) -> Result<Answer, String> {
    let mut random = Random::new(seed);
    let placed = PlacedText::new(&mut random, schema);
    let mut lent = LentWords::with_garbage(&mut random, room);
    let got = calls::compile(placed.bytes(), lent.items_mut());
    let answer = compile(schema, room);
    let expected = (answer.number, answer.count as usize, answer.place as usize);
    ensure(got == expected, || {
        format!("number, count and place in {room} words: product {got:?}, reference {expected:?}")
    })?;
    lent.check(&answer.words)?;
    Ok(answer)
}
