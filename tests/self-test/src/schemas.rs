//! Compiling: numbers agree with how schemas were made, rows with their models, answers with other rooms, places with
//! those found anew.

use generate::schemas::{self, Schema, SchemaCase};
use generate::{aims, Random};
use harness::{check_bytes, check_expected, ensure, Check, Tally};
use reference::schema::{compile, Answer};
use reference::table::is_sound;

use crate::places;

/// Words of 1,024 rows.
const WHOLE_ROOM: usize = 1_024 * 8;

pub fn check_limits(tally: &mut Tally) -> Check {
    let cases = schemas::limits().into_iter().chain(schemas::every_fault());
    cases.chain(schemas::every_pair()).chain(schemas::every_mix()).try_for_each(|case| check_case(&case, tally))
}

/// No fault, each single one, each pair, in turn.
pub fn check_aimed(random: &mut Random, round: u64, tally: &mut Tally) -> Check {
    let numbers = aims::in_turn(1..14, round);
    check_case(&schemas::aimed(random, &numbers), tally)
}

pub fn check_mutated(random: &mut Random, tally: &mut Tally) -> Check {
    check_case(&schemas::mutated(random), tally)
}

fn check_case(case: &SchemaCase, tally: &mut Tally) -> Check {
    let answer = compile(&case.bytes, case.room);
    tally.add("schema numbers", answer.number);
    if let Some(number) = case.number {
        check_expected("schema number", &case.bytes, answer.number, number)?;
    }
    check_bytes("schema answer", &case.bytes, |part| check_answer(part, case.room))?;
    tally.pass();
    Ok(())
}

/// A valid schema compiles to the rows of its model.
pub fn check_valid(schema: &Schema, tally: &mut Tally) -> Check {
    let answer = compile(&schema.bytes, schema.words.len());
    tally.add("schema numbers", answer.number);
    check_expected("rows", &schema.bytes, (answer.number, &answer.words), (0, &schema.words))?;
    check_bytes("schema answer", &schema.bytes, |part| check_answer(part, schema.words.len()))?;
    tally.pass();
    Ok(())
}

/// Counts and unused words are 0 where they must be; room alone tells 0 from 13; a table is sound.
fn check_answer(schema: &[u8], room: usize) -> Check {
    let answer = compile(schema, room);
    let most = compile(schema, WHOLE_ROOM);
    check_form(&answer, room)?;
    check_form(&most, WHOLE_ROOM)?;
    let needed = most.count as usize * 8;
    let words = &most.words[..needed];
    let expected = if most.number == 0 && needed > room { (13, 0) } else { (most.number, most.count) };
    ensure((answer.number, answer.count) == expected, || format!("{answer:?} in {room} words"))?;
    places::check_schema(answer.number, answer.place, schema)?;
    ensure(answer.number != 0 || answer.words.starts_with(words), || "other rows".to_string())?;
    ensure(most.number != 0 || is_sound(words, schema), || "not sound".to_string())?;
    check_in_less_room(schema, &most)
}

/// A word fewer than needed is 13.
fn check_in_less_room(schema: &[u8], most: &Answer) -> Check {
    let Some(less) = (most.count as usize * 8).checked_sub(1) else {
        return Ok(());
    };
    let answer = compile(schema, less);
    ensure(answer.number == 13, || format!("{} in {less} words", answer.number))?;
    check_form(&answer, less)
}

fn check_form(answer: &Answer, room: usize) -> Check {
    let used = answer.count as usize * 8;
    let good = answer.number <= 13
        && answer.words.len() == room
        && (answer.number == 0 || used == 0)
        && answer.words[used..].iter().all(|&word| word == 0);
    ensure(good, || format!("{answer:?}"))
}
