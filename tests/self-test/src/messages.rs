//! Checking: numbers and records agree with how messages were made, answers with other rooms, places with those found
//! anew.

use generate::messages::{MessageCase, Messages, Reading};
use generate::{aims, Random};
use harness::{check_bytes, check_expected, ensure, Check, Tally};
use reference::message::{check as check_message, Answer};

use crate::places;

/// Words of as many records as any message has: 8,192 values at most, each with an alternate's record at most.
const WHOLE_ROOM: usize = 16_400 * 4;

pub fn check_limits(tally: &mut Tally) -> Check {
    let (schema, cases) = generate::messages::limits();
    cases.iter().try_for_each(|case| check_case(&schema.bytes, case, tally))
}

pub fn check(random: &mut Random, round: u64, messages: &Messages, tally: &mut Tally) -> Check {
    let schema = &messages.schema().bytes;
    for _ in 0..3 {
        check_case(schema, &messages.valid(random), tally)?;
        check_case(schema, &messages.mutated(random), tally)?;
    }
    let numbers = aims::in_turn(21..31, round);
    check_case(schema, &messages.aimed(random, &numbers), tally)?;
    let numbers = [random.between(21, 30) as u32];
    check_case(schema, &messages.aimed(random, &numbers), tally)
}

fn check_case(schema: &[u8], case: &MessageCase, tally: &mut Tally) -> Check {
    let answer = check_message(&case.table, schema, &case.message, case.room);
    tally.add("message numbers", answer.number);
    if let Some(number) = case.number {
        check_expected("message number", &with_schema(case, schema), answer.number, number)?;
    }
    if let Some(Reading { row, words }) = &case.reading {
        let got = (answer.row, &answer.words[..answer.count as usize * 4]);
        check_expected("reading", &with_schema(case, schema), got, (*row, words))?;
    }
    check_bytes("message answer", &case.message, |part| check_answer(case, schema, part))?;
    tally.pass();
    Ok(())
}

/// The message, then the schema, for a report.
fn with_schema(case: &MessageCase, schema: &[u8]) -> Vec<u8> {
    [&case.message, &b"\n\n"[..], schema].concat()
}

/// Words after the records are 0; room alone tells 0 from 30; the records fit the message.
fn check_answer(case: &MessageCase, schema: &[u8], message: &[u8]) -> Check {
    let answer_in = |room| check_message(&case.table, schema, message, room);
    let answer = answer_in(case.room);
    let most = answer_in(WHOLE_ROOM);
    let needed = most.count as usize * 4;
    let words = &most.words[..needed];
    let expected =
        if most.number == 0 && needed > case.room { (30, 0, 0) } else { (most.number, most.row, most.count) };
    check_form(&answer, case.room)?;
    check_form(&most, WHOLE_ROOM)?;
    ensure((answer.number, answer.row, answer.count) == expected, || format!("{answer:?}"))?;
    places::check_message(answer.number, answer.place, message)?;
    ensure(answer.number != 0 || answer.words.starts_with(words), || "other records".to_string())?;
    check_records(&case.table, message, words)?;
    match needed.checked_sub(1) {
        Some(less) => ensure(answer_in(less).number == 30, || format!("accepted in {less} words")),
        None => Ok(()),
    }
}

fn check_form(answer: &Answer, room: usize) -> Check {
    let used = answer.count as usize * 4;
    let good = (answer.number == 0 || (21..=30).contains(&answer.number) && used == 0 && answer.row == 0)
        && answer.words.len() == room
        && answer.words[used..].iter().all(|&word| word == 0);
    ensure(good, || format!("{answer:?}"))
}

/// The first record holds all others, starts never fall, and strings and numbers keep their types apart.
fn check_records(table: &[u32], message: &[u8], words: &[u32]) -> Check {
    let is_enum = |reference: u32| reference >= 16 && table[(reference as usize - 16) * 8] == 1;
    let records: Vec<&[u32]> = words.chunks(4).collect();
    for record in &records {
        let [start, end, reference, array] = **record else {
            return Err("no record of four words".to_string());
        };
        let inside = words[0] <= start && start <= end && end <= words[1] && array <= 1;
        let told_apart = match message.get(start as usize) {
            Some(b'"') => !(2..=12).contains(&reference),
            Some(b'-' | b'0'..=b'9') => reference != 1 && !is_enum(reference),
            _ => true,
        };
        ensure(inside && told_apart, || format!("record {record:?}"))?;
    }
    ensure(records.windows(2).all(|pair| pair[0][0] <= pair[1][0]), || format!("out of order: {records:?}"))
}
