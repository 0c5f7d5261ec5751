//! The message call: number, command row, count, place and every word lent.

mod edges;
mod lists;

use generate::messages::{MessageCase, Messages};
use generate::shrink::{smallest, smallest_table};
use generate::{aims, schemas, tables, Random};
use harness::{check_expected, ensure, for_each_round, Check, Options, Tally};
use reference::message::{check, Answer};
use reference::table::is_sound;
use windosprio::calls;

use crate::lent::{LentWords, PlacedTable, PlacedText};
use crate::rooms::{Need, KINDS};
use crate::schemas::table_of;

const DEFAULT_ROUNDS: u64 = 12_000;
/// Rounds from one schema of about 1,000 rows to the next.
const ROUNDS_A_LARGE_ONE: u64 = 200;
/// Messages of each sort for one schema.
const MESSAGES: u64 = 4;
/// Words of a record.
const RECORD: usize = 4;

pub fn run(options: &Options, tally: &mut Tally) -> Check {
    tally.must_reach("message numbers", [0].into_iter().chain(21..=30));
    tally.must_reach("records lent", KINDS);
    edges::compare(tally)
        .and_then(|_| lists::compare(tally))
        .map_err(|reason| format!("{reason}\nin a fixed message"))?;
    for_each_round(options.rounds_or(DEFAULT_ROUNDS), |random, round| {
        let large = round % ROUNDS_A_LARGE_ONE == ROUNDS_A_LARGE_ONE - 1;
        let schema = if large { schemas::large(random) } else { schemas::valid(random) };
        let messages = Messages::new(&schema);
        (0..MESSAGES).try_for_each(|number| compare_round(random, &messages, round * MESSAGES + number, tally))
    })
}

/// A message of each sort: accepted, mutated, aimed at what is due and at any one number; now and then accepted by
/// another table.
fn compare_round(random: &mut Random, messages: &Messages, round: u64, tally: &mut Tally) -> Check {
    let schema = &messages.schema().bytes;
    let due = aims::in_turn(21..31, round);
    let one = [random.between(22, 30) as u32];
    let mut cases = vec![messages.valid(random), messages.mutated(random)];
    cases.extend([messages.aimed(random, &due), messages.aimed(random, &one)]);
    if round.is_multiple_of(MESSAGES) {
        let table = damaged_table(random, &cases[0].table, schema);
        cases.push(MessageCase { table, number: None, reading: None, ..cases[0].clone() });
    }
    cases.iter().try_for_each(|case| compare_case(random, schema, case, tally))
}

/// A mutated table, most often one that is still sound.
fn damaged_table(random: &mut Random, table: &[u32], schema: &[u8]) -> Vec<u32> {
    const TRIES: usize = 6;
    let mut mutated = tables::mutated(random, table, schema.len());
    for _ in 1..TRIES {
        if is_sound(&mutated, schema) {
            break;
        }
        mutated = tables::mutated(random, table, schema.len());
    }
    mutated
}

/// A case in its own room, and in another.
fn compare_case(random: &mut Random, schema: &[u8], case: &MessageCase, tally: &mut Tally) -> Check {
    let call = Call { table: &case.table, schema, message: &case.message, room: case.room };
    let answer = compare_call(call, random.word(), tally)?;
    if let Some(number) = case.number {
        check_expected("number as made", call.message, answer.number, number)?;
    }
    if let Some(reading) = &case.reading {
        let records = &answer.words[..answer.count as usize * RECORD];
        check_expected("reading as made", call.message, (answer.row, records), (reading.row, &reading.words))?;
    }
    let room = call.need().any_room(random);
    compare_call(Call { room, ..call }, random.word(), tally)?;
    tally.pass();
    Ok(())
}

/// What both are handed.
#[derive(Clone, Copy)]
struct Call<'a> {
    table: &'a [u32],
    schema: &'a [u8],
    message: &'a [u8],
    room: usize,
}

impl Call<'_> {
    fn by_reference(self, room: usize) -> Answer {
        check(self.table, self.schema, self.message, room)
    }

    /// What the message needs; of a refused one, a record. There is at most a value to two bytes, and a value has at
    /// most two records, its alternate's and its own.
    fn need(self) -> Need {
        let Answer { number, count, .. } = self.by_reference((self.message.len() + 2) * RECORD);
        Need { words: if number == 0 { count as usize * RECORD } else { RECORD }, unit: RECORD }
    }

    /// Gives the answer, if it is the same of both.
    fn compared(self, seed: u64) -> Result<Answer, String> {
        let mut random = Random::new(seed);
        let table = PlacedTable::new(&mut random, self.table);
        let schema = PlacedText::new(&mut random, self.schema);
        let message = PlacedText::new(&mut random, self.message);
        let mut lent = LentWords::with_garbage(&mut random, self.room);
        let got = calls::check(table.words(), schema.bytes(), message.bytes(), lent.items_mut());
        let answer = self.by_reference(self.room);
        let expected = (answer.number, answer.row as usize, answer.count as usize, answer.place as usize);
        ensure(got == expected, || format!("number, row, count and place: product {got:?}, reference {expected:?}"))?;
        lent.check(&answer.words)?;
        Ok(answer)
    }
}

/// Fails with the smallest input that the two answer differently; else gives their answer.
fn compare_call(call: Call, seed: u64, tally: &mut Tally) -> Result<Answer, String> {
    let answer = call.compared(seed).map_err(|reason| report(call, seed, reason))?;
    tally.add("message numbers", answer.number);
    match answer.number {
        0 => tally.add("records lent", Need { words: answer.count as usize * RECORD, unit: RECORD }.kind(call.room)),
        30 => tally.add("records lent", call.need().kind(call.room)),
        _ => {}
    }
    Ok(answer)
}

/// The reason, with the smallest message and schema, or table where that isn't the schema's own.
fn report(call: Call, seed: u64, reason: String) -> String {
    let differs = |call: Call| call.compared(seed).is_err();
    let message = smallest(call.message, |message| differs(Call { message, ..call }));
    let call = Call { message: &message, ..call };
    let (mut table, mut schema) = (call.table.to_vec(), call.schema.to_vec());
    if table_of(&schema) == table {
        schema = smallest(&schema, |schema| differs(Call { table: &table_of(schema), schema, ..call }));
        table = table_of(&schema);
    } else {
        table = smallest_table(&table, |table| differs(Call { table, ..call }));
    }
    let call = Call { table: &table, schema: &schema, ..call };
    let reason = call.compared(seed).err().unwrap_or(reason);
    let rows: Vec<_> = call.table.chunks(8).map(|row| format!("{row:?}")).collect();
    format!(
        "{reason}\nsmallest message, {} bytes: {}\nin {} words, with the schema {}\nand the table {}",
        call.message.len(),
        call.message.escape_ascii(),
        call.room,
        call.schema.escape_ascii(),
        rows.join(" ")
    )
}
