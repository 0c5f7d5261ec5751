//! The judge of tables: any words over any bytes.

mod edges;

use generate::schemas::{self, Schema};
use generate::shrink::{smallest, smallest_table};
use generate::tables::{self, TableCase};
use generate::Random;
use harness::{ensure, for_each_round, Check, Options, Tally};
use reference::table::is_sound;
use windosprio::calls;

use crate::lent::{PlacedTable, PlacedText};

const DEFAULT_ROUNDS: u64 = 12_000;
/// Tables made from one schema.
const TABLES: usize = 25;
/// Rounds from one schema of about 1,000 rows to the next.
const ROUNDS_A_LARGE_ONE: u64 = 100;
/// Small schemas of which every word of the table is changed.
const CHANGED_WHOLLY: u64 = 12;

pub fn run(options: &Options, tally: &mut Tally) -> Check {
    tally.must_reach("tables", ["sound", "unsound"]);
    tally.must_reach("one word changed", ["sound", "unsound"]);
    edges::compare(tally).map_err(|reason| format!("{reason}\nin a fixed table"))?;
    for_each_round(options.rounds_or(DEFAULT_ROUNDS), |random, round| {
        let large = round % ROUNDS_A_LARGE_ONE == ROUNDS_A_LARGE_ONE - 1;
        let schema = if large { schemas::large(random) } else { schemas::valid(random) };
        if round < CHANGED_WHOLLY {
            compare_every_word(random, tally)?;
        }
        (0..TABLES).try_for_each(|_| compare_any(random, &schema, tally))
    })
}

fn compare_any(random: &mut Random, schema: &Schema, tally: &mut Tally) -> Check {
    let TableCase { words, schema, sound } = tables::any(random, schema);
    compare_table(&words, &schema, sound, random.word(), tally)
}

/// Every single word of a small table changed in every way.
fn compare_every_word(random: &mut Random, tally: &mut Tally) -> Check {
    let Schema { bytes, words, .. } = schemas::small(random);
    for table in tables::every_word_changed(&words) {
        let sound = judge(&table, &bytes, random.word()).map_err(|reason| report(&table, &bytes, reason))?;
        tally.add("one word changed", outcome(sound));
        tally.pass();
    }
    Ok(())
}

/// Compares a table that is sound or not, where that is known from how it was made.
fn compare_table(table: &[u32], schema: &[u8], made: Option<bool>, seed: u64, tally: &mut Tally) -> Check {
    let sound = judge(table, schema, seed).map_err(|reason| report(table, schema, reason))?;
    ensure(made.is_none_or(|made| made == sound), || format!("both say {sound}: {}", shown(table, schema)))?;
    tally.add("tables", outcome(sound));
    tally.pass();
    Ok(())
}

/// What both say.
fn judge(table: &[u32], schema: &[u8], seed: u64) -> Result<bool, String> {
    let mut random = Random::new(seed);
    let (text, words) = (PlacedText::new(&mut random, schema), PlacedTable::new(&mut random, table));
    let said = calls::is_sound(text.bytes(), words.words());
    let expected = is_sound(table, schema);
    ensure(said == expected, || format!("sound: product {said}, reference {expected}"))?;
    Ok(said)
}

/// The reason, with the smallest table and schema that the two judge differently.
fn report(table: &[u32], schema: &[u8], reason: String) -> String {
    let differs = |table: &[u32], schema: &[u8]| judge(table, schema, 1).is_err();
    let table = smallest_table(table, |part| differs(part, schema));
    let schema = smallest(schema, |part| differs(&table, part));
    let reason = judge(&table, &schema, 1).err().unwrap_or(reason);
    format!("{reason}\nsmallest table, {}", shown(&table, &schema))
}

fn outcome(sound: bool) -> &'static str {
    match sound {
        true => "sound",
        false => "unsound",
    }
}

fn shown(table: &[u32], schema: &[u8]) -> String {
    let rows: Vec<_> = table.chunks(8).map(|row| format!("{row:?}")).collect();
    format!("{} words: {}\nbeside {} bytes: {}", table.len(), rows.join(" "), schema.len(), schema.escape_ascii())
}
