//! The reader of texts, and what it says of keys, strings and integers: one text compared in every way, fixed and
//! generated texts.

mod edges;
mod integers;
mod reading;
mod strings;

use generate::messages::Messages;
use generate::print::Dialect;
use generate::texts::{self, most_levels, Expected, TextCase};
use generate::{schemas, Random};
use harness::{check_bytes, check_expected, ensure, for_each_round, Check, Options, Rounds, Tally};
use product::text::{first_repeat, Verdict, NODE};
use reference::keys::repeated_key;

use self::reading::Read;
use crate::lent::PlacedText;

/// Texts, one a round.
const DEFAULT_ROUNDS: u64 = 600_000;
/// Rounds from one schema with its messages to the next.
const ROUNDS_A_SCHEMA: u64 = 500;
const MESSAGES: usize = 10;

pub fn run(options: &Options, tally: &mut Tally) -> Check {
    for what in ["schema text", "message text"] {
        tally.must_reach(what, ["whole", "fault", "deep"]);
    }
    for what in ["schema keys", "message keys"] {
        tally.must_reach(what, ["once", "twice"]);
    }
    for what in ["schema string means", "message string means", "ranges"] {
        tally.must_reach(what, ["yes", "no"]);
    }
    tally.must_reach("schema strings same", ["yes", "no"]);
    tally.must_reach("message strings same", ["yes", "yes-respelled", "no"]);
    tally.must_reach("words lent", ["enough", "too few"]);
    edges::compare(tally).map_err(|reason| format!("{reason}\nin a fixed text"))?;
    compare_generated(options.rounds_or(DEFAULT_ROUNDS), tally)
}

/// A schema text and a message text in turn, one a round; now and then a schema with messages for it.
fn compare_generated(rounds: Rounds, tally: &mut Tally) -> Check {
    for_each_round(rounds, |random, round| {
        if round % ROUNDS_A_SCHEMA == 0 {
            compare_schema(random, tally)?;
        }
        let dialect = if round % 2 == 0 { Dialect::Schema } else { Dialect::Message };
        let case = texts::any(random, dialect, most_levels(dialect));
        compare_case(random, dialect, case, tally)
    })
}

/// Texts as the gateway gets them, up to its limits of bytes.
fn compare_schema(random: &mut Random, tally: &mut Tally) -> Check {
    let schema = if random.one_in(20) { schemas::large(random) } else { schemas::valid(random) };
    let unknown = |bytes: Vec<u8>| TextCase { bytes, expected: Expected::Unknown };
    compare_case(random, Dialect::Schema, unknown(schema.bytes.clone()), tally)?;
    let messages = Messages::new(&schema);
    for _ in 0..MESSAGES {
        let message = if random.one_in(2) { messages.valid(random) } else { messages.mutated(random) }.message;
        compare_case(random, Dialect::Message, unknown(message), tally)?;
    }
    Ok(())
}

fn compare_case(random: &mut Random, dialect: Dialect, case: TextCase, tally: &mut Tally) -> Check {
    let read = compare_text(dialect, &case.bytes, random.word(), tally)?;
    if case.expected != Expected::Unknown {
        check_expected("how it was made", &case.bytes, as_expected(&read), case.expected)?;
    }
    tally.pass();
    Ok(())
}

/// Fails with the smallest part of a text that the two don't agree on. `seed` decides what is asked of it.
pub fn compare_text(dialect: Dialect, text: &[u8], seed: u64, tally: &mut Tally) -> Result<Read, String> {
    compare_all(dialect, text, seed, tally).map_err(|reason| {
        let agrees = |part: &[u8]| compare_all(dialect, part, seed, &mut Tally::default()).map(drop);
        let what = text_of(dialect);
        check_bytes(what, text, agrees).err().unwrap_or_else(|| format!("{what}: {reason}"))
    })
}

fn compare_all(dialect: Dialect, text: &[u8], seed: u64, tally: &mut Tally) -> Result<Read, String> {
    let mut random = Random::new(seed);
    let placed = PlacedText::new(&mut random, text);
    let text = placed.bytes();
    let read = reading::compare(&mut random, dialect, text, tally)?;
    tally.add(text_of(dialect), outcome(read.verdict));
    if let Verdict::Whole(count) = read.verdict {
        compare_keys(dialect, text, &read, count, tally)?;
        strings::compare(&mut random, dialect, text, &read.nodes, tally)?;
        integers::compare(&mut random, text, &read.nodes, tally)?;
    }
    Ok(read)
}

fn compare_keys(dialect: Dialect, text: &[u8], read: &Read, count: usize, tally: &mut Tally) -> Check {
    let (schema, what) = match dialect {
        Dialect::Schema => (true, "schema keys"),
        Dialect::Message => (false, "message keys"),
    };
    let found = first_repeat(schema, text, &read.words, count);
    tally.add(what, if found.is_some() { "twice" } else { "once" });
    let expected = repeated_key(text, &read.nodes).map(|place| place as usize);
    ensure(found == expected, || format!("a key again: product at {found:?}, reference at {expected:?}"))
}

fn text_of(dialect: Dialect) -> &'static str {
    match dialect {
        Dialect::Schema => "schema text",
        Dialect::Message => "message text",
    }
}

fn outcome(verdict: Verdict) -> &'static str {
    match verdict {
        Verdict::Whole(_) => "whole",
        Verdict::Fault(_) => "fault",
        Verdict::Deep(_) => "deep",
        Verdict::TooLong => "too long",
    }
}

/// What the product said and wrote, as the generators put it.
fn as_expected(read: &Read) -> Expected {
    match read.verdict {
        Verdict::Whole(count) => Expected::Whole(read.words.as_chunks::<NODE>().0[..count].to_vec()),
        Verdict::Fault(place) => Expected::Fault(place),
        Verdict::Deep(place) => Expected::Deep(place),
        Verdict::TooLong => Expected::Unknown,
    }
}
