//! Runs the generators against the reference, checks that its answers agree with how the inputs were made and with each
//! other, and prints how often each number and verdict was reached.
//!
//!     self-test [--cases ROUNDS] [--seed SEED]

#![forbid(unsafe_code)]

mod decompile;
mod messages;
mod places;
mod schemas;
mod tables;
mod texts;

use std::process::ExitCode;

use generate::messages::Messages;
use generate::print::Dialect;
use generate::Random;
use harness::{for_each_round, Check, Options, Report, Rounds, Tally};

const DEFAULT_ROUNDS: u64 = 4_000;

fn main() -> ExitCode {
    let rounds = Options::of_program("self-test", &[]).rounds_or(DEFAULT_ROUNDS);
    let mut tally = Tally::default();
    tally.must_reach("schema numbers", 0..=13);
    tally.must_reach("message numbers", [0].into_iter().chain(21..=30));
    tally.must_reach("tables", ["sound", "unsound"]);
    tally.must_reach("schema text", ["whole", "fault", "deep"]);
    tally.must_reach("message text", ["whole", "fault", "deep"]);
    let checked = check_all(rounds, &mut tally);
    let mut report = Report::new("self-test");
    report.add(checked, &tally);
    report.finish()
}

/// What is fixed, then rounds.
fn check_all(rounds: Rounds, tally: &mut Tally) -> Check {
    texts::check_faults(tally)?;
    schemas::check_limits(tally)?;
    messages::check_limits(tally)?;
    for_each_round(rounds, |random, round| check_round(random, round, tally))
}

/// All sorts of cases once.
fn check_round(random: &mut Random, round: u64, tally: &mut Tally) -> Check {
    for _ in 0..4 {
        texts::check(random, Dialect::Schema, tally)?;
        texts::check(random, Dialect::Message, tally)?;
    }
    schemas::check_aimed(random, round, tally)?;
    schemas::check_mutated(random, tally)?;
    let schema = generate::schemas::valid(random);
    schemas::check_valid(&schema, tally)?;
    tables::check(random, &schema, tally)?;
    messages::check(random, round, &Messages::new(&schema), tally)
}
