//! Compares the product with the independent reference, through its static libraries.
//!
//!     compare [texts] [schemas] [tables] [messages] [streams] [wrapper] [cases]
//!             [--cases ROUNDS] [--seed SEED] [--slow]

#![forbid(unsafe_code)]

mod cases;
mod lent;
mod messages;
mod rooms;
mod schemas;
mod streams;
mod tables;
mod texts;
mod wrapper;

use std::process::ExitCode;
use std::time::Instant;

use harness::{Check, Options, Report, Tally};

/// Runs one part and counts what it reached.
type Run = fn(&Options, &mut Tally) -> Check;

const PARTS: [(&str, Run); 7] = [
    ("texts", texts::run),
    ("schemas", schemas::run),
    ("tables", tables::run),
    ("messages", messages::run),
    ("streams", streams::run),
    ("wrapper", wrapper::run),
    ("cases", cases::run),
];

fn main() -> ExitCode {
    let options = Options::of_program("compare", &PARTS.map(|(name, _)| name));
    let mut report = Report::new("compare");
    for (name, run) in PARTS.iter().filter(|(name, _)| options.parts.contains(name)) {
        let begun = Instant::now();
        let mut tally = Tally::default();
        let checked = run(&options, &mut tally);
        println!("{name}, {} inputs in {:.1} s", tally.passed(), begun.elapsed().as_secs_f64());
        report.add(checked, &tally);
    }
    report.finish()
}
