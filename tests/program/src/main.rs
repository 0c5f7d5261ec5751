//! Tries the program as an operator would: files, pipes, terminals, input that is large, broken or cut anywhere. What it
//! prints is held against answers written by hand or, where there are many, against the reference.
//!
//!     program [--slow] [PATH]     PATH of the program; target/bin/windosprio where none is named

#![deny(unsafe_code)]

mod cuts;
mod folder;
mod large;
mod lines;
mod printed;
mod pty;
mod running;
mod schemas;
mod streams;
mod terminal;

use std::path::{Path, PathBuf};
use std::process::ExitCode;
use std::time::Instant;

use harness::{Check, Report, Tally};

/// From this crate's folder.
const PROGRAM: &str = "../../target/bin/windosprio";

/// What would be wrong if it failed, and the check of it for the program at a path.
type Checks = &'static [(&'static str, fn(&Path) -> Check)];

const FAST: [(&str, Checks); 6] = [
    ("schemas", schemas::CHECKS),
    ("lines", lines::CHECKS),
    ("cuts", cuts::CHECKS),
    ("streams", streams::CHECKS),
    ("terminal", terminal::CHECKS),
    ("large input", large::CHECKS),
];
const SLOW: (&str, Checks) = ("a gigabyte", large::SLOW_CHECKS);

fn main() -> ExitCode {
    let (paths, slow): (Vec<_>, Vec<_>) = std::env::args().skip(1).partition(|argument| argument != "--slow");
    let default = || Path::new(env!("CARGO_MANIFEST_DIR")).join(PROGRAM);
    let program = match paths.first().map_or_else(default, PathBuf::from).canonicalize() {
        Ok(program) => program,
        Err(error) => {
            println!("program: no program: {error}; run `./build windosprio` in the project");
            return ExitCode::FAILURE;
        }
    };
    let mut report = Report::new("program");
    FAST.iter().chain((!slow.is_empty()).then_some(&SLOW)).for_each(|part| run_part(part, &program, &mut report));
    report.finish()
}

fn run_part((name, checks): &(&str, Checks), program: &Path, report: &mut Report) {
    let begun = Instant::now();
    for (what, check) in *checks {
        let checked = check(program).map_err(|reason| format!("{what}: {reason}"));
        let mut tally = Tally::default();
        if checked.is_ok() {
            tally.pass();
        }
        report.add(checked, &tally);
    }
    println!("{name}, {} checks in {:.1} s", checks.len(), begun.elapsed().as_secs_f64());
}
