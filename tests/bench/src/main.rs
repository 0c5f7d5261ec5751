//! How fast the product is beside ordinary Rust that does the same, measured in one run. One line for each thing done.
//!
//!     bench            # the whole table
//!     bench lookups    # the lines of lookups, which fail the run beyond their bound
//!
//! To add a line: hand `line::measured` the inputs, one closure for the product and one for Rust.

#![forbid(unsafe_code)]

mod calls;
mod framing;
mod inputs;
mod line;
mod lookups;
mod programs;
mod streams;
mod texts;
mod wide;

use std::process::ExitCode;

use generate::Random;
use inputs::Inputs;
use line::Line;

fn main() -> ExitCode {
    let arguments: Vec<_> = std::env::args().skip(1).collect();
    match arguments.iter().map(String::as_str).collect::<Vec<_>>()[..] {
        [] => print_table(),
        ["lookups"] => return lookups::timing_test(),
        _ => {
            eprintln!("usage: bench [lookups]");
            return ExitCode::from(2);
        }
    }
    ExitCode::SUCCESS
}

fn print_table() {
    let mut random = Random::new(1);
    let inputs = Inputs::new(&mut random);
    println!("{}", Line::heading());
    let calls = [texts::lines(&mut random, &inputs), calls::lines(&inputs), wide::lines()].concat();
    let lines = [calls, streams::lines(&inputs), lookups::lines()].concat();
    for line in lines.into_iter().chain(programs::line(&inputs)) {
        println!("{line}");
    }
}
