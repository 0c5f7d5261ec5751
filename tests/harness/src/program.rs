//! The course of a test program: parts, each with rounds until something is wrong and its counts, then one line that
//! sums up.

use std::process::ExitCode;

use generate::Random;

use crate::{Check, Rounds, Tally};

/// Runs `check` in each round with random numbers of the round's own, until it fails.
pub fn for_each_round(rounds: Rounds, mut check: impl FnMut(&mut Random, u64) -> Check) -> Check {
    for round in 0..rounds.count {
        let place = format!("in round {round} from seed {}", rounds.seed);
        let guard = PanicGuard { place };
        let mut random = Random::new(rounds.seed.wrapping_mul(1 << 32).wrapping_add(round));
        check(&mut random, round).map_err(|reason| format!("{reason}\n{}", guard.place))?;
    }
    Ok(())
}

/// Says where a panic happened.
struct PanicGuard {
    place: String,
}

impl Drop for PanicGuard {
    fn drop(&mut self) {
        if std::thread::panicking() {
            eprintln!("{}", self.place);
        }
    }
}

/// What a program has run so far: how many inputs passed, how many checks failed, how many inputs can't be had here.
pub struct Report {
    name: &'static str,
    passed: u64,
    failed: usize,
    skipped: usize,
}

impl Report {
    pub fn new(name: &'static str) -> Self {
        Report { name, passed: 0, failed: 0, skipped: 0 }
    }

    /// Prints the counts of a part, and what went wrong in it or was never reached.
    pub fn add(&mut self, checked: Check, tally: &Tally) {
        print!("{tally}");
        let failures: Vec<String> = match checked {
            Ok(()) => tally.missing().map(|outcome| format!("never reached: {outcome}")).collect(),
            Err(reason) => vec![reason],
        };
        failures.iter().for_each(|failure| println!("{failure}"));
        self.passed += tally.passed();
        self.failed += failures.len();
    }

    /// Counts inputs that aren't run because they can't be had here.
    pub fn skip(&mut self, inputs: usize) {
        self.skipped += inputs;
    }

    fn last_line(&self) -> String {
        format!("{}: {} passed, {} failed, {} skipped", self.name, self.passed, self.failed, self.skipped)
    }

    /// Prints the last line.
    pub fn finish(self) -> ExitCode {
        println!("{}", self.last_line());
        match self.failed {
            0 => ExitCode::SUCCESS,
            _ => ExitCode::FAILURE,
        }
    }
}

#[cfg(test)]
mod tests {
    use super::*;

    #[test]
    fn the_last_line_counts_what_passed_failed_and_was_skipped() {
        let mut report = Report::new("eggs");
        let mut tally = Tally::default();
        tally.pass();
        report.add(Ok(()), &tally);
        report.skip(7);
        assert_eq!(report.last_line(), "eggs: 1 passed, 0 failed, 7 skipped");
        report.add(Err("rotten".to_string()), &Tally::default());
        assert_eq!(report.last_line(), "eggs: 1 passed, 1 failed, 7 skipped");
    }
}
