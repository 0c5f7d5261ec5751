//! How often each outcome was reached, and how many inputs passed.

use std::collections::BTreeMap;
use std::fmt;

/// An answer's number, or a word.
#[derive(Clone, Copy, Debug, PartialEq, Eq, PartialOrd, Ord)]
pub enum Outcome {
    Number(u32),
    Word(&'static str),
}

impl From<u32> for Outcome {
    fn from(number: u32) -> Self {
        Outcome::Number(number)
    }
}

impl From<&'static str> for Outcome {
    fn from(word: &'static str) -> Self {
        Outcome::Word(word)
    }
}

impl fmt::Display for Outcome {
    fn fmt(&self, out: &mut fmt::Formatter) -> fmt::Result {
        match self {
            Outcome::Number(number) => write!(out, "{number}"),
            Outcome::Word(word) => write!(out, "{word}"),
        }
    }
}

#[derive(Debug, Default)]
pub struct Tally {
    counts: BTreeMap<&'static str, BTreeMap<Outcome, u64>>,
    passed: u64,
}

impl Tally {
    /// Makes it a failure that one of these is never reached.
    pub fn must_reach<T: Into<Outcome>>(&mut self, what: &'static str, outcomes: impl IntoIterator<Item = T>) {
        let counts = self.counts.entry(what).or_default();
        outcomes.into_iter().for_each(|outcome| *counts.entry(outcome.into()).or_default() += 0);
    }

    pub fn add(&mut self, what: &'static str, outcome: impl Into<Outcome>) {
        *self.counts.entry(what).or_default().entry(outcome.into()).or_default() += 1;
    }

    /// An input passed all its checks.
    pub fn pass(&mut self) {
        self.passed += 1;
    }

    pub fn passed(&self) -> u64 {
        self.passed
    }

    pub fn missing(&self) -> impl Iterator<Item = String> + '_ {
        let never = |what: &'static str| {
            move |(outcome, count): (&Outcome, &u64)| (*count == 0).then(|| format!("{what} {outcome}"))
        };
        self.counts.iter().flat_map(move |(what, counts)| counts.iter().filter_map(never(what)))
    }
}

impl fmt::Display for Tally {
    /// A line for each thing counted.
    fn fmt(&self, out: &mut fmt::Formatter) -> fmt::Result {
        for (what, counts) in &self.counts {
            let counts: Vec<_> = counts.iter().map(|(outcome, count)| format!("{outcome}={count}")).collect();
            writeln!(out, "{what}: {}", counts.join(" "))?;
        }
        Ok(())
    }
}

#[cfg(test)]
mod tests {
    use super::*;

    #[test]
    fn what_was_never_reached_is_missing() {
        let mut tally = Tally::default();
        tally.must_reach("numbers", [2, 10]);
        tally.must_reach("texts", ["whole"]);
        tally.add("numbers", 10);
        tally.add("others", "any");
        assert_eq!(tally.missing().collect::<Vec<_>>(), ["numbers 2", "texts whole"]);
        assert_eq!(tally.to_string(), "numbers: 2=0 10=1\nothers: any=1\ntexts: whole=0\n");
    }
}
