//! How often each number was given.

use std::collections::BTreeMap;
use std::fmt;

#[derive(Debug, Default)]
pub struct Counts(BTreeMap<u32, usize>);

impl Counts {
    pub fn add(&mut self, number: u32) {
        *self.0.entry(number).or_default() += 1;
    }

    pub fn total(&self) -> usize {
        self.0.values().sum()
    }
}

impl fmt::Display for Counts {
    fn fmt(&self, out: &mut fmt::Formatter) -> fmt::Result {
        let counts: Vec<_> = self.0.iter().map(|(number, count)| format!("{number}={count}")).collect();
        write!(out, "{}", counts.join(" "))
    }
}

#[cfg(test)]
mod tests {
    use super::*;

    #[test]
    fn numbers_are_counted_in_order() {
        let mut counts = Counts::default();
        [4, 0, 4].into_iter().for_each(|number| counts.add(number));
        assert_eq!((counts.to_string().as_str(), counts.total()), ("0=1 4=2", 3));
    }
}
