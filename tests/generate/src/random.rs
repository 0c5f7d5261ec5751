//! A small seeded generator (splitmix64).

#[derive(Clone, Debug)]
pub struct Random {
    state: u64,
}

impl Random {
    pub fn new(seed: u64) -> Self {
        Random { state: seed }
    }

    pub fn word(&mut self) -> u64 {
        self.state = self.state.wrapping_add(0x9E37_79B9_7F4A_7C15);
        let mut word = self.state;
        word = (word ^ (word >> 30)).wrapping_mul(0xBF58_476D_1CE4_E5B9);
        word = (word ^ (word >> 27)).wrapping_mul(0x94D0_49BB_1331_11EB);
        word ^ (word >> 31)
    }

    /// From 0 up to, not with, `limit`, which is at least 1.
    pub fn below(&mut self, limit: usize) -> usize {
        (self.word() % limit as u64) as usize
    }

    /// From `low` up to and with `high`.
    pub fn between(&mut self, low: usize, high: usize) -> usize {
        low + self.below(high - low + 1)
    }

    /// True once in `count` times.
    pub fn one_in(&mut self, count: usize) -> bool {
        self.below(count) == 0
    }

    /// True `percent` times in 100.
    pub fn percent(&mut self, percent: usize) -> bool {
        self.below(100) < percent
    }

    pub fn byte(&mut self) -> u8 {
        self.word() as u8
    }

    /// One of a list that isn't empty.
    pub fn pick<'a, T>(&mut self, items: &'a [T]) -> &'a T {
        &items[self.below(items.len())]
    }

    pub fn shuffle<T>(&mut self, items: &mut [T]) {
        for last in (1..items.len()).rev() {
            items.swap(last, self.below(last + 1));
        }
    }
}

#[cfg(test)]
mod tests {
    use super::*;
    use crate::messages::Messages;
    use crate::print::Dialect;
    use crate::{schemas, tables, texts};

    /// Everything that one seed gives.
    fn drawn(seed: u64) -> Vec<Vec<u8>> {
        let mut random = Random::new(seed);
        let schema = schemas::valid(&mut random);
        let messages = Messages::new(&schema);
        vec![
            texts::any(&mut random, Dialect::Schema, 8).bytes,
            texts::any(&mut random, Dialect::Message, 32).bytes,
            schemas::aimed(&mut random, &[3, 9]).bytes,
            schemas::mutated(&mut random).bytes,
            tables::any(&mut random, &schema).words.iter().flat_map(|word| word.to_le_bytes()).collect(),
            messages.valid(&mut random).message,
            messages.aimed(&mut random, &[25, 29]).message,
            messages.mutated(&mut random).message,
        ]
    }

    #[test]
    fn one_seed_gives_the_same_each_time() {
        assert!((0..50).all(|seed| drawn(seed) == drawn(seed)));
        assert_ne!(drawn(1), drawn(2));
    }
}
