//! What the product is lent: words and bytes between others that it must leave alone, and texts and tables amid what
//! would change their meaning.

use generate::damage::telling_byte;
use generate::Random;
use harness::{ensure, Check};

/// Items on either side of those lent.
const GUARDS: usize = 16;

/// Words or bytes that the product is lent.
pub trait Item: Copy + PartialEq {
    /// What stands beside those lent.
    const GUARD: Self;
}

impl Item for u32 {
    const GUARD: u32 = 0xA5A5_A5A5;
}

impl Item for u8 {
    const GUARD: u8 = 0xA5;
}

pub struct Lent<T> {
    all: Vec<T>,
}

pub type LentWords = Lent<u32>;
pub type LentBytes = Lent<u8>;

impl<T: Item> Lent<T> {
    /// So many, each holding `item`.
    pub fn new(count: usize, item: T) -> Self {
        let mut all = vec![T::GUARD; count + 2 * GUARDS];
        all[GUARDS..GUARDS + count].fill(item);
        Lent { all }
    }

    pub fn items(&self) -> &[T] {
        &self.all[GUARDS..self.all.len() - GUARDS]
    }

    pub fn items_mut(&mut self) -> &mut [T] {
        let end = self.all.len() - GUARDS;
        &mut self.all[GUARDS..end]
    }

    /// Whether nothing was written beside those lent.
    pub fn is_intact_around(&self) -> bool {
        let (before, rest) = self.all.split_at(GUARDS);
        let after = &rest[rest.len() - GUARDS..];
        before.iter().chain(after).all(|&item| item == T::GUARD)
    }
}

impl LentWords {
    /// So many words, all holding one that isn't 0.
    pub fn with_garbage(random: &mut Random, count: usize) -> Self {
        LentWords::new(count, random.word() as u32 | 1)
    }

    /// Fails where a word isn't the expected one, or one beside those lent was written.
    pub fn check(&self, expected: &[u32]) -> Check {
        let words = self.items();
        let count = words.len();
        let place = words.iter().zip(expected).position(|(word, expected)| word != expected);
        ensure(place.is_none() && count == expected.len(), || {
            let place = place.unwrap_or(0);
            format!("word {place} of {count} lent: got {:?}, expected {:?}", words.get(place), expected.get(place))
        })?;
        ensure(self.is_intact_around(), || format!("words beside the {count} lent were written"))
    }
}

/// A text between bytes that would change its meaning if they were read too.
pub struct PlacedText {
    all: Vec<u8>,
    start: usize,
    length: usize,
}

/// Bytes before and after a text.
const AROUND: usize = 8;

impl PlacedText {
    pub fn new(random: &mut Random, text: &[u8]) -> Self {
        let start = random.below(AROUND);
        let mut all = Vec::with_capacity(start + text.len() + AROUND);
        all.extend((0..start).map(|_| telling_byte(random)));
        all.extend(text);
        all.extend((0..AROUND).map(|_| telling_byte(random)));
        PlacedText { all, start, length: text.len() }
    }

    pub fn bytes(&self) -> &[u8] {
        &self.all[self.start..self.start + self.length]
    }
}

/// A table between words of its own, which would go on with it if they were read too.
pub struct PlacedTable {
    all: Vec<u32>,
    start: usize,
    length: usize,
}

impl PlacedTable {
    pub fn new(random: &mut Random, table: &[u32]) -> Self {
        let start = random.below(AROUND);
        let from = random.below(table.len() + 1);
        let more = || table[from..].iter().chain(table).copied().chain(std::iter::repeat(9));
        let all = more().take(start).chain(table.iter().copied()).chain(more().take(2 * AROUND)).collect();
        PlacedTable { all, start, length: table.len() }
    }

    pub fn words(&self) -> &[u32] {
        &self.all[self.start..self.start + self.length]
    }
}

#[cfg(test)]
mod tests {
    use super::*;

    #[test]
    fn a_word_written_beside_those_lent_is_noticed() {
        let mut lent = LentWords::new(3, 7);
        assert_eq!(lent.items(), [7; 3]);
        lent.items_mut().fill(8);
        assert!(lent.is_intact_around());
        for place in [0, GUARDS - 1, GUARDS + 3, 2 * GUARDS + 2] {
            let mut lent = LentWords::new(3, 7);
            lent.all[place] = 0;
            assert!(!lent.is_intact_around(), "{place}");
        }
    }

    #[test]
    fn a_word_that_is_not_the_expected_one_is_noticed() {
        let mut lent = LentWords::new(3, 7);
        assert!(lent.check(&[7; 3]).is_ok());
        assert!(lent.check(&[7; 2]).is_err() && lent.check(&[7; 4]).is_err());
        for place in 0..3 {
            let mut expected = [7; 3];
            expected[place] = 0;
            assert!(lent.check(&expected).is_err(), "{place}");
        }
        lent.all[GUARDS - 1] = 0;
        assert!(lent.check(&[7; 3]).is_err());
    }

    #[test]
    fn a_placed_text_or_table_is_the_same() {
        let mut random = Random::new(1);
        assert!((0..20).all(|_| PlacedText::new(&mut random, b"[1]").bytes() == b"[1]"));
        assert!((0..20).all(|_| PlacedTable::new(&mut random, &[1, 2, 3]).words() == [1, 2, 3]));
        assert!(PlacedTable::new(&mut random, &[]).words().is_empty());
    }
}
