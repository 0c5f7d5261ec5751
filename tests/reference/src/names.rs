//! Names: which are good (number 5), which two are one in C (6, 8 and 9), and whether a list repeats one.

use std::collections::{HashMap, HashSet};
use std::hash::{BuildHasherDefault, Hash, Hasher};

/// Names of a set that are compared one by one.
const FEW: usize = 32;

const LONGEST: usize = 63;

/// Letters, digits, `-` and `_`.
static IN_NAMES: [bool; 256] = {
    let mut table = [false; 256];
    let mut byte = 0;
    while byte < 128 {
        table[byte] = (byte as u8).is_ascii_alphanumeric() || byte == b'-' as usize || byte == b'_' as usize;
        byte += 1;
    }
    table
};

/// Whether a name may be defined; `digit_first` where it may begin with a digit.
pub fn is_good(name: &[u8], digit_first: bool) -> bool {
    let Some(&first) = name.first() else {
        return false;
    };
    (first.is_ascii_alphabetic() || digit_first && first.is_ascii_digit())
        && name.len() <= LONGEST
        && name.iter().fold(true, |good, &byte| good & IN_NAMES[byte as usize])
        && !name.starts_with(b"q_")
}

/// Whether two names are the same. Most that have one length differ in their last byte.
pub fn equal(one: &[u8], other: &[u8]) -> bool {
    one.len() == other.len() && one.last() == other.last() && one == other
}

/// A name by its bytes, or another byte string. Hashed by eight bytes at a time.
#[derive(Clone, Copy, Debug, Eq)]
pub struct Exact<'a>(pub &'a [u8]);

impl PartialEq for Exact<'_> {
    fn eq(&self, other: &Self) -> bool {
        equal(self.0, other.0)
    }
}

impl Hash for Exact<'_> {
    fn hash<H: Hasher>(&self, hasher: &mut H) {
        hasher.write(self.0);
    }
}

/// A name as the generator writes it in C, where `-` can't stand in a name and becomes `_`.
#[derive(Clone, Copy, Debug, Eq)]
pub struct InC<'a>(pub &'a [u8]);

fn byte_in_c(byte: u8) -> u8 {
    match byte {
        b'-' => b'_',
        other => other,
    }
}

impl PartialEq for InC<'_> {
    fn eq(&self, other: &Self) -> bool {
        let last = |name: &[u8]| name.last().map(|&byte| byte_in_c(byte));
        let mut bytes = self.0.iter().zip(other.0);
        self.0.len() == other.0.len()
            && last(self.0) == last(other.0)
            && bytes.all(|(&one, &other)| byte_in_c(one) == byte_in_c(other))
    }
}

impl Hash for InC<'_> {
    fn hash<H: Hasher>(&self, hasher: &mut H) {
        let (words, rest) = self.0.as_chunks::<8>();
        words.iter().for_each(|word| hasher.write(&word.map(byte_in_c)));
        rest.iter().for_each(|&byte| hasher.write_u8(byte_in_c(byte)));
    }
}

/// Whether two names become one in C.
pub fn clash(one: &[u8], other: &[u8]) -> bool {
    InC(one) == InC(other)
}

/// Mixes eight bytes at a time.
#[derive(Default)]
pub struct NameHasher {
    state: u64,
}

impl NameHasher {
    fn mix(&mut self, word: u64) {
        self.state = self.state.wrapping_add(word).wrapping_mul(0xF135_7AEA_2E62_A9C5);
    }
}

impl Hasher for NameHasher {
    fn write(&mut self, bytes: &[u8]) {
        let (words, rest) = bytes.as_chunks::<8>();
        words.iter().for_each(|word| self.mix(u64::from_le_bytes(*word)));
        rest.iter().for_each(|byte| self.mix(u64::from(*byte)));
    }

    /// The upper bits are mixed best.
    fn finish(&self) -> u64 {
        self.state.rotate_left(26)
    }
}

type BuildNameHasher = BuildHasherDefault<NameHasher>;

/// Something for each of some names.
pub type NameMap<N, T> = HashMap<N, T, BuildNameHasher>;

/// A set of names, as `Exact` or as `InC`: a few are compared one by one, the others are hashed.
pub struct NameSet<N> {
    few: Vec<N>,
    others: HashSet<N, BuildNameHasher>,
}

impl<N: Copy + Eq + Hash> NameSet<N> {
    /// An empty set with room for about as many names.
    fn with_room(count: usize) -> Self {
        NameSet { few: Vec::with_capacity(count.min(FEW)), others: HashSet::default() }
    }

    pub fn contains(&self, name: N) -> bool {
        self.few.contains(&name) || !self.others.is_empty() && self.others.contains(&name)
    }

    /// Says whether the name is new.
    pub fn insert(&mut self, name: N) -> bool {
        if self.few.contains(&name) {
            return false;
        }
        if self.few.len() == FEW {
            return self.others.insert(name);
        }
        self.few.push(name);
        true
    }
}

impl<N: Copy + Eq + Hash> FromIterator<N> for NameSet<N> {
    fn from_iter<I: IntoIterator<Item = N>>(names: I) -> Self {
        let names = names.into_iter();
        let mut set = NameSet::with_room(names.size_hint().0);
        for name in names {
            set.insert(name);
        }
        set
    }
}

/// Index of the first name that equals one before it.
pub fn first_repeat<N: Copy + Eq + Hash>(mut names: impl Iterator<Item = N>) -> Option<usize> {
    let mut seen = NameSet::with_room(names.size_hint().0);
    names.position(|name| !seen.insert(name))
}

#[cfg(test)]
mod tests {
    use super::*;

    const MEET: [(&str, &str); 8] = [
        ("a-", "a_"),
        ("a-b", "a_b"),
        ("a-b_c", "a_b-c"),
        ("a-b_c", "a_b_c"),
        ("a--b", "a__b"),
        ("a-_", "a_-"),
        ("seven-b", "seven_b"),
        ("eight-bytes_and-more", "eight_bytes-and_more"),
    ];
    const APART: [(&str, &str); 8] = [
        ("a-b", "a-c"),
        ("a-b", "ab"),
        ("a-b", "a-b-"),
        ("a-b", "A-b"),
        ("a-b", "amb"),
        ("a_b", "aOb"),
        ("eight-bytes", "eight_byteS"),
        ("", "_"),
    ];

    #[test]
    fn names_clash_when_equal_after_a_hyphen_becomes_an_underscore() {
        for (one, other) in MEET {
            assert!(
                clash(one.as_bytes(), other.as_bytes()) && clash(other.as_bytes(), one.as_bytes()),
                "{one} {other}"
            );
            assert!(!equal(one.as_bytes(), other.as_bytes()), "{one} {other}");
        }
        for (one, other) in APART {
            assert!(!clash(one.as_bytes(), other.as_bytes()) && clash(one.as_bytes(), one.as_bytes()), "{one} {other}");
        }
    }

    #[test]
    fn few_names_and_many_are_searched_alike() {
        for count in [0, 1, FEW - 1, FEW, FEW + 1, 3 * FEW] {
            let before: Vec<_> = (0..count).map(|i| format!("n{i}")).collect();
            for (one, other) in MEET.into_iter().chain(APART) {
                let names = before.iter().map(String::as_str).chain([one, other]).map(str::as_bytes);
                let meets = MEET.contains(&(one, other)).then_some(count + 1);
                assert_eq!(first_repeat(names.clone().map(InC)), meets, "{one} {other}");
                assert_eq!(first_repeat(names.map(Exact)), None, "{one} {other}");
            }
        }
    }
}
