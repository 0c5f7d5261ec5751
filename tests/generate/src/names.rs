//! Good names; names that meet in C, where `-` becomes `_`; and names beside those that don't.

use std::collections::HashSet;

use crate::model::BUILT_INS;
use crate::Random;

/// The bytes that are one in C.
const MEETING: [char; 2] = ['-', '_'];

const LONGEST: usize = 63;

const STEMS: [&str; 12] = ["lot", "stop", "Line", "batch", "valve", "mode", "Tank", "pump", "a", "q", "has", "List"];

/// Enum values that a number or a bool could be meant by, and values beside them.
pub const TELLING_VALUES: [&str; 14] =
    ["on", "off", "On", "OFF", "on1", "o", "of", "offs", "0", "0a", "a0", "9", "9-", "o0"];

/// The name that C has for it.
fn in_c(name: &str) -> String {
    name.replace('-', "_")
}

/// Names of one list, of which no two meet in C.
#[derive(Clone, Debug, Default)]
pub struct Taken {
    in_c: HashSet<String>,
}

impl Taken {
    pub fn of<'a>(names: impl IntoIterator<Item = &'a str>) -> Self {
        Taken { in_c: names.into_iter().map(in_c).collect() }
    }

    /// Whether one of them meets the name.
    pub fn contains(&self, name: &str) -> bool {
        self.in_c.contains(&in_c(name))
    }

    /// Says whether none of them met the name.
    pub fn insert(&mut self, name: &str) -> bool {
        self.in_c.insert(in_c(name))
    }

    /// Good names that meet none of these and not each other, as many or a few less; some a byte away from another.
    pub fn take(&mut self, random: &mut Random, count: usize, digit_first: bool) -> Vec<String> {
        let mut names: Vec<String> = Vec::new();
        for _ in 0..count {
            let name = if !names.is_empty() && random.one_in(8) {
                let known = random.pick(&names).clone();
                beside(random, &known)
            } else {
                good_name(random, digit_first)
            };
            if self.insert(&name) {
                names.push(name);
            }
        }
        random.shuffle(&mut names);
        names
    }
}

/// Names of definitions that meet none given before; nor are a few given that faults refer to as missing.
#[derive(Clone, Debug, Default)]
pub struct Names {
    used: Taken,
}

impl Names {
    pub fn new() -> Self {
        let missing = ["QType", "Int"];
        Names { used: Taken::of(BUILT_INS.into_iter().chain(missing)) }
    }

    /// Keeps a name, and those that it meets, from being given.
    pub fn avoid(&mut self, name: &str) {
        self.used.insert(name);
    }

    pub fn fresh(&mut self, random: &mut Random) -> String {
        loop {
            let name = good_name(random, false);
            if self.used.insert(&name) {
                return name;
            }
        }
    }

    /// Two names that meet each other and none given before.
    pub fn fresh_pair(&mut self, random: &mut Random) -> (String, String) {
        loop {
            let (one, other) = meeting_pair(random);
            if self.used.insert(&one) {
                return (one, other);
            }
        }
    }
}

/// A good name; an enum value's may start with a digit.
pub fn good_name(random: &mut Random, digit_first: bool) -> String {
    let name = match random.below(12) {
        0 => random_name(random, 1, digit_first),
        1 => random_name(random, LONGEST, digit_first),
        2..=4 => {
            let length = random.between(2, 9);
            random_name(random, length, digit_first)
        }
        _ => format!("{}{}{}", random.pick(&STEMS), random.pick(&["", "-", "_"]), random.below(90)),
    };
    match name.starts_with("q_") {
        true => good_name(random, digit_first),
        false => name,
    }
}

fn random_name(random: &mut Random, length: usize, digit_first: bool) -> String {
    const LETTERS: &[u8] = b"abcdefghijklmnopqrstuvwxyzABCDEFGHIJKLMNOPQRSTUVWXYZ0123456789-_";
    let first = if digit_first { 62 } else { 52 };
    let letter = |place| char::from(*random.pick(&LETTERS[..if place == 0 { first } else { LETTERS.len() }]));
    (0..length).map(letter).collect()
}

/// Another good name that meets this one, at one place or more; none where it has neither byte.
pub fn met(random: &mut Random, name: &str) -> Option<String> {
    let places: Vec<_> = name.match_indices(MEETING).map(|(place, _)| place).collect();
    let sure = *places.get(random.below(places.len().max(1)))?;
    let turned = |(place, byte): (usize, char)| match byte {
        '-' if place == sure || random.one_in(3) => '_',
        '_' if place == sure || random.one_in(3) => '-',
        other => other,
    };
    let other: String = name.char_indices().map(turned).collect();
    (!other.starts_with("q_")).then_some(other)
}

/// Two good names that meet and aren't equal.
pub fn meeting_pair(random: &mut Random) -> (String, String) {
    loop {
        let mut one = good_name(random, false);
        if !one.contains(MEETING) && one.len() < LONGEST {
            one.insert(random.between(1, one.len()), *random.pick(&MEETING));
        }
        if let Some(other) = met(random, &one).filter(|_| !one.starts_with("q_")) {
            return (one, other);
        }
    }
}

/// A good name that a byte alone keeps from meeting another, or one of the same form with another number.
fn beside(random: &mut Random, name: &str) -> String {
    let mut other = name.to_string();
    let places: Vec<_> = name.match_indices(MEETING).map(|(place, _)| place).collect();
    match places.get(random.below(places.len() + 1)) {
        Some(&place) if random.one_in(2) => drop(other.remove(place)),
        Some(&place) => other.replace_range(place..place + 1, *random.pick(&["m", "O", "W", "0"])),
        None if name.len() < LONGEST => other.push(*random.pick(&MEETING)),
        None => drop(other.pop()),
    }
    match other.starts_with("q_") {
        true => name.to_string(),
        false => other,
    }
}

#[cfg(test)]
mod tests {
    use super::*;

    fn is_good(name: &str) -> bool {
        let mut bytes = name.bytes();
        bytes.next().is_some_and(|byte| byte.is_ascii_alphanumeric())
            && bytes.all(|byte| byte.is_ascii_alphanumeric() || b"-_".contains(&byte))
            && name.len() <= LONGEST
            && !name.starts_with("q_")
    }

    #[test]
    fn pairs_meet_at_every_place_and_are_never_equal() {
        let mut random = Random::new(1);
        let mut places = HashSet::new();
        for _ in 0..20_000 {
            let (one, other) = meeting_pair(&mut random);
            assert!(is_good(&one) && is_good(&other), "{one} {other}");
            assert!(one != other && in_c(&one) == in_c(&other), "{one} {other}");
            places.extend((0..one.len()).filter(|&place| one.as_bytes()[place] != other.as_bytes()[place]));
        }
        assert_eq!(places, (1..LONGEST).collect());
    }

    #[test]
    fn names_of_a_list_are_good_and_apart() {
        let mut random = Random::new(1);
        for _ in 0..2_000 {
            let names = Taken::default().take(&mut random, 12, true);
            assert!(names.iter().all(|name| is_good(name)), "{names:?}");
            assert_eq!(names.iter().map(|name| in_c(name)).collect::<HashSet<_>>().len(), names.len(), "{names:?}");
        }
    }

    #[test]
    fn a_definition_s_name_meets_none_given_before() {
        let mut random = Random::new(1);
        let mut names = Names::new();
        names.avoid("lot-id");
        let given: Vec<_> = (0..2_000).map(|_| names.fresh(&mut random)).chain(["lot_id".to_string()]).collect();
        assert_eq!(given.iter().map(|name| in_c(name)).collect::<HashSet<_>>().len(), given.len());
        assert!(!names.used.insert("lot_id"));
    }
}
