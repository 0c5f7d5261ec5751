//! Trees of valid values.

use crate::print::Dialect;
use crate::tree::Tree;
use crate::Random;

/// Any valid value within the levels; `size` is about how many more values there shall be.
pub fn value(random: &mut Random, dialect: Dialect, levels: usize, size: &mut usize) -> Tree {
    if levels == 0 || *size == 0 || random.one_in(3) {
        return scalar(random, dialect);
    }
    match random.one_in(2) {
        true => object(random, dialect, levels, size),
        false => {
            let count = child_count(random, size);
            Tree::list((0..count).map(|_| value(random, dialect, levels - 1, size)).collect())
        }
    }
}

/// An object of any valid keys and values within the levels, itself one of them.
pub fn object(random: &mut Random, dialect: Dialect, levels: usize, size: &mut usize) -> Tree {
    let count = child_count(random, size);
    let member = |_| (string(random, dialect), value(random, dialect, levels - 1, size));
    Tree::object((0..count).map(member).collect())
}

fn child_count(random: &mut Random, size: &mut usize) -> usize {
    let count = random.below(5).min(*size);
    *size -= count;
    count
}

/// A value of exactly `levels` levels; an object in a schema.
pub fn nested_value(random: &mut Random, dialect: Dialect, levels: usize) -> Tree {
    let leaf = scalar(random, dialect);
    nested(random, dialect, levels, leaf, dialect == Dialect::Schema)
}

/// A value inside `levels` brackets, with others beside it.
pub fn nested(random: &mut Random, dialect: Dialect, levels: usize, leaf: Tree, outer_object: bool) -> Tree {
    if levels == 0 {
        return leaf;
    }
    let inner = nested(random, dialect, levels - 1, leaf, false);
    let mut values: Vec<_> = (0..random.below(2)).map(|_| scalar(random, dialect)).collect();
    values.push(inner);
    if random.one_in(3) {
        values.push(scalar(random, dialect));
    }
    match outer_object || random.one_in(2) {
        true => Tree::object(values.into_iter().map(|value| (string(random, dialect), value)).collect()),
        false => Tree::list(values),
    }
}

pub fn scalar(random: &mut Random, dialect: Dialect) -> Tree {
    match (random.below(6), dialect) {
        (0, _) => Tree::raw("true"),
        (1, _) => Tree::raw("false"),
        (2, Dialect::Message) => Tree::raw("null"),
        (3 | 4, Dialect::Message) => Tree::raw(number(random)),
        _ => string(random, dialect),
    }
}

/// Any form of number token.
pub fn number(random: &mut Random) -> String {
    let mut token = integer(random);
    if random.one_in(2) {
        token += &format!(".{}", digits(random));
    }
    if random.one_in(2) {
        token += *random.pick(&["e", "E", "e+", "E+", "e-", "E-"]);
        token += &digits(random);
    }
    token
}

pub fn integer(random: &mut Random) -> String {
    let sign = if random.one_in(3) { "-" } else { "" };
    match random.one_in(4) {
        true => format!("{sign}0"),
        false => {
            format!("{sign}{}{}", random.between(1, 9), if random.one_in(2) { digits(random) } else { String::new() })
        }
    }
}

fn digits(random: &mut Random) -> String {
    let count = if random.one_in(20) { random.between(20, 60) } else { random.between(1, 6) };
    (0..count).map(|_| char::from(b'0' + random.below(10) as u8)).collect()
}

pub fn string(random: &mut Random, dialect: Dialect) -> Tree {
    let length = if random.one_in(10) { random.below(60) } else { random.below(6) };
    Tree::text((0..length).map(|_| character(random, dialect)).collect::<String>())
}

/// A character of any length in UTF-8, with those at the edges of its forms; in a schema, a printable one.
fn character(random: &mut Random, dialect: Dialect) -> char {
    if dialect == Dialect::Schema {
        let printable = random.between(0x20, 0x7E) as u8 as char;
        return if printable == '\'' { '\\' } else { printable };
    }
    let edges =
        "\0\u{1F} \"/\\\u{7F}\u{80}\u{7FF}\u{800}\u{D7FF}\u{E000}\u{FEFF}\u{FFFF}\u{10000}\u{10FFFF}\u{8}\u{C}\n\r\t";
    let range = match random.below(8) {
        0 | 1 => return *random.pick(&edges.chars().collect::<Vec<_>>()),
        2 => (0x80, 0x7FF),
        3 => (0x800, 0xFFFF),
        4 => (0x10000, 0x10FFFF),
        _ => (0x20, 0x7E),
    };
    char::from_u32(random.between(range.0, range.1) as u32).unwrap_or('\u{FFFD}')
}

/// A string one character away, or one that is taken for it where code points are cut to bytes or UTF-8 isn't decoded.
pub fn slightly_changed(random: &mut Random, dialect: Dialect, text: &str) -> String {
    let mut points: Vec<char> = text.chars().collect();
    let place = random.below(points.len() + 1);
    if place == points.len() || random.one_in(4) {
        points.insert(place, character(random, dialect));
        return points.into_iter().collect();
    }
    match (random.below(4), dialect) {
        (0, _) => drop(points.remove(place)),
        (1, Dialect::Message) => {
            points[place] = char::from_u32(points[place] as u32 ^ 0x100).unwrap_or('\u{FFFD}');
        }
        (2, Dialect::Message) => {
            let bytes = points[place].to_string().into_bytes();
            points.splice(place..place + 1, bytes.into_iter().map(char::from));
        }
        _ => points[place] = character(random, dialect),
    }
    points.into_iter().collect()
}
