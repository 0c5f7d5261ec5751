//! Texts of both dialects for the reader: whole, too deep, at fault at a known place, damaged anyhow.

mod faults;
mod values;

use crate::damage::{damage, telling_byte};
use crate::integers::beside_an_end;
use crate::print::{print, Dialect, Printed, Style};
use crate::tree::Tree;
use crate::Random;

pub use faults::{every_wrong_value, replace_value, wrong_value};
pub use values::{integer, nested_value, number, scalar, string, value};

use values::{nested, object, slightly_changed};

/// The most levels that a text may have.
pub fn most_levels(dialect: Dialect) -> usize {
    match dialect {
        Dialect::Schema => 8,
        Dialect::Message => 32,
    }
}

/// What a reader should say.
#[derive(Clone, Debug, PartialEq, Eq)]
pub enum Expected {
    Whole(Vec<[u32; 4]>),
    Fault(usize),
    Deep(usize),
    /// Not known from how the text was made.
    Unknown,
}

#[derive(Clone, Debug)]
pub struct TextCase {
    pub bytes: Vec<u8>,
    pub expected: Expected,
}

/// A case of any sort, for at most so many levels, 2 or more.
pub fn any(random: &mut Random, dialect: Dialect, levels: usize) -> TextCase {
    match random.below(11) {
        0 | 1 => whole(random, dialect, levels),
        2 => at_the_limit(random, dialect, levels),
        3 => deep(random, dialect, levels),
        4 | 5 => fault(random, dialect, levels),
        6 => truncated(random, dialect, levels),
        7 => damaged(random, dialect, levels),
        8 => twins(random, dialect),
        9 => random_bytes(random),
        _ => integers(random, dialect),
    }
}

/// A valid text.
pub fn whole(random: &mut Random, dialect: Dialect, levels: usize) -> TextCase {
    let trees = trees(random, dialect, levels);
    printed_whole(random, dialect, &trees)
}

/// A valid text that uses all its levels.
pub fn at_the_limit(random: &mut Random, dialect: Dialect, levels: usize) -> TextCase {
    let tree = nested_value(random, dialect, levels);
    printed_whole(random, dialect, &[tree])
}

/// One level too many where a value may stand, with anything after it.
pub fn deep(random: &mut Random, dialect: Dialect, levels: usize) -> TextCase {
    let leaf = Tree::raw(*random.pick(&["[", "{", "[]", "{}", "[x", "{{", "[\u{0}"])).marked(1);
    let tree = nested(random, dialect, levels, leaf, dialect == Dialect::Schema);
    let printed = print_any(random, dialect, &[tree]);
    let place = printed.marks[0].start as usize;
    TextCase { bytes: printed.bytes, expected: Expected::Deep(place) }
}

/// A text with one wrong byte, at a place known from how it was made. The value at fault may open a level.
pub fn fault(random: &mut Random, dialect: Dialect, levels: usize) -> TextCase {
    let mut trees = trees(random, dialect, levels - 1);
    let (tree, start) = wrong_value(random, dialect);
    if !replace_value(random, &mut trees, tree.marked(1)) {
        return fault(random, dialect, levels);
    }
    let printed = print_any(random, dialect, &trees);
    let place = printed.marks[0].start as usize + start;
    TextCase { bytes: printed.bytes, expected: Expected::Fault(place) }
}

/// Every value with a fault that is known, alone in the smallest text that may hold it.
pub fn every_fault(dialect: Dialect) -> Vec<TextCase> {
    let before: &[u8] = if dialect == Dialect::Schema { b"{'':" } else { b"" };
    let case = |(bytes, start): (Vec<u8>, usize)| TextCase {
        bytes: [before, &bytes].concat(),
        expected: Expected::Fault(before.len() + start),
    };
    every_wrong_value(dialect).map(case).collect()
}

/// A start of a valid text.
pub fn truncated(random: &mut Random, dialect: Dialect, levels: usize) -> TextCase {
    let mut bytes = whole(random, dialect, levels).bytes;
    bytes.truncate(random.below(bytes.len() + 1));
    TextCase { bytes, expected: Expected::Unknown }
}

/// A valid or too deep text damaged once or more.
pub fn damaged(random: &mut Random, dialect: Dialect, levels: usize) -> TextCase {
    let mut bytes = match random.below(4) {
        0 => at_the_limit(random, dialect, levels).bytes,
        1 => deep(random, dialect, levels).bytes,
        _ => whole(random, dialect, levels).bytes,
    };
    for _ in 0..random.between(1, 3) {
        damage(random, &mut bytes);
    }
    TextCase { bytes, expected: Expected::Unknown }
}

/// An object, of at most 2 levels, whose keys and strings mean the same or nearly the same.
pub fn twins(random: &mut Random, dialect: Dialect) -> TextCase {
    let first = string(random, dialect);
    let text = first.as_text().unwrap_or_default();
    let near = slightly_changed(random, dialect, text);
    let other = slightly_changed(random, dialect, &near);
    let alike = [first.clone(), first, Tree::text(near), Tree::text(other)];
    let pick = |random: &mut Random| random.pick(&alike).clone();
    let members = (0..random.between(1, 4)).map(|_| match random.one_in(2) {
        true => (pick(random), pick(random)),
        false => (pick(random), Tree::list((0..random.below(4)).map(|_| pick(random)).collect())),
    });
    let tree = Tree::object(members.collect());
    printed_whole(random, dialect, &[tree])
}

/// A list of integers beside the ends of the ranges; in a schema, which has none, a string of digits.
pub fn integers(random: &mut Random, dialect: Dialect) -> TextCase {
    let count = random.between(1, 12);
    let tokens: Vec<_> = (0..count).map(|_| beside_an_end(random)).collect();
    let tree = match dialect {
        Dialect::Schema => Tree::object(vec![(Tree::text("data"), Tree::text(tokens.join(" ")))]),
        Dialect::Message => Tree::list(tokens.iter().map(Tree::raw).collect()),
    };
    printed_whole(random, dialect, &[tree])
}

/// A few bytes of any value, or of those that matter to a text.
pub fn random_bytes(random: &mut Random) -> TextCase {
    let telling = random.one_in(2);
    let length = random.below(40);
    let bytes = (0..length).map(|_| if telling { telling_byte(random) } else { random.byte() }).collect();
    TextCase { bytes, expected: Expected::Unknown }
}

fn printed_whole(random: &mut Random, dialect: Dialect, trees: &[Tree]) -> TextCase {
    let Printed { bytes, nodes, .. } = print_any(random, dialect, trees);
    TextCase { bytes, expected: Expected::Whole(nodes) }
}

fn print_any(random: &mut Random, dialect: Dialect, trees: &[Tree]) -> Printed {
    let style = Style::any(random, dialect);
    print(random, style, trees)
}

/// A message's one value or a schema's objects.
fn trees(random: &mut Random, dialect: Dialect, levels: usize) -> Vec<Tree> {
    let mut size = *random.pick(&[3, 10, 60]);
    match dialect {
        Dialect::Message => vec![value(random, dialect, levels, &mut size)],
        Dialect::Schema => (0..random.below(4)).map(|_| object(random, dialect, levels, &mut size)).collect(),
    }
}
