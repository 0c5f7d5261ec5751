//! Messages made from a schema: accepted ones with the records they are read as, ones aimed at each number and at
//! pairs, mutated ones, and rooms of any size.

mod faults;
mod limits;
mod types;
mod values;

use crate::damage::damage;
use crate::model::{Definition, Fields};
use crate::print::{print, Dialect, Printed, Style};
use crate::schemas::{mutate_tree, Schema};
use crate::tables;
use crate::tree::Tree;
use crate::Random;
pub use limits::limits;
use types::Types;
use values::Maker;

const MOST_BYTES: usize = 16_384;
const MOST_LEVELS: usize = 32;
const RECORD: usize = 4;

/// A command's row and the words of its records.
#[derive(Clone, Debug, PartialEq, Eq)]
pub struct Reading {
    pub row: u32,
    pub words: Vec<u32>,
}

/// A message to check with a table and `room` words; its number and reading where these follow from how it was made.
#[derive(Clone, Debug)]
pub struct MessageCase {
    pub table: Vec<u32>,
    pub message: Vec<u8>,
    pub room: usize,
    pub number: Option<u32>,
    pub reading: Option<Reading>,
}

/// Makes messages for one schema.
pub struct Messages<'a> {
    types: Types<'a>,
}

/// A message before it is printed: the envelope's members, and for each mark the records of its value.
struct Draft<'a> {
    name: &'a str,
    row: u32,
    reference: u32,
    envelope: Vec<(Tree, Tree)>,
    records: Vec<Vec<[u32; 2]>>,
}

impl<'a> Messages<'a> {
    pub fn new(schema: &'a Schema) -> Self {
        Messages { types: Types::new(schema) }
    }

    pub fn schema(&self) -> &'a Schema {
        self.types.schema
    }

    /// An accepted message, in room enough or exactly enough.
    pub fn valid(&self, random: &mut Random) -> MessageCase {
        let size = *random.pick(&[0, 3, 20, 100]);
        let style = Style::any(random, Dialect::Message);
        self.valid_of(random, size, style)
    }

    /// An accepted message of 200 to 4,000 bytes, as a client would write it.
    pub fn usual(&self, random: &mut Random) -> MessageCase {
        let style = Style { dialect: Dialect::Message, blanks: 10, escapes: 1 };
        loop {
            let size = random.between(10, 150);
            let case = self.valid_of(random, size, style);
            if (200..=4_000).contains(&case.message.len()) {
                return case;
            }
        }
    }

    fn valid_of(&self, random: &mut Random, size: usize, style: Style) -> MessageCase {
        loop {
            let draft = self.draft(random, size, MOST_LEVELS, false);
            let mut printed = print(random, style, &[Tree::object(draft.envelope.clone())]);
            if printed.bytes.len() <= MOST_BYTES {
                let reading = draft.reading(&printed);
                let room = reading.words.len() + random.below(2) * random.below(40);
                if style.blanks > 0 && random.one_in(20) {
                    printed.bytes.resize(MOST_BYTES, b' ');
                }
                return self.case(printed.bytes, room, Some(0), Some(reading));
            }
        }
    }

    /// A case with a fault for each of the numbers given, 21 to 30. Its number is the lowest, but with both 23 and 24,
    /// where it depends on which comes first.
    pub fn aimed(&self, random: &mut Random, numbers: &[u32]) -> MessageCase {
        let size = *random.pick(&[0, 3, 20]);
        let levels = MOST_LEVELS - 1; // one for a text fault that opens a bracket
        let (mut draft, needed) = self.short_draft(random, size, levels, numbers.contains(&28));
        for number in (23..30).rev().filter(|number| numbers.contains(number)) {
            faults::add(random, &self.types, &mut draft, number);
        }
        let mut message = print_short(random, &Tree::object(draft.envelope));
        if numbers.contains(&23) && random.one_in(4) {
            faults::break_ends(random, &mut message);
        }
        if numbers.contains(&22) {
            faults::lengthen(random, &mut message);
        }
        let room = if numbers.contains(&30) { too_few(random, needed) } else { needed * RECORD + random.below(9) };
        let certain = !(numbers.contains(&23) && numbers.contains(&24));
        let number = certain.then(|| numbers.iter().min().copied().unwrap_or(0));
        let mut case = self.case(message, room, number, None);
        if numbers.contains(&21) {
            case.table = tables::unsound(random, &case.table);
        }
        case
    }

    /// An accepted message changed somehow, in its tree or in its bytes, with any table and room.
    pub fn mutated(&self, random: &mut Random) -> MessageCase {
        let size = *random.pick(&[0, 3, 20]);
        let draft = self.draft(random, size, MOST_LEVELS, false);
        let other = self.draft(random, size, MOST_LEVELS, false);
        let mut tree = Tree::object(draft.envelope);
        let in_tree = !random.one_in(3);
        if in_tree {
            (0..random.between(1, 3))
                .for_each(|_| mutate_tree(random, &mut tree, Tree::object(other.envelope.clone())));
        }
        let mut message = print_short(random, &tree);
        if !in_tree || random.one_in(8) {
            (0..random.between(1, 3)).for_each(|_| damage(random, &mut message));
        }
        let room = *random.pick(&[0, 1, 4, 11, 400, 400, 400]);
        let mut case = self.case(message, room, None, None);
        if random.one_in(10) {
            case.table = tables::mutated(random, &case.table, self.schema().bytes.len());
        }
        case
    }

    fn case(&self, message: Vec<u8>, room: usize, number: Option<u32>, reading: Option<Reading>) -> MessageCase {
        MessageCase { table: self.schema().words.clone(), message, room, number, reading }
    }

    /// A draft that leaves half of the bytes free, and how many records it has.
    fn short_draft(&self, random: &mut Random, size: usize, levels: usize, in_band_only: bool) -> (Draft<'a>, usize) {
        loop {
            let draft = self.draft(random, size, levels, in_band_only);
            let printed = print(random, Style::compact(Dialect::Message), &[Tree::object(draft.envelope.clone())]);
            if printed.bytes.len() <= MOST_BYTES / 2 {
                let count = draft.reading(&printed).words.len() / RECORD;
                return (draft, count);
            }
        }
    }

    /// A valid message of about `size` values for a command that has one; in-band only where asked.
    fn draft(&self, random: &mut Random, size: usize, levels: usize, in_band_only: bool) -> Draft<'a> {
        let inside = levels - 1;
        let commands: Vec<_> = self.types.usable_commands(inside, in_band_only).collect();
        let Definition::Command { name, data, allow_oob, .. } = *random.pick(&commands) else {
            panic!("only commands can be used");
        };
        let row = self.types.row(name);
        let reference = match data {
            None => 0,
            Some(Fields::Named(structure)) => self.types.reference(structure),
            Some(Fields::Inline(_)) => 16 + row + 1,
        };
        let mut maker = Maker::new(random, &self.types, size);
        let arguments = maker.arguments(data.as_ref(), reference, inside);
        let id = maker.any(inside);
        let records = maker.records;
        let key = if *allow_oob == Some(true) && random.one_in(2) { "exec-oob" } else { "execute" };
        let mut envelope = vec![(Tree::text(key), Tree::text(name))];
        envelope.extend(arguments.map(|arguments| (Tree::text("arguments"), arguments)));
        if random.one_in(2) {
            envelope.push((Tree::text("id"), id));
        }
        random.shuffle(&mut envelope);
        Draft { name, row, reference, envelope, records }
    }
}

impl Draft<'_> {
    /// The records by the marks of the arguments; one at 0, 0 where these are absent.
    fn reading(&self, printed: &Printed) -> Reading {
        let mut words = Vec::new();
        for mark in &printed.marks {
            for &[reference, array] in &self.records[mark.mark as usize - 1] {
                words.extend([mark.start, mark.end, reference, array]);
            }
        }
        if words.is_empty() {
            words.extend([0, 0, self.reference, 0]);
        }
        Reading { row: self.row, words }
    }
}

/// With blanks and escapes, unless that makes it too long.
fn print_short(random: &mut Random, tree: &Tree) -> Vec<u8> {
    let style = Style::any(random, Dialect::Message);
    let printed = print(random, style, std::slice::from_ref(tree)).bytes;
    match printed.len() <= MOST_BYTES {
        true => printed,
        false => print(random, Style::compact(Dialect::Message), std::slice::from_ref(tree)).bytes,
    }
}

/// No word, one word, one too few, or any number that is too small.
fn too_few(random: &mut Random, records: usize) -> usize {
    let words = records * RECORD;
    match random.below(4) {
        0 => 0,
        1 => 1,
        2 => words - 1,
        _ => random.below(words),
    }
}
