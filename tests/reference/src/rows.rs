//! Rows of a table: 8 words each, read beside the schema bytes that hold their names (docs/REFERENCE.md,
//! Rows).

use std::iter;
use std::ops::Range;

use crate::builtins::{self, JsonKind};

/// Words of one row.
pub const ROW: usize = 8;
pub const MOST_ROWS: usize = 1024;
/// Structs of a chain of bases, the first counted.
pub const LONGEST_CHAIN: usize = 16;
/// A type reference from here on is this plus a row number.
pub const FIRST_ROW_REFERENCE: u32 = 16;

pub const ENUM: u32 = 1;
pub const VALUE: u32 = 2;
pub const STRUCT: u32 = 3;
pub const MEMBER: u32 = 4;
pub const UNION: u32 = 5;
pub const BRANCH: u32 = 6;
pub const ALTERNATE: u32 = 7;
pub const ALTERNATIVE: u32 = 8;
pub const COMMAND: u32 = 9;

/// The rows of a table that is laid out as the rules say; `table` judges whether words are.
#[derive(Clone, Copy, Debug)]
pub struct Rows<'a> {
    rows: &'a [[u32; ROW]],
    schema: &'a [u8],
}

impl<'a> Rows<'a> {
    /// The whole rows of these words.
    pub fn new(words: &'a [u32], schema: &'a [u8]) -> Self {
        Rows { rows: words.as_chunks().0, schema }
    }

    pub fn schema(self) -> &'a [u8] {
        self.schema
    }

    pub fn count(self) -> usize {
        self.rows.len()
    }

    pub fn numbers(self) -> Range<usize> {
        0..self.count()
    }

    /// A word by its place, 1 to 8: one more than in docs/REFERENCE.md.
    pub fn word(self, row: usize, place: usize) -> u32 {
        self.rows[row][place - 1]
    }

    pub fn kind(self, row: usize) -> u32 {
        self.word(row, 1)
    }

    pub fn of_kind(self, kind: u32) -> impl Iterator<Item = usize> + Clone + 'a {
        self.numbers().filter(move |&row| self.kind(row) == kind)
    }

    pub fn name(self, row: usize) -> &'a [u8] {
        let start = self.word(row, 2) as usize;
        &self.schema[start..start + self.word(row, 3) as usize]
    }

    /// Whether a name lies within the schema bytes.
    pub fn name_fits(self, row: usize) -> bool {
        u64::from(self.word(row, 2)) + u64::from(self.word(row, 3)) <= self.schema.len() as u64
    }

    /// A struct written inside its owner: its start and length are 0, which no written name has.
    pub fn is_inline(self, row: usize) -> bool {
        self.kind(row) == STRUCT && self.word(row, 2) == 0 && self.word(row, 3) == 0
    }

    /// The inline struct in the row after its owner, if there is one.
    pub fn inline_after(self, owner: usize) -> Option<usize> {
        let next = owner + 1;
        (next < self.count() && self.is_inline(next)).then_some(next)
    }

    /// A definition has a row with a name of its own and is no part of another.
    pub fn is_definition(self, row: usize) -> bool {
        matches!(self.kind(row), ENUM | STRUCT | UNION | ALTERNATE | COMMAND) && !self.is_inline(row)
    }

    pub fn is_type(self, row: usize) -> bool {
        self.is_definition(row) && self.kind(row) != COMMAND
    }

    pub fn is_named_struct(self, row: usize) -> bool {
        self.kind(row) == STRUCT && !self.is_inline(row)
    }

    /// The values, own members, branches or alternatives of a row; none of any other kind.
    pub fn list(self, row: usize) -> Range<usize> {
        match self.kind(row) {
            ENUM | STRUCT | ALTERNATE => row + 1..row + 1 + self.word(row, 4) as usize,
            UNION => {
                let first = self.inline_after(row).map_or(row + 1, |inline| self.list(inline).end);
                first..first + self.word(row, 5) as usize
            }
            _ => row + 1..row + 1,
        }
    }

    /// The row that a word links to.
    pub fn linked(self, row: usize, place: usize) -> Option<usize> {
        (self.word(row, place) as usize).checked_sub(1)
    }

    pub fn struct_base(self, row: usize) -> Option<usize> {
        self.linked(row, 5)
    }

    pub fn union_base(self, row: usize) -> Option<usize> {
        self.linked(row, 4)
    }

    pub fn discriminator(self, union: usize) -> Option<usize> {
        self.linked(union, 6)
    }

    pub fn branch_struct(self, branch: usize) -> Option<usize> {
        self.linked(branch, 4)
    }

    pub fn arguments(self, command: usize) -> Option<usize> {
        self.linked(command, 4)
    }

    pub fn allows_oob(self, command: usize) -> bool {
        self.word(command, 5) == 1
    }

    /// A member's or alternative's type reference.
    pub fn type_reference(self, row: usize) -> u32 {
        self.word(row, 4)
    }

    pub fn is_array(self, member: usize) -> bool {
        self.word(member, 5) == 1
    }

    pub fn is_mandatory(self, member: usize) -> bool {
        self.word(member, 6) == 0
    }

    /// The struct and its bases going up, no further than a chain may be long.
    pub fn chain(self, structure: usize) -> impl Iterator<Item = usize> + Clone + 'a {
        self.whole_chain(structure).take(LONGEST_CHAIN)
    }

    /// The struct and its bases; without end where there is a cycle.
    pub fn whole_chain(self, structure: usize) -> impl Iterator<Item = usize> + Clone + 'a {
        iter::successors(Some(structure), move |&row| self.struct_base(row))
    }

    /// A struct's members, inherited ones too.
    pub fn members(self, structure: usize) -> impl Iterator<Item = usize> + Clone + 'a {
        self.chain(structure).flat_map(move |row| self.list(row))
    }

    /// The row of a reference that is no built-in's.
    pub fn referred(reference: u32) -> Option<usize> {
        reference.checked_sub(FIRST_ROW_REFERENCE).map(|row| row as usize)
    }

    /// The one JSON kind of a type; `any` and alternates have none.
    pub fn json_kind(self, reference: u32) -> Option<JsonKind> {
        let Some(row) = Self::referred(reference) else {
            return builtins::json_kind(reference);
        };
        match self.kind(row) {
            ENUM => Some(JsonKind::String),
            STRUCT | UNION => Some(JsonKind::Object),
            _ => None,
        }
    }
}
