//! Names that refer, found (number 7, and the discriminators of 9), each by exactly its bytes. Good names have no
//! backslash, so one with an escape equals none.

use super::layout::{Reference, Span, Target};
use super::Refusal;
use crate::builtins;
use crate::rows::{Rows, FIRST_ROW_REFERENCE, ROW};
use crate::rules::Definitions;

/// A word to be written: row, place, word.
pub type Found = (usize, usize, u32);

/// The types and structs that names refer to.
pub fn find_definitions(rows: Rows, names: &[Reference], definitions: &Definitions) -> Result<Vec<Found>, Refusal> {
    let find = |reference: &Reference| {
        let name = bytes(rows, reference.name);
        let row = || definitions.find(name);
        match reference.target {
            Target::Type => builtins::number_of(name).or_else(|| type_reference(rows, row()?)),
            _ => row().filter(|&row| rows.is_named_struct(row)).map(|row| row as u32 + 1),
        }
    };
    let definitions = names.iter().filter(|reference| reference.target != Target::Discriminator);
    find_all(definitions, find).ok_or(Refusal::UnknownName)
}

fn type_reference(rows: Rows, row: usize) -> Option<u32> {
    rows.is_type(row).then_some(FIRST_ROW_REFERENCE + row as u32)
}

/// The members of their bases that discriminators name.
pub fn find_discriminators(rows: Rows, names: &[Reference]) -> Result<Vec<Found>, Refusal> {
    let find = |reference: &Reference| {
        let name = bytes(rows, reference.name);
        let mut members = rows.members(rows.union_base(reference.row)?);
        members.find(|&member| rows.name(member) == name).map(|member| member as u32 + 1)
    };
    let discriminators = names.iter().filter(|reference| reference.target == Target::Discriminator);
    find_all(discriminators, find).ok_or(Refusal::BadUnion)
}

fn find_all<'a>(
    references: impl Iterator<Item = &'a Reference>,
    find: impl Fn(&Reference) -> Option<u32>,
) -> Option<Vec<Found>> {
    references.map(|reference| Some((reference.row, reference.place, find(reference)?))).collect()
}

pub fn write(rows: &mut [[u32; ROW]], found: &[Found]) {
    for &(row, place, word) in found {
        rows[row][place - 1] = word;
    }
}

fn bytes<'a>(rows: Rows<'a>, name: Span) -> &'a [u8] {
    &rows.schema()[name.start..name.start + name.length]
}
