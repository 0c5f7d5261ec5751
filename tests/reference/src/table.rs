//! Whether any words over any bytes are a sound table (number 21).

use crate::builtins;
use crate::rows::*;
use crate::rules;
use crate::schema::MOST_SCHEMA_BYTES;

/// The rows, if the table is sound.
pub fn judge<'a>(words: &'a [u32], schema: &'a [u8]) -> Option<Rows<'a>> {
    let rows = Rows::new(words, schema);
    let sound = words.len().is_multiple_of(ROW)
        && rows.count() <= MOST_ROWS
        && schema.len() <= MOST_SCHEMA_BYTES
        && is_laid_out(rows)
        && rows.numbers().all(|row| rows.name_fits(row) && has_fitting_references(rows, row))
        && obeys_rules(rows);
    sound.then_some(rows)
}

pub fn is_sound(words: &[u32], schema: &[u8]) -> bool {
    judge(words, schema).is_some()
}

/// The rows fall into definitions, each with its children and no more.
fn is_laid_out(rows: Rows) -> bool {
    let mut row = 0;
    while row < rows.count() {
        match definition_end(rows, row) {
            Some(end) => row = end,
            None => return false,
        }
    }
    true
}

/// The row after a definition that starts at `row`, if one does.
fn definition_end(rows: Rows, row: usize) -> Option<usize> {
    if !rows.is_definition(row) || !has_good_words(rows, row) {
        return None;
    }
    match rows.kind(row) {
        ENUM => list_end(rows, row + 1, rows.word(row, 4), VALUE),
        STRUCT => list_end(rows, row + 1, rows.word(row, 4), MEMBER),
        UNION => list_end(rows, inline_end(rows, row)?, rows.word(row, 5), BRANCH),
        ALTERNATE => list_end(rows, row + 1, rows.word(row, 4), ALTERNATIVE),
        _ => inline_end(rows, row),
    }
}

/// The row after a union's or command's inline struct, or after its own row if it has none.
fn inline_end(rows: Rows, owner: usize) -> Option<usize> {
    let Some(inline) = rows.inline_after(owner) else {
        return Some(owner + 1);
    };
    let owned = rows.linked(owner, 4) == Some(inline);
    let good = owned && has_good_words(rows, inline) && rows.struct_base(inline).is_none();
    good.then(|| list_end(rows, inline + 1, rows.word(inline, 4), MEMBER))?
}

/// The row after `count` rows of one kind.
fn list_end(rows: Rows, first: usize, count: u32, kind: u32) -> Option<usize> {
    let end = first + count as usize;
    let good = end <= rows.count() && (first..end).all(|row| rows.kind(row) == kind && has_good_words(rows, row));
    good.then_some(end)
}

/// Flags are 0 or 1, unused words 0.
fn has_good_words(rows: Rows, row: usize) -> bool {
    let (flags, unused): (&[usize], &[usize]) = match rows.kind(row) {
        ENUM | BRANCH | ALTERNATE | ALTERNATIVE => (&[], &[5, 6, 7, 8]),
        VALUE => (&[], &[4, 5, 6, 7, 8]),
        STRUCT => (&[], &[6, 7, 8]),
        MEMBER => (&[5, 6], &[7, 8]),
        UNION => (&[], &[7, 8]),
        COMMAND => (&[5, 7], &[8]),
        _ => return false,
    };
    flags.iter().all(|&place| rows.word(row, place) <= 1) && unused.iter().all(|&place| rows.word(row, place) == 0)
}

/// What a row refers to is there and of the right kind (7).
fn has_fitting_references(rows: Rows, row: usize) -> bool {
    match rows.kind(row) {
        STRUCT => rows.word(row, 5) == 0 || links_to_struct(rows, row, 5),
        MEMBER | ALTERNATIVE => is_type_reference(rows, rows.type_reference(row)),
        UNION => links_to_fields(rows, row) && links_to_member(rows, row, 6),
        BRANCH => links_to_struct(rows, row, 4),
        COMMAND => (rows.word(row, 4) == 0 || links_to_fields(rows, row)) && has_fitting_return(rows, row),
        _ => true,
    }
}

fn has_fitting_return(rows: Rows, command: usize) -> bool {
    match rows.word(command, 6) {
        0 => rows.word(command, 7) == 0,
        reference => is_type_reference(rows, reference),
    }
}

/// A built-in, or a row of a type that has a name.
fn is_type_reference(rows: Rows, reference: u32) -> bool {
    match Rows::referred(reference) {
        Some(row) => row < rows.count() && rows.is_type(row),
        None => builtins::is_built_in(reference),
    }
}

fn links_to_struct(rows: Rows, row: usize, place: usize) -> bool {
    rows.linked(row, place).is_some_and(|target| target < rows.count() && rows.is_named_struct(target))
}

fn links_to_member(rows: Rows, row: usize, place: usize) -> bool {
    rows.linked(row, place).is_some_and(|target| target < rows.count() && rows.kind(target) == MEMBER)
}

/// A union's base or a command's data: its own inline struct, or a struct with a name.
fn links_to_fields(rows: Rows, owner: usize) -> bool {
    rows.inline_after(owner).is_some() || links_to_struct(rows, owner, 4)
}

fn obeys_rules(rows: Rows) -> bool {
    !rules::has_bad_name(rows)
        && rules::Definitions::new(rows).is_some()
        && !rules::has_equal_names_in_a_list(rows)
        && !rules::has_bad_chain(rows)
        && !rules::has_bad_union(rows)
        && !rules::has_bad_alternate(rows)
        && !rules::has_bad_return(rows)
}
