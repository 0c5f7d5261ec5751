//! Numbers 5, 6 and 8 to 11, judged of rows: of those a schema compiles to and of those of a table alike.
//! From 8 on, all references are filled in and fit.

use std::collections::HashMap;

use crate::builtins::{self, JsonKind, STR};
use crate::names::{self, InC, NameMap, NameSet};
use crate::rows::{Rows, ALTERNATE, BRANCH, COMMAND, ENUM, LONGEST_CHAIN, STRUCT, UNION, VALUE};

/// 5: a bad name.
pub fn has_bad_name(rows: Rows) -> bool {
    rows.numbers().any(|row| !rows.is_inline(row) && !is_good_name(rows, row))
}

fn is_good_name(rows: Rows, row: usize) -> bool {
    names::is_good(rows.name(row), matches!(rows.kind(row), VALUE | BRANCH))
}

/// The definitions, of which no two have names that clash, nor one a built-in's.
pub struct Definitions<'a> {
    rows: Rows<'a>,
    by_name: NameMap<InC<'a>, usize>,
}

impl<'a> Definitions<'a> {
    /// None where 6 holds of their names. Built-ins have no `-` and no `_`, so that only equal names clash with them.
    pub fn new(rows: Rows<'a>) -> Option<Self> {
        let mut by_name = NameMap::default();
        for row in rows.numbers().filter(|&row| rows.is_definition(row)) {
            let name = rows.name(row);
            if builtins::number_of(name).is_some() || by_name.insert(InC(name), row).is_some() {
                return None;
            }
        }
        Some(Definitions { rows, by_name })
    }

    /// The row of the definition with exactly this name.
    pub fn find(&self, name: &[u8]) -> Option<usize> {
        self.by_name.get(&InC(name)).copied().filter(|&row| names::equal(self.rows.name(row), name))
    }
}

/// 6: two names of a list of children clash.
pub fn has_equal_names_in_a_list(rows: Rows) -> bool {
    let mut lists = rows.numbers().map(|row| rows.list(row)).filter(|list| list.len() > 1);
    lists.any(|list| names::first_repeat(list.map(|row| InC(rows.name(row)))).is_some())
}

/// 8: going up from a struct doesn't end soon enough, or a member's name clashes with an inherited one's.
pub fn has_bad_chain(rows: Rows) -> bool {
    let mut structs = rows.of_kind(STRUCT);
    structs.clone().any(|row| rows.whole_chain(row).nth(LONGEST_CHAIN).is_some())
        || structs.any(|row| repeats_inherited_member(rows, row))
}

fn repeats_inherited_member(rows: Rows, structure: usize) -> bool {
    let Some(base) = rows.struct_base(structure) else {
        return false;
    };
    let mut own = rows.list(structure);
    own.any(|member| members_names(rows, base).any(|inherited| names::clash(inherited, rows.name(member))))
}

/// 9: a union without a branch, or with a bad discriminator or branch.
pub fn has_bad_union(rows: Rows) -> bool {
    rows.of_kind(UNION).any(|union| {
        rows.list(union).is_empty()
            || !has_good_discriminator(rows, union)
            || has_branch_without_value(rows, union)
            || has_branch_repeating_base(rows, union)
    })
}

/// A member that the base has itself or inherits, and whose value is always one enum value.
fn has_good_discriminator(rows: Rows, union: usize) -> bool {
    let (Some(base), Some(member)) = (rows.union_base(union), rows.discriminator(union)) else {
        return false;
    };
    rows.members(base).any(|row| row == member)
        && rows.is_mandatory(member)
        && !rows.is_array(member)
        && discriminator_enum(rows, member).is_some()
}

fn discriminator_enum(rows: Rows, member: usize) -> Option<usize> {
    Rows::referred(rows.type_reference(member)).filter(|&row| rows.kind(row) == ENUM)
}

/// A branch is found by exactly its name. Asked of unions with a good discriminator.
fn has_branch_without_value(rows: Rows, union: usize) -> bool {
    let Some(values) = rows.discriminator(union).and_then(|member| discriminator_enum(rows, member)) else {
        return true;
    };
    rows.list(union).any(|branch| !rows.list(values).any(|value| names::equal(rows.name(value), rows.name(branch))))
}

/// A member of a branch clashes with one of the base; those of two branches may.
fn has_branch_repeating_base(rows: Rows, union: usize) -> bool {
    let base = rows.union_base(union).into_iter().flat_map(|base| members_names(rows, base));
    let base: NameSet<_> = base.map(InC).collect();
    let mut structs = rows.list(union).filter_map(|branch| rows.branch_struct(branch));
    structs.any(|row| members_names(rows, row).any(|name| base.contains(InC(name))))
}

fn members_names<'a>(rows: Rows<'a>, structure: usize) -> impl Iterator<Item = &'a [u8]> {
    rows.members(structure).map(move |member| rows.name(member))
}

/// 10: an alternate without alternatives, or whose alternatives can't be told apart, by the JSON kind of a value or by
/// its text alone.
pub fn has_bad_alternate(rows: Rows) -> bool {
    let mut enums = Enums::new(rows);
    rows.of_kind(ALTERNATE).any(|alternate| {
        rows.list(alternate).is_empty()
            || has_bad_alternative(rows, alternate)
            || has_bad_mix(rows, alternate, &mut enums)
    })
}

fn has_bad_alternative(rows: Rows, alternate: usize) -> bool {
    let mut taken = [false; 6];
    types_of(rows, alternate).any(|reference| match rows.json_kind(reference) {
        Some(kind) => std::mem::replace(&mut taken[kind as usize], true),
        None => true,
    })
}

/// The type references of an alternate's alternatives.
fn types_of<'a>(rows: Rows<'a>, alternate: usize) -> impl Iterator<Item = u32> + Clone + 'a {
    rows.list(alternate).map(move |row| rows.type_reference(row))
}

/// Two types that a tool which drops the quotes of a value takes for each other: bool or a number type next to str, a
/// number type next to an enum of which a value begins with a digit, bool next to an enum that has on or off.
fn has_bad_mix(rows: Rows, alternate: usize, enums: &mut Enums) -> bool {
    let has = |kind: JsonKind| types_of(rows, alternate).any(|reference| rows.json_kind(reference) == Some(kind));
    let (number, boolean) = (has(JsonKind::Number), has(JsonKind::Bool));
    (number || boolean)
        && types_of(rows, alternate).any(|reference| match Rows::referred(reference) {
            None => reference == STR,
            Some(row) if rows.kind(row) == ENUM => {
                let Looks { like_number, like_bool } = enums.looks(row);
                number && like_number || boolean && like_bool
            }
            Some(_) => false,
        })
}

/// What some value of an enum looks like without its quotes.
#[derive(Clone, Copy)]
struct Looks {
    like_number: bool,
    like_bool: bool,
}

/// The enums of a table, the values of each looked through at most once.
struct Enums<'a> {
    rows: Rows<'a>,
    known: HashMap<usize, Looks>,
}

impl<'a> Enums<'a> {
    fn new(rows: Rows<'a>) -> Self {
        Enums { rows, known: HashMap::new() }
    }

    fn looks(&mut self, row: usize) -> Looks {
        let values = self.rows.list(row).map(|value| self.rows.name(value));
        *self.known.entry(row).or_insert_with(|| Looks {
            like_number: values.clone().any(|value| value.first().is_some_and(u8::is_ascii_digit)),
            like_bool: values.clone().any(|value| matches!(value, b"on" | b"off")),
        })
    }
}

/// 11: a command returns what isn't made of objects.
pub fn has_bad_return(rows: Rows) -> bool {
    rows.of_kind(COMMAND).map(|command| rows.word(command, 6)).any(|reference| {
        reference != 0 && !Rows::referred(reference).is_some_and(|row| matches!(rows.kind(row), STRUCT | UNION))
    })
}
