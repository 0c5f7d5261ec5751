//! Faults put into a valid message, each refused with one number.

use super::types::Types;
use super::{Draft, MOST_BYTES, MOST_LEVELS};
use crate::integers::range;
use crate::model::{Definition, Member};
use crate::names::met;
use crate::print::Dialect;
use crate::texts;
use crate::tree::{Shape, Tree};
use crate::Random;

/// Puts the fault of a number from 23 to 29 into the draft; the others aren't in the message's tree.
pub fn add(random: &mut Random, types: &Types, draft: &mut Draft, number: u32) {
    match number {
        23 => not_text(random, draft),
        24 => too_deep(random, draft),
        25 => repeat_key(random, draft),
        26 => no_envelope(random, draft),
        27 => unknown_command(random, types, draft),
        28 => rename_command_key(draft, "exec-oob"),
        29 => no_reading(random, types, draft),
        _ => {}
    }
}

fn not_text(random: &mut Random, draft: &mut Draft) {
    let (wrong, _) = texts::wrong_value(random, Dialect::Message);
    if draft.envelope.is_empty() {
        return draft.envelope.push((Tree::text("id"), wrong));
    }
    let mut trees = [Tree::object(std::mem::take(&mut draft.envelope))];
    texts::replace_value(random, &mut trees, wrong);
    let [mut tree] = trees;
    draft.envelope = std::mem::take(tree.members_mut().expect("an envelope is an object"));
}

/// Something before or after the message.
pub fn break_ends(random: &mut Random, message: &mut Vec<u8>) {
    let before: [&[u8]; 5] = [b"\xEF\xBB\xBF", b"\x00", b"]", b"#\n", b"\x0C"];
    let after: [&[u8]; 6] = [b"}", b"{}", b",", b"\x00", b"\xFF", b"//"];
    match random.below(4) {
        0 => drop(message.splice(0..0, random.pick(&before).iter().copied())),
        1 => message.extend(*random.pick(&after)),
        2 => message.truncate(random.below(message.len())),
        _ => message.clear(),
    }
}

/// An id, in place of any other, that opens one level too many.
fn too_deep(random: &mut Random, draft: &mut Draft) {
    let extra = if random.one_in(2) { 0 } else { random.below(5) };
    let mut tree = Tree::list(Vec::new());
    for _ in 1..MOST_LEVELS + extra {
        tree = match random.one_in(2) {
            true => Tree::list(vec![tree]),
            false => Tree::object(vec![(Tree::text("a"), tree)]),
        };
    }
    draft.envelope.retain(|(key, _)| key.as_text() != Some("id"));
    insert(random, &mut draft.envelope, (Tree::text("id"), tree));
}

/// A key of any object a second time, with a value of any kind; sometimes of an object with many keys.
fn repeat_key(random: &mut Random, draft: &mut Draft) {
    if draft.envelope.is_empty() || random.one_in(4) {
        let keys = (0..random.between(1, 80)).map(|i| (Tree::text(format!("k{i}")), Tree::raw("0")));
        draft.envelope.retain(|(key, _)| key.as_text() != Some("id"));
        draft.envelope.push((Tree::text("id"), Tree::object(keys.collect())));
    }
    let mut tree = Tree::object(std::mem::take(&mut draft.envelope));
    let objects = tree.find_all(|tree| matches!(&tree.shape, Shape::Object(members) if !members.is_empty()));
    let object = *random.pick(&objects);
    let members = tree.nth_mut(object).and_then(Tree::members_mut).expect("an object has members");
    let key = random.pick(members).0.as_text().unwrap_or_default().to_string();
    let value = texts::scalar(random, Dialect::Message);
    insert(random, members, (Tree::text(key), value));
    draft.envelope = std::mem::take(tree.members_mut().expect("an envelope is an object"));
}

fn no_envelope(random: &mut Random, draft: &mut Draft) {
    let is_command = |key: &Tree| matches!(key.as_text(), Some("execute" | "exec-oob"));
    match random.below(5) {
        0 => {
            let other = ["x", "", "Execute", "exec_oob", "argument", "arguments ", "ID", "return", "\u{0}id", "é"];
            let pair = (Tree::text(*random.pick(&other)), texts::scalar(random, Dialect::Message));
            insert(random, &mut draft.envelope, pair);
        }
        1 => draft.envelope.retain(|(key, _)| !is_command(key)),
        2 => {
            let there = |name: &str| draft.envelope.iter().any(|(key, _)| key.as_text() == Some(name));
            let other = if there("execute") { "exec-oob" } else { "execute" };
            insert(random, &mut draft.envelope, (Tree::text(other), Tree::text(draft.name)));
        }
        3 => {
            let wrong = Tree::raw(*random.pick(&["null", "5", "[]", "{}", "true", "[\"x\"]"]));
            draft.envelope.iter_mut().filter(|(key, _)| is_command(key)).for_each(|(_, value)| *value = wrong.clone());
        }
        _ => {
            draft.envelope.retain(|(key, _)| key.as_text() != Some("arguments"));
            let wrong = Tree::raw(*random.pick(&["null", "[]", "\"\"", "5", "false", "[{}]"]));
            insert(random, &mut draft.envelope, (Tree::text("arguments"), wrong));
        }
    }
}

fn unknown_command(random: &mut Random, types: &Types, draft: &mut Draft) {
    let is_command = |name: &str| matches!(types.model().find(name), Some(Definition::Command { .. }));
    let others = types.model().definitions.iter().map(|definition| definition.name().to_string());
    let mut names: Vec<_> = others.filter(|name| !is_command(name)).collect();
    let own = draft.name;
    names.extend(["", "str", "no-such-command", "é", "\u{0}", "execute"].map(str::to_string));
    names.extend([format!("{own}x"), format!("{own}\u{0}"), format!(" {own}"), own[1..].to_string()]);
    names.extend(met(random, own));
    names.retain(|name| !is_command(name));
    let name = random.pick(&names);
    for (key, value) in &mut draft.envelope {
        if matches!(key.as_text(), Some("execute" | "exec-oob")) {
            *value = Tree::text(name);
        }
    }
}

fn rename_command_key(draft: &mut Draft, name: &str) {
    for (key, _) in &mut draft.envelope {
        if matches!(key.as_text(), Some("execute" | "exec-oob")) {
            *key = Tree::text(name);
        }
    }
}

/// Takes the reading away from one value of the arguments.
fn no_reading(random: &mut Random, types: &Types, draft: &mut Draft) {
    let place = draft.envelope.iter().position(|(key, _)| key.as_text() == Some("arguments"));
    let Some(place) = place else {
        let arguments = Tree::object(vec![unknown_member(random)]);
        return insert(random, &mut draft.envelope, (Tree::text("arguments"), arguments));
    };
    let arguments = &mut draft.envelope[place].1;
    let marked = arguments.find_all(|tree| tree.mark != 0);
    for _ in 0..4 {
        let number = *random.pick(&marked);
        let value = arguments.nth_mut(number).expect("a marked value is there");
        let [reference, array] = draft.records[value.mark as usize - 1][0];
        if break_value(random, types, value, reference, array == 1, number == 0) {
            return;
        }
    }
    add_unknown_member(random, arguments);
}

/// Makes a value one that its type doesn't take; says whether it could. The arguments must stay an object.
fn break_value(
    random: &mut Random,
    types: &Types,
    value: &mut Tree,
    reference: u32,
    array: bool,
    arguments: bool,
) -> bool {
    if array {
        *value = Tree::raw(*random.pick(&["{}", "null", "\"[]\"", "0", "true"]));
        return true;
    }
    let wrong: Vec<String> = match reference {
        1 => strings(&["7", "null", "true", "[]", "{}", "[\"a\"]"]),
        2 => strings(&["\"7\"", "null", "false", "[7]", "{}", "\"\""]),
        3..=12 if random.one_in(2) => beside_range(reference),
        3..=12 => wrong_integers(reference),
        13 => strings(&["\"true\"", "0", "null", "[]", "{}"]),
        14 => strings(&["false", "0", "\"null\"", "[]", "{}", "\"\""]),
        15 => return false,
        _ => match types.referred(reference) {
            Some(Definition::Enum { values, .. }) => wrong_values(random, values),
            Some(Definition::Alternate { .. }) => strings(&["[]", "[null]", "[{}]"]),
            _ => return break_object(random, types, value, reference, arguments),
        },
    };
    *value = Tree::raw(random.pick(&wrong));
    true
}

/// What is no value of an enum: one that only meets a value in C, sometimes.
fn wrong_values(random: &mut Random, values: &[String]) -> Vec<String> {
    let value = random.pick(values);
    match met(random, value).filter(|_| random.one_in(2)) {
        Some(other) => vec![format!("\"{other}\"")],
        None => strings(&["\"no such value\"", "0", "null", "[]", "{}", "\"\\u0000\""]),
    }
}

fn strings(texts: &[&str]) -> Vec<String> {
    texts.iter().map(|text| text.to_string()).collect()
}

pub fn beside_range(reference: u32) -> Vec<String> {
    let (low, high) = range(reference);
    vec![(low - 1).to_string(), (high + 1).to_string()]
}

/// Far beyond the range, in a form that is no integer, or no number.
pub fn wrong_integers(reference: u32) -> Vec<String> {
    let (_, high) = range(reference);
    let mut wrong = strings(&["1.0", "1e2", "0.0", "-0.0", "0e0", "\"7\"", "null", "true", "[]", "{}", "[1]"]);
    wrong.extend([format!("{high}0"), format!("-{high}00"), ((1_i128 << 64) + 7).to_string()]);
    wrong.push(format!("1{}", "0".repeat(400)));
    wrong
}

/// A struct's or union's object with a member too many, one too few, one under a name that only meets its own in C; or
/// no object.
fn break_object(random: &mut Random, types: &Types, value: &mut Tree, reference: u32, arguments: bool) -> bool {
    match random.below(4) {
        0 if !arguments => *value = Tree::raw(*random.pick(&["[]", "null", "\"\"", "0", "[{}]", "true"])),
        1 => return drop_mandatory_member(random, &mandatory_members(types, reference), value),
        2 => return respell_member(random, value),
        _ => add_unknown_member(random, value),
    }
    true
}

fn mandatory_members(types: &Types, reference: u32) -> Vec<String> {
    let members: Vec<&Member> = match types.referred(reference) {
        Some(Definition::Union { base, .. }) => types.model().fields(base),
        _ => types.struct_members(reference),
    };
    members.into_iter().filter(|member| !member.optional).map(|member| member.name.clone()).collect()
}

fn drop_mandatory_member(random: &mut Random, mandatory: &[String], value: &mut Tree) -> bool {
    let (Some(members), false) = (value.members_mut(), mandatory.is_empty()) else {
        return false;
    };
    let name = random.pick(mandatory);
    let before = members.len();
    members.retain(|(key, _)| key.as_text() != Some(name));
    members.len() < before
}

/// Gives a member another name that meets its own in C: no member has it.
fn respell_member(random: &mut Random, value: &mut Tree) -> bool {
    let Some(members) = value.members_mut().filter(|members| !members.is_empty()) else {
        return false;
    };
    let place = random.below(members.len());
    let key = &mut members[place].0;
    match met(random, key.as_text().unwrap_or_default()) {
        Some(other) => *key = Tree::text(other),
        None => return false,
    }
    true
}

fn add_unknown_member(random: &mut Random, value: &mut Tree) {
    if let Some(members) = value.members_mut() {
        let member = unknown_member(random);
        insert(random, members, member);
    }
}

/// A member with a key that no good name equals, or that no schema made here uses.
fn unknown_member(random: &mut Random) -> (Tree, Tree) {
    let key = *random.pick(&["", "*", "no-such-member", "é", "a b", "\u{0}", "q_", "1"]);
    (Tree::text(key), texts::scalar(random, Dialect::Message))
}

fn insert(random: &mut Random, members: &mut Vec<(Tree, Tree)>, member: (Tree, Tree)) {
    let place = random.below(members.len() + 1);
    members.insert(place, member);
}

/// Blanks before or after, to more bytes than a message may have.
pub fn lengthen(random: &mut Random, message: &mut Vec<u8>) {
    let length = MOST_BYTES + 1 + if random.one_in(2) { 0 } else { random.below(5_000) };
    let blanks = vec![*random.pick(b" \t\r\n"); length.saturating_sub(message.len())];
    match random.one_in(2) {
        true => message.extend(blanks),
        false => drop(message.splice(0..0, blanks)),
    }
}
