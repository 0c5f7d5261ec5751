//! Schemas: valid ones with the rows they compile to, ones aimed at each number and at pairs, mutated ones, and those
//! beside the limits.

mod faults;
mod layout;
mod limits;
mod meeting;
mod mixes;

use crate::damage::damage;
use crate::model::Model;
use crate::names::Names;
use crate::print::{print, Dialect, Style};
use crate::texts;
use crate::tree::{Shape, Tree};
use crate::Random;

pub use limits::{every_fault, limits};
pub use meeting::{every_pair, every_respelled, Respelled};
pub use mixes::{every_mix, every_respelled_value};

const MOST_BYTES: usize = 32_768;
const MOST_ROWS: usize = 1_024;
const ROW: usize = 8;

/// An accepted schema and the words of its table.
#[derive(Clone, Debug)]
pub struct Schema {
    pub model: Model,
    pub bytes: Vec<u8>,
    pub words: Vec<u32>,
}

/// A schema to compile with `room` words, and its number where that follows from how it was made.
#[derive(Clone, Debug)]
pub struct SchemaCase {
    pub bytes: Vec<u8>,
    pub room: usize,
    pub number: Option<u32>,
}

/// A valid schema of a few definitions.
pub fn valid(random: &mut Random) -> Schema {
    let size = *random.pick(&[1, 4, 10, 20]);
    let longest = *random.pick(&[5, 5, 5, 24]);
    let style = Style::any(random, Dialect::Schema);
    valid_of(random, size, longest, style)
}

/// A valid schema of few rows, with a definition of each kind.
pub fn small(random: &mut Random) -> Schema {
    valid_of(random, 1, 3, Style::compact(Dialect::Schema))
}

/// A valid schema of about 1,000 rows and as many blanks and comments as 32,768 bytes have room for.
pub fn large(random: &mut Random) -> Schema {
    loop {
        let size = random.between(85, 115);
        let model = Model::valid(random, size, 12);
        if (MOST_ROWS - 60..=MOST_ROWS).contains(&model.row_count()) {
            let styles = [30, 20, 12, 6, 3, 0].map(|blanks| Style { dialect: Dialect::Schema, blanks, escapes: 0 });
            if let Some(schema) = styles.into_iter().find_map(|style| printed(random, &model, style)) {
                return schema;
            }
        }
    }
}

fn valid_of(random: &mut Random, size: usize, longest: usize, style: Style) -> Schema {
    loop {
        let model = Model::valid(random, size, longest);
        if let Some(schema) = printed(random, &model, style) {
            return schema;
        }
    }
}

/// The schema of a model that isn't too long, without blanks.
pub fn from_model(model: &Model) -> Schema {
    printed(&mut Random::new(0), model, Style::compact(Dialect::Schema)).expect("the model fits")
}

/// The model's schema and table, unless they are too long.
fn printed(random: &mut Random, model: &Model, style: Style) -> Option<Schema> {
    let (rows, trees) = layout::lay_out(random, model);
    let printed = print(random, style, &trees);
    let fits = printed.bytes.len() <= MOST_BYTES && rows.len() <= MOST_ROWS;
    fits.then(|| {
        let words = layout::named(rows, &printed);
        Schema { model: model.clone(), bytes: printed.bytes, words }
    })
}

/// A case with a fault for each of the numbers given, 1 to 13; without any, a valid one. Its number is the lowest.
pub fn aimed(random: &mut Random, numbers: &[u32]) -> SchemaCase {
    let size = *random.pick(&[1, 3, 8]);
    let model = Model::valid(random, size, 5);
    let mut names = Names::new();
    model.definitions.iter().for_each(|definition| names.avoid(definition.name()));
    let (rows, mut trees) = layout::lay_out(random, &model);
    for &number in numbers {
        add_fault(random, &mut names, &mut trees, number);
    }
    let mut bytes = print_short(random, &trees);
    if numbers.contains(&1) {
        let length = MOST_BYTES + 1 + if random.one_in(2) { 0 } else { random.below(9_000) };
        pad(random, &mut bytes, length);
    }
    let room = if numbers.contains(&13) { too_few(random, rows.len()) } else { enough(random, rows.len(), numbers) };
    SchemaCase { bytes, room, number: Some(numbers.iter().min().copied().unwrap_or(0)) }
}

/// With blanks and comments, unless that makes it too long.
fn print_short(random: &mut Random, trees: &[Tree]) -> Vec<u8> {
    let style = Style::any(random, Dialect::Schema);
    let printed = print(random, style, trees).bytes;
    match printed.len() <= MOST_BYTES {
        true => printed,
        false => print(random, Style::compact(Dialect::Schema), trees).bytes,
    }
}

fn add_fault(random: &mut Random, names: &mut Names, trees: &mut Vec<Tree>, number: u32) {
    let added = match number {
        1 | 13 => return,
        2 => return add_text_fault(random, trees),
        12 => vec![faults::many_rows(random, names)],
        _ => faults::trees(random, names, number),
    };
    for tree in added {
        let place = random.below(trees.len() + 1);
        trees.insert(place, tree);
    }
}

/// A value with a fault, or something between the definitions that is no object.
fn add_text_fault(random: &mut Random, trees: &mut Vec<Tree>) {
    if !random.one_in(4) {
        let (wrong, _) = texts::wrong_value(random, Dialect::Schema);
        if texts::replace_value(random, trees, wrong) {
            return;
        }
    }
    let nine_levels = "{'a':[[[[[[[[]]]]]]]]}";
    let outer = [",", "[]", "'a'", "true", "}", "{", "\u{FEFF}", "null", "1", "\\", "{'a'}", nine_levels];
    let place = random.below(trees.len() + 1);
    trees.insert(place, Tree::raw(random.pick(&outer)));
}

/// Blanks or a comment before or after, up to a length.
pub fn pad(random: &mut Random, bytes: &mut Vec<u8>, length: usize) {
    let missing = length.saturating_sub(bytes.len());
    let padding = match (random.below(3), missing) {
        (_, 0) => return,
        (0, 2..) => [&b"#"[..], &vec![b'{'; missing - 2], b"\n"].concat(),
        _ => vec![*random.pick(b" \t\r\n"); missing],
    };
    match random.one_in(2) {
        true => bytes.extend(padding),
        false => drop(bytes.splice(0..0, padding)),
    }
}

fn too_few(random: &mut Random, rows: usize) -> usize {
    match random.below(3) {
        0 => 0,
        1 => rows * ROW - 1,
        _ => random.below(rows * ROW),
    }
}

/// Exactly enough where only the model's rows are needed, else the whole room.
fn enough(random: &mut Random, rows: usize, faults: &[u32]) -> usize {
    match faults.is_empty() && random.one_in(2) {
        true => rows * ROW + random.below(20),
        false => MOST_ROWS * ROW,
    }
}

/// A valid schema changed somehow, in its tree or in its bytes.
pub fn mutated(random: &mut Random) -> SchemaCase {
    let size = *random.pick(&[1, 3, 8]);
    let model = Model::valid(random, size, 5);
    let (rows, mut trees) = layout::lay_out(random, &model);
    let in_tree = !random.one_in(3);
    if in_tree {
        (0..random.between(1, 3)).for_each(|_| mutate_trees(random, &mut trees));
    }
    let mut bytes = print_short(random, &trees);
    if !in_tree || random.one_in(8) {
        (0..random.between(1, 3)).for_each(|_| damage(random, &mut bytes));
    }
    let room = if random.one_in(10) { random.below(rows.len() * ROW + 1) } else { MOST_ROWS * ROW };
    SchemaCase { bytes, room, number: None }
}

/// Moves a part of the schema elsewhere: a definition, a member, a name.
fn mutate_trees(random: &mut Random, trees: &mut Vec<Tree>) {
    let Some(from) = (!trees.is_empty()).then(|| random.pick(trees).clone()) else {
        return;
    };
    let which = random.below(trees.len());
    match random.below(10) {
        0 => drop(trees.remove(which)),
        1 => trees.push(from),
        _ => mutate_tree(random, &mut trees[which], from),
    }
}

/// Puts a part of `from` into a tree, or takes a part of it away.
pub fn mutate_tree(random: &mut Random, tree: &mut Tree, mut from: Tree) {
    let source = random.below(from.count());
    let Some(source) = from.nth_mut(source).cloned() else {
        return;
    };
    let count = tree.count();
    let Some(target) = tree.nth_mut(random.below(count)) else {
        return;
    };
    match (&mut target.shape, random.below(4)) {
        (Shape::Object(members), 0) if !members.is_empty() => drop(members.remove(random.below(members.len()))),
        (Shape::Object(members), 1 | 2) if !members.is_empty() => {
            let member = random.pick(members).clone();
            let value = if random.one_in(2) { source } else { member.1 };
            members.push((changed_key(random, member.0), value));
        }
        (Shape::List(elements), 0) if !elements.is_empty() => drop(elements.remove(random.below(elements.len()))),
        (Shape::List(elements), 1 | 2) => elements.push(source),
        _ => *target = source,
    }
}

/// The same key, or one a letter away.
fn changed_key(random: &mut Random, key: Tree) -> Tree {
    let text = key.as_text().unwrap_or_default();
    match random.below(4) {
        0 => Tree::text(format!("*{text}")),
        1 => Tree::text(text.strip_prefix('*').unwrap_or(text)),
        2 => Tree::text(format!("{text}x")),
        _ => key,
    }
}
