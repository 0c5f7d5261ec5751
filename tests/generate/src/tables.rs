//! Tables beside schema bytes: compiled ones, ones with words changed, names moved or bytes added, and random words.

use crate::names::{good_name, met, TELLING_VALUES};
use crate::schemas::{pad, Schema};
use crate::Random;

const ROW: usize = 8;
const MOST_SCHEMA_BYTES: usize = 32_768;

/// Words and bytes to judge, and whether they are sound where that follows from how they were made.
#[derive(Clone, Debug)]
pub struct TableCase {
    pub words: Vec<u32>,
    pub schema: Vec<u8>,
    pub sound: Option<bool>,
}

/// A case of any sort, from a compiled table.
pub fn any(random: &mut Random, schema: &Schema) -> TableCase {
    let bytes = schema.bytes.clone();
    match random.below(20) {
        0 => TableCase { words: schema.words.clone(), schema: bytes, sound: Some(true) },
        1 => TableCase { words: unsound(random, &schema.words), schema: bytes, sound: Some(false) },
        2 => lengthened(random, schema),
        3 => moved_names(random, schema),
        4 => TableCase { words: random_words(random), schema: bytes, sound: None },
        5 => TableCase { words: random_words(random), schema: NAMES.to_vec(), sound: None },
        _ => TableCase { words: mutated(random, &schema.words, schema.bytes.len()), schema: bytes, sound: None },
    }
}

/// Bytes of which nearly every span is a good name.
const NAMES: &[u8] = b"abcdefghijklmnopqrstuvwxyzABCDEFGHIJKLMNOPQRST";

/// A sound table, but for the length of the schema beside it.
fn lengthened(random: &mut Random, schema: &Schema) -> TableCase {
    let (length, sound) = *random.pick(&[(MOST_SCHEMA_BYTES, true), (MOST_SCHEMA_BYTES + 1, false)]);
    let mut bytes = schema.bytes.clone();
    bytes.resize(length, b' ');
    TableCase { words: schema.words.clone(), schema: bytes, sound: Some(sound) }
}

/// Some names written anew at the very end of the schema; these needn't be as they were, nor apart.
fn moved_names(random: &mut Random, schema: &Schema) -> TableCase {
    let mut case = TableCase { words: schema.words.clone(), schema: schema.bytes.clone(), sound: None };
    for _ in 0..random.between(1, 3) {
        let row = random.below(case.words.len() / ROW) * ROW;
        let name = any_name(random, &case, row);
        if case.words[row + 2] > 0 || random.one_in(10) {
            case.words[row + 1] = case.schema.len() as u32;
            case.words[row + 2] = name.len() as u32;
            case.schema.extend(name.bytes());
        }
    }
    if random.one_in(4) {
        let length = case.schema.len() + random.below(9);
        pad(random, &mut case.schema, length);
    }
    case
}

/// A good name of any sort, one that tells a number or a bool as an enum value, or one that meets that of a row beside
/// in C.
fn any_name(random: &mut Random, case: &TableCase, row: usize) -> String {
    let place = (row / ROW + random.below(5)).saturating_sub(2) * ROW;
    let span = case.words.get(place + 1..place + 3).map(|span| (span[0] as usize, span[1] as usize));
    let known = span.and_then(|(start, length)| case.schema.get(start..start + length));
    let known = known.map(|name| String::from_utf8_lossy(name).into_owned()).filter(|_| random.one_in(2));
    match known.and_then(|name| met(random, &name)) {
        Some(name) => name,
        None if random.one_in(8) => random.pick(&TELLING_VALUES).to_string(),
        None => {
            let digit_first = random.one_in(4);
            good_name(random, digit_first)
        }
    }
}

/// A compiled table changed once or more; it may still be sound.
pub fn mutated(random: &mut Random, words: &[u32], schema_length: usize) -> Vec<u32> {
    let mut table = words.to_vec();
    for _ in 0..*random.pick(&[1, 1, 1, 2, 3]) {
        if table.len() < ROW {
            return random_words(random);
        }
        mutate(random, &mut table, schema_length);
    }
    table
}

fn mutate(random: &mut Random, table: &mut Vec<u32>, schema_length: usize) {
    let count = table.len() / ROW;
    let row = random.below(count) * ROW;
    let other = random.below(count) * ROW;
    match random.below(14) {
        0 => table[row] = random.below(12) as u32,
        1 => change_name(random, table, row, schema_length),
        2 => (1..3).for_each(|place| table[row + place] = table[other + place]),
        3..=6 => change_word(random, table, row, count),
        7 => drop(table.drain(row..row + ROW)),
        8 => copy_row(table, row, other),
        9 => (0..ROW).for_each(|place| table.swap(row + place, other + place)),
        10 => table.splice(row..row, [0; ROW]).for_each(drop),
        11 => twin_discriminator(random, table),
        12 => relink_to_kind(random, table),
        _ => table.truncate(random.below(table.len() + 1)),
    }
}

fn change_name(random: &mut Random, table: &mut [u32], row: usize, schema_length: usize) {
    let place = row + random.between(1, 2);
    table[place] = match random.below(6) {
        0 => table[place].wrapping_add(1),
        1 => table[place].wrapping_sub(1),
        2 => 0,
        3 => *random.pick(&HUGE),
        4 => schema_length as u32,
        _ => random.below(schema_length + 2) as u32,
    };
}

/// A count, link, reference, flag or unused word.
fn change_word(random: &mut Random, table: &mut [u32], row: usize, count: usize) {
    let place = row + *random.pick(&[3, 3, 3, 4, 4, 5, 5, 6, 7]);
    table[place] = match random.below(8) {
        0 => table[place].wrapping_add(1),
        1 => table[place].wrapping_sub(1),
        2 => table[place] ^ 1,
        3 => random.below(3) as u32,
        4 => random.below(count + 2) as u32,
        5 => random.below(count + 18) as u32,
        6 => *random.pick(&HUGE),
        _ => 16 + random.below(count) as u32,
    };
}

/// Words that would wrap, in 32 bits, when 16, a start, or a row's place is added or multiplied.
const HUGE: [u32; 7] = [u32::MAX, u32::MAX - 1, u32::MAX - 15, 1 << 31, 1 << 29, (1 << 29) + 1, 1 << 16];

/// Puts a copy of one row before another.
fn copy_row(table: &mut Vec<u32>, from: usize, to: usize) {
    let copy = table[from..from + ROW].to_vec();
    table.splice(to..to, copy);
}

/// Links a union to another member that gets the discriminator's name and type.
fn twin_discriminator(random: &mut Random, table: &mut [u32]) {
    let (unions, members) = (rows_of_kind(table, 5), rows_of_kind(table, 4));
    if unions.is_empty() || members.is_empty() {
        return;
    }
    let (union, twin) = (*random.pick(&unions), *random.pick(&members));
    let discriminator = (table[union * ROW + 5] as usize).wrapping_sub(1);
    if members.contains(&discriminator) {
        (1..ROW).for_each(|place| table[twin * ROW + place] = table[discriminator * ROW + place]);
        table[union * ROW + 5] = twin as u32 + 1;
    }
}

/// Sets a word that links or refers to a row of any one kind.
fn relink_to_kind(random: &mut Random, table: &mut [u32]) {
    let targets = rows_of_kind(table, *random.pick(&[1, 3, 3, 3, 4, 5, 7]));
    if targets.is_empty() {
        return;
    }
    let target = *random.pick(&targets) as u32;
    let row = random.below(table.len() / ROW) * ROW;
    match table[row] {
        3 => table[row + 4] = target + 1,
        4 | 8 => table[row + 3] = 16 + target,
        5 => table[row + *random.pick(&[3, 5])] = target + 1,
        6 => table[row + 3] = target + 1,
        9 if random.one_in(2) => table[row + 5] = 16 + target,
        _ => table[row + 3] = target + 1,
    }
}

fn rows_of_kind(table: &[u32], kind: u32) -> Vec<usize> {
    (0..table.len() / ROW).filter(|row| table[row * ROW] == kind).collect()
}

/// A table that isn't sound, from one that is.
pub fn unsound(random: &mut Random, words: &[u32]) -> Vec<u32> {
    let mut table = words.to_vec();
    match random.below(6) {
        0 => table.extend([0; ROW]),
        1 => table.push(random.below(3) as u32),
        2 if !table.is_empty() => drop(table.pop()),
        3 if !table.is_empty() => table[0] = *random.pick(&[0, 2, 4, 6, 8, 10, u32::MAX]),
        4 if !table.is_empty() => table[2] = *random.pick(&[0, 64, u32::MAX]),
        5 if !table.is_empty() => table[7] = random.between(1, 3) as u32,
        _ => table.extend([9, 0, 0, 0, 0, 0, 0, 0]),
    }
    table
}

/// Every table that differs from a compiled one in a single word, which may be a neighbour of what it was, any link or
/// reference, or far too large.
pub fn every_word_changed(words: &[u32]) -> impl Iterator<Item = Vec<u32>> + '_ {
    let references = 16 + (words.len() / ROW) as u32 + 2;
    (0..words.len()).flat_map(move |place| {
        let word = words[place];
        let beside = [word.wrapping_sub(1), word.wrapping_add(1), !word, word.wrapping_neg()];
        let values = (0..references).chain(beside).chain(HUGE);
        values.filter(move |&value| value != word).map(move |value| {
            let mut table = words.to_vec();
            table[place] = value;
            table
        })
    })
}

/// Words of small values, most often whole rows.
pub fn random_words(random: &mut Random) -> Vec<u32> {
    let mut words: Vec<u32> = Vec::new();
    for _ in 0..random.below(6) {
        words.push(random.between(1, 9) as u32);
        words.extend([random.below(40) as u32, random.between(1, 4) as u32]);
        words.extend((0..5).map(|_| if random.one_in(2) { 0 } else { random.below(20) as u32 }));
    }
    if random.one_in(5) {
        words.extend((0..random.below(9)).map(|_| random.word() as u32));
    }
    words
}
