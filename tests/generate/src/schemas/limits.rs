//! Schemas on either side of each limit.

use super::{faults, SchemaCase, MOST_BYTES, MOST_ROWS, ROW};

/// Pairs of schemas, within a limit and beyond it, with their numbers.
pub fn limits() -> Vec<SchemaCase> {
    let whole = MOST_ROWS * ROW;
    let mut cases = Vec::new();
    let mut add = |text: String, room: usize, number: u32| {
        cases.push(SchemaCase { bytes: text.into_bytes(), room, number: Some(number) });
    };
    add(chain(16), whole, 0);
    add(chain(17), whole, 8);
    for length in 1..=4 {
        add(cycle(length), whole, 8);
    }
    add(cycle(16), whole, 8);
    add(cycle(17), whole, 8);
    add(enum_rows(1_024), whole, 0);
    add(enum_rows(1_024), whole - 1, 13);
    add(enum_rows(1_024), whole + 7, 0);
    add(enum_rows(1_025), whole, 12);
    add(enum_rows(1_025), whole + ROW, 12);
    add(enum_rows(4_000), 0, 12);
    add(command_rows(1_024), whole, 0);
    add(command_rows(1_025), whole, 12);
    for padding in [" ", "\n", "#"] {
        add(padded(MOST_BYTES, padding), whole, 0);
        add(padded(MOST_BYTES + 1, padding), whole, 1);
    }
    add("#".repeat(MOST_BYTES), 0, 0);
    add("{".repeat(MOST_BYTES + 1), 0, 1);
    add(nested(8), whole, 4);
    add(nested(9), whole, 2);
    add(String::new(), 0, 0);
    add(named(63), whole, 0);
    add(named(64), whole, 5);
    add(list_of("", 10_000), whole, 5);
    add(list_of("a", 8_000), whole, 6);
    add(distinct_values(5_000), whole, 12);
    add(format!("{}{}", enum_rows(1_025), named(64)), whole, 5);
    add(format!("{}{}", enum_rows(1_025), chain(17)), 0, 8);
    add("{}".repeat(MOST_BYTES / 2), whole, 4);
    add("{'command':'c'}".repeat(2_000), whole, 6);
    add(wide_structs(500), whole, 0);
    add(wide_structs(511), whole, 0);
    add(wide_structs(512), whole, 12);
    cases
}

/// Every definition with one fault, alone.
pub fn every_fault() -> impl Iterator<Item = SchemaCase> {
    let case = |(text, number): (String, u32)| SchemaCase {
        bytes: text.into_bytes(),
        room: MOST_ROWS * ROW,
        number: Some(number),
    };
    faults::every().map(case)
}

fn chain(length: usize) -> String {
    let own = |i: usize| format!("{{'struct':'s{i}','base':'s{}','data':{{'m{i}':'int'}}}}", i + 1);
    let last = format!("{{'struct':'s{length}','data':{{'m{length}':'int'}}}}");
    (1..length).map(own).chain([last]).collect()
}

fn cycle(length: usize) -> String {
    (0..length).map(|i| format!("{{'struct':'s{i}','base':'s{}','data':{{}}}}", (i + 1) % length)).collect()
}

fn enum_rows(count: usize) -> String {
    let values: Vec<_> = (1..count).map(|i| format!("'{i}'")).collect();
    format!("{{'enum':'e','data':[{}]}}", values.join(","))
}

fn command_rows(count: usize) -> String {
    (0..count).map(|i| format!("{{'command':'c{i}'}}")).collect()
}

fn padded(length: usize, padding: &str) -> String {
    let text = "{'enum':'e','data':['v']}";
    format!("{text}{}", padding.repeat(length - text.len()))
}

fn nested(levels: usize) -> String {
    format!("{{'enum':{}{}}}", "[".repeat(levels - 1), "]".repeat(levels - 1))
}

fn named(length: usize) -> String {
    format!("{{'command':'{}'}}", "n".repeat(length))
}

/// An enum with one value so many times.
fn list_of(value: &str, count: usize) -> String {
    format!("{{'enum':'e','data':[{}'{value}']}}", format!("'{value}',").repeat(count - 1))
}

/// An enum of many values, none of more than three letters.
fn distinct_values(count: usize) -> String {
    const LETTERS: &[u8] = b"abcdefghijklmnopqrstuvwxyz";
    let letter = |number: usize| char::from(LETTERS[number % LETTERS.len()]);
    let value = |i: usize| format!("'{}{}{}'", letter(i), letter(i / 26), letter(i / 26 / 26));
    format!("{{'enum':'e','data':[{}]}}", (0..count).map(value).collect::<Vec<_>>().join(","))
}

/// A struct and its base with so many members each.
fn wide_structs(count: usize) -> String {
    let members = |letter: char| (0..count).map(|i| format!("'{letter}{i}':'int'")).collect::<Vec<_>>().join(",");
    let base = format!("{{'struct':'t','data':{{{}}}}}", members('b'));
    format!("{{'struct':'s','base':'t','data':{{{}}}}}{base}", members('a'))
}
