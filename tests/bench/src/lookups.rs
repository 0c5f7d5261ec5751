//! Finding the command that a message names, alone: a whole call also judges the table. Rust is a loop over the rows
//! that compares lengths and last bytes first, and decodes an escaped name once.

use std::hint::black_box;
use std::process::ExitCode;
use std::time::Duration;

use harness::{ensure, Check, Report, Tally};
use product::commands::find_command;
use product::text::words_for;
use reference::message::MESSAGE_LEVELS;
use reference::rows::{COMMAND, ROW};
use reference::strings::Token;
use reference::text::{read, Dialect, Node, Verdict};

use crate::calls::ROWS;
use crate::line::{measured, Line, Task};

/// Commands of the table, with names of 40 bytes that differ in their last four only, the last of which is a digit.
const COMMANDS: usize = 500;
const STEM: &str = "stop-lot-after-the-next-valve-opens-";

/// The last bytes of missing names.
const OTHER_LAST: &str = "abcdefghijklmnopqrst";

/// The longest names asked for.
const LONG: usize = 16_000;

/// Lookups of an input, all alike.
const LOOKUPS: usize = 100;
const ROUNDS: usize = 31;

/// The product may take so many times what Rust takes, and more where a lookup takes no longer than this.
const MOST_TIMES: f64 = 3.0;
const SHORT: Duration = Duration::from_nanos(200);

/// The node of the name in `{"execute":NAME}`.
const NAME_NODE: usize = 2;

pub fn lines() -> Vec<Line> {
    let stocked = Table::new((0..COMMANDS).map(name));
    let differ_first = Table::new((0..COMMANDS).map(|i| name_with(1, i)));
    let differ_midway = Table::new((0..COMMANDS).map(|i| name_with(STEM.len() / 2, i)));
    let stop_lot_last = Table::new((1..COMMANDS).map(name).chain(["stop-lot".to_string()]));
    let missing = |escape: fn(&str) -> String| {
        OTHER_LAST.chars().map(|last| escape(&format!("{STEM}000{last}"))).collect::<Vec<_>>()
    };
    let row = |row: usize| vec![name(row)];
    let long = |first: &str| vec![format!("{first}{}", "a".repeat(LONG - first.len()))];
    vec![
        stocked.line(MISSING, missing(str::to_string)),
        stocked.line("100 lookups: a name in the first row", row(0)),
        stocked.line("100 lookups: a name in the middle row", row(COMMANDS / 2)),
        stocked.line("100 lookups: a name in the last row", row(COMMANDS - 1)),
        differ_first.line("100 lookups: last row, first bytes differ", vec![name_with(1, COMMANDS - 1)]),
        differ_midway.line("100 lookups: last row, middle bytes differ", vec![name_with(STEM.len() / 2, COMMANDS - 1)]),
        stocked.line("100 lookups: missing, first letter escaped", missing(first_escaped)),
        stocked.line("100 lookups: missing, a letter that is no byte", vec![format!("\\u0173{}", &name(0)[1..])]),
        stocked.line("100 lookups: missing, escaped throughout", missing(all_escaped)),
        stocked.line("100 lookups: last row, first letter escaped", vec![first_escaped(&name(COMMANDS - 1))]),
        stop_lot_last.line("100 lookups: \\u0073top-lot in the last row", vec![first_escaped("stop-lot")]),
        stocked.line("100 lookups: a name of 16,000 bytes", long("")),
        stocked.line("100 lookups: 16,000 bytes, first letter escaped", long(&first_escaped("s"))),
        stocked.line(
            "100 lookups: 16,000 bytes of escapes",
            vec![all_escaped(&"s".repeat(LONG / all_escaped("s").len()))],
        ),
    ]
}

/// The line that is bounded however short a lookup is.
const MISSING: &str = "100 lookups: a missing name, another last byte";

/// Runs the lines alone, and fails where the product takes too long beside Rust.
pub fn timing_test() -> ExitCode {
    println!("{}", Line::heading());
    let mut report = Report::new("lookups");
    for line in lines() {
        println!("{line}");
        let mut tally = Tally::default();
        let checked = check(&line);
        if checked.is_ok() {
            tally.pass();
        }
        report.add(checked, &tally);
    }
    report.finish()
}

fn check(line: &Line) -> Check {
    let short = line.what != MISSING && line.product <= SHORT * LOOKUPS as u32;
    ensure(short || line.ratio() <= MOST_TIMES, || {
        format!("{}: {:.2} times what Rust takes, more than {MOST_TIMES}", line.what, line.ratio())
    })
}

fn name(i: usize) -> String {
    name_with(STEM.len(), i)
}

/// A name with its four digits at a place.
fn name_with(place: usize, i: usize) -> String {
    format!("{}{i:04}{}", &STEM[..place], &STEM[place..])
}

fn first_escaped(name: &str) -> String {
    format!("{}{}", all_escaped(&name[..1]), &name[1..])
}

fn all_escaped(name: &str) -> String {
    name.bytes().map(|byte| format!("\\u{byte:04x}")).collect()
}

/// A schema of commands, and its table.
struct Table {
    schema: Vec<u8>,
    rows: Vec<u32>,
}

/// A message that names a command, with its nodes as the product has them, and the name's as Rust has it.
struct Message {
    text: Vec<u8>,
    nodes: Vec<u32>,
    name: Node,
}

impl Message {
    fn new(name: &str) -> Self {
        let text = format!("{{\"execute\":\"{name}\"}}").into_bytes();
        let mut nodes = vec![0; words_for(text.len())];
        product::text::read(false, &text, &mut nodes);
        let Verdict::Whole(read) = read(Dialect::Message, &text, MESSAGE_LEVELS) else {
            panic!("an envelope is a text");
        };
        Message { nodes, name: read[NAME_NODE], text }
    }
}

impl Table {
    fn new(names: impl Iterator<Item = String>) -> Self {
        let schema = names.map(|name| format!("{{'command':'{name}'}}")).collect::<String>().into_bytes();
        let mut rows = vec![0; ROWS];
        let (number, count, _) = windosprio::calls::compile(&schema, &mut rows);
        assert_eq!((number, count), (0, COMMANDS), "a schema of commands");
        rows.truncate(count * ROW);
        Table { schema, rows }
    }

    /// What it takes to look the names up; both give the row, or the number of rows.
    fn line(&self, what: &'static str, names: Vec<String>) -> Line {
        let messages: Vec<_> = names.iter().map(|name| Message::new(name)).collect();
        let by_product = |message: &Message| self.found_by_product(message);
        let by_rust = |message: &Message| self.found_by_rust(message);
        let task = Task {
            what,
            product: Box::new(|message| repeated(message, by_product)),
            rust: Box::new(|message| repeated(message, by_rust)),
        };
        let [line] = measured(&messages, |message| message.text.len() * LOOKUPS, ROUNDS, [task]);
        line
    }

    fn found_by_product(&self, message: &Message) -> usize {
        let found = find_command(&self.rows, &self.schema, &message.text, &message.nodes, NAME_NODE);
        found.unwrap_or(COMMANDS)
    }

    fn found_by_rust(&self, message: &Message) -> usize {
        let name = Token::new(&message.text, message.name).meaning();
        let is_it = |row: &[u32; ROW]| {
            let [kind, start, length, ..] = *row;
            let (start, length) = (start as usize, length as usize);
            kind == COMMAND && length == name.len() && {
                let known = &self.schema[start..start + length];
                known.last() == name.last() && *known == *name
            }
        };
        self.rows.as_chunks().0.iter().position(is_it).unwrap_or(COMMANDS)
    }
}

/// As often as an input has it, one lookup after another.
fn repeated(message: &Message, find: impl Fn(&Message) -> usize) -> usize {
    (0..LOOKUPS).fold(0, |_, _| black_box(find(black_box(message))))
}

#[cfg(test)]
mod tests {
    use super::*;

    #[test]
    fn names_are_of_the_kind_that_is_timed() {
        assert!([name(0), name_with(1, 499), format!("{STEM}000a")].iter().all(|name| name.len() == 40));
        assert!((0..COMMANDS).all(|i| !OTHER_LAST.contains(name(i).chars().last().unwrap())));
        assert_eq!(first_escaped("stop-lot"), "\\u0073top-lot");
    }

    #[test]
    fn a_line_beyond_the_bound_fails() {
        let line = |what, product: u64, rust: u64| {
            Line::new(what, 1, [product, rust].map(|nanos| Duration::from_nanos(nanos * LOOKUPS as u64)))
        };
        assert!(check(&line(MISSING, 300, 100)).is_ok() && check(&line(MISSING, 301, 100)).is_err());
        assert!(check(&line(MISSING, 31, 10)).is_err());
        assert!(check(&line("another", 31, 10)).is_ok() && check(&line("another", 201, 60)).is_err());
    }
}
