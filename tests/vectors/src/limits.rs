//! Schemas and messages on either side of the limits, from the schema to the records: the counts, and messages
//! read with tables of such schemas. `compare` has further ones.

use crate::calls::{check_message, check_schema};

type Vector = (&'static str, Result<u32, String>);

pub fn check_all() -> Vec<Vector> {
    let [chain, rows, end] = [chain(16), rows(1_024), at_end(32_768)];
    let levels = "{'struct':'T','data':{'*t':'T'}}{'command':'c','data':'T'}";
    let text = "{'command':'c','data':{'s':'str'}}";
    let schema = |schema: &str, expected| check_schema(schema.as_bytes(), expected);
    let message =
        |schema: &str, message: &str, expected| check_message(schema.as_bytes(), message.as_bytes(), expected);
    vec![
        ("chain of 16 structs", schema(&chain, (0, 16 * 2 + 1))),
        ("members of a chain of 16 structs", message(&chain, &members(16), (0, 16 * 2, 17))),
        ("a member short of a chain of 16 structs", message(&chain, &members(15), (29, 0, 0))),
        ("chain of 17 structs", schema(&self::chain(17), (8, 0))),
        ("1,024 rows", schema(&rows, (0, 1_024))),
        ("1,025 rows", schema(&self::rows(1_025), (12, 0))),
        ("command in the last of 1,024 rows", message(&rows, r#"{"execute":"c1023"}"#, (0, 1_023, 1))),
        ("definition at the end of 32,768 bytes", schema(&end, (0, 1))),
        ("definition at the end of 32,769 bytes", schema(&at_end(32_769), (1, 0))),
        ("command at the end of 32,768 bytes", message(&end, r#"{"execute":"c"}"#, (0, 0, 1))),
        ("8 levels: text, but no definition", schema(&brackets(8), (4, 0))),
        ("9 levels: no text", schema(&brackets(9), (2, 0))),
        ("32 levels of structs", message(levels, &nested(32), (0, 2, 31))),
        ("33 levels of structs", message(levels, &nested(33), (24, 0, 0))),
        ("16,384 bytes with a long string", message(text, &long(16_384), (0, 0, 2))),
        ("16,385 bytes with a long string", message(text, &long(16_385), (22, 0, 0))),
    ]
}

/// A command over a chain of so many structs, each with a mandatory member of its own.
fn chain(length: usize) -> String {
    let base = |i: usize| if i == 1 { String::new() } else { format!("'base':'s{}',", i - 1) };
    let own = |i: usize| format!("{{'struct':'s{i}',{}'data':{{'m{i}':'bool'}}}}", base(i));
    let structs: String = (1..=length).map(own).collect();
    format!("{structs}{{'command':'c','data':'s{length}'}}")
}

/// The first members of such a chain.
fn members(count: usize) -> String {
    let members: Vec<_> = (1..=count).map(|i| format!("\"m{i}\":true")).collect();
    format!("{{\"execute\":\"c\",\"arguments\":{{{}}}}}", members.join(","))
}

/// So many commands, a row each.
fn rows(count: usize) -> String {
    (0..count).map(|i| format!("{{'command':'c{i}'}}")).collect()
}

/// One command after blanks, of so many bytes in all.
fn at_end(length: usize) -> String {
    format!("{:>length$}", "{'command':'c'}")
}

/// Lists inside each other in an object, which is the first level.
fn brackets(levels: usize) -> String {
    format!("{{'a':{}{}}}", "[".repeat(levels - 1), "]".repeat(levels - 1))
}

/// Objects inside each other, the envelope and the arguments included.
fn nested(levels: usize) -> String {
    let (open, close) = ("{\"t\":".repeat(levels - 2), "}".repeat(levels));
    format!("{{\"execute\":\"c\",\"arguments\":{open}{{{close}")
}

/// A message of so many bytes, most of them in a string.
fn long(length: usize) -> String {
    let (start, end) = ("{\"execute\":\"c\",\"arguments\":{\"s\":\"", "\"}}");
    format!("{start}{}{end}", "x".repeat(length - start.len() - end.len()))
}
