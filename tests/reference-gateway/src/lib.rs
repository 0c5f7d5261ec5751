//! The program over the two calls, the reference's or any others: answers a schema, then each message line.

#![forbid(unsafe_code)]

use std::fs::File;
use std::io::{self, BufRead, Read, Write};
use std::path::Path;

use reference::message::{check_into, MOST_MESSAGE_BYTES};
use reference::schema::{compile_into, MOST_SCHEMA_BYTES};

/// 1,024 rows of 8 words and 4,096 records of 4.
const SCHEMA_ROOM: usize = 1_024 * 8;
const MESSAGE_ROOM: usize = 4_096 * 4;

/// The two calls.
pub trait Calls {
    /// Gives number, row count and place.
    fn compile(&self, schema: &[u8], rows: &mut [u32]) -> (u32, usize, usize);

    /// Gives number, command row, record count and place.
    fn check(&self, table: &[u32], schema: &[u8], message: &[u8], records: &mut [u32]) -> (u32, usize, usize, usize);
}

/// Those of the reference.
pub struct Reference;

impl Calls for Reference {
    fn compile(&self, schema: &[u8], rows: &mut [u32]) -> (u32, usize, usize) {
        let (number, count, place) = compile_into(schema, rows);
        (number, count as usize, place as usize)
    }

    fn check(&self, table: &[u32], schema: &[u8], message: &[u8], records: &mut [u32]) -> (u32, usize, usize, usize) {
        let (number, row, count, place) = check_into(table, schema, message, records);
        (number, row as usize, count as usize, place as usize)
    }
}

/// The file's bytes; of an overlong one only so many that it is still overlong.
pub fn read_schema(path: &Path) -> io::Result<Vec<u8>> {
    let mut bytes = Vec::new();
    File::open(path)?.take(MOST_SCHEMA_BYTES as u64 + 1).read_to_end(&mut bytes)?;
    Ok(bytes)
}

/// Writes what the program prints.
pub fn serve(
    calls: &dyn Calls,
    schema: Option<&[u8]>,
    mut input: impl BufRead,
    mut output: impl Write,
) -> io::Result<()> {
    let Some(schema) = schema else {
        return writeln!(output, "no schema");
    };
    let mut rows = vec![0; SCHEMA_ROOM];
    let (number, rows_counted, place) = calls.compile(schema, &mut rows);
    writeln!(output, "{number} {rows_counted} {place}")?;
    if number != 0 {
        return Ok(());
    }
    let mut records = vec![0; MESSAGE_ROOM];
    while let Some(message) = next_message(&mut input)? {
        let (number, row, count, place) = calls.check(&rows[..rows_counted * 8], schema, &message, &mut records);
        write!(output, "{number} {row} {count} {place}")?;
        records[..count * 4].iter().try_for_each(|word| write!(output, " {word}"))?;
        writeln!(output)?;
    }
    output.flush()
}

/// The next line without its LF; of an overlong one only so many bytes that it is still overlong.
fn next_message(input: &mut impl BufRead) -> io::Result<Option<Vec<u8>>> {
    let mut message = Vec::new();
    let mut begun = false;
    loop {
        let buffer = input.fill_buf()?;
        if buffer.is_empty() {
            return Ok(begun.then_some(message));
        }
        begun = true;
        let line_end = buffer.iter().position(|&byte| byte == b'\n');
        let line = &buffer[..line_end.unwrap_or(buffer.len())];
        let room = MOST_MESSAGE_BYTES + 1 - message.len();
        message.extend_from_slice(&line[..line.len().min(room)]);
        let used = line.len() + usize::from(line_end.is_some());
        input.consume(used);
        if line_end.is_some() {
            return Ok(Some(message));
        }
    }
}

#[cfg(test)]
mod tests {
    use super::*;

    const SCHEMA: &[u8] = b"{'command':'stop-lot','data':{'lot':'str'}}";
    const MESSAGE: &str = r#"{"execute":"stop-lot","arguments":{"lot":"007"}}"#;
    const ACCEPTED: &str = "0 0 2 0 34 47 17 0 41 46 1 0\n";

    /// What the program prints, for any size of its input buffer.
    fn printed(schema: Option<&[u8]>, input: &[u8]) -> String {
        let mut texts = [1, 7, 8192].map(|size| {
            let mut output = Vec::new();
            serve(&Reference, schema, io::BufReader::with_capacity(size, input), &mut output).unwrap();
            String::from_utf8(output).unwrap()
        });
        assert!(texts.iter().all(|text| *text == texts[0]));
        std::mem::take(&mut texts[0])
    }

    fn answers(input: &[u8]) -> String {
        let text = printed(Some(SCHEMA), input);
        text.strip_prefix("0 3 0\n").expect("the schema is accepted").to_string()
    }

    #[test]
    fn prints_the_two_lines_of_p1() {
        assert_eq!(printed(Some(SCHEMA), MESSAGE.as_bytes()), format!("0 3 0\n{ACCEPTED}"));
    }

    #[test]
    fn no_schema_is_one_line_and_input_is_not_read() {
        struct Unreadable;
        impl Read for Unreadable {
            fn read(&mut self, _: &mut [u8]) -> io::Result<usize> {
                panic!("standard input was read")
            }
        }
        let mut output = Vec::new();
        serve(&Reference, None, io::BufReader::new(Unreadable), &mut output).unwrap();
        assert_eq!(output, b"no schema\n");
    }

    #[test]
    fn a_folder_or_a_missing_file_is_no_schema() {
        assert!(read_schema(&std::env::temp_dir()).is_err());
        assert!(read_schema(Path::new("/no such file")).is_err());
    }

    #[test]
    fn stops_after_a_refused_schema() {
        assert_eq!(printed(Some(b"{}"), b"5\n"), "4 0 0\n");
        assert_eq!(printed(Some(&[b' '; MOST_SCHEMA_BYTES + 1]), b"5\n"), "1 0 0\n");
        assert_eq!(printed(Some(b"{} {'a':\"a\"}"), b"5\n"), "2 0 8\n");
    }

    #[test]
    fn lines_end_at_lf_alone() {
        assert_eq!(answers(b""), "");
        assert_eq!(answers(b"\n"), "23 0 0 0\n");
        assert_eq!(answers(b"5\n\n5"), "26 0 0 0\n23 0 0 0\n26 0 0 0\n");
        assert_eq!(answers(b"5\r5\n"), "23 0 0 2\n");
        assert_eq!(answers(format!("{MESSAGE}\r\n{MESSAGE}").as_bytes()), ACCEPTED.repeat(2));
    }

    #[test]
    fn cr_counts_towards_the_bytes() {
        let pad = |length: usize| format!("{MESSAGE}{}\r\n", " ".repeat(length - 1 - MESSAGE.len()));
        assert_eq!(answers(pad(16_384).as_bytes()), ACCEPTED);
        assert_eq!(answers(pad(16_385).as_bytes()), "22 0 0 0\n");
    }

    #[test]
    fn an_overlong_line_is_one_answer_however_long() {
        for length in [16_385, 16_386, 32_770, 100_000] {
            let mut input = vec![b'['; length];
            input.extend(b"\n5\n");
            assert_eq!(answers(&input), "22 0 0 0\n26 0 0 0\n");
            assert_eq!(answers(&vec![b'['; length]), "22 0 0 0\n");
        }
    }

    #[test]
    fn an_empty_schema_is_accepted_and_has_no_command() {
        assert_eq!(printed(Some(b""), MESSAGE.as_bytes()), "0 0 0\n27 0 0 0\n");
    }
}
