//! What a line is: its end, its bytes, its length.

use std::fs::{self, File};
use std::path::Path;

use generate::Random;
use harness::{ensure, Check};

use crate::folder::{Folder, STOP_LOT, STOP_LOT_ANSWER};
use crate::printed::{by_reference, printed, same};
use crate::running::{reason, Running};
use crate::Checks;

pub const CHECKS: Checks = &[
    ("P1", |program| answers(program, &format!("{STOP}\n"), STOPPED)),
    ("lines end at LF alone, and the last needs none", lines_end_at_lf),
    ("CR is a blank and counts", cr_is_a_blank),
    ("every byte value in a line", every_byte),
    ("a megabyte of any bytes", any_bytes),
    ("lines of 16,384 and 16,385 bytes", lengths),
    ("10,000 lines in one write", many_lines),
    ("answers of 4,096 records, more of them than are written at once", long_answers),
];

pub const STOP: &str = r#"{"execute":"stop-lot","arguments":{"lot":"007"}}"#;
pub const STOPPED: &str = "0 0 2 0 34 47 17 0 41 46 1 0\n";

/// The message with blanks after it, so many bytes in all.
pub fn padded(length: usize) -> String {
    format!("{STOP}{}", " ".repeat(length - STOP.len()))
}

/// Over a pipe, and over a file as standard input, the program prints what is expected.
fn prints(program: &Path, input: &[u8], expected: &[u8]) -> Check {
    same(&printed(program, STOP_LOT, input)?, expected).map_err(|reason| format!("over a pipe, {reason}"))?;
    let folder = Folder::with_schema(STOP_LOT);
    fs::write(folder.file("messages"), input).map_err(reason)?;
    let mut command = folder.command(program);
    command.stdin(File::open(folder.file("messages")).map_err(reason)?);
    Running::start(command)?.prints(expected).map_err(|reason| format!("over a file, {reason}"))
}

fn answers(program: &Path, input: &str, answers: &str) -> Check {
    prints(program, input.as_bytes(), format!("{STOP_LOT_ANSWER}{answers}").as_bytes())
}

fn lines_end_at_lf(program: &Path) -> Check {
    let cases = [
        ("", ""),
        ("\n", "23 0 0 0\n"),
        ("\n\n", "23 0 0 0\n23 0 0 0\n"),
        ("5", "26 0 0 0\n"),
        ("5\n", "26 0 0 0\n"),
        ("5\n\n5", "26 0 0 0\n23 0 0 0\n26 0 0 0\n"),
        ("5\r5\n", "23 0 0 2\n"),
        (STOP, STOPPED),
    ];
    cases.iter().try_for_each(|(input, expected)| answers(program, input, expected))
}

fn cr_is_a_blank(program: &Path) -> Check {
    answers(program, &format!("{STOP}\r\n{STOP}\r\n\r\n"), &format!("{STOPPED}{STOPPED}23 0 0 1\n"))?;
    answers(program, &format!("{}\r\n", padded(16_383)), STOPPED)?;
    answers(program, &format!("{}\r\n", padded(16_384)), "22 0 0 0\n")
}

/// Each alone, and each inside a string.
fn every_byte(program: &Path) -> Check {
    let (before, after) = STOP.split_at(STOP.find("007").expect("the lot is there"));
    let lines =
        (0..=255).flat_map(|byte| [&[byte][..], b"\n", before.as_bytes(), &[byte], after.as_bytes(), b"\n"].concat());
    let input: Vec<u8> = lines.collect();
    prints(program, &input, &by_reference(STOP_LOT, &input))
}

fn any_bytes(program: &Path) -> Check {
    let mut random = Random::new(1);
    let input: Vec<u8> = (0..1_000_000).map(|_| random.byte()).collect();
    prints(program, &input, &by_reference(STOP_LOT, &input))
}

/// At the limit, and at the sizes of a pipe and of the program's buffer; with and without a last LF.
fn lengths(program: &Path) -> Check {
    for (length, answer) in [(16_384, STOPPED), (16_385, "22 0 0 0\n"), (65_535, "22 0 0 0\n"), (65_536, "22 0 0 0\n")]
    {
        let line = padded(length);
        answers(program, &format!("{line}\n{line}\n5\n"), &format!("{answer}{answer}26 0 0 0\n"))?;
        answers(program, &format!("5\n{line}"), &format!("26 0 0 0\n{answer}"))?;
    }
    Ok(())
}

fn many_lines(program: &Path) -> Check {
    answers(program, &format!("{STOP}\n").repeat(10_000), &STOPPED.repeat(10_000))
}

/// Each value of the array has two records; one more of them is refused.
fn long_answers(program: &Path) -> Check {
    let schema = b"{'alternate':'a','data':{'b':'int'}}{'command':'c','data':{'d':['a']}}";
    let message =
        |count: usize| format!("{{\"execute\":\"c\",\"arguments\":{{\"d\":[0{}]}}}}\n", ",0".repeat(count - 1));
    let few: String = (1..40).map(message).collect();
    let input = format!("{0}{0}{few}{0}{1}{few}{0}", message(2_047), message(2_048)).repeat(10);
    let expected = by_reference(schema, input.as_bytes());
    ensure(expected.windows(10).any(|text| text == b"\n0 2 4096 "), || "no answer has 4,096 records".to_string())?;
    same(&printed(program, schema, input.as_bytes())?, &expected)
}
