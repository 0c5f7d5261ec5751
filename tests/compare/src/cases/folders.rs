//! A case folder: what the program reads, schema.json and stdin, and prints, expected. One without schema.json is a
//! case of its own.

use std::fs;
use std::path::Path;

use harness::Check;
use reference_gateway::{read_schema, serve};

use super::by_both;

/// Fails where what the program would print isn't what the folder expects.
pub fn check(folder: &Path) -> Check {
    let read = |name: &str| fs::read(folder.join(name)).map_err(|error| format!("{name}: {error}"));
    let schema = read_schema(&folder.join("schema.json")).ok();
    let (input, expected) = (read("stdin")?, read("expected")?);
    by_both(|calls| {
        let mut printed = Vec::new();
        serve(calls, schema.as_deref(), &input[..], &mut printed).map_err(|error| error.to_string())?;
        check_lines(&printed, &expected)
    })
}

/// Fails with the first line that differs.
fn check_lines(printed: &[u8], expected: &[u8]) -> Check {
    let lines = |text: &[u8]| text.split(|&byte| byte == b'\n').map(<[u8]>::to_vec).collect::<Vec<_>>();
    let (printed, expected) = (lines(printed), lines(expected));
    let line = |lines: &[Vec<u8>], number: usize| match lines.get(number) {
        Some(line) => line.escape_ascii().to_string(),
        None => "nothing".to_string(),
    };
    match (0..printed.len().max(expected.len())).find(|&number| printed.get(number) != expected.get(number)) {
        None => Ok(()),
        Some(number) => {
            Err(format!("line {}: {}, expected {}", number + 1, line(&printed, number), line(&expected, number)))
        }
    }
}

#[cfg(test)]
mod tests {
    use super::*;

    #[test]
    fn a_line_that_differs_is_noticed() {
        assert!(check_lines(b"0 1\n0 0 1 0 0 0 0\n", b"0 1\n0 0 1 0 0 0 0\n").is_ok());
        for printed in [&b"0 1\n"[..], b"0 1\n0 0 1 0 0 0 1\n", b"0 1\n0 0 1 0 0 0 0", b"", b"0 1\n0 0 1 0 0 0 0\n\n"] {
            assert!(check_lines(printed, b"0 1\n0 0 1 0 0 0 0\n").is_err());
        }
    }

    #[test]
    fn a_folder_without_its_files_is_noticed() {
        assert!(check(Path::new(env!("CARGO_MANIFEST_DIR"))).is_err());
    }
}
