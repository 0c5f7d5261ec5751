//! What the program prints, what the reference prints, and the first line in which two texts differ.

use std::path::Path;

use harness::{ensure, Check};
use reference_gateway::{serve, Reference};

use crate::folder::Folder;
use crate::running::{feed, Running};

/// What the program prints over a pipe; it must end with status 0.
pub fn printed(program: &Path, schema: &[u8], input: &[u8]) -> Result<Vec<u8>, String> {
    let folder = Folder::with_schema(schema);
    let mut running = Running::start(folder.command(program))?;
    feed(running.input(), input.to_vec());
    let printed = running.output().rest()?;
    running.ends_well()?;
    Ok(printed)
}

pub fn by_reference(schema: &[u8], input: &[u8]) -> Vec<u8> {
    let mut printed = Vec::new();
    serve(&Reference, Some(schema), input, &mut printed).expect("a vector can be written to");
    printed
}

/// Fails with the first line that differs.
pub fn same(printed: &[u8], expected: &[u8]) -> Check {
    let line = |text: &[u8], number: usize| {
        let line = text.split_inclusive(|&byte| byte == b'\n').nth(number).unwrap_or_default();
        line[..line.len().min(120)].escape_ascii().to_string()
    };
    ensure(printed == expected, || {
        let differs = |number: &usize| line(printed, *number) != line(expected, *number);
        match (0..=printed.len().max(expected.len())).find(differs) {
            Some(n) => format!("line {}: printed {:?}, expected {:?}", n + 1, line(printed, n), line(expected, n)),
            None => "lines differ after their first 120 bytes".to_string(),
        }
    })
}

#[cfg(test)]
mod tests {
    use super::*;

    #[test]
    fn the_first_line_that_differs_is_named() {
        assert_eq!(same(b"0 3\n", b"0 3\n"), Ok(()));
        for (printed, place) in
            [(&b"0 3"[..], "line 1"), (b"0 3\n0", "line 2"), (b"", "line 1"), (b"\n0 3\n", "line 1")]
        {
            assert!(same(printed, b"0 3\n").unwrap_err().starts_with(place));
        }
    }
}
