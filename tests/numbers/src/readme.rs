//! The table of numbers in README.md: `| NUMBER | what it means | example |`. An example that is code is a schema, or a
//! message for the schema of the document's first example; one in words isn't run.

use std::fs;
use std::path::Path;

use harness::{ensure, Check, Tally};
use numbers::{number_of, Case};

use crate::{calls, NUMBERS};

/// From this crate's folder.
const DOCUMENT: &str = "../../README.md";
const SCHEMA: &str = "{'command':'stop-lot','data':{'lot':'str'}}";

pub fn check_examples(tally: &mut Tally) -> Check {
    let path = Path::new(env!("CARGO_MANIFEST_DIR")).join(DOCUMENT);
    let document = fs::read_to_string(path).map_err(|error| format!("README.md: {error}"))?;
    ensure(document.contains(SCHEMA), || "README.md: the schema of its examples isn't there".to_string())?;
    tally.must_reach("examples of README.md", NUMBERS);
    for (number, example) in document.lines().filter_map(row) {
        if let Some(text) = code(example) {
            let answer = calls::answer(&case(number, text));
            ensure(number_of(&answer) == Some(number), || format!("README.md: {text} isn't {number}: {answer}"))?;
        }
        tally.add("examples of README.md", number);
        tally.pass();
    }
    Ok(())
}

/// The number and the example of a row of the table.
fn row(line: &str) -> Option<(u32, &str)> {
    let mut cells = line.strip_prefix("| ")?.strip_suffix(" |")?.split(" | ");
    let (number, _, example) = (cells.next()?, cells.next()?, cells.next()?);
    Some((number.parse().ok()?, example))
}

/// What a cell of code alone holds.
fn code(cell: &str) -> Option<&str> {
    cell.strip_prefix('`')?.strip_suffix('`').filter(|text| !text.contains('`'))
}

fn case(number: u32, text: &str) -> Case {
    match number {
        1..=13 => Case { schema: text.into(), ..Case::default() },
        _ => Case { schema: SCHEMA.into(), message: Some(text.into()), ..Case::default() },
    }
}

#[cfg(test)]
mod tests {
    use super::*;

    #[test]
    fn a_row_of_the_table_is_told_from_other_lines() {
        assert_eq!(row("| 3 | a key twice | `{'a':[],'a':[]}` |"), Some((3, "`{'a':[],'a':[]}`")));
        for line in ["| No. | Means | Example |", "|---|---|---|", "| 3 | two cells |", "3", "| x | y | z |"] {
            assert_eq!(row(line), None, "{line}");
        }
        assert_eq!((code("`a b`"), code("32,769 bytes"), code("`a` and `b`")), (Some("a b"), None, None));
    }
}
