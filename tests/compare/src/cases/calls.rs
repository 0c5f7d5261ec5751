//! A line of a file of calls: what a call is handed and its whole answer. The words of an answer are its rows or
//! records alone: what was lent beyond them must hold 0.

use generate::Random;
use harness::{ensure, Check};
use reference_gateway::Calls;

use super::by_both;
use super::lines::Object;
use crate::lent::{LentWords, PlacedTable, PlacedText};

/// Words of a row and of a record.
const ROW: usize = 8;
const RECORD: usize = 4;

#[derive(Debug, PartialEq, Eq)]
enum Call {
    Compile { schema: Vec<u8> },
    Check { table: Vec<u32>, schema: Vec<u8>, message: Vec<u8> },
}

/// A call, the words lent to it, and its answer: the numbers in their order, the last two a count and a place, and the
/// words used.
#[derive(Debug, PartialEq, Eq)]
struct Case {
    call: Call,
    lent: usize,
    numbers: Vec<usize>,
    used: Vec<u32>,
}

impl Case {
    fn parse(line: &str) -> Result<Case, String> {
        let mut object = Object::parse(line)?;
        let case = match object.text("call")?.as_str() {
            "compile" => Case {
                call: Call::Compile { schema: object.bytes("schema")? },
                lent: object.number("rows_lent")? * ROW,
                numbers: object.numbers(["number", "count", "place"])?,
                used: object.words("words")?,
            },
            "check" => Case {
                call: Call::Check {
                    table: object.words("table")?,
                    schema: object.bytes("schema")?,
                    message: object.bytes("message")?,
                },
                lent: object.number("records_lent")? * RECORD,
                numbers: object.numbers(["number", "row", "count", "place"])?,
                used: object.words("records")?,
            },
            other => return Err(format!("no call {other}")),
        };
        object.finish()?;
        let (words, count) = (case.used.len(), case.numbers[case.numbers.len() - 2]);
        ensure(words == count * case.call.unit() && words <= case.lent, || {
            format!("{words} words of {count} in {} lent", case.lent)
        })?;
        Ok(case)
    }

    /// Fails where the calls don't answer so, in the room of the case or with more words that make no whole row or
    /// record; they stay 0.
    fn check(&self, calls: &dyn Calls) -> Check {
        for more in [0, self.call.unit() - 1] {
            let mut random = Random::new(more as u64);
            let mut lent = LentWords::with_garbage(&mut random, self.lent + more);
            let numbers = self.call.answer(calls, &mut random, lent.items_mut());
            ensure(numbers == self.numbers, || format!("answers {numbers:?}, expected {:?}", self.numbers))?;
            let mut expected = self.used.clone();
            expected.resize(self.lent + more, 0);
            lent.check(&expected)?;
        }
        Ok(())
    }
}

impl Call {
    fn name(&self) -> &'static str {
        match self {
            Call::Compile { .. } => "compile",
            Call::Check { .. } => "check",
        }
    }

    /// Words of what is counted: a row or a record.
    fn unit(&self) -> usize {
        match self {
            Call::Compile { .. } => ROW,
            Call::Check { .. } => RECORD,
        }
    }

    /// The numbers of the answer.
    fn answer(&self, calls: &dyn Calls, random: &mut Random, lent: &mut [u32]) -> Vec<usize> {
        match self {
            Call::Compile { schema } => {
                let (number, count, place) = calls.compile(PlacedText::new(random, schema).bytes(), lent);
                vec![number as usize, count, place]
            }
            Call::Check { table, schema, message } => {
                let table = PlacedTable::new(random, table);
                let [schema, message] = [schema, message].map(|text| PlacedText::new(random, text));
                let (number, row, count, place) = calls.check(table.words(), schema.bytes(), message.bytes(), lent);
                vec![number as usize, row, count, place]
            }
        }
    }
}

/// The name of the line's call, where both answer as the line says.
pub fn check(line: &str) -> Result<&'static str, String> {
    let case = Case::parse(line)?;
    by_both(|calls| case.check(calls))?;
    Ok(case.call.name())
}

#[cfg(test)]
mod tests {
    use super::*;

    /// `{'command':'a'}` with one row lent.
    const COMPILE: &str = r#"{"call": "compile", "schema": "7b27636f6d6d616e64273a2761277d", "rows_lent": 1,
        "number": 0, "count": 1, "place": 0, "words": [9, 12, 1, 0, 0, 0, 0, 0]}"#;
    /// `{"execute":"a"}` with two records lent.
    const CHECK: &str = r#"{"call": "check", "table": [9, 12, 1, 0, 0, 0, 0, 0],
        "schema": "7b27636f6d6d616e64273a2761277d", "message": "7b2265786563757465223a2261227d", "records_lent": 2,
        "number": 0, "row": 0, "count": 1, "place": 0, "records": [0, 0, 0, 0]}"#;

    /// The text on one line.
    fn line(text: &str) -> String {
        text.lines().map(str::trim_start).collect::<Vec<_>>().join(" ")
    }

    #[test]
    fn a_call_with_its_answer_passes() {
        assert_eq!(check(&line(COMPILE)), Ok("compile"));
        assert_eq!(check(&line(CHECK)), Ok("check"));
    }

    #[test]
    fn another_answer_is_noticed() {
        for (wrong, right) in [
            ("[9, 12, 1, 0, 0, 0, 0, 1]", "[9, 12, 1, 0, 0, 0, 0, 0]"),
            ("\"number\": 7", "\"number\": 0"),
            ("\"rows_lent\": 0", "\"rows_lent\": 1"),
            (
                "\"count\": 0, \"place\": 0, \"words\": []",
                "\"count\": 1, \"place\": 0, \"words\": [9, 12, 1, 0, 0, 0, 0, 0]",
            ),
            ("\"place\": 1", "\"place\": 0"),
        ] {
            assert!(check(&line(COMPILE).replace(right, wrong)).is_err(), "{wrong}");
        }
        for (wrong, right) in [
            ("\"records\": [0, 0, 0, 1]", "\"records\": [0, 0, 0, 0]"),
            ("\"row\": 1", "\"row\": 0"),
            ("\"place\": 1", "\"place\": 0"),
            ("\"records_lent\": 0", "\"records_lent\": 2"),
        ] {
            assert!(check(&line(CHECK).replace(right, wrong)).is_err(), "{wrong}");
        }
    }

    #[test]
    fn a_line_of_another_form_is_refused() {
        for (wrong, right) in [
            ("\"call\": \"judge\"", "\"call\": \"compile\""),
            ("\"count\": 2", "\"count\": 1"),
            ("\"number\": 0, \"line\": 0", "\"number\": 0"),
            ("", "\"place\": 0, "),
            ("", "\"rows_lent\": 1, "),
        ] {
            assert!(Case::parse(&line(COMPILE).replace(right, wrong)).is_err(), "{wrong}");
        }
    }
}
