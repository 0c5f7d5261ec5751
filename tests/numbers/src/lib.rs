//! The cases of docs/NUMBERS.md: for each number the smallest input that gives it.
//!
//! A case is a fenced block `case` of lines `KEY: VALUE`. Text is added to the schema, the message or the stream by
//! `schema: TEXT`, `schema N times: TEXT` or `schema for @ in CHARACTERS: TEXT`, and likewise `message` and `stream`. A
//! line that four spaces begin goes on with the line before it.

#![forbid(unsafe_code)]

use std::fs;
use std::path::Path;

/// From this crate's folder.
const DOCUMENT: &str = "../../docs/NUMBERS.md";

#[derive(Clone, Debug, Default, PartialEq, Eq)]
pub struct Case {
    pub schema: Vec<u8>,
    /// Where there is none, the answer is the schema's.
    pub message: Option<Vec<u8>>,
    /// Words instead of the schema's table.
    pub table: Option<Vec<u32>>,
    /// Where there is one, the answer is what it gives.
    pub stream: Option<Vec<u8>>,
    /// Bytes lent for a stream's message, where they aren't as many as one may have.
    pub message_bytes: Option<usize>,
    /// Words lent, where they aren't as many as the program lends.
    pub row_words: Option<usize>,
    pub record_words: Option<usize>,
    /// The line that the program prints, or would print; the numbers that a stream gives.
    pub answer: String,
    /// Bytes of schema, message and stream.
    pub size: usize,
    /// A piece of the schema without which it is accepted.
    pub fault: Option<String>,
}

impl Case {
    /// Whether the program can be given it: it has its own table and room, and reads lines.
    pub fn is_for_program(&self) -> bool {
        self.table.is_none() && self.row_words.is_none() && self.record_words.is_none() && self.stream.is_none()
    }

    /// The number that the answer starts with.
    pub fn number(&self) -> Option<u32> {
        number_of(&self.answer)
    }

    fn add(&mut self, line: &str) -> Option<()> {
        let (key, value) = line.split_once(": ").or_else(|| Some((line.strip_suffix(':')?, "")))?;
        match key.split_once(' ').unwrap_or((key, "")) {
            ("schema", how) => self.schema.extend(repeated(how, value)?.bytes()),
            ("message", how) => self.message.get_or_insert_default().extend(repeated(how, value)?.bytes()),
            ("stream", how) => self.stream.get_or_insert_default().extend(repeated(how, value)?.bytes()),
            ("table", "") => {
                self.table = Some(value.split(' ').map(|word| word.parse().ok()).collect::<Option<_>>()?);
                self.message.get_or_insert_default();
            }
            ("words", "for rows") => self.row_words = Some(value.parse().ok()?),
            ("words", "for records") => self.record_words = Some(value.parse().ok()?),
            ("bytes", "lent") => self.message_bytes = Some(value.parse().ok()?),
            ("accepted", "without") => self.fault = Some(value.to_string()),
            ("answer", "") => {
                let (answer, size) = value.split_once(", size ")?;
                self.answer = answer.to_string();
                self.size = size.parse().ok()?;
            }
            _ => return None,
        }
        Some(())
    }
}

/// The number that an answer starts with.
pub fn number_of(answer: &str) -> Option<u32> {
    answer.split(' ').next()?.parse().ok()
}

/// A text as often as a key says: once, `N times`, or `for @ in CHARACTERS`, each of them in the place of `@`.
fn repeated(how: &str, text: &str) -> Option<String> {
    if how.is_empty() {
        return Some(text.to_string());
    }
    if let Some(characters) = how.strip_prefix("for @ in ") {
        return Some(characters.chars().map(|character| text.replace('@', &character.to_string())).collect());
    }
    Some(text.repeat(how.strip_suffix(" times")?.parse().ok()?))
}

/// All cases of the document, or what is wrong with it.
pub fn cases() -> Result<Vec<Case>, String> {
    let path = Path::new(env!("CARGO_MANIFEST_DIR")).join(DOCUMENT);
    parse(&fs::read_to_string(path).map_err(|error| format!("docs/NUMBERS.md: {error}"))?)
}

fn parse(document: &str) -> Result<Vec<Case>, String> {
    let mut cases = Vec::new();
    let mut lines = document.lines().zip(1..);
    while lines.any(|(line, _)| line == "```case") {
        let mut entries: Vec<(String, usize)> = Vec::new();
        for (line, number) in lines.by_ref().take_while(|(line, _)| *line != "```") {
            match (line.strip_prefix("    "), entries.last_mut()) {
                (Some(more), Some((entry, _))) => entry.push_str(more),
                _ => entries.push((line.to_string(), number)),
            }
        }
        let mut case = Case::default();
        for (line, number) in entries {
            case.add(&line).ok_or_else(|| format!("docs/NUMBERS.md, line {number}: no line of a case: {line}"))?;
        }
        cases.push(case);
    }
    Ok(cases)
}

#[cfg(test)]
mod tests {
    use super::*;

    #[test]
    fn texts_are_joined_and_repeated() {
        let document =
            "x\n```case\nschema: {': '\nschema 3 times: a\n    b\nschema for @ in xyz: '@@'\nanswer: 2 0 0, size 9\n```\n";
        let case = Case {
            schema: b"{': 'ababab'xx''yy''zz'".to_vec(),
            answer: "2 0 0".to_string(),
            size: 9,
            ..Case::default()
        };
        assert_eq!(parse(document), Ok(vec![case]));
    }

    #[test]
    fn an_empty_message_is_one_and_a_table_has_one_beside_it() {
        let document = "```case\nmessage:\n```\n```case\ntable: 1 2\n```\n```\nmessage: no case\n```\n";
        let [message, table] = &parse(document).unwrap()[..] else { panic!("two cases") };
        assert_eq!((&message.message, &message.table), (&Some(vec![]), &None));
        assert_eq!((&table.message, &table.table), (&Some(vec![]), &Some(vec![1, 2])));
        assert!(message.is_for_program() && !table.is_for_program());
    }

    #[test]
    fn a_stream_is_not_for_the_program() {
        let cases = parse("```case\nstream 2 times: [\nbytes lent: 1\nanswer: 22, size 2\n```\n").unwrap();
        assert_eq!((cases[0].stream.as_deref(), cases[0].message_bytes), (Some(&b"[["[..]), Some(1)));
        assert!(!cases[0].is_for_program());
    }

    #[test]
    fn any_other_line_is_refused() {
        let form = ["", "schema", "schema x times: a", "scheme: a", "words for row: 1", "answer: 2 0 0", "table: x"];
        for line in form.into_iter().chain(["accepted: a", "accepted with: a"]) {
            assert!(parse(&format!("```case\n{line}\n```\n")).is_err(), "{line}");
        }
    }
}
