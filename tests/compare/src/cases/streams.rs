//! A line of a file of calls that is a stream: the bytes lent and the pieces, what is handed out, and where the bytes
//! end. The reference reads it whole, the product in these pieces.

use generate::Random;
use harness::{ensure, Check};
use reference::stream::{self, End, Output};

use super::lines::{bytes, Object, Value};
use crate::streams::compare_cut;

/// An output or an end: a word, and the bytes or the number that go with it.
#[derive(Debug, PartialEq, Eq)]
struct Given {
    word: &'static str,
    bytes: Vec<u8>,
    number: u64,
}

#[derive(Debug, PartialEq, Eq)]
struct Case {
    lent: usize,
    pieces: Vec<Vec<u8>>,
    /// The outputs, and the end last.
    given: Vec<Given>,
}

impl Case {
    fn parse(line: &str) -> Result<Case, String> {
        let mut object = Object::parse(line)?;
        ensure(object.text("call")? == "stream", || "no stream".to_string())?;
        let lent = object.number("lent")?;
        let pieces = object.list("pieces")?.iter().map(piece).collect::<Option<_>>().ok_or("pieces of another form")?;
        let outputs = object.list("out")?;
        let end = Value::List(object.list("end")?);
        let given = outputs.iter().chain([&end]).map(given).collect::<Option<_>>().ok_or("answers of another form")?;
        object.finish()?;
        Ok(Case { lent, pieces, given })
    }

    /// Fails where the reference gives something else, or the product something else than the reference.
    fn check(&self) -> Check {
        let stream = self.pieces.concat();
        let (outputs, end) = stream::read(&stream, self.lent);
        let read: Vec<_> = outputs.iter().map(|placed| output(&placed.output)).chain([ended(&end)]).collect();
        ensure(read == self.given, || format!("reference: it gives {read:?}, expected {:?}", self.given))?;
        let cuts: Vec<_> = (1..self.pieces.len()).map(|count| self.pieces[..count].concat().len()).collect();
        compare_cut(&mut Random::new(1), &stream, &cuts, self.lent).map_err(|reason| format!("product: {reason}"))
    }
}

fn piece(value: &Value) -> Option<Vec<u8>> {
    match value {
        Value::Text(text) => bytes(text),
        _ => None,
    }
}

/// A pair of a word and bytes or a number.
fn given(value: &Value) -> Option<Given> {
    let Value::List(pair) = value else { return None };
    let [Value::Text(word), with] = &pair[..] else { return None };
    match (word.as_str(), with) {
        ("refused", Value::Number(number)) => Some(refused(*number)),
        ("message", with) => Some(of_bytes("message", &piece(with)?)),
        ("inside", with) => Some(of_bytes("inside", &piece(with)?)),
        ("between", Value::Text(none)) if none.is_empty() => Some(of_bytes("between", b"")),
        ("skipping", Value::Text(none)) if none.is_empty() => Some(of_bytes("skipping", b"")),
        _ => None,
    }
}

fn output(output: &Output) -> Given {
    match output {
        Output::Message(bytes) => of_bytes("message", bytes),
        Output::Refused(number) => refused(u64::from(*number)),
    }
}

fn ended(end: &End) -> Given {
    match end {
        End::Between => of_bytes("between", b""),
        End::Skipping => of_bytes("skipping", b""),
        End::Inside(bytes) => of_bytes("inside", bytes),
    }
}

fn of_bytes(word: &'static str, bytes: &[u8]) -> Given {
    Given { word, bytes: bytes.to_vec(), number: 0 }
}

fn refused(number: u64) -> Given {
    Given { word: "refused", bytes: Vec::new(), number }
}

/// Fails where the reference or the product doesn't answer as the line says.
pub fn check(line: &str) -> Check {
    Case::parse(line)?.check()
}

#[cfg(test)]
mod tests {
    use super::*;

    /// `[1` and ` ]x`, then `[` after a byte that clears.
    const LINE: &str = r#"{"call": "stream", "lent": 9, "pieces": ["5b31", "", "205d78", "ff5b"],
        "out": [["message", "5b31205d"], ["refused", 23]], "end": ["inside", "5b"]}"#;

    fn line() -> String {
        LINE.lines().map(str::trim_start).collect::<Vec<_>>().join(" ")
    }

    #[test]
    fn a_stream_with_its_answer_passes() {
        assert_eq!(check(&line()), Ok(()));
    }

    #[test]
    fn another_answer_or_form_is_noticed() {
        for (wrong, right) in [
            ("\"lent\": 3", "\"lent\": 9"),
            ("[\"refused\", 22]", "[\"refused\", 23]"),
            ("5b32205d", "5b31205d"),
            ("[\"between\", \"\"]", "[\"inside\", \"5b\"]"),
            ("[\"between\", \"5b\"]", "[\"inside\", \"5b\"]"),
            ("[\"refused\"]", "[\"refused\", 23]"),
            ("\"5b31\", 7", "\"5b31\", \"\""),
            ("\"stream\", \"place\": 0", "\"stream\""),
            ("\"check\"", "\"stream\""),
        ] {
            assert!(line().contains(right), "{right}");
            assert!(check(&line().replace(right, wrong)).is_err(), "{wrong}");
        }
    }
}
