//! A strict reader of the lines of case files: JSON objects of strings without escapes, whole numbers, and arrays. A
//! caller takes each member out by its key and says when there should be no more.

use harness::{ensure, Check};

#[derive(Clone, Debug, PartialEq, Eq)]
pub enum Value {
    Number(u64),
    Text(String),
    List(Vec<Value>),
    Object(Object),
}

/// The members that weren't taken yet.
#[derive(Clone, Debug, Default, PartialEq, Eq)]
pub struct Object {
    members: Vec<(String, Value)>,
}

impl Object {
    /// A line that is one object and nothing else.
    pub fn parse(line: &str) -> Result<Object, String> {
        let mut reader = Reader { rest: line };
        match reader.value() {
            Some(Value::Object(object)) if reader.rest.is_empty() => Ok(object),
            _ => Err(format!("no object of a case file, {} bytes before its end", reader.rest.len())),
        }
    }

    fn take(&mut self, key: &str) -> Result<Value, String> {
        let place = self.members.iter().position(|(name, _)| name == key).ok_or_else(|| format!("no {key}"))?;
        Ok(self.members.remove(place).1)
    }

    pub fn text(&mut self, key: &str) -> Result<String, String> {
        match self.take(key)? {
            Value::Text(text) => Ok(text),
            other => Err(format!("{key} is no string: {other:?}")),
        }
    }

    pub fn number(&mut self, key: &str) -> Result<usize, String> {
        let value = self.take(key)?;
        number(&value).ok_or_else(|| format!("{key} is no number: {value:?}"))
    }

    /// Several numbers, in the order of their keys.
    pub fn numbers<const N: usize>(&mut self, keys: [&str; N]) -> Result<Vec<usize>, String> {
        keys.into_iter().map(|key| self.number(key)).collect()
    }

    /// An array of words.
    pub fn words(&mut self, key: &str) -> Result<Vec<u32>, String> {
        let words = match self.take(key)? {
            Value::List(elements) => elements.iter().map(number).collect::<Option<Vec<u32>>>(),
            _ => None,
        };
        words.ok_or_else(|| format!("{key} is no array of words"))
    }

    /// An array of anything.
    pub fn list(&mut self, key: &str) -> Result<Vec<Value>, String> {
        match self.take(key)? {
            Value::List(elements) => Ok(elements),
            other => Err(format!("{key} is no array: {other:?}")),
        }
    }

    /// Bytes, two hexadecimal digits each.
    pub fn bytes(&mut self, key: &str) -> Result<Vec<u8>, String> {
        let text = self.text(key)?;
        bytes(&text).ok_or_else(|| format!("{key} isn't made of hexadecimal bytes: {text}"))
    }

    /// Fails where a member wasn't taken.
    pub fn finish(self) -> Check {
        ensure(self.members.is_empty(), || format!("members that no such call has: {:?}", self.members))
    }
}

/// Bytes, two hexadecimal digits each.
pub fn bytes(text: &str) -> Option<Vec<u8>> {
    let (pairs, rest) = text.as_bytes().as_chunks::<2>();
    let bytes = pairs.iter().map(|&[high, low]| Some(16 * hex_digit(high)? + hex_digit(low)?));
    if rest.is_empty() {
        bytes.collect()
    } else {
        None
    }
}

/// A number that fits.
fn number<T: TryFrom<u64>>(value: &Value) -> Option<T> {
    match value {
        Value::Number(number) => T::try_from(*number).ok(),
        _ => None,
    }
}

fn hex_digit(digit: u8) -> Option<u8> {
    match digit {
        b'0'..=b'9' => Some(digit - b'0'),
        b'a'..=b'f' => Some(digit - b'a' + 10),
        _ => None,
    }
}

/// Reads from the front; gives nothing where something else stands there.
struct Reader<'a> {
    rest: &'a str,
}

impl Reader<'_> {
    fn value(&mut self) -> Option<Value> {
        match self.rest.as_bytes().first()? {
            b'{' => self.object(),
            b'[' => self.list(),
            b'"' => self.string().map(Value::Text),
            _ => self.number(),
        }
    }

    fn object(&mut self) -> Option<Value> {
        let mut object = Object::default();
        self.separated("{", "}", |reader| {
            let key = reader.string()?;
            reader.pass(":")?;
            let value = reader.value()?;
            let new = object.members.iter().all(|(known, _)| *known != key);
            object.members.push((key, value));
            new.then_some(())
        })?;
        Some(Value::Object(object))
    }

    fn list(&mut self) -> Option<Value> {
        let mut elements = Vec::new();
        self.separated("[", "]", |reader| {
            elements.push(reader.value()?);
            Some(())
        })?;
        Some(Value::List(elements))
    }

    /// Parts between brackets, with a comma between each two.
    fn separated(&mut self, open: &str, close: &str, mut part: impl FnMut(&mut Self) -> Option<()>) -> Option<()> {
        self.pass(open)?;
        if self.pass(close).is_some() {
            return Some(());
        }
        part(self)?;
        while self.pass(",").is_some() {
            part(self)?;
        }
        self.pass(close)
    }

    /// Of printable bytes other than the quote and the backslash.
    fn string(&mut self) -> Option<String> {
        let inside = self.rest.strip_prefix('"')?;
        let (text, _) = inside.split_once('"')?;
        let plain = text.bytes().all(|byte| (0x20..0x7F).contains(&byte) && byte != b'\\');
        self.skip(text.len() + 2);
        plain.then(|| text.to_string())
    }

    /// Of digits alone, the first no 0 where there are more.
    fn number(&mut self) -> Option<Value> {
        let end = self.rest.bytes().position(|byte| !byte.is_ascii_digit()).unwrap_or(self.rest.len());
        let digits = &self.rest[..end];
        let number = digits.parse().ok().filter(|_| digits == "0" || !digits.starts_with('0'));
        self.skip(end);
        number.map(Value::Number)
    }

    fn pass(&mut self, token: &str) -> Option<()> {
        self.rest.starts_with(token).then(|| self.skip(token.len()))
    }

    /// Passes bytes and the spaces after them.
    fn skip(&mut self, length: usize) {
        self.rest = self.rest[length..].trim_start_matches(' ');
    }
}

#[cfg(test)]
mod tests {
    use super::*;

    #[test]
    fn members_are_taken_by_their_keys() {
        let mut object = Object::parse(r#"{"a": "00ff7b", "b": [0, 4294967295],"c":17, "d": "x y", "e": []}"#).unwrap();
        assert_eq!(object.number("c"), Ok(17));
        assert_eq!(object.bytes("a"), Ok(vec![0, 255, 0x7B]));
        assert_eq!(object.words("b"), Ok(vec![0, u32::MAX]));
        assert_eq!(object.words("e"), Ok(vec![]));
        assert!(object.clone().finish().is_err());
        assert_eq!(object.text("d").as_deref(), Ok("x y"));
        assert!(object.text("d").is_err());
        assert_eq!(object.finish(), Ok(()));
    }

    #[test]
    fn a_member_of_another_form_is_refused() {
        let line =
            r#"{"a": "0", "b": "0g", "c": "FF", "d": [1, "2"], "e": [4294967296], "f": [[1]], "g": "7", "h": 7}"#;
        let object = Object::parse(line).unwrap();
        for key in ["a", "b", "c", "h"] {
            assert!(object.clone().bytes(key).is_err(), "{key}");
        }
        for key in ["d", "e", "f", "g"] {
            assert!(object.clone().words(key).is_err() && object.clone().number(key).is_err(), "{key}");
        }
        assert!(object.clone().list("g").is_err() && object.clone().list("h").is_err());
        assert!(object.clone().text("h").is_err());
    }

    #[test]
    fn anything_but_one_strict_object_is_refused() {
        assert!(Object::parse("{}").is_ok());
        let lines = [
            "",
            "[]",
            "7",
            "{} {}",
            "{},",
            " {}",
            "{",
            r#"{"a"}"#,
            r#"{"a":}"#,
            r#"{"a":1,}"#,
            r#"{,"a":1}"#,
            r#"{"a":1 "b":2}"#,
            r#"{"a":1,"a":1}"#,
            r#"{"a":01}"#,
            r#"{"a":-1}"#,
            r#"{"a":1.0}"#,
            r#"{"a":18446744073709551616}"#,
            r#"{"a":[1,]}"#,
            r#"{"a":[1}"#,
            r#"{"a":"\n"}"#,
            r#"{"a":"é"}"#,
            r#"{"a":"b}"#,
            r#"{"a":true}"#,
            "{\"a\":\n1}",
        ];
        for line in lines {
            assert!(Object::parse(line).is_err(), "{line}");
        }
    }
}
