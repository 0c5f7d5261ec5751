//! Keys that an object repeats (numbers 3 and 25).

use std::borrow::Cow;

use crate::names::{first_repeat, Exact};
use crate::strings::Token;
use crate::text::{children, Kind, Node};

/// Start of the earliest key that means the same as one before it in the same object, anywhere.
pub fn repeated_key(text: &[u8], nodes: &[Node]) -> Option<u32> {
    let objects = (0..nodes.len()).filter(|&node| nodes[node].kind == Kind::Object);
    let mut keys = Vec::new();
    let mut repeats = objects.filter_map(|object| repeated_in(text, nodes, object, &mut keys));
    let first = repeats.next()?;
    Some(repeats.fold(first, u32::min))
}

/// The same in one object. `keys` is scratch room.
fn repeated_in<'a>(text: &'a [u8], nodes: &[Node], object: usize, keys: &mut Vec<Cow<'a, [u8]>>) -> Option<u32> {
    keys.clear();
    keys.extend(children(nodes, object).map(|key| Token::new(text, nodes[key]).meaning()));
    let place = first_repeat(keys.iter().map(|key| Exact(key)))?;
    children(nodes, object).nth(place).map(|key| nodes[key].start)
}

#[cfg(test)]
mod tests {
    use super::*;
    use crate::text::{read, Dialect, Verdict};

    fn repeated(text: &str) -> Option<u32> {
        let Verdict::Whole(nodes) = read(Dialect::Message, text.as_bytes(), 32) else { panic!("not whole: {text}") };
        repeated_key(text.as_bytes(), &nodes)
    }

    #[test]
    fn keys_repeat_by_meaning_in_one_object_only() {
        assert_eq!(repeated(r#"{"a":1,"b":{"a":[{"a":1},{"a":2}]},"c":3}"#), None);
        assert_eq!(repeated(r#"[0,{"a":1,"\u0061":2}]"#), Some(10));
        assert_eq!(repeated(r#"{"a":{"b":1,"b":1},"a":2}"#), Some(12));
        assert_eq!(repeated(r#"{"a":0,"a":{"b":1,"b":1}}"#), Some(7));
        assert_eq!(repeated(r#"{"a":"a","b":["b"]}"#), None);
    }

    #[test]
    fn many_keys_repeat_as_few_do() {
        for count in [2, 31, 32, 33, 34, 100] {
            let keys: Vec<_> = (0..count).map(|i| format!("\"k{i}\":0")).collect();
            let text = format!("{{{}}}", keys.join(","));
            assert_eq!(repeated(&text), None);
            let twice = format!("{},\"\\u006b{}\":1}}", &text[..text.len() - 1], count - 1);
            assert_eq!(repeated(&twice), Some(text.len() as u32));
        }
    }
}
