//! The code points that strings mean (docs/REFERENCE.md, Text of messages). The tokens are those of a whole text.

use std::borrow::Cow;

use crate::text::Node;

/// A string or key: what stands between its quotes. Equal tokens are those that mean the same.
#[derive(Clone, Copy, Debug)]
pub struct Token<'a> {
    bytes: &'a [u8],
    escapes: bool,
}

impl<'a> Token<'a> {
    /// The token of a node that is a string or a key.
    pub fn new(text: &'a [u8], node: Node) -> Self {
        let bytes = &text[node.start as usize + 1..node.end as usize - 1];
        Token { bytes, escapes: !node.kind.is_plain() && bytes.contains(&b'\\') }
    }

    /// The code points in UTF-8.
    pub fn meaning(self) -> Cow<'a, [u8]> {
        match self.escapes {
            true => Cow::Owned(unescaped(self.bytes)),
            false => Cow::Borrowed(self.bytes),
        }
    }

    pub fn code_points(self) -> Vec<char> {
        let meaning = self.meaning();
        std::str::from_utf8(&meaning).expect("a whole text's strings are UTF-8").chars().collect()
    }

    /// Whether `name` is the meaning in UTF-8.
    pub fn means(self, name: &[u8]) -> bool {
        *self.meaning() == *name
    }
}

impl PartialEq for Token<'_> {
    fn eq(&self, other: &Self) -> bool {
        self.meaning() == other.meaning()
    }
}

impl Eq for Token<'_> {}

/// Escapes taken for what they mean.
fn unescaped(bytes: &[u8]) -> Vec<u8> {
    let mut meaning = Vec::with_capacity(bytes.len());
    let mut rest = bytes;
    while let Some(place) = rest.iter().position(|&byte| byte == b'\\') {
        meaning.extend_from_slice(&rest[..place]);
        let (point, length) = escape(&rest[place + 1..]);
        meaning.extend_from_slice(point.encode_utf8(&mut [0; 4]).as_bytes());
        rest = &rest[place + 1 + length..];
    }
    meaning.extend_from_slice(rest);
    meaning
}

/// What an escape means, and how many bytes it has after its backslash.
fn escape(bytes: &[u8]) -> (char, usize) {
    match bytes[0] {
        b'b' => ('\u{8}', 1),
        b'f' => ('\u{C}', 1),
        b'n' => ('\n', 1),
        b'r' => ('\r', 1),
        b't' => ('\t', 1),
        b'u' => unicode(&bytes[1..]),
        quote_or_slash => (char::from(quote_or_slash), 1),
    }
}

/// One code unit, or the two of a surrogate pair with `\u` between them.
fn unicode(bytes: &[u8]) -> (char, usize) {
    let unit = code_unit(&bytes[..4]);
    let (point, length) = match unit {
        0xD800..0xDC00 => (0x10000 + ((unit - 0xD800) << 10) + (code_unit(&bytes[6..10]) - 0xDC00), 11),
        _ => (unit, 5),
    };
    (char::from_u32(point).expect("a whole text's surrogates come in pairs"), length)
}

fn code_unit(digits: &[u8]) -> u32 {
    digits.iter().fold(0, |unit, &digit| unit * 16 + char::from(digit).to_digit(16).unwrap_or(0))
}

#[cfg(test)]
mod tests {
    use super::*;
    use crate::text::{read, Dialect, Verdict};

    /// Asks of the strings of an array.
    fn with_tokens(text: &str, ask: impl Fn(&[Token])) {
        let Verdict::Whole(nodes) = read(Dialect::Message, text.as_bytes(), 1) else { panic!("not whole: {text}") };
        let tokens: Vec<_> = nodes[1..].iter().map(|&node| Token::new(text.as_bytes(), node)).collect();
        ask(&tokens);
    }

    #[test]
    fn escapes_mean_their_code_points() {
        with_tokens(r#"["\"\\\/\b\f\n\r\t\u0000\u00e9\uD83D\ude00x", "é😀"]"#, |tokens| {
            let points: String = tokens[0].code_points().iter().collect();
            assert_eq!(points, "\"\\/\u{8}\u{c}\n\r\t\0é😀x");
            assert_eq!(&*tokens[0].meaning(), points.as_bytes());
            assert_eq!(&*tokens[1].meaning(), "é😀".as_bytes());
        });
    }

    #[test]
    fn tokens_are_compared_by_meaning() {
        with_tokens(r#"["lot", "l\u006ft", "l\u006Ft", "lo", "lott", "l\u006f", "\u006cott"]"#, |tokens| {
            for (i, token) in tokens.iter().enumerate() {
                assert_eq!(token.means(b"lot"), i < 3, "{i}");
                assert_eq!(*token == tokens[0], i < 3, "{i}");
                assert_eq!(tokens[1] == *token, i < 3, "{i}");
            }
            assert!(tokens[3] == tokens[5] && tokens[4] == tokens[6]);
        });
        with_tokens(r#"["é", "\u00e9", "\u00c3\u00a9"]"#, |tokens| {
            assert!(tokens[0] == tokens[1] && tokens[0] != tokens[2]);
            assert!(tokens[1].means("é".as_bytes()) && !tokens[2].means("é".as_bytes()));
        });
    }
}
