//! A whole stream at once: what its bytes give, message by message, and where they end.
//!
//! Written from the rules' sentences. A message's end and a fault's place come from the reader of whole texts: what
//! follows a message is no part of any text, so the longest start that some text has ends there.

use crate::message::{MESSAGE_LEVELS, MOST_MESSAGE_BYTES};
use crate::text::{read_into, Dialect, Node, Refused};

/// The numbers that a stream gives.
pub const TOO_LONG: u32 = 22;
pub const NOT_TEXT: u32 = 23;
pub const TOO_DEEP: u32 = 24;

/// What is handed out.
#[derive(Clone, Copy, Debug, PartialEq, Eq)]
pub enum Output<'a> {
    Message(&'a [u8]),
    Refused(u32),
}

/// An output; where in the stream its message starts, or the byte that starts none; and how many bytes of the stream
/// decide it.
#[derive(Clone, Copy, Debug, PartialEq, Eq)]
pub struct Placed<'a> {
    pub output: Output<'a>,
    pub start: usize,
    pub after: usize,
}

/// Where the bytes end: between messages, inside one with its bytes so far, or in what a refusal skips.
#[derive(Clone, Copy, Debug, PartialEq, Eq)]
pub enum End<'a> {
    Between,
    Inside(&'a [u8]),
    Skipping,
}

/// What a stream gives where so many bytes are lent for a message.
pub fn read(stream: &[u8], lent: usize) -> (Vec<Placed<'_>>, End<'_>) {
    let mut reader = Reader { limit: lent.min(MOST_MESSAGE_BYTES), placed: Vec::new(), nodes: Vec::new() };
    let end = reader.stream(stream);
    (reader.placed, end)
}

/// 0xFF, or a byte below 0x20 other than tab, CR and LF.
pub fn clears(byte: u8) -> bool {
    byte == 0xFF || byte < 0x20 && !is_blank(byte)
}

fn is_blank(byte: u8) -> bool {
    matches!(byte, b' ' | b'\t' | b'\r' | b'\n')
}

struct Reader<'a> {
    /// The most bytes of a message.
    limit: usize,
    placed: Vec<Placed<'a>>,
    nodes: Vec<Node>,
}

/// What the bytes of a message, none of which clears, are.
enum Begun {
    /// They begin with a whole message of so many bytes.
    Whole(usize),
    /// A number is given at the byte of this place.
    Refused(u32, usize),
    /// A start of a message.
    Part,
}

impl<'a> Reader<'a> {
    fn stream(&mut self, stream: &'a [u8]) -> End<'a> {
        let mut start = 0;
        loop {
            start += run(&stream[start..], |byte| is_blank(byte) || clears(byte));
            let rest = &stream[start..];
            if rest.is_empty() {
                return End::Between;
            }
            // A clearing byte ends a message, whatever it is in; no byte of one is asked for after the limit's next.
            let most = rest.len().min(self.limit + 1);
            let bytes = &rest[..run(&rest[..most], |byte| !clears(byte))];
            start = match self.begun(bytes) {
                Begun::Whole(length) => self.give(Output::Message(&rest[..length]), start, length),
                Begun::Refused(number, place) => {
                    let next = self.give(Output::Refused(number), start, place + 1);
                    match stream[next..].iter().position(|&byte| clears(byte)) {
                        Some(skipped) => next + skipped + 1,
                        None => return End::Skipping,
                    }
                }
                Begun::Part if bytes.len() == rest.len() => return End::Inside(bytes),
                Begun::Part => self.give(Output::Refused(NOT_TEXT), start, bytes.len() + 1),
            }
        }
    }

    /// Gives where the stream goes on.
    fn give(&mut self, output: Output<'a>, start: usize, length: usize) -> usize {
        self.placed.push(Placed { output, start, after: start + length });
        start + length
    }

    /// What begins with a byte that is no blank.
    fn begun(&mut self, bytes: &[u8]) -> Begun {
        if !matches!(bytes.first(), Some(b'{' | b'[')) {
            return Begun::Refused(NOT_TEXT, 0);
        }
        let begun = self.text(bytes);
        let least = match begun {
            Begun::Whole(length) => length,
            Begun::Refused(_, place) => place + 1,
            Begun::Part => bytes.len(),
        };
        if least <= self.limit {
            begun
        } else {
            Begun::Refused(TOO_LONG, self.limit)
        }
    }

    /// What begins with an opening bracket, where there is no limit on bytes.
    fn text(&mut self, bytes: &[u8]) -> Begun {
        let (number, place) = match read_into(Dialect::Message, bytes, MESSAGE_LEVELS, &mut self.nodes) {
            Ok(()) => return Begun::Whole(self.nodes[0].end as usize),
            Err(Refused::Fault(place)) => (NOT_TEXT, place),
            Err(Refused::Deep(place)) => (TOO_DEEP, place),
        };
        // The longest start of any text: a message with blanks after it, or one that goes on no further.
        match read_into(Dialect::Message, &bytes[..place], MESSAGE_LEVELS, &mut self.nodes) {
            Ok(()) => Begun::Whole(self.nodes[0].end as usize),
            Err(_) if place == bytes.len() => Begun::Part,
            Err(_) => Begun::Refused(number, place),
        }
    }
}

/// How many bytes pass, one after the other.
fn run(bytes: &[u8], passes: impl Fn(u8) -> bool) -> usize {
    bytes.iter().take_while(|&&byte| passes(byte)).count()
}

#[cfg(test)]
mod tests {
    use super::*;
    use Output::{Message, Refused};

    fn check(stream: &[u8], lent: usize, outputs: &[Output], end: End) {
        let (placed, ended) = read(stream, lent);
        let given: Vec<_> = placed.iter().map(|placed| placed.output).collect();
        assert_eq!((&given[..], ended), (outputs, end), "{}", stream.escape_ascii());
    }

    #[test]
    fn an_output_has_its_place() {
        let places = |stream, lent| read(stream, lent).0.iter().map(|at| (at.start, at.after)).collect::<Vec<_>>();
        assert_eq!(places(b" [1] x [] \0[1}", 9), [(1, 4), (5, 6), (11, 14)]);
        assert_eq!(places(b"[12]\0[\"\0{}", 3), [(0, 4), (5, 8), (8, 10)]);
    }

    #[test]
    fn messages_end_at_their_closing_bracket() {
        check(b"", 9, &[], End::Between);
        check(b" \t\r\n\0\xFF", 9, &[], End::Between);
        check(b"[1] {}{\"a\":\n[]}", 99, &[Message(b"[1]"), Message(b"{}"), Message(b"{\"a\":\n[]}")], End::Between);
        check(b"[1] [tr", 9, &[Message(b"[1]")], End::Inside(b"[tr"));
    }

    #[test]
    fn other_bytes_and_faults_skip_to_a_clearing_byte() {
        check(b" 1 []", 9, &[Refused(23)], End::Skipping);
        check(b"x[]\xFF[]", 9, &[Refused(23), Message(b"[]")], End::Between);
        check(b"[1}]\x01\x02 ", 9, &[Refused(23)], End::Between);
        check(b"[\"a\t\"]", 9, &[Refused(23)], End::Skipping);
        check(b"\x7F", 9, &[Refused(23)], End::Skipping);
        check(&[b'['; 33], 99, &[Refused(24)], End::Skipping);
        check(&[&[b'['; 32][..], b"}"].concat(), 99, &[Refused(23)], End::Skipping);
    }

    #[test]
    fn a_clearing_byte_drops_a_message_and_starts_afresh() {
        check(b"[\"\0[]", 9, &[Refused(23), Message(b"[]")], End::Between);
        check(b"[]\0[", 9, &[Message(b"[]")], End::Inside(b"["));
    }

    #[test]
    fn the_byte_after_the_limit_is_22_unless_it_clears() {
        check(b"[1] [12]", 4, &[Message(b"[1]"), Message(b"[12]")], End::Between);
        check(b"[12]", 3, &[Refused(22)], End::Skipping);
        check(b"[1}", 2, &[Refused(22)], End::Skipping);
        check(b"[1\0", 2, &[Refused(23)], End::Between);
        check(b"[1", 2, &[], End::Inside(b"[1"));
        check(b"[\0x", 0, &[Refused(22), Refused(23)], End::Skipping);
        let long = [&b"["[..], &[b' '; MOST_MESSAGE_BYTES - 2], b"]"].concat();
        check(&long, usize::MAX, &[Message(&long)], End::Between);
        check(&[&long[..MOST_MESSAGE_BYTES - 1], b" ]"].concat(), usize::MAX, &[Refused(22)], End::Skipping);
    }
}
