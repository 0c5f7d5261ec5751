//! Taking messages out of a stream as one would write it in Rust: a state for each place between two bytes of a message,
//! a bit for each open bracket, and a run of plain bytes of a string copied at once.

const MOST_BYTES: usize = 16_384;
const MOST_LEVELS: u32 = 32;
const TOO_LONG: u32 = 22;
const NOT_TEXT: u32 = 23;
const TOO_DEEP: u32 = 24;

/// What a call gives.
#[derive(Clone, Copy, Debug, PartialEq, Eq)]
pub enum Said {
    Nothing,
    Message(usize),
    Refused(u32),
}

#[derive(Clone, Copy)]
enum State {
    Between,
    Skipping,
    Inside(Mode),
}

/// What comes next inside a message. A string is a key or not.
#[derive(Clone, Copy)]
enum Mode {
    Value,
    Element,
    After,
    FirstKey,
    Key,
    Colon,
    String(bool),
    Character(bool, Character),
    Number(Number),
    Word(&'static [u8]),
}

/// What comes next inside a character of a string.
#[derive(Clone, Copy)]
enum Character {
    Escaped,
    /// So many digits are read, of this value.
    Hex(u8, u32),
    LowBackslash,
    LowU,
    Low(u8),
    /// So many bytes of UTF-8, the next between these two.
    Tail(u8, u8, u8),
}

#[derive(Clone, Copy)]
enum Number {
    Minus,
    Zero,
    Int,
    Point,
    Fraction,
    E,
    Sign,
    Exponent,
}

pub struct Framing {
    state: State,
    /// The open brackets, the innermost lowest, 1 for an object.
    nest: u32,
    levels: u32,
    length: usize,
}

/// Why no mode follows.
type Next = Result<Mode, u32>;

fn is_blank(byte: u8) -> bool {
    matches!(byte, b' ' | b'\t' | b'\r' | b'\n')
}

fn clears(byte: u8) -> bool {
    byte == 0xFF || byte < 0x20 && !is_blank(byte)
}

fn is_plain(byte: u8) -> bool {
    matches!(byte, 0x20..=0x7F) && byte != b'"' && byte != b'\\'
}

impl Framing {
    pub fn new() -> Self {
        Framing { state: State::Between, nest: 0, levels: 0, length: 0 }
    }

    /// Reads up to the first message or refusal; gives it and how many bytes are read.
    pub fn feed(&mut self, buffer: &mut [u8], piece: &[u8]) -> (Said, usize) {
        let limit = buffer.len().min(MOST_BYTES);
        let mut place = 0;
        while let Some(&byte) = piece.get(place) {
            if let State::Inside(Mode::String(_)) = self.state {
                let most = (limit - self.length).min(piece.len() - place);
                let rest = &piece[place..place + most];
                let run = rest.iter().position(|&byte| !is_plain(byte)).unwrap_or(most);
                if run > 0 {
                    buffer[self.length..self.length + run].copy_from_slice(&rest[..run]);
                    self.length += run;
                    place += run;
                    continue;
                }
            }
            place += 1;
            match self.byte(&mut buffer[..limit], byte) {
                Said::Nothing => {}
                said => return (said, place),
            }
        }
        (Said::Nothing, place)
    }

    fn byte(&mut self, buffer: &mut [u8], byte: u8) -> Said {
        let next = match self.state {
            State::Between if is_blank(byte) || clears(byte) => return Said::Nothing,
            State::Between if !matches!(byte, b'{' | b'[') => Err(NOT_TEXT),
            State::Between => {
                (self.nest, self.levels, self.length) = (0, 0, 0);
                self.open(byte == b'{')
            }
            State::Skipping => {
                if clears(byte) {
                    self.state = State::Between;
                }
                return Said::Nothing;
            }
            State::Inside(_) if clears(byte) => {
                self.state = State::Between;
                return Said::Refused(NOT_TEXT);
            }
            State::Inside(_) if self.length == buffer.len() => Err(TOO_LONG),
            State::Inside(mode) => self.next(mode, byte),
        };
        match next {
            Ok(mode) if self.length < buffer.len() => {
                buffer[self.length] = byte;
                self.length += 1;
                if self.levels == 0 {
                    self.state = State::Between;
                    return Said::Message(self.length);
                }
                self.state = State::Inside(mode);
                Said::Nothing
            }
            next => {
                self.state = State::Skipping;
                Said::Refused(next.err().unwrap_or(TOO_LONG))
            }
        }
    }

    fn next(&mut self, mode: Mode, byte: u8) -> Next {
        match (mode, byte) {
            (Mode::String(key), byte) => string(key, byte),
            (Mode::Character(key, character), byte) => match inside(character, byte)? {
                Some(character) => Ok(Mode::Character(key, character)),
                None => Ok(Mode::String(key)),
            },
            (Mode::Number(number), byte) => self.number(number, byte),
            (Mode::Word([wanted, rest @ ..]), byte) if *wanted == byte => match rest {
                [] => Ok(Mode::After),
                rest => Ok(Mode::Word(rest)),
            },
            (Mode::Word(_), _) => Err(NOT_TEXT),
            (mode, byte) if is_blank(byte) => Ok(mode),
            (Mode::Element, b']') | (Mode::FirstKey, b'}') => Ok(self.close()),
            (Mode::Value | Mode::Element, byte) => self.value(byte),
            (Mode::After, byte) => self.after(byte),
            (Mode::FirstKey | Mode::Key, b'"') => Ok(Mode::String(true)),
            (Mode::Colon, b':') => Ok(Mode::Value),
            _ => Err(NOT_TEXT),
        }
    }

    fn open(&mut self, object: bool) -> Next {
        if self.levels == MOST_LEVELS {
            return Err(TOO_DEEP);
        }
        self.levels += 1;
        self.nest = self.nest << 1 | u32::from(object);
        Ok(if object { Mode::FirstKey } else { Mode::Element })
    }

    fn close(&mut self) -> Mode {
        self.levels -= 1;
        self.nest >>= 1;
        Mode::After
    }

    fn value(&mut self, byte: u8) -> Next {
        match byte {
            b'{' | b'[' => self.open(byte == b'{'),
            b'"' => Ok(Mode::String(false)),
            b'-' => Ok(Mode::Number(Number::Minus)),
            b'0' => Ok(Mode::Number(Number::Zero)),
            b'1'..=b'9' => Ok(Mode::Number(Number::Int)),
            b'n' => Ok(Mode::Word(b"ull")),
            b't' => Ok(Mode::Word(b"rue")),
            b'f' => Ok(Mode::Word(b"alse")),
            _ => Err(NOT_TEXT),
        }
    }

    fn after(&mut self, byte: u8) -> Next {
        match (self.nest & 1 == 1, byte) {
            (true, b',') => Ok(Mode::Key),
            (false, b',') => Ok(Mode::Value),
            (true, b'}') | (false, b']') => Ok(self.close()),
            (_, byte) if is_blank(byte) => Ok(Mode::After),
            _ => Err(NOT_TEXT),
        }
    }

    fn number(&mut self, number: Number, byte: u8) -> Next {
        use Number::*;
        let next = match (number, byte) {
            (Minus, b'0') => Zero,
            (Minus | Int, b'0'..=b'9') => Int,
            (Zero | Int, b'.') => Point,
            (Point | Fraction, b'0'..=b'9') => Fraction,
            (Zero | Int | Fraction, b'e' | b'E') => E,
            (E, b'+' | b'-') => Sign,
            (E | Sign | Exponent, b'0'..=b'9') => Exponent,
            (Zero | Int | Fraction | Exponent, byte) => return self.after(byte),
            _ => return Err(NOT_TEXT),
        };
        Ok(Mode::Number(next))
    }
}

fn string(key: bool, byte: u8) -> Next {
    use Character::*;
    let character = match byte {
        b'"' => return Ok(if key { Mode::Colon } else { Mode::After }),
        b'\\' => Escaped,
        0x20..=0x7F => return Ok(Mode::String(key)),
        0xC2..=0xDF => Tail(1, 0x80, 0xBF),
        0xE0 => Tail(2, 0xA0, 0xBF),
        0xED => Tail(2, 0x80, 0x9F),
        0xE1..=0xEF => Tail(2, 0x80, 0xBF),
        0xF0 => Tail(3, 0x90, 0xBF),
        0xF1..=0xF3 => Tail(3, 0x80, 0xBF),
        0xF4 => Tail(3, 0x80, 0x8F),
        _ => return Err(NOT_TEXT),
    };
    Ok(Mode::Character(key, character))
}

/// What follows inside a character; nothing at its end.
fn inside(character: Character, byte: u8) -> Result<Option<Character>, u32> {
    use Character::*;
    let digit = char::from(byte).to_digit(16);
    let next = match (character, byte, digit) {
        (Escaped, b'u', _) => Some(Hex(0, 0)),
        (Escaped, b'"' | b'\\' | b'/' | b'b' | b'f' | b'n' | b'r' | b't', _) => None,
        (Hex(count, value), _, Some(digit)) => match (count, value << 4 | digit) {
            (1, 0xDC..=0xDF) => return Err(NOT_TEXT),
            (3, 0xD800..=0xDBFF) => Some(LowBackslash),
            (3, _) => None,
            (count, value) => Some(Hex(count + 1, value)),
        },
        (LowBackslash, b'\\', _) => Some(LowU),
        (LowU, b'u', _) => Some(Low(0)),
        (Low(0), _, Some(0xD)) => Some(Low(1)),
        (Low(1), _, Some(0xC..)) => Some(Low(2)),
        (Low(2), _, Some(_)) => Some(Low(3)),
        (Low(3), _, Some(_)) => None,
        (Tail(count, low, high), byte, _) if (low..=high).contains(&byte) => {
            (count > 1).then_some(Tail(count - 1, 0x80, 0xBF))
        }
        _ => return Err(NOT_TEXT),
    };
    Ok(next)
}

#[cfg(test)]
mod tests {
    use super::*;
    use generate::streams::{self, StreamCase};
    use generate::Random;
    use reference::stream::{read, Output};

    #[test]
    fn it_gives_what_the_reference_gives() {
        let mut random = Random::new(1);
        for _ in 0..3_000 {
            let StreamCase { bytes, lent } = streams::any(&mut random);
            let (mut framing, mut buffer, mut given) = (Framing::new(), vec![0; lent], Vec::new());
            let cuts = streams::cuts(&mut random, bytes.len());
            for mut piece in streams::pieces(&bytes, &cuts) {
                loop {
                    let (said, taken) = framing.feed(&mut buffer, piece);
                    piece = &piece[taken..];
                    match said {
                        Said::Nothing => break,
                        Said::Message(length) => given.push(Ok(buffer[..length].to_vec())),
                        Said::Refused(number) => given.push(Err(number)),
                    }
                }
            }
            let expected = read(&bytes, lent).0.into_iter().map(|placed| match placed.output {
                Output::Message(bytes) => Ok(bytes.to_vec()),
                Output::Refused(number) => Err(number),
            });
            assert_eq!(given, expected.collect::<Vec<_>>(), "{}", bytes.escape_ascii());
        }
    }
}
