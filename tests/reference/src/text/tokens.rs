//! The tokens of a text: words, numbers and strings.

use super::reader::{Reader, Stop};
use super::Kind;

/// A word of eight bytes, each 1, and one of the top bits of eight bytes.
const ONES: u64 = 0x0101_0101_0101_0101;
const TOP_BITS: u64 = 0x8080_8080_8080_8080;

/// The top bit of the first byte of a word, from the lowest on, that is under `limit`, which is at most 0x80. Higher
/// bits may be set too; none is where there is no such byte.
const fn under(word: u64, limit: u8) -> u64 {
    word.wrapping_sub(ONES * limit as u64) & !word & TOP_BITS
}

/// The same of the first byte that is `byte`.
const fn equal(word: u64, byte: u8) -> u64 {
    under(word ^ (ONES * byte as u64), 1)
}

impl<const SCHEMA: bool> Reader<'_, SCHEMA> {
    pub fn word(&mut self, word: &[u8], kind: Kind) -> Result<(), Stop> {
        let start = self.place();
        for &letter in word {
            self.expect(|byte| byte == letter)?;
        }
        self.push(kind, start);
        Ok(())
    }

    pub fn number(&mut self) -> Result<(), Stop> {
        let start = self.place();
        let mut kind = Kind::Integer;
        self.skip(|byte| byte == b'-');
        if !self.skip(|byte| byte == b'0') {
            self.digits()?;
        }
        if self.skip(|byte| byte == b'.') {
            kind = Kind::OtherNumber;
            self.digits()?;
        }
        if self.skip(|byte| matches!(byte, b'e' | b'E')) {
            kind = Kind::OtherNumber;
            self.skip(|byte| matches!(byte, b'+' | b'-'));
            self.digits()?;
        }
        self.push(kind, start);
        Ok(())
    }

    /// At least one digit.
    fn digits(&mut self) -> Result<(), Stop> {
        self.expect(|byte| byte.is_ascii_digit())?;
        while self.skip(|byte| byte.is_ascii_digit()) {}
        Ok(())
    }

    /// A string or key from quote to quote.
    pub fn string(&mut self, plain: Kind, coded: Kind) -> Result<(), Stop> {
        let start = self.place();
        let mut kind = plain;
        self.pass(1);
        loop {
            self.plain_run();
            match self.peek() {
                Some(byte) if byte == Self::QUOTE => break,
                Some(b'\\') => self.escape()?,
                Some(byte) if !SCHEMA => self.wide(byte)?,
                _ => return Err(Stop::Fault),
            }
            kind = coded;
        }
        self.pass(1);
        self.push(kind, start);
        Ok(())
    }

    /// Passes bytes that stand for themselves, eight at a time while there are so many.
    fn plain_run(&mut self) {
        let (words, tail) = self.rest().as_chunks::<8>();
        for &word in words {
            let length = Self::plain_length(u64::from_le_bytes(word));
            self.pass(length);
            if length < 8 {
                return;
            }
        }
        self.pass(tail.iter().take_while(|&&byte| Self::is_plain(byte)).count());
    }

    /// How many of eight bytes, from the lowest on, come before one that isn't plain.
    fn plain_length(word: u64) -> usize {
        let other = under(word, 0x20) | equal(word, Self::QUOTE) | equal(word, b'\\') | word & TOP_BITS;
        let other = if SCHEMA { other | equal(word, 0x7F) } else { other };
        other.trailing_zeros() as usize / 8
    }

    /// A byte that stands for itself inside a string.
    fn is_plain(byte: u8) -> bool {
        let last = if SCHEMA { 0x7E } else { 0x7F };
        (0x20..=last).contains(&byte) && byte != Self::QUOTE && byte != b'\\'
    }

    /// A backslash and what it escapes.
    fn escape(&mut self) -> Result<(), Stop> {
        self.pass(1);
        if SCHEMA {
            return self.expect(|byte| byte == b'\\').map(drop);
        }
        match self.expect(|byte| b"\"\\/bfnrtu".contains(&byte))? {
            b'u' => self.code_unit(),
            _ => Ok(()),
        }
    }

    /// The digits after `\u`, and the escape of a low surrogate after those of a high one.
    fn code_unit(&mut self) -> Result<(), Stop> {
        let first = self.expect(|byte| byte.is_ascii_hexdigit())?;
        if !matches!(first, b'd' | b'D') {
            return self.hex_digits(3);
        }
        // DC to DF would be a low surrogate alone.
        let second = self.expect(|byte| matches!(byte, b'0'..=b'9' | b'a' | b'A' | b'b' | b'B'))?;
        self.hex_digits(2)?;
        match second {
            b'0'..=b'7' => Ok(()),
            _ => self.low_surrogate(),
        }
    }

    fn low_surrogate(&mut self) -> Result<(), Stop> {
        self.expect(|byte| byte == b'\\')?;
        self.expect(|byte| byte == b'u')?;
        self.expect(|byte| matches!(byte, b'd' | b'D'))?;
        self.expect(|byte| matches!(byte, b'c'..=b'f' | b'C'..=b'F'))?;
        self.hex_digits(2)
    }

    fn hex_digits(&mut self, count: usize) -> Result<(), Stop> {
        for _ in 0..count {
            self.expect(|byte| byte.is_ascii_hexdigit())?;
        }
        Ok(())
    }

    /// A character of 2 to 4 bytes: no overlong form, no surrogate, nothing above U+10FFFF.
    fn wide(&mut self, first: u8) -> Result<(), Stop> {
        let (second, more) = match first {
            0xC2..=0xDF => (0x80..=0xBF, 0),
            0xE0 => (0xA0..=0xBF, 1),
            0xED => (0x80..=0x9F, 1),
            0xE1..=0xEF => (0x80..=0xBF, 1),
            0xF0 => (0x90..=0xBF, 2),
            0xF1..=0xF3 => (0x80..=0xBF, 2),
            0xF4 => (0x80..=0x8F, 2),
            _ => return Err(Stop::Fault),
        };
        self.pass(1);
        self.expect(|byte| second.contains(&byte))?;
        for _ in 0..more {
            self.expect(|byte| matches!(byte, 0x80..=0xBF))?;
        }
        Ok(())
    }
}
