//! Places in a document, and the text that stands there.

use std::ops::Range;

/// What an example is put together from.
#[derive(Clone, Copy, Debug)]
pub enum Piece {
    /// Lines, first and last, counted from 1.
    Lines(usize, usize),
    /// Lines of which the first starts with this, which is cut; blanks may stand before it.
    After(&'static str, usize, usize),
    /// Bytes, from and to one past, of a document that has no lines or of a word inside a line.
    Bytes(usize, usize),
    /// Text of our own.
    Own(&'static str),
}

/// A document's text. Of a framed one only lines with `|` first count, and that is cut.
pub struct Text {
    bytes: Vec<u8>,
    framed: bool,
}

impl Text {
    pub fn new(bytes: Vec<u8>, framed: bool) -> Self {
        Text { bytes, framed }
    }

    /// The pieces, one directly after the other.
    pub fn take(&self, pieces: &[Piece]) -> Result<Vec<u8>, String> {
        let taken: Result<Vec<_>, _> = pieces.iter().map(|&piece| self.take_piece(piece)).collect();
        Ok(taken?.concat())
    }

    fn take_piece(&self, piece: Piece) -> Result<Vec<u8>, String> {
        let Some(place) = self.place(piece) else {
            let Piece::Own(text) = piece else {
                return Err(format!("{piece:?} is beyond the document's end"));
            };
            return Ok(text.into());
        };
        let text = self.without_frame(&self.bytes[place]);
        match piece {
            Piece::After(mark, ..) => match text.trim_ascii_start().strip_prefix(mark.as_bytes()) {
                Some(rest) => Ok(rest.to_vec()),
                None => Err(format!("{piece:?} doesn't start with its mark")),
            },
            _ => Ok(text),
        }
    }

    /// Where a piece stands; nowhere if it is our own or beyond the end.
    fn place(&self, piece: Piece) -> Option<Range<usize>> {
        let place = match piece {
            Piece::Lines(first, last) | Piece::After(_, first, last) => self.line(first)?.start..self.line(last)?.end,
            Piece::Bytes(start, end) => start..end,
            Piece::Own(_) => return None,
        };
        self.bytes.get(place.clone()).map(|_| place)
    }

    fn line(&self, number: usize) -> Option<Range<usize>> {
        let ends = (0..self.bytes.len()).filter(|&place| self.bytes[place] == b'\n').chain([self.bytes.len()]);
        let starts = [0].into_iter().chain(ends.clone().map(|end| end + 1));
        starts.zip(ends).nth(number - 1).map(|(start, end)| start..end)
    }

    fn without_frame(&self, text: &[u8]) -> Vec<u8> {
        if !self.framed {
            return text.to_vec();
        }
        let lines: Vec<_> = text.split(|&byte| byte == b'\n').filter_map(|line| line.strip_prefix(b"|")).collect();
        lines.join(&b'\n')
    }

    /// A place where an object with a key opens and that no piece holds.
    pub fn unlisted<'a>(&self, pieces: impl Iterator<Item = &'a Piece>) -> Option<usize> {
        let places: Vec<_> = pieces.filter_map(|&piece| self.place(piece)).collect();
        let opens = |place: usize| {
            let rest = &self.bytes[place..];
            rest[0] == b'{' && matches!(rest[1..].trim_ascii_start().first(), Some(b'\'' | b'"'))
        };
        (0..self.bytes.len()).find(|&place| opens(place) && !places.iter().any(|range| range.contains(&place)))
    }
}

#[cfg(test)]
mod tests {
    use super::Piece::*;
    use super::*;

    fn taken(text: &str, framed: bool, pieces: &[Piece]) -> Result<String, String> {
        let bytes = Text::new(text.into(), framed).take(pieces)?;
        Ok(String::from_utf8(bytes).unwrap())
    }

    #[test]
    fn lines_and_bytes_are_taken_and_joined() {
        let text = "one\ntwo\n -> three\n four";
        assert_eq!(taken(text, false, &[Lines(2, 2)]).unwrap(), "two");
        assert_eq!(taken(text, false, &[Lines(1, 2), Own("+"), Bytes(4, 6)]).unwrap(), "one\ntwo+tw");
        assert_eq!(taken(text, false, &[After("-> ", 3, 4)]).unwrap(), "three\n four");
        for wrong in [Lines(4, 5), Bytes(0, 90), Bytes(3, 2), After("=> ", 3, 3)] {
            assert!(taken(text, false, &[wrong]).is_err(), "{wrong:?}");
        }
    }

    #[test]
    fn a_frame_is_cut() {
        assert_eq!(taken("| a\n | |\n|  <- b\n | |\n|  c", true, &[After("<- ", 3, 5)]).unwrap(), "b\n  c");
    }

    #[test]
    fn an_object_that_is_not_listed_is_found() {
        let text = Text::new("{ 'a':\n {\"b\" { if {} }".into(), false);
        assert_eq!(text.unlisted([Lines(1, 1), Bytes(8, 9)].iter()), None);
        assert_eq!(text.unlisted([Lines(1, 1)].iter()), Some(8));
        assert_eq!(text.unlisted([Lines(2, 2)].iter()), Some(0));
    }
}
