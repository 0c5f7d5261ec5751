//! The structure of a text: values, members, brackets and what stands between them.

use super::{Kind, Node, Refused};

/// Why reading stopped, at the reader's place.
pub enum Stop {
    Fault,
    Deep,
}

/// A reader of schema text or, where not `SCHEMA`, of message text.
pub struct Reader<'a, const SCHEMA: bool> {
    text: &'a [u8],
    /// Everything before this place is a start of some valid text.
    at: usize,
    nodes: &'a mut Vec<Node>,
}

impl<'a, const SCHEMA: bool> Reader<'a, SCHEMA> {
    pub const QUOTE: u8 = if SCHEMA { b'\'' } else { b'"' };

    /// `nodes` is empty.
    pub fn new(text: &'a [u8], nodes: &'a mut Vec<Node>) -> Self {
        Reader { text, at: 0, nodes }
    }

    /// A whole schema text.
    pub fn schema(mut self, levels: usize) -> Result<(), Refused> {
        self.objects(levels).map_err(|stop| self.refused(stop))
    }

    /// A whole message text.
    pub fn message(mut self, levels: usize) -> Result<(), Refused> {
        self.single_value(levels).map_err(|stop| self.refused(stop))
    }

    fn refused(&self, stop: Stop) -> Refused {
        match stop {
            Stop::Fault => Refused::Fault(self.at),
            Stop::Deep => Refused::Deep(self.at),
        }
    }

    /// Objects that follow each other without commas.
    fn objects(&mut self, levels: usize) -> Result<(), Stop> {
        self.blanks();
        while let Some(byte) = self.peek() {
            if byte != b'{' {
                return Err(Stop::Fault);
            }
            self.object(levels)?;
            self.blanks();
        }
        Ok(())
    }

    /// One value with blanks around it.
    fn single_value(&mut self, levels: usize) -> Result<(), Stop> {
        self.blanks();
        self.value(levels)?;
        self.blanks();
        match self.peek() {
            None => Ok(()),
            Some(_) => Err(Stop::Fault),
        }
    }

    /// A value that may open `levels` levels.
    fn value(&mut self, levels: usize) -> Result<(), Stop> {
        match self.peek() {
            Some(b'{') => self.object(levels),
            Some(b'[') => self.array(levels),
            Some(b't') => self.word(b"true", Kind::True),
            Some(b'f') => self.word(b"false", Kind::False),
            Some(byte) if byte == Self::QUOTE => self.string(Kind::PlainString, Kind::CodedString),
            Some(b'n') if !SCHEMA => self.word(b"null", Kind::Null),
            Some(b'-' | b'0'..=b'9') if !SCHEMA => self.number(),
            _ => Err(Stop::Fault),
        }
    }

    fn array(&mut self, levels: usize) -> Result<(), Stop> {
        let array = self.open(Kind::Array, levels)?;
        if self.peek() == Some(b']') {
            return self.close(array);
        }
        loop {
            self.value(levels - 1)?;
            if self.comma_or(b']')? {
                return self.close(array);
            }
        }
    }

    fn object(&mut self, levels: usize) -> Result<(), Stop> {
        let object = self.open(Kind::Object, levels)?;
        if self.peek() == Some(b'}') {
            return self.close(object);
        }
        loop {
            self.member(levels - 1)?;
            if self.comma_or(b'}')? {
                return self.close(object);
            }
        }
    }

    /// A key, a colon and a value that may open `levels` levels.
    fn member(&mut self, levels: usize) -> Result<(), Stop> {
        if self.peek() != Some(Self::QUOTE) {
            return Err(Stop::Fault);
        }
        let key = self.nodes.len();
        self.string(Kind::PlainKey, Kind::CodedKey)?;
        self.blanks();
        self.expect(|byte| byte == b':')?;
        self.blanks();
        self.value(levels)?;
        self.nodes[key].next = self.nodes.len() as u32;
        Ok(())
    }

    /// Passes an opening bracket and blanks; gives the number of its node, to be closed later.
    fn open(&mut self, kind: Kind, levels: usize) -> Result<usize, Stop> {
        if levels == 0 {
            return Err(Stop::Deep);
        }
        let node = self.nodes.len();
        let start = self.at;
        self.pass(1);
        self.push(kind, start);
        self.blanks();
        Ok(node)
    }

    /// Passes a closing bracket.
    fn close(&mut self, node: usize) -> Result<(), Stop> {
        self.pass(1);
        let next = self.nodes.len() as u32;
        let node = &mut self.nodes[node];
        node.end = self.at as u32;
        node.next = next;
        Ok(())
    }

    /// After an element or member: passes a comma with its blanks, or says that `bracket` stands here.
    fn comma_or(&mut self, bracket: u8) -> Result<bool, Stop> {
        self.blanks();
        match self.peek() {
            Some(byte) if byte == bracket => Ok(true),
            Some(b',') => {
                self.pass(1);
                self.blanks();
                Ok(false)
            }
            _ => Err(Stop::Fault),
        }
    }

    /// Blanks and, in a schema, comments.
    fn blanks(&mut self) {
        while let Some(byte) = self.peek() {
            match byte {
                b' ' | b'\t' | b'\r' | b'\n' => self.pass(1),
                b'#' if SCHEMA => self.comment(),
                _ => return,
            }
        }
    }

    /// From `#` up to LF or the end.
    fn comment(&mut self) {
        let rest = self.rest();
        self.pass(rest.iter().position(|&byte| byte == b'\n').unwrap_or(rest.len()));
    }

    pub fn place(&self) -> usize {
        self.at
    }

    pub fn rest(&self) -> &'a [u8] {
        &self.text[self.at..]
    }

    pub fn peek(&self) -> Option<u8> {
        self.text.get(self.at).copied()
    }

    pub fn pass(&mut self, bytes: usize) {
        self.at += bytes;
    }

    /// Passes a byte that fits; any other is the fault.
    pub fn expect(&mut self, fits: impl Fn(u8) -> bool) -> Result<u8, Stop> {
        match self.peek() {
            Some(byte) if fits(byte) => {
                self.pass(1);
                Ok(byte)
            }
            _ => Err(Stop::Fault),
        }
    }

    /// Passes a byte if it fits.
    pub fn skip(&mut self, fits: impl Fn(u8) -> bool) -> bool {
        let fits = self.peek().is_some_and(fits);
        self.pass(usize::from(fits));
        fits
    }

    /// A node without children (yet), ending here.
    pub fn push(&mut self, kind: Kind, start: usize) {
        let next = self.nodes.len() as u32 + 1;
        self.nodes.push(Node { kind, start: start as u32, end: self.at as u32, next });
    }
}
