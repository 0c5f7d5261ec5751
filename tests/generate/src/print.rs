//! Trees printed as schema or message text, with odd blanks, comments and escapes.

use crate::tree::{Shape, Tree};
use crate::Random;

#[derive(Clone, Copy, Debug, PartialEq, Eq)]
pub enum Dialect {
    Schema,
    Message,
}

/// How often, in percent, a gap has blanks and a character an escape.
#[derive(Clone, Copy, Debug)]
pub struct Style {
    pub dialect: Dialect,
    pub blanks: usize,
    pub escapes: usize,
}

impl Style {
    pub fn compact(dialect: Dialect) -> Self {
        Style { dialect, blanks: 0, escapes: 0 }
    }

    pub fn any(random: &mut Random, dialect: Dialect) -> Self {
        Style { dialect, blanks: *random.pick(&[0, 5, 30, 80]), escapes: *random.pick(&[0, 5, 30, 100]) }
    }
}

/// Where something marked stands.
#[derive(Clone, Copy, Debug, PartialEq, Eq)]
pub struct Mark {
    pub mark: u32,
    pub start: u32,
    pub end: u32,
}

/// A text, the nodes that a reader should give of it, and its marks in pre-order.
#[derive(Clone, Debug, Default)]
pub struct Printed {
    pub bytes: Vec<u8>,
    pub nodes: Vec<[u32; 4]>,
    pub marks: Vec<Mark>,
}

/// Prints a schema's objects one after the other, or a message's one value.
pub fn print(random: &mut Random, style: Style, trees: &[Tree]) -> Printed {
    let mut printer = Printer { random, style, out: Printed::default() };
    printer.blanks();
    for tree in trees {
        printer.value(tree);
        printer.blanks();
    }
    if style.dialect == Dialect::Schema && style.blanks > 0 && printer.random.one_in(4) {
        printer.comment();
    }
    printer.out
}

/// Kinds of nodes; a coded string or key has the number after the plain one.
const OTHER_NUMBER: u32 = 5;
const PLAIN_STRING: u32 = 6;
const ARRAY: u32 = 8;
const OBJECT: u32 = 9;
const PLAIN_KEY: u32 = 10;

struct Printer<'a> {
    random: &'a mut Random,
    style: Style,
    out: Printed,
}

impl Printer<'_> {
    fn value(&mut self, tree: &Tree) {
        let (node, mark) = self.open(tree);
        match &tree.shape {
            Shape::Raw(bytes) => {
                self.out.bytes.extend(bytes);
                self.out.nodes[node][0] = raw_kind(bytes);
            }
            Shape::Text(text) => self.out.nodes[node][0] = PLAIN_STRING + u32::from(self.string(text)),
            Shape::List(elements) => {
                self.out.nodes[node][0] = ARRAY;
                self.bracketed(b"[]", elements, Self::value);
            }
            Shape::Object(members) => {
                self.out.nodes[node][0] = OBJECT;
                self.bracketed(b"{}", members, Self::member);
            }
        }
        self.close(node, mark);
    }

    fn member(&mut self, (key, value): &(Tree, Tree)) {
        let (node, mark) = self.open(key);
        match &key.shape {
            Shape::Text(text) => self.out.nodes[node][0] = PLAIN_KEY + u32::from(self.string(text)),
            Shape::Raw(bytes) => self.out.bytes.extend(bytes),
            _ => panic!("a key is a string"),
        }
        self.close(node, mark);
        self.blanks();
        self.out.bytes.push(b':');
        self.blanks();
        self.value(value);
        self.out.nodes[node][3] = self.out.nodes.len() as u32;
    }

    fn bracketed<T>(&mut self, brackets: &[u8; 2], items: &[T], print: impl Fn(&mut Self, &T)) {
        self.out.bytes.push(brackets[0]);
        self.blanks();
        for (i, item) in items.iter().enumerate() {
            if i > 0 {
                self.out.bytes.push(b',');
                self.blanks();
            }
            print(self, item);
            self.blanks();
        }
        self.out.bytes.push(brackets[1]);
    }

    /// Numbers of the node and, if there is one, the mark that begin here.
    fn open(&mut self, tree: &Tree) -> (usize, Option<usize>) {
        let start = self.out.bytes.len() as u32;
        self.out.nodes.push([0, start, 0, 0]);
        let mark = (tree.mark != 0).then_some(self.out.marks.len());
        if mark.is_some() {
            self.out.marks.push(Mark { mark: tree.mark, start, end: 0 });
        }
        (self.out.nodes.len() - 1, mark)
    }

    fn close(&mut self, node: usize, mark: Option<usize>) {
        let end = self.out.bytes.len() as u32;
        self.out.nodes[node][2] = end;
        self.out.nodes[node][3] = self.out.nodes.len() as u32;
        if let Some(mark) = mark {
            self.out.marks[mark].end = end;
        }
    }

    /// Says whether the string is coded: it has an escape or a byte that isn't ASCII.
    fn string(&mut self, text: &str) -> bool {
        match self.style.dialect {
            Dialect::Schema => {
                self.out.bytes.extend(format!("'{}'", text.replace('\\', "\\\\")).bytes());
                text.contains('\\')
            }
            Dialect::Message => self.message_string(text),
        }
    }

    fn message_string(&mut self, text: &str) -> bool {
        let mut coded = false;
        self.out.bytes.push(b'"');
        for point in text.chars() {
            if point < ' ' || point == '"' || point == '\\' || self.random.percent(self.style.escapes) {
                coded = true;
                self.escape(point);
            } else {
                coded |= !point.is_ascii();
                self.out.bytes.extend(point.encode_utf8(&mut [0; 4]).bytes());
            }
        }
        self.out.bytes.push(b'"');
        coded
    }

    /// The short escape of those that have one, sometimes; else code units.
    fn escape(&mut self, point: char) {
        let short = ["\"\"", "\\\\", "//", "b\u{8}", "f\u{C}", "n\n", "r\r", "t\t"];
        let short = short.iter().find(|pair| pair.ends_with(point)).map(|pair| pair.as_bytes()[0]);
        if let Some(letter) = short.filter(|_| self.random.percent(60)) {
            return self.out.bytes.extend([b'\\', letter]);
        }
        for unit in point.encode_utf16(&mut [0; 2]) {
            let digits: String = format!("{unit:04x}").chars().map(|digit| self.either_case(digit)).collect();
            self.out.bytes.extend(b"\\u");
            self.out.bytes.extend(digits.bytes());
        }
    }

    fn either_case(&mut self, digit: char) -> char {
        match self.random.one_in(2) {
            true => digit.to_ascii_uppercase(),
            false => digit,
        }
    }

    fn blanks(&mut self) {
        while self.random.percent(self.style.blanks.min(60)) {
            if self.style.dialect == Dialect::Schema && self.random.one_in(5) {
                self.comment();
                self.out.bytes.push(b'\n');
            }
            self.out.bytes.push(*self.random.pick(b" \t\r\n"));
        }
    }

    /// Without its LF.
    fn comment(&mut self) {
        self.out.bytes.push(b'#');
        for _ in 0..self.random.below(8) {
            let byte =
                if self.random.one_in(2) { self.random.byte() } else { *self.random.pick(b"{}[]'\"\\#,:\r\x00") };
            self.out.bytes.push(if byte == b'\n' { b'#' } else { byte });
        }
    }
}

fn raw_kind(bytes: &[u8]) -> u32 {
    match bytes.first() {
        Some(b'n') => 1,
        Some(b'f') => 2,
        Some(b't') => 3,
        _ if bytes.iter().any(|byte| b".eE".contains(byte)) => OTHER_NUMBER,
        _ => OTHER_NUMBER - 1,
    }
}
