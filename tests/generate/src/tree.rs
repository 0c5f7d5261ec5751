//! Texts as trees, before they are printed.

/// A value or key. A mark other than 0 is handed back with its place when the tree is printed.
#[derive(Clone, Debug, PartialEq, Eq)]
pub struct Tree {
    pub shape: Shape,
    pub mark: u32,
}

#[derive(Clone, Debug, PartialEq, Eq)]
pub enum Shape {
    /// A word, a number, or a fault: bytes printed as they are.
    Raw(Vec<u8>),
    /// A string by its meaning.
    Text(String),
    List(Vec<Tree>),
    /// Keys and values.
    Object(Vec<(Tree, Tree)>),
}

impl From<Shape> for Tree {
    fn from(shape: Shape) -> Self {
        Tree { shape, mark: 0 }
    }
}

impl Tree {
    pub fn raw(bytes: impl AsRef<[u8]>) -> Self {
        Shape::Raw(bytes.as_ref().to_vec()).into()
    }

    pub fn text(text: impl Into<String>) -> Self {
        Shape::Text(text.into()).into()
    }

    pub fn list(elements: Vec<Tree>) -> Self {
        Shape::List(elements).into()
    }

    pub fn object(members: Vec<(Tree, Tree)>) -> Self {
        Shape::Object(members).into()
    }

    pub fn marked(self, mark: u32) -> Self {
        Tree { mark, ..self }
    }

    /// A string's or key's meaning.
    pub fn as_text(&self) -> Option<&str> {
        match &self.shape {
            Shape::Text(text) => Some(text),
            _ => None,
        }
    }

    pub fn members_mut(&mut self) -> Option<&mut Vec<(Tree, Tree)>> {
        match &mut self.shape {
            Shape::Object(members) => Some(members),
            _ => None,
        }
    }

    /// Values in this one, itself counted, keys not.
    pub fn count(&self) -> usize {
        match &self.shape {
            Shape::Raw(_) | Shape::Text(_) => 1,
            Shape::List(elements) => 1 + elements.iter().map(Tree::count).sum::<usize>(),
            Shape::Object(members) => 1 + members.iter().map(|(_, value)| value.count()).sum::<usize>(),
        }
    }

    /// Pre-order numbers of the values that fit.
    pub fn find_all(&self, fits: impl Fn(&Tree) -> bool) -> Vec<usize> {
        let mut found = Vec::new();
        self.find_from(0, &fits, &mut found);
        found
    }

    /// Gives the number after this subtree's last.
    fn find_from(&self, number: usize, fits: &impl Fn(&Tree) -> bool, found: &mut Vec<usize>) -> usize {
        if fits(self) {
            found.push(number);
        }
        let next = number + 1;
        match &self.shape {
            Shape::Raw(_) | Shape::Text(_) => next,
            Shape::List(elements) => elements.iter().fold(next, |number, value| value.find_from(number, fits, found)),
            Shape::Object(members) => {
                members.iter().fold(next, |number, (_, value)| value.find_from(number, fits, found))
            }
        }
    }

    /// A value by its pre-order number.
    pub fn nth_mut(&mut self, number: usize) -> Option<&mut Tree> {
        let mut left = number;
        self.nth_from(&mut left)
    }

    fn nth_from(&mut self, left: &mut usize) -> Option<&mut Tree> {
        if *left == 0 {
            return Some(self);
        }
        *left -= 1;
        match &mut self.shape {
            Shape::Raw(_) | Shape::Text(_) => None,
            Shape::List(elements) => elements.iter_mut().find_map(|value| value.nth_from(left)),
            Shape::Object(members) => members.iter_mut().find_map(|(_, value)| value.nth_from(left)),
        }
    }
}

/// The trees of a well-formed schema text without comments.
pub fn parse_schema(text: &str) -> Vec<Tree> {
    let mut parser = Parser { rest: text.trim_start() };
    let mut trees = Vec::new();
    while !parser.rest.is_empty() {
        trees.push(parser.value());
    }
    trees
}

struct Parser<'a> {
    rest: &'a str,
}

impl Parser<'_> {
    fn value(&mut self) -> Tree {
        match self.rest.as_bytes()[0] {
            b'{' => self.object(),
            b'[' => self.list(),
            b'\'' => self.string(),
            _ => self.word(),
        }
    }

    fn object(&mut self) -> Tree {
        let mut members = Vec::new();
        self.skip("{");
        while !self.skip("}") {
            let key = self.string();
            assert!(self.skip(":"), "colon at {}", self.rest);
            members.push((key, self.value()));
            self.skip(",");
        }
        Tree::object(members)
    }

    fn list(&mut self) -> Tree {
        let mut elements = Vec::new();
        self.skip("[");
        while !self.skip("]") {
            elements.push(self.value());
            self.skip(",");
        }
        Tree::list(elements)
    }

    fn string(&mut self) -> Tree {
        let end = self.rest[1..].find('\'').expect("a closing quote") + 1;
        let text = self.rest[1..end].replace("\\\\", "\\");
        self.pass(end + 1);
        Tree::text(text)
    }

    fn word(&mut self) -> Tree {
        let end = self.rest.find(|letter: char| !letter.is_ascii_alphabetic()).unwrap_or(self.rest.len());
        assert!(end > 0, "a word at {}", self.rest);
        let word = Tree::raw(&self.rest[..end]);
        self.pass(end);
        word
    }

    fn skip(&mut self, token: &str) -> bool {
        let there = self.rest.starts_with(token);
        if there {
            self.pass(token.len());
        }
        there
    }

    /// Passes bytes and the blanks after them.
    fn pass(&mut self, length: usize) {
        self.rest = self.rest[length..].trim_start();
    }
}

#[cfg(test)]
mod tests {
    use super::*;
    use crate::print::{print, Dialect, Style};
    use crate::Random;

    #[test]
    fn a_schema_is_printed_as_it_was_parsed() {
        let text = r"{'a':['b\\',true,{}],'':{'c':[]}}{}";
        let printed = print(&mut Random::new(1), Style::compact(Dialect::Schema), &parse_schema(text));
        assert_eq!(printed.bytes, text.as_bytes());
    }

    #[test]
    fn values_are_found_by_their_pre_order_numbers() {
        let mut tree = parse_schema("{'a':['b','c'],'d':{'e':'f'}}").remove(0);
        assert_eq!(tree.count(), 6);
        assert_eq!(tree.find_all(|tree| tree.as_text().is_some()), [2, 3, 5]);
        assert_eq!(tree.nth_mut(5).and_then(|tree| tree.as_text().map(str::to_string)), Some("f".to_string()));
        assert_eq!(tree.nth_mut(6), None);
    }
}
