//! Bytes to nodes: one reader for schema text and for message text (docs/REFERENCE.md, Structure to
//! Longest starts).

mod reader;
mod tokens;

use reader::Reader;

/// Which of the two texts is read.
#[derive(Clone, Copy, Debug, PartialEq, Eq)]
pub enum Dialect {
    Schema,
    Message,
}

/// What a node stands for. A plain string or key has no escape and only ASCII between its quotes, so that its bytes are
/// its code points; any other is coded.
#[derive(Clone, Copy, Debug, PartialEq, Eq)]
#[repr(u32)]
pub enum Kind {
    Null = 1,
    False = 2,
    True = 3,
    /// A number written with digits and perhaps a minus, nothing else.
    Integer = 4,
    OtherNumber = 5,
    PlainString = 6,
    CodedString = 7,
    Array = 8,
    Object = 9,
    PlainKey = 10,
    CodedKey = 11,
}

impl Kind {
    /// A string that is a value.
    pub fn is_string(self) -> bool {
        matches!(self, Kind::PlainString | Kind::CodedString)
    }

    pub fn is_key(self) -> bool {
        matches!(self, Kind::PlainKey | Kind::CodedKey)
    }

    pub fn is_plain(self) -> bool {
        matches!(self, Kind::PlainString | Kind::PlainKey)
    }
}

/// One value or key. Nodes stand in pre-order; a key's value follows its key directly.
#[derive(Clone, Copy, Debug, PartialEq, Eq)]
pub struct Node {
    pub kind: Kind,
    /// First byte, the quote of a string or key.
    pub start: u32,
    /// One past the last byte.
    pub end: u32,
    /// Number of the first node after this subtree; a key's subtree has its value.
    pub next: u32,
}

impl Node {
    pub fn words(self) -> [u32; 4] {
        [self.kind as u32, self.start, self.end, self.next]
    }

    pub fn bytes(self, text: &[u8]) -> &[u8] {
        &text[self.start as usize..self.end as usize]
    }
}

/// Why a text isn't whole, and where.
#[derive(Clone, Copy, Debug, PartialEq, Eq)]
pub enum Refused {
    Fault(usize),
    Deep(usize),
}

/// What the reader says of a text.
#[derive(Clone, Debug, PartialEq, Eq)]
pub enum Verdict {
    Whole(Vec<Node>),
    /// Length of the longest start that some valid text within the levels has.
    Fault(usize),
    /// The same length, where the next byte opens one level too many and a value may stand there.
    Deep(usize),
}

/// Reads a whole text of at most `levels` levels.
pub fn read(dialect: Dialect, text: &[u8], levels: usize) -> Verdict {
    let mut nodes = Vec::with_capacity(text.len() / 8 + 1);
    match read_into(dialect, text, levels, &mut nodes) {
        Ok(()) => Verdict::Whole(nodes),
        Err(Refused::Fault(place)) => Verdict::Fault(place),
        Err(Refused::Deep(place)) => Verdict::Deep(place),
    }
}

/// The same, the nodes of a whole text into a vector of the caller's.
pub fn read_into(dialect: Dialect, text: &[u8], levels: usize, nodes: &mut Vec<Node>) -> Result<(), Refused> {
    nodes.clear();
    match dialect {
        Dialect::Schema => Reader::<true>::new(text, nodes).schema(levels),
        Dialect::Message => Reader::<false>::new(text, nodes).message(levels),
    }
}

/// Numbers of an array's elements, or of an object's keys, found by hopping over subtrees.
pub fn children(nodes: &[Node], parent: usize) -> impl Iterator<Item = usize> + '_ {
    let end = nodes[parent].next as usize;
    let hop = |&child: &usize| nodes.get(child).map(|node| node.next as usize);
    std::iter::successors(Some(parent + 1), hop).take_while(move |&child| child < end)
}

#[cfg(test)]
mod tests;
