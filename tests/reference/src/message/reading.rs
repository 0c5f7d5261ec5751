//! The reading of a command's arguments: typed records by the table (number 29).

use super::records::Records;
use crate::builtins::{self, JsonKind, INT, SIZE};
use crate::integers;
use crate::names;
use crate::rows::{Rows, ALTERNATE, ENUM, FIRST_ROW_REFERENCE, STRUCT, UNION};
use crate::strings::Token;
use crate::text::{children, Kind, Node};

/// Each of its functions gives whether there is a reading, and adds that reading's records.
pub struct Reader<'a> {
    pub rows: Rows<'a>,
    pub message: &'a [u8],
    pub nodes: &'a [Node],
    pub records: Records<'a>,
}

/// The structs whose members an object may have: one, or a union's base and branch.
#[derive(Clone, Copy)]
struct Fields {
    base: usize,
    branch: Option<usize>,
}

impl<'a> Reader<'a> {
    /// Absent arguments are read as `{}` at 0, 0.
    pub fn arguments(&mut self, command: usize, node: Option<usize>) -> bool {
        let structure = self.rows.arguments(command);
        let reference = structure.map_or(0, |row| FIRST_ROW_REFERENCE + row as u32);
        let (start, end) = node.map_or((0, 0), |node| (self.nodes[node].start, self.nodes[node].end));
        self.records.push([start, end, reference, 0]);
        match (structure, node) {
            (Some(base), Some(node)) => self.object(node, Fields { base, branch: None }),
            (Some(base), None) => self.mandatory_count(Fields { base, branch: None }) == 0,
            (None, Some(node)) => children(self.nodes, node).next().is_none(),
            (None, None) => true,
        }
    }

    /// A value at a type, its record first.
    fn value(&mut self, node: usize, reference: u32, array: bool) -> bool {
        let Node { start, end, .. } = self.nodes[node];
        self.records.push([start, end, reference, array.into()]);
        if array {
            return self.array(node, reference);
        }
        let Some(row) = Rows::referred(reference) else {
            return self.built_in(node, reference);
        };
        match self.rows.kind(row) {
            ENUM => self.enumeration(node, row),
            STRUCT => self.object(node, Fields { base: row, branch: None }),
            UNION => self.union(node, row),
            ALTERNATE => self.alternate(node, row),
            _ => false,
        }
    }

    fn array(&mut self, node: usize, element: u32) -> bool {
        let nodes = self.nodes;
        nodes[node].kind == Kind::Array && children(nodes, node).all(|value| self.value(value, element, false))
    }

    fn built_in(&self, node: usize, built_in: u32) -> bool {
        let node = self.nodes[node];
        let in_range = match built_in {
            INT..=SIZE => node.kind == Kind::Integer && integers::in_range(node.bytes(self.message), built_in),
            _ => true,
        };
        in_range && builtins::takes(built_in, JsonKind::of(node.kind))
    }

    fn enumeration(&self, node: usize, row: usize) -> bool {
        self.string(node).is_some_and(|string| self.find(self.rows.list(row), string).is_some())
    }

    fn alternate(&mut self, node: usize, row: usize) -> bool {
        let kind = JsonKind::of(self.nodes[node].kind);
        let mut references = self.rows.list(row).map(|alternative| self.rows.type_reference(alternative));
        match references.find(|&reference| self.rows.json_kind(reference) == Some(kind)) {
            Some(reference) => self.value(node, reference, false),
            None => false,
        }
    }

    /// The whole object is searched for the discriminator before any member is read.
    fn union(&mut self, node: usize, union: usize) -> bool {
        let rows = self.rows;
        let (Some(base), Some(string)) = (rows.union_base(union), self.discriminator(node, union)) else {
            return false;
        };
        let branch = self.find(rows.list(union), string).and_then(|row| rows.branch_struct(row));
        self.object(node, Fields { base, branch })
    }

    /// The string under the discriminator's key. Its own reading tells whether the enum has it.
    fn discriminator(&self, object: usize, union: usize) -> Option<Token<'a>> {
        if self.nodes[object].kind != Kind::Object {
            return None;
        }
        let name = self.rows.name(self.rows.discriminator(union)?);
        let key = children(self.nodes, object).find(|&key| self.token(key).means(name))?;
        self.string(key + 1)
    }

    /// An object of known members that lacks none it must have. No two keys mean the same and no two members share a
    /// name, so counting the mandatory ones is enough.
    fn object(&mut self, node: usize, fields: Fields) -> bool {
        let nodes = self.nodes;
        if nodes[node].kind != Kind::Object {
            return false;
        }
        let mut mandatory = 0;
        for key in children(nodes, node) {
            let Some(member) = self.find(self.members(fields), self.token(key)) else {
                return false;
            };
            mandatory += usize::from(self.rows.is_mandatory(member));
            if !self.value(key + 1, self.rows.type_reference(member), self.rows.is_array(member)) {
                return false;
            }
        }
        mandatory == self.mandatory_count(fields)
    }

    fn members(&self, fields: Fields) -> impl Iterator<Item = usize> + 'a {
        let rows = self.rows;
        let structs = [Some(fields.base), fields.branch].into_iter().flatten();
        structs.flat_map(move |row| rows.members(row))
    }

    fn mandatory_count(&self, fields: Fields) -> usize {
        self.members(fields).filter(|&member| self.rows.is_mandatory(member)).count()
    }

    /// The row of these whose name the token means.
    fn find(&self, mut rows: impl Iterator<Item = usize>, token: Token) -> Option<usize> {
        let name = token.meaning();
        rows.find(|&row| names::equal(self.rows.name(row), &name))
    }

    fn string(&self, node: usize) -> Option<Token<'a>> {
        self.nodes[node].kind.is_string().then(|| self.token(node))
    }

    fn token(&self, node: usize) -> Token<'a> {
        Token::new(self.message, self.nodes[node])
    }
}
