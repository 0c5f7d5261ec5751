//! Nodes of a schema text to rows whose references are still names (number 4).

use super::Refusal;
use crate::rows::*;
use crate::text::{children, Kind, Node};

/// Where a name stands in the schema bytes.
#[derive(Clone, Copy)]
pub struct Span {
    pub start: usize,
    pub length: usize,
}

/// The span that an inline struct's row has.
const NO_NAME: Span = Span { start: 0, length: 0 };

/// What a name must name.
#[derive(Clone, Copy, PartialEq, Eq)]
pub enum Target {
    Type,
    Struct,
    Discriminator,
}

/// A name that refers: word `place` of `row` is to be filled from it.
pub struct Reference {
    pub row: usize,
    pub place: usize,
    pub name: Span,
    pub target: Target,
}

/// The keys of one kind of definition.
struct Form {
    kind: u32,
    key: &'static [u8],
    must: &'static [&'static [u8]],
    may: &'static [&'static [u8]],
}

static FORMS: [Form; 5] = [
    Form { kind: ENUM, key: b"enum", must: &[b"data"], may: &[] },
    Form { kind: STRUCT, key: b"struct", must: &[b"data"], may: &[b"base"] },
    Form { kind: UNION, key: b"union", must: &[b"base", b"discriminator", b"data"], may: &[] },
    Form { kind: ALTERNATE, key: b"alternate", must: &[b"data"], may: &[] },
    Form { kind: COMMAND, key: b"command", must: &[], may: &[b"data", b"returns", b"allow-oob"] },
];

/// All rows, and the names that refer. Nearly every row has two nodes, a name and what it names.
pub fn lay_out(text: &[u8], nodes: &[Node]) -> Result<(Vec<[u32; ROW]>, Vec<Reference>), Refusal> {
    let room = nodes.len() / 2;
    let mut layout = Layout { text, nodes, rows: Vec::with_capacity(room), references: Vec::with_capacity(room) };
    let mut object = 0;
    while object < nodes.len() {
        layout.definition(object)?;
        object = nodes[object].next as usize;
    }
    Ok((layout.rows, layout.references))
}

struct Layout<'a> {
    text: &'a [u8],
    nodes: &'a [Node],
    rows: Vec<[u32; ROW]>,
    references: Vec<Reference>,
}

impl<'a> Layout<'a> {
    fn definition(&mut self, object: usize) -> Result<(), Refusal> {
        let form = self.form(object)?;
        let name = self.string(self.part(object, form.key)?)?;
        match form.kind {
            ENUM => self.enumeration(object, name),
            STRUCT => self.structure(object, name),
            UNION => self.union(object, name),
            ALTERNATE => self.alternate(object, name),
            _ => self.command(object, name),
        }
    }

    /// The one form whose kind key is there, if all other keys are its own and none is lacking.
    fn form(&self, object: usize) -> Result<&'static Form, Refusal> {
        let mut present = FORMS.iter().filter(|form| self.find(object, form.key).is_some());
        let (Some(form), None) = (present.next(), present.next()) else {
            return Err(Refusal::BadShape);
        };
        let known = |key: &[u8]| key == form.key || form.must.contains(&key) || form.may.contains(&key);
        let good = children(self.nodes, object).all(|key| known(self.inside(key)))
            && form.must.iter().all(|key| self.find(object, key).is_some());
        good.then_some(form).ok_or(Refusal::BadShape)
    }

    fn enumeration(&mut self, object: usize, name: Span) -> Result<(), Refusal> {
        let data = self.of_kind(self.part(object, b"data")?, Kind::Array)?;
        self.row(ENUM, name, [self.count(data), 0, 0, 0, 0]);
        for value in children(self.nodes, data) {
            let value = self.string(value)?;
            self.row(VALUE, value, [0; 5]);
        }
        Ok(())
    }

    fn structure(&mut self, object: usize, name: Span) -> Result<(), Refusal> {
        let row = self.struct_rows(name, self.part(object, b"data")?)?;
        match self.find(object, b"base") {
            Some(base) => self.refer(row, 5, base, Target::Struct),
            None => Ok(()),
        }
    }

    fn union(&mut self, object: usize, name: Span) -> Result<(), Refusal> {
        let data = self.of_kind(self.part(object, b"data")?, Kind::Object)?;
        let row = self.row(UNION, name, [0, self.count(data), 0, 0, 0]);
        self.fields(row, self.part(object, b"base")?)?;
        self.refer(row, 6, self.part(object, b"discriminator")?, Target::Discriminator)?;
        self.named_types(data, BRANCH, Target::Struct)
    }

    fn alternate(&mut self, object: usize, name: Span) -> Result<(), Refusal> {
        let data = self.of_kind(self.part(object, b"data")?, Kind::Object)?;
        self.row(ALTERNATE, name, [self.count(data), 0, 0, 0, 0]);
        self.named_types(data, ALTERNATIVE, Target::Type)
    }

    fn command(&mut self, object: usize, name: Span) -> Result<(), Refusal> {
        let oob = match self.find(object, b"allow-oob").map(|node| self.nodes[node].kind) {
            None | Some(Kind::False) => 0,
            Some(Kind::True) => 1,
            Some(_) => return Err(Refusal::BadShape),
        };
        let row = self.row(COMMAND, name, [0, oob, 0, 0, 0]);
        if let Some(data) = self.find(object, b"data") {
            self.fields(row, data)?;
        }
        if let Some(returns) = self.find(object, b"returns") {
            self.refer_to_type(row, 6, returns)?;
        }
        Ok(())
    }

    /// An inline struct, linked from its owner, or a struct's name: word 4 of a union or command.
    fn fields(&mut self, owner: usize, node: usize) -> Result<(), Refusal> {
        if self.nodes[node].kind != Kind::Object {
            return self.refer(owner, 4, node, Target::Struct);
        }
        let inline = self.struct_rows(NO_NAME, node)?;
        self.set(owner, 4, inline as u32 + 1);
        Ok(())
    }

    /// A struct's row and those of its members; gives the struct's.
    fn struct_rows(&mut self, name: Span, members: usize) -> Result<usize, Refusal> {
        self.of_kind(members, Kind::Object)?;
        let row = self.row(STRUCT, name, [self.count(members), 0, 0, 0, 0]);
        for key in children(self.nodes, members) {
            self.member(key)?;
        }
        Ok(row)
    }

    /// A `*` before the name makes a member optional.
    fn member(&mut self, key: usize) -> Result<(), Refusal> {
        let mut name = self.span(key);
        let optional = self.inside(key).starts_with(b"*");
        if optional {
            name = Span { start: name.start + 1, length: name.length - 1 };
        }
        let row = self.row(MEMBER, name, [0, 0, optional.into(), 0, 0]);
        self.refer_to_type(row, 4, key + 1)
    }

    /// Rows of names that each stand for the name of one type, never a list.
    fn named_types(&mut self, object: usize, kind: u32, target: Target) -> Result<(), Refusal> {
        for key in children(self.nodes, object) {
            let row = self.row(kind, self.span(key), [0; 5]);
            self.refer(row, 4, key + 1, target)?;
        }
        Ok(())
    }

    /// A member's or return's type; a list sets the word after the reference to 1.
    fn refer_to_type(&mut self, row: usize, place: usize, node: usize) -> Result<(), Refusal> {
        if self.nodes[node].kind != Kind::Array {
            return self.refer(row, place, node, Target::Type);
        }
        if self.count(node) != 1 {
            return Err(Refusal::BadShape);
        }
        self.set(row, place + 1, 1);
        self.refer(row, place, node + 1, Target::Type)
    }

    fn refer(&mut self, row: usize, place: usize, node: usize, target: Target) -> Result<(), Refusal> {
        let name = self.string(node)?;
        self.references.push(Reference { row, place, name, target });
        Ok(())
    }

    fn row(&mut self, kind: u32, name: Span, [fourth, fifth, sixth, seventh, eighth]: [u32; 5]) -> usize {
        let (start, length) = (name.start as u32, name.length as u32);
        self.rows.push([kind, start, length, fourth, fifth, sixth, seventh, eighth]);
        self.rows.len() - 1
    }

    fn set(&mut self, row: usize, place: usize, word: u32) {
        self.rows[row][place - 1] = word;
    }

    /// The value under a key that must be there.
    fn part(&self, object: usize, key: &[u8]) -> Result<usize, Refusal> {
        self.find(object, key).ok_or(Refusal::BadShape)
    }

    /// The value under a key. No key asked for has a backslash, so its bytes are its meaning.
    fn find(&self, object: usize, key: &[u8]) -> Option<usize> {
        children(self.nodes, object).find(|&node| self.inside(node) == key).map(|node| node + 1)
    }

    fn count(&self, parent: usize) -> u32 {
        children(self.nodes, parent).count() as u32
    }

    fn of_kind(&self, node: usize, kind: Kind) -> Result<usize, Refusal> {
        (self.nodes[node].kind == kind).then_some(node).ok_or(Refusal::BadShape)
    }

    fn string(&self, node: usize) -> Result<Span, Refusal> {
        self.nodes[node].kind.is_string().then(|| self.span(node)).ok_or(Refusal::BadShape)
    }

    /// Between the quotes.
    fn span(&self, node: usize) -> Span {
        let Node { start, end, .. } = self.nodes[node];
        Span { start: start as usize + 1, length: (end - start) as usize - 2 }
    }

    fn inside(&self, node: usize) -> &'a [u8] {
        let Span { start, length } = self.span(node);
        &self.text[start..start + length]
    }
}
