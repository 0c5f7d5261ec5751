//! Values that have a reading, each marked with the records it is read as.

use std::collections::HashSet;

use super::types::Types;
use crate::integers::range;
use crate::model::{built_in, Definition, Fields, Member, Type};
use crate::names::meeting_pair;
use crate::print::Dialect;
use crate::texts;
use crate::tree::{Shape, Tree};
use crate::Random;

pub struct Maker<'a, 'b> {
    random: &'b mut Random,
    types: &'b Types<'a>,
    /// About how many more values there shall be.
    left: usize,
    /// Type reference and array mark of each record, by mark less 1.
    pub records: Vec<Vec<[u32; 2]>>,
}

impl<'a, 'b> Maker<'a, 'b> {
    pub fn new(random: &'b mut Random, types: &'b Types<'a>, left: usize) -> Self {
        Maker { random, types, left, records: Vec::new() }
    }

    /// A command's arguments, of the struct referred to; none, sometimes, where none are needed.
    pub fn arguments(&mut self, data: Option<&'a Fields>, reference: u32, levels: usize) -> Option<Tree> {
        let members = data.map_or(Vec::new(), |data| self.types.model().fields(data));
        if members.iter().all(|member| member.optional) && self.random.one_in(4) {
            return None;
        }
        let mark = self.mark(reference, false);
        Some(self.object(&members, levels).marked(mark))
    }

    fn mark(&mut self, reference: u32, array: bool) -> u32 {
        self.records.push(vec![[reference, array.into()]]);
        self.records.len() as u32
    }

    /// A value of a type within so many levels, which are enough.
    fn value(&mut self, of: &Type, levels: usize) -> Tree {
        self.left = self.left.saturating_sub(1);
        let mark = self.mark(self.types.reference(&of.name), of.array);
        let tree = if of.array {
            self.array(&of.name, levels)
        } else if let Some(number) = built_in(&of.name) {
            self.built_in(number, levels)
        } else {
            match self.types.model().find(&of.name) {
                Some(Definition::Enum { values, .. }) => Tree::text(self.random.pick(values)),
                Some(Definition::Struct { name, .. }) => self.object(&self.types.model().members(name), levels),
                Some(union @ Definition::Union { .. }) => self.union(union, levels),
                Some(Definition::Alternate { alternatives, .. }) => return self.alternate(mark, alternatives, levels),
                _ => panic!("a type has a definition"),
            }
        };
        tree.marked(mark)
    }

    fn array(&mut self, element: &str, levels: usize) -> Tree {
        let element = Type { name: element.to_string(), array: false };
        let possible = self.types.levels(&element) < levels;
        let count = if possible && self.left > 0 { self.random.below(5) } else { 0 };
        Tree::list((0..count).map(|_| self.value(&element, levels - 1)).collect())
    }

    /// Every mandatory member, and optional ones while there is room, in any order.
    fn object(&mut self, members: &[&'a Member], levels: usize) -> Tree {
        let mut pairs = Vec::new();
        for member in members {
            if !member.optional || self.wants(&member.of, levels) {
                pairs.push((Tree::text(&member.name), self.value(&member.of, levels - 1)));
            }
        }
        self.random.shuffle(&mut pairs);
        Tree::object(pairs)
    }

    fn wants(&mut self, of: &Type, levels: usize) -> bool {
        self.left > 0 && self.types.levels(of) < levels && self.random.one_in(2)
    }

    /// A union's object; the discriminator often first or last.
    fn union(&mut self, union: &'a Definition, levels: usize) -> Tree {
        let Definition::Union { base, discriminator, .. } = union else {
            panic!("a union is one");
        };
        let values = self.types.union_values(union).into_iter().map(|(value, members)| {
            let needed = self.types.members_levels(members.iter().copied());
            (needed, (value, members))
        });
        let (value, branch) = self.choose(values.collect(), levels - 1);
        let mut members = self.types.model().fields(base);
        members.extend(branch);
        let mut tree = self.object(&members, levels);
        let pairs = tree.members_mut().expect("a union is an object");
        let place = pairs.iter().position(|(key, _)| key.as_text() == Some(discriminator));
        let mut pair = pairs.remove(place.expect("a discriminator is mandatory"));
        pair.1.shape = Shape::Text(value.to_string());
        let place = *self.random.pick(&[0, pairs.len(), place.unwrap()]);
        pairs.insert(place, pair);
        tree
    }

    /// The alternate's record stands before the chosen alternative's.
    fn alternate(&mut self, mark: u32, alternatives: &[(String, String)], levels: usize) -> Tree {
        let types = alternatives.iter().map(|(_, name)| Type { name: name.clone(), array: false });
        let types = types.map(|of| (self.types.levels(&of), of)).collect();
        let chosen = self.choose(types, levels);
        let tree = self.value(&chosen, levels);
        let own = self.records[mark as usize - 1][0];
        self.records[tree.mark as usize - 1].insert(0, own);
        tree
    }

    /// One of those that need at most so many levels; of the fewest, once there shall be no more values.
    fn choose<T: Clone>(&mut self, choices: Vec<(usize, T)>, levels: usize) -> T {
        let fewest = choices.iter().map(|(needed, _)| *needed).min().unwrap_or(0);
        let most = if self.left == 0 { fewest } else { levels };
        let possible: Vec<_> = choices.into_iter().filter(|(needed, _)| *needed <= most).collect();
        self.random.pick(&possible).1.clone()
    }

    fn built_in(&mut self, number: u32, levels: usize) -> Tree {
        match number {
            1 => texts::string(self.random, Dialect::Message),
            2 if self.random.one_in(4) => Tree::raw(texts::integer(self.random)),
            2 => Tree::raw(texts::number(self.random)),
            3..=12 => Tree::raw(self.integer(number)),
            13 => Tree::raw(self.random.pick(&["true", "false"])),
            14 => Tree::raw("null"),
            _ => self.any(levels),
        }
    }

    /// In range, most often at an edge.
    fn integer(&mut self, number: u32) -> String {
        let (low, high) = range(number);
        match self.random.below(8) {
            0 => low.to_string(),
            1 => high.to_string(),
            2 => "0".to_string(),
            3 => "-0".to_string(),
            4 => (low + 1).to_string(),
            5 => (high - 1).to_string(),
            _ => (low + i128::from(self.random.word()) % (high - low + 1)).to_string(),
        }
    }

    /// Any value without a repeated key, sometimes of as many levels as there may be, or with keys that meet in C.
    pub fn any(&mut self, levels: usize) -> Tree {
        let mut size = self.random.below(6);
        let mut tree = match self.random.below(12) {
            0 => texts::nested_value(self.random, Dialect::Message, levels),
            1 if levels > 0 => {
                let (one, other) = meeting_pair(self.random);
                Tree::object([one, other].map(|key| (Tree::text(key), Tree::raw("0"))).to_vec())
            }
            _ => texts::value(self.random, Dialect::Message, levels.min(4), &mut size),
        };
        drop_repeated_keys(&mut tree);
        tree
    }
}

fn drop_repeated_keys(tree: &mut Tree) {
    match &mut tree.shape {
        Shape::Object(members) => {
            let mut seen = HashSet::new();
            members.retain(|(key, _)| seen.insert(key.as_text().map(str::to_string)));
            members.iter_mut().for_each(|(_, value)| drop_repeated_keys(value));
        }
        Shape::List(elements) => elements.iter_mut().for_each(drop_repeated_keys),
        Shape::Raw(_) | Shape::Text(_) => {}
    }
}
