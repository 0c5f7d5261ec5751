//! The rows that a model compiles to, and its trees, each name marked with its row number plus 1.

use std::collections::HashMap;

use crate::model::{built_in, Definition, Fields, Member, Model, Type};
use crate::print::Printed;
use crate::tree::Tree;
use crate::Random;

/// A row without its name's start, and whether a `*` stands before the name.
pub struct Row {
    words: [u32; 8],
    star: bool,
}

/// Rows and trees of a model; the keys of a definition are shuffled.
pub fn lay_out(random: &mut Random, model: &Model) -> (Vec<Row>, Vec<Tree>) {
    let mut layout = Layout { model, numbers: model.row_numbers(), rows: Vec::new() };
    let trees = model.definitions.iter().map(|definition| layout.definition(random, definition)).collect();
    (layout.rows, trees)
}

/// The words of the rows, with starts of names as printed.
pub fn named(mut rows: Vec<Row>, printed: &Printed) -> Vec<u32> {
    for mark in &printed.marks {
        let row = &mut rows[mark.mark as usize - 1];
        row.words[1] = mark.start + 1 + u32::from(row.star);
    }
    rows.iter().flat_map(|row| row.words).collect()
}

struct Layout<'a> {
    model: &'a Model,
    numbers: HashMap<&'a str, u32>,
    rows: Vec<Row>,
}

impl Layout<'_> {
    fn definition(&mut self, random: &mut Random, definition: &Definition) -> Tree {
        let mut keys = match definition {
            Definition::Enum { name, values } => self.enumeration(name, values),
            Definition::Struct { name, base, members } => self.structure(name, base, members),
            Definition::Union { name, base, discriminator, branches } => {
                self.union(name, base, discriminator, branches)
            }
            Definition::Alternate { name, alternatives } => self.alternate(name, alternatives),
            Definition::Command { name, data, returns, allow_oob } => self.command(name, data, returns, *allow_oob),
        };
        random.shuffle(&mut keys);
        Tree::object(keys.into_iter().map(|(key, value)| (Tree::text(key), value)).collect())
    }

    fn enumeration(&mut self, name: &str, values: &[String]) -> Vec<(&'static str, Tree)> {
        let name = self.row(1, name, &[values.len() as u32]);
        let values = values.iter().map(|value| self.row(2, value, &[])).collect();
        vec![("enum", name), ("data", Tree::list(values))]
    }

    fn structure(&mut self, name: &str, base: &Option<String>, members: &[Member]) -> Vec<(&'static str, Tree)> {
        let link = base.as_ref().map_or(0, |base| self.link(base));
        let name = self.row(3, name, &[members.len() as u32, link]);
        let mut keys = vec![("struct", name), ("data", self.members(members))];
        keys.extend(base.as_ref().map(|base| ("base", Tree::text(base))));
        keys
    }

    fn union(
        &mut self,
        name: &str,
        base: &Fields,
        discriminator: &str,
        branches: &[(String, String)],
    ) -> Vec<(&'static str, Tree)> {
        let link = self.fields_link(base);
        let member = self.member_link(base, discriminator);
        let name = self.row(5, name, &[link, branches.len() as u32, member]);
        let base = self.fields(base);
        let branches = branches.iter().map(|(branch, of)| {
            let link = self.link(of);
            (self.row(6, branch, &[link]), Tree::text(of))
        });
        let branches = Tree::object(branches.collect());
        vec![("union", name), ("base", base), ("discriminator", Tree::text(discriminator)), ("data", branches)]
    }

    fn alternate(&mut self, name: &str, alternatives: &[(String, String)]) -> Vec<(&'static str, Tree)> {
        let name = self.row(7, name, &[alternatives.len() as u32]);
        let alternatives = alternatives.iter().map(|(alternative, of)| {
            let reference = self.reference(of);
            (self.row(8, alternative, &[reference]), Tree::text(of))
        });
        let alternatives = Tree::object(alternatives.collect());
        vec![("alternate", name), ("data", alternatives)]
    }

    fn command(
        &mut self,
        name: &str,
        data: &Option<Fields>,
        returns: &Option<Type>,
        allow_oob: Option<bool>,
    ) -> Vec<(&'static str, Tree)> {
        let link = data.as_ref().map_or(0, |data| self.fields_link(data));
        let oob = allow_oob.unwrap_or(false).into();
        let (reference, array) = returns.as_ref().map_or((0, 0), |of| (self.reference(&of.name), of.array.into()));
        let mut keys = vec![("command", self.row(9, name, &[link, oob, reference, array]))];
        keys.extend(data.as_ref().map(|data| ("data", self.fields(data))));
        keys.extend(returns.as_ref().map(|of| ("returns", type_tree(of))));
        keys.extend(allow_oob.map(|oob| ("allow-oob", Tree::raw(oob.to_string()))));
        keys
    }

    fn fields(&mut self, fields: &Fields) -> Tree {
        match fields {
            Fields::Named(name) => Tree::text(name),
            Fields::Inline(members) => {
                self.row(3, "", &[members.len() as u32]);
                self.members(members)
            }
        }
    }

    fn members(&mut self, members: &[Member]) -> Tree {
        let members = members.iter().map(|member| {
            let words = [self.reference(&member.of.name), member.of.array.into(), member.optional.into()];
            let mut key = self.row(4, &member.name, &words);
            if member.optional {
                key = Tree::text(format!("*{}", member.name)).marked(key.mark);
                self.rows[key.mark as usize - 1].star = true;
            }
            (key, type_tree(&member.of))
        });
        Tree::object(members.collect())
    }

    /// Adds a row; gives its name, marked.
    fn row(&mut self, kind: u32, name: &str, rest: &[u32]) -> Tree {
        let mut words = [0; 8];
        words[0] = kind;
        words[2] = name.len() as u32;
        words[3..3 + rest.len()].copy_from_slice(rest);
        self.rows.push(Row { words, star: false });
        Tree::text(name).marked(self.rows.len() as u32)
    }

    fn reference(&self, name: &str) -> u32 {
        built_in(name).unwrap_or_else(|| 16 + self.numbers[name])
    }

    fn link(&self, name: &str) -> u32 {
        self.numbers[name] + 1
    }

    /// Asked before the owner's row is added: an inline struct's row is the one after it.
    fn fields_link(&self, fields: &Fields) -> u32 {
        match fields {
            Fields::Named(name) => self.link(name),
            Fields::Inline(_) => self.rows.len() as u32 + 2,
        }
    }

    /// The link of a member, the struct's own or else that of its nearest base.
    fn member_link(&self, fields: &Fields, name: &str) -> u32 {
        let place = |members: &[Member]| members.iter().position(|member| member.name == name);
        let structure = match fields {
            Fields::Inline(members) => return self.fields_link(fields) + 1 + place(members).unwrap() as u32,
            Fields::Named(structure) => structure,
        };
        match self.model.find(structure) {
            Some(Definition::Struct { base, members, .. }) => match (place(members), base) {
                (Some(place), _) => self.link(structure) + 1 + place as u32,
                (None, Some(base)) => self.member_link(&Fields::Named(base.clone()), name),
                (None, None) => panic!("a discriminator is a member of the base"),
            },
            _ => panic!("a base is a struct"),
        }
    }
}

fn type_tree(of: &Type) -> Tree {
    match of.array {
        true => Tree::list(vec![Tree::text(&of.name)]),
        false => Tree::text(&of.name),
    }
}
