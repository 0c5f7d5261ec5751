//! The types of a schema by name and row, and how many levels their smallest values need.

use std::collections::HashMap;

use crate::model::{built_in, Definition, Fields, Member, Model, Type};
use crate::schemas::Schema;

/// Levels of a type that has no finite value.
const ENDLESS: usize = 1_000;

pub struct Types<'a> {
    pub schema: &'a Schema,
    rows: HashMap<&'a str, u32>,
    levels: HashMap<&'a str, usize>,
}

impl<'a> Types<'a> {
    pub fn new(schema: &'a Schema) -> Self {
        let mut types = Types { schema, rows: schema.model.row_numbers(), levels: HashMap::new() };
        while types.lower_levels() {}
        types
    }

    pub fn model(&self) -> &'a Model {
        &self.schema.model
    }

    pub fn row(&self, name: &str) -> u32 {
        self.rows[name]
    }

    pub fn reference(&self, name: &str) -> u32 {
        built_in(name).unwrap_or_else(|| 16 + self.row(name))
    }

    /// The definition that a reference is to, unless to a built-in or an inline struct.
    pub fn referred(&self, reference: u32) -> Option<&'a Definition> {
        let row = reference.checked_sub(16)?;
        self.model().definitions.iter().find(|definition| self.row(definition.name()) == row)
    }

    /// The members of the struct, named or inline, that a reference is to.
    pub fn struct_members(&self, reference: u32) -> Vec<&'a Member> {
        match self.referred(reference) {
            Some(Definition::Struct { name, .. }) => self.model().members(name),
            Some(_) => Vec::new(),
            None => match self.referred(reference.saturating_sub(1)) {
                Some(Definition::Command { data: Some(data), .. }) => self.model().fields(data),
                _ => Vec::new(),
            },
        }
    }

    /// Levels that the smallest value of a type has.
    pub fn levels(&self, of: &Type) -> usize {
        if of.array {
            return 1;
        }
        match built_in(&of.name) {
            Some(_) => 0,
            None => self.levels.get(&*of.name).copied().unwrap_or(ENDLESS),
        }
    }

    /// Levels inside an object with these members.
    pub fn members_levels<'b>(&self, members: impl IntoIterator<Item = &'b Member>) -> usize {
        let mandatory = members.into_iter().filter(|member| !member.optional);
        mandatory.map(|member| self.levels(&member.of)).max().unwrap_or(0)
    }

    /// Commands whose arguments have a value of at most so many levels.
    pub fn usable_commands(&self, levels: usize, in_band_only: bool) -> impl Iterator<Item = &'a Definition> + '_ {
        self.model().definitions.iter().filter(move |definition| match definition {
            Definition::Command { data, allow_oob, .. } => {
                let members = data.as_ref().map_or(Vec::new(), |data| self.model().fields(data));
                self.members_levels(members) < levels && !(in_band_only && *allow_oob == Some(true))
            }
            _ => false,
        })
    }

    /// One step towards the least levels of all types; says whether any fell.
    fn lower_levels(&mut self) -> bool {
        let mut fell = false;
        for definition in &self.schema.model.definitions {
            let levels = self.definition_levels(definition);
            let known = self.levels.entry(definition.name()).or_insert(ENDLESS);
            fell |= levels < *known;
            *known = levels.min(*known);
        }
        fell
    }

    fn definition_levels(&self, definition: &Definition) -> usize {
        let levels = match definition {
            Definition::Enum { values, .. } => return if values.is_empty() { ENDLESS } else { 0 },
            Definition::Struct { name, .. } => self.members_levels(self.model().members(name)),
            Definition::Union { base, .. } => {
                let branches =
                    self.union_values(definition).into_iter().map(|(_, members)| self.members_levels(members));
                self.members_levels(self.model().fields(base)).max(branches.min().unwrap_or(ENDLESS))
            }
            Definition::Alternate { alternatives, .. } => {
                let types = alternatives.iter().map(|(_, name)| Type { name: name.clone(), array: false });
                return types.map(|of| self.levels(&of)).min().unwrap_or(ENDLESS);
            }
            Definition::Command { .. } => return ENDLESS,
        };
        ENDLESS.min(levels + 1)
    }

    /// The values of a union's discriminator, each with the members its branch adds.
    pub fn union_values(&self, union: &'a Definition) -> Vec<(&'a str, Vec<&'a Member>)> {
        let Definition::Union { base, discriminator, branches, .. } = union else {
            return Vec::new();
        };
        let values = self.discriminator_values(base, discriminator).iter().map(|value| {
            let branch = branches.iter().find(|(branch, _)| branch == value);
            (value.as_str(), branch.map_or(Vec::new(), |(_, structure)| self.model().members(structure)))
        });
        values.collect()
    }

    fn discriminator_values(&self, base: &'a Fields, discriminator: &str) -> &'a [String] {
        let members = self.model().fields(base);
        let member = members.into_iter().find(|member| member.name == discriminator);
        member.map_or(&[], |member| self.model().enum_values(&member.of.name))
    }
}
