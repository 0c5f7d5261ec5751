//! Schemas as definitions, before they are laid out and printed.

use std::collections::HashMap;

use crate::names::{good_name, Names, Taken, TELLING_VALUES};
use crate::Random;

#[derive(Clone, Debug)]
pub struct Type {
    pub name: String,
    pub array: bool,
}

#[derive(Clone, Debug)]
pub struct Member {
    pub name: String,
    pub optional: bool,
    pub of: Type,
}

/// A union's base or a command's data.
#[derive(Clone, Debug)]
pub enum Fields {
    Named(String),
    Inline(Vec<Member>),
}

#[derive(Clone, Debug)]
pub enum Definition {
    Enum { name: String, values: Vec<String> },
    Struct { name: String, base: Option<String>, members: Vec<Member> },
    Union { name: String, base: Fields, discriminator: String, branches: Vec<(String, String)> },
    Alternate { name: String, alternatives: Vec<(String, String)> },
    Command { name: String, data: Option<Fields>, returns: Option<Type>, allow_oob: Option<bool> },
}

pub const BUILT_INS: [&str; 15] = [
    "str", "number", "int", "int8", "int16", "int32", "int64", "uint8", "uint16", "uint32", "uint64", "size", "bool",
    "null", "any",
];

/// 1 to 15.
pub fn built_in(name: &str) -> Option<u32> {
    BUILT_INS.iter().position(|built_in| *built_in == name).map(|place| place as u32 + 1)
}

impl Definition {
    pub fn name(&self) -> &str {
        match self {
            Definition::Enum { name, .. }
            | Definition::Struct { name, .. }
            | Definition::Union { name, .. }
            | Definition::Alternate { name, .. }
            | Definition::Command { name, .. } => name,
        }
    }

    pub fn row_count(&self) -> usize {
        let fields = |fields: &Fields| match fields {
            Fields::Named(_) => 0,
            Fields::Inline(members) => 1 + members.len(),
        };
        1 + match self {
            Definition::Enum { values, .. } => values.len(),
            Definition::Struct { members, .. } => members.len(),
            Definition::Union { base, branches, .. } => fields(base) + branches.len(),
            Definition::Alternate { alternatives, .. } => alternatives.len(),
            Definition::Command { data, .. } => data.as_ref().map_or(0, fields),
        }
    }
}

#[derive(Clone, Debug, Default)]
pub struct Model {
    pub definitions: Vec<Definition>,
}

impl Model {
    pub fn find(&self, name: &str) -> Option<&Definition> {
        self.definitions.iter().find(|definition| definition.name() == name)
    }

    pub fn row_count(&self) -> usize {
        self.definitions.iter().map(Definition::row_count).sum()
    }

    /// The row of each definition by its name.
    pub fn row_numbers(&self) -> HashMap<&str, u32> {
        let mut next = 0;
        let mut numbers = HashMap::new();
        for definition in &self.definitions {
            numbers.insert(definition.name(), next);
            next += definition.row_count() as u32;
        }
        numbers
    }

    /// A struct's members, those of its bases first.
    pub fn members(&self, structure: &str) -> Vec<&Member> {
        match self.find(structure) {
            Some(Definition::Struct { base, members, .. }) => {
                let mut all = base.as_ref().map_or(Vec::new(), |base| self.members(base));
                all.extend(members);
                all
            }
            _ => Vec::new(),
        }
    }

    pub fn fields<'a>(&'a self, fields: &'a Fields) -> Vec<&'a Member> {
        match fields {
            Fields::Named(name) => self.members(name),
            Fields::Inline(members) => members.iter().collect(),
        }
    }

    pub fn enum_values(&self, name: &str) -> &[String] {
        match self.find(name) {
            Some(Definition::Enum { values, .. }) => values,
            _ => &[],
        }
    }

    /// Structs of a chain of bases, the first counted.
    fn chain_length(&self, structure: &str) -> usize {
        match self.find(structure) {
            Some(Definition::Struct { base: Some(base), .. }) => 1 + self.chain_length(base),
            _ => 1,
        }
    }

    /// A valid model with about `size` definitions, at least one of each kind, and up to `longest` names in a list.
    pub fn valid(random: &mut Random, size: usize, longest: usize) -> Model {
        let mut maker = Maker::new(random, longest);
        maker.name_types(size);
        maker.make_enums();
        maker.make_structs();
        maker.make_unions();
        maker.make_alternates();
        maker.make_commands(1 + size / 3);
        let mut model = maker.model;
        random.shuffle(&mut model.definitions);
        model
    }
}

/// The JSON kinds of alternatives.
#[derive(Clone, Copy, PartialEq, Eq)]
enum Kind {
    Null,
    Bool,
    Number,
    String,
    Object,
}

/// Whether an enum value starts with a digit, so that its enum can't stand beside a number type.
pub fn looks_like_number(value: &str) -> bool {
    value.starts_with(|letter: char| letter.is_ascii_digit())
}

/// Whether its enum can't stand beside bool.
pub fn looks_like_bool(value: &str) -> bool {
    value == "on" || value == "off"
}

/// Makes a valid model: names first, so that every type may refer to every other.
struct Maker<'a> {
    random: &'a mut Random,
    longest: usize,
    names: Names,
    enums: Vec<String>,
    structs: Vec<String>,
    unions: Vec<String>,
    alternates: Vec<String>,
    model: Model,
}

impl<'a> Maker<'a> {
    fn new(random: &'a mut Random, longest: usize) -> Self {
        Maker {
            random,
            longest,
            names: Names::new(),
            enums: Vec::new(),
            structs: Vec::new(),
            unions: Vec::new(),
            alternates: Vec::new(),
            model: Model::default(),
        }
    }

    fn name_types(&mut self, size: usize) {
        let mut fresh = |count: usize| -> Vec<String> { (0..count).map(|_| self.names.fresh(self.random)).collect() };
        self.enums = fresh(1 + size / 5);
        self.structs = fresh(1 + size / 3);
        self.unions = fresh(1 + size / 8);
        self.alternates = fresh(1 + size / 8);
    }

    /// The first has values, so that unions may use it; any other may be empty.
    fn make_enums(&mut self) {
        for (i, name) in self.enums.clone().into_iter().enumerate() {
            let count = self.random.between(usize::from(i == 0), self.longest);
            let mut taken = Taken::default();
            let mut values = taken.take(self.random, count, true);
            let value = *self.random.pick(&TELLING_VALUES);
            if !values.is_empty() && self.random.one_in(3) && taken.insert(value) {
                values.insert(self.random.below(values.len() + 1), value.to_string());
            }
            self.model.definitions.push(Definition::Enum { name, values });
        }
    }

    /// A struct's base is one made before it, so there is no cycle.
    fn make_structs(&mut self) {
        for (i, name) in self.structs.clone().into_iter().enumerate() {
            let base = (i > 0 && self.random.one_in(2)).then(|| self.random.pick(&self.structs[..i]).clone());
            let base = base.filter(|base| self.model.chain_length(base) < 16);
            let inherited = base.as_ref().map_or(Vec::new(), |base| self.model.members(base));
            let taken = Taken::of(inherited.into_iter().map(|member| &*member.name));
            let members = self.members(taken);
            self.model.definitions.push(Definition::Struct { name, base, members });
        }
    }

    /// Members with names that aren't taken.
    fn members(&mut self, mut taken: Taken) -> Vec<Member> {
        let count = self.random.between(0, self.longest);
        let names = taken.take(self.random, count, false);
        names.into_iter().map(|name| self.member(name)).collect()
    }

    /// Mandatory members of objects are rarer, so that most types have a finite value.
    fn member(&mut self, name: String) -> Member {
        let of = Type { name: self.any_type(), array: self.random.one_in(4) };
        let nests = !of.array && built_in(&of.name).is_none();
        let optional = self.random.percent(if nests { 70 } else { 40 });
        Member { name, optional, of }
    }

    fn any_type(&mut self) -> String {
        match self.random.below(10) {
            0 | 1 => self.random.pick(&self.enums).clone(),
            2 => self.random.pick(&self.structs).clone(),
            3 => self.random.pick(&self.unions).clone(),
            4 => self.random.pick(&self.alternates).clone(),
            _ => self.random.pick(&BUILT_INS).to_string(),
        }
    }

    fn make_unions(&mut self) {
        for name in self.unions.clone() {
            let base = self.union_base();
            let discriminators = self.discriminators(&base);
            let (discriminator, of) = self.random.pick(&discriminators).clone();
            let mut values = self.model.enum_values(&of).to_vec();
            self.random.shuffle(&mut values);
            values.truncate(self.random.between(1, values.len()));
            let branches = values.into_iter().map(|value| (value, self.branch_struct(&base))).collect();
            self.model.definitions.push(Definition::Union { name, base, discriminator, branches });
        }
    }

    /// Fields with at least one possible discriminator.
    fn union_base(&mut self) -> Fields {
        let named = Fields::Named(self.random.pick(&self.structs).clone());
        if self.random.one_in(2) && !self.discriminators(&named).is_empty() {
            return named;
        }
        let mut members = self.members(Taken::default());
        let mut taken = Taken::of(members.iter().map(|member| &*member.name));
        let name = loop {
            let name = good_name(self.random, false);
            if taken.insert(&name) {
                break name;
            }
        };
        let of = Type { name: self.enums[0].clone(), array: false };
        let place = self.random.below(members.len() + 1);
        members.insert(place, Member { name, optional: false, of });
        Fields::Inline(members)
    }

    /// Names and enums of the members that can be a discriminator.
    fn discriminators(&self, base: &Fields) -> Vec<(String, String)> {
        let fits = |member: &&Member| {
            !member.optional && !member.of.array && !self.model.enum_values(&member.of.name).is_empty()
        };
        let members = self.model.fields(base).into_iter().filter(fits);
        members.map(|member| (member.name.clone(), member.of.name.clone())).collect()
    }

    /// A struct that shares no member with the base; a new one if a few tries find none.
    fn branch_struct(&mut self, base: &Fields) -> String {
        let taken = Taken::of(self.model.fields(base).into_iter().map(|member| &*member.name));
        for _ in 0..self.random.below(6) {
            let name = self.random.pick(&self.structs);
            if self.model.members(name).iter().all(|member| !taken.contains(&member.name)) {
                return name.clone();
            }
        }
        let name = self.names.fresh(self.random);
        let members = self.members(taken);
        self.structs.push(name.clone());
        self.model.definitions.push(Definition::Struct { name: name.clone(), base: None, members });
        name
    }

    /// One alternative for each of some JSON kinds; none of strings where no type of them may stand beside the others.
    fn make_alternates(&mut self) {
        for name in self.alternates.clone() {
            let mut kinds = [Kind::Null, Kind::Bool, Kind::Number, Kind::String, Kind::Object];
            self.random.shuffle(&mut kinds);
            let kinds = &kinds[..self.random.between(1, kinds.len())];
            let types: Vec<_> = kinds.iter().filter_map(|&kind| self.type_of_kind(kind, kinds)).collect();
            let names = Taken::default().take(self.random, types.len(), false);
            let alternatives = names.into_iter().zip(types).collect();
            self.model.definitions.push(Definition::Alternate { name, alternatives });
        }
    }

    /// A type that may stand beside others of some kinds, if there is one.
    fn type_of_kind(&mut self, kind: Kind, beside: &[Kind]) -> Option<String> {
        Some(match kind {
            Kind::Null => "null".to_string(),
            Kind::Bool => "bool".to_string(),
            Kind::Number => self.random.pick(&BUILT_INS[1..12]).to_string(),
            Kind::String => return self.string_type(beside.contains(&Kind::Number), beside.contains(&Kind::Bool)),
            Kind::Object => self.any_object(),
        })
    }

    /// str, or an enum, that may stand beside a number type, bool or both.
    fn string_type(&mut self, number: bool, boolean: bool) -> Option<String> {
        let fits = |name: &&String| {
            let mut values = self.model.enum_values(name).iter();
            !values.any(|value| number && looks_like_number(value) || boolean && looks_like_bool(value))
        };
        let mut types: Vec<_> = self.enums.iter().filter(fits).cloned().collect();
        if !number && !boolean && (types.is_empty() || self.random.one_in(2)) {
            types = vec!["str".to_string()];
        }
        (!types.is_empty()).then(|| self.random.pick(&types).clone())
    }

    fn any_object(&mut self) -> String {
        let objects = if self.random.one_in(2) { &self.structs } else { &self.unions };
        self.random.pick(objects).clone()
    }

    /// The first takes no arguments and is in-band only, so that every schema has a command that can be used.
    fn make_commands(&mut self, count: usize) {
        let name = self.names.fresh(self.random);
        self.model.definitions.push(Definition::Command { name, data: None, returns: None, allow_oob: None });
        for _ in 0..count {
            let name = self.names.fresh(self.random);
            let data = match self.random.below(4) {
                0 => None,
                1 => Some(Fields::Named(self.random.pick(&self.structs).clone())),
                _ => Some(Fields::Inline(self.members(Taken::default()))),
            };
            let returns = self.random.one_in(2).then(|| Type { name: self.any_object(), array: self.random.one_in(3) });
            let allow_oob = *self.random.pick(&[None, Some(true), Some(false)]);
            self.model.definitions.push(Definition::Command { name, data, returns, allow_oob });
        }
    }
}
