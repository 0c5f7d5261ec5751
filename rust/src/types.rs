//! The types that a schema gives to values.

use std::fmt;

/// A definition of a schema: its row in the table, and its name.
#[derive(Clone, Copy, Debug, PartialEq, Eq, Hash)]
pub struct Definition<'a> {
    /// Counted from 0.
    pub row: usize,
    /// Letters, digits, `-` and `_`.
    pub name: &'a str,
}

/// The type of a value, or of the elements of an array.
#[derive(Clone, Copy, Debug, PartialEq, Eq, Hash)]
pub enum Type<'a> {
    /// Of the arguments of a command without data: they are empty.
    NoData,
    /// A type that every schema has.
    BuiltIn(BuiltIn),
    /// One of the enum's values, a string.
    Enum(Definition<'a>),
    /// An object with the struct's members and those of its bases.
    Struct(Definition<'a>),
    /// Of the arguments of a command whose data is written out in it: a struct without a name, at this row.
    InlineStruct(usize),
    /// An object with the members of the union's base and of the branch that its discriminator names.
    Union(Definition<'a>),
    /// Something else by the kind of the value: the next record, of the same place, says what.
    Alternate(Definition<'a>),
}

impl fmt::Display for Type<'_> {
    /// The name as a schema has it; words in parentheses where there is none.
    fn fmt(&self, out: &mut fmt::Formatter) -> fmt::Result {
        out.write_str(match self {
            Type::NoData => "(no data)",
            Type::InlineStruct(_) => "(inline struct)",
            Type::BuiltIn(built_in) => built_in.name(),
            Type::Enum(named) | Type::Struct(named) | Type::Union(named) | Type::Alternate(named) => named.name,
        })
    }
}

/// The types that every schema has, with their numbers.
#[derive(Clone, Copy, Debug, PartialEq, Eq, Hash)]
#[allow(missing_docs)]
pub enum BuiltIn {
    Str = 1,
    Number,
    Int,
    Int8,
    Int16,
    Int32,
    Int64,
    Uint8,
    Uint16,
    Uint32,
    Uint64,
    Size,
    Bool,
    Null,
    Any,
}

impl BuiltIn {
    /// All of them, by number, with their names in a schema.
    pub const ALL: [(BuiltIn, &'static str); 15] = [
        (BuiltIn::Str, "str"),
        (BuiltIn::Number, "number"),
        (BuiltIn::Int, "int"),
        (BuiltIn::Int8, "int8"),
        (BuiltIn::Int16, "int16"),
        (BuiltIn::Int32, "int32"),
        (BuiltIn::Int64, "int64"),
        (BuiltIn::Uint8, "uint8"),
        (BuiltIn::Uint16, "uint16"),
        (BuiltIn::Uint32, "uint32"),
        (BuiltIn::Uint64, "uint64"),
        (BuiltIn::Size, "size"),
        (BuiltIn::Bool, "bool"),
        (BuiltIn::Null, "null"),
        (BuiltIn::Any, "any"),
    ];

    /// Its number, 1 to 15: the type reference that a record has.
    pub const fn number(self) -> u32 {
        self as u32
    }

    /// The name in a schema.
    pub const fn name(self) -> &'static str {
        Self::ALL[self as usize - 1].1
    }
}

impl fmt::Display for BuiltIn {
    fn fmt(&self, out: &mut fmt::Formatter) -> fmt::Result {
        out.write_str(self.name())
    }
}

#[cfg(test)]
mod tests {
    use super::*;

    #[test]
    fn the_list_of_built_ins_is_by_number() {
        assert!(BuiltIn::ALL.iter().map(|(built_in, _)| built_in.number()).eq(1..=15));
        assert_eq!((BuiltIn::Uint64.number(), BuiltIn::Uint64.name()), (11, "uint64"));
    }

    #[test]
    fn a_type_is_written_as_in_a_schema() {
        assert_eq!(Type::BuiltIn(BuiltIn::Str).to_string(), "str");
        assert_eq!(Type::Struct(Definition { row: 3, name: "Lot" }).to_string(), "Lot");
        assert_eq!(Type::NoData.to_string(), "(no data)");
    }
}
