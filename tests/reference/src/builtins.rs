//! The built-in types: names, numbers, and the JSON kinds each takes (docs/REFERENCE.md, Types).

use crate::text::Kind;

pub const STR: u32 = 1;
pub const NUMBER: u32 = 2;
/// The first and last integer type.
pub const INT: u32 = 3;
pub const SIZE: u32 = 12;
pub const ANY: u32 = 15;

/// What a JSON value is, a column of the grid.
#[derive(Clone, Copy, Debug, PartialEq, Eq)]
pub enum JsonKind {
    Null,
    Bool,
    Number,
    String,
    Array,
    Object,
}

impl JsonKind {
    /// The kind of a value's node; a key has the kind of its string.
    pub fn of(kind: Kind) -> Self {
        match kind {
            Kind::Null => JsonKind::Null,
            Kind::False | Kind::True => JsonKind::Bool,
            Kind::Integer | Kind::OtherNumber => JsonKind::Number,
            Kind::PlainString | Kind::CodedString | Kind::PlainKey | Kind::CodedKey => JsonKind::String,
            Kind::Array => JsonKind::Array,
            Kind::Object => JsonKind::Object,
        }
    }
}

const NULL: [bool; 6] = [true, false, false, false, false, false];
const BOOL: [bool; 6] = [false, true, false, false, false, false];
const NUMERIC: [bool; 6] = [false, false, true, false, false, false];
const STRING: [bool; 6] = [false, false, false, true, false, false];

/// Row: built-in number less 1. Column: JSON kind.
static GRID: [[bool; 6]; 15] = [
    STRING, NUMERIC, NUMERIC, NUMERIC, NUMERIC, NUMERIC, NUMERIC, NUMERIC, NUMERIC, NUMERIC, NUMERIC, NUMERIC, BOOL,
    NULL, [true; 6],
];

pub fn takes(built_in: u32, kind: JsonKind) -> bool {
    GRID[built_in as usize - 1][kind as usize]
}

pub fn is_built_in(reference: u32) -> bool {
    (STR..=ANY).contains(&reference)
}

/// The one JSON kind of a built-in type; `any` has none.
pub fn json_kind(built_in: u32) -> Option<JsonKind> {
    match built_in {
        1 => Some(JsonKind::String),
        2..=12 => Some(JsonKind::Number),
        13 => Some(JsonKind::Bool),
        14 => Some(JsonKind::Null),
        _ => None,
    }
}

pub fn number_of(name: &[u8]) -> Option<u32> {
    Some(match name {
        b"str" => STR,
        b"number" => NUMBER,
        b"int" => INT,
        b"int8" => 4,
        b"int16" => 5,
        b"int32" => 6,
        b"int64" => 7,
        b"uint8" => 8,
        b"uint16" => 9,
        b"uint32" => 10,
        b"uint64" => 11,
        b"size" => SIZE,
        b"bool" => 13,
        b"null" => 14,
        b"any" => ANY,
        _ => return None,
    })
}
