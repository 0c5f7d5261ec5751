//! Alternates of two types: every pair of kinds, and enums with values that a number or a bool could be meant by.

use super::meeting::Respelled;
use super::{SchemaCase, MOST_ROWS, ROW};
use crate::model::{looks_like_bool, looks_like_number, BUILT_INS};
use crate::names::TELLING_VALUES;
use crate::Random;

/// What an alternative's type may be.
#[derive(Clone, Debug, PartialEq, Eq)]
enum Type {
    BuiltIn(&'static str),
    Struct,
    Union,
    Alternate,
    Enum(Vec<&'static str>),
}

/// The types that aren't made for one alternative.
const SHARED: &str = "{'enum':'Kind','data':['x']}{'struct':'Struct','data':{}}
    {'union':'Union','base':{'t':'Kind'},'discriminator':'t','data':{'x':'Struct'}}
    {'alternate':'Alternate','data':{'x':'Struct'}}";

/// Names of alternatives, and of enums made for them.
const ALTERNATIVES: [(&str, &str); 4] = [("one", "One"), ("two", "Two"), ("three", "Three"), ("four", "Four")];

/// An alternate of each type alone and of every two types, but for two enums with telling values; of those that may,
/// also with null between and a struct after them.
pub fn every_mix() -> impl Iterator<Item = SchemaCase> {
    let types = every_type();
    let mut cases: Vec<_> = types.iter().map(|one| case(&[one])).collect();
    for one in &types {
        for other in types.iter().filter(|other| !(is_telling(one) && is_telling(other))) {
            cases.push(case(&[one, other]));
            if is_scalar(one) && is_scalar(other) {
                cases.push(case(&[one, &Type::BuiltIn("null"), other, &Type::Struct]));
            }
        }
    }
    cases.into_iter()
}

fn is_telling(of: &Type) -> bool {
    matches!(of, Type::Enum(values) if values.iter().any(|value| TELLING_VALUES.contains(value)))
}

/// Whether null and an object type may stand beside it.
fn is_scalar(of: &Type) -> bool {
    !matches!(json_kind(of), None | Some("null" | "object"))
}

/// Definitions with an alternate of two types that can't stand together, other than by their JSON kinds; `%a` to `%c`
/// stand for their names.
pub fn fault(random: &mut Random) -> String {
    loop {
        let one = match random.one_in(3) {
            true => Type::BuiltIn("str"),
            false => Type::Enum(many_values(random)),
        };
        let other = Type::BuiltIn(*random.pick(&["int", "number", "uint64", "size", "bool"]));
        let pair = if random.one_in(2) { [&one, &other] } else { [&other, &one] };
        if number(&pair) == 10 {
            return text(&pair).replace("'Mix'", "'%a'").replace("'One'", "'%b'").replace("'Two'", "'%c'");
        }
    }
}

/// Up to some twenty values, some of them telling.
fn many_values(random: &mut Random) -> Vec<&'static str> {
    const PLAIN: [&str; 20] =
        ["a", "b", "c", "d", "e", "f", "g", "h", "i", "j", "k", "l", "m", "n", "On", "on1", "a0", "o", "of", "offs"];
    let mut values = PLAIN[..random.below(PLAIN.len() + 1)].to_vec();
    for value in ["on", "off", "0", "0a", "9", "7-"] {
        if random.one_in(4) {
            values.insert(random.below(values.len() + 1), value);
        }
    }
    values
}

/// Schemas with an alternate of an enum and a number type or bool, and bytes of the same length in which a value of the
/// enum is another.
pub fn every_respelled_value() -> impl Iterator<Item = Respelled> {
    let pairs = ["int", "number", "size", "bool"].into_iter().flat_map(|other| {
        TELLING_VALUES.into_iter().flat_map(layouts).map(move |values| (values, Type::BuiltIn(other)))
    });
    pairs.map(|(values, other)| {
        let plain = values.iter().map(|value| if PADDING.contains(value) { value } else { &"zzzz"[..value.len()] });
        let [plain, telling] = [plain.collect(), values].map(Type::Enum);
        let [schema, bytes] = [&plain, &telling].map(|one| text(&[one, &other]).into_bytes());
        Respelled { schema, bytes, sound: number(&[&telling, &other]) == 0 }
    })
}

/// Each built-in, a struct, a union, an alternate; an empty enum and a plain one; each telling value in each place.
fn every_type() -> Vec<Type> {
    let built_ins = BUILT_INS.into_iter().map(Type::BuiltIn);
    let others = [Type::Struct, Type::Union, Type::Alternate, Type::Enum(vec![]), Type::Enum(PADDING.to_vec())];
    let enums = TELLING_VALUES.into_iter().flat_map(layouts).map(Type::Enum);
    built_ins.chain(others).chain(enums).collect()
}

/// Values around the one that counts.
const PADDING: [&str; 2] = ["x", "y"];

/// A value alone, first, in the middle and last.
fn layouts(value: &'static str) -> [Vec<&'static str>; 4] {
    let [x, y] = PADDING;
    [vec![value], vec![value, x, y], vec![x, value, y], vec![x, y, value]]
}

/// An alternate of some types, and their definitions, before it and after it in turn.
fn text(types: &[&Type]) -> String {
    let mut definitions = [String::new(), String::new()];
    let mut alternatives = Vec::new();
    for (place, (of, (name, enum_name))) in types.iter().zip(ALTERNATIVES).enumerate() {
        let of = match of {
            Type::BuiltIn(name) => name,
            Type::Struct => "Struct",
            Type::Union => "Union",
            Type::Alternate => "Alternate",
            Type::Enum(values) => {
                let values: Vec<_> = values.iter().map(|value| format!("'{value}'")).collect();
                definitions[place % 2] += &format!("{{'enum':'{enum_name}','data':[{}]}}", values.join(","));
                enum_name
            }
        };
        alternatives.push(format!("'{name}':'{of}'"));
    }
    let shared = types.iter().any(|of| matches!(of, Type::Struct | Type::Union | Type::Alternate));
    let [before, after] = definitions;
    let alternate = format!("{{'alternate':'Mix','data':{{{}}}}}", alternatives.join(","));
    format!("{before}{alternate}{after}{}", if shared { SHARED } else { "" })
}

/// The number of a schema with an alternate of these types: 10 where one has no JSON kind, two have the same, or str or
/// an enum stands beside a type that it can't.
fn number(types: &[&Type]) -> u32 {
    let kinds: Vec<_> = types.iter().map(|of| json_kind(of)).collect();
    let repeated = (1..kinds.len()).any(|i| kinds[..i].contains(&kinds[i]));
    let has_value = |fits: fn(&str) -> bool| {
        types.iter().any(|of| matches!(of, Type::Enum(values) if values.iter().any(|value| fits(value))))
    };
    let has_str = types.contains(&&Type::BuiltIn("str"));
    let (has_number, has_bool) = (kinds.contains(&Some("number")), kinds.contains(&Some("boolean")));
    let mixed = has_str && (has_number || has_bool)
        || has_value(looks_like_number) && has_number
        || has_value(looks_like_bool) && has_bool;
    match kinds.contains(&None) || repeated || mixed {
        true => 10,
        false => 0,
    }
}

fn json_kind(of: &Type) -> Option<&'static str> {
    match of {
        Type::BuiltIn("any") | Type::Alternate => None,
        Type::BuiltIn("null") => Some("null"),
        Type::BuiltIn("bool") => Some("boolean"),
        Type::BuiltIn("str") | Type::Enum(_) => Some("string"),
        Type::BuiltIn(_) => Some("number"),
        Type::Struct | Type::Union => Some("object"),
    }
}

fn case(types: &[&Type]) -> SchemaCase {
    SchemaCase { bytes: text(types).into_bytes(), room: MOST_ROWS * ROW, number: Some(number(types)) }
}
