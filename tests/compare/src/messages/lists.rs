//! Lists of children on either side of the length from which a list has an index: every name in them, and names beside.

use harness::{Check, Tally};

use super::edges::check;
use super::Call;
use crate::schemas::table_of;

/// How many values, members and branches the lists have. From 17 on they are in the index; of 336 the table is nearly full.
const LENGTHS: [usize; 8] = [1, 8, 15, 16, 17, 18, 33, 336];

pub fn compare(tally: &mut Tally) -> Check {
    for length in LENGTHS {
        let schema = schema_of(length);
        let table = table_of(schema.as_bytes());
        for (message, number) in members(length).into_iter().chain(values(length)).chain(branches(length)) {
            let call = Call { table: &table, schema: schema.as_bytes(), message: message.as_bytes(), room: 4_096 * 4 };
            check(call, number, tally)?;
        }
    }
    Ok(())
}

/// An enum, a struct, one that has it as its base, and a union, all with so many children; every third member is mandatory.
fn schema_of(length: usize) -> String {
    let list = |item: &dyn Fn(usize) -> String| (0..length).map(item).collect::<Vec<_>>().join(",");
    let star = |i: usize| if is_mandatory(i) { "" } else { "*" };
    [
        format!("{{'enum':'E','data':[{}]}}", list(&|i| format!("'{}'", value(i)))),
        format!("{{'struct':'W','data':{{{}}}}}", list(&|i| format!("'{}{}':'int'", star(i), member(i)))),
        "{'struct':'D','base':'W','data':{'own':'int'}}".to_string(),
        format!(
            "{{'union':'U','base':{{'kind':'E'}},'discriminator':'kind','data':{{{}}}}}",
            list(&|i| format!("'{}':'W'", value(i)))
        ),
        "{'command':'c','data':{'*w':'W','*d':'D','*e':'E','*u':'U'}}".to_string(),
    ]
    .concat()
}

fn is_mandatory(i: usize) -> bool {
    i.is_multiple_of(3)
}

/// A name with one of the two bytes that are one in C.
fn name(first: char, i: usize) -> String {
    format!("{first}{}{i:03}", if i.is_multiple_of(4) { '_' } else { '-' })
}

fn member(i: usize) -> String {
    name('m', i)
}

fn value(i: usize) -> String {
    name('v', i)
}

/// The name with the other one of these bytes.
fn respelled(name: &str) -> String {
    let other = |byte: char| if byte == '-' { '_' } else { '-' };
    name.chars().map(|byte| if byte.is_ascii_alphanumeric() { byte } else { other(byte) }).collect()
}

/// With its first letter escaped.
fn escaped(name: &str) -> String {
    format!("\\u{:04x}{}", u32::from(name.as_bytes()[0]), &name[1..])
}

/// A field of the struct; in every other one the key is escaped.
fn field(i: usize) -> String {
    let name = member(i);
    format!("\"{}\":{i}", if i.is_multiple_of(2) { name } else { escaped(&name) })
}

fn call(name: &str, value: &str) -> String {
    format!("{{\"execute\":\"c\",\"arguments\":{{\"{name}\":{value}}}}}")
}

fn object(fields: &[String]) -> String {
    format!("{{{}}}", fields.join(","))
}

/// Fields of the struct by their numbers: which are accepted at `W` and, with one's own member, at `D`.
fn members(length: usize) -> Vec<(String, u32)> {
    let all: Vec<_> = (0..length).rev().map(field).collect();
    let mandatory: Vec<_> = (0..length).filter(|&i| is_mandatory(i)).map(field).collect();
    let mut cases = vec![(all.clone(), 0), (mandatory.clone(), 0)];
    for lacking in 0..mandatory.len() {
        let without: Vec<_> =
            mandatory.iter().enumerate().filter(|(i, _)| *i != lacking).map(|(_, f)| f.clone()).collect();
        cases.push((without, 29));
    }
    let more = |key: &str| [all.clone(), vec![format!("\"{key}\":1")]].concat();
    for other in ["m", "m_0000", "M_000", "v_000", "kind", "w", "W", ""] {
        cases.push((more(other), 29));
    }
    cases.push((more(&member(length)), 29));
    cases.extend((0..length).step_by(7).map(|i| (more(&respelled(&member(i))), 29)));
    cases.push((more(&member(0)), 25));
    let own = |fields: &[String]| object(&[fields, &["\"own\":1".to_string()]].concat());
    let derived = cases.iter().map(|(fields, number)| (call("d", &own(fields)), *number));
    let lacks_own = [(call("d", &object(&all)), 29)];
    cases.iter().map(|(fields, number)| (call("w", &object(fields)), *number)).chain(derived).chain(lacks_own).collect()
}

fn values(length: usize) -> Vec<(String, u32)> {
    let string = |text: &str| format!("\"{text}\"");
    let named = (0..length).flat_map(|i| {
        let value = value(i);
        [(string(&value), 0), (string(&escaped(&value)), 0), (string(&respelled(&value)), 29)]
    });
    let others = [string(&value(length)), string(&member(0)), string("V_000"), string(""), "0".to_string()];
    named.chain(others.map(|value| (value, 29))).map(|(value, number)| (call("e", &value), number)).collect()
}

/// Each branch has the struct's members, wherever the discriminator stands.
fn branches(length: usize) -> Vec<(String, u32)> {
    let mandatory: Vec<_> = (0..length).filter(|&i| is_mandatory(i)).map(field).collect();
    let with =
        |kind: String, fields: &[String]| call("u", &object(&[fields, &[format!("\"kind\":\"{kind}\"")]].concat()));
    let chosen = (0..length).step_by(7).chain([length - 1]).flat_map(|i| {
        let met = with(respelled(&value(i)), &mandatory);
        [(with(value(i), &mandatory), 0), (with(value(i), &mandatory[1..]), 29), (met, 29)]
    });
    chosen.chain([(with(value(length), &mandatory), 29), (with(member(0), &mandatory), 29)]).collect()
}
