//! Messages that name much in long lists: what a lookup costs where a table has few definitions with very many children.

use crate::calls::check_task;
use crate::line::{measured, Line};

const REPETITIONS: usize = 200;
const MEMBERS: usize = 1_000;
const CHAIN: usize = 16;

pub fn lines() -> Vec<Line> {
    let struct_of = |star: &str| format!("{{'struct':'Wide','data':{{{}}}}}", members(star, 0, MEMBERS));
    let values: Vec<_> = (0..MEMBERS).map(|i| format!("'{}'", name(i))).collect();
    let objects = |count: usize| list((0..count).map(|i| format!("{{\"{}\":1}}", name(i * 7 % MEMBERS))));
    let keys: Vec<_> = (0..MEMBERS).rev().map(|i| format!("\"{}\":{i}", name(i))).collect();
    [
        line("1,400 objects of a key, a struct of 1,000 members", &struct_of("*"), objects(1_400)),
        line("4,000 empty objects, the same struct", &struct_of("*"), list((0..4_000).map(|_| "{}".to_string()))),
        line("an object of 1,000 keys, all mandatory", &struct_of(""), list([format!("{{{}}}", keys.join(","))])),
        line("1,400 objects of a key, a chain of 16 structs", &chain(), objects(1_400)),
        line(
            "2,200 strings, an enum of 1,000 values",
            &format!("{{'enum':'Wide','data':[{}]}}", values.join(",")),
            list((0..2_200).map(|i| format!("\"{}\"", name(i * 7 % MEMBERS)))),
        ),
    ]
    .concat()
}

fn name(i: usize) -> String {
    format!("m{i:03}")
}

/// Members from number `from` on.
fn members(star: &str, from: usize, count: usize) -> String {
    let members: Vec<_> = (from..from + count).map(|i| format!("'{star}{}':'int'", name(i))).collect();
    members.join(",")
}

/// A struct at the end of a chain, all of which have 1,000 members together.
fn chain() -> String {
    let of = MEMBERS / CHAIN;
    let structs = (0..CHAIN).map(|i| {
        let (last, base) = (i + 1 == CHAIN, i.checked_sub(1).map(|b| format!("'base':'Base{b}',")));
        let count = if last { MEMBERS - i * of } else { of };
        let name = if last { "Wide".to_string() } else { format!("Base{i}") };
        format!("{{'struct':'{name}',{}'data':{{{}}}}}", base.unwrap_or_default(), members("*", i * of, count))
    });
    structs.collect()
}

fn list(items: impl IntoIterator<Item = String>) -> String {
    let items: Vec<_> = items.into_iter().collect();
    format!("{{\"execute\":\"stock\",\"arguments\":{{\"lots\":[{}]}}}}", items.join(","))
}

fn line(what: &'static str, definition: &str, message: String) -> Vec<Line> {
    let schema = format!("{definition}{{'command':'stock','data':{{'lots':['Wide']}}}}").into_bytes();
    let mut rows = vec![0; crate::calls::ROWS];
    let (number, count, _) = windosprio::calls::compile(&schema, &mut rows);
    assert_eq!(number, 0, "the schema of: {what}");
    rows.truncate(count * 8);
    measured(&[message.into_bytes()], Vec::len, REPETITIONS, [check_task(what, &schema, &rows)]).to_vec()
}
