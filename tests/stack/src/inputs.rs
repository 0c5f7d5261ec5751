//! Inputs that take a call as deep as it goes: long, nested, with chains of bases at their longest.

use generate::messages::{self, MessageCase, Messages};
use generate::schemas::{self, Schema};
use generate::Random;

/// Structs of the longest chain.
const CHAIN: usize = 16;
/// Random schemas of each sort, and messages for each.
const SCHEMAS: usize = 40;
const MESSAGES: usize = 25;

/// A schema, its table, and messages for it.
pub struct Input {
    pub schema: Vec<u8>,
    pub table: Vec<u32>,
    pub messages: Vec<Vec<u8>>,
}

/// Schemas that are compiled: at the limits, with each fault, large and random ones.
pub fn schemas() -> Vec<Vec<u8>> {
    let mut random = Random::new(1);
    let fixed = schemas::limits().into_iter().chain(schemas::every_fault()).map(|case| case.bytes);
    let mut all: Vec<_> = fixed.chain([deep_schema().into_bytes()]).collect();
    for _ in 0..SCHEMAS {
        all.extend([schemas::large(&mut random).bytes, schemas::mutated(&mut random).bytes]);
    }
    all
}

/// Schemas with messages that are checked.
pub fn messages() -> Vec<Input> {
    let mut random = Random::new(2);
    let (schema, cases) = messages::limits();
    let mut all = vec![deep_input(), input(&schema, cases)];
    for round in 0..2 * SCHEMAS {
        let schema = if round % 2 == 0 { schemas::large(&mut random) } else { schemas::valid(&mut random) };
        let source = Messages::new(&schema);
        let cases = (0..MESSAGES).map(|_| source.valid(&mut random)).collect();
        all.push(input(&schema, cases));
    }
    all
}

fn input(schema: &Schema, cases: Vec<MessageCase>) -> Input {
    let messages = cases.into_iter().map(|case| case.message).collect();
    Input { schema: schema.bytes.clone(), table: schema.words.clone(), messages }
}

/// Unions over the longest chains, the discriminator and the member that goes on in the last of their structs, as
/// alternatives of an alternate; and the like with arrays, and with structs alone.
fn deep_schema() -> String {
    let chain = |name: &str, last: &str| -> String {
        let own = |i: usize| format!("{{'struct':'{name}{i}','base':'{name}{}','data':{{}}}}", i + 1);
        (1..CHAIN).map(own).chain([format!("{{'struct':'{name}{CHAIN}','data':{{{last}}}}}")]).collect()
    };
    [
        "{'enum':'e','data':['v']}",
        &chain("b", "'d':'e'"),
        &chain("m", "'*u':'a','*l':['a'],'*s':'s1'"),
        &chain("s", "'*s':'s1'"),
        "{'union':'u','base':'b1','discriminator':'d','data':{'v':'m1'}}",
        "{'alternate':'a','data':{'u':'u','i':'int8'}}",
        "{'command':'c','data':'m1'}",
    ]
    .concat()
}

/// A message of nested values: the member that has them, and what is repeated around the innermost.
struct Nest {
    member: &'static str,
    open: &'static str,
    close: &'static str,
    count: usize,
    innermost: &'static str,
}

/// Unions with the discriminator first and last, arrays and structs, of 32 levels; the last has one more.
const NESTS: [Nest; 6] = [
    Nest { member: "u", open: r#"{"d":"v","u":"#, close: "}", count: 29, innermost: r#"{"d":"v"}"# },
    Nest { member: "u", open: r#"{"u":"#, close: r#","d":"v"}"#, count: 30, innermost: "1" },
    Nest { member: "u", open: r#"{"u":"#, close: r#","d":"v"}"#, count: 30, innermost: "true" },
    Nest { member: "l", open: r#"[{"d":"v","l":"#, close: "}]", count: 14, innermost: r#"[{"d":"v"}]"# },
    Nest { member: "s", open: r#"{"s":"#, close: "}", count: 29, innermost: "{}" },
    Nest { member: "s", open: r#"{"s":"#, close: "}", count: 30, innermost: "{}" },
];

fn deep_input() -> Input {
    let schema = deep_schema().into_bytes();
    let table = windosprio::Schema::compile(&schema[..]).expect("the schema is accepted").table().to_vec();
    let messages = NESTS.map(|Nest { member, open, close, count, innermost }| {
        let value = format!("{}{innermost}{}", open.repeat(count), close.repeat(count));
        format!(r#"{{"execute":"c","arguments":{{"{member}":{value}}}}}"#).into_bytes()
    });
    Input { messages: messages.to_vec(), schema, table }
}

#[cfg(test)]
mod tests {
    use super::*;

    #[test]
    fn deep_messages_are_read_to_their_end() {
        let Input { schema, table, messages } = deep_input();
        let number = |message: &Vec<u8>| windosprio::calls::check(&table, &schema, message, &mut [0; 400]).0;
        assert!(messages.iter().map(number).eq([0, 0, 29, 0, 0, 24]));
    }
}
