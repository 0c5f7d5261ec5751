//! What is timed: large schemas with their tables, and messages for one of them.

use generate::messages::Messages;
use generate::model::{Definition, Model};
use generate::schemas::{self, Schema};
use generate::Random;

const SCHEMAS: usize = 50;
/// A schema of fewer bytes isn't taken; the most are 32,768.
const LONG_SCHEMA: usize = 31_000;
const MESSAGES: usize = 10_000;

pub struct Inputs {
    /// Of about 32 KB and 1,000 rows each.
    pub schemas: Vec<Schema>,
    /// Accepted messages of the first schema, of 200 to 4,000 bytes.
    pub messages: Vec<Vec<u8>>,
}

impl Inputs {
    pub fn new(random: &mut Random) -> Self {
        let schemas: Vec<_> = (0..SCHEMAS).map(|_| long_schema(random)).collect();
        let source = Messages::new(&schemas[0]);
        let messages = (0..MESSAGES).map(|_| source.usual(random).message).collect();
        Inputs { schemas, messages }
    }
}

/// An enum, and alternates of it and an integer type, which it may stand beside: no value starts with a digit.
pub fn alternates() -> Schema {
    let values = (0..300).map(|i| format!("v{i:03}")).collect();
    let of = |name: &str, of: &str| (name.to_string(), of.to_string());
    let alternate = |i: usize| Definition::Alternate {
        name: format!("Which{i:03}"),
        alternatives: vec![of("word", "Word"), of("count", "int")],
    };
    let words = Definition::Enum { name: "Word".to_string(), values };
    schemas::from_model(&Model { definitions: [words].into_iter().chain((0..200).map(alternate)).collect() })
}

fn long_schema(random: &mut Random) -> Schema {
    loop {
        let schema = schemas::large(random);
        if schema.bytes.len() >= LONG_SCHEMA {
            return schema;
        }
    }
}
