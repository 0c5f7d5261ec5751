//! Reads two messages against a schema of one command, and prints what each value is taken for.

use std::error::Error;

use windosprio::Schema;

const SCHEMA: &str = "{'command':'stop-lot','data':{'lot':'str'}}";
const MESSAGES: [&str; 2] = [
    r#"{"execute":"stop-lot","arguments":{"lot":"007"}}"#, //
    r#"{"execute":"stop-lot","arguments":{"lot":7}}"#,
];

fn main() -> Result<(), Box<dyn Error>> {
    let schema = Schema::compile(SCHEMA)?;
    for message in MESSAGES {
        match schema.check(message.as_bytes()) {
            Ok(reading) => {
                println!("accepted: {}", reading.command().name);
                for record in reading.records() {
                    println!("  {}..{} {} {}", record.start, record.end, record.type_name(), record.text);
                }
            }
            Err(refusal) => println!("refused: {refusal}"),
        }
    }
    Ok(())
}
