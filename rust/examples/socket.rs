//! Reads commands from a Unix socket as they come, whatever the cuts, and prints what becomes of each. A client at the
//! other end sends messages without a newline between them, one over several writes, and one that no schema takes.

use std::error::Error;
use std::io::{Read, Write};
use std::os::unix::net::UnixStream;
use std::thread;

use windosprio::{Schema, StreamReader};

const SCHEMA: &str = "{'command':'stop-lot','data':{'lot':'str'}}";
/// What the client writes, a part at a time.
const WRITES: [&[u8]; 5] = [
    br#"{"execute":"stop-lot","arguments":{"lot":"007"}}{"execute":"stop"#,
    br#"-lot","arguments":{"#,
    b"\n  \"lot\": \"008\"\n}}\n",
    b"stop everything\xFF",
    br#"{"execute":"stop-lot","arguments":{"lot":7}}"#,
];

fn main() -> Result<(), Box<dyn Error>> {
    let schema = Schema::compile(SCHEMA)?;
    let (mut client, mut server) = UnixStream::pair()?;
    let writing = thread::spawn(move || WRITES.iter().try_for_each(|bytes| client.write_all(bytes)));

    let mut reader = StreamReader::new();
    let mut bytes = [0; 16];
    loop {
        let count = server.read(&mut bytes)?;
        if count == 0 {
            break;
        }
        let mut chunk = reader.push(&bytes[..count]);
        while let Some(message) = chunk.next() {
            match message.and_then(|message| schema.check(message)) {
                Ok(reading) => {
                    let texts: Vec<_> = reading.records().map(|record| record.text).collect();
                    println!("accepted: {} {}", reading.command().name, texts[1]);
                }
                Err(refusal) => println!("refused: {refusal}"),
            }
        }
    }
    writing.join().expect("the client ends")?;
    Ok(())
}
