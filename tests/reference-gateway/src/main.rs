//! The program over the reference: answers the file `schema.json`, then each message line of standard input.

#![forbid(unsafe_code)]

use std::io;
use std::path::Path;

use reference_gateway::{read_schema, serve, Reference};

fn main() -> io::Result<()> {
    let schema = read_schema(Path::new("schema.json")).ok();
    serve(&Reference, schema.as_deref(), io::stdin().lock(), io::BufWriter::new(io::stdout().lock()))
}
