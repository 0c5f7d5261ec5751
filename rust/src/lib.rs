//! A gateway that stands before a QEMU monitor: it turns a QAPI schema into a table, and reads each QMP command against
//! it before the command reaches a machine. Nothing is guessed: the number 7 is never taken for the string "007", nor
//! the other way round.
//!
//! The work is done by a static library written in Rattle, in which every function is proved to meet its contract. This
//! crate hands slices to it and gives its answers types. The rules, and the numbers that refusals have, are in
//! docs/REFERENCE.md.
//!
//! ```
//! use windosprio::{BuiltIn, MessageRefusal, Schema, Type};
//!
//! let schema = Schema::compile("{'command':'stop-lot','data':{'lot':'str'}}")?;
//!
//! let reading = schema.check(br#"{"execute":"stop-lot","arguments":{"lot":"007"}}"#)?;
//! assert_eq!(reading.command().name, "stop-lot");
//! let lot = reading.records().nth(1).expect("after the arguments comes their only member");
//! assert_eq!(lot.text, "\"007\"");
//! assert_eq!(lot.value_type, Type::BuiltIn(BuiltIn::Str));
//! assert_eq!(lot.type_name().to_string(), "str");
//!
//! let refusal = schema.check(br#"{"execute":"stop-lot","arguments":{"lot":7}}"#).unwrap_err();
//! assert_eq!(refusal.why(), MessageRefusal::NoReading);
//! assert_eq!(refusal.place(), 34);
//! assert_eq!(refusal.to_string(), "29 at byte 34: the arguments have no reading by the command's types");
//! # Ok::<(), Box<dyn std::error::Error>>(())
//! ```
//!
//! # Many messages
//!
//! [`Schema::check`] allocates for each message. [`Schema::check_in`] keeps a [`Room`] from one to the next:
//!
//! ```
//! # use windosprio::{Room, Schema};
//! # let schema = Schema::compile("{'command':'stop-lot','data':{'lot':'str'}}")?;
//! # let input = "{\"execute\":\"stop-lot\",\"arguments\":{\"lot\":\"007\"}}\n[]\n";
//! let mut room = Room::new();
//! for line in input.lines() {
//!     match schema.check_in(&mut room, line.as_bytes()) {
//!         Ok(reading) => println!("{}, {} records", reading.command().name, reading.records().len()),
//!         Err(refusal) => println!("refused, {refusal}"),
//!     }
//! }
//! # Ok::<(), Box<dyn std::error::Error>>(())
//! ```
//!
//! Both lend as many records as the message can have, so a message is never refused with 30 for want of room. Who wants
//! to lend words of their own, or keeps tables, uses [`calls`].
//!
//! # A stream of messages
//!
//! A monitor's clients send messages one after the other, with or without a newline, over several lines, or several on
//! one. [`StreamReader`] takes the bytes as they come and hands out whole messages:
//!
//! ```
//! # use windosprio::{Schema, StreamReader};
//! # let schema = Schema::compile("{'command':'stop-lot','data':{'lot':'str'}}")?;
//! # let mut socket = &b"{\"execute\":\"stop-lot\",\"arguments\":{\"lot\":\"007\"}}"[..];
//! use std::io::Read;
//!
//! let mut reader = StreamReader::new();
//! let mut bytes = [0; 4096];
//! loop {
//!     let count = socket.read(&mut bytes)?;
//!     if count == 0 {
//!         break;
//!     }
//!     let mut chunk = reader.push(&bytes[..count]);
//!     while let Some(message) = chunk.next() {
//!         match message.and_then(|message| schema.check(message)) {
//!             Ok(reading) => println!("{}", reading.command().name),
//!             Err(refusal) => println!("refused, {refusal}"),
//!         }
//!     }
//! }
//! # Ok::<(), Box<dyn std::error::Error>>(())
//! ```
//!
//! # Stack
//!
//! The calls keep what they work on in their stack frames: [`limits::COMPILE_STACK`] and [`limits::CHECK_STACK`] bytes
//! suffice. The main thread, and a thread that Rust starts, have enough by default; a thread with a small stack of its
//! own may not, and the program then ends at the stack's guard page.
//!
//! # Panics
//!
//! The library's contracts rule out an answer that the rules don't have. On one this crate panics, as on records that
//! point nowhere: the library that was linked isn't the proved one.
//!
//! # Linking
//!
//! The build looks for `libgateway.a` (`./build gateway` makes it, for x86-64 Linux) in `target/staticlib` of the
//! project, or in the folder that the environment variable `WINDOSPRIO_LIB_DIR` names by its whole path.

#![deny(unsafe_code)]
#![warn(missing_docs)]

#[allow(unsafe_code)]
pub mod calls;
pub mod limits;

mod reading;
mod refusals;
mod schema;
mod stream;
mod types;

pub use reading::{Reading, Record, Room};
pub use refusals::{MessageRefusal, Refusal, Refused, SchemaRefusal};
pub use schema::Schema;
pub use stream::{Chunk, StreamReader};
pub use types::{BuiltIn, Definition, Type};
