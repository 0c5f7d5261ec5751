//! An independent reference for Windosprio: written from the project's scope and the decisions on its open points
//! alone, not from specs/ or the code. docs/REFERENCE.md states the same rules.
//!
//! Modules in the order that data flows: `text` and its tokens, `keys`, the rows and the rules over them, then the two
//! calls `schema::compile` and `message::check`, with `table::is_sound` between them; `stream` is by itself, from the
//! change requests.

#![forbid(unsafe_code)]

pub mod text;

pub mod integers;
pub mod keys;
pub mod strings;

pub mod builtins;
pub mod names;
pub mod rows;
pub mod rules;

pub mod schema;
pub mod table;

pub mod message;
pub mod stream;
