//! The rules of docs/REFERENCE.md, case by case. What they say of the program is tested in reference-gateway.

mod common;

mod lots;
mod messages;
mod names_and_rules;
mod places;
mod rows_and_soundness;
mod schema_text;
