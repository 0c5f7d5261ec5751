//! Seeded generators of test inputs for Windosprio, written from the rules alone. One seed reproduces everything.
//!
//! `texts` for the reader, `schemas` for compiling, `tables` for soundness, `messages` for checking, `streams` for
//! taking messages out of a stream. Where an input's answer follows from how it was made, the case carries it.

#![forbid(unsafe_code)]

pub mod random;

pub mod aims;
pub mod damage;
pub mod integers;
pub mod print;
pub mod shrink;
pub mod tree;

pub mod texts;

pub mod names;

pub mod model;
pub mod schemas;
pub mod tables;

pub mod messages;
pub mod streams;

pub use random::Random;
