//! The reading of an accepted message: its command, and a type for every value.

use std::borrow::Cow;
use std::{fmt, str};

use crate::limits::RECORD_WORDS;
use crate::schema::Schema;
use crate::types::{Definition, Type};

/// Words for the records of messages, kept from one to the next. It grows with the longest.
#[derive(Clone, Debug, Default)]
pub struct Room {
    words: Vec<u32>,
}

impl Room {
    /// A room that has no words yet.
    pub fn new() -> Self {
        Self::default()
    }

    /// Words for so many records.
    pub(crate) fn lend(&mut self, records: usize) -> &mut [u32] {
        let count = records * RECORD_WORDS;
        if self.words.len() < count {
            self.words.resize(count, 0);
        }
        &mut self.words[..count]
    }
}

/// What an accepted message says: which command, and each value of its arguments with its type.
#[derive(Clone, PartialEq, Eq)]
pub struct Reading<'a> {
    schema: &'a Schema,
    message: &'a str,
    row: usize,
    words: Cow<'a, [u32]>,
}

impl<'a> Reading<'a> {
    pub(crate) fn new(schema: &'a Schema, message: &'a [u8], row: usize, words: Cow<'a, [u32]>) -> Self {
        let message = str::from_utf8(message).expect("an accepted message is UTF-8 (number 23)");
        Reading { schema, message, row, words }
    }

    /// The command.
    pub fn command(&self) -> Definition<'a> {
        self.schema.definition(self.row)
    }

    /// The message that was checked.
    pub fn message(&self) -> &'a str {
        self.message
    }

    /// The record of the arguments, which is the first one.
    pub fn arguments(&self) -> Record<'a> {
        self.records().next().expect("the arguments have a record")
    }

    /// The records in the order of the message: after each value come those of its members or elements. Inside a value
    /// of type `any` there are none.
    pub fn records(&self) -> impl ExactSizeIterator<Item = Record<'a>> + DoubleEndedIterator + '_ {
        self.words.as_chunks().0.iter().map(|words| self.record(words))
    }

    /// The words of the records, [`RECORD_WORDS`] each: start, end, type reference, 1 if array.
    pub fn words(&self) -> &[u32] {
        &self.words
    }

    fn record(&self, &[start, end, reference, array]: &[u32; RECORD_WORDS]) -> Record<'a> {
        let (start, end) = (start as usize, end as usize);
        let text = &self.message[start..end];
        Record { start, end, text, value_type: self.schema.type_of(reference), array: array == 1 }
    }
}

impl fmt::Debug for Reading<'_> {
    fn fmt(&self, out: &mut fmt::Formatter) -> fmt::Result {
        write!(out, "{:?} ", self.command())?;
        out.debug_list().entries(self.records()).finish()
    }
}

/// A value of the message and its type.
#[derive(Clone, Copy, Debug, PartialEq, Eq, Hash)]
pub struct Record<'a> {
    /// The place of its first byte.
    pub start: usize,
    /// The place after its last byte. Absent arguments are at 0, 0.
    pub end: usize,
    /// The value as the message has it, with quotes and escapes. Absent arguments are read as `{}`; their text is empty.
    pub text: &'a str,
    /// Its type; of an array, that of its elements.
    pub value_type: Type<'a>,
    /// Whether it is read as an array of that type.
    pub array: bool,
}

impl<'a> Record<'a> {
    /// The type as a schema has it: `str`, or `[Lot]` for an array.
    pub fn type_name(&self) -> impl fmt::Display + 'a {
        TypeName { of: self.value_type, array: self.array }
    }
}

struct TypeName<'a> {
    of: Type<'a>,
    array: bool,
}

impl fmt::Display for TypeName<'_> {
    fn fmt(&self, out: &mut fmt::Formatter) -> fmt::Result {
        match self.array {
            true => write!(out, "[{}]", self.of),
            false => self.of.fmt(out),
        }
    }
}
