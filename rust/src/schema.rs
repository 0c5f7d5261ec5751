//! A schema that was accepted, and the messages it takes.

use std::borrow::Cow;
use std::str;

use crate::limits::{most_records, RECORD_WORDS, ROWS, ROW_WORDS};
use crate::reading::{Reading, Room};
use crate::types::{BuiltIn, Definition, Type};
use crate::{calls, MessageRefusal, Refused, SchemaRefusal};

/// The words of one row.
type Row = [u32; ROW_WORDS];

/// A type reference from here on is this plus a row.
const FIRST_ROW: u32 = 16;

/// A schema that was accepted: its bytes, and its table. It can be shared by threads.
#[derive(Clone, Debug, PartialEq, Eq)]
pub struct Schema {
    bytes: Vec<u8>,
    table: Vec<u32>,
}

impl Schema {
    /// Compiles a schema. Needs [`COMPILE_STACK`](crate::limits::COMPILE_STACK) bytes of stack.
    pub fn compile(bytes: impl Into<Vec<u8>>) -> Result<Self, Refused<SchemaRefusal>> {
        let bytes = bytes.into();
        let mut table = vec![0; ROWS * ROW_WORDS];
        match calls::compile(&bytes, &mut table) {
            (0, count, _) => {
                table.truncate(count * ROW_WORDS);
                table.shrink_to_fit();
                Ok(Schema { bytes, table })
            }
            (number, _, place) => Err(Refused::answered(number, place)),
        }
    }

    /// Checks a message. Needs [`CHECK_STACK`](crate::limits::CHECK_STACK) bytes of stack.
    ///
    /// It allocates words for the records; who checks many messages uses [`check_in`](Self::check_in).
    pub fn check<'a>(&'a self, message: &'a [u8]) -> Result<Reading<'a>, Refused<MessageRefusal>> {
        let mut words = vec![0; most_records(message.len()) * RECORD_WORDS];
        let (row, count) = self.check_into(message, &mut words)?;
        words.truncate(count * RECORD_WORDS);
        Ok(Reading::new(self, message, row, Cow::Owned(words)))
    }

    /// Checks a message, as [`check`](Self::check) does, in a room that is used again for the next message.
    pub fn check_in<'a>(
        &'a self,
        room: &'a mut Room,
        message: &'a [u8],
    ) -> Result<Reading<'a>, Refused<MessageRefusal>> {
        let words = room.lend(most_records(message.len()));
        let (row, count) = self.check_into(message, words)?;
        Ok(Reading::new(self, message, row, Cow::Borrowed(&words[..count * RECORD_WORDS])))
    }

    /// The command's row and the count of records.
    fn check_into(&self, message: &[u8], records: &mut [u32]) -> Result<(usize, usize), Refused<MessageRefusal>> {
        match calls::check(&self.table, &self.bytes, message, records) {
            (0, row, count, _) => Ok((row, count)),
            (number, _, _, place) => Err(Refused::answered(number, place)),
        }
    }

    /// The bytes that were compiled.
    pub fn bytes(&self) -> &[u8] {
        &self.bytes
    }

    /// The rows, [`ROW_WORDS`] words each.
    pub fn table(&self) -> &[u32] {
        &self.table
    }

    /// The count of rows.
    pub fn rows(&self) -> usize {
        self.table.len() / ROW_WORDS
    }

    fn row(&self, row: usize) -> &Row {
        &self.table.as_chunks().0[row]
    }

    /// The definition at a row that has a name.
    pub(crate) fn definition(&self, row: usize) -> Definition<'_> {
        let [_, start, length, ..] = *self.row(row);
        let name = &self.bytes[start as usize..][..length as usize];
        Definition { row, name: str::from_utf8(name).expect("names are ASCII (number 5)") }
    }

    /// The type that a record's reference names.
    pub(crate) fn type_of(&self, reference: u32) -> Type<'_> {
        match reference {
            0 => Type::NoData,
            1..FIRST_ROW => Type::BuiltIn(BuiltIn::ALL[reference as usize - 1].0),
            FIRST_ROW.. => self.type_at((reference - FIRST_ROW) as usize),
        }
    }

    /// By the kind of the row; a struct without a name is written out in a command.
    fn type_at(&self, row: usize) -> Type<'_> {
        let [kind, _, name_length, ..] = *self.row(row);
        match (kind, name_length) {
            (3, 0) => Type::InlineStruct(row),
            (1, _) => Type::Enum(self.definition(row)),
            (3, _) => Type::Struct(self.definition(row)),
            (5, _) => Type::Union(self.definition(row)),
            (7, _) => Type::Alternate(self.definition(row)),
            _ => unreachable!("a type reference is to a type, not to row {row} of kind {kind}"),
        }
    }
}
