//! The examples of each document: where they stand, and the answers that the rules give them.
//!
//! An example stands alone as it does in the document; those that belong together are run joined too. One that leaves
//! something out, or that only shows a form, isn't run.

mod doc_000;
mod doc_001;
mod doc_003;
mod doc_004;

use harness::Check;

use crate::calls::{check_message, check_schema};
use crate::pieces::{Piece, Text};

pub const DOCUMENTS: [&Document; 4] = [&doc_000::DOCUMENT, &doc_001::DOCUMENT, &doc_003::DOCUMENT, &doc_004::DOCUMENT];

pub struct Document {
    /// What its file name starts with, before `_`.
    pub name: &'static str,
    /// Whether its lines stand in a frame.
    pub framed: bool,
    pub schemas: &'static [Schema],
    pub joined: &'static [Schema],
    pub messages: &'static [Message],
    /// Places and why they aren't run.
    pub left_out: &'static [(Piece, &'static str)],
}

pub enum Schema {
    /// Accepted, with so many rows.
    Rows(&'static [Piece], usize),
    /// The number, and why.
    Refused(&'static [Piece], u32, &'static str),
}

/// First the schema.
pub enum Message {
    /// Accepted: the command's row and the count of records.
    Reads(&'static [Piece], &'static [Piece], usize, usize),
    /// The number, and why.
    Refused(&'static [Piece], &'static [Piece], u32, &'static str),
}

impl Schema {
    /// Gives the number, if the answer is as expected.
    pub fn check(&self, text: &Text) -> Result<u32, String> {
        let (pieces, expected, why) = match *self {
            Schema::Rows(pieces, rows) => (pieces, (0, rows), "accepted"),
            Schema::Refused(pieces, number, why) => (pieces, (number, 0), why),
        };
        let checked = text.take(pieces).and_then(|schema| check_schema(&schema, expected));
        checked.map_err(|reason| format!("schema {pieces:?}, {why}: {reason}"))
    }

    fn pieces(&self) -> &'static [Piece] {
        match self {
            Schema::Rows(pieces, ..) | Schema::Refused(pieces, ..) => pieces,
        }
    }
}

impl Message {
    /// Gives the number, if the answer is as expected.
    pub fn check(&self, text: &Text) -> Result<u32, String> {
        let (expected, why) = match *self {
            Message::Reads(.., row, count) => ((0, row, count), "accepted"),
            Message::Refused(.., number, why) => ((number, 0, 0), why),
        };
        let (schema, pieces) = (self.schema(), self.pieces());
        let checked = text.take(schema).and_then(|schema| check_message(&schema, &text.take(pieces)?, expected));
        checked.map_err(|reason| format!("message {pieces:?}, {why}: {reason}"))
    }

    fn schema(&self) -> &'static [Piece] {
        match self {
            Message::Reads(schema, ..) | Message::Refused(schema, ..) => schema,
        }
    }

    fn pieces(&self) -> &'static [Piece] {
        match self {
            Message::Reads(_, pieces, ..) | Message::Refused(_, pieces, ..) => pieces,
        }
    }
}

impl Document {
    /// How many checks it has: its examples, and that none of them is in no table.
    pub fn checks(&self) -> usize {
        self.schemas.len() + self.joined.len() + self.messages.len() + 1
    }

    /// Fails at a place that looks like an example and is in none of the tables.
    pub fn check_listed(&self, text: &Text) -> Check {
        let schemas = self.schemas.iter().flat_map(Schema::pieces);
        let messages = self.messages.iter().flat_map(Message::pieces);
        let left_out = self.left_out.iter().map(|(piece, _)| piece);
        match text.unlisted(schemas.chain(messages).chain(left_out)) {
            Some(place) => Err(format!("an object opens at byte {place}, in no table")),
            None => Ok(()),
        }
    }
}

/// A schema for messages that name no command of it.
const STOP: &[Piece] = &[Piece::Own("{'command':'stop'}")];

/// What the commands `take` below need, to have a value as their arguments or as an argument.
const TAKE: Piece = Piece::Own(r#"{"execute":"take","arguments":"#);
const TAKEN: Piece = Piece::Own("}");
const TAKE_VALUE: Piece = Piece::Own(r#"{"execute":"take","arguments":{"value":"#);
const VALUE_TAKEN: Piece = Piece::Own("}}");

const TAKES_COW: Piece = Piece::Own("{'command':'take','data':'BlockdevOptionsGenericCOWFormat'}");
const TAKES_OPTIONS: Piece = Piece::Own("{'command':'take','data':{'value':'BlockdevOptions'}}");
const TAKES_REF: Piece = Piece::Own("{'command':'take','data':{'file':'BlockdevRef'}}");
/// A simple union written as a flat one, as 000 and 004 say that it is on the wire.
const TAKES_SIMPLE: Piece = Piece::Own(
    "{'enum':'Kind','data':['file','qcow2']}
     {'struct':'WithFile','data':{'data':'BlockdevOptionsFile'}}
     {'struct':'WithQcow2','data':{'data':'BlockdevOptionsQcow2'}}
     {'union':'Simple','base':{'type':'Kind'},'discriminator':'type','data':{'file':'WithFile','qcow2':'WithQcow2'}}
     {'command':'take','data':{'value':'Simple'}}",
);

/// What an excerpt that shows `query-blockstats` leaves out.
const BLOCK_STATS: Piece = Piece::Own("{'struct':'BlockStats','data':{'*device':'str','*node-name':'str'}}");

/// A command whose name is taken from a document.
const COMMAND_NAMED: Piece = Piece::Own("{'command':'");
const NAME_END: Piece = Piece::Own("'}");

/// Reasons that hold of many examples.
const NO_ENVELOPE: &str = "a reply, an event or a description of a type: no execute or exec-oob";
const UNKNOWN: &str = "names a type that the excerpt doesn't define";
const FORM: &str = "a form: words stand for what is to be filled in";
const DOTS: &str = "dots stand for left-out text";
const C_CODE: &str = "generated C code";
