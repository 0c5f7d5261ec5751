//! A message judged and read: the command's row and the records of its arguments (numbers 0 and 21 to 30).

mod envelope;
mod reading;
mod records;

use crate::keys;
use crate::rows::{Rows, COMMAND};
use crate::strings::Token;
use crate::table;
use crate::text::{self, Dialect, Verdict};
use envelope::Envelope;
use reading::Reader;
use records::Records;

pub const MOST_MESSAGE_BYTES: usize = 16_384;
pub const MESSAGE_LEVELS: usize = 32;

/// Why a message is refused.
#[derive(Clone, Copy, Debug, PartialEq, Eq)]
#[repr(u32)]
pub enum Refusal {
    UnsoundTable = 21,
    TooLong = 22,
    NotMessageText = 23,
    TooDeep = 24,
    RepeatedKey = 25,
    NotAnEnvelope = 26,
    UnknownCommand = 27,
    OobNotAllowed = 28,
    NoReading = 29,
    TooLittleRoom = 30,
}

impl Refusal {
    pub fn number(self) -> u32 {
        self as u32
    }
}

/// The four numbers of an answer, and every word lent.
#[derive(Clone, Debug, PartialEq, Eq)]
pub struct Answer {
    pub number: u32,
    pub row: u32,
    pub count: u32,
    pub place: u32,
    pub words: Vec<u32>,
}

/// Checks a message with `room` lent words.
pub fn check(table: &[u32], schema: &[u8], message: &[u8], room: usize) -> Answer {
    let mut words = vec![0; room];
    let (number, row, count, place) = check_into(table, schema, message, &mut words);
    Answer { number, row, count, place, words }
}

/// The same into words of the caller's; gives number, command row, record count and place.
pub fn check_into(table: &[u32], schema: &[u8], message: &[u8], lent: &mut [u32]) -> (u32, u32, u32, u32) {
    match table::judge(table, schema) {
        Some(rows) => check_with(rows, message, lent),
        None => {
            lent.fill(0);
            (Refusal::UnsoundTable.number(), 0, 0, 0)
        }
    }
}

/// The same with a table that was judged, for a run of messages.
pub fn check_with(rows: Rows, message: &[u8], lent: &mut [u32]) -> (u32, u32, u32, u32) {
    lent.fill(0);
    match accept(rows, message, Records::new(lent)) {
        Ok((row, count)) => (0, row as u32, count as u32, 0),
        Err((refusal, place)) => {
            lent.fill(0);
            (refusal.number(), 0, 0, place as u32)
        }
    }
}

/// The command's row and the count of records, or a refusal and its place.
fn accept(rows: Rows, message: &[u8], records: Records) -> Result<(usize, usize), (Refusal, usize)> {
    if message.len() > MOST_MESSAGE_BYTES {
        return Err((Refusal::TooLong, 0));
    }
    let nodes = match text::read(Dialect::Message, message, MESSAGE_LEVELS) {
        Verdict::Whole(nodes) => nodes,
        Verdict::Fault(place) => return Err((Refusal::NotMessageText, place)),
        Verdict::Deep(place) => return Err((Refusal::TooDeep, place)),
    };
    if let Some(place) = keys::repeated_key(message, &nodes) {
        return Err((Refusal::RepeatedKey, place as usize));
    }
    let envelope = Envelope::read(message, &nodes).ok_or((Refusal::NotAnEnvelope, 0))?;
    let command = find_command(rows, envelope.name).ok_or((Refusal::UnknownCommand, 0))?;
    if envelope.oob && !rows.allows_oob(command) {
        return Err((Refusal::OobNotAllowed, 0));
    }
    let start = envelope.arguments.map_or(0, |node| nodes[node].start as usize);
    let mut reader = Reader { rows, message, nodes: &nodes, records };
    if !reader.arguments(command, envelope.arguments) {
        return Err((Refusal::NoReading, start));
    }
    match reader.records.all_fit() {
        true => Ok((command, reader.records.count())),
        false => Err((Refusal::TooLittleRoom, start)),
    }
}

fn find_command(rows: Rows, name: Token) -> Option<usize> {
    let name = name.meaning();
    rows.of_kind(COMMAND).find(|&row| rows.name(row) == &*name)
}
