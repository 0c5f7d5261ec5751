//! A schema compiled to the words of its table (numbers 0 to 13).

mod layout;
mod references;

use crate::keys;
use crate::rows::{Rows, MOST_ROWS, ROW};
use crate::rules;
use crate::text::{self, Dialect, Node, Verdict};

pub const MOST_SCHEMA_BYTES: usize = 32_768;
pub const SCHEMA_LEVELS: usize = 8;

/// Why a schema is refused.
#[derive(Clone, Copy, Debug, PartialEq, Eq)]
#[repr(u32)]
pub enum Refusal {
    TooLong = 1,
    NotSchemaText = 2,
    RepeatedKey = 3,
    BadShape = 4,
    BadName = 5,
    EqualNames = 6,
    UnknownName = 7,
    BadChain = 8,
    BadUnion = 9,
    BadAlternate = 10,
    BadReturn = 11,
    TooManyRows = 12,
    TooLittleRoom = 13,
}

impl Refusal {
    pub fn number(self) -> u32 {
        self as u32
    }
}

/// The three numbers of an answer, and every word lent.
#[derive(Clone, Debug, PartialEq, Eq)]
pub struct Answer {
    pub number: u32,
    pub count: u32,
    pub place: u32,
    pub words: Vec<u32>,
}

/// Compiles a schema into `room` lent words.
pub fn compile(schema: &[u8], room: usize) -> Answer {
    let mut words = vec![0; room];
    let (number, count, place) = compile_into(schema, &mut words);
    Answer { number, count, place, words }
}

/// The same into words of the caller's; gives number, row count and place.
pub fn compile_into(schema: &[u8], lent: &mut [u32]) -> (u32, u32, u32) {
    lent.fill(0);
    let table =
        nodes_of(schema).and_then(|nodes| table_of(schema, &nodes, lent.len() / ROW).map_err(|refusal| (refusal, 0)));
    match table {
        Ok(table) => {
            let words = table.as_flattened();
            lent[..words.len()].copy_from_slice(words);
            (0, table.len() as u32, 0)
        }
        Err((refusal, place)) => (refusal.number(), 0, place as u32),
    }
}

/// The nodes of a text whose keys are fine, or a refusal and its place.
fn nodes_of(schema: &[u8]) -> Result<Vec<Node>, (Refusal, usize)> {
    if schema.len() > MOST_SCHEMA_BYTES {
        return Err((Refusal::TooLong, 0));
    }
    let nodes = match text::read(Dialect::Schema, schema, SCHEMA_LEVELS) {
        Verdict::Whole(nodes) => nodes,
        Verdict::Fault(place) | Verdict::Deep(place) => return Err((Refusal::NotSchemaText, place)),
    };
    match keys::repeated_key(schema, &nodes) {
        Some(place) => Err((Refusal::RepeatedKey, place as usize)),
        None => Ok(nodes),
    }
}

/// The rows of the table, if `lent` are enough. No refusal from here on points anywhere.
fn table_of(schema: &[u8], nodes: &[Node], lent: usize) -> Result<Vec<[u32; ROW]>, Refusal> {
    let (mut table, names) = layout::lay_out(schema, nodes)?;

    let rows = Rows::new(table.as_flattened(), schema);
    refuse_if(rules::has_bad_name(rows), Refusal::BadName)?;
    let definitions = rules::Definitions::new(rows).ok_or(Refusal::EqualNames)?;
    refuse_if(rules::has_equal_names_in_a_list(rows), Refusal::EqualNames)?;
    let found = references::find_definitions(rows, &names, &definitions)?;
    references::write(&mut table, &found);

    let rows = Rows::new(table.as_flattened(), schema);
    refuse_if(rules::has_bad_chain(rows), Refusal::BadChain)?;
    let found = references::find_discriminators(rows, &names)?;
    references::write(&mut table, &found);

    let rows = Rows::new(table.as_flattened(), schema);
    refuse_if(rules::has_bad_union(rows), Refusal::BadUnion)?;
    refuse_if(rules::has_bad_alternate(rows), Refusal::BadAlternate)?;
    refuse_if(rules::has_bad_return(rows), Refusal::BadReturn)?;
    refuse_if(rows.count() > MOST_ROWS, Refusal::TooManyRows)?;
    refuse_if(rows.count() > lent, Refusal::TooLittleRoom)?;
    Ok(table)
}

fn refuse_if(applies: bool, refusal: Refusal) -> Result<(), Refusal> {
    if applies {
        Err(refusal)
    } else {
        Ok(())
    }
}
