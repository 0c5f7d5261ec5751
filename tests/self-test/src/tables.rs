//! Soundness: a table is sound exactly when some schema compiles to it.

use generate::schemas::Schema;
use generate::shrink::smallest_table;
use generate::tables::{self, TableCase};
use generate::Random;
use harness::{ensure, Check, Tally};
use reference::table::is_sound;

use crate::decompile::is_compiled;

pub fn check(random: &mut Random, schema: &Schema, tally: &mut Tally) -> Check {
    for _ in 0..10 {
        let TableCase { words, schema, sound } = tables::any(random, schema);
        let judged = is_sound(&words, &schema);
        tally.add("tables", if judged { "sound" } else { "unsound" });
        ensure(sound.is_none_or(|sound| sound == judged), || format!("judged {judged}: {}", shown(&words, &schema)))?;
        if is_wrong(&words, &schema) {
            let rows = smallest_table(&words, |rows| is_wrong(rows, &schema));
            let other = if is_sound(&rows, &schema) { "sound, but not compiled" } else { "compiled, but not sound" };
            return Err(format!("{other}: {}", shown(&rows, &schema)));
        }
        tally.pass();
    }
    Ok(())
}

fn shown(words: &[u32], schema: &[u8]) -> String {
    format!("{words:?}\nbeside {}", schema.escape_ascii())
}

/// Judged otherwise than compiling the schema that the table is written back to tells.
fn is_wrong(words: &[u32], schema: &[u8]) -> bool {
    is_compiled(words, schema).is_some_and(|compiled| compiled != is_sound(words, schema))
}
