//! The command that a message names, found among the rows of a table.

mod exports {
    extern "C" {
        pub fn windosprio_probe_command(
            table: *const u32,
            table_words: usize,
            schema: *const u8,
            schema_bytes: usize,
            message: *const u8,
            message_bytes: usize,
            nodes: *const u32,
            node_words: usize,
            node: usize,
        ) -> usize;
    }
}

/// Words of one row.
const ROW: usize = 8;

/// The row of the first command whose name the string at a node of the message means.
pub fn find_command(table: &[u32], schema: &[u8], message: &[u8], nodes: &[u32], node: usize) -> Option<usize> {
    // SAFETY: each pointer goes with the length of its slice, which lives during the call.
    let row = unsafe {
        exports::windosprio_probe_command(
            table.as_ptr(),
            table.len(),
            schema.as_ptr(),
            schema.len(),
            message.as_ptr(),
            message.len(),
            nodes.as_ptr(),
            nodes.len(),
            node,
        )
    };
    let rows = table.len() / ROW;
    assert!(row <= rows, "the product has no row {row} of {rows}");
    (row < rows).then_some(row)
}

#[cfg(test)]
mod tests {
    use super::*;
    use crate::text::{read, words_for, Verdict};

    fn found(table: &[[u32; ROW]], schema: &[u8], name: &str) -> Option<usize> {
        let message = format!("{{\"execute\":\"{name}\"}}").into_bytes();
        let mut nodes = vec![0; words_for(message.len())];
        assert_eq!(read(false, &message, &mut nodes), Verdict::Whole(3));
        find_command(table.as_flattened(), schema, &message, &nodes, 2)
    }

    #[test]
    fn a_command_is_found_by_what_its_name_means() {
        let schema = b"{'command':'stop'}{'command':'stop-lot'}{'enum':'lot','data':[]}";
        let table = [[9, 12, 4, 0, 0, 0, 0, 0], [9, 30, 8, 0, 0, 0, 0, 0], [1, 49, 3, 0, 0, 0, 0, 0]];
        let found = |name: &str| found(&table, schema, name);
        assert_eq!((found("stop"), found("stop-lot"), found("\\u0073top-lot")), (Some(0), Some(1), Some(1)));
        for name in ["", "sto", "stop-", "stop_lot", "stop-lott", "lot", "\\u0073top-lo", "\\u0173top-lot", "é"] {
            assert_eq!(found(name), None, "{name}");
        }
    }

    /// Names of 1 to 70 bytes, so that every way to compare them ends everywhere.
    #[test]
    fn names_of_every_length_are_told_apart_at_every_place() {
        for length in 1..=70 {
            let name = "lot-of-seeds-".repeat(6)[..length].to_string();
            let escaped = format!("\\u{:04x}{}", name.as_bytes()[0], &name[1..]);
            let table = [[9, 0, length as u32, 0, 0, 0, 0, 0]];
            assert_eq!(found(&table, name.as_bytes(), &name), Some(0), "{name}");
            assert_eq!(found(&table, name.as_bytes(), &escaped), Some(0), "{escaped}");
            for place in 0..length {
                let mut other = name.clone().into_bytes();
                other[place] ^= 1;
                assert_eq!(found(&table, &other, &name), None, "{name}, {place}");
                assert_eq!(found(&table, &other, &escaped), None, "{escaped}, {place}");
            }
        }
    }

    /// A sound table has no name of over 63 bytes, none of other bytes than ASCII, and none that the schema's end cuts.
    #[test]
    fn names_that_no_sound_table_has_are_found_too() {
        let long = "x".repeat(80);
        let schema = [long.as_bytes(), &[0xE9]].concat();
        let table = [[9, 0, 80, 0, 0, 0, 0, 0], [9, 80, 1, 0, 0, 0, 0, 0], [9, 79, 5, 0, 0, 0, 0, 0]];
        let found = |name: &str| found(&table, &schema, name);
        let rest = &long[1..];
        assert_eq!((found(&long), found(&format!("\\u0078{rest}"))), (Some(0), Some(0)));
        assert_eq!((found("é"), found("\\u00e9"), found("x\\u00e9")), (Some(1), Some(1), Some(2)));
        for name in [rest, &format!("{long}x"), &format!("\\u0178{rest}"), &format!("\\u0078{long}"), "x", "\\u01e9"] {
            assert_eq!(found(name), None, "{name}");
        }
    }
}
