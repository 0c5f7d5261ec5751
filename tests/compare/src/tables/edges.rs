//! Fixed tables at the edges, each sound or not by the rules.

use std::time::{Duration, Instant};

use generate::schemas::{every_respelled, every_respelled_value, Respelled};
use harness::{ensure, Check, Tally};

use super::compare_table;
use crate::schemas::table_of;

pub fn compare(tally: &mut Tally) -> Check {
    let mut check = |table: &[u32], schema: &[u8], sound: bool| {
        (0..4).try_for_each(|seed| compare_table(table, schema, Some(sound), seed, tally))
    };
    for (rows, sound) in SMALL {
        check(rows.as_flattened(), NAMES, *sound)?;
    }
    for (count, sound) in [(1, true), (1_024, true), (1_025, false), (20_000, false)] {
        let (table, names) = commands(count);
        check(&table, &names, sound)?;
    }
    for length in 1..=20 {
        check(&chain(length), NAMES, length <= 16)?;
        check(&cycle(length), NAMES, false)?;
    }
    for (length, sound) in [(0, true), (32_768, true), (32_769, false), (1 << 20, false)] {
        check(&[], &vec![b'a'; length], sound)?;
    }
    check_spans(&mut check)?;
    check_endless_counts(&mut check)?;
    check_room_of_a_compiled_table(&mut check)?;
    check_relinked_tables(&mut check)?;
    check_respelled_schemas(&mut check)?;
    check_renamed_rows(&mut check)
}

/// Every span of 1 to 63 bytes is a good name.
const NAMES: &[u8] = b"abcdefghijklmnopqrstuvwxyzABCDEFGHIJKLMNOPQRSTUVWXYZabcdefghijklmnop";

/// One command whose name is as long as it may be, ends at the end of the schema, past it, or wraps.
fn check_spans(check: &mut impl FnMut(&[u32], &[u8], bool) -> Check) -> Check {
    let length = NAMES.len() as u32;
    for (start, size, sound) in [
        (0, 63, true),
        (0, 64, false),
        (length - 63, 63, true),
        (length - 62, 63, false),
        (length - 1, 1, true),
        (length, 1, false),
        (length - 1, 2, false),
        (length, 0, false),
        (u32::MAX, 1, false),
        (u32::MAX, 2, false),
        (u32::MAX - 2, 5, false),
        (2, u32::MAX, false),
        (1 << 31, 1 << 31, false),
        (u32::MAX, u32::MAX, false),
    ] {
        check(&[9, start, size, 0, 0, 0, 0, 0], NAMES, sound)?;
    }
    Ok(())
}

/// A count of 2^32 - 1, of each kind of row that counts, an inline struct's too: refused before a walk could run it out.
fn check_endless_counts(check: &mut impl FnMut(&[u32], &[u8], bool) -> Check) -> Check {
    let schema = b"{'enum':'E','data':['v']}{'struct':'S','data':{'m':'int'}}
        {'union':'U','base':{'t':'E'},'discriminator':'t','data':{'v':'S'}}{'alternate':'A','data':{'x':'U'}}
        {'command':'c','data':{'*a':['A']},'returns':['S']}";
    let table = table_of(schema);
    check(&table, schema, true)?;
    let began = Instant::now();
    for row in 0..table.len() / 8 {
        let count = match table[row * 8] {
            1 | 3 | 7 => row * 8 + 3,
            5 => row * 8 + 4,
            _ => continue,
        };
        for endless in [u32::MAX, u32::MAX - row as u32, 1 << 31] {
            let mut words = table.clone();
            words[count] = endless;
            check(&words, schema, false)?;
        }
    }
    let took = began.elapsed();
    ensure(took < AT_ONCE, || format!("counts of 2^32 - 1 took {took:?}"))
}

/// Far more than the judge needs for some fifty tables of 13 rows, far less than a walk of 2^32 rows takes.
const AT_ONCE: Duration = Duration::from_secs(1);

/// The first rows of a table are sound where they end with a definition; with more of the room after them none are.
fn check_room_of_a_compiled_table(check: &mut impl FnMut(&[u32], &[u8], bool) -> Check) -> Check {
    let schema = b"{'enum':'E','data':['v']}{'struct':'S','data':{'m':'int'}}
        {'union':'U','base':{'t':'E'},'discriminator':'t','data':{'v':'S'}}
        {'alternate':'A','data':{'x':'U'}}{'command':'c','data':{'*a':['A']},'returns':['S']}";
    let mut room = table_of(schema);
    let whole = room.len();
    room.resize(1_024 * 8, 0);
    for length in 0..whole + 20 {
        // Each definition refers to rows before it alone.
        let after_a_definition = [0, 2, 4, 8, 10, 13].map(|rows| rows * 8).contains(&length);
        check(&room[..length], schema, after_a_definition)?;
    }
    check(&room, schema, false)
}

/// Compiled tables in which one link or reference goes to another row.
fn check_relinked_tables(check: &mut impl FnMut(&[u32], &[u8], bool) -> Check) -> Check {
    for (schema, row, place, linked) in RELINKED {
        let mut table = table_of(schema.as_bytes());
        check(&table, schema.as_bytes(), true)?;
        for (word, sound) in *linked {
            table[row * 8 + place - 1] = *word;
            check(&table, schema.as_bytes(), *sound)?;
        }
    }
    Ok(())
}

/// Compiled tables beside bytes in which two of their names meet in C, or an enum has another value beside a number or
/// bool type.
fn check_respelled_schemas(check: &mut impl FnMut(&[u32], &[u8], bool) -> Check) -> Check {
    for Respelled { schema, bytes, sound } in every_respelled().chain(every_respelled_value()) {
        let table = table_of(&schema);
        check(&table, &schema, true)?;
        check(&table, &bytes, sound)?;
    }
    Ok(())
}

/// Compiled tables in which one row has another name, written after the schema.
fn check_renamed_rows(check: &mut impl FnMut(&[u32], &[u8], bool) -> Check) -> Check {
    for (row, renamed) in RENAMED {
        for (name, sound) in *renamed {
            let mut table = table_of(MEETING.as_bytes());
            let bytes = format!("{MEETING}{name}").into_bytes();
            check(&table, &bytes, true)?;
            table[row * 8 + 1] = MEETING.len() as u32;
            table[row * 8 + 2] = name.len() as u32;
            check(&table, &bytes, *sound)?;
        }
    }
    Ok(())
}

fn commands(count: u32) -> (Vec<u32>, Vec<u8>) {
    let names = (0..count.min(4_000)).flat_map(|i| format!("c{i:05}").into_bytes()).collect();
    ((0..count).flat_map(|i| [9, i % 4_000 * 6, 6, 0, 0, 0, 0, 0]).collect(), names)
}

/// Structs without members, each the base of the one before.
fn chain(length: u32) -> Vec<u32> {
    let base = |i: u32| if i + 1 == length { 0 } else { i + 2 };
    (0..length).flat_map(|i| [3, i, 1, 0, base(i), 0, 0, 0]).collect()
}

fn cycle(length: u32) -> Vec<u32> {
    (0..length).flat_map(|i| [3, i, 1, 0, (i + 1) % length + 1, 0, 0, 0]).collect()
}

type Rows = &'static [[u32; 8]];
type Words = &'static [(u32, bool)];
type Spellings = &'static [(&'static str, bool)];

/// Rows: 0 E, 3 F, 6 G, 9 S; 10 A with its alternatives 11 and 12, 13 B with 14 and 15, 16 C with 17 and 18.
const MIXED: &str = "{'enum':'E','data':['x','on']}{'enum':'F','data':['y','0']}{'enum':'G','data':['On','a0']}
    {'struct':'S','data':{}}{'alternate':'A','data':{'s':'G','b':'bool'}}{'alternate':'B','data':{'s':'G','n':'int'}}
    {'alternate':'C','data':{'s':'G','z':'null'}}";

/// A schema, a row and a place from 1 on; the words there, each with whether the table is then sound.
const RELINKED: &[(&str, usize, usize, Words)] = &[
    // A discriminator: the base's own `t`, that of another struct, another member, no member.
    (
        "{'enum':'E','data':['v']}{'struct':'x','data':{'t':'E'}}{'struct':'S','data':{}}
         {'union':'u','base':{'t':'E','i':'int','*o':'E','l':['E'],'e':'E'},'discriminator':'t','data':{'v':'S'}}",
        5,
        6,
        &[(8, true), (4, false), (9, false), (10, false), (11, false), (12, true), (0, false), (7, false), (99, false)],
    ),
    // An inherited discriminator.
    (
        "{'enum':'E','data':['v']}{'struct':'a','data':{'t':'E'}}{'struct':'b','base':'a','data':{'u':'E'}}
         {'struct':'S','data':{}}{'union':'u','base':'b','discriminator':'t','data':{'v':'S'}}{'struct':'c','data':{}}",
        7,
        6,
        &[(4, true), (6, true), (3, false), (2, false)],
    ),
    // A union's base: without the discriminator; a branch's struct: the base itself.
    (
        "{'enum':'E','data':['v']}{'struct':'a','data':{'t':'E'}}{'struct':'S','data':{}}
         {'union':'u','base':'a','discriminator':'t','data':{'v':'S'}}",
        5,
        4,
        &[(3, true), (5, false), (0, false), (1, false), (6, false), (7, false)],
    ),
    (
        "{'enum':'E','data':['v']}{'struct':'a','data':{'t':'E'}}{'struct':'S','data':{}}
         {'union':'u','base':'a','discriminator':'t','data':{'v':'S'}}",
        6,
        4,
        &[(5, true), (3, false), (0, false), (1, false), (6, false)],
    ),
    // A base: oneself, a struct with the same member, none.
    (
        "{'struct':'a','data':{'m':'int'}}{'struct':'b','data':{'m':'int'}}{'struct':'c','data':{'n':'int'}}",
        0,
        5,
        &[(0, true), (1, false), (3, false), (5, true), (2, false), (7, false)],
    ),
    // An alternative beside bool, beside a number type and beside null: an enum with neither on nor a digit first, one
    // with on, one with a digit, str, a struct, other built-ins.
    (MIXED, 11, 4, &[(22, true), (16, false), (19, true), (1, false), (25, true), (14, true), (12, true), (13, false)]),
    (MIXED, 14, 4, &[(22, true), (16, true), (19, false), (1, false), (25, true), (14, true), (12, false), (13, true)]),
    (MIXED, 17, 4, &[(22, true), (16, true), (19, true), (1, true), (25, true), (14, false), (12, true), (13, true)]),
    // A type beside the enum with neither.
    (MIXED, 12, 4, &[(13, true), (2, true), (3, true), (12, true), (14, true), (1, false), (16, false), (22, false)]),
    // A command's return: a struct, a union or an array of these.
    (
        "{'command':'c','returns':['S']}{'struct':'S','data':{}}{'enum':'E','data':[]}{'alternate':'A','data':{'x':'S'}}",
        0,
        6,
        &[(17, true), (16, false), (18, false), (19, false), (20, false), (15, false), (0, false)],
    ),
];

/// A schema of names with `-`. Its rows: 0 kind-of, 1 one-a, 2 two-b; 3 base-s, 4 type-t, 5 more-m; 6 own-s, 7 own-m;
/// 8 free-s, 9 free-m; 10 the-union, 11 one-a; 12 the-alternate, 13 alt-n, 14 alt-z; 15 the-command, 16 inline, 17
/// arg-x.
const MEETING: &str = "{'enum':'kind-of','data':['one-a','two-b']}
    {'struct':'base-s','data':{'type-t':'kind-of','more-m':'int'}}
    {'struct':'own-s','base':'base-s','data':{'own-m':'int'}}{'struct':'free-s','data':{'free-m':'int'}}
    {'union':'the-union','base':'own-s','discriminator':'type-t','data':{'one-a':'free-s'}}
    {'alternate':'the-alternate','data':{'alt-n':'int','alt-z':'null'}}
    {'command':'the-command','data':{'arg-x':'int'}}";

/// A row of that schema's table, and names; each with whether the table is sound where the row has it.
const RENAMED: &[(usize, Spellings)] = &[
    // A definition meets any other one, but no name of a list.
    (0, &[("kind_of", true), ("base_s", false), ("the_union", false), ("the_command", false), ("one_a", true)]),
    (15, &[("the_command", true), ("the_alternate", false), ("free_s", false), ("arg_x", true), ("own_m", true)]),
    // A value meets the other; a branch is found by exactly its name.
    (1, &[("one_a", false), ("two_b", false), ("one-a", true)]),
    (2, &[("one_a", false), ("two_b", true), ("free_m", true)]),
    (11, &[("one_a", false), ("two_b", false), ("two-b", true), ("one-a", true)]),
    // A member meets the other one of its struct, an inherited one, and one of the base where its struct is a branch's.
    (4, &[("type_t", true), ("more_m", false), ("own_m", false), ("free_m", false), ("arg_x", true)]),
    (7, &[("type_t", false), ("more_m", false), ("own_m", true), ("free_m", false)]),
    (9, &[("type_t", false), ("more_m", false), ("own_m", false), ("free_m", true), ("one_a", true)]),
    (13, &[("alt_n", true), ("alt_z", false), ("int_n", true)]),
];

/// Tables over `NAMES`.
const SMALL: &[(Rows, bool)] = &[
    (&[], true),
    (&[[0; 8]], false),
    (&[[9, 0, 1, 0, 0, 0, 0, 0], [0; 8]], false),
    (&[[10, 0, 1, 0, 0, 0, 0, 0]], false),
    (&[[u32::MAX, 0, 1, 0, 0, 0, 0, 0]], false),
    // Children without their definition, and counts that run past the table or wrap.
    (&[[2, 0, 1, 0, 0, 0, 0, 0]], false),
    (&[[4, 0, 1, 1, 0, 0, 0, 0]], false),
    (&[[1, 0, 1, 1, 0, 0, 0, 0], [2, 1, 1, 0, 0, 0, 0, 0]], true),
    (&[[1, 0, 1, 2, 0, 0, 0, 0], [2, 1, 1, 0, 0, 0, 0, 0]], false),
    (&[[1, 0, 1, 0, 0, 0, 0, 0], [2, 1, 1, 0, 0, 0, 0, 0]], false),
    (&[[1, 0, 1, u32::MAX, 0, 0, 0, 0], [2, 1, 1, 0, 0, 0, 0, 0]], false),
    (&[[1, 0, 1, 1 << 29, 0, 0, 0, 0]], false),
    (&[[1, 0, 1, (1 << 29) + 1, 0, 0, 0, 0], [2, 1, 1, 0, 0, 0, 0, 0]], false),
    // A member's reference.
    (&[[3, 0, 1, 1, 0, 0, 0, 0], [4, 1, 1, 15, 1, 1, 0, 0]], true),
    (&[[3, 0, 1, 1, 0, 0, 0, 0], [4, 1, 1, 16, 0, 0, 0, 0]], true),
    (&[[3, 0, 1, 1, 0, 0, 0, 0], [4, 1, 1, 17, 0, 0, 0, 0]], false),
    (&[[3, 0, 1, 1, 0, 0, 0, 0], [4, 1, 1, 18, 0, 0, 0, 0]], false),
    (&[[3, 0, 1, 1, 0, 0, 0, 0], [4, 1, 1, 0, 0, 0, 0, 0]], false),
    (&[[3, 0, 1, 1, 0, 0, 0, 0], [4, 1, 1, u32::MAX, 0, 0, 0, 0]], false),
    // One definition may use a name that another's child has, or the same span.
    (&[[3, 0, 1, 1, 0, 0, 0, 0], [4, 0, 1, 1, 0, 0, 0, 0]], true),
    (&[[3, 0, 1, 0, 0, 0, 0, 0], [9, 0, 1, 0, 0, 0, 0, 0]], false),
    (&[[3, 5, 9, 0, 0, 0, 0, 0], [9, 2, 20, 0, 0, 0, 0, 0]], true),
    // Inline structs: after the owner that links to them alone.
    (&[[9, 0, 1, 2, 0, 0, 0, 0], [3, 0, 0, 1, 0, 0, 0, 0], [4, 1, 1, 1, 0, 0, 0, 0]], true),
    (&[[9, 0, 1, 0, 0, 0, 0, 0], [3, 0, 0, 0, 0, 0, 0, 0]], false),
    (&[[9, 0, 1, 2, 0, 0, 0, 0], [3, 1, 0, 0, 0, 0, 0, 0]], false),
    (&[[9, 0, 1, 2, 0, 0, 0, 0], [3, 1, 1, 0, 0, 0, 0, 0]], true),
    (&[[9, 0, 1, 2, 0, 17, 0, 0], [3, 0, 0, 0, 0, 0, 0, 0]], false),
    (&[[9, 0, 1, 2, 0, 17, 0, 0], [3, 1, 1, 0, 0, 0, 0, 0]], true),
    (&[[9, 0, 1, 2, 0, 0, 0, 0], [3, 0, 0, 0, 2, 0, 0, 0]], false),
    (&[[9, 0, 1, 2, 0, 0, 0, 0], [3, 0, 0, 0, 0, 0, 0, 0], [9, 1, 1, 2, 0, 0, 0, 0]], false),
    (&[[3, 0, 0, 0, 0, 0, 0, 0], [9, 1, 1, 1, 0, 0, 0, 0]], false),
    // A return of 0 has array 0; a built-in is no return.
    (&[[9, 0, 1, 0, 1, 0, 0, 0]], true),
    (&[[9, 0, 1, 0, 2, 0, 0, 0]], false),
    (&[[9, 0, 1, 0, 0, 0, 1, 0]], false),
    (&[[9, 0, 1, 0, 0, 1, 0, 0]], false),
    (&[[9, 0, 1, 0, 0, 16, 0, 0]], false),
    (&[[9, 0, 1, 0, 0, 0, 0, 1]], false),
    // Alternates: none, one, an alternate, two of a kind.
    (&[[7, 0, 1, 0, 0, 0, 0, 0]], false),
    (&[[7, 0, 1, 1, 0, 0, 0, 0], [8, 1, 1, 14, 0, 0, 0, 0]], true),
    (&[[7, 0, 1, 1, 0, 0, 0, 0], [8, 1, 1, 15, 0, 0, 0, 0]], false),
    (&[[7, 0, 1, 1, 0, 0, 0, 0], [8, 1, 1, 16, 0, 0, 0, 0]], false),
    (&[[7, 0, 1, 2, 0, 0, 0, 0], [8, 1, 1, 2, 0, 0, 0, 0], [8, 2, 1, 12, 0, 0, 0, 0]], false),
    (&[[7, 0, 1, 2, 0, 0, 0, 0], [8, 1, 1, 2, 0, 0, 0, 0], [8, 2, 1, 13, 0, 0, 0, 0]], true),
    (&[[7, 0, 1, 2, 0, 0, 0, 0], [8, 1, 1, 2, 0, 0, 0, 0], [8, 1, 1, 13, 0, 0, 0, 0]], false),
];
