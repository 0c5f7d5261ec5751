//! Rows and sound tables: the points that are easily read past.

use crate::common::*;
use reference::table::is_sound;

/// `E` with one value at row 0, `S` at 2, its member at 3; then what a case is about, at row 4.
const TYPES: &str = "{'enum':'E','data':['v']}{'struct':'S','data':{'m':'int'}}";

/// Whether the compiled table is still sound when words (row, place from 1) are set anew.
fn sound_with(schema: &str, words: &[(usize, usize, u32)]) -> bool {
    let mut rows = table(schema.as_bytes());
    assert!(is_sound(&rows, schema.as_bytes()));
    for &(row, place, word) in words {
        rows[row * 8 + place - 1] = word;
    }
    is_sound(&rows, schema.as_bytes())
}

#[test]
fn a_name_lies_within_the_schema_without_wrapping() {
    let schema = "{'enum':'E','data':[]}";
    assert!(sound_with(schema, &[(0, 2, 2), (0, 3, 1)]));
    assert!(sound_with(&format!("{schema}#x"), &[(0, 2, 23), (0, 3, 1)]));
    assert!(!sound_with(&format!("{schema}#x"), &[(0, 2, 23), (0, 3, 2)]));
    assert!(!sound_with(schema, &[(0, 2, u32::MAX), (0, 3, 2)]));
    assert!(!sound_with(schema, &[(0, 2, 9), (0, 3, u32::MAX - 8)]));
}

#[test]
fn a_schema_over_32768_bytes_makes_every_table_unsound() {
    let mut schema = b"{'enum':'E','data':[]}".to_vec();
    let rows = table(&schema);
    schema.resize(32_768, b' ');
    assert!(is_sound(&rows, &schema) && is_sound(&[], &schema));
    schema.push(b' ');
    assert!(!is_sound(&rows, &schema) && !is_sound(&[], &schema));
}

#[test]
fn an_inline_struct_is_referred_to_by_its_owner_s_link_alone() {
    let schema = format!("{TYPES}{{'command':'c','data':{{'a':'S'}},'returns':'S'}}{{'command':'d','data':'S'}}");
    assert!(sound_with(&schema, &[(4, 6, 18)]));
    assert!(!sound_with(&schema, &[(4, 6, 21)]), "return");
    assert!(!sound_with(&schema, &[(6, 4, 21)]), "member");
    assert!(!sound_with(&schema, &[(7, 4, 6)]), "another command's data");
    assert!(!sound_with(&schema, &[(2, 5, 6)]), "base");
    assert!(!sound_with(&schema, &[(4, 4, 3)]), "the owner's link elsewhere");
    assert!(!sound_with(&schema, &[(4, 4, 0)]), "the owner without a link");
    assert!(!sound_with(&schema, &[(5, 5, 3)]), "a base of its own");
    assert!(!sound_with(&schema, &[(5, 2, 1)]), "a start above 0");
    let union = "{'union':'u','base':{'t':'E'},'discriminator':'t','data':{'v':'S'}}{'alternate':'a','data':{'x':'S'}}";
    let schema = format!("{TYPES}{union}");
    assert!(!sound_with(&schema, &[(7, 4, 6)]), "branch");
    assert!(!sound_with(&schema, &[(9, 4, 21)]), "alternative");
    assert!(!sound_with(&schema, &[(4, 4, 3)]), "the union's link elsewhere");
}

#[test]
fn an_inline_struct_stands_only_after_its_owner() {
    assert!(!is_sound(&[3, 0, 0, 0, 0, 0, 0, 0], b""));
    let schema = "{'command':'c','data':{}}{'enum':'e','data':[]}";
    let rows = table(schema.as_bytes());
    let swapped = [&rows[..8], &rows[16..], &rows[8..16]].concat();
    assert!(is_sound(&rows, schema.as_bytes()) && !is_sound(&swapped, schema.as_bytes()));
    let twice = [&rows[..16], &rows[8..]].concat();
    assert!(!is_sound(&twice, schema.as_bytes()));
}

#[test]
fn a_named_struct_after_the_command_that_uses_it_is_a_definition() {
    let schema = "{'command':'c','data':'s'}{'struct':'s','data':{'m':'int'}}{'struct':'t','data':{'x':'s'}}";
    assert_eq!(table(schema.as_bytes())[3], 2);
    assert!(sound_with(schema, &[]));
}

#[test]
fn the_schema_beside_a_table_need_not_be_schema_text() {
    let rows = [[1, 0, 2, 1, 0, 0, 0, 0], [2, 0, 2, 0, 0, 0, 0, 0], [9, 1, 2, 0, 0, 0, 0, 0]].concat();
    assert!(is_sound(&rows, b"abc\xFF"));
    assert!(!is_sound(&rows, b"aaa"), "two definitions of one name");
    let falling = [[9, 2, 1, 0, 0, 0, 0, 0], [9, 0, 1, 0, 0, 0, 0, 0]].concat();
    assert!(is_sound(&falling, b"abc"));
}

#[test]
fn counts_fit_the_table_and_nothing_is_left_over() {
    let schema = format!("{TYPES}{{'alternate':'a','data':{{'x':'str'}}}}");
    for (row, count) in [(0, 2), (2, 2), (4, 2), (4, 0), (0, 0), (4, u32::MAX), (0, u32::MAX), (2, u32::MAX)] {
        assert!(!sound_with(&schema, &[(row, 4, count)]), "row {row}, count {count}");
    }
    let mut rows = table(schema.as_bytes());
    for _ in 0..8 {
        rows.push(0);
        assert!(!is_sound(&rows, schema.as_bytes()), "{} words", rows.len());
    }
    assert!(is_sound(&[], b""));
}

#[test]
fn a_table_has_at_most_1024_rows() {
    let names: Vec<u8> = (0..1_025).flat_map(|i| format!("c{i:04}").into_bytes()).collect();
    let rows = |count: u32| (0..count).flat_map(|i| [9, i * 5, 5, 0, 0, 0, 0, 0]).collect::<Vec<_>>();
    assert!(is_sound(&rows(1_024), &names) && !is_sound(&rows(1_025), &names));
}

#[test]
fn unused_words_are_0_and_flags_0_or_1() {
    let schema = format!(
        "{TYPES}{{'union':'u','base':'b','discriminator':'t','data':{{'v':'S'}}}}{{'struct':'b','data':{{'t':'E'}}}}
        {{'alternate':'a','data':{{'x':'str'}}}}{{'command':'c','data':'S','returns':'S'}}"
    );
    let unused = [
        (0, &[5, 6, 7, 8][..]),
        (1, &[4, 5, 6, 7, 8]),
        (2, &[6, 7, 8]),
        (3, &[7, 8]),
        (4, &[7, 8]),
        (5, &[5, 6, 7, 8]),
        (8, &[5, 6, 7, 8]),
        (9, &[5, 6, 7, 8]),
        (10, &[8]),
    ];
    for (row, places) in unused {
        assert!(places.iter().all(|&place| !sound_with(&schema, &[(row, place, 1)])), "row {row}");
    }
    for (row, place) in [(3, 5), (3, 6), (10, 5), (10, 7)] {
        assert!(sound_with(&schema, &[(row, place, 1)]), "row {row}, word {place}");
        assert!(!sound_with(&schema, &[(row, place, 2)]), "row {row}, word {place}");
    }
    assert!((0..11).all(|row| (0..16)
        .all(|kind| { kind == table(schema.as_bytes())[row * 8] || !sound_with(&schema, &[(row, 1, kind)]) })));
}

#[test]
fn a_reference_is_0_only_where_it_may_be() {
    let schema = format!(
        "{TYPES}{{'union':'u','base':'b','discriminator':'t','data':{{'v':'S'}}}}{{'struct':'b','data':{{'t':'E'}}}}
        {{'alternate':'a','data':{{'x':'str'}}}}{{'command':'c','data':'S','returns':['S']}}"
    );
    for (row, place) in [(3, 4), (4, 4), (4, 6), (5, 4), (9, 4)] {
        assert!(!sound_with(&schema, &[(row, place, 0)]), "row {row}, word {place}");
    }
    assert!(sound_with(&schema, &[(10, 4, 0)]));
    assert!(!sound_with(&schema, &[(10, 6, 0)]), "a return of 0 with array 1");
    assert!(sound_with(&schema, &[(10, 6, 0), (10, 7, 0)]));
    for reference in [0, 17, 19, 21, 26, 27, 100, u32::MAX] {
        assert!(!sound_with(&schema, &[(3, 4, reference)]), "member of {reference}");
    }
    for reference in [1, 15, 16, 18, 20, 22, 24] {
        assert!(sound_with(&schema, &[(3, 4, reference)]), "member of {reference}");
    }
    for link in [1, 2, 4, 5, 9, 11, 12, u32::MAX] {
        assert!(!sound_with(&schema, &[(10, 4, link)]), "data {link}");
    }
}

#[test]
fn a_discriminator_of_equal_name_elsewhere_is_unsound() {
    let schema = "{'enum':'E','data':['v']}{'struct':'x','data':{'t':'E'}}{'struct':'S','data':{}}
        {'union':'u','base':{'t':'E'},'discriminator':'t','data':{'v':'S'}}";
    assert_eq!(table(schema.as_bytes())[5 * 8 + 5], 8);
    assert!(!sound_with(schema, &[(5, 6, 4)]));
}

#[test]
fn a_table_whose_names_meet_in_c_is_unsound() {
    let sound = |schema: &str, apart: &str, met: &str| {
        let rows = table(schema.replace('!', apart).as_bytes());
        assert!(is_sound(&rows, schema.replace('!', apart).as_bytes()), "{schema}");
        is_sound(&rows, schema.replace('!', met).as_bytes())
    };
    assert!(!sound("{'enum':'a-b','data':[]}{'command':'!'}", "axb", "a_b"));
    assert!(!sound("{'enum':'E','data':['a-b','!']}", "axb", "a_b"));
    assert!(!sound("{'struct':'S','data':{'a-b':'int','*!':'int'}}", "axb", "a_b"));
    assert!(!sound("{'struct':'S','data':{'a-b':'int'}}{'struct':'T','base':'S','data':{'!':'int'}}", "axb", "a_b"));
    let union = "{'enum':'E','data':['v']}{'struct':'S','data':{'!':'int'}}
        {'union':'u','base':{'a-b':'E'},'discriminator':'a-b','data':{'v':'S'}}";
    assert!(!sound(union, "axb", "a_b"));
    assert!(sound("{'struct':'S','data':{'a-b':'int'}}{'struct':'T','data':{'!':'int'}}", "axb", "a_b"));
    let branch = "{'enum':'E','data':['a-b','x']}{'struct':'S','data':{}}
        {'union':'u','base':{'t':'E'},'discriminator':'t','data':{'a-b':'S'}}";
    let rows = table(branch.as_bytes());
    assert!(!is_sound(&rows, branch.replace("'a-b':", "'a_b':").as_bytes()), "a branch is found exactly");
}

#[test]
fn a_table_with_an_alternate_of_types_taken_for_each_other_is_unsound() {
    let schema = "{'enum':'E','data':['x','y0','no']}{'alternate':'A','data':{'e':'E','n':'int'}}";
    let rows = table(schema.as_bytes());
    for (bytes, sound) in [("'x','0y'", false), ("'7','y0'", false), ("'x','yy'", true)] {
        assert_eq!(is_sound(&rows, schema.replace("'x','y0'", bytes).as_bytes()), sound, "{bytes}");
    }
    assert!(is_sound(&rows, schema.replace("'no'", "'on'").as_bytes()));
    for (reference, sound) in [(13, true), (1, false), (14, true)] {
        assert_eq!(sound_with(schema, &[(6, 4, reference)]), sound, "{reference}");
    }
    let boolean = schema.replace("'int'", "'bool'");
    let rows = table(boolean.as_bytes());
    assert!(is_sound(&rows, boolean.replace("'y0'", "'0y'").as_bytes()));
    assert!(!is_sound(&rows, boolean.replace("'no'", "'on'").as_bytes()));
    assert!(!sound_with("{'struct':'S','data':{}}{'alternate':'A','data':{'s':'str','o':'S'}}", &[(3, 4, 2)]));
}

#[test]
fn the_rules_hold_of_the_rows() {
    let schema = format!("{TYPES}{{'struct':'s','base':'S','data':{{'n':'int'}}}}{{'command':'c','returns':'S'}}");
    let e = schema.find('E').unwrap() as u32;
    let m = schema.find("'m'").unwrap() as u32 + 1;
    assert!(!sound_with(&schema, &[(0, 3, 0)]), "5");
    assert!(!sound_with(&schema, &[(2, 2, e)]), "6");
    assert!(!sound_with(&schema, &[(6, 2, schema.find("int").unwrap() as u32), (6, 3, 3)]), "6, a built-in");
    assert!(!sound_with(&schema, &[(5, 2, m)]), "8, an inherited name");
    assert!(!sound_with(&schema, &[(4, 5, 5)]), "8, a cycle");
    assert!(!sound_with(&schema, &[(6, 6, 16)]), "11");
    assert!(sound_with(&schema, &[(3, 2, m)]));
}
