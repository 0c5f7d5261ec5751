//! Values with a fault at a known place.

use crate::print::Dialect;
use crate::tree::{Shape, Tree};
use crate::Random;

/// Puts a value in place of any other but an outermost object; says whether there was one.
pub fn replace_value(random: &mut Random, trees: &mut [Tree], wrong: Tree) -> bool {
    let outermost = |tree: &Tree| matches!(tree.shape, Shape::Object(_)) as usize;
    if trees.is_empty() {
        return false;
    }
    let which = random.below(trees.len());
    let tree = &mut trees[which];
    let (first, count) = (outermost(tree), tree.count());
    if first == count {
        return false;
    }
    let number = random.between(first, count - 1);
    tree.nth_mut(number).map(|value| *value = wrong).is_some()
}

/// A value with a fault, and the length of its start that is none.
pub fn wrong_value(random: &mut Random, dialect: Dialect) -> (Tree, usize) {
    let faults = faults(dialect);
    let (bytes, start) = match random.below(faults.len() + 1) {
        0 => control_in_string(dialect, random.below(0x20) as u8),
        fault => joined(&faults[fault - 1]),
    };
    (Tree::raw(bytes), start)
}

/// The bytes of each value with a fault that is known, and the length of the start that is none.
pub fn every_wrong_value(dialect: Dialect) -> impl Iterator<Item = (Vec<u8>, usize)> {
    let controls = (0..0x20).map(move |control| control_in_string(dialect, control));
    faults(dialect).iter().map(joined).chain(controls)
}

/// A start without a fault, and bytes of which the first is one.
type Fault = (&'static [u8], &'static [u8]);

fn faults(dialect: Dialect) -> &'static [Fault] {
    match dialect {
        Dialect::Schema => SCHEMA_FAULTS,
        Dialect::Message => MESSAGE_FAULTS,
    }
}

fn joined((start, wrong): &Fault) -> (Vec<u8>, usize) {
    ([*start, *wrong].concat(), start.len())
}

fn control_in_string(dialect: Dialect, control: u8) -> (Vec<u8>, usize) {
    let quote = if dialect == Dialect::Schema { b'\'' } else { b'"' };
    (vec![quote, control, quote], 1)
}

/// The first wrong byte can't follow wherever the value stands.
const MESSAGE_FAULTS: &[Fault] = &[
    // Numbers and words.
    (b"0", b"1"),
    (b"-0", b"0"),
    (b"0", b"x1"),
    (b"-", b"-1"),
    (b"-", b".5"),
    (b"-", b" 1"),
    (b"", b"+1"),
    (b"", b".5"),
    (b"1.", b".5"),
    (b"1.", b"e5"),
    (b"1.", b" "),
    (b"1.5", b".5"),
    (b"1e", b"e5"),
    (b"1e", b".5"),
    (b"1E-", b"+5"),
    (b"1e+", b" 5"),
    (b"1e5", b"e5"),
    (b"1e5", b".5"),
    (b"1 ", b"2"),
    (b"n", b"ll"),
    (b"nul", b"\"\""),
    (b"tru", b"E"),
    (b"true", b"true"),
    (b"", b"False"),
    (b"", b"NaN"),
    (b"", b"Infinity"),
    (b"", b"undefined"),
    // Brackets, commas and colons.
    (b"[", b",1]"),
    (b"[1,", b"]"),
    (b"[1,", b",1]"),
    (b"[1 ", b"1]"),
    (b"[1", b":1]"),
    (b"[", b"}"),
    (b"[1", b"}"),
    (b"{", b"]"),
    (b"{", b",}"),
    (b"{", b"1:1}"),
    (b"{", b"a:1}"),
    (b"{", b"{}:1}"),
    (b"{", b"'a':1}"),
    (b"{\"a\"", b"}"),
    (b"{\"a\"", b",\"b\":1}"),
    (b"{\"a\" ", b"1}"),
    (b"{\"a\"", b"\"b\"}"),
    (b"{\"a\":", b"}"),
    (b"{\"a\":", b",}"),
    (b"{\"a\":", b":1}"),
    (b"{\"a\":1", b"]"),
    (b"{\"a\":1,", b"}"),
    (b"{\"a\":1,", b",\"b\":1}"),
    (b"{\"a\":1 ", b"\"b\":1}"),
    (b"", b"\\"),
    // Blanks that are none.
    (b"", b"\x0B1"),
    (b"", b"\x0C1"),
    (b"", b"\x001"),
    (b"", b"\xC2\xA01"),
    (b"", b"\xEF\xBB\xBF1"),
    (b"", b"#\n1"),
    (b"", b"/**/1"),
    (b"", b"'a'"),
    // Escapes.
    (b"\"\\", b"x\""),
    (b"\"\\", b"'\""),
    (b"\"\\", b"0\""),
    (b"\"\\", b"U0061\""),
    (b"\"\\", b"\n\""),
    (b"\"\\u", b"\""),
    (b"\"\\u", b"x061\""),
    (b"\"\\u0", b"\""),
    (b"\"\\u00", b"g1\""),
    (b"\"\\u006", b"\""),
    (b"\"\\u", b"+061\""),
    // Surrogates.
    (b"\"\\uD", b"C00\""),
    (b"\"\\ud", b"fff\""),
    (b"\"\\uD800", b"\""),
    (b"\"\\uDBFF", b"\"\""),
    (b"\"\\uD834", b"x\\uDD1E\""),
    (b"\"\\uD834\\", b"n\""),
    (b"\"\\uD834\\u", b"0061\""),
    (b"\"\\uD834\\uD", b"834\""),
    (b"\"\\uD834\\ud", b"b00\""),
    (b"\"\\uD834\\uDD1", b"\""),
    (b"\"\\uD834\\uDD1E\\uD", b"D1E\""),
    (b"\"\xED", b"\xA0\xB4\xED\xB4\x9E\""),
    // UTF-8.
    (b"\"", b"\x80\""),
    (b"\"", b"\xBF\""),
    (b"\"", b"\xC0\x80\""),
    (b"\"", b"\xC1\xBF\""),
    (b"\"\xC2", b"\""),
    (b"\"\xDF", b"\xC0\""),
    (b"\"\xE0", b"\x9F\xBF\""),
    (b"\"\xE0\xA0", b"\""),
    (b"\"\xED", b"\xBF\xBF\""),
    (b"\"\xEF\xBF", b"\xC0\""),
    (b"\"\xF0", b"\x8F\xBF\xBF\""),
    (b"\"\xF0\x90\x80", b"\""),
    (b"\"\xF4", b"\x90\x80\x80\""),
    (b"\"", b"\xF5\x80\x80\x80\""),
    (b"\"", b"\xF8\x88\x80\x80\x80\""),
    (b"\"", b"\xFE\""),
    (b"\"", b"\xFF\""),
];

const SCHEMA_FAULTS: &[Fault] = &[
    (b"", b"1"),
    (b"", b"-1"),
    (b"", b"null"),
    (b"", b"\"a\""),
    (b"", b"True"),
    (b"t", b"#\nrue"),
    (b"fals", b"'e'"),
    (b"true", b"e"),
    (b"'\\", b"'"),
    (b"'\\", b"n'"),
    (b"'\\", b"u0061'"),
    (b"'\\\\\\", b"/'"),
    (b"'", b"\x7F'"),
    (b"'", b"\x80'"),
    (b"'", b"\xC3\xA4'"),
    (b"'a'", b"'"),
    (b"'a' ", b"'b'"),
    (b"[", b",'a']"),
    (b"['a',", b"]"),
    (b"['a'#,\n", b"'b']"),
    (b"['a'", b"}"),
    (b"[", b"}"),
    (b"{", b"]"),
    (b"{", b",}"),
    (b"{", b"a:'b'}"),
    (b"{", b"true:'b'}"),
    (b"{'a'", b"}"),
    (b"{'a' ", b"'b'}"),
    (b"{'a'#:\n", b"'b'}"),
    (b"{'a':", b"}"),
    (b"{'a':'b',", b"}"),
    (b"{'a':'b'", b";'c':'d'}"),
    (b"", b"\x0C'a'"),
    (b"", b"\x00'a'"),
    (b"", b"\xEF\xBB\xBF'a'"),
    (b"", b"//\n'a'"),
];
