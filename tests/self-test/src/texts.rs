//! The reader: its verdicts agree with how texts were made, its nodes cover a text, its places are prefixes.

use generate::print::Dialect;
use generate::texts::{self, most_levels, Expected, TextCase};
use generate::Random;
use harness::{check_bytes, check_expected, ensure, reference_dialect, Check, Tally};
use reference::text::{self, Kind, Node, Verdict};

/// Every planted fault.
pub fn check_faults(tally: &mut Tally) -> Check {
    for dialect in [Dialect::Schema, Dialect::Message] {
        for case in texts::every_fault(dialect) {
            check_case(dialect, &case, most_levels(dialect), 0, tally)?;
        }
    }
    Ok(())
}

/// A text of any sort, with as many levels as there may be, or fewer.
pub fn check(random: &mut Random, dialect: Dialect, tally: &mut Tally) -> Check {
    let most = most_levels(dialect);
    let levels = if random.one_in(2) { most } else { random.between(2, most) };
    let case = texts::any(random, dialect, levels);
    let cut = random.below(case.bytes.len() + 1);
    check_case(dialect, &case, levels, cut, tally)
}

fn check_case(dialect: Dialect, case: &TextCase, levels: usize, cut: usize, tally: &mut Tally) -> Check {
    let TextCase { bytes, expected } = case;
    let what = if dialect == Dialect::Schema { "schema text" } else { "message text" };
    let verdict = read(dialect, bytes, levels);
    tally.add(what, outcome(&verdict));
    if *expected != Expected::Unknown {
        check_expected(what, bytes, &as_expected(&verdict), expected)?;
    }
    check_bytes(what, bytes, |part| {
        check_nodes(dialect, part, levels)?;
        check_place(dialect, part, cut.min(part.len()), levels)
    })?;
    tally.pass();
    Ok(())
}

fn read(dialect: Dialect, bytes: &[u8], levels: usize) -> Verdict {
    text::read(reference_dialect(dialect), bytes, levels)
}

fn outcome(verdict: &Verdict) -> &'static str {
    match verdict {
        Verdict::Whole(_) => "whole",
        Verdict::Fault(_) => "fault",
        Verdict::Deep(_) => "deep",
    }
}

fn as_expected(verdict: &Verdict) -> Expected {
    match verdict {
        Verdict::Whole(nodes) => Expected::Whole(nodes.iter().map(|node| node.words()).collect()),
        Verdict::Fault(place) => Expected::Fault(*place),
        Verdict::Deep(place) => Expected::Deep(*place),
    }
}

/// A start of a text is read as far as the text is: its place is the same, or its own length.
fn check_place(dialect: Dialect, bytes: &[u8], cut: usize, levels: usize) -> Check {
    let verdict = read(dialect, bytes, levels);
    let place = match verdict {
        Verdict::Whole(_) => bytes.len(),
        Verdict::Fault(place) | Verdict::Deep(place) => place,
    };
    for length in [cut, place, (place + 1).min(bytes.len())] {
        let start = read(dialect, &bytes[..length], levels);
        let right = if length <= place {
            matches!(start, Verdict::Whole(_)) || start == Verdict::Fault(length)
        } else {
            start == verdict
        };
        ensure(right, || format!("{verdict:?}, but {start:?} of the first {length} bytes"))?;
    }
    Ok(())
}

/// The nodes of a whole text nest, and what is between them is blanks, comments and punctuation.
fn check_nodes(dialect: Dialect, bytes: &[u8], levels: usize) -> Check {
    let Verdict::Whole(nodes) = read(dialect, bytes, levels) else {
        return Ok(());
    };
    let mut left = bytes.to_vec();
    for (number, node) in nodes.iter().enumerate() {
        ensure(nests(&nodes, number) && kind_fits(*node, bytes), || format!("node {number} is {node:?}"))?;
        blank_out(&mut left, *node);
    }
    let rest = without_comments(dialect, &left);
    ensure(rest.iter().all(|byte| b" \t\r\n,:".contains(byte)), || format!("not in any node: {}", rest.escape_ascii()))
}

/// A node's subtree follows it, and lies inside it; a key's value comes after it.
fn nests(nodes: &[Node], number: usize) -> bool {
    let node = nodes[number];
    let inside = number + 1..node.next as usize;
    let is_key = node.kind.is_key();
    let is_leaf = !is_key && !matches!(node.kind, Kind::Array | Kind::Object);
    inside.start <= inside.end
        && inside.end <= nodes.len()
        && (!is_leaf || inside.is_empty())
        && (!is_key || !inside.is_empty() && nodes[number + 1].next == node.next)
        && nodes[inside.clone()].iter().all(|child| if is_key { child.start >= node.end } else { child.end < node.end })
        && nodes[inside].iter().all(|child| child.next <= node.next && child.start > node.start)
}

fn kind_fits(node: Node, text: &[u8]) -> bool {
    let bytes = node.bytes(text);
    match (node.kind, bytes[0]) {
        (Kind::Null, _) => bytes == b"null",
        (Kind::False, _) => bytes == b"false",
        (Kind::True, _) => bytes == b"true",
        (Kind::Integer, b'-' | b'0'..=b'9') => bytes.iter().all(|byte| b"-0123456789".contains(byte)),
        (Kind::OtherNumber, b'-' | b'0'..=b'9') => bytes.iter().any(|byte| b".eE".contains(byte)),
        (Kind::PlainString | Kind::PlainKey, quote) => is_string(bytes, quote) && is_plain(bytes),
        (Kind::CodedString | Kind::CodedKey, quote) => is_string(bytes, quote) && !is_plain(bytes),
        (Kind::Array, b'[') => bytes.ends_with(b"]"),
        (Kind::Object, b'{') => bytes.ends_with(b"}"),
        _ => false,
    }
}

fn is_string(bytes: &[u8], quote: u8) -> bool {
    b"'\"".contains(&quote) && bytes.len() >= 2 && bytes.ends_with(&[quote])
}

/// Neither an escape nor a byte outside ASCII.
fn is_plain(bytes: &[u8]) -> bool {
    bytes.iter().all(|&byte| (0x20..0x80).contains(&byte) && byte != b'\\')
}

/// Takes a node's own bytes away: the brackets of an array or object, all of any other.
fn blank_out(left: &mut [u8], node: Node) {
    let (start, end) = (node.start as usize, node.end as usize);
    match node.kind {
        Kind::Array | Kind::Object => (left[start], left[end - 1]) = (b' ', b' '),
        _ => left[start..end].fill(b' '),
    }
}

fn without_comments(dialect: Dialect, bytes: &[u8]) -> Vec<u8> {
    let lines = bytes.split(|&byte| byte == b'\n');
    let hash = |line: &[u8]| line.iter().position(|&byte| byte == b'#').filter(|_| dialect == Dialect::Schema);
    lines.flat_map(|line| line[..hash(line).unwrap_or(line.len())].to_vec()).collect()
}
