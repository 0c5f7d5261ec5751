//! Integer tokens against the ranges of the built-in types, and against limits beside their own values.

use generate::integers::range;
use generate::Random;
use harness::{ensure, Check, Tally};
use reference::integers::in_range;
use reference::text::{Kind, Node};

/// Integers asked of one text.
const MOST_INTEGERS: usize = 20;

pub fn compare(random: &mut Random, text: &[u8], nodes: &[Node], tally: &mut Tally) -> Check {
    for node in nodes.iter().filter(|node| node.kind == Kind::Integer).take(MOST_INTEGERS) {
        for built_in in 3..=12 {
            let (low, high) = range(built_in);
            let expected = in_range(node.bytes(text), built_in);
            compare_one(text, *node, (low.unsigned_abs() as u64, high as u64), expected, tally)?;
        }
        let limits = (beside(random, node.bytes(text)), beside(random, node.bytes(text)));
        compare_one(text, *node, limits, lies_between(node.bytes(text), limits), tally)?;
    }
    Ok(())
}

fn compare_one(text: &[u8], node: Node, (low, high): (u64, u64), expected: bool, tally: &mut Tally) -> Check {
    let said = product::text::in_range(text, node.start as usize, node.end as usize, low, high);
    tally.add("ranges", if said { "yes" } else { "no" });
    ensure(said == expected, || format!("{} from -{low} to {high}: product {said}", node.bytes(text).escape_ascii()))
}

/// The token's own magnitude, or one beside it, where 64 bits hold it; else any limit.
fn beside(random: &mut Random, token: &[u8]) -> u64 {
    let magnitude = std::str::from_utf8(magnitude(token)).ok().and_then(|digits| digits.parse::<u64>().ok());
    match magnitude {
        Some(magnitude) => magnitude.saturating_add(random.below(3) as u64).saturating_sub(1),
        None => *random.pick(&[0, 9, u64::MAX / 10, u64::MAX]),
    }
}

/// From -`low` to `high`, by comparing digits; a token has no leading zeros.
fn lies_between(token: &[u8], (low, high): (u64, u64)) -> bool {
    let digits = magnitude(token);
    let most = if token.starts_with(b"-") { low } else { high }.to_string();
    (digits.len(), digits) <= (most.len(), most.as_bytes())
}

fn magnitude(token: &[u8]) -> &[u8] {
    token.strip_prefix(b"-").unwrap_or(token)
}
