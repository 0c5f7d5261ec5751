//! One text read by both: verdict, place, number of nodes and every node word.

use generate::print::Dialect;
use generate::texts::most_levels;
use generate::Random;
use harness::{ensure, reference_dialect, Check, Tally};
use product::text::{words_for, Verdict, NODE};
use reference::text::{self, Node};

use crate::lent::LentWords;

/// What both say of a text: the verdict, the nodes of a whole one by the reference, and the words lent to the product.
pub struct Read {
    pub verdict: Verdict,
    pub nodes: Vec<Node>,
    pub words: Vec<u32>,
}

/// Reads a text with as many words as its callers lend, and every other time also with too few.
pub fn compare(random: &mut Random, dialect: Dialect, text: &[u8], tally: &mut Tally) -> Result<Read, String> {
    let (verdict, nodes) = by_reference(dialect, text);
    let mut lent = LentWords::new(words_for(text.len()), 0);
    check_read(dialect, text, &mut lent, verdict)?;
    tally.add("words lent", "enough");
    if matches!(verdict, Verdict::Whole(_)) {
        check_nodes(&nodes, lent.items(), 0)?;
    }
    if !text.is_empty() && random.one_in(2) {
        compare_in_too_few_words(random, dialect, text, verdict, &nodes)?;
        tally.add("words lent", "too few");
    }
    Ok(Read { verdict, nodes, words: lent.items().to_vec() })
}

/// The reference's verdict in the product's form, and the nodes of a whole text.
fn by_reference(dialect: Dialect, text: &[u8]) -> (Verdict, Vec<Node>) {
    match text::read(reference_dialect(dialect), text, most_levels(dialect)) {
        text::Verdict::Whole(nodes) => (Verdict::Whole(nodes.len()), nodes),
        text::Verdict::Fault(place) => (Verdict::Fault(place), Vec::new()),
        text::Verdict::Deep(place) => (Verdict::Deep(place), Vec::new()),
    }
}

fn check_read(dialect: Dialect, text: &[u8], lent: &mut LentWords, expected: Verdict) -> Check {
    let verdict = product::text::read(dialect == Dialect::Schema, text, lent.items_mut());
    let count = lent.items().len();
    ensure(verdict == expected, || format!("product {verdict:?}, reference {expected:?}, in {count} words"))?;
    ensure(lent.is_intact_around(), || format!("words beside the {count} lent were written"))
}

/// The verdict stays, and those nodes are written whose words all fit.
fn compare_in_too_few_words(
    random: &mut Random,
    dialect: Dialect,
    text: &[u8],
    expected: Verdict,
    nodes: &[Node],
) -> Check {
    let needed = if nodes.is_empty() { words_for(text.len()) } else { nodes.len() * NODE };
    let filling = random.word() as u32;
    let mut lent = LentWords::new(random.below(needed), filling);
    check_read(dialect, text, &mut lent, expected)?;
    match expected {
        Verdict::Whole(_) => check_nodes(nodes, lent.items(), filling),
        _ => Ok(()),
    }
}

/// The words of all nodes that fit, and after them the words as they were lent.
fn check_nodes(nodes: &[Node], lent: &[u32], filling: u32) -> Check {
    let (whole, rest) = lent.as_chunks::<NODE>();
    for (number, (node, words)) in nodes.iter().zip(whole).enumerate() {
        ensure(node.words() == *words, || format!("node {number}: product {words:?}, reference {:?}", node.words()))?;
    }
    let unused = whole.get(nodes.len()..).unwrap_or_default();
    let untouched = unused.as_flattened().iter().chain(rest).all(|&word| word == filling);
    ensure(untouched, || format!("words after the last of {} nodes were written", nodes.len()))
}

#[cfg(test)]
mod tests {
    use super::*;
    use reference::text::Kind;

    #[test]
    fn each_word_of_a_node_and_each_after_them_counts() {
        let nodes = [Node { kind: Kind::Array, start: 3, end: 5, next: 1 }];
        for (lent, good) in [
            (&[8, 3, 5, 1, 7, 7][..], true),
            (&[8, 3, 5], false),
            (&[7, 7, 7], true),
            (&[8, 3, 5, 2, 7, 7], false),
            (&[6, 3, 5, 1], false),
            (&[8, 3, 5, 1, 7, 0], false),
            (&[8, 3, 5, 1, 7, 7, 7, 0], false),
            (&[7, 7, 7, 7], false),
        ] {
            assert_eq!(check_nodes(&nodes, lent, 7).is_ok(), good, "{lent:?}");
        }
    }
}
