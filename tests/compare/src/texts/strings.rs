//! What strings and keys mean, asked of the product and told by the reference's code points.

use generate::print::Dialect;
use generate::Random;
use harness::{ensure, Check, Tally};
use product::text::{mean_the_same, means, Token};
use reference::strings;
use reference::text::Node;

/// Strings asked of one text.
const MOST_STRINGS: usize = 6;

/// A string or key of a whole text.
struct Text {
    token: Token,
    points: Vec<u32>,
}

pub fn compare(random: &mut Random, dialect: Dialect, text: &[u8], nodes: &[Node], tally: &mut Tally) -> Check {
    let mut chosen: Vec<Node> =
        nodes.iter().copied().filter(|node| node.kind.is_string() || node.kind.is_key()).collect();
    random.shuffle(&mut chosen);
    chosen.truncate(MOST_STRINGS);
    let texts: Vec<Text> = chosen.iter().map(|&node| decoded(text, node)).collect();
    for string in &texts {
        compare_meaning(random, dialect, text, string, tally)?;
    }
    for (number, string) in texts.iter().enumerate() {
        texts[..number].iter().try_for_each(|other| compare_pair(dialect, text, string, other, tally))?;
    }
    Ok(())
}

fn decoded(text: &[u8], node: Node) -> Text {
    let token = Token { start: node.start as usize, end: node.end as usize, plain: node.kind.is_plain() };
    let points = strings::Token::new(text, node).code_points().into_iter().map(u32::from).collect();
    Text { token, points }
}

/// The token as its node has it, and as one that isn't taken for plain.
fn both_ways(token: Token) -> [Token; 2] {
    [token, Token { plain: false, ..token }]
}

fn compare_meaning(random: &mut Random, dialect: Dialect, text: &[u8], string: &Text, tally: &mut Tally) -> Check {
    let (schema, what) = match dialect {
        Dialect::Schema => (true, "schema string means"),
        Dialect::Message => (false, "message string means"),
    };
    for name in names(random, text, string) {
        let expected = string.points.iter().copied().eq(name.iter().copied().map(u32::from));
        for token in both_ways(string.token) {
            let said = means(schema, text, token, &name);
            ensure(said == expected, || format!("{token:?} means {}: product {said}", name.escape_ascii()))?;
            tally.add(what, if said { "yes" } else { "no" });
        }
    }
    Ok(())
}

/// The code points as bytes, which is the meaning where none is over 255; those slightly changed; the meaning in UTF-8;
/// and what stands between the quotes.
fn names(random: &mut Random, text: &[u8], string: &Text) -> [Vec<u8>; 4] {
    let low: Vec<u8> = string.points.iter().map(|&point| point as u8).collect();
    let utf8 = string.points.iter().filter_map(|&point| char::from_u32(point)).collect::<String>().into_bytes();
    let inside = text[string.token.start + 1..string.token.end - 1].to_vec();
    [slightly_changed(random, &low), low, utf8, inside]
}

fn slightly_changed(random: &mut Random, name: &[u8]) -> Vec<u8> {
    let mut changed = name.to_vec();
    let place = random.below(name.len() + 1);
    match random.below(4) {
        0 => changed.insert(place, random.byte()),
        1 => changed.truncate(place),
        _ if place == name.len() => changed.push(0),
        2 => drop(changed.remove(place)),
        _ => changed[place] ^= 1 << random.below(8),
    }
    changed
}

fn compare_pair(dialect: Dialect, text: &[u8], first: &Text, second: &Text, tally: &mut Tally) -> Check {
    let (schema, what) = match dialect {
        Dialect::Schema => (true, "schema strings same"),
        Dialect::Message => (false, "message strings same"),
    };
    let expected = first.points == second.points;
    let written_alike = text[first.token.start..first.token.end] == text[second.token.start..second.token.end];
    let outcome = match (expected, written_alike) {
        (true, true) => "yes",
        (true, false) => "yes-respelled",
        (false, _) => "no",
    };
    for one in both_ways(first.token) {
        for other in both_ways(second.token) {
            let said = mean_the_same(schema, text, one, other);
            ensure(said == expected, || format!("{one:?} and {other:?} mean the same: product {said}"))?;
            tally.add(what, outcome);
        }
    }
    Ok(())
}
