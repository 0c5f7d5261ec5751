//! Streams of messages, whole and at fault, with blanks, stray and clearing bytes between and inside them; and places
//! to cut them at.

use crate::damage::{damage, telling_byte};
use crate::print::Dialect;
use crate::texts::{self, most_levels};
use crate::Random;

/// The most bytes of a message, whatever is lent.
const MOST_BYTES: usize = 16_384;
/// Bytes that clear, and bytes beside them that don't.
const CLEARING: [u8; 8] = [0x00, 0x01, 0x08, 0x0B, 0x0C, 0x0E, 0x1F, 0xFF];
const BESIDE: [u8; 7] = [0x09, 0x0A, 0x0D, 0x20, 0x7F, 0x80, 0xFE];
/// Parts of a stream.
const MOST_PARTS: usize = 9;

/// A stream, and how many bytes are lent for a message of it.
#[derive(Clone, Debug)]
pub struct StreamCase {
    pub bytes: Vec<u8>,
    pub lent: usize,
}

/// A stream of any parts. What is lent is often beside the length of one of them.
pub fn any(random: &mut Random) -> StreamCase {
    let parts: Vec<_> = (0..random.below(MOST_PARTS + 1)).map(|_| part(random)).collect();
    let near = parts.iter().map(Vec::len).max().unwrap_or(0);
    let lent = lent(random, near);
    let mut bytes = parts.concat();
    if random.one_in(4) {
        damage(random, &mut bytes);
    }
    StreamCase { bytes, lent }
}

/// A stream with a message about as long as there may be, and something after it.
pub fn long(random: &mut Random) -> StreamCase {
    let length = (MOST_BYTES + 3).saturating_sub(random.below(6));
    let mut bytes = long_message(random, length);
    bytes.extend(part(random));
    bytes.extend(part(random));
    StreamCase { bytes, lent: *random.pick(&[MOST_BYTES - 1, MOST_BYTES, MOST_BYTES + 1, 2 * MOST_BYTES]) }
}

/// The places where a stream of so many bytes is cut, in order; a place that comes twice makes an empty piece.
pub fn cuts(random: &mut Random, length: usize) -> Vec<usize> {
    let mut cuts: Vec<_> = match random.below(6) {
        0 => Vec::new(),
        1 if length <= 2_000 => (0..=length).collect(),
        _ => (0..random.between(1, 6)).map(|_| random.below(length + 1)).collect(),
    };
    if let Some(&again) = cuts.first().filter(|_| random.one_in(3)) {
        cuts.push(again);
    }
    cuts.sort_unstable();
    cuts
}

/// The pieces of a stream between the places where it is cut.
pub fn pieces<'a>(stream: &'a [u8], cuts: &[usize]) -> Vec<&'a [u8]> {
    let starts = [0].into_iter().chain(cuts.iter().copied());
    let ends = cuts.iter().copied().chain([stream.len()]);
    starts.zip(ends).map(|(start, end)| &stream[start..end]).collect()
}

fn part(random: &mut Random) -> Vec<u8> {
    let levels = most_levels(Dialect::Message);
    match random.below(12) {
        0..=2 => whole(random),
        3 => texts::any(random, Dialect::Message, levels).bytes,
        4 => texts::truncated(random, Dialect::Message, levels).bytes,
        5 => texts::deep(random, Dialect::Message, levels).bytes,
        6 => texts::fault(random, Dialect::Message, levels).bytes,
        7 => vec![*random.pick(&CLEARING)],
        8 => vec![*random.pick(&BESIDE)],
        9 => cleared(random),
        10 => b" \n"[..random.below(3)].to_vec(),
        _ => (0..random.below(4)).map(|_| telling_byte(random)).collect(),
    }
}

/// A message.
fn whole(random: &mut Random) -> Vec<u8> {
    let levels = random.between(2, 6);
    let text = match random.one_in(8) {
        true => texts::at_the_limit(random, Dialect::Message, most_levels(Dialect::Message)).bytes,
        false => texts::whole(random, Dialect::Message, levels).bytes,
    };
    match text.trim_ascii().first() {
        Some(b'{' | b'[') => text,
        _ => [b"[", &text[..], b"]"].concat(),
    }
}

/// A message with a clearing byte, or one beside those, somewhere in it.
fn cleared(random: &mut Random) -> Vec<u8> {
    let mut bytes = whole(random);
    let byte = if random.one_in(3) { *random.pick(&BESIDE) } else { *random.pick(&CLEARING) };
    let place = random.below(bytes.len() + 1);
    bytes.insert(place, byte);
    bytes
}

/// A message of so many bytes, of one long string or of many blanks.
fn long_message(random: &mut Random, length: usize) -> Vec<u8> {
    let (start, end) = if random.one_in(2) { (&b"[\""[..], &b"\"]"[..]) } else { (&b"{"[..], &b"}"[..]) };
    let fill = if start.len() == 2 { b'x' } else { b' ' };
    [start, &vec![fill; length - start.len() - end.len()], end].concat()
}

fn lent(random: &mut Random, near: usize) -> usize {
    match random.below(6) {
        0 => *random.pick(&[0, 1, 2, 3]),
        1 => *random.pick(&[MOST_BYTES - 1, MOST_BYTES, MOST_BYTES + 1, 20_000]),
        2 | 3 => (near + 2).saturating_sub(random.below(5)),
        4 => random.below(64),
        _ => MOST_BYTES,
    }
}

#[cfg(test)]
mod tests {
    use super::*;

    #[test]
    fn pieces_are_the_stream_again() {
        let mut random = Random::new(3);
        for _ in 0..200 {
            let StreamCase { bytes, .. } = any(&mut random);
            let cuts = cuts(&mut random, bytes.len());
            let pieces = pieces(&bytes, &cuts);
            assert_eq!((pieces.len(), pieces.concat()), (cuts.len() + 1, bytes));
        }
        assert_eq!(pieces(b"abc", &[0, 2, 2]), [&b""[..], b"ab", b"", b"c"]);
    }

    #[test]
    fn long_streams_are_about_as_long_as_a_message_may_be() {
        let mut random = Random::new(4);
        assert!((0..50).all(|_| long(&mut random).bytes.len() >= MOST_BYTES - 2));
    }
}
