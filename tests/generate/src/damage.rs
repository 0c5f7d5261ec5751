//! Bytes damaged at one place.

use crate::Random;

/// Bytes that matter to one of the two texts.
const TELLING: &[u8] =
    b"{}[]:,\"'\\#*-+.eE0159tfnuDd8c/ \t\r\n\x00\x0B\x1F\x7E\x7F\x80\x9F\xA0\xBF\xC0\xC2\xE0\xED\xEF\xF0\xF4\xF5\xFF";

/// Cuts the bytes off, or changes, inserts, removes or doubles some.
pub fn damage(random: &mut Random, bytes: &mut Vec<u8>) {
    let place = random.below(bytes.len() + 1);
    if place == bytes.len() {
        return bytes.push(telling_byte(random));
    }
    match random.below(8) {
        0 => bytes.truncate(place),
        1 | 2 => bytes[place] = telling_byte(random),
        3 => bytes[place] ^= 1 << random.below(8),
        4 => bytes.insert(place, telling_byte(random)),
        5 => drop(bytes.remove(place)),
        6 => bytes.insert(place, bytes[place]),
        _ => double_slice(random, bytes, place),
    }
}

/// Most often a byte that matters to a text.
pub fn telling_byte(random: &mut Random) -> u8 {
    match random.one_in(4) {
        true => random.byte(),
        false => *random.pick(TELLING),
    }
}

fn double_slice(random: &mut Random, bytes: &mut Vec<u8>, start: usize) {
    let end = random.between(start, bytes.len().min(start + 40));
    let slice = bytes[start..end].to_vec();
    bytes.splice(start..start, slice);
}
