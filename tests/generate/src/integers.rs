//! Integers at the edges of the built-in types' ranges.

use crate::Random;

/// The least and greatest value of an integer type, 3 to 12.
pub fn range(built_in: u32) -> (i128, i128) {
    let bits = [64, 8, 16, 32, 64, 8, 16, 32, 64, 64][built_in as usize - 3];
    match built_in {
        3..=7 => (-(1 << (bits - 1)), (1 << (bits - 1)) - 1),
        _ => (0, (1 << bits) - 1),
    }
}

/// A token at or beside an end of some range, or one that looks like it where digits are dropped or wrapped.
pub fn beside_an_end(random: &mut Random) -> String {
    let (low, high) = range(random.between(3, 12) as u32);
    let end = *random.pick(&[low, high]) + random.between(0, 2) as i128 - 1;
    let wrap = *random.pick(&[1_i128 << 8, 1 << 16, 1 << 32, 1 << 63, 1 << 64]);
    match random.below(8) {
        0 => (end * 10 + end.signum() * random.below(10) as i128).to_string(),
        1 => (end / 10).to_string(),
        2 => (end + wrap).to_string(),
        3 => (end - wrap).to_string(),
        4 => format!("{}{}", if random.one_in(2) { "-" } else { "" }, end.unsigned_abs()),
        5 => format!("{}1{}", if random.one_in(2) { "-" } else { "" }, "0".repeat(random.below(60))),
        6 => random.pick(&["0", "-0", "1", "-1"]).to_string(),
        _ => end.to_string(),
    }
}
