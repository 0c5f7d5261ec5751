//! Exact ranges of the integer types (docs/REFERENCE.md, Integers and Types).

use std::ops::RangeInclusive;

use crate::builtins::INT;

/// Of the types int, int8 .. int64, uint8 .. uint64 and size, in the order of their numbers.
static RANGES: [RangeInclusive<i128>; 10] = [
    i64::MIN as i128..=i64::MAX as i128,
    i8::MIN as i128..=i8::MAX as i128,
    i16::MIN as i128..=i16::MAX as i128,
    i32::MIN as i128..=i32::MAX as i128,
    i64::MIN as i128..=i64::MAX as i128,
    0..=u8::MAX as i128,
    0..=u16::MAX as i128,
    0..=u32::MAX as i128,
    0..=u64::MAX as i128,
    0..=u64::MAX as i128,
];

/// Digits that no range needs more of; an integer token has no leading zeros.
const MOST_DIGITS: usize = 20;

/// Whether an integer token's exact value lies in the range of the type `built_in`, 3 to 12.
pub fn in_range(token: &[u8], built_in: u32) -> bool {
    let range = &RANGES[(built_in - INT) as usize];
    value(token).is_some_and(|value| range.contains(&value))
}

/// The value, unless it has more digits than any range.
fn value(token: &[u8]) -> Option<i128> {
    let (digits, sign) = match token.strip_prefix(b"-") {
        Some(digits) => (digits, -1),
        None => (token, 1),
    };
    if digits.len() > MOST_DIGITS {
        return None;
    }
    Some(sign * digits.iter().fold(0, |value, &digit| value * 10 + i128::from(digit - b'0')))
}

#[cfg(test)]
mod tests {
    use super::*;

    #[test]
    fn each_range_ends_exactly_where_it_should() {
        for (built_in, range) in (INT..).zip(&RANGES) {
            for (value, fits) in [
                (*range.start(), true),
                (*range.start() - 1, false),
                (*range.end(), true),
                (*range.end() + 1, false),
                (0, true),
            ] {
                assert_eq!(in_range(value.to_string().as_bytes(), built_in), fits, "{value} at {built_in}");
            }
            assert!(in_range(b"-0", built_in));
            assert_eq!(in_range(b"-1", built_in), built_in <= 7);
        }
    }

    #[test]
    fn long_numbers_do_not_wrap() {
        let wrapping = ["18446744073709551623", "340282366920938463463374607431768211463", "-18446744073709551609"];
        for token in wrapping.into_iter().map(str::to_string).chain([format!("1{}", "0".repeat(5_000))]) {
            assert!((INT..=12).all(|built_in| !in_range(token.as_bytes(), built_in)), "{token}");
        }
    }
}
