//! Which numbers to aim at.

use std::ops::Range;

/// None, one or two of the numbers, another choice each round until all were taken.
pub fn in_turn(numbers: Range<u32>, round: u64) -> Vec<u32> {
    let singles = numbers.clone().map(|number| vec![number]);
    let pairs = numbers.clone().flat_map(|low| (low + 1..numbers.end).map(move |high| vec![low, high]));
    let choices: Vec<_> = [vec![]].into_iter().chain(singles).chain(pairs).collect();
    choices[(round % choices.len() as u64) as usize].clone()
}

#[cfg(test)]
mod tests {
    use super::*;

    #[test]
    fn every_single_number_and_every_pair_has_its_turn() {
        let turns: Vec<_> = (0..8).map(|round| in_turn(5..8, round)).collect();
        assert_eq!(turns[..4], [vec![], vec![5], vec![6], vec![7]]);
        assert_eq!(turns[4..], [vec![5, 6], vec![5, 7], vec![6, 7], vec![]]);
    }
}
