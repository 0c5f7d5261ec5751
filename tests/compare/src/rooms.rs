//! How many words to lend: rooms of every kind beside what is needed.

use generate::Random;

/// How a room lies to what is needed.
pub const KINDS: [&str; 7] = ["no word", "under one", "too few", "too few and odd", "exact", "more", "more and odd"];

/// Words needed, in units of a row or a record.
#[derive(Clone, Copy, Debug)]
pub struct Need {
    pub words: usize,
    pub unit: usize,
}

impl Need {
    /// Rooms on either side of the need, and hardly any.
    pub fn every_room(self) -> Vec<usize> {
        let Need { words, unit } = self;
        let less = |by: usize| words.saturating_sub(by);
        let mut rooms = vec![0, 1, unit - 1, unit, unit + 1, words / 2, words, words + unit, words + 5 * unit + 3];
        rooms.extend((1..=unit).flat_map(|by| [less(by), words + by]));
        rooms.sort();
        rooms.dedup();
        rooms
    }

    pub fn any_room(self, random: &mut Random) -> usize {
        match random.below(4) {
            0 => random.below(self.words + self.unit),
            1 => self.words + random.below(10 * self.unit),
            _ => *random.pick(&self.every_room()),
        }
    }

    pub fn kind(self, room: usize) -> &'static str {
        let Need { words, unit } = self;
        let odd = !room.is_multiple_of(unit);
        match room {
            0 if words > 0 => KINDS[0],
            _ if room < words && room < unit => KINDS[1],
            _ if room < words && !odd => KINDS[2],
            _ if room < words => KINDS[3],
            _ if room == words => KINDS[4],
            _ if !odd => KINDS[5],
            _ => KINDS[6],
        }
    }
}

#[cfg(test)]
mod tests {
    use super::*;

    #[test]
    fn rooms_of_every_kind_are_drawn() {
        let need = Need { words: 40, unit: 8 };
        let mut random = Random::new(1);
        for kind in KINDS {
            assert!(need.every_room().into_iter().any(|room| need.kind(room) == kind), "{kind}");
            assert!((0..200).any(|_| need.kind(need.any_room(&mut random)) == kind), "{kind}");
        }
        let nothing = Need { words: 0, unit: 4 };
        assert!(nothing.every_room().iter().all(|&room| nothing.kind(room) != KINDS[0]));
    }
}
