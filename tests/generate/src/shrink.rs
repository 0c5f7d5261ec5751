//! The smallest failing input, found by leaving pieces out.

use std::ops::Range;

/// Bytes tried in all, after which what is left is small enough.
const MOST_TRIED: usize = 1 << 29;

/// A part of `bytes` that still fails, from which no single byte can be left out, unless that takes too long to find.
pub fn smallest(bytes: &[u8], fails: impl FnMut(&[u8]) -> bool) -> Vec<u8> {
    let mut shrinking = Shrinking { kept: bytes.to_vec(), tried: 0, fails };
    while shrinking.leave_out(bracketed) || shrinking.leave_out(items) {}
    let mut size = bytes.len().max(1);
    loop {
        let left_out = shrinking.leave_out(|bytes| equal_pieces(bytes, size));
        if size == 1 && !left_out || shrinking.tried >= MOST_TRIED {
            return shrinking.kept;
        }
        size = (size / 2).max(1);
    }
}

struct Shrinking<F> {
    kept: Vec<u8>,
    tried: usize,
    fails: F,
}

impl<F: FnMut(&[u8]) -> bool> Shrinking<F> {
    /// Leaves each of the pieces out where what is left still fails; says whether any was.
    fn leave_out(&mut self, pieces: impl Fn(&[u8]) -> Vec<Range<usize>>) -> bool {
        let before = self.kept.len();
        let mut left = pieces(&self.kept);
        left.reverse();
        while let Some(piece) = left.pop().filter(|_| self.tried < MOST_TRIED) {
            let without = [&self.kept[..piece.start], &self.kept[piece.end..]].concat();
            self.tried += without.len();
            if (self.fails)(&without) {
                self.kept = without;
                left = pieces(&self.kept);
                left.retain(|other| other.start >= piece.start);
                left.reverse();
            }
        }
        self.kept.len() < before
    }
}

/// Pieces of one size that follow each other.
fn equal_pieces(bytes: &[u8], size: usize) -> Vec<Range<usize>> {
    (0..bytes.len()).step_by(size).map(|start| start..bytes.len().min(start + size)).collect()
}

/// From each opening bracket to its closing one and a comma after it; the outer before the inner.
fn bracketed(bytes: &[u8]) -> Vec<Range<usize>> {
    let mut open = Vec::new();
    let mut pieces = Vec::new();
    for (place, byte) in bytes.iter().enumerate() {
        match byte {
            b'{' | b'[' => open.push(place),
            b'}' | b']' => {
                let comma = bytes.get(place + 1) == Some(&b',');
                pieces.extend(open.pop().map(|start| start..place + 1 + usize::from(comma)));
            }
            _ => {}
        }
    }
    pieces.sort_by_key(|piece| piece.start);
    pieces
}

/// What stands between brackets and commas, each piece with a comma if there is one beside it.
fn items(bytes: &[u8]) -> Vec<Range<usize>> {
    let marks: Vec<usize> = (0..bytes.len()).filter(|&place| b"{}[],".contains(&bytes[place])).collect();
    let between = |pair: &[usize]| match (bytes[pair[0]], bytes[pair[1]]) {
        (_, b',') => pair[0] + 1..pair[1] + 1,
        (b',', _) => pair[0]..pair[1],
        _ => pair[0] + 1..pair[1],
    };
    marks.windows(2).map(between).filter(|piece| !piece.is_empty()).collect()
}

/// Words of a row.
const ROW: usize = 8;

/// A table that still fails, from which no single row can be left out, with as many words 0 as may be.
pub fn smallest_table(words: &[u32], mut fails: impl FnMut(&[u32]) -> bool) -> Vec<u32> {
    let mut kept = words.to_vec();
    loop {
        let before = kept.len();
        for row in (0..before.div_ceil(ROW)).rev() {
            let without = [closed_up, left_out].map(|without| without(&kept, row));
            kept = without.into_iter().find(|table| fails(table)).unwrap_or(kept);
        }
        if kept.len() == before {
            break;
        }
    }
    for place in 0..kept.len() {
        let word = std::mem::replace(&mut kept[place], 0);
        if !fails(&kept) {
            kept[place] = word;
        }
    }
    kept
}

/// The table without a row.
fn left_out(words: &[u32], row: usize) -> Vec<u32> {
    let end = words.len().min((row + 1) * ROW);
    [&words[..row * ROW], &words[end..]].concat()
}

/// The table without a row, as if its definition had one child less: counts and links are those of the rows left.
fn closed_up(words: &[u32], row: usize) -> Vec<u32> {
    let (rows, rest) = words.as_chunks::<ROW>();
    let mut rows = rows.to_vec();
    if row >= rows.len() {
        return left_out(words, row);
    }
    let child = rows.remove(row)[0];
    let owner = rows[..row].iter_mut().rev().find_map(|owner| Some((count_place(owner[0], child)?, owner)));
    if let Some((place, owner)) = owner {
        owner[place] = owner[place].saturating_sub(1);
    }
    for linking in &mut rows {
        for &(place, first) in link_places(linking[0]) {
            let beyond = linking[place].checked_sub(first).is_some_and(|linked| linked as usize > row);
            linking[place] -= u32::from(beyond);
        }
    }
    [rows.as_flattened(), rest].concat()
}

/// Where a definition of one kind counts its children of another.
fn count_place(owner: u32, child: u32) -> Option<usize> {
    match (owner, child) {
        (1, 2) | (3, 4) | (7, 8) => Some(3),
        (5, 6) => Some(4),
        _ => None,
    }
}

/// Where a row of a kind has links and references, and which of them is to the first row.
fn link_places(kind: u32) -> &'static [(usize, u32)] {
    match kind {
        3 => &[(4, 1)],
        4 | 8 => &[(3, 16)],
        5 => &[(3, 1), (5, 1)],
        6 => &[(3, 1)],
        9 => &[(3, 1), (5, 16)],
        _ => &[],
    }
}

#[cfg(test)]
mod tests {
    use super::*;

    #[test]
    fn nothing_can_be_left_out_of_the_smallest() {
        let fails = |bytes: &[u8]| bytes.contains(&b'{') && bytes.ends_with(b"}");
        assert_eq!(smallest(b"[{'a':'b'},{'c':{}}", fails), b"{}");
        assert_eq!(smallest(b"", |_| true), b"");
        assert_eq!(smallest(b"abcdefg", |bytes| bytes.contains(&b'c') && bytes.contains(&b'f')), b"cf");
    }

    #[test]
    fn pieces_are_those_of_the_structure() {
        let pieces =
            |pieces: Vec<Range<usize>>| -> Vec<&str> { pieces.into_iter().map(|piece| &TEXT[piece]).collect() };
        const TEXT: &str = "{a:[b,c]}{d,e},f";
        assert_eq!(pieces(bracketed(TEXT.as_bytes())), ["{a:[b,c]}", "[b,c]", "{d,e},"]);
        assert_eq!(pieces(items(TEXT.as_bytes())), ["a:", "b,", ",c", "d,", ",e", ","]);
        assert_eq!(pieces(equal_pieces(TEXT.as_bytes(), 6)), ["{a:[b,", "c]}{d,", "e},f"]);
    }

    #[test]
    fn a_smallest_table_keeps_what_makes_it_fail() {
        let words: Vec<u32> = (101..=125).collect();
        assert_eq!(smallest_table(&words, |table| table.contains(&110)), [0, 110, 0, 0, 0, 0, 0, 0]);
        assert_eq!(smallest_table(&words, |table| table.contains(&125)), [125]);
    }

    #[test]
    fn a_table_closed_up_keeps_its_links() {
        let rows = [[3, 5, 1, 2, 0, 0, 0, 0], [4, 6, 1, 1, 0, 0, 0, 0], [4, 7, 1, 19, 0, 0, 0, 0]];
        let others = [[3, 8, 1, 0, 1, 0, 0, 0], [9, 9, 1, 4, 0, 19, 0, 0]];
        let words = [rows.as_flattened(), others.as_flattened()].concat();
        let closed = [[3, 5, 1, 1, 0, 0, 0, 0], [4, 7, 1, 18, 0, 0, 0, 0], [3, 8, 1, 0, 1, 0, 0, 0]];
        let last = [9, 9, 1, 3, 0, 18, 0, 0];
        assert_eq!(closed_up(&words, 1), [closed.as_flattened(), &last].concat());
    }
}
