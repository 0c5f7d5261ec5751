//! Records written into lent words.

/// Words of one record: start, end, type reference, 1 if array.
const RECORD: usize = 4;

/// Counts every record, and keeps those that there is room for.
pub struct Records<'a> {
    lent: &'a mut [u32],
    count: usize,
}

impl<'a> Records<'a> {
    pub fn new(lent: &'a mut [u32]) -> Self {
        Records { lent, count: 0 }
    }

    pub fn push(&mut self, record: [u32; RECORD]) {
        if let Some(words) = self.lent.chunks_exact_mut(RECORD).nth(self.count) {
            words.copy_from_slice(&record);
        }
        self.count += 1;
    }

    pub fn count(&self) -> usize {
        self.count
    }

    pub fn all_fit(&self) -> bool {
        self.count <= self.lent.len() / RECORD
    }
}
