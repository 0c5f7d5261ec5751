//! Texts to nodes, and questions about their tokens. `schema` says which of the two texts is meant.

mod exports {
    extern "C" {
        pub fn windosprio_probe_text(
            text: *const u8,
            length: usize,
            schema: bool,
            nodes: *mut u32,
            words: usize,
            found: *mut usize,
        ) -> u32;

        pub fn windosprio_probe_keys(
            text: *const u8,
            length: usize,
            schema: bool,
            nodes: *const u32,
            words: usize,
            count: usize,
        ) -> usize;

        pub fn windosprio_probe_range(
            text: *const u8,
            length: usize,
            start: usize,
            end: usize,
            low: u64,
            high: u64,
        ) -> bool;

        pub fn windosprio_probe_means(
            text: *const u8,
            length: usize,
            schema: bool,
            start: usize,
            end: usize,
            plain: bool,
            name: *const u8,
            name_length: usize,
        ) -> bool;

        pub fn windosprio_probe_same(
            text: *const u8,
            length: usize,
            schema: bool,
            first_start: usize,
            first_end: usize,
            first_plain: bool,
            second_start: usize,
            second_end: usize,
            second_plain: bool,
        ) -> bool;
    }
}

/// Words of one node: kind, start, end, and the number of the first node after its subtree.
pub const NODE: usize = 4;

/// Words that hold all nodes of any text of so many bytes.
pub fn words_for(bytes: usize) -> usize {
    bytes.div_ceil(2) * NODE
}

#[derive(Clone, Copy, Debug, PartialEq, Eq)]
pub enum Verdict {
    /// The number of nodes.
    Whole(usize),
    /// The place of the first byte that fits nothing.
    Fault(usize),
    /// The place of a bracket that opens a level too many.
    Deep(usize),
    /// 2^31 bytes or more.
    TooLong,
}

/// Reads a whole text and writes those nodes that fit into the words lent.
pub fn read(schema: bool, text: &[u8], lent: &mut [u32]) -> Verdict {
    let mut found = 0;
    // SAFETY: each pointer goes with the length of its slice, which lives and isn't used otherwise during the call.
    let verdict = unsafe {
        exports::windosprio_probe_text(text.as_ptr(), text.len(), schema, lent.as_mut_ptr(), lent.len(), &mut found)
    };
    match verdict {
        0 => Verdict::Whole(found),
        1 => Verdict::Fault(found),
        2 => Verdict::Deep(found),
        3 => Verdict::TooLong,
        other => panic!("the product has no verdict {other}"),
    }
}

/// The place of the earliest key, in the objects of the first `count` nodes, that repeats one before it.
pub fn first_repeat(schema: bool, text: &[u8], nodes: &[u32], count: usize) -> Option<usize> {
    // SAFETY: each pointer goes with the length of its slice, which lives during the call.
    let place = unsafe {
        exports::windosprio_probe_keys(text.as_ptr(), text.len(), schema, nodes.as_ptr(), nodes.len(), count)
    };
    (place < text.len()).then_some(place)
}

/// Whether the integer token from `start` to `end` lies from -`low` to `high`.
pub fn in_range(text: &[u8], start: usize, end: usize, low: u64, high: u64) -> bool {
    // SAFETY: the pointer goes with the length of its slice, which lives during the call.
    unsafe { exports::windosprio_probe_range(text.as_ptr(), text.len(), start, end, low, high) }
}

/// A string or key of a text, its quotes included. Plain where its bytes are taken for its code points.
#[derive(Clone, Copy, Debug, PartialEq, Eq)]
pub struct Token {
    pub start: usize,
    pub end: usize,
    pub plain: bool,
}

/// Whether the code points of a token are the bytes of `name`.
pub fn means(schema: bool, text: &[u8], token: Token, name: &[u8]) -> bool {
    let Token { start, end, plain } = token;
    // SAFETY: each pointer goes with the length of its slice, which lives during the call.
    unsafe {
        exports::windosprio_probe_means(text.as_ptr(), text.len(), schema, start, end, plain, name.as_ptr(), name.len())
    }
}

/// Whether two tokens of a text mean the same.
pub fn mean_the_same(schema: bool, text: &[u8], first: Token, second: Token) -> bool {
    // SAFETY: the pointer goes with the length of its slice, which lives during the call.
    unsafe {
        exports::windosprio_probe_same(
            text.as_ptr(),
            text.len(),
            schema,
            first.start,
            first.end,
            first.plain,
            second.start,
            second.end,
            second.plain,
        )
    }
}

#[cfg(test)]
mod tests {
    use super::*;

    #[test]
    fn a_small_text_is_read_and_asked() {
        let text = br#"{"a":-7,"\u0061":300}"#;
        let mut words = vec![0; words_for(text.len())];
        assert_eq!(read(false, text, &mut words), Verdict::Whole(5));
        assert_eq!(words[..8], [9, 0, 21, 5, 10, 1, 4, 3]);
        assert_eq!(first_repeat(false, text, &words, 5), Some(8));
        assert_eq!(first_repeat(false, text, &words, 0), None);
        assert!(in_range(text, 5, 7, 7, 0) && !in_range(text, 17, 20, 0, 299));
        let (plain, coded) = (Token { start: 1, end: 4, plain: true }, Token { start: 8, end: 16, plain: false });
        assert!(means(false, text, plain, b"a") && !means(false, text, coded, b"b"));
        assert!(mean_the_same(false, text, plain, coded));
    }

    #[test]
    fn each_verdict_is_told_apart() {
        assert_eq!(read(false, b"[x", &mut []), Verdict::Fault(1));
        assert_eq!(read(false, &[b'['; 40], &mut []), Verdict::Deep(32));
        assert_eq!(read(true, b"", &mut []), Verdict::Whole(0));
    }
}
