//! Streams tried in every way: every short one of a few bytes, cut everywhere; some with every byte at every place; and
//! messages on either side of the limits.

use std::iter::repeat;

use generate::streams::StreamCase;
use generate::Random;
use harness::{Check, Tally};
use windosprio::limits::MESSAGE_BYTES;

use super::compare_cut;

/// Of these bytes every stream of up to so many is tried, with a buffer for some of them and for all.
const ALPHABET: &[u8] = b"[]{}\"\\1, \0";
const SHORT: usize = 5;
const SHORT_LENT: [usize; 2] = [2, SHORT];

/// Each is cut at every place and at every two, lent every number of bytes, and tried with every byte at every place.
const STREAMS: [&[u8]; 12] = [
    b"",
    b" {\"a\":[1,{}]}\r\n\t[] ",
    b"[-1.50e+07,0E-0,-0]{}",
    b"[true,false,null]",
    b"{\"\\uD83D\\uDE00\\n\":\"\\u00e9\\\\\"}",
    b"[\"\xC2\x80\xE0\xA0\x80\xED\x9F\xBF\"]",
    b"[\"\xEF\xBF\xBF\xF0\x90\x80\x80\xF1\x80\x80\x80\xF4\x8F\xBF\xBF\"]",
    b"[][][]{}",
    b"[1}][]\xFF[2]",
    b"[\"\0[] x [] \x1F{}",
    b"[\"\\uD83Dx\"]\x01[\"\\uDC00\"]",
    b"{\"a\" :1 ,\"b\": nul",
];

/// What may be lent, on either side of each limit.
const LENT: [usize; 7] = [0, 1, 2, MESSAGE_BYTES - 1, MESSAGE_BYTES, MESSAGE_BYTES + 1, 20_000];

pub fn compare(tally: &mut Tally) -> Check {
    compare_short(tally)?;
    for stream in STREAMS {
        cut_everywhere(stream, tally)?;
        lend_everything(stream, tally)?;
        put_everywhere(stream, tally)?;
    }
    LENT.into_iter().try_for_each(|lent| compare_limit(lent, tally))?;
    compare_levels(tally)
}

/// Cuts a stream at places and compares it.
fn try_cut(stream: &[u8], cuts: &[usize], lent: usize, tally: &mut Tally) -> Check {
    compare_cut(&mut Random::new(1), stream, cuts, lent)
        .map_err(|reason| format!("{reason}\n{lent} bytes lent, stream of {}: {}", stream.len(), shown(stream)))?;
    super::count(&StreamCase { bytes: stream.to_vec(), lent }, tally);
    Ok(())
}

fn shown(stream: &[u8]) -> String {
    stream[..stream.len().min(100)].escape_ascii().to_string()
}

fn compare_short(tally: &mut Tally) -> Check {
    for length in 0..=SHORT {
        for number in 0..ALPHABET.len().pow(length as u32) {
            let places = (0..length as u32).map(|place| number / ALPHABET.len().pow(place) % ALPHABET.len());
            let stream: Vec<_> = places.map(|place| ALPHABET[place]).collect();
            for set in 0..1 << length.saturating_sub(1) {
                let cuts: Vec<_> = (1..length).filter(|cut| set >> (cut - 1) & 1 == 1).collect();
                SHORT_LENT.into_iter().try_for_each(|lent| try_cut(&stream, &cuts, lent, tally))?;
            }
        }
    }
    Ok(())
}

/// At every place, at every two (the same twice makes an empty piece), and at all.
fn cut_everywhere(stream: &[u8], tally: &mut Tally) -> Check {
    for first in 0..=stream.len() {
        try_cut(stream, &[first], MESSAGE_BYTES, tally)?;
        for second in first..=stream.len() {
            try_cut(stream, &[first, second], stream.len(), tally)?;
        }
    }
    try_cut(stream, &all_cuts(stream), MESSAGE_BYTES, tally)
}

fn lend_everything(stream: &[u8], tally: &mut Tally) -> Check {
    for lent in 0..=stream.len() + 1 {
        try_cut(stream, &[], lent, tally)?;
        try_cut(stream, &all_cuts(stream), lent, tally)?;
    }
    Ok(())
}

/// Every byte, inserted at every place and in the place of every byte.
fn put_everywhere(stream: &[u8], tally: &mut Tally) -> Check {
    for place in 0..=stream.len() {
        for byte in 0..=u8::MAX {
            let (before, after) = stream.split_at(place);
            let inserted = [before, &[byte], after].concat();
            try_cut(&inserted, &all_cuts(&inserted), inserted.len(), tally)?;
            try_cut(&inserted, &[], place, tally)?;
            if let [_, after @ ..] = after {
                try_cut(&[before, &[byte], after].concat(), &[place], stream.len(), tally)?;
            }
        }
    }
    Ok(())
}

fn all_cuts(stream: &[u8]) -> Vec<usize> {
    (1..stream.len()).collect()
}

/// Messages about as long as what is lent allows, and every byte after one that is as long and still open.
fn compare_limit(lent: usize, tally: &mut Tally) -> Check {
    let limit = lent.min(MESSAGE_BYTES);
    for length in limit.saturating_sub(2)..limit + 3 {
        for stream in messages(length) {
            let stream = [&stream[..], b" []\0[] "].concat();
            for cuts in [&[][..], &[limit.saturating_sub(1)], &[limit], &[limit, limit + 1]] {
                try_cut(&stream, cuts, lent, tally)?;
            }
        }
    }
    for byte in 0..=u8::MAX {
        let open: Vec<_> = b"[".iter().chain(repeat(&b' ')).take(limit).copied().collect();
        let stream = [&open[..], &[byte], b"[]\xFF[]"].concat();
        try_cut(&stream, &[limit], lent, tally)?;
        try_cut(&stream, &[], lent, tally)?;
    }
    Ok(())
}

/// Of so many bytes: blanks, a string, an escape near the end, a number, half a character near the end.
fn messages(length: usize) -> Vec<Vec<u8>> {
    let parts: [[&[u8]; 3]; 5] = [
        [b"{", b" ", b"}"],
        [b"[\"", b"x", b"\"]"],
        [b"[\"", b"x", b"\\uD83D\\uDE00\"]"],
        [b"[1", b"0", b"]"],
        [b"{\"", b"k", b"\":\"\xF0\x9F\x98\x80\"}"],
    ];
    let whole = |[start, fill, end]: [&[u8]; 3]| {
        let filled = length.checked_sub(start.len() + end.len())?;
        Some([start, &fill.repeat(filled), end].concat())
    };
    parts.into_iter().filter_map(whole).collect()
}

/// Brackets at the limit of levels and over it, every byte after them.
fn compare_levels(tally: &mut Tally) -> Check {
    for open in [&b"["[..], b"{\"\":", b"[{\"\":"] {
        let brackets = open.iter().filter(|byte| b"[{".contains(byte)).count();
        for levels in [30, 31, 32, 33] {
            let begun = open.repeat(levels / brackets);
            for byte in 0..=u8::MAX {
                let stream = [&begun[..], &[byte], b"]\0[]"].concat();
                try_cut(&stream, &[], MESSAGE_BYTES, tally)?;
                try_cut(&stream, &[begun.len() - 1, begun.len()], stream.len(), tally)?;
            }
        }
    }
    Ok(())
}
