//! The words of a stream's state: which ones stand for which place in a message, by docs/REFERENCE.md (Streams), and that
//! any words do as those that they stand for.

use generate::streams::{self, StreamCase};
use generate::Random;
use harness::{check_expected, ensure, for_each_round, Check, Rounds, Tally};
use windosprio::calls::{stream_feed, stream_start, StreamState};
use windosprio::limits::MESSAGE_BYTES;

use super::Reader;
use crate::lent::LentBytes;

pub const BETWEEN: StreamState = [0, 0, 0];
pub const SKIPPING: StreamState = [1, 0, 0];

/// The modes inside a message, and open brackets of at most 32 levels.
const MODES: std::ops::Range<u64> = 2..69;
const NESTS: std::ops::Range<u64> = 2..1 << 33;

pub fn is_inside(&[mode, nest, _]: &StreamState) -> bool {
    MODES.contains(&mode) && NESTS.contains(&nest)
}

/// The start of a message for each mode, from 2 up to the characters of strings.
const STARTS: [&[u8]; 25] = [
    // At a value, an element, after one, at a first key, at a key, at a colon.
    b"[1,",
    b"[",
    b"[1 ",
    b"{",
    b"{\"\":1,",
    b"{\"\"",
    // In a string and in a key.
    b"[\"",
    b"{\"",
    // In numbers.
    b"[-",
    b"[0",
    b"[1",
    b"[1.",
    b"[1.0",
    b"[1e",
    b"[1e+",
    b"[1e0",
    // In words.
    b"[n",
    b"[nu",
    b"[t",
    b"[tr",
    b"[f",
    b"[fa",
    b"[fal",
    b"[nul",
    b"[tru",
];

/// The starts of characters, for the modes from 27 after a string's quote, from 48 after a key's.
const CHARACTERS: [&[u8]; 21] = [
    b"\\",
    b"\\uD83D",
    b"\\uD83D\\",
    b"\\u",
    b"\\u0",
    b"\\uD",
    b"\\u00",
    b"\\uD8",
    b"\\u00e",
    b"\\uD83",
    b"\\uD83D\\u",
    b"\\uD83D\\uD",
    b"\\uD83D\\uDE",
    b"\\uD83D\\uDE0",
    b"\xC3",
    b"\xE1",
    b"\xE0",
    b"\xED",
    b"\xF1",
    b"\xF0",
    b"\xF4",
];

pub fn compare(rounds: Rounds, tally: &mut Tally) -> Check {
    tally.must_reach("words", ["between", "skipping", "inside"]);
    compare_words(tally)?;
    compare_full(tally)?;
    compare_resized(tally)?;
    for_each_round(rounds, |random, _| compare_any(random, tally))
}

/// Each start leaves the words that it should.
fn compare_words(tally: &mut Tally) -> Check {
    let of_strings = CHARACTERS.iter().map(|start| [b"[\"", *start].concat());
    let of_keys = CHARACTERS.iter().map(|start| [b"{\"", *start].concat());
    let starts = STARTS.iter().map(|start| start.to_vec()).chain(of_strings).chain(of_keys);
    for (mode, start) in MODES.zip(starts) {
        let nest = 0b10 | u64::from(start[0] == b'{');
        check_words(&start, [mode, nest, start.len() as u64])?;
        tally.pass();
    }
    check_words(b"", BETWEEN)?;
    check_words(b"x", SKIPPING)?;
    check_words(b"[fals", [26, 0b10, 5])?;
    // The open brackets, the outermost first below the leading 1.
    check_words(b"[{\"\":{\"\":[", [3, 0b1_0110, 10])?;
    check_words(&[b'['; 32], [3, 1 << 32, 32])?;
    check_words(&b"{\"\":".repeat(32), [2, (1 << 33) - 1, 128])
}

fn check_words(start: &[u8], expected: StreamState) -> Check {
    let mut state = stream_start();
    let mut rest = start;
    while !rest.is_empty() {
        rest = &rest[stream_feed(&mut state, &mut [0; 256], rest).taken..];
    }
    check_expected("the words", start, state, expected)
}

/// With as many bytes as the buffer has, or more, a message gets no further one.
fn compare_full(tally: &mut Tally) -> Check {
    for lent in [0, 1, 16, MESSAGE_BYTES, MESSAGE_BYTES + 9] {
        let limit = lent.min(MESSAGE_BYTES) as u64;
        for length in [limit, limit + 1, 1 << 32, u64::MAX] {
            for (byte, number, words) in [(b']', 22, SKIPPING), (b'x', 22, SKIPPING), (0xFF, 23, BETWEEN)] {
                let (mut state, mut buffer) = ([3, 2, length], vec![7; lent]);
                let fed = stream_feed(&mut state, &mut buffer, &[byte]);
                let got = (fed.number, fed.taken, fed.message_bytes, state);
                check_expected("with a full buffer", &[byte], got, (number, 1, 0, words))?;
                ensure(buffer.iter().all(|byte| *byte == 7), || "the buffer was written".into())?;
                tally.pass();
            }
        }
    }
    Ok(())
}

/// The limit of a byte is that of the call that reads it, whatever was lent before.
fn compare_resized(tally: &mut Tally) -> Check {
    let lent = [0, 1, 2, 3, 4, 5, MESSAGE_BYTES, MESSAGE_BYTES + 1];
    for (first, second) in lent.into_iter().flat_map(|first| lent.map(|second| (first, second))) {
        let (mut state, mut buffers) = (stream_start(), [vec![7; first], vec![7; second]]);
        let begun = stream_feed(&mut state, &mut buffers[0], b"[12").number;
        let ended = stream_feed(&mut state, &mut buffers[1], b"]");
        let expected = match (first, second) {
            (0..=2, _) => (22, 0, 0),
            (_, 0..=3) => (0, 22, 0),
            _ => (0, 0, 4),
        };
        let got = (begun, ended.number, ended.message_bytes);
        check_expected(&format!("{first} bytes lent, then {second}"), b"[12]", got, expected)?;
        let [.., second] = buffers;
        let written =
            second.iter().enumerate().all(|(i, byte)| *byte == if expected.2 == 4 && i == 3 { b']' } else { 7 });
        ensure(written, || "a byte but the one that was read was written".into())?;
        tally.pass();
    }
    Ok(())
}

/// Any words, in any cuts, do as the words that they stand for over the whole.
fn compare_any(random: &mut Random, tally: &mut Tally) -> Check {
    let StreamCase { bytes, lent } = streams::any(random);
    let words = any_words(random, lent);
    let (same, what) = match words {
        [0, ..] => (BETWEEN, "between"),
        words if is_inside(&words) => (words, "inside"),
        _ => (SKIPPING, "skipping"),
    };
    let garbage = random.byte();
    let cuts = streams::cuts(random, bytes.len());
    let cut = given(random, words, &streams::pieces(&bytes, &cuts), LentBytes::new(lent, garbage))?;
    let whole = given(random, same, &[&bytes], LentBytes::new(lent, garbage))?;
    check_expected(&format!("{words:?}, {lent} bytes lent, cut at {cuts:?}"), &bytes, cut, whole)?;
    tally.add("words", what);
    tally.pass();
    Ok(())
}

/// What is handed out, a message or a number; the words and the buffer at the end.
type Given = (Vec<Result<Vec<u8>, u32>>, StreamState, Vec<u8>);

fn given(random: &mut Random, state: StreamState, pieces: &[&[u8]], lent: LentBytes) -> Result<Given, String> {
    let mut reader = Reader { state, lent };
    let mut outputs = Vec::new();
    for piece in pieces {
        reader.read(random, piece, |fed, buffer| {
            match (fed.number, fed.message_bytes) {
                (0, 0) => {}
                (0, bytes) => outputs.push(Ok(buffer.get(..bytes).ok_or("a message over the buffer")?.to_vec())),
                (number, _) => outputs.push(Err(number)),
            }
            Ok(())
        })?;
    }
    let Reader { state, lent } = reader;
    // With no byte read, words stay for what they stood, but become those that a reader leaves.
    let normal = [BETWEEN, SKIPPING].contains(&state) || is_inside(&state);
    ensure(normal, || format!("the words {state:?} are left behind"))?;
    Ok((outputs, state, lent.items().to_vec()))
}

fn any_words(random: &mut Random, lent: usize) -> StreamState {
    let mode = match random.below(4) {
        0 => *random.pick(&[0, 1, MODES.end, u64::from(u32::MAX), 1 << 32 | 5, u64::MAX]),
        _ => random.below(MODES.end as usize + 3) as u64,
    };
    let nest = match random.below(4) {
        0 => *random.pick(&[0, 1, 2, 3, NESTS.end - 1, NESTS.end, u64::MAX]),
        1 => random.word() >> random.below(64),
        _ => random.word() % NESTS.end,
    };
    let length = match random.below(4) {
        0 => (lent + 2).saturating_sub(random.below(5)) as u64,
        1 => *random.pick(&[0, 1, MESSAGE_BYTES as u64, 1 << 32, u64::MAX]),
        2 => random.word(),
        _ => random.below(lent + 1) as u64,
    };
    [mode, nest, length]
}
