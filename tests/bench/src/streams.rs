//! Messages taken out of a stream that comes in pieces: alone, and each checked, beside the check of messages that come
//! a line each.

use generate::schemas::Schema;
use windosprio::calls::{stream_feed, stream_start};
use windosprio::limits::MESSAGE_BYTES;

use crate::calls::check_task;
use crate::framing::{Framing, Said};
use crate::inputs::Inputs;
use crate::line::{measured, Line, Task, Way};

const MESSAGES: usize = 5_000;
/// Messages of a stream.
const TOGETHER: usize = 16;
const PIECE: usize = 4_096;
/// How often each batch is run in each way.
const REPETITIONS: usize = 25;
const CHECK_REPETITIONS: usize = 5;

pub fn lines(inputs: &Inputs) -> Vec<Line> {
    let streams: Vec<_> = inputs.messages[..MESSAGES].chunks(TOGETHER).map(|messages| messages.concat()).collect();
    let alone = [
        framing("take 16 messages out of a stream, 4 KB a call", PIECE),
        framing("- 16 bytes a call", 16),
        framing("- one byte a call", 1),
    ];
    let alone = measured(&streams, Vec::len, REPETITIONS, alone).to_vec();
    let lines: Vec<_> = inputs.messages[..MESSAGES].chunks(TOGETHER).map(as_lines).collect();
    [alone, checking_lines(&inputs.schemas[0], &lines)].concat()
}

/// Messages with blanks in the place of their line breaks, which are blanks too, a line each.
fn as_lines(messages: &[Vec<u8>]) -> Vec<u8> {
    let line = |message: &Vec<u8>| message.iter().map(|&byte| if byte == b'\n' { b' ' } else { byte }).collect();
    messages.iter().map(line).collect::<Vec<Vec<u8>>>().join(&b'\n')
}

/// Both give the bytes of all messages.
fn framing(what: &'static str, piece: usize) -> Task<'static, Vec<u8>> {
    Task { what, product: by_product(piece, |message| message.len()), rust: by_rust(piece, |message| message.len()) }
}

fn checking_lines(schema: &Schema, streams: &[Vec<u8>]) -> Vec<Line> {
    let Schema { bytes, words, .. } = schema;
    let check = || check_task("", bytes, words);
    let framed = Task {
        what: "take 16 messages out of a stream and check each",
        product: by_product(PIECE, checked(check().product)),
        rust: by_rust(PIECE, checked(check().rust)),
    };
    let lines = Task {
        what: "- check them a line each",
        product: by_lines(checked(check().product)),
        rust: by_lines(checked(check().rust)),
    };
    let [framed, lines] = measured(streams, Vec::len, CHECK_REPETITIONS, [framed, lines]);
    vec![framed, lines, framed.without("- the difference", lines)]
}

fn checked<'a>(mut check: Way<'a, Vec<u8>>) -> impl FnMut(&[u8]) -> usize + 'a {
    let mut text = Vec::new();
    move |message| {
        text.clear();
        text.extend(message);
        check(&text)
    }
}

/// The sum of what is done with each message.
fn by_product<'a>(piece_bytes: usize, mut each: impl FnMut(&[u8]) -> usize + 'a) -> Way<'a, Vec<u8>> {
    let mut buffer = vec![0; MESSAGE_BYTES];
    Box::new(move |stream| {
        let (mut state, mut sum) = (stream_start(), 0);
        for mut piece in stream.chunks(piece_bytes) {
            loop {
                let fed = stream_feed(&mut state, &mut buffer, piece);
                piece = &piece[fed.taken..];
                assert_eq!(fed.number, 0, "only messages are timed");
                if fed.message_bytes == 0 {
                    break;
                }
                sum += each(&buffer[..fed.message_bytes]);
            }
        }
        sum
    })
}

fn by_rust<'a>(piece_bytes: usize, mut each: impl FnMut(&[u8]) -> usize + 'a) -> Way<'a, Vec<u8>> {
    let mut buffer = vec![0; MESSAGE_BYTES];
    Box::new(move |stream| {
        let (mut framing, mut sum) = (Framing::new(), 0);
        for mut piece in stream.chunks(piece_bytes) {
            loop {
                let (said, taken) = framing.feed(&mut buffer, piece);
                piece = &piece[taken..];
                match said {
                    Said::Nothing => break,
                    Said::Message(length) => sum += each(&buffer[..length]),
                    Said::Refused(number) => panic!("{number}"),
                }
            }
        }
        sum
    })
}

fn by_lines<'a>(mut each: impl FnMut(&[u8]) -> usize + 'a) -> Way<'a, Vec<u8>> {
    Box::new(move |stream| stream.split(|&byte| byte == b'\n').filter(|line| !line.is_empty()).map(&mut each).sum())
}
