//! Streams in pieces: the product reads them piece by piece, in a lent buffer between bytes that must stay as they are;
//! the reference reads each whole at once. What is handed out, at which byte, and where the stream ends must agree, and
//! every byte of the buffer must be what follows from that, after each call.

mod fixed;
mod gigabyte;
mod states;

use generate::streams::{self, StreamCase};
use generate::Random;
use harness::{check_bytes, ensure, for_each_round, Check, Options, Rounds, Tally};
use reference::stream::{self, End, Output, Placed};
use windosprio::calls::{stream_feed, stream_start, Fed, StreamState};

use crate::lent::{LentBytes, PlacedText};

/// Streams, one a round.
const DEFAULT_ROUNDS: u64 = 100_000;
/// Rounds from one stream with a message at the limit to the next.
const ROUNDS_A_LONG_ONE: u64 = 200;

pub fn run(options: &Options, tally: &mut Tally) -> Check {
    tally.must_reach("streams", ["message", "22", "23", "24"]);
    tally.must_reach("ends", ["between", "inside", "skipping"]);
    fixed::compare(tally).map_err(|reason| format!("{reason}\nin a fixed stream"))?;
    states::compare(options.rounds_or(DEFAULT_ROUNDS), tally).map_err(|reason| format!("{reason}\nfrom any words"))?;
    if options.slow {
        gigabyte::compare(tally)?;
    }
    compare_generated(options.rounds_or(DEFAULT_ROUNDS), tally)
}

fn compare_generated(rounds: Rounds, tally: &mut Tally) -> Check {
    for_each_round(rounds, |random, round| {
        let case = if round % ROUNDS_A_LONG_ONE == 0 { streams::long(random) } else { streams::any(random) };
        let seed = random.word();
        let cut_anywhere = |part: &[u8]| {
            let mut random = Random::new(seed);
            let cuts = streams::cuts(&mut random, part.len());
            compare_cut(&mut random, part, &cuts, case.lent)
        };
        check_bytes(&format!("{} bytes lent", case.lent), &case.bytes, cut_anywhere)?;
        count(&case, tally);
        Ok(())
    })
}

/// Fails where the product doesn't agree with the reference on a stream cut at places.
pub fn compare_cut(random: &mut Random, stream: &[u8], cuts: &[usize], lent: usize) -> Check {
    let (outputs, end) = stream::read(stream, lent);
    let mut reader = Reader::new(random, stream_start(), lent);
    let mut expected = Expected { stream, outputs: &outputs, end, shadow: reader.buffer().to_vec(), read: 0 };
    for piece in streams::pieces(stream, cuts) {
        reader.read(random, piece, |fed, buffer| expected.check(fed, buffer))?;
    }
    let at_cuts = |reason: String| format!("{reason}\ncut at {cuts:?}");
    expected.check_end(&reader.state).map_err(at_cuts)
}

fn count(StreamCase { bytes, lent }: &StreamCase, tally: &mut Tally) {
    let (outputs, end) = stream::read(bytes, *lent);
    for placed in outputs {
        let what = match placed.output {
            Output::Message(_) => "message",
            Output::Refused(22) => "22",
            Output::Refused(23) => "23",
            Output::Refused(_) => "24",
        };
        tally.add("streams", what);
    }
    let end = match end {
        End::Between => "between",
        End::Inside(_) => "inside",
        End::Skipping => "skipping",
    };
    tally.add("ends", end);
    tally.pass();
}

/// What the calls over a stream must give, and how far they came.
struct Expected<'a> {
    stream: &'a [u8],
    /// Those not yet given.
    outputs: &'a [Placed<'a>],
    end: End<'a>,
    /// What the buffer must hold.
    shadow: Vec<u8>,
    /// Bytes of the stream.
    read: usize,
}

impl Expected<'_> {
    fn check(&mut self, fed: Fed, buffer: &[u8]) -> Check {
        self.read += fed.taken;
        let read = self.read;
        match self.outputs {
            [next, rest @ ..] if next.after == read => {
                self.outputs = rest;
                let (given, kept) = match next.output {
                    Output::Message(bytes) => ((0, bytes.len()), read),
                    Output::Refused(number) => ((number, 0), read - 1),
                };
                ensure((fed.number, fed.message_bytes) == given, || format!("{fed:?} at byte {read}, not {next:?}"))?;
                self.keep(next.start, kept);
            }
            outputs => {
                let start = outputs.first().map_or(self.stream.len() - self.begun().len(), |next| next.start);
                ensure((fed.number, fed.message_bytes) == (0, 0), || format!("{fed:?} at byte {read}"))?;
                self.keep(start, read);
            }
        }
        let differs = buffer.iter().zip(&self.shadow).position(|(byte, expected)| byte != expected);
        ensure(differs.is_none(), || format!("byte {differs:?} of the buffer isn't as it should be, at {read}"))
    }

    /// The bytes of the message inside of which the stream ends.
    fn begun(&self) -> &[u8] {
        match self.end {
            End::Inside(bytes) => bytes,
            End::Between | End::Skipping => &[],
        }
    }

    /// A message's bytes are in the buffer, each at its index.
    fn keep(&mut self, start: usize, end: usize) {
        let bytes = self.stream.get(start..end).unwrap_or(&[]);
        self.shadow[..bytes.len()].copy_from_slice(bytes);
    }

    fn check_end(&self, state: &StreamState) -> Check {
        ensure(self.outputs.is_empty() && self.read == self.stream.len(), || format!("{:?} not given", self.outputs))?;
        let agrees = match self.end {
            End::Between => *state == states::BETWEEN,
            End::Skipping => *state == states::SKIPPING,
            End::Inside(bytes) => states::is_inside(state) && state[2] == bytes.len() as u64,
        };
        ensure(agrees, || format!("the words {state:?} at the end, expected {:?}", self.end))
    }
}

/// The product with a lent buffer, which holds garbage at first.
struct Reader {
    state: StreamState,
    lent: LentBytes,
}

impl Reader {
    fn new(random: &mut Random, state: StreamState, lent: usize) -> Self {
        Reader { state, lent: LentBytes::new(lent, random.byte()) }
    }

    fn buffer(&self) -> &[u8] {
        self.lent.items()
    }

    /// Reads a piece in as many calls as it takes; each call's answer and buffer are handed on.
    fn read(&mut self, random: &mut Random, piece: &[u8], mut given: impl FnMut(Fed, &[u8]) -> Check) -> Check {
        let placed = PlacedText::new(random, piece);
        let mut rest = placed.bytes();
        loop {
            let fed = stream_feed(&mut self.state, self.lent.items_mut(), rest);
            check_alone(fed, rest.len())?;
            ensure(self.lent.is_intact_around(), || "bytes beside the buffer were written".into())?;
            rest = &rest[fed.taken..];
            given(fed, self.buffer())?;
            if (fed.number, fed.message_bytes) == (0, 0) {
                return Ok(());
            }
        }
    }
}

/// What holds of a call's answer over a piece of so many bytes, from any state.
fn check_alone(fed: Fed, piece_bytes: usize) -> Check {
    let holds = match (fed.number, fed.message_bytes) {
        (0, 0) => fed.taken == piece_bytes,
        (0, _) | (22..=24, 0) => (1..=piece_bytes).contains(&fed.taken),
        _ => false,
    };
    ensure(holds && fed.place == 0, || format!("{fed:?} over {piece_bytes} bytes"))
}
