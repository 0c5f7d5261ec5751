//! A gigabyte through one reader, in memory that doesn't grow: of messages and refusals, skipped, and of blanks.

use std::time::Instant;

use generate::{streams, Random};
use harness::usage::memory;
use harness::{ensure, Check, Tally};
use reference::stream::{self, Output};
use windosprio::limits::MESSAGE_BYTES;
use windosprio::{Refused, StreamReader};

const GIGABYTE: usize = 1 << 30;
const BLOCK: usize = 1 << 20;
/// A prime, so that a block is cut elsewhere each time.
const PIECE: usize = 4_093;
/// KiB by which the memory may differ.
const MEMORY: u64 = 256;

/// A message or a number.
type Given<'a> = Result<&'a [u8], u32>;

pub fn compare(tally: &mut Tally) -> Check {
    let block = block(&mut Random::new(1));
    let outputs: Vec<_> = stream::read(&block, MESSAGE_BYTES).0.into_iter().map(|placed| placed.output).collect();
    run("messages and refusals", &block, &outputs, b"", tally)?;
    run("skipped bytes", &vec![b'['; BLOCK], &[], &[b'['; 33], tally)?;
    run("blanks", &vec![b' '; BLOCK], &[], b"", tally)
}

/// Parts of streams. The last byte clears, so that each block starts afresh.
fn block(random: &mut Random) -> Vec<u8> {
    let mut block = Vec::with_capacity(BLOCK);
    while block.len() < BLOCK {
        block.extend(streams::any(random).bytes);
        block.push(0xFF);
    }
    block
}

/// A gigabyte of a block again and again, after some bytes; each time it gives the outputs.
fn run(what: &str, block: &[u8], outputs: &[Output], before: &[u8], tally: &mut Tally) -> Check {
    let mut reader = StreamReader::new();
    let mut start = reader.push(before);
    while start.next().is_some() {}
    let (begun, had) = (Instant::now(), memory(std::process::id()));
    let mut expected = outputs.iter().cycle();
    let (mut given, blocks) = (0, GIGABYTE / block.len() + 1);
    for piece in pieces(block, blocks) {
        let mut chunk = reader.push(piece);
        while let Some(item) = chunk.next() {
            let next = expected.next().map(|output| match output {
                Output::Message(bytes) => Ok(*bytes),
                Output::Refused(number) => Err(*number),
            });
            let item: Given = item.map_err(Refused::number);
            ensure(next == Some(item), || format!("{what}: output {given} is {item:?}, not {next:?}"))?;
            given += 1;
        }
    }
    ensure(given == blocks * outputs.len(), || format!("{what}: {given} outputs"))?;
    let speed = 1e-6 * (blocks * block.len()) as f64 / begun.elapsed().as_secs_f64();
    println!("a gigabyte of {what}: {given} outputs, {speed:.0} MB/s");
    tally.pass();
    match (had, memory(std::process::id())) {
        (Some(had), Some(has)) => ensure(has <= had + MEMORY, || format!("{what}: {had} KiB of memory became {has}")),
        _ => Ok(println!("the system doesn't say how much memory")),
    }
}

/// The pieces of a block that comes so often, each within one of them.
fn pieces(block: &[u8], blocks: usize) -> impl Iterator<Item = &[u8]> {
    (0..blocks).flat_map(move |number| {
        let (start, rest) = block.split_at(number % PIECE);
        [start].into_iter().chain(rest.chunks(PIECE))
    })
}
