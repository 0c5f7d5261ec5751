//! Lines that come in several reads. Standard input is a socket for datagrams: each read of the program gets one, so
//! the places of the cuts are ours.

use std::os::fd::OwnedFd;
use std::os::unix::net::UnixDatagram;
use std::path::Path;
use std::thread;

use generate::Random;
use harness::Check;

use crate::folder::{example, Folder, STOP_LOT};
use crate::lines::{padded, STOP};
use crate::printed::by_reference;
use crate::running::{reason, Running};
use crate::Checks;

pub const CHECKS: Checks = &[
    ("lines cut at every place", every_place),
    ("a byte a read", byte_by_byte),
    ("lines of about 16,384 bytes cut at the limit", at_the_limit),
    ("lines of all lengths cut at random", at_random),
];

/// The most that a read of the program takes.
const MOST: usize = 65_536;

/// Over these pieces, none of them empty, the program prints what the reference does over all of them at once.
fn prints(program: &Path, schema: &[u8], pieces: Vec<Vec<u8>>) -> Check {
    let expected = by_reference(schema, &pieces.concat());
    let folder = Folder::with_schema(schema);
    let (ours, theirs) = UnixDatagram::pair().map_err(reason)?;
    let mut command = folder.command(program);
    command.stdin(OwnedFd::from(theirs));
    let running = Running::start(command)?;
    // The last one is empty: a read that gives nothing is the end of the input.
    thread::spawn(move || {
        pieces.iter().map(Vec::as_slice).chain([&[][..]]).try_for_each(|piece| ours.send(piece).map(drop))
    });
    running.prints(&expected)
}

/// In two pieces, at every place in turn.
fn every_place(program: &Path) -> Check {
    let text = format!("{STOP}\n\n5\n{STOP}\r\n").into_bytes();
    let cuts = (1..text.len()).flat_map(|place| [text[..place].to_vec(), text[place..].to_vec()]);
    prints(program, STOP_LOT, cuts.collect())
}

fn byte_by_byte(program: &Path) -> Check {
    let (schema, messages) = example()?;
    prints(program, &schema, messages.chunks(1).map(<[u8]>::to_vec).collect())
}

/// Two pieces whose cut is near the limit, and three around it, the last with or without LF.
fn at_the_limit(program: &Path) -> Check {
    let mut pieces = Vec::new();
    for length in 16_383..=16_387 {
        let line = format!("{}\n", padded(length)).into_bytes();
        for place in 16_382..line.len() {
            pieces.extend([line[..place].to_vec(), line[place..].to_vec()]);
            pieces.extend([line[..100].to_vec(), line[100..place].to_vec(), line[place..].to_vec()]);
        }
    }
    prints(program, STOP_LOT, pieces.clone())?;
    pieces.push(padded(16_385).into_bytes());
    prints(program, STOP_LOT, pieces)
}

fn at_random(program: &Path) -> Check {
    let (schema, messages) = example()?;
    let messages: Vec<_> = messages.split(|&byte| byte == b'\n').collect();
    for seed in 0..30 {
        let mut random = Random::new(seed);
        let lines = (0..40).map(|_| match random.below(8) {
            0 => [&vec![b' '; random.below(3 * MOST)][..], b"\n"].concat(),
            1 => (0..random.below(300)).map(|_| random.byte()).collect(),
            2 => b"\n".repeat(random.below(4)),
            _ => [*random.pick(&messages), b"\n"].concat(),
        });
        let input = lines.collect::<Vec<_>>().concat();
        prints(program, &schema, cut(&input, &mut random)).map_err(|reason| format!("seed {seed}: {reason}"))?;
    }
    Ok(())
}

/// Pieces of random lengths, short and long ones.
fn cut(mut input: &[u8], random: &mut Random) -> Vec<Vec<u8>> {
    let mut pieces = Vec::new();
    while !input.is_empty() {
        let most = *random.pick(&[3, 100, 5_000, MOST]);
        let (piece, rest) = input.split_at(random.between(1, most).min(input.len()));
        pieces.push(piece.to_vec());
        input = rest;
    }
    pieces
}
