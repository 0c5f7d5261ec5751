//! Large input: memory and stack that don't grow, no system call a line, and speed.

use std::io::{self, Read, Write};
use std::path::Path;
use std::process::ChildStdin;
use std::thread;
use std::time::Instant;

use harness::usage::{most_memory, reads_and_writes};
use harness::{ensure, Check};

use crate::folder::{example, Folder, STOP_LOT, STOP_LOT_ANSWER};
use crate::lines::{STOP, STOPPED};
use crate::printed::{by_reference, same};
use crate::running::{feed, reason, Running};
use crate::Checks;

pub const CHECKS: Checks = &[
    ("a line of 64 MiB in constant memory", |program| one_line(program, 64)),
    ("no system call a line on piped input", few_calls),
    ("a stack of 2 MiB is enough", small_stack),
];

pub const SLOW_CHECKS: Checks =
    &[("a line of 1 GiB in constant memory", |program| one_line(program, 1_024)), ("1 GiB of messages", many_messages)];

const MIB: usize = 1 << 20;

/// KiB of memory that the program stays below. A process with its buffers and a compiled schema has about 2,300.
const MEMORY: u64 = 8 << 10;

/// A line of so many MiB, then a short one; both are answered, in little memory.
fn one_line(program: &Path, size: usize) -> Check {
    let folder = Folder::with_schema(STOP_LOT);
    let mut running = Running::start(folder.command(program))?;
    let (mut input, mut output) = (running.input(), running.output());
    same(output.line()?.as_bytes(), STOP_LOT_ANSWER.as_bytes())?;
    let begun = Instant::now();
    repeat(&mut input, &vec![b'['; MIB], size)?;
    writeln!(input, "\n{STOP}").map_err(reason)?;
    same(output.line()?.as_bytes(), b"22 0 0 0\n")?;
    same(output.line()?.as_bytes(), STOPPED.as_bytes())?;
    let seconds = begun.elapsed().as_secs_f64();
    check_memory(&running, &format!("a line of {size} MiB, {:.0} MiB a second", size as f64 / seconds))?;
    drop(input);
    running.ends_well()
}

fn check_memory(running: &Running, what: &str) -> Check {
    match most_memory(running.id()) {
        None => println!("{what}; the system doesn't say how much memory"),
        Some(most) => {
            println!("{what}, at most {most} KiB of memory");
            ensure(most < MEMORY, || format!("{most} KiB of memory"))?;
        }
    }
    Ok(())
}

/// Fewer than one for ten lines, however small the pieces are in which a pipe hands them over.
fn few_calls(program: &Path) -> Check {
    const LINES: usize = 100_000;
    let folder = Folder::with_schema(STOP_LOT);
    let mut running = Running::start(folder.command(program))?;
    let (mut input, mut output) = (running.input(), running.output());
    let lines = format!("{STOP}\n").repeat(LINES);
    let writer = thread::spawn(move || input.write_all(lines.as_bytes()).map(|()| input));
    same(output.line()?.as_bytes(), STOP_LOT_ANSWER.as_bytes())?;
    for _ in 0..LINES {
        same(output.line()?.as_bytes(), STOPPED.as_bytes())?;
    }
    match reads_and_writes(running.id()) {
        None => println!("the system doesn't count reads and writes"),
        Some((reads, writes)) => {
            println!("{reads} reads and {writes} writes for {LINES} lines");
            ensure(reads + writes < LINES as u64 / 10, || format!("{reads} reads and {writes} writes"))?;
        }
    }
    drop(writer.join().expect("the writer doesn't panic").map_err(reason)?);
    running.ends_well()
}

/// Over a schema of 32,768 bytes and messages of all kinds, among them one of 32 levels.
fn small_stack(program: &Path) -> Check {
    let (schema, messages) = example()?;
    let schema = [&schema[..], &vec![b'#'; 32_768 - schema.len()]].concat();
    let folder = Folder::with_schema(&schema);
    let mut running = Running::start(folder.shell(program, "ulimit -s 2048 && exec \"$0\""))?;
    feed(running.input(), messages.clone());
    running.prints(&by_reference(&schema, &messages))
}

/// Every answer is looked at; the speed is printed.
fn many_messages(program: &Path) -> Check {
    const PIECE: usize = 20_000;
    let folder = Folder::with_schema(STOP_LOT);
    let (mut output, writer) = io::pipe().map_err(reason)?;
    let mut command = folder.command(program);
    command.stdout(writer);
    let mut running = Running::start(command)?;
    let (mut input, lines) = (running.input(), format!("{STOP}\n").repeat(PIECE));
    let times = 1_024 * MIB / lines.len() + 1;
    let begun = Instant::now();
    let feeder = thread::spawn(move || repeat(&mut input, lines.as_bytes(), times).map(|()| input));
    let mut answers = vec![0; STOP_LOT_ANSWER.len()];
    output.read_exact(&mut answers).map_err(reason)?;
    let expected = STOPPED.repeat(PIECE).into_bytes();
    answers.resize(expected.len(), 0);
    for _ in 0..times {
        output.read_exact(&mut answers).map_err(reason)?;
        same(&answers, &expected)?;
    }
    let seconds = begun.elapsed().as_secs_f64();
    let speed = (times * PIECE) as f64 / seconds;
    let input = feeder.join().expect("the feeder doesn't panic")?;
    check_memory(&running, &format!("{} messages in {seconds:.0} s, {speed:.0} a second", times * PIECE))?;
    drop(input);
    running.ends_well()
}

fn repeat(input: &mut ChildStdin, bytes: &[u8], times: usize) -> Check {
    (0..times).try_for_each(|_| input.write_all(bytes)).map_err(reason)
}
