//! Standard input and output that are closed, broken, slow or used in turns.

use std::fs::File;
use std::io::{self, Write};
use std::path::Path;
use std::process::{Command, Stdio};
use std::thread;
use std::time::Duration;

use harness::{ensure, Check};

use crate::folder::{Folder, STOP_LOT, STOP_LOT_ANSWER};
use crate::lines::{STOP, STOPPED};
use crate::printed::same;
use crate::running::{feed, reason, Running};
use crate::Checks;

pub const CHECKS: Checks = &[
    ("standard input closed", |program| by_shell(program, "exec \"$0\" <&-", STOP_LOT_ANSWER)),
    ("standard input a folder: an error is the end", input_a_folder),
    ("standard input not open for reading: an error is the end", input_for_writing),
    ("standard output closed", |program| by_shell(program, "exec \"$0\" >&-", "")),
    ("standard output full", |program| by_shell(program, "exec \"$0\" >/dev/full", "")),
    ("nobody reads the answers any more", |program| broken_pipe(program, "exec \"$0\"")),
    ("the same with the signal ignored", |program| broken_pipe(program, "trap '' PIPE; exec \"$0\"")),
    ("an answer before the next message", in_turns),
    ("answers wait for a slow reader", slow_reader),
    ("stopped and continued", stopped_and_continued),
];

/// With one message on standard input where that is open.
fn by_shell(program: &Path, line: &str, expected: &str) -> Check {
    let folder = Folder::with_schema(STOP_LOT);
    let mut running = Running::start(folder.shell(program, line))?;
    feed(running.input(), format!("{STOP}\n").into_bytes());
    running.prints(expected.as_bytes())
}

fn input_a_folder(program: &Path) -> Check {
    input_from(program, |folder| File::open(folder.file(".")))
}

fn input_for_writing(program: &Path) -> Check {
    input_from(program, |folder| File::create(folder.file("messages")))
}

fn input_from(program: &Path, open: impl Fn(&Folder) -> io::Result<File>) -> Check {
    let folder = Folder::with_schema(STOP_LOT);
    let mut command = folder.command(program);
    command.stdin(open(&folder).map_err(reason)?);
    Running::start(command)?.prints(STOP_LOT_ANSWER.as_bytes())
}

/// The reader goes after the schema's answer; messages come without end. The program must end with status 0: it ignores
/// SIGPIPE, and the write fails.
fn broken_pipe(program: &Path, line: &str) -> Check {
    let folder = Folder::with_schema(STOP_LOT);
    let (mut reader, writer) = io::pipe().map_err(reason)?;
    let mut command = folder.shell(program, line);
    command.stdout(writer);
    let mut running = Running::start(command)?;
    let mut answer = [0; STOP_LOT_ANSWER.len()];
    io::Read::read_exact(&mut reader, &mut answer).map_err(reason)?;
    drop(reader);
    let mut input = running.input();
    thread::spawn(move || while writeln!(input, "{STOP}").is_ok() {});
    let status = running.end()?;
    ensure(status.success(), || format!("it ends with {status}"))
}

/// Each line is written when the answer of the one before has come.
fn in_turns(program: &Path) -> Check {
    let folder = Folder::with_schema(STOP_LOT);
    let mut running = Running::start(folder.command(program))?;
    let (mut input, mut output) = (running.input(), running.output());
    same(output.line()?.as_bytes(), STOP_LOT_ANSWER.as_bytes())?;
    for (line, answer) in [(STOP, STOPPED), ("", "23 0 0 0\n"), ("5", "26 0 0 0\n")].iter().cycle().take(300) {
        writeln!(input, "{line}").map_err(reason)?;
        same(output.line()?.as_bytes(), answer.as_bytes())?;
    }
    drop(input);
    same(&output.rest()?, b"")?;
    running.ends_well()
}

/// More answers than a pipe holds are there before the first is read.
fn slow_reader(program: &Path) -> Check {
    let folder = Folder::with_schema(STOP_LOT);
    let mut running = Running::start(folder.command(program))?;
    feed(running.input(), format!("{STOP}\n").repeat(10_000).into_bytes());
    thread::sleep(Duration::from_millis(300));
    running.prints(format!("{STOP_LOT_ANSWER}{}", STOPPED.repeat(10_000)).as_bytes())
}

/// While it waits for input, twice.
fn stopped_and_continued(program: &Path) -> Check {
    let folder = Folder::with_schema(STOP_LOT);
    let mut running = Running::start(folder.command(program))?;
    let (mut input, mut output) = (running.input(), running.output());
    same(output.line()?.as_bytes(), STOP_LOT_ANSWER.as_bytes())?;
    for _ in 0..2 {
        for signal in ["STOP", "CONT"] {
            let line = format!("kill -{signal} {}", running.id());
            let sent = Command::new("sh").args(["-c", &line]).stdin(Stdio::null()).status().map_err(reason)?;
            ensure(sent.success(), || format!("`{line}` fails"))?;
        }
        writeln!(input, "{STOP}").map_err(reason)?;
        same(output.line()?.as_bytes(), STOPPED.as_bytes())?;
    }
    drop(input);
    running.ends_well()
}
