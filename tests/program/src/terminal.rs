//! The program at a terminal: lines are answered as they are typed.

use std::fs::File;
use std::io::Write;
use std::path::Path;

use harness::Check;

use crate::folder::{Folder, STOP_LOT, STOP_LOT_ANSWER};
use crate::lines::{STOP, STOPPED};
use crate::printed::same;
use crate::pty;
use crate::running::{reason, Output, Running};
use crate::Checks;

pub const CHECKS: Checks = &[
    ("a typed line is answered at once, and ctrl-D ends", typed),
    ("ctrl-D inside a line doesn't end it, a second one does", unfinished),
    ("typed lines and answers on one terminal", on_one_terminal),
    ("a terminal that goes away is the end", gone),
];

const CTRL_D: &[u8] = b"\x04";

/// The program with a terminal as its input: whoever types, and what it prints.
fn start(program: &Path) -> Result<(Folder, File, Running, Output), String> {
    let folder = Folder::with_schema(STOP_LOT);
    let (typist, terminal) = pty::open().map_err(reason)?;
    let mut command = folder.command(program);
    command.stdin(terminal);
    let mut running = Running::start(command)?;
    let mut output = running.output();
    same(output.line()?.as_bytes(), STOP_LOT_ANSWER.as_bytes())?;
    Ok((folder, typist, running, output))
}

fn typed(program: &Path) -> Check {
    let (_folder, mut typist, running, mut output) = start(program)?;
    for (line, answer) in [(STOP, STOPPED), ("", "23 0 0 0\n"), ("5", "26 0 0 0\n")] {
        typist.write_all(format!("{line}\n").as_bytes()).map_err(reason)?;
        same(output.line()?.as_bytes(), answer.as_bytes())?;
    }
    typist.write_all(CTRL_D).map_err(reason)?;
    same(&output.rest()?, b"")?;
    running.ends_well()
}

fn unfinished(program: &Path) -> Check {
    let (_folder, mut typist, running, mut output) = start(program)?;
    let (before, after) = STOP.split_at(20);
    for piece in [before.as_bytes(), CTRL_D, after.as_bytes(), b"\n"] {
        typist.write_all(piece).map_err(reason)?;
    }
    same(output.line()?.as_bytes(), STOPPED.as_bytes())?;
    for piece in [b"5", CTRL_D, CTRL_D] {
        typist.write_all(piece).map_err(reason)?;
    }
    same(&output.rest()?, b"26 0 0 0\n")?;
    running.ends_well()
}

/// The terminal shows what is typed, then the answer.
fn on_one_terminal(program: &Path) -> Check {
    let folder = Folder::with_schema(STOP_LOT);
    let (mut typist, terminal) = pty::open().map_err(reason)?;
    let mut command = folder.command(program);
    command.stdin(terminal.try_clone().map_err(reason)?).stdout(terminal);
    let running = Running::start(command)?;
    let mut seen = Output::of(typist.try_clone().map_err(reason)?);
    same(seen.line()?.as_bytes(), b"0 3 0\r\n")?;
    for (line, answer) in [(STOP, STOPPED), ("5", "26 0 0 0\n")] {
        typist.write_all(format!("{line}\n").as_bytes()).map_err(reason)?;
        same(seen.line()?.as_bytes(), format!("{line}\r\n").as_bytes())?;
        same(seen.line()?.as_bytes(), answer.replace('\n', "\r\n").as_bytes())?;
    }
    typist.write_all(CTRL_D).map_err(reason)?;
    running.ends_well()
}

fn gone(program: &Path) -> Check {
    let (_folder, typist, running, output) = start(program)?;
    drop(typist);
    same(&output.rest()?, b"")?;
    running.ends_well()
}
