//! What stands at `schema.json`.

use std::fs::{self, File, Permissions};
use std::io::Write;
use std::os::unix::fs::{symlink, PermissionsExt};
use std::os::unix::process::CommandExt;
use std::path::Path;
use std::process::Command;
use std::thread;

use harness::{ensure, Check};

use crate::folder::{Folder, STOP_LOT, STOP_LOT_ANSWER};
use crate::printed::{printed, same};
use crate::running::{feed, reason, Running};
use crate::Checks;

pub const CHECKS: Checks = &[
    ("no schema.json", missing),
    ("a link to nowhere", |program| linked(program, "nowhere", "no schema\n")),
    ("a link to itself", |program| linked(program, "schema.json", "no schema\n")),
    ("a folder named schema.json", folder_as_schema),
    ("a schema.json that may not be read", unreadable),
    ("an empty schema.json", |program| linked(program, "/dev/null", "0 0 0\n27 0 0 0\n")),
    ("a schema.json that never ends", |program| linked(program, "/dev/zero", "1 0 0\n")),
    ("a schema.json of a terabyte", terabyte),
    ("a schema.json of 32,768 and of 32,769 bytes", lengths),
    ("a schema.json of 1,024 rows", most_rows),
    ("a schema.json that is a pipe, written in pieces", pieces_by_fifo),
    ("every number of docs/NUMBERS.md that the program can give", numbers_of_document),
];

/// No schema here has this command.
const START: &[u8] = b"{\"execute\":\"start-lot\"}\n";

/// The program prints this in a folder, and ends. Where the schema isn't accepted it must not read a message: its input
/// stays open.
fn prints(program: &Path, folder: &Folder, expected: &str) -> Check {
    let mut running = Running::start(folder.command(program))?;
    let input = running.input();
    let open = if expected.starts_with("0 ") {
        feed(input, START.to_vec());
        None
    } else {
        Some(input)
    };
    let checked = running.prints(expected.as_bytes());
    drop(open);
    checked
}

fn missing(program: &Path) -> Check {
    prints(program, &Folder::new(), "no schema\n")
}

fn linked(program: &Path, target: &str, expected: &str) -> Check {
    let folder = Folder::new();
    symlink(target, folder.schema()).map_err(reason)?;
    prints(program, &folder, expected)
}

fn folder_as_schema(program: &Path) -> Check {
    let folder = Folder::new();
    fs::create_dir(folder.schema()).map_err(reason)?;
    prints(program, &folder, "no schema\n")
}

/// Where we may read anything, the program is run as a user who may not.
fn unreadable(program: &Path) -> Check {
    const NOBODY: u32 = 65_534;
    let folder = Folder::with_schema(STOP_LOT);
    fs::set_permissions(folder.schema(), Permissions::from_mode(0o000)).map_err(reason)?;
    if File::open(folder.schema()).is_err() {
        return prints(program, &folder, "no schema\n");
    }
    let copy = folder.file("program");
    fs::copy(program, &copy).map_err(reason)?;
    let mut command = folder.command(&copy);
    command.uid(NOBODY);
    Running::start(command)?.prints(b"no schema\n")
}

/// Without a byte of it on the disk.
fn terabyte(program: &Path) -> Check {
    let folder = Folder::new();
    File::create(folder.schema()).and_then(|file| file.set_len(1 << 40)).map_err(reason)?;
    prints(program, &folder, "1 0 0\n")
}

fn lengths(program: &Path) -> Check {
    let at_end = |length: usize| format!("{:>length$}", String::from_utf8_lossy(STOP_LOT)).into_bytes();
    prints(program, &Folder::with_schema(&at_end(32_768)), &format!("{STOP_LOT_ANSWER}27 0 0 0\n"))?;
    prints(program, &Folder::with_schema(&at_end(32_769)), "1 0 0\n")
}

fn most_rows(program: &Path) -> Check {
    let schema: String = (0..1_024).map(|number| format!("{{'command':'c{number}'}}")).collect();
    let printed = printed(program, schema.as_bytes(), b"{\"execute\":\"c1023\"}")?;
    same(&printed, b"0 1024 0\n0 1023 1 0 0 0 0 0\n")
}

fn pieces_by_fifo(program: &Path) -> Check {
    let folder = Folder::new();
    let made = Command::new("mkfifo").arg(folder.schema()).status().map_err(reason)?;
    ensure(made.success(), || "mkfifo fails".to_string())?;
    let fifo = folder.schema();
    let writer = thread::spawn(move || {
        let mut fifo = File::options().write(true).open(fifo)?;
        STOP_LOT.chunks(5).try_for_each(|piece| fifo.write_all(piece))
    });
    prints(program, &folder, &format!("{STOP_LOT_ANSWER}27 0 0 0\n"))?;
    writer.join().expect("the writer doesn't panic").map_err(reason)
}

fn numbers_of_document(program: &Path) -> Check {
    for case in numbers::cases()?.iter().filter(|case| case.is_for_program()) {
        let input = case.message.as_ref().map_or(Vec::new(), |message| [&message[..], b"\n"].concat());
        let printed = printed(program, &case.schema, &input)?;
        let last = printed.strip_suffix(b"\n").and_then(|lines| lines.rsplit(|&byte| byte == b'\n').next());
        same(last.unwrap_or_default(), case.answer.as_bytes())?;
    }
    Ok(())
}
