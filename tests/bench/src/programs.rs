//! The program and the reference's program, each started anew over one file of messages, its answers written to a file.

use std::fs::{self, File};
use std::path::{Path, PathBuf};
use std::process::{self, Command};
use std::time::{Duration, Instant};

use crate::inputs::Inputs;
use crate::line::Line;

const REPETITIONS: usize = 7;

/// From this crate's folder.
const PROGRAM: &str = "../../target/bin/windosprio";

/// Beside this program.
const RUST_PROGRAM: &str = "reference-gateway";

/// No line where the program isn't built.
pub fn line(inputs: &Inputs) -> Option<Line> {
    let program = Path::new(env!("CARGO_MANIFEST_DIR")).join(PROGRAM);
    if !program.is_file() {
        eprintln!("no line for the program: run `./build windosprio` in the project");
        return None;
    }
    let rust_program = std::env::current_exe().expect("a program knows where it is").with_file_name(RUST_PROGRAM);
    let folder = std::env::temp_dir().join(format!("windosprio-bench-{}", process::id()));
    fs::create_dir(&folder).expect("a folder can be made among those for temporary files");
    let line = measured(&folder, [program, rust_program], inputs);
    fs::remove_dir_all(&folder).ok();
    Some(line)
}

/// Messages with a line break in them are left out.
fn measured(folder: &Path, programs: [PathBuf; 2], inputs: &Inputs) -> Line {
    let lines: Vec<_> = inputs.messages.iter().filter(|message| !message.contains(&b'\n')).collect();
    let text: Vec<u8> = lines.iter().flat_map(|line| [&line[..], b"\n"]).flatten().copied().collect();
    fs::write(folder.join("schema.json"), &inputs.schemas[0].bytes).expect("a file can be written");
    fs::write(folder.join("messages"), &text).expect("a file can be written");
    let mut least = [Duration::MAX; 2];
    for _ in 0..REPETITIONS {
        for ((program, answers), least) in programs.iter().zip(["answers", "rust-answers"]).zip(&mut least) {
            *least = (*least).min(run(folder, program, answers));
        }
    }
    let answers = ["answers", "rust-answers"].map(|name| fs::read(folder.join(name)).expect("answers were written"));
    assert!(answers[0] == answers[1], "the two programs differ");
    let each = |total: Duration| total / lines.len() as u32;
    Line::new("the program over a file of such messages, each", text.len() / lines.len(), least.map(each))
}

fn run(folder: &Path, program: &Path, answers: &str) -> Duration {
    let input = File::open(folder.join("messages")).expect("the messages were written");
    let output = File::create(folder.join(answers)).expect("a file can be written");
    let begun = Instant::now();
    let status = Command::new(program).current_dir(folder).stdin(input).stdout(output).status();
    assert!(status.expect("the program can be started").success(), "{} fails", program.display());
    begun.elapsed()
}
