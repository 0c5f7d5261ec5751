//! A folder of its own to run the program in.

use std::fs;
use std::path::{Path, PathBuf};
use std::process::{self, Command, Stdio};
use std::sync::atomic::{AtomicUsize, Ordering};

/// The schema of P1, and its answer.
pub const STOP_LOT: &[u8] = b"{'command':'stop-lot','data':{'lot':'str'}}";
pub const STOP_LOT_ANSWER: &str = "0 3 0\n";

/// From this crate's folder.
const EXAMPLE: &str = "../../examples/seed-batch";

/// The schema and the messages of the worked example.
pub fn example() -> Result<(Vec<u8>, Vec<u8>), String> {
    let folder = Path::new(env!("CARGO_MANIFEST_DIR")).join(EXAMPLE);
    let read = |name: &str| fs::read(folder.join(name)).map_err(|error| format!("{name} of seed-batch: {error}"));
    Ok((read("schema.json")?, read("messages.txt")?))
}

/// Is removed with all that is in it.
pub struct Folder {
    path: PathBuf,
}

impl Folder {
    pub fn new() -> Self {
        static COUNT: AtomicUsize = AtomicUsize::new(0);
        let name = format!("windosprio-{}-{}", process::id(), COUNT.fetch_add(1, Ordering::Relaxed));
        let path = std::env::temp_dir().join(name);
        fs::create_dir(&path).expect("a folder can be made among those for temporary files");
        Folder { path }
    }

    pub fn with_schema(schema: &[u8]) -> Self {
        let folder = Folder::new();
        fs::write(folder.schema(), schema).expect("a file can be written in a new folder");
        folder
    }

    pub fn schema(&self) -> PathBuf {
        self.file("schema.json")
    }

    pub fn file(&self, name: &str) -> PathBuf {
        self.path.join(name)
    }

    /// A program to be started here, with pipes for what it reads and writes.
    pub fn command(&self, program: &Path) -> Command {
        let mut command = Command::new(program);
        command.current_dir(&self.path).stdin(Stdio::piped()).stdout(Stdio::piped());
        command
    }

    /// The same started by a line of shell, which has it as `$0`.
    pub fn shell(&self, program: &Path, line: &str) -> Command {
        let mut command = self.command(Path::new("sh"));
        command.args(["-c", line]).arg(program);
        command
    }
}

impl Drop for Folder {
    fn drop(&mut self) {
        fs::remove_dir_all(&self.path).ok();
    }
}
