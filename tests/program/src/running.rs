//! A program that runs, with a limit on how long anything may take.

use std::io::{self, Read, Write};
use std::process::{Child, ChildStdin, Command, ExitStatus};
use std::sync::mpsc::{channel, Receiver, RecvTimeoutError};
use std::thread;
use std::time::{Duration, Instant};

use harness::{ensure, Check};

use crate::printed::same;

/// No single answer, nor the end of a program that should end, takes so long.
const LIMIT: Duration = Duration::from_secs(20);

/// Is ended where it didn't end.
pub struct Running {
    child: Child,
}

impl Running {
    pub fn start(mut command: Command) -> Result<Self, String> {
        let child = command.spawn().map_err(|error| format!("can't be started: {error}"))?;
        Ok(Running { child })
    }

    pub fn id(&self) -> u32 {
        self.child.id()
    }

    pub fn input(&mut self) -> ChildStdin {
        self.child.stdin.take().expect("standard input is a pipe that wasn't taken")
    }

    pub fn output(&mut self) -> Output {
        Output::of(self.child.stdout.take().expect("standard output is a pipe that wasn't taken"))
    }

    /// It prints this, and ends with status 0.
    pub fn prints(mut self, expected: &[u8]) -> Check {
        same(&self.output().rest()?, expected)?;
        self.ends_well()
    }

    pub fn ends_well(self) -> Check {
        let status = self.end()?;
        ensure(status.success(), || format!("it ends with {status}"))
    }

    /// How it ended; it must end by itself.
    pub fn end(mut self) -> Result<ExitStatus, String> {
        let begun = Instant::now();
        while begun.elapsed() < LIMIT {
            if let Some(status) = self.child.try_wait().map_err(reason)? {
                return Ok(status);
            }
            thread::sleep(Duration::from_millis(1));
        }
        Err("it doesn't end".to_string())
    }
}

impl Drop for Running {
    fn drop(&mut self) {
        self.child.kill().ok();
        self.child.wait().ok();
    }
}

/// What a program writes, as it comes.
pub struct Output {
    pieces: Receiver<Vec<u8>>,
    bytes: Vec<u8>,
}

impl Output {
    pub fn of(mut source: impl Read + Send + 'static) -> Self {
        let (sender, pieces) = channel();
        thread::spawn(move || {
            let mut buffer = vec![0; 1 << 16];
            while let Ok(count @ 1..) = source.read(&mut buffer) {
                if sender.send(buffer[..count].to_vec()).is_err() {
                    return;
                }
            }
        });
        Output { pieces, bytes: Vec::new() }
    }

    /// The next line with its LF.
    pub fn line(&mut self) -> Result<String, String> {
        loop {
            if let Some(place) = self.bytes.iter().position(|&byte| byte == b'\n') {
                let line = self.bytes.drain(..=place).collect::<Vec<_>>();
                return Ok(String::from_utf8_lossy(&line).into_owned());
            }
            let piece = self.pieces.recv_timeout(LIMIT).map_err(|error| format!("no answer comes: {error}"))?;
            self.bytes.extend(piece);
        }
    }

    /// All that is left, to the end.
    pub fn rest(mut self) -> Result<Vec<u8>, String> {
        loop {
            match self.pieces.recv_timeout(LIMIT) {
                Ok(piece) => self.bytes.extend(piece),
                Err(RecvTimeoutError::Disconnected) => return Ok(self.bytes),
                Err(RecvTimeoutError::Timeout) => return Err("what it prints doesn't end".to_string()),
            }
        }
    }
}

/// Writes everything from a thread of its own, and closes.
pub fn feed(mut input: impl Write + Send + 'static, bytes: Vec<u8>) {
    thread::spawn(move || input.write_all(&bytes));
}

/// An error of the system, as a check says it.
pub fn reason(error: io::Error) -> String {
    error.to_string()
}
