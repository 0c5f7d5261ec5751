//! What the system says of a program that runs, where it says so (`/proc` of Linux).

use std::fs;

/// Its reads and writes so far.
pub fn reads_and_writes(id: u32) -> Option<(u64, u64)> {
    let io = fs::read_to_string(format!("/proc/{id}/io")).ok()?;
    Some((field(&io, "syscr:")?, field(&io, "syscw:")?))
}

/// The most memory it had so far, in KiB.
pub fn most_memory(id: u32) -> Option<u64> {
    field(&fs::read_to_string(format!("/proc/{id}/status")).ok()?, "VmHWM:")
}

/// The memory it has now, in KiB.
pub fn memory(id: u32) -> Option<u64> {
    field(&fs::read_to_string(format!("/proc/{id}/status")).ok()?, "VmRSS:")
}

fn field(text: &str, name: &str) -> Option<u64> {
    text.lines().find_map(|line| line.strip_prefix(name))?.split_whitespace().next()?.parse().ok()
}
