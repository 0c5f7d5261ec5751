//! A terminal of our own. The only unsafe code of this crate.

#![allow(unsafe_code)]

use std::ffi::{CStr, OsStr};
use std::fs::File;
use std::io;
use std::os::fd::{AsRawFd, FromRawFd};
use std::os::raw::{c_char, c_int};
use std::os::unix::ffi::OsStrExt;

extern "C" {
    fn posix_openpt(flags: c_int) -> c_int;
    fn grantpt(fd: c_int) -> c_int;
    fn unlockpt(fd: c_int) -> c_int;
    fn ptsname(fd: c_int) -> *const c_char;
}

/// O_RDWR, O_NOCTTY and O_CLOEXEC, as Linux has them: the program must not have the side of whoever types.
const FLAGS: c_int = 0o2 | 0o400 | 0o2_000_000;

/// The side of whoever types and sees, and that of the program.
pub fn open() -> io::Result<(File, File)> {
    // SAFETY: the call takes a number alone.
    let number = fails_below_0(unsafe { posix_openpt(FLAGS) })?;
    // SAFETY: the number is that of a file just opened, which nobody else has.
    let typist = unsafe { File::from_raw_fd(number) };
    // SAFETY: the calls take the number of a file that is open.
    fails_below_0(unsafe { grantpt(typist.as_raw_fd()) })?;
    fails_below_0(unsafe { unlockpt(typist.as_raw_fd()) })?;
    // SAFETY: as above. What comes back is null or a text that lives until the next such call, of which there is none before it is copied:
    // terminals are opened by one thread.
    let name = unsafe {
        let name = ptsname(typist.as_raw_fd());
        if name.is_null() {
            return Err(io::Error::last_os_error());
        }
        OsStr::from_bytes(CStr::from_ptr(name).to_bytes()).to_os_string()
    };
    let program = File::options().read(true).write(true).open(name)?;
    Ok((typist, program))
}

fn fails_below_0(answer: c_int) -> io::Result<c_int> {
    match answer {
        0.. => Ok(answer),
        _ => Err(io::Error::last_os_error()),
    }
}
