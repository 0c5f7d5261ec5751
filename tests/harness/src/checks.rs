//! Checks of inputs that report the smallest one that fails.

use generate::shrink::smallest;

/// Nothing, or what is wrong.
pub type Check = Result<(), String>;

/// Bytes shown of an input.
const MOST_SHOWN: usize = 4_000;

/// Fails with the smallest part of `bytes` that `check` refuses.
pub fn check_bytes(what: &str, bytes: &[u8], check: impl Fn(&[u8]) -> Check) -> Check {
    let Err(first) = check(bytes) else {
        return Ok(());
    };
    let least = smallest(bytes, |part| check(part).is_err());
    let reason = check(&least).err().unwrap_or(first);
    Err(format!("{what}: {reason}\nsmallest input, {}", shown(&least)))
}

/// Fails where an answer isn't the one that follows from how its input was made.
pub fn check_expected<T: PartialEq + std::fmt::Debug>(what: &str, bytes: &[u8], got: T, expected: T) -> Check {
    ensure(got == expected, || format!("{what}: got {got:?}, expected {expected:?}\ninput, {}", shown(bytes)))
}

/// Fails with a reason where something doesn't hold.
pub fn ensure(holds: bool, reason: impl FnOnce() -> String) -> Check {
    match holds {
        true => Ok(()),
        false => Err(reason()),
    }
}

fn shown(bytes: &[u8]) -> String {
    let (start, more) = match bytes.get(..MOST_SHOWN) {
        Some(start) => (start, "..."),
        None => (bytes, ""),
    };
    format!("{} bytes: {}{more}", bytes.len(), start.escape_ascii())
}
