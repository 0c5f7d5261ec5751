//! What the test programs share: options, rounds from seeds, checks that report the smallest failing input, counts of
//! what was reached, and the closing lines.

#![forbid(unsafe_code)]

mod checks;
mod options;
mod program;
mod tally;
pub mod usage;

pub use checks::{check_bytes, check_expected, ensure, Check};
pub use options::{Options, Rounds};
pub use program::{for_each_round, Report};
pub use tally::Tally;

/// The generators' dialect as the reference has it.
pub fn reference_dialect(dialect: generate::print::Dialect) -> reference::text::Dialect {
    match dialect {
        generate::print::Dialect::Schema => reference::text::Dialect::Schema,
        generate::print::Dialect::Message => reference::text::Dialect::Message,
    }
}
