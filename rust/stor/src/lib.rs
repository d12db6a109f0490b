//! The proved settlement of a STOR unit's month, for Rust programs: safe calls
//! over the static library that `rt lib` makes of `crates/host`. What stands
//! behind the calls is proved; this crate is tested only, and is small for that
//! reason.
//!
//! [`Memory`] is what calls are lent. It is made once and serves file after
//! file:
//!
//! ```
//! let file = std::fs::read("../../examples/appendix2.unit")?;
//! let mut memory = stor::Memory::of_month();
//!
//! let statement = memory.settle_file(&file).expect("a month that can be settled");
//! assert_eq!(statement.lines.len(), 6);
//! assert_eq!(statement.all_pence, 416_400);
//!
//! // The same file without its close is turned down, under 24.
//! let open = &file[..file.len() - 1];
//! let refusal = stor::Refusal { number: 24, offset: open.len() as u64 };
//! assert_eq!(memory.settle_file(open), Err(stor::Failure::Refused(refusal)));
//! # Ok::<(), std::io::Error>(())
//! ```
//!
//! A month can be given as [`Tables`] too, with its readings in
//! [`Memory::meter`] and their revisions in [`Memory::revisions`].
//!
//! A month with a date knows its days: [`Memory::day_file`] answers which kind of
//! [`Day`] one of them is.
//!
//! A month can also be watched minute by minute: [`Month`] is worked out once,
//! and [`Totals`] take a step for each active minute.

#![warn(missing_docs)]

mod day;
// The one module that calls C functions.
#[allow(unsafe_code)]
pub mod library;
mod memory;
pub mod rows;
mod statement;
#[cfg(test)]
mod tests;
mod watch;

pub use day::Day;
pub use memory::{Memory, Tables};
pub use statement::{Failure, Line, Rate, Refusal, Stage, Statement, WindowPay};
pub use watch::{Month, StepRefusal, Stop, Totals, Walk};

/// Minutes of metering, and of revisions, that every month fits: an October has 31
/// days and an hour.
pub const MONTH_MINUTES: usize = 44_700;
/// Line records that every month fits.
pub const MONTH_LINES: usize = 1_682;
/// Bytes that every written month fits. A file that is read can be longer: it
/// may read a minute once and revise it 255 times.
pub const MONTH_BYTES: usize = 359_366;
/// The numbers of a contract's row: its own eleven, and three of the date.
pub const CONTRACT_NUMBERS: usize = 14;
/// The window entries of a statement, used or not.
pub const WINDOWS: usize = 128;
/// The numbers of one line record.
pub const LINE_NUMBERS: usize = 8;
/// The numbers before the window entries.
const TOTALS: usize = 6;
/// The numbers of a statement's sums: totals, and two for each window entry.
pub const SUMS: usize = TOTALS + 2 * WINDOWS;
/// The numbers that watching a month needs of it.
pub const MONTH_NUMBERS: usize = 1_816;
/// The numbers of running totals.
pub const TOTAL_NUMBERS: usize = 7;
/// What a contract puts into each cell of its days, and a date into those of the
/// hour that its month gains.
pub const NO_READING: i32 = i32::MIN;
