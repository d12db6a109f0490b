//! The second settlement of a STOR unit's month, written apart from the proved
//! one so that the two can be compared. It depends on no other crate.

pub mod book;
pub mod bytes;
pub mod calendar;
pub mod day;
pub mod memory;
pub mod rows;
pub mod rules;
pub mod settle;
pub mod switches;
#[cfg(test)]
mod tests;
pub mod watch;
pub mod write;
