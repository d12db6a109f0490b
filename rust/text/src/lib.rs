//! The text form of unit files: `pack` turns text into bytes, `show` bytes into
//! text.

mod pack;
mod show;
mod table;
#[cfg(test)]
mod tests;

pub use pack::pack;
pub use show::{describe, show};
