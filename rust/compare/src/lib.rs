//! Unit files to order: what the comparison and the benchmark make them with.

pub mod entry;
pub mod month;
pub mod plan;
pub mod random;
pub mod scenes;
