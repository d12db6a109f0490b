//! The rows of settlements.

use second::book::Book;
use second::memory::Memory;
use second::rows::statement_rows;
use second::settle::{self, Statement};
use second::switches::Switch;

/// Settles a book, if it is one that the second implementation can hold, and
/// prints of the lines the first and each `step` on. The second implementation
/// has no records, so how many of them hold what they held before (row K) is
/// said here. Document 01: "nothing lent" is altered by a refusal, and "records
/// after" the lines "keep their contents".
pub fn print_settlement(
    book: Option<Book>,
    memory: &Memory,
    step: usize,
    records: usize,
    switch: Switch,
) {
    let answer = book
        .ok_or(11)
        .and_then(|book| settle::settle_any(&book, memory, records, switch));
    let lines = match answer {
        Err(number) => {
            println!("R {number}");
            0
        }
        Ok(statement) => {
            print_rows(&statement, step);
            statement.lines.len()
        }
    };
    println!("K {records} {lines} {}", records - lines);
}

/// Of step 0 only the totals.
fn print_rows(statement: &Statement, step: usize) {
    let lines = statement.lines.len();
    let totals = lines + statement.windows.len();
    for (place, row) in statement_rows(statement).lines().enumerate() {
        if place == totals || step > 0 && (place >= lines || place % step == 0) {
            println!("{row}");
        }
    }
}
