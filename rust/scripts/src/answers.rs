//! What entering answers, and cells of meter memory with their revisions.

use crate::held::Held;
use crate::line::Line;
use second::day::Day;
use second::rules::NO_READING;

/// A command with its answer and what the book then holds.
pub fn print_entry(line: &Line, answer: Result<(), u8>, after: &Held) {
    let answer = answer.map_or_else(|number| number.to_string(), |()| "taken".to_string());
    println!("{}: {answer} / {}", line.text, summary(after));
}

/// Contract, windows, instructions, defaults, closed.
fn summary(held: &Held) -> String {
    let [windows, instructions, defaults] = held.counts;
    let agreed = u8::from(held.agreed);
    let closed = u8::from(held.closed);
    format!("{agreed} {windows} {instructions} {defaults} {closed}")
}

/// A day with its kind, or with 11.
pub fn print_day(line: &Line, answer: Result<Day, u8>) {
    let kind = match answer {
        Err(number) => number.to_string(),
        Ok(Day::None) => "no such day".to_string(),
        Ok(Day::Working) => "working".to_string(),
        Ok(Day::NonWorking) => "non-working".to_string(),
    };
    println!("{}: {kind}", line.text);
}

/// A minute's cell, then its revision byte.
pub fn print_minute(line: &Line, kw: i32, revision: u8) {
    let cell = match kw {
        NO_READING => "marked".to_string(),
        ..0 => "negative".to_string(),
        _ => kw.to_string(),
    };
    println!("{}: {cell} / {revision}", line.text);
}
