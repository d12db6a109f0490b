//! A statement, taken from the library's numbers, and why there may be none.

use crate::{LINE_NUMBERS, SUMS};

/// Turned down under a number of document 01.
#[derive(Clone, Copy, PartialEq, Eq, Debug)]
pub struct Refusal {
    /// As document 01 counts them.
    pub number: u8,
    /// The refused command's first byte, or the file's length when settling;
    /// 0 for a book given as tables.
    pub offset: u64,
}

/// Why there is no statement.
#[derive(Clone, Copy, PartialEq, Eq, Debug)]
pub enum Failure {
    /// The file or the tables are turned down.
    Refused(Refusal),
    /// The library's numbers have not the form that it promises, so that they
    /// are no statement; a caller would have to distrust the library.
    Malformed,
}

/// A part of an instruction.
#[derive(Clone, Copy, PartialEq, Eq, Debug)]
pub enum Stage {
    /// Before the response expires.
    RampUp,
    /// Until the cease.
    Steady,
    /// After the cease.
    RampDown,
}

/// What a segment is paid at.
#[derive(Clone, Copy, PartialEq, Eq, Debug)]
pub enum Rate {
    /// In a live window, and on the ramps that lead into and out of one.
    Utilisation,
    /// Everywhere else.
    Optional,
}

/// One segment: expected, delivered and capped in kWh.
#[derive(Clone, Copy, PartialEq, Eq, Debug)]
pub struct Line {
    /// From 1.
    pub instruction: i64,
    /// From 1, through the month.
    pub period: i64,
    /// Which part of the instruction.
    pub stage: Stage,
    /// What it is paid at.
    pub rate: Rate,
    /// By the contract.
    pub expected: i64,
    /// By the metering.
    pub delivered: i64,
    /// The lesser of the two, or 0 if that is below 0.
    pub capped: i64,
    /// Of the capped kWh.
    pub pence: i64,
}

/// What a window is paid for availability.
#[derive(Clone, Copy, PartialEq, Eq, Debug)]
pub struct WindowPay {
    /// How many of its settlement periods are paid.
    pub paid_periods: i64,
    /// Of all of them.
    pub pence: i64,
}

/// What a month is paid.
#[derive(Clone, PartialEq, Eq, Debug)]
pub struct Statement {
    /// One for each segment, by rising minute.
    pub lines: Vec<Line>,
    /// One for each window entered, live or not.
    pub windows: Vec<WindowPay>,
    /// Of all lines, in kWh.
    pub capped: i64,
    /// Of all lines.
    pub utilisation_pence: i64,
    /// Of all windows.
    pub availability_pence: i64,
    /// Of both.
    pub all_pence: i64,
}

impl Statement {
    /// Of the numbers that a settlement left, or none where they have not the
    /// promised form. No numbers whatever make this panic.
    pub fn of_numbers(lines: &[i64], sums: &[i64; SUMS]) -> Option<Statement> {
        let [line_count, window_count, capped, utilisation, availability, all, pay @ ..] = sums;
        Some(Statement {
            lines: records(lines, LINE_NUMBERS, *line_count, Line::of_numbers)?,
            windows: records(pay, 2, *window_count, WindowPay::of_numbers)?,
            capped: *capped,
            utilisation_pence: *utilisation,
            availability_pence: *availability,
            all_pence: *all,
        })
    }
}

/// The first `count` records of `width` numbers; none if there are fewer.
fn records<T>(
    numbers: &[i64],
    width: usize,
    count: i64,
    record: fn(&[i64]) -> Option<T>,
) -> Option<Vec<T>> {
    let length = usize::try_from(count).ok()?.checked_mul(width)?;
    numbers
        .get(..length)?
        .chunks_exact(width)
        .map(record)
        .collect()
}

impl Line {
    fn of_numbers(numbers: &[i64]) -> Option<Line> {
        let &[instruction, period, stage, rate, expected, delivered, capped, pence] = numbers
        else {
            return None;
        };
        let stage = match stage {
            0 => Stage::RampUp,
            1 => Stage::Steady,
            2 => Stage::RampDown,
            _ => return None,
        };
        let rate = match rate {
            0 => Rate::Utilisation,
            1 => Rate::Optional,
            _ => return None,
        };
        Some(Line {
            instruction,
            period,
            stage,
            rate,
            expected,
            delivered,
            capped,
            pence,
        })
    }
}

impl WindowPay {
    fn of_numbers(numbers: &[i64]) -> Option<WindowPay> {
        let &[paid_periods, pence] = numbers else {
            return None;
        };
        Some(WindowPay {
            paid_periods,
            pence,
        })
    }
}
