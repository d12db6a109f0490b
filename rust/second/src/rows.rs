//! Rows as the lister prints them, and the lister itself; the rows of a file that
//! is watched.

use crate::book::{self, Book};
use crate::day::{self, Day};
use crate::memory::Memory;
use crate::settle::{self, Line, Rate, Stage, Statement};
use crate::switches::Switch;
use crate::watch::{self, Totals};
use std::fmt::Write;

/// The memory that a program lends: minutes of kW and of revisions, and lines.
#[derive(Clone, Copy, PartialEq, Eq, Debug)]
pub struct Room {
    pub minutes: usize,
    pub lines: usize,
}

fn line_row(line: &Line) -> String {
    let stage = match line.stage {
        Stage::RampUp => 'U',
        Stage::Steady => 'S',
        Stage::RampDown => 'D',
    };
    let rate = match line.rate {
        Rate::Utilisation => 'C',
        Rate::Optional => 'O',
    };
    format!(
        "L {} {} {stage} {rate} {} {} {} {}\n",
        line.instruction, line.period, line.expected, line.delivered, line.capped, line.pence
    )
}

pub fn statement_rows(statement: &Statement) -> String {
    let mut rows = String::new();
    for line in &statement.lines {
        rows.push_str(&line_row(line));
    }
    for (index, window) in statement.windows.iter().enumerate() {
        let number = index + 1;
        writeln!(rows, "A {number} {} {}", window.paid_periods, window.pence)
            .expect("text takes every row");
    }
    rows + &month_row(statement)
}

/// The T row.
fn month_row(statement: &Statement) -> String {
    format!(
        "T {} {} {} {}\n",
        statement.capped,
        statement.utilisation_pence,
        statement.availability_pence,
        statement.all_pence
    )
}

/// The M row.
pub fn totals_row(totals: &Totals) -> String {
    format!(
        "M {} {} {} {} {} {} {}\n",
        totals.instruction,
        totals.minute,
        totals.base,
        totals.expected,
        totals.delivered,
        totals.capped,
        totals.pence
    )
}

pub fn refusal_row(number: u8, offset: usize) -> String {
    format!("R {number} {offset}\n")
}

/// What the lister prints for a file: it ends at the first refusal.
pub fn list(file: &[u8], room: Room, switch: Switch) -> String {
    match entered(file, room.minutes, switch) {
        Ok((book, memory)) => settlement_rows(file, &book, &memory, room, switch),
        Err(row) => row,
    }
}

/// The book and the readings of a file, or the row of its first refusal.
fn entered(file: &[u8], minutes: usize, switch: Switch) -> Result<(Book, Memory), String> {
    let mut book = Book::default();
    let mut memory = Memory::of_minutes(minutes);
    for command in book::enter_file(file, &mut book, &mut memory, true, switch) {
        command
            .answer
            .map_err(|number| refusal_row(number, command.offset))?;
    }
    Ok((book, memory))
}

/// What became of each command of a file, and then the settlement.
pub fn answers(file: &[u8], room: Room, switch: Switch) -> String {
    let mut book = Book::default();
    let mut memory = Memory::of_minutes(room.minutes);
    let mut rows = String::new();
    for entered in book::enter_file(file, &mut book, &mut memory, false, switch) {
        match entered.answer {
            Ok(()) => rows.push_str("taken\n"),
            Err(number) => writeln!(rows, "{number}").expect("text takes every row"),
        }
    }
    rows + &settlement_rows(file, &book, &memory, room, switch)
}

/// What is printed of a file that is watched: the totals after each active
/// minute, up to one that lacks a reading, and the month's T row where it can be
/// settled. Nothing of a file with a refusal.
pub fn watch(file: &[u8], room: Room, switch: Switch) -> String {
    let Ok((book, memory)) = entered(file, room.minutes, switch) else {
        return String::new();
    };
    let mut rows = String::new();
    for totals in watch::totals(&book, &memory, switch) {
        rows.push_str(&totals_row(&totals));
    }
    if let Ok(statement) = settle::settle(&book, &memory, room.lines, switch) {
        rows.push_str(&month_row(&statement));
    }
    rows
}

pub fn day_row(day: Day) -> &'static str {
    match day {
        Day::None => "no such day\n",
        Day::Working => "working\n",
        Day::NonWorking => "non-working\n",
    }
}

/// What is printed of a day of a file's month, or the file's refusal.
pub fn day(file: &[u8], minutes: usize, number: i64, holidays: &[i64], switch: Switch) -> String {
    match entered(file, minutes, switch) {
        Ok((book, _)) => day_row(day::day(&book, number, holidays, switch)).to_string(),
        Err(row) => row,
    }
}

fn settlement_rows(
    file: &[u8],
    book: &Book,
    memory: &Memory,
    room: Room,
    switch: Switch,
) -> String {
    match settle::settle(book, memory, room.lines, switch) {
        Ok(statement) => statement_rows(&statement),
        Err(number) => refusal_row(number, file.len()),
    }
}
