//! What files meet with dates, and days that are asked.

use super::{answer, Coverage, FEATURES};
use crate::question::Question;
use second::book::{Book, Entered};
use second::bytes::{self, Command, Contract, Date, Read};
use second::calendar;
use second::day::{self, Day};
use second::memory::Memory;
use second::rows::Room;
use second::rules::*;
use second::settle::Statement;
use second::switches::Switch;

/// No month has more lines: an October's.
const MOST_LINES: usize = 1_681;

impl Coverage {
    /// Of a month that is settled.
    pub fn count_dated(&mut self, book: &Book, memory: &Memory, statement: &Statement) {
        let (Some(contract), Some(date)) = (&book.contract, &book.date) else {
            return;
        };
        self.count_month(date);
        let undated = undated_span(contract);
        let span = book.span(Switch::RIGHT);
        let (gained, lost) = (span > undated, span < undated);
        let read = (0..span).all(|minute| memory.has_reading(minute));
        self.met("dated, a reading in every minute", read);
        let last = memory.has_reading(span - 1);
        self.met("dated, last minute of a gained hour read", gained && last);
        self.met("dated, last minute before a lost hour read", lost && last);
        let ends = |minute: i64| {
            let end = |i| instruction_end(contract, i, Switch::RIGHT);
            book.instructions.iter().map(end).any(|f| f == minute)
        };
        self.met(
            "dated, instruction to the end of a gained hour",
            gained && ends(span),
        );
        self.met(
            "dated, instruction to the end before a lost hour",
            lost && ends(span),
        );
        let window = book.windows.iter().any(|window| window.end == span);
        self.met(
            "dated, window to the end of a gained hour",
            gained && window,
        );
        self.met(
            "dated, window to the end before a lost hour",
            lost && window,
        );
        let lines = statement.lines.len();
        self.met("dated, 1681 lines", lines == MOST_LINES);
    }

    /// Which month it is, and how long.
    fn count_month(&mut self, date: &Date) {
        let days = calendar::days_of(date.year, date.month, Switch::RIGHT);
        for name in [
            format!("dated, month {}", date.month),
            format!("dated, {days} days"),
        ] {
            let known = FEATURES.iter().find(|feature| **feature == name);
            self.met(known.expect("months and days are listed"), true);
        }
    }

    /// Why a date, or an entry of a dated month, was refused: of entering, the last
    /// command, and the book before it.
    pub fn count_dates(&mut self, file: &[u8], entered: &[Entered], book: &Book, memory: &Memory) {
        let (Some(last), Some(contract)) = (entered.last(), &book.contract) else {
            return;
        };
        let Read::Command(command, _) = bytes::read(file, last.offset, Switch::RIGHT) else {
            return;
        };
        match command {
            Command::Date(date) => self.count_refused_date(last, &date, contract, book, memory),
            Command::Reading(r) => self.count_outside(last, r.minute, contract, book),
            Command::Revision(v) => self.count_outside(last, v.minute, contract, book),
            _ => {}
        }
    }

    fn count_refused_date(
        &mut self,
        last: &Entered,
        date: &Date,
        contract: &Contract,
        book: &Book,
        memory: &Memory,
    ) {
        let late = last.answer == Err(29);
        let windows = !book.windows.is_empty();
        let instructions = !book.instructions.is_empty();
        let undated = undated_span(contract);
        let read = (0..undated).any(|minute| memory.has_reading(minute));
        let last_read = memory.has_reading(undated - 1);
        let alone = late && !instructions && book.date.is_none();
        self.met("dated behind a date", late && book.date.is_some());
        self.met("dated behind a window", alone && windows && !read);
        self.met(
            "dated behind an instruction",
            late && instructions && !windows,
        );
        self.met("dated behind a reading", alone && read && !windows);
        self.met(
            "dated behind a reading of the last minute",
            alone && last_read,
        );
        let other = last.answer == Err(30);
        let days = calendar::days_of(date.year, date.month, Switch::RIGHT);
        let (first, same) = (date.day == 1, days == contract.days);
        self.met(
            "dated by another day than the first",
            other && !first && same,
        );
        self.met("dated as a month of other days", other && first && !same);
    }

    /// A minute that a date has put out of the month, or has not put into it.
    fn count_outside(&mut self, last: &Entered, minute: i64, contract: &Contract, book: &Book) {
        let span = book.span(Switch::RIGHT);
        let (outside, undated) = (last.answer == Err(16), undated_span(contract));
        self.met(
            "dated, a minute of a lost hour",
            outside && minute < undated,
        );
        let behind = span > undated && minute == span;
        self.met("dated, the minute behind a gained hour", outside && behind);
    }

    /// Counts a day that is asked of a file.
    pub fn add_asked(&mut self, file: &[u8], room: Room, question: &Question) {
        self.asked = true;
        let (entered, book, _) = self.entered(file, room);
        if answer(&entered).is_err() {
            self.refused += 1;
            self.met("asked of a refused file", true);
            return;
        }
        let Question { day, holidays } = question;
        let kind = day::day(&book, *day, holidays, Switch::RIGHT);
        let Some(date) = book.date else {
            self.met("asked without a date", *day > 0);
            return;
        };
        let days = calendar::days_of(date.year, date.month, Switch::RIGHT);
        let listed = holidays.contains(day);
        let sunday = kind == Day::NonWorking && !listed;
        self.met(
            "asked, working",
            kind == Day::Working && holidays.is_empty(),
        );
        let others = kind == Day::Working && !holidays.is_empty();
        self.met("asked, working, others are holidays", others);
        let zero = kind == Day::Working && holidays.contains(&0);
        self.met("asked, working, 0 is listed", zero);
        self.met("asked, Sunday", sunday);
        self.met("asked, holiday", kind == Day::NonWorking && listed);
        self.met("asked, day 0", *day == 0);
        self.met("asked, the first", *day == 1);
        self.met("asked, the last", *day == days);
        self.met("asked, behind the last", *day == days + 1);
        self.met("asked, no day and listed", kind == Day::None && listed);
    }
}
