//! What the generated files met: refusals, ends of ranges, and features of
//! settled months. A comparison proves little about what it never met.

mod dated;
mod watched;

use second::book::{self, Book, Entered};
use second::bytes::{self, Command, Contract, Instruction, Read};
use second::calendar;
use second::memory::Memory;
use second::rows::Room;
use second::rules::*;
use second::settle::{self, Rate, Stage, Statement};
use second::switches::Switch;
use std::collections::BTreeMap;
use std::ops::RangeInclusive;

/// The refusals that a file can meet.
pub const REFUSALS: [u8; 23] = [
    1, 2, 3, 4, 5, 28, 12, 13, 14, 15, 29, 30, 16, 17, 18, 19, 20, 21, 22, 27, 23, 24, 25,
];
/// Of these, what only settling meets.
const SETTLING: [u8; 2] = [24, 25];

const FEATURES: [&str; 156] = [
    "settled, generator",
    "settled, demand reducer",
    "settled, committed",
    "settled, flexible",
    "no line",
    "line, ramp up",
    "line, steady",
    "line, ramp down",
    "line, utilisation rate",
    "line, optional rate",
    "line, delivered below 0",
    "line, delivered above expected",
    "line, floored, generator",
    "line, floored, demand reducer",
    "line, floored, second instruction",
    "line, floored, later day",
    "line, floored, flexible",
    "line, floored beside one that is paid",
    "line, delivered below 0 in some minutes alone",
    "line, half a kWh above 0",
    "line, half a kWh below 0",
    "line, half a penny above 0",
    "as many lines as the days hold",
    "windows touch",
    "window rejected",
    "window excluded",
    "window excluded, committed",
    "window starts at f",
    "window starts at f + 1",
    "window starts at f + recovery + response - 1",
    "window starts at f + recovery + response",
    "window excluded, instruction in it",
    "window partly paid",
    "window not paid",
    "period of half a penny",
    "instruction across periods",
    "instruction issued at 3",
    "instruction issued at last end + recovery",
    "instruction ends with the span",
    "cease = e",
    "U = response",
    "V = 240",
    "base load in an earlier instruction",
    "base load in its own ramp up",
    "ramp up paid by e alone",
    "ramp up in a window, e outside",
    "ramp down paid by cease - 1 alone",
    "ramp down in a window, cease - 1 outside",
    "default 1 1",
    "default 1 2",
    "default 1 3",
    "default 2 1",
    "default 2 2",
    "default 2 3",
    "default 3 1",
    "default 3 2",
    "default 3 3",
    "default 4 1",
    "default 4 2",
    "default 4 3",
    "default in a window that is not live",
    "P from 1 to 29",
    "P 30",
    "more than 30 faulted windows",
    "table full",
    "reading below 0",
    "minutes without a reading",
    "needed minute revised",
    "revision, minute without a reading",
    "revision over a plain reading",
    "revision over a revision",
    "revision just above",
    "revision equal to the one held",
    "revision below the one held",
    "plain reading over a revision",
    "a reading and 255 revisions of a minute",
    "31 days",
    "31 days, every table full",
    "31 days, a reading in every minute",
    "31 days, 1679 lines",
    "dated, month 1",
    "dated, month 2",
    "dated, month 3",
    "dated, month 4",
    "dated, month 5",
    "dated, month 6",
    "dated, month 7",
    "dated, month 8",
    "dated, month 9",
    "dated, month 10",
    "dated, month 11",
    "dated, month 12",
    "dated, 28 days",
    "dated, 29 days",
    "dated, 30 days",
    "dated, 31 days",
    "dated, a reading in every minute",
    "dated, last minute of a gained hour read",
    "dated, last minute before a lost hour read",
    "dated, instruction to the end of a gained hour",
    "dated, instruction to the end before a lost hour",
    "dated, window to the end of a gained hour",
    "dated, window to the end before a lost hour",
    "dated, 1681 lines",
    "dated, a minute of a lost hour",
    "dated, the minute behind a gained hour",
    "dated behind a date",
    "dated behind a window",
    "dated behind an instruction",
    "dated behind a reading",
    "dated behind a reading of the last minute",
    "dated by another day than the first",
    "dated as a month of other days",
    "written, empty",
    "written, open",
    "written, closed",
    "written, in another order",
    "written, revised",
    "written, dated",
    "written, reading in a gained hour",
    "watched, open",
    "watched, closed",
    "watched, no contract",
    "watched, no active minute",
    "watched, stopped at a minute",
    "watched, stopped at a base minute",
    "watched, generator",
    "watched, demand reducer",
    "watched, second instruction",
    "watched, later day",
    "watched, cease = e",
    "watched, ramp up across periods",
    "watched, ramp down across periods",
    "watched, ramp up paid by e alone",
    "watched, ramp down paid by cease - 1 alone",
    "watched, base minute active in the instruction before",
    "watched, base minute active in its own ramp up",
    "watched, minute in a rejected window",
    "watched, minute in an excluded window",
    "watched, segment of one minute",
    "watched, reading revised",
    "watched, delivered below 0 after a paid line",
    "watched, dated",
    "watched, minute of a gained hour",
    "asked of a refused file",
    "asked without a date",
    "asked, working",
    "asked, working, others are holidays",
    "asked, working, 0 is listed",
    "asked, Sunday",
    "asked, holiday",
    "asked, day 0",
    "asked, the first",
    "asked, the last",
    "asked, behind the last",
    "asked, no day and listed",
];

/// Features that start like this are met in whole months alone, and must be
/// met by a comparison on them.
const WHOLE_MONTH: [&str; 2] = ["31 days", "dated"];
/// Features that start like these are met where files are written, watched, or
/// asked for a day.
const WRITTEN: &str = "written";
const WATCHED: &str = "watched";
const ASKED: &str = "asked";
/// No month without a date has more lines.
const MOST_LINES: i64 = 1_679;

#[derive(Default)]
pub struct Coverage {
    pub files: usize,
    pub bytes: usize,
    pub longest: usize,
    /// Whether some program had memory for whole months.
    whole_months: bool,
    /// Whether some program had less.
    short_months: bool,
    /// Whether some program listed files, wrote or watched them, or was asked for
    /// days.
    listed: bool,
    written: bool,
    watched: bool,
    asked: bool,
    /// Months that have active minutes, and these, where they are watched.
    months: usize,
    minutes: usize,
    lines: usize,
    windows: usize,
    refused: usize,
    refusals: BTreeMap<u8, usize>,
    features: BTreeMap<&'static str, usize>,
    /// For each operand: just below, lowest, highest, just above. None where
    /// the operand's bytes hold no such number.
    ends: BTreeMap<&'static str, [Option<usize>; 4]>,
}

impl Coverage {
    /// Counts what a file meets under the right rules when it is listed.
    pub fn add_listed(&mut self, file: &[u8], room: Room) {
        self.listed = true;
        let (taken, book, memory) = self.add(file, room);
        let settled =
            taken.and_then(|()| settle::settle(&book, &memory, room.lines, Switch::RIGHT));
        match settled {
            Err(number) => self.count_refusal(number),
            Ok(statement) => self.count_statement(&book, &memory, &statement),
        }
    }

    /// The same when its book is written: `written` is the file of it.
    pub fn add_written(&mut self, file: &[u8], room: Room, written: &[u8]) {
        self.written = true;
        let (taken, book, memory) = self.add(file, room);
        if let Err(number) = taken {
            self.count_refusal(number);
            return;
        }
        let empty = book.contract.is_none();
        self.met("written, empty", empty);
        self.met("written, open", !empty && !book.closed);
        self.met("written, closed", book.closed);
        self.met("written, in another order", written != file);
        let span = 0..book.span(Switch::RIGHT);
        let gained = |minute: i64| minute >= *DAYS.end() * DAY && memory.has_reading(minute);
        self.met("written, dated", book.date.is_some());
        self.met(
            "written, reading in a gained hour",
            span.clone().any(gained),
        );
        let revised = |minute| memory.has_reading(minute) && memory.revision(minute) > 0;
        self.met("written, revised", span.into_iter().any(revised));
    }

    /// Counts what entering a file meets; its answer, the book and the
    /// readings.
    fn add(&mut self, file: &[u8], room: Room) -> (Result<(), u8>, Book, Memory) {
        let whole = room.minutes as i64 >= *MINUTE.end();
        self.whole_months |= whole;
        self.short_months |= !whole;
        let (entered, book, memory) = self.entered(file, room);
        // What stands behind a refusal is not looked at, and so not met.
        for command in &entered {
            self.count_operands(file, command.offset);
        }
        self.count_revisions(file, &entered);
        self.count_dates(file, &entered, &book, &memory);
        (answer(&entered), book, memory)
    }

    /// Enters a file, up to its first refusal.
    fn entered(&mut self, file: &[u8], room: Room) -> (Vec<Entered>, Book, Memory) {
        self.files += 1;
        self.bytes += file.len();
        self.longest = self.longest.max(file.len());
        let mut book = Book::default();
        let mut memory = Memory::of_minutes(room.minutes);
        let entered = book::enter_file(file, &mut book, &mut memory, true, Switch::RIGHT);
        (entered, book, memory)
    }

    /// What revisions, and plain readings after them, find in their minute.
    fn count_revisions(&mut self, file: &[u8], entered: &[Entered]) {
        // Of each minute that was read: the revision held, and how many
        // readings it took.
        let mut held: BTreeMap<i64, (i64, usize)> = BTreeMap::new();
        for command in entered {
            let (minute, number) = match bytes::read(file, command.offset, Switch::RIGHT) {
                Read::Command(Command::Reading(r), _) => (r.minute, 0),
                Read::Command(Command::Revision(v), _) => (v.minute, v.number),
                _ => continue,
            };
            let before = held.get(&minute).copied();
            let over = before.map(|(number, _)| number);
            let revision = number > 0;
            let is_taken = command.answer.is_ok();
            let is_27 = command.answer == Err(27);
            self.met(
                "revision, minute without a reading",
                revision && is_taken && over.is_none(),
            );
            self.met(
                "revision over a plain reading",
                revision && is_taken && over == Some(0),
            );
            self.met(
                "revision over a revision",
                is_taken && over.is_some_and(|held| held > 0),
            );
            self.met(
                "revision just above",
                is_taken && over.is_some_and(|held| number == held + 1),
            );
            self.met(
                "revision equal to the one held",
                is_27 && over == Some(number),
            );
            self.met(
                "revision below the one held",
                is_27 && over.is_some_and(|held| number < held),
            );
            self.met(
                "plain reading over a revision",
                command.answer == Err(22) && over.is_some_and(|held| held > 0),
            );
            if is_taken {
                let count = before.map_or(1, |(_, count)| count + 1);
                self.met("a reading and 255 revisions of a minute", count == 256);
                held.insert(minute, (number, count));
            }
        }
    }

    fn count_refusal(&mut self, number: u8) {
        self.refused += 1;
        *self.refusals.entry(number).or_default() += 1;
    }

    /// The refusals that may be met with the programs and the memory that
    /// there were.
    fn refusals_to_meet(&self) -> impl Iterator<Item = u8> + '_ {
        REFUSALS
            .into_iter()
            .filter(|_| self.listed || self.written)
            .filter(|number| self.short_months || *number != 15)
            .filter(|number| self.listed || !SETTLING.contains(number))
    }

    /// The features that may be met with the programs and the memory that
    /// there were.
    fn features_to_meet(&self) -> impl Iterator<Item = &'static str> + '_ {
        FEATURES
            .into_iter()
            .filter(|feature| {
                let month = WHOLE_MONTH.iter().any(|start| feature.starts_with(start));
                self.whole_months || !month
            })
            .filter(|feature| match *feature {
                feature if feature.starts_with(WRITTEN) => self.written,
                feature if feature.starts_with(WATCHED) => self.watched,
                feature if feature.starts_with(ASKED) => self.asked,
                _ => self.listed,
            })
    }

    /// All that is counted and was never met.
    pub fn missing(&self) -> Vec<String> {
        let refusals = self
            .refusals_to_meet()
            .filter(|number| !self.refusals.contains_key(number))
            .map(|number| format!("refusal {number}"));
        let features = self
            .features_to_meet()
            .filter(|feature| !self.features.contains_key(feature))
            .map(str::to_string);
        let places = ["just below", "lowest", "highest", "just above"];
        let ends = self.ends.iter().flat_map(|(name, counts)| {
            places
                .into_iter()
                .zip(counts)
                .filter(|(_, count)| **count == Some(0))
                .map(move |(place, _)| format!("{name}, {place}"))
        });
        refusals.chain(features).chain(ends).collect()
    }

    fn end(&mut self, name: &'static str, range: RangeInclusive<i64>, value: i64) {
        let points = [
            range.start() - 1,
            *range.start(),
            *range.end(),
            range.end() + 1,
        ];
        // Only a range that starts at 0 has nothing just below it: no sign there.
        // And only one that ends with its byte has nothing just above.
        let below = (*range.start() != 0).then_some(0);
        let above = (*range.end() != 255).then_some(0);
        let none_yet = [below, Some(0), Some(0), above];
        let counts = self.ends.entry(name).or_insert(none_yet);
        for (point, count) in points.into_iter().zip(counts) {
            if let (Some(count), true) = (count, point == value) {
                *count += 1;
            }
        }
    }

    /// Counts the operands of the command at an offset, if there is one.
    fn count_operands(&mut self, file: &[u8], offset: usize) {
        if let Read::Command(command, _) = bytes::read(file, offset, Switch::RIGHT) {
            match command {
                Command::Contract(c) => {
                    self.end("days", DAYS, c.days);
                    self.end("kind", EITHER, c.kind);
                    self.end("service", EITHER, c.service);
                    self.end("contracted kW", CONTRACTED_KW, c.kw);
                    self.end("ramp up", RAMP, c.ramp_up);
                    self.end("ramp down", RAMP, c.ramp_down);
                    self.end("response", RESPONSE, c.response);
                    self.end("recovery", RECOVERY, c.recovery);
                    self.end("availability rate", RATE, c.availability_rate);
                    self.end("utilisation rate", RATE, c.utilisation_rate);
                    self.end("optional rate", RATE, c.optional_rate);
                }
                Command::Date(d) => {
                    self.end("date year", YEAR, d.year);
                    self.end("date month", MONTH, d.month);
                    if YEAR.contains(&d.year) && MONTH.contains(&d.month) {
                        let days = calendar::days_of(d.year, d.month, Switch::RIGHT);
                        self.end("date day", 1..=days, d.day);
                    }
                }
                Command::Window(w) => {
                    self.end("window start", MINUTE, w.start);
                    self.end("window end", MINUTE, w.end);
                    self.end("window state", EITHER, w.rejected);
                }
                Command::Instruction(i) => {
                    self.end("issue", ISSUE, i.issue);
                    self.end("cease", MINUTE, i.cease);
                }
                Command::Default(d) => {
                    self.end("default minute", MINUTE, d.minute);
                    self.end("default kind", DEFAULT_KIND, d.kind);
                    self.end("default reach", DEFAULT_REACH, d.reach);
                }
                Command::Reading(r) => {
                    self.end("reading minute", MINUTE, r.minute);
                    self.end("reading kW", READING, r.kw);
                }
                Command::Revision(v) => {
                    self.end("revision minute", MINUTE, v.minute);
                    self.end("revision number", REVISION, v.number);
                    self.end("revision kW", READING, v.kw);
                }
                Command::Close => {}
            }
        }
    }

    fn met(&mut self, feature: &'static str, condition: bool) {
        assert!(FEATURES.contains(&feature), "{feature}: not in the list");
        if condition {
            *self.features.entry(feature).or_default() += 1;
        }
    }

    fn count_statement(&mut self, book: &Book, memory: &Memory, statement: &Statement) {
        let meter = &memory.meter;
        let Some(contract) = book.contract else {
            return;
        };
        self.lines += statement.lines.len();
        self.windows += statement.windows.len();
        self.met("settled, generator", contract.kind == 0);
        self.met("settled, demand reducer", contract.kind == 1);
        self.met("settled, committed", contract.service == 0);
        self.met("settled, flexible", contract.service == 1);
        let full = [
            book.windows.len() == WINDOWS,
            book.instructions.len() == INSTRUCTIONS,
            book.defaults.len() == DEFAULTS,
        ];
        self.met("table full", full.contains(&true));
        let month = contract.days == *DAYS.end() && book.date.is_none();
        self.met("31 days", month);
        self.met("31 days, every table full", month && !full.contains(&false));
        let span = &meter[..book.span(Switch::RIGHT) as usize];
        let readings = span
            .iter()
            .filter(|&&kw| READING.contains(&i64::from(kw)))
            .count();
        self.met("minutes without a reading", readings < span.len());
        let all_read = month && readings == span.len();
        self.met("31 days, a reading in every minute", all_read);
        let below = span.iter().any(|&kw| kw != NO_READING && kw < 0);
        self.met("reading below 0", below);
        let needs = |instruction| settle::needed_minutes(&contract, instruction, Switch::RIGHT);
        let revised = |minute| memory.revision(minute) > 0;
        let needed = book.instructions.iter().flat_map(needs).any(revised);
        self.met("needed minute revised", needed);
        self.count_dated(book, memory, statement);
        self.count_lines(&contract, book, statement);
        self.count_windows(&contract, book, statement);
        self.count_instructions(&contract, book);
        self.count_defaults(&contract, book);
        self.count_halves(&contract, book, meter, statement);
    }

    fn count_lines(&mut self, contract: &Contract, book: &Book, statement: &Statement) {
        self.met("no line", statement.lines.is_empty());
        let periods = book.span(Switch::RIGHT) / PERIOD;
        let most = periods - 1 + 3 * book.instructions.len() as i64;
        let lines = statement.lines.len() as i64;
        self.met("as many lines as the days hold", lines == most);
        let most = lines == MOST_LINES && book.date.is_none();
        self.met("31 days, 1679 lines", most);
        for line in &statement.lines {
            self.met("line, ramp up", line.stage == Stage::RampUp);
            self.met("line, steady", line.stage == Stage::Steady);
            self.met("line, ramp down", line.stage == Stage::RampDown);
            self.met("line, utilisation rate", line.rate == Rate::Utilisation);
            self.met("line, optional rate", line.rate == Rate::Optional);
            self.met("line, delivered below 0", line.delivered < 0);
            let above = line.delivered > line.expected;
            self.met("line, delivered above expected", above);
            let price = match line.rate {
                Rate::Utilisation => contract.utilisation_rate,
                Rate::Optional => contract.optional_rate,
            };
            let half = (line.capped * price).rem_euclid(1_000) == 500;
            self.met("line, half a penny above 0", half && line.capped > 0);
        }
        self.count_floors(contract, statement);
    }

    /// Lines that run backwards, which are paid nothing.
    fn count_floors(&mut self, contract: &Contract, statement: &Statement) {
        let paid = statement.lines.iter().any(|line| line.pence > 0);
        for line in &statement.lines {
            let floored = line.delivered < 0;
            self.met("line, floored, generator", floored && contract.kind == 0);
            let reducer = floored && contract.kind == 1;
            self.met("line, floored, demand reducer", reducer);
            let second = floored && line.instruction == 2;
            self.met("line, floored, second instruction", second);
            let later = floored && line.period > DAY / PERIOD;
            self.met("line, floored, later day", later);
            let flexible = floored && contract.service == 1;
            self.met("line, floored, flexible", flexible);
            self.met("line, floored beside one that is paid", floored && paid);
        }
    }

    fn count_windows(&mut self, contract: &Contract, book: &Book, statement: &Statement) {
        let touch = book
            .windows
            .windows(2)
            .any(|two| two[0].end == two[1].start);
        self.met("windows touch", touch);
        for (window, pay) in book.windows.iter().zip(&statement.windows) {
            let excluded = settle::excluded(book, contract, window, Switch::RIGHT);
            self.met("window rejected", window.rejected == 1);
            self.met("window excluded", excluded);
            self.met(
                "window excluded, committed",
                excluded && contract.service == 0,
            );
            let periods = (window.end - window.start) / PERIOD;
            self.met("window not paid", pay.paid_periods == 0);
            let partly = 0 < pay.paid_periods && pay.paid_periods < periods;
            self.met("window partly paid", partly);
            for instruction in &book.instructions {
                let f = instruction_end(contract, instruction, Switch::RIGHT);
                let reach = contract.recovery + contract.response;
                let recovers = contract.recovery >= 1;
                let after = window.start - f;
                self.met("window starts at f", recovers && after == 0);
                self.met("window starts at f + 1", recovers && after == 1);
                self.met(
                    "window starts at f + recovery + response - 1",
                    recovers && after == reach - 1,
                );
                self.met(
                    "window starts at f + recovery + response",
                    recovers && after == reach,
                );
                let inside = (instruction.issue..f).any(|m| holds(window, m, Switch::RIGHT));
                self.met("window excluded, instruction in it", excluded && inside);
            }
        }
        let p = settle::penalty(book, contract, Switch::RIGHT);
        let exact = contract.kw * contract.availability_rate * (100 - p);
        self.met(
            "period of half a penny",
            exact.rem_euclid(200_000) == 100_000,
        );
    }

    fn count_instructions(&mut self, contract: &Contract, book: &Book) {
        let up = ramp_up_minutes(contract, Switch::RIGHT);
        let down = ramp_down_minutes(contract, Switch::RIGHT);
        let live: Vec<_> = book
            .windows
            .iter()
            .filter(|window| settle::live(book, contract, window, Switch::RIGHT))
            .collect();
        let in_live = |minute: i64| live.iter().any(|w| holds(w, minute, Switch::RIGHT));
        let mut last: Option<&Instruction> = None;
        for instruction in &book.instructions {
            let e = response_expires(contract, instruction);
            let f = instruction.cease + down;
            let first = e - up;
            self.met(
                "instruction across periods",
                period_of(first) != period_of(f - 1),
            );
            self.met("instruction issued at 3", instruction.issue == 3);
            self.met(
                "instruction ends with the span",
                f == book.span(Switch::RIGHT),
            );
            self.met("cease = e", instruction.cease == e);
            self.met("U = response", up == contract.response);
            self.met("V = 240", down == 240);
            self.met("base load in its own ramp up", first <= instruction.issue);
            if let Some(last) = last {
                let end = last.cease + down;
                let ready = end + contract.recovery;
                self.met(
                    "instruction issued at last end + recovery",
                    instruction.issue == ready,
                );
                let earlier = instruction.issue - 3 < end;
                self.met("base load in an earlier instruction", earlier);
            }
            last = Some(instruction);
            let ups: Vec<bool> = (first..e).map(in_live).collect();
            let downs: Vec<bool> = (instruction.cease..f).map(in_live).collect();
            let at_e = in_live(e);
            let at_last = in_live(instruction.cease - 1);
            self.met("ramp up paid by e alone", at_e && ups.contains(&false));
            self.met(
                "ramp up in a window, e outside",
                !at_e && ups.contains(&true),
            );
            self.met(
                "ramp down paid by cease - 1 alone",
                at_last && downs.contains(&false),
            );
            self.met(
                "ramp down in a window, cease - 1 outside",
                !at_last && downs.contains(&true),
            );
        }
    }

    fn count_defaults(&mut self, contract: &Contract, book: &Book) {
        let mut faulted = 0;
        for window in &book.windows {
            let live = settle::live(book, contract, window, Switch::RIGHT);
            let mut counts = false;
            for default in &book.defaults {
                if !holds(window, default.minute, Switch::RIGHT) {
                    continue;
                }
                self.met("default in a window that is not live", !live);
                if live {
                    let name = format!("default {} {}", default.kind, default.reach);
                    let known = FEATURES.iter().find(|feature| **feature == name);
                    self.met(known.expect("kinds and reaches are listed"), true);
                    counts |= default.kind != 4;
                }
            }
            faulted += i64::from(counts);
        }
        self.met("P from 1 to 29", (1..30).contains(&faulted));
        self.met("P 30", faulted == 30);
        self.met("more than 30 faulted windows", faulted > 30);
    }

    /// Segments whose delivered quarters lie just between two kWh, or of which
    /// some minutes run backwards and the whole does not.
    fn count_halves(
        &mut self,
        contract: &Contract,
        book: &Book,
        meter: &[i32],
        statement: &Statement,
    ) {
        for line in &statement.lines {
            let instruction = &book.instructions[line.instruction as usize - 1];
            let base: i64 = settle::base_minutes(instruction)
                .into_iter()
                .map(|minute| i64::from(meter[minute as usize]))
                .sum();
            let minutes: Vec<i64> = settle::active_minutes(contract, instruction, Switch::RIGHT)
                .into_iter()
                .filter(|(minute, stage)| *stage == line.stage && period_of(*minute) == line.period)
                .map(|(minute, _)| 4 * i64::from(meter[minute as usize]) - base)
                .map(|up| if contract.kind == 0 { up } else { -up })
                .collect();
            let quarters: i64 = minutes.iter().sum();
            let some = minutes.iter().any(|&minute| minute < 0) && quarters > 0;
            self.met("line, delivered below 0 in some minutes alone", some);
            let half = quarters.rem_euclid(240) == 120;
            self.met("line, half a kWh above 0", half && quarters > 0);
            self.met("line, half a kWh below 0", half && quarters < 0);
        }
    }

    pub fn print(&self) {
        println!(
            "files {}, bytes {}, longest {}",
            self.files, self.bytes, self.longest
        );
        let taken = self.files - self.refused;
        match self.listed {
            true => println!(
                "rows  L {}  A {}  T {taken}  R {}",
                self.lines, self.windows, self.refused
            ),
            false => println!("taken {taken}, refused {}", self.refused),
        }
        if self.watched {
            println!("watched {} minutes of {} months", self.minutes, self.months);
        }
        if self.listed || self.written {
            self.print_entries();
        }
        println!("features of settled, written, watched and asked files");
        for feature in self.features_to_meet() {
            let count = self.features.get(feature).unwrap_or(&0);
            let mark = if *count == 0 { "  (never met)" } else { "" };
            println!("  {feature:<53} {count:>7}{mark}");
        }
    }

    fn print_entries(&self) {
        print!("refusals");
        for number in self.refusals_to_meet() {
            print!("  {number}: {}", self.refusals.get(&number).unwrap_or(&0));
        }
        println!("\nends of ranges (just below, lowest, highest, just above)");
        for (name, counts) in &self.ends {
            println!("  {name:<20} {}", ends_shown(*counts));
        }
    }
}

/// How entering ended.
fn answer(entered: &[Entered]) -> Result<(), u8> {
    entered.last().map_or(Ok(()), |last| last.answer)
}

fn ends_shown(counts: [Option<usize>; 4]) -> String {
    let shown = counts.map(|count| match count {
        Some(count) => format!("{count:>6}"),
        None => format!("{:>6}", '-'),
    });
    shown.join(" ")
}
