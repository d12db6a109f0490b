//! Months with a date: the calendar day by day, refusals 28 to 30, spans and
//! memory, and kinds of day.

use super::*;
use crate::bytes::Date;
use crate::calendar;
use crate::day::{self, Day};
use crate::rows;

const UNDATED: i64 = 31 * DAY;
const OCTOBER: i64 = UNDATED + 60;
const MARCH: i64 = UNDATED - 60;

fn date(year: i64, month: i64, day: i64) -> Command {
    Command::Date(Date { year, month, day })
}

fn contract_of(days: i64) -> Command {
    Command::Contract(Contract {
        days,
        ..appendix_2()
    })
}

/// What a list of commands leaves in used memory of so many minutes, and what
/// became of each of them.
fn entered(commands: &[Command], memory: Memory, switch: Switch) -> (Vec<u8>, Book, Memory) {
    let mut book = Book::default();
    let mut memory = memory;
    let answers = commands
        .iter()
        .map(|command| book::enter(&mut book, &mut memory, command, switch))
        .map(|answer| answer.err().unwrap_or(0))
        .collect();
    (answers, book, memory)
}

/// What becomes of commands in memory for every month.
fn month_answers(commands: &[Command], switch: Switch) -> Vec<u8> {
    entered(commands, used_memory(44_700, 44_700), switch).0
}

/// A book of a contract of so many days and a date, and what it is left in.
fn dated(days: i64, year: i64, month: i64) -> (Book, Memory) {
    let commands = [contract_of(days), date(year, month, 1)];
    let (answers, book, memory) = entered(&commands, used_memory(44_700, 44_700), RIGHT);
    assert_eq!(answers, [0, 0], "{year} {month}");
    (book, memory)
}

/// The days from 1 January 2007, a Monday, to 31 December 2099, one after the
/// other: weekdays are counted up, and a month ends where its table says.
struct Days {
    date: Date,
    weekday: i64,
}

fn table_days(year: i64, month: i64) -> i64 {
    let leap = year % 4 == 0 && (year % 100 != 0 || year % 400 == 0);
    let february = if leap { 29 } else { 28 };
    [31, february, 31, 30, 31, 30, 31, 31, 30, 31, 30, 31][month as usize - 1]
}

impl Iterator for Days {
    type Item = (Date, i64);

    fn next(&mut self) -> Option<(Date, i64)> {
        let Date { year, month, day } = self.date;
        let today = (self.date, self.weekday);
        let last = day == table_days(year, month);
        self.date = match (last, month) {
            (false, _) => Date {
                day: day + 1,
                ..self.date
            },
            (true, 12) => Date {
                year: year + 1,
                month: 1,
                day: 1,
            },
            (true, _) => Date {
                year,
                month: month + 1,
                day: 1,
            },
        };
        self.weekday = (self.weekday + 1) % 7;
        (today.0.year < 2_100).then_some(today)
    }
}

fn every_day() -> Days {
    Days {
        date: Date {
            year: 2_007,
            month: 1,
            day: 1,
        },
        weekday: 1,
    }
}

#[test]
fn the_calendar_day_by_day() {
    let mut count = 0;
    for (date, weekday) in every_day() {
        assert!(calendar::exists(&date, RIGHT), "{date:?}");
        assert_eq!(calendar::weekday(&date), weekday, "{date:?}");
        assert_eq!(calendar::is_sunday(&date, RIGHT), weekday == 0, "{date:?}");
        let days = table_days(date.year, date.month);
        assert_eq!(calendar::days_of(date.year, date.month, RIGHT), days);
        let last_sunday = weekday == 0 && date.day + 7 > days;
        let periods = match (last_sunday, date.month) {
            (true, 3) => 46,
            (true, 10) => 50,
            _ => 48,
        };
        assert_eq!(calendar::periods_on(&date, RIGHT), periods, "{date:?}");
        count += 1;
    }
    // 93 years, of which 2008, 2012 .. 2096 are leap years.
    assert_eq!(count, 93 * 365 + 23);
}

#[test]
fn periods_of_the_days_add_up_to_the_span() {
    for year in YEAR {
        for month in MONTH {
            let days = table_days(year, month);
            let on = |day| calendar::periods_on(&Date { year, month, day }, RIGHT);
            let minutes = 30 * (1..=days).map(on).sum::<i64>();
            assert_eq!(dated(days, year, month).0.span(RIGHT), minutes);
        }
    }
}

#[test]
fn known_days() {
    let on = |year, month, day| {
        let date = Date { year, month, day };
        (calendar::weekday(&date), calendar::periods_on(&date, RIGHT))
    };
    assert_eq!(on(2_024, 3, 31), (0, 46));
    assert_eq!(on(2_024, 3, 24), (0, 48));
    assert_eq!(on(2_024, 10, 27), (0, 50));
    assert_eq!(on(2_025, 3, 30), (0, 46));
    assert_eq!(on(2_025, 10, 26), (0, 50));
    assert_eq!(on(2_099, 12, 31), (4, 48));
    assert_eq!(on(2_024, 2, 29), (4, 48));
}

#[test]
fn a_date_in_bytes() {
    let october = date(2_024, 10, 1);
    let written = bytes::bytes_of(&october, RIGHT);
    assert_eq!(written, [0x54, 0x07, 0xE8, 10, 1]);
    assert_eq!(bytes::read(&written, 0, RIGHT), Read::Command(october, 5));
    assert_eq!(bytes::read(&written[..4], 0, RIGHT), Read::Refused(2));
}

#[test]
fn days_that_there_are_not() {
    for (year, month, day, answer) in [
        (2_006, 1, 1, 28),
        (2_007, 1, 1, 0),
        (2_099, 1, 1, 0),
        (2_100, 1, 1, 28),
        (0, 0, 0, 28),
        (65_535, 255, 255, 28),
        (2_024, 0, 1, 28),
        (2_024, 12, 1, 0),
        (2_024, 13, 1, 28),
        (2_024, 1, 0, 28),
        (2_024, 1, 31, 30),
        (2_024, 1, 32, 28),
        (2_024, 4, 30, 30),
        (2_024, 4, 31, 28),
        (2_024, 2, 29, 30),
        (2_024, 2, 30, 28),
        (2_023, 2, 28, 30),
        (2_023, 2, 29, 28),
    ] {
        let commands = [contract_of(31), date(year, month, day)];
        let answers = month_answers(&commands, RIGHT);
        assert_eq!(answers, [0, answer], "{year} {month} {day}");
    }
}

#[test]
fn every_month_of_a_leap_and_a_common_year() {
    for year in [2_023, 2_024] {
        for month in MONTH {
            let days = table_days(year, month);
            for contracted in DAYS {
                let commands = [contract_of(contracted), date(year, month, 1)];
                let answer = if contracted == days { 0 } else { 30 };
                assert_eq!(month_answers(&commands, RIGHT), [0, answer]);
            }
        }
    }
}

#[test]
fn refusals_of_a_date_in_their_order() {
    let good = date(2_024, 1, 1);
    let no_day = date(2_024, 2, 30);
    // 28 comes before everything that looks at the book.
    assert_eq!(month_answers(&[no_day], RIGHT), [28]);
    assert_eq!(month_answers(&[good], RIGHT), [13]);
    let closed = [contract_of(31), Command::Close, good, no_day];
    assert_eq!(month_answers(&closed, RIGHT), [0, 0, 12, 28]);
    // 29 comes before 30, and a window's 16 has no part in it.
    let late = [contract_of(31), window(0, 30), date(2_024, 2, 2)];
    assert_eq!(month_answers(&late, RIGHT), [0, 0, 29]);
    // 15 comes before both.
    let october = [contract_of(31), window(0, 30), date(2_024, 10, 2)];
    let (answers, ..) = entered(&october, used_memory(44_699, 44_700), RIGHT);
    assert_eq!(answers, [0, 0, 15]);
}

#[test]
fn what_a_date_has_to_come_before() {
    let good = date(2_024, 1, 1);
    for (first, answer) in [
        (vec![], 0),
        (vec![good], 29),
        (vec![date(2_025, 5, 1)], 29),
        (vec![window(0, 30)], 29),
        (vec![instruction(5, 85)], 29),
        (vec![reading(0, 0)], 29),
        (vec![reading(44_639, -1)], 29),
        (vec![revision(44_639, 3, 0)], 29),
    ] {
        let commands = [vec![contract_of(31)], first, vec![good]].concat();
        let answers = month_answers(&commands, RIGHT);
        assert_eq!(answers.last(), Some(&answer), "{commands:?}");
    }
    // A cell that is out of range is no reading, and what stands behind the
    // contract's days does not count, October's hour included.
    let (_, mut book, mut memory) = entered(&[contract_of(31)], used_memory(44_800, 44_800), RIGHT);
    memory.meter[7] = 500_001;
    assert!(memory.has_reading(UNDATED));
    for month in [1, 10] {
        let mut book = book.clone();
        let taken = book::enter(
            &mut book,
            &mut memory.clone(),
            &date(2_024, month, 1),
            RIGHT,
        );
        assert_eq!(taken, Ok(()));
    }
    memory.meter[44_639] = 500_000;
    assert_eq!(book::enter(&mut book, &mut memory, &good, RIGHT), Err(29));
}

#[test]
fn the_span_loses_or_gains_an_hour() {
    for (month, span) in [(1, UNDATED), (3, MARCH), (10, OCTOBER), (12, UNDATED)] {
        let (mut book, mut memory) = dated(31, 2_024, month);
        assert_eq!(book.span(RIGHT), span);
        let mut enter = |command| book::enter(&mut book, &mut memory, &command, RIGHT).err();
        assert_eq!(enter(reading(span, 0)), Some(16));
        assert_eq!(enter(reading(span - 1, 0)), None);
        assert_eq!(enter(revision(span, 1, 0)), Some(16));
        assert_eq!(enter(revision(span - 1, 1, 0)), None);
        assert_eq!(enter(instruction(5, span - 5)), Some(16));
        assert_eq!(enter(instruction(5, span - 6)), None);
        assert_eq!(enter(window(span - 30, span)), None);
        // In range, whatever the span is.
        assert_eq!(enter(window(44_700, 44_730)), Some(3));
        let behind = if span == OCTOBER { 5 } else { 16 };
        assert_eq!(enter(window(span, 44_700)), Some(behind));
        let default = |minute| {
            Command::Default(DefaultEntry {
                minute,
                kind: 1,
                reach: 1,
            })
        };
        assert_eq!(enter(default(span)), Some(16));
        assert_eq!(enter(default(span - 1)), None);
    }
}

#[test]
fn ranges_run_to_the_longest_month() {
    let far = |minute| [reading(minute, 0), revision(minute, 1, 0)];
    let answers = |minute| {
        month_answers(
            &[vec![contract_of(1)], far(minute).to_vec()].concat(),
            RIGHT,
        )
    };
    assert_eq!(answers(44_640), [0, 16, 16]);
    assert_eq!(answers(44_700), [0, 16, 16]);
    assert_eq!(answers(44_701), [0, 3, 3]);
    let commands = [
        contract_of(1),
        instruction(44_700, 44_700),
        instruction(44_701, 44_700),
        instruction(3, 44_701),
        window(44_670, 44_700),
        window(44_700, 44_700),
    ];
    assert_eq!(month_answers(&commands, RIGHT), [0, 16, 3, 3, 16, 5]);
}

/// Both memories, too short by a minute and just long enough.
#[test]
fn what_15_asks_of_a_dated_month() {
    let answers = |cells, bytes, month| {
        let commands = [contract_of(31), date(2_024, month, 1), reading(0, 0)];
        entered(&commands, used_memory(cells, bytes), RIGHT).0
    };
    assert_eq!(answers(44_700, 44_700, 10), [0, 0, 0]);
    assert_eq!(answers(44_699, 44_700, 10), [0, 15, 0]);
    assert_eq!(answers(44_700, 44_699, 10), [0, 15, 0]);
    for month in [1, 3] {
        assert_eq!(answers(44_640, 44_640, month), [0, 0, 0]);
    }
    // A book of a March asks for its days, though its span is shorter; one of an
    // October for an hour more.
    for (month, asked) in [(1, UNDATED), (3, UNDATED), (10, OCTOBER)] {
        let (mut book, _) = dated(31, 2_024, month);
        let room = asked as usize;
        for (cells, bytes, answer) in [
            (room, room, None),
            (room - 1, room, Some(15)),
            (room, room - 1, Some(15)),
        ] {
            let mut memory = used_memory(cells, bytes);
            memory.meter.fill(NO_READING);
            let mut closed = book.clone();
            let entered = book::enter(&mut closed, &mut memory, &Command::Close, RIGHT);
            assert_eq!(entered.err(), answer);
            let written = write::write_any(&book, &memory, usize::MAX, RIGHT);
            assert_eq!(written.err(), answer);
            closed.closed = true;
            let settled = settle::settle_any(&closed, &memory, 0, RIGHT);
            assert_eq!(settled.err(), answer);
            // A second date is 29 where its own month has room as well.
            for (other, again) in [(1, answer), (10, answer.or((room < 44_700).then_some(15)))] {
                let second = date(2_024, other, 1);
                let entered = book::enter(&mut book, &mut memory, &second, RIGHT);
                assert_eq!(entered.err(), again.or(Some(29)));
            }
        }
    }
    // A date asks by the contract's days, though they are not its month's.
    let short = [contract_of(11), date(2_024, 10, 1)];
    let room = |cells| entered(&short, used_memory(cells, cells), RIGHT).0;
    assert_eq!(room(15_899), [0, 15]);
    assert_eq!(room(15_900), [0, 30]);
}

#[test]
fn an_october_clears_its_hour_and_no_other_month_does() {
    for month in MONTH {
        let days = table_days(2_024, month);
        let (_, memory) = dated(days, 2_024, month);
        let undated = (days * DAY) as usize;
        let gained = if month == 10 { 60 } else { 0 };
        let (cells, bytes) = (&memory.meter[undated..], &memory.revisions[undated..]);
        assert!(cells[..gained].iter().all(|cell| *cell == NO_READING));
        assert!(bytes[..gained].iter().all(|byte| *byte == 0));
        assert!(cells[gained..].iter().all(|cell| *cell == 7));
        assert!(bytes[gained..].iter().all(|byte| *byte == 9));
        assert!(memory.meter[..undated]
            .iter()
            .all(|cell| *cell == NO_READING));
    }
    // A refused one clears nothing.
    let commands = [contract_of(30), date(2_024, 10, 1)];
    let (answers, book, memory) = entered(&commands, used_memory(44_700, 44_700), RIGHT);
    assert_eq!((answers, book.date), (vec![0, 30], None));
    assert_eq!(memory.meter[43_200..], used_memory(1_500, 0).meter);
}

#[test]
fn a_date_is_written_after_the_contract() {
    for (month, span) in [(3, MARCH), (10, OCTOBER)] {
        let (mut book, mut memory) = dated(31, 2_024, month);
        for command in [window(0, 30), reading(span - 1, 5), Command::Close] {
            assert_eq!(book::enter(&mut book, &mut memory, &command, RIGHT), Ok(()));
        }
        let length = 32 + 5 + 6 + 7 + 1;
        let written = write::write_any(&book, &memory, length, RIGHT).expect("room");
        assert_eq!(written.len(), length);
        assert_eq!(written[32..38], [0x54, 0x07, 0xE8, month as u8, 1, 0x57]);
        let mut again = (Book::default(), used_memory(44_700, 44_700));
        let entered = book::enter_file(&written, &mut again.0, &mut again.1, true, RIGHT);
        assert!(entered.iter().all(|command| command.answer.is_ok()));
        assert!(again == (book, memory));
    }
    // Lost minutes are not written, whatever stands there.
    let (book, mut memory) = dated(31, 2_024, 3);
    memory.meter[MARCH as usize..].fill(1);
    let written = write::write(&book, &memory, usize::MAX, RIGHT);
    assert_eq!(written.map(|file| file.len()), Ok(32 + 5));
}

#[test]
fn dates_that_no_commands_leave() {
    let (good, memory) = dated(31, 2_024, 10);
    assert!(book::sound(&good, RIGHT));
    let spoilt: [fn(&mut Date); 5] = [
        |date| date.day = 2,
        |date| date.month = 11,
        |date| date.month = 0,
        |date| date.year = 2_100,
        |date| date.year = 0,
    ];
    for spoil in spoilt {
        let mut book = good.clone();
        book.date.iter_mut().for_each(spoil);
        assert!(!book::sound(&book, RIGHT));
        assert_eq!(day::day_any(&book, 1, &[], RIGHT), Err(11));
        assert_eq!(write::write_any(&book, &memory, 0, RIGHT), Err(11));
    }
    let alone = Book {
        contract: None,
        ..good.clone()
    };
    assert!(!book::sound(&alone, RIGHT));
    // Entries as far as the month goes, and a minute further.
    for (month, span) in [(3, MARCH), (10, OCTOBER)] {
        let mut book = dated(31, 2_024, month).0;
        book.windows.push(Window {
            start: 0,
            end: span,
            rejected: 0,
        });
        book.instructions.push(Instruction {
            issue: 5,
            cease: span - 6,
        });
        assert!(book::sound(&book, RIGHT));
        let mut longer = book.clone();
        longer.windows[0].end += 30;
        assert!(!book::sound(&longer, RIGHT));
        book.instructions[0].cease += 1;
        assert!(!book::sound(&book, RIGHT));
    }
}

/// An instruction whose ramp down is the last of the gained hour.
fn last_hour() -> Vec<Command> {
    let mut commands = vec![
        contract_of(31),
        date(2_024, 10, 1),
        window(44_640, 44_700),
        instruction(44_640, 44_694),
    ];
    commands.extend((44_637..44_700).map(|minute| reading(minute, 12_000)));
    commands.push(Command::Close);
    commands
}

#[test]
fn a_gained_hour_is_settled() {
    let (answers, book, memory) = entered(&last_hour(), used_memory(44_700, 44_700), RIGHT);
    assert!(answers.iter().all(|answer| *answer == 0));
    let statement = settle::settle_any(&book, &memory, 4, RIGHT).expect("all is read");
    let periods: Vec<i64> = statement.lines.iter().map(|line| line.period).collect();
    assert_eq!(periods, [1_489, 1_489, 1_490, 1_490]);
    assert_eq!(statement.windows[0].paid_periods, 2);
    assert_eq!(watch::totals(&book, &memory, RIGHT).len(), 46);
}

#[test]
fn kinds_of_day() {
    let march = dated(31, 2_024, 3).0;
    let kind = |book: &Book, number| day::day_any(book, number, &[29, 200], RIGHT);
    for (number, expected) in [
        (0, Day::None),
        (1, Day::Working),
        (2, Day::Working),
        (3, Day::NonWorking),
        (28, Day::Working),
        (29, Day::NonWorking),
        (31, Day::NonWorking),
        (32, Day::None),
        (200, Day::None),
        (-1, Day::None),
    ] {
        assert_eq!(kind(&march, number), Ok(expected), "{number}");
    }
    let (undated, _) = book_of(&[Command::Contract(appendix_2())]);
    for book in [Book::default(), undated] {
        for number in [0, 1, 29] {
            assert_eq!(kind(&book, number), Ok(Day::None));
        }
    }
    // A list may hold anything, any number of times.
    let anything = [0, 0, -5, 32, 4, 4, i64::MAX];
    let kinds = [1, 4].map(|number| day::day(&march, number, &anything, RIGHT));
    assert_eq!(kinds, [Day::Working, Day::NonWorking]);
}

#[test]
fn a_days_row_or_a_refusals() {
    let bytes = |commands: &[Command]| -> Vec<u8> {
        let all = commands.iter().flat_map(|c| bytes::bytes_of(c, RIGHT));
        all.collect()
    };
    let file = bytes(&[contract_of(31), date(2_024, 3, 1)]);
    let row =
        |file: &[u8], number, holidays: &[i64]| rows::day(file, 44_700, number, holidays, RIGHT);
    assert_eq!(row(&file, 1, &[]), "working\n");
    assert_eq!(row(&file, 1, &[5, 1]), "non-working\n");
    assert_eq!(row(&file, 32, &[]), "no such day\n");
    let refused = bytes(&[contract_of(30), date(2_024, 3, 1)]);
    assert_eq!(row(&refused, 1, &[]), "R 30 32\n");
}

/// Each wrong rule about dates, where it shows: commands, the memory's minutes,
/// and what becomes of the last command with the right rules and the wrong one.
#[test]
fn wrong_dates_are_seen_where_they_are_wrong() {
    let leap = [contract_of(29), date(2_024, 2, 1)];
    let first = [contract_of(31), date(2_024, 10, 1)];
    let march = [contract_of(31), date(2_024, 3, 1)];
    let after = |entry| [contract_of(31), entry, date(2_024, 1, 1)];
    let end = |month, minute| [contract_of(31), date(2_024, month, 1), reading(minute, 0)];
    for (wrong, commands, minutes, right, turned) in [
        (Wrong::LeapYearLate, &leap[..], 44_700, 0, 30),
        (Wrong::UndatedSpan, &end(10, 44_699), 44_700, 0, 16),
        (Wrong::UndatedSpan, &end(3, 44_600), 44_700, 16, 0),
        (Wrong::MarchKeepsItsSpan, &end(3, 44_600), 44_700, 16, 0),
        (Wrong::OctoberRoomUnasked, &first, 44_699, 15, 0),
        (
            Wrong::SecondDateTaken,
            &after(date(2_024, 1, 1)),
            44_700,
            29,
            0,
        ),
        (
            Wrong::DatedAfterWindows,
            &after(window(0, 30)),
            44_700,
            29,
            0,
        ),
        (
            Wrong::DatedOverReadings,
            &after(reading(9, 0)),
            44_700,
            29,
            0,
        ),
        // Behind the contract's days all of the memory holds 7.
        (Wrong::ReadingsPastTheSpan, &march, 44_700, 0, 29),
        (
            Wrong::DatedByAnyDay,
            &[contract_of(31), date(2_024, 1, 2)],
            44_700,
            30,
            0,
        ),
        (
            Wrong::DaysOfAnyMonth,
            &[contract_of(30), date(2_024, 1, 1)],
            44_700,
            30,
            0,
        ),
    ] {
        let last = |switch| {
            let memory = used_memory(minutes, minutes);
            entered(commands, memory, switch).0.last().copied()
        };
        assert_eq!(last(RIGHT), Some(right), "{wrong:?}");
        assert_eq!(last(Switch(Some(wrong))), Some(turned), "{wrong:?}");
    }
}

#[test]
fn wrong_memory_is_seen_where_it_is_wrong() {
    // A March's book in memory of a minute less than its days.
    let (book, _) = dated(31, 2_024, 3);
    let short = Memory::of_minutes(44_639);
    let close = |switch| {
        book::enter(
            &mut book.clone(),
            &mut short.clone(),
            &Command::Close,
            switch,
        )
    };
    assert_eq!(close(RIGHT), Err(15));
    assert_eq!(close(Switch(Some(Wrong::ShortMarchMemory))), Ok(()));
    let october = [contract_of(31), date(2_024, 10, 1)];
    let last = |wrong| {
        let (_, _, memory) = entered(&october, used_memory(44_700, 44_700), Switch(wrong));
        (memory.meter[44_699], memory.revisions[44_699])
    };
    assert_eq!(last(None), (NO_READING, 0));
    assert_eq!(last(Some(Wrong::GainedHourUnmarked)), (7, 0));
    assert_eq!(last(Some(Wrong::GainedRevisionsKept)), (NO_READING, 9));
    let written = |wrong| write::write(&book, &Memory::of_minutes(44_640), 37, Switch(wrong));
    assert_eq!(written(None).map(|file| file.len()), Ok(37));
    assert_eq!(
        written(Some(Wrong::DateUnwritten)).map(|file| file.len()),
        Ok(32)
    );
}

#[test]
fn wrong_days_are_seen_where_they_are_wrong() {
    let (march, _) = dated(31, 2_024, 3);
    let undated = book_of(&[Command::Contract(appendix_2())]).0;
    for (wrong, book, number, right, turned) in [
        (
            Wrong::SaturdayForSunday,
            &march,
            3,
            Day::NonWorking,
            Day::Working,
        ),
        (
            Wrong::SaturdayForSunday,
            &march,
            2,
            Day::Working,
            Day::NonWorking,
        ),
        (
            Wrong::HolidayOfEveryDay,
            &march,
            1,
            Day::Working,
            Day::NonWorking,
        ),
        (
            Wrong::HolidaysUnseen,
            &march,
            4,
            Day::NonWorking,
            Day::Working,
        ),
        (
            Wrong::UndatedDaysWorking,
            &undated,
            1,
            Day::None,
            Day::Working,
        ),
        (Wrong::DayBehindTheLast, &march, 32, Day::None, Day::Working),
    ] {
        let kind = |switch| day::day(book, number, &[0, 4], switch);
        assert_eq!(kind(RIGHT), right, "{wrong:?}");
        assert_eq!(kind(Switch(Some(wrong))), turned, "{wrong:?}");
    }
    let first = |switch| {
        let periods = |day| {
            let date = Date {
                year: 2_024,
                month: 10,
                day,
            };
            calendar::periods_on(&date, switch)
        };
        (1..=31).find(|day| periods(*day) == 50)
    };
    assert_eq!(first(RIGHT), Some(27));
    assert_eq!(first(Switch(Some(Wrong::FirstSunday))), Some(6));
}
