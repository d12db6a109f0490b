//! Months with a date: every day of the calendar, every month with memory that is
//! too short by one, generated months and dates that no commands leave.

use super::{alike, entered_alike, settled_alike, tables, Any, LINES, MONTHS, UNTOUCHED_BYTE};
use super::{plain_book, second_month};
use compare::random::Random;
use compare::scenes;
use second::book::{self as second_book, Book};
use second::bytes::{bytes_of, Command, Contract, Date, Reading, Window};
use second::calendar;
use second::day::{self, Day};
use second::memory::Memory;
use second::switches::Switch;
use stor::{library, Tables, MONTH_MINUTES};

const FILES: u64 = 600;
const MADE_UP: u64 = 1_200;
/// A leap year and a common one.
const YEARS: [i64; 2] = [2_024, 2_023];

pub fn check() -> Result<(), String> {
    let days = every_day()?;
    println!("{days} days from 2006 to 2100, and those around each month: alike");
    let months = every_month()?;
    println!("{months} months and contracts, with just enough memory and a minute less: alike");
    let mut kinds = [0; 3];
    for seed in 1..=FILES {
        if let Some(kind) = check_file(seed)? {
            kinds[kind as usize] += 1;
        }
    }
    println!("a day of each of {FILES} generated files, by kind {kinds:?}: alike");
    let unsound = (1..=MADE_UP)
        .map(check_made_up)
        .sum::<Result<usize, String>>()?;
    println!("{MADE_UP} made-up dates, {unsound} of them refused under 11: alike");
    match kinds.contains(&0) || unsound == 0 || unsound == MADE_UP as usize {
        true => Err("something about dates never came up".to_string()),
        false => Ok(()),
    }
}

fn contract(days: i64) -> Contract {
    Contract {
        days,
        kind: 0,
        service: 0,
        kw: 12_000,
        ramp_up: 2_000,
        ramp_down: 2_000,
        response: 20,
        recovery: 0,
        availability_rate: 900,
        utilisation_rate: 30_000,
        optional_rate: 55_000,
    }
}

fn dated(days: i64, date: Date) -> Book {
    Book {
        contract: Some(contract(days)),
        date: Some(date),
        closed: true,
        ..Book::default()
    }
}

/// The library's answer for a kind of day.
fn answer(kind: Result<Day, u8>) -> u64 {
    match kind {
        Err(number) => u64::from(number),
        Ok(Day::None) => 0,
        Ok(Day::Working) => 256,
        Ok(Day::NonWorking) => 512,
    }
}

fn library_day(tables: &Tables, number: u32, holidays: &[u32]) -> u64 {
    library::day_tables(
        &tables.contract,
        &tables.windows,
        &tables.instructions,
        &tables.defaults,
        number,
        holidays,
    )
}

/// A day of a book by tables, with holidays.
fn day_alike(what: &str, book: &Book, number: i64, holidays: &[u32]) -> Result<(), String> {
    let Some(tables) = tables(&plain_book(book)) else {
        return Ok(());
    };
    let listed: Vec<i64> = holidays.iter().map(|&day| i64::from(day)).collect();
    let second = day::day_any(book, number, &listed, Switch::RIGHT);
    let theirs = library_day(&tables, number as u32, holidays);
    let what = format!("{what}, day {number}, holidays {holidays:?}");
    alike(&what, "library", &theirs, &answer(second))
}

/// Every month of every year, one year too many at both ends, and every day of
/// it, one day too many at both ends. Gives how many there are.
fn every_day() -> Result<usize, String> {
    let mut count = 0;
    for year in 2_006..=2_100 {
        for month in 1..=12 {
            let days = calendar::days_of(year, month, Switch::RIGHT);
            let book = dated(
                days,
                Date {
                    year,
                    month,
                    day: 1,
                },
            );
            let what = format!("{year}-{month}");
            for day in 0..=days + 1 {
                day_alike(&what, &book, day, &[])?;
                count += 1;
            }
            day_alike(&what, &book, days, &[0, days as u32])?;
        }
    }
    Ok(count)
}

/// A month's commands up to its last minute.
fn month_file(days: i64, date: Date, last: i64) -> Vec<u8> {
    let commands = [
        Command::Contract(contract(days)),
        Command::Date(date),
        Command::Window(Window {
            start: 0,
            end: 30,
            rejected: 0,
        }),
        Command::Reading(Reading {
            minute: last,
            kw: 7,
        }),
        Command::Close,
    ];
    let bytes = commands.iter().map(|c| bytes_of(c, Switch::RIGHT));
    bytes.collect::<Vec<_>>().concat()
}

/// Every month of two years under contracts of their days and of others, read in
/// its last minute and in the one behind it; each of the two memories just long
/// enough, and too short by one.
fn every_month() -> Result<usize, String> {
    let mut count = 0;
    for year in YEARS {
        for month in 1..=12 {
            for days in [1, 27, 28, 29, 30, 31] {
                let date = Date {
                    year,
                    month,
                    day: 1,
                };
                let book = dated(days, date);
                let asked = book.asked_minutes(Switch::RIGHT) as usize;
                let span = book.span(Switch::RIGHT);
                for (cells, bytes) in [
                    (asked, asked),
                    (asked - 1, asked),
                    (asked, asked - 1),
                    (MONTH_MINUTES, MONTH_MINUTES),
                ] {
                    let what = format!("{year}-{month}, {days} days, {cells}, {bytes}");
                    for last in [span - 1, span] {
                        entered_alike(&what, &month_file(days, date, last), cells, bytes)?;
                    }
                    let memory = Memory {
                        meter: vec![1; cells],
                        revisions: vec![0; bytes],
                    };
                    settled_alike(&what, &book, &memory, LINES, Any::Yes)?;
                }
                count += 1;
            }
        }
    }
    Ok(count)
}

/// A number near the days of a month, and a few that are said to be holidays.
fn question(random: &mut Random) -> (u32, Vec<u32>) {
    let any = random.between(1, 31) as u32;
    let day = random.pick(&[0, 1, 28, 29, 30, 31, 32, 256, u32::MAX, any, any, any, any]);
    let other = random.between(0, 40) as u32;
    let count = random.pick(&[0, 0, 1, 2, 40]);
    let holidays = (0..count).map(|_| random.pick(&[day, other, 0, u32::MAX]));
    (day, holidays.collect())
}

/// A day of a generated file's month, with memory that held something before and
/// may be too short. Gives the kind, unless the file is refused.
fn check_file(seed: u64) -> Result<Option<Day>, String> {
    let file = scenes::with_days(seed, MONTHS);
    let mut random = Random::new(seed);
    let (number, holidays) = question(&mut random);
    let short = random.between(0, MONTH_MINUTES as i64) as usize;
    let (cells, bytes) = random.pick(&[
        (MONTH_MINUTES, MONTH_MINUTES),
        (MONTH_MINUTES, MONTH_MINUTES + 5),
        (MONTH_MINUTES - 1, MONTH_MINUTES),
        (MONTH_MINUTES, short),
    ]);
    let what = format!("file {seed}, day {number}, {holidays:?}, {cells}, {bytes}");
    let mut book = Book::default();
    let mut memory = Memory {
        meter: vec![1; cells],
        revisions: vec![UNTOUCHED_BYTE; bytes],
    };
    let mut after = memory.clone();
    let entered = second_book::enter_file(&file, &mut book, &mut memory, true, Switch::RIGHT);
    let refused = entered
        .last()
        .and_then(|last| Some((last.answer.err()?, last.offset)));
    let listed: Vec<i64> = holidays.iter().map(|&day| i64::from(day)).collect();
    let kind = day::day(&book, i64::from(number), &listed, Switch::RIGHT);
    let second = match refused {
        Some((number, offset)) => u64::from(number) + 256 * offset as u64,
        None => answer(Ok(kind)),
    };
    let theirs = library::day_file(
        &file,
        &mut after.meter,
        &mut after.revisions,
        number,
        &holidays,
    );
    alike(&what, "library", &theirs, &second)?;
    if after != memory {
        return Err(format!("{what}: other readings where a day is asked for"));
    }
    entered_alike(&what, &file, cells, bytes)?;
    Ok(refused.is_none().then_some(kind))
}

/// A dated book, changed in its date or its days. Gives 1 where it gets 11.
fn check_made_up(seed: u64) -> Result<usize, String> {
    let file = scenes::with_days(seed, MONTHS);
    let (mut book, memory) = second_month(&file, MONTH_MINUTES);
    book.closed = true;
    let mut random = Random::new(seed);
    let year = random.pick(&[2_006, 2_007, 2_099, 2_100, 0, 65_535]);
    let month = random.between(0, 13);
    let date = book.date.get_or_insert(Date {
        year: 2_024,
        month: 1,
        day: 1,
    });
    match random.between(0, 5) {
        0 => date.year = year,
        1 => date.month = month,
        2 => date.day = random.between(0, 2),
        3 => {
            *date = Date {
                year,
                month,
                day: 1,
            }
        }
        4 => {
            if let Some(contract) = &mut book.contract {
                contract.days = random.between(28, 31);
            }
        }
        _ => {}
    }
    let what = format!("made-up date {seed}: {:?}", book.date);
    let refusal = settled_alike(&what, &book, &memory, LINES, Any::Yes)?;
    let (number, holidays) = question(&mut random);
    day_alike(&what, &book, i64::from(number), &holidays)?;
    Ok(usize::from(refusal == Some(11)))
}
