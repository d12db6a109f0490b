//! Watching: the month that the library works out, the totals after every active
//! minute, and steps that are not taken, by the library, the plain step and, where
//! it has a say, the second settlement.

use super::{alike, plain_book, MONTHS, UNTOUCHED, UNTOUCHED_BYTE};
use crate::sides::tables;
use crate::watch::{self, Month, Totals};
use compare::random::Random;
use compare::scenes;
use second::book::{self as second_book, Book};
use second::memory::Memory;
use second::settle as second_settle;
use second::switches::Switch;
use second::watch as second_watch;
use std::collections::BTreeMap;
use stor::{library, Tables, MONTH_MINUTES, MONTH_NUMBERS, TOTAL_NUMBERS};

/// Marks month memory, to see what a call leaves alone.
const UNTOUCHED_NUMBER: u32 = 0xA5A5_A5A5;
const FILES: u64 = 800;
/// Steps from anywhere to anywhere, in each month that is watched.
const ODD_STEPS: usize = 200;
const ANSWERS: [u8; 5] = [0, 101, 102, 103, 104];

/// How many minutes were stepped through, and how odd steps were answered.
#[derive(Default)]
struct Watched {
    months: usize,
    minutes: usize,
    answers: BTreeMap<u8, usize>,
}

/// Watches generated files, also with too little memory.
pub fn check() -> Result<(), String> {
    let mut watched = Watched::default();
    for seed in 1..=FILES {
        let file = scenes::watched(seed, MONTHS);
        let what = format!("watched file {seed}");
        let minutes = check_file(&what, &file, MONTH_MINUTES, MONTH_MINUTES)?;
        watched.months += usize::from(minutes > 0);
        watched.minutes += minutes;
        let mut random = Random::new(seed);
        let (cells, bytes) = random.pick(&[(1_440, 1_440), (1_439, 1_440), (MONTH_MINUTES, 1_439)]);
        check_file(&what, &file, cells, bytes)?;
        odd_steps(&what, &file, &mut random, &mut watched)?;
    }
    println!(
        "{} minutes of {} generated months watched, steps from anywhere to anywhere: alike",
        watched.minutes, watched.months
    );
    println!(
        "answers of such steps, and how often: {:?}",
        watched.answers
    );
    match ANSWERS.iter().all(|n| watched.answers.contains_key(n)) {
        true => Ok(()),
        false => Err("an answer of a step never came up".to_string()),
    }
}

/// What a file leaves in memory that held something before, by the second one:
/// the refusal's number and offset, the book and the memory.
fn entered(file: &[u8], before: &Memory) -> (u8, usize, Book, Memory) {
    let mut book = Book::default();
    let mut memory = before.clone();
    let entered = second_book::enter_file(file, &mut book, &mut memory, true, Switch::RIGHT);
    let refused = entered
        .last()
        .and_then(|last| Some((last.answer.err()?, last.offset)));
    let (number, offset) = refused.unwrap_or((0, file.len()));
    (number, offset, book, memory)
}

/// Works out a file's month by the library, into memory of several sizes, and
/// steps through it. Gives the number of minutes that have totals.
pub fn check_file(what: &str, file: &[u8], cells: usize, bytes: usize) -> Result<usize, String> {
    let before = Memory {
        meter: vec![1; cells],
        revisions: vec![UNTOUCHED_BYTE; bytes],
    };
    let (number, offset, book, memory) = entered(file, &before);
    let month = Month::of(&plain_book(&book));
    for room in [0, MONTH_NUMBERS - 1, MONTH_NUMBERS, MONTH_NUMBERS + 5] {
        let mut numbers = vec![UNTOUCHED_NUMBER; room];
        let mut after = before.clone();
        let answer =
            library::watch_file(file, &mut after.meter, &mut after.revisions, &mut numbers);
        let (number, offset) = match number {
            0 if room < MONTH_NUMBERS => (26, file.len()),
            _ => (number, offset),
        };
        let answered = u64::from(number) + 256 * offset as u64;
        alike(what, "library", &answer, &answered)?;
        if after != memory {
            return Err(format!(
                "{what}: other readings where its month is asked for"
            ));
        }
        let expected = laid(&month, number, room);
        alike(what, "library's month", &numbers, &expected)?;
    }
    if number != 0 {
        return Ok(0);
    }
    if let Some(tables) = tables(&plain_book(&book)) {
        check_tables(what, &tables, Some(&month))?;
    }
    steps_alike(what, &book, &memory, &month)
}

/// Month memory of so many marked numbers, after a call with this refusal.
fn laid(month: &Month, number: u8, room: usize) -> Vec<u32> {
    let mut expected = vec![UNTOUCHED_NUMBER; room];
    if number == 0 {
        expected[..MONTH_NUMBERS].copy_from_slice(&month.numbers());
    }
    expected
}

/// The same month by tables; 11 where they say no book that commands leave.
pub fn check_tables(what: &str, tables: &Tables, month: Option<&Month>) -> Result<(), String> {
    for room in [MONTH_NUMBERS - 1, MONTH_NUMBERS + 1] {
        let mut numbers = vec![UNTOUCHED_NUMBER; room];
        let answer = library::watch_tables(
            &tables.contract,
            &tables.windows,
            &tables.instructions,
            &tables.defaults,
            &mut numbers,
        );
        let (number, expected) = match month {
            None => (11, vec![UNTOUCHED_NUMBER; room]),
            Some(month) if room < MONTH_NUMBERS => (26, laid(month, 26, room)),
            Some(month) => (0, laid(month, 0, room)),
        };
        alike(what, "library, tables", &answer, &number)?;
        alike(what, "library's month, tables", &numbers, &expected)?;
    }
    Ok(())
}

/// One step: instruction, minute, reading and base readings.
#[derive(Clone, Debug)]
struct Step {
    instruction: u32,
    minute: u16,
    kw: i32,
    base: Vec<i32>,
}

/// Takes the step by the library and the plain one, which must agree in the
/// answer and in the totals after it.
fn step_alike(
    what: &str,
    numbers: &[u32],
    month: &Month,
    totals: &mut Totals,
    step: &Step,
) -> Result<u8, String> {
    let mut library = [UNTOUCHED; TOTAL_NUMBERS + 2];
    library[..TOTAL_NUMBERS].copy_from_slice(&totals.numbers());
    let before = *totals;
    let Step {
        instruction,
        minute,
        kw,
        base,
    } = step;
    let number = library::watch_step(numbers, &mut library, *instruction, *minute, *kw, base);
    let plain = watch::step(month, totals, *instruction, *minute, *kw, base);
    let what = format!("{what}, {before:?}, {step:?}");
    let mut expected = [UNTOUCHED; TOTAL_NUMBERS + 2];
    expected[..TOTAL_NUMBERS].copy_from_slice(&totals.numbers());
    alike(
        &what,
        "library and plain",
        &(number, library),
        &(plain, expected),
    )?;
    if number != 0 && *totals != before {
        return Err(format!("{what}: a refused step changes totals"));
    }
    Ok(number)
}

/// The step of a minute over the readings of a memory.
fn step_of(book: &Book, memory: &Memory, instruction: u32, minute: u16) -> Step {
    let cell = |minute: i64| memory.meter[minute as usize];
    let base = second_settle::base_minutes(&book.instructions[instruction as usize - 1]);
    Step {
        instruction,
        minute,
        kw: cell(i64::from(minute)),
        base: base.map(cell).to_vec(),
    }
}

/// Steps through a month by library and plain one, and holds the totals after
/// each minute to the second one's. Gives the number of minutes.
fn steps_alike(what: &str, book: &Book, memory: &Memory, month: &Month) -> Result<usize, String> {
    let numbers = month.numbers();
    let shown = second_watch::totals(book, memory, Switch::RIGHT);
    let mut totals = Totals::default();
    let mut rest = shown.iter();
    for (instruction, run) in (1..).zip(month.runs()) {
        for minute in run.ramp_up as u16..run.f as u16 {
            let step = step_of(book, memory, instruction, minute);
            let number = step_alike(what, &numbers, month, &mut totals, &step)?;
            let Some(second) = rest.next() else {
                // Behind the second one's last totals a reading is missing.
                alike(what, "library", &number, &104)?;
                return Ok(shown.len());
            };
            let second = [
                second.instruction,
                second.minute,
                second.base,
                second.expected,
                second.delivered,
                second.capped,
                second.pence,
            ];
            alike(what, "library", &totals.numbers(), &second)?;
        }
    }
    alike(what, "minutes left over", &rest.count(), &0)?;
    Ok(shown.len())
}

/// The totals before every active minute, by the plain one, with its step; and
/// behind each instruction a step on into f. Readings that are missing are made up.
fn every_step(book: &Book, memory: &Memory, month: &Month) -> Vec<(Totals, Step)> {
    let mut steps = Vec::new();
    let mut totals = Totals::default();
    for (instruction, run) in (1..).zip(month.runs()) {
        for minute in run.ramp_up as u16..=run.f as u16 {
            let last = minute.min(run.f as u16 - 1);
            let mut step = step_of(book, memory, instruction, last);
            step.minute = minute;
            for kw in step.base.iter_mut().chain([&mut step.kw]) {
                *kw = (*kw).clamp(-500_000, 500_000);
            }
            steps.push((totals, step.clone()));
            watch::step(month, &mut totals, instruction, minute, step.kw, &step.base);
        }
    }
    steps
}

/// Steps from totals that may be none, to minutes that may not be next.
fn odd_steps(
    what: &str,
    file: &[u8],
    random: &mut Random,
    watched: &mut Watched,
) -> Result<(), String> {
    let (number, _, book, memory) = entered(file, &Memory::of_minutes(MONTH_MINUTES));
    let month = Month::of(&plain_book(&book));
    if number != 0 || month.minutes() == 0 {
        return Ok(());
    }
    let steps = every_step(&book, &memory, &month);
    for _ in 0..ODD_STEPS {
        let any = random.between(0, steps.len() as i64 - 1) as usize;
        let (mut totals, mut step) = steps[any].clone();
        let mut month = month.clone();
        for _ in 0..random.between(0, 2) {
            match random.between(0, 2) {
                0 => spoil_totals(random, &mut totals),
                1 => spoil_step(random, &mut step),
                _ if random.once_in(8) => spoil_month(random, &mut month),
                _ => {}
            }
        }
        let numbers = month.numbers();
        let number = step_alike(what, &numbers, &month, &mut totals, &step)?;
        *watched.answers.entry(number).or_default() += 1;
    }
    Ok(())
}

/// Either end of what a number may be, or just beyond.
fn edge(random: &mut Random, most: i64) -> i64 {
    random.pick(&[most, most + 1, -most, -most - 1])
}

fn spoil_totals(random: &mut Random, totals: &mut Totals) {
    let inside = i64::from(totals.minute % 30) + 1;
    let passed = i64::from(totals.minute) + 1;
    match random.between(0, 6) {
        0 => totals.base = edge(random, 2_000_000) as i32,
        1 => totals.expected = edge(random, 2_000_000 * inside).max(-1) as i32,
        2 => totals.delivered = edge(random, 4_000_000 * inside) as i32,
        3 => totals.capped = edge(random, 500_000 * passed),
        4 => totals.pence = edge(random, 500_000_000 * passed),
        5 => totals.instruction = near(random, totals.instruction),
        _ => totals.minute = random.pick(&[totals.minute + 1, totals.minute / 2, u16::MAX]),
    }
}

fn near(random: &mut Random, instruction: u32) -> u32 {
    let below = instruction.saturating_sub(1);
    random.pick(&[0, below, instruction + 1, 64, 65, u32::MAX])
}

fn spoil_step(random: &mut Random, step: &mut Step) {
    match random.between(0, 4) {
        0 => step.instruction = near(random, step.instruction),
        1 => step.minute = random.pick(&[step.minute + 1, step.minute - 1, 0, u16::MAX]),
        2 => step.kw = edge(random, 500_000) as i32,
        3 => {
            let place = random.between(0, 3) as usize;
            let kw = edge(random, 500_000) as i32;
            // They may be fewer by now.
            if let Some(base) = step.base.get_mut(place) {
                *base = kw;
            }
        }
        _ => step.base.resize(random.pick(&[0, 1, 2, 3, 5, 8]), 0),
    }
}

fn spoil_month(random: &mut Random, month: &mut Month) {
    match random.between(0, 3) {
        0 => month.kw = 500_000 + random.between(0, 1) as i32,
        1 => month.utilisation_rate = 1_000_000 + random.between(0, 1) as i32,
        2 => month.optional_rate = 1_000_000 + random.between(0, 1) as i32,
        _ => month.count = random.pick(&[0, 64, 65]),
    }
}
