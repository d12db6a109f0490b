//! Holds the plain settlement and the proved library against the second one:
//! on months to order, on the comparison's files, also with too little memory,
//! and on books that no commands leave.

mod dated;
mod watched;

use crate::enter;
use crate::month::{self, FILE_BYTES, MINUTES, REVISED_BYTES};
use crate::plain::{self, Book, Contract, Date, Fault, Instruction, Line, Window};
use crate::sides::{library_rows, rows, tables, LINES};
use crate::watch::Month;
use compare::random::Random;
use compare::scenes::{self, Target};
use second::book as second_book;
use second::bytes as second_bytes;
use second::memory::Memory;
use second::rows as second_rows;
use second::rows::Room;
use second::settle as second_settle;
use second::switches::Switch;
use second::write as second_write;
use stor::rows::refusal_row;
use stor::{library, Refusal, Tables, LINE_NUMBERS, MONTH_BYTES, MONTH_MINUTES, SUMS};

/// What a month to order takes.
const ROOM: Room = Room {
    minutes: MINUTES,
    lines: LINES,
};
/// Marks lent memory, to see what a call leaves alone.
const UNTOUCHED: i64 = 77;
const UNTOUCHED_BYTE: u8 = 0xA5;
/// Short files among long ones.
const MONTHS: Target = Target {
    days: 31,
    whole: false,
};
const TWO_DAYS: Target = Target {
    days: 2,
    whole: false,
};

/// What settling gives: the statement's rows, or the refusal's number.
type Settled = Result<String, u8>;
/// What writing gives: the file, or the refusal's number.
type Written = Result<Vec<u8>, u8>;

pub fn check() -> Result<(), String> {
    for seed in [0, 1, 2, 3, 4, 5, 6, 7, 8, 110, 0x8000_0000, u32::MAX] {
        check_month(seed)?;
    }
    println!("a dozen months to order: alike");
    let settled = (1..=800).map(check_file).sum::<Result<usize, String>>()?;
    println!("800 generated files, {settled} of them settled: alike");
    dated::check()?;
    watched::check()?;
    let unsound = (1..=4_000)
        .map(check_made_up)
        .sum::<Result<Unsound, String>>()?;
    println!(
        "4000 made-up books, {} of them refused under 11, {} of these as tables: alike",
        unsound.books, unsound.tables
    );
    if unsound.tables == 0 {
        return Err("no made-up book could be said in tables".to_string());
    }
    Ok(())
}

fn check_month(seed: u32) -> Result<(), String> {
    let month = month::of_seed(seed);
    let lengths = [&month.file, &month.revised].map(Vec::len);
    if lengths != [FILE_BYTES, REVISED_BYTES] {
        return Err(format!("seed {seed}: {lengths:?} bytes"));
    }
    let files = [
        (&month.file, vec![0; MINUTES]),
        (&month.revised, month::numbers()),
    ];
    for (file, revisions) in files {
        let (book, memory) = second_month(file, MINUTES);
        let meter = month.meter.clone();
        if plain_book(&book) != month.book || memory != (Memory { meter, revisions }) {
            return Err(format!("seed {seed}: the file is not the book"));
        }
        let what = format!("month {seed}, {} bytes", file.len());
        if settled_alike(&what, &book, &memory, LINES, Any::No)?.is_some() {
            return Err(format!("{what}: refused"));
        }
        entered_alike(&what, file, MINUTES, MINUTES)?;
        file_settled_alike(&what, file, ROOM)?;
        watched::check_file(&what, file, MINUTES, MINUTES)?;
    }
    Ok(())
}

/// The book and readings that a file leaves, refused commands left out.
fn second_month(file: &[u8], minutes: usize) -> (second_book::Book, Memory) {
    let mut book = second_book::Book::default();
    let mut memory = Memory::of_minutes(minutes);
    second_book::enter_file(file, &mut book, &mut memory, false, Switch::RIGHT);
    (book, memory)
}

/// The first cells and the first revision bytes of a memory.
fn first(memory: &Memory, cells: usize, bytes: usize) -> Memory {
    Memory {
        meter: memory.meter[..cells].to_vec(),
        revisions: memory.revisions[..bytes].to_vec(),
    }
}

/// An error that shows both, unless they are the same.
fn alike<T: PartialEq + std::fmt::Debug>(
    what: &str,
    side: &str,
    theirs: &T,
    second: &T,
) -> Result<(), String> {
    if theirs == second {
        return Ok(());
    }
    Err(format!("{what}:\n{side} {theirs:?}\nsecond {second:?}"))
}

/// Whether the book may be one that no commands leave.
#[derive(Clone, Copy, PartialEq, Eq)]
enum Any {
    Yes,
    No,
}

/// Settles a book by all three, by the library where its tables can say the
/// book, and writes it then; gives the refusal, if they refuse.
fn settled_alike(
    what: &str,
    book: &second_book::Book,
    memory: &Memory,
    records: usize,
    any: Any,
) -> Result<Option<u8>, String> {
    let second = second_settled(book, memory, records, any);
    let plain = plain_book(book);
    alike(
        what,
        "plain",
        &plain_settled(&plain, memory, records)?,
        &second,
    )?;
    if let Some(tables) = tables(&plain) {
        let settled = library_settled(&tables, memory, records)?;
        alike(what, "library", &settled, &second)?;
        let file = written_alike(what, book, &tables, memory, any)?;
        if let Ok(file) = file {
            let minutes = memory.room(Switch::RIGHT) as usize;
            settled_again(what, &file, minutes, records, settled)?;
        }
    }
    Ok(second.err())
}

fn second_settled(book: &second_book::Book, memory: &Memory, records: usize, any: Any) -> Settled {
    let settle = match any {
        Any::Yes => second_settle::settle_any,
        Any::No => second_settle::settle,
    };
    settle(book, memory, records, Switch::RIGHT)
        .map(|statement| second_rows::statement_rows(&statement))
}

fn plain_settled(book: &Book, memory: &Memory, records: usize) -> Result<Settled, String> {
    let blank = Line {
        pence: UNTOUCHED,
        ..Line::default()
    };
    let mut lines = vec![blank; records];
    let answer = plain::settle(book, &memory.meter, &memory.revisions, &mut lines);
    let written = answer.as_ref().map_or(0, |answer| answer.lines);
    if lines[written..].iter().any(|line| *line != blank) {
        return Err("plain: a record behind the lines was written".to_string());
    }
    Ok(answer.map(|answer| rows(&answer, &lines, book.window_count)))
}

/// Line memory and sums for the library, with a little more than is asked for.
struct Lent {
    lines: Vec<i64>,
    sums: Vec<i64>,
}

impl Lent {
    fn new(records: usize) -> Lent {
        Lent {
            lines: vec![UNTOUCHED; LINE_NUMBERS * records + 7],
            sums: vec![UNTOUCHED; SUMS + 3],
        }
    }

    /// The statement, or the refusal; an error where more was written.
    fn settled(&self, number: u8) -> Result<Settled, String> {
        let (sums, behind) = self.sums.split_at(SUMS);
        let sums: &[i64; SUMS] = sums.try_into().map_err(|_| "too few sums")?;
        let untouched = |numbers: &[i64]| numbers.iter().all(|&number| number == UNTOUCHED);
        let written = if number == 0 { sums[0] } else { 0 };
        let lines_end = (LINE_NUMBERS as i64).saturating_mul(written) as usize;
        let kept = untouched(behind)
            && self.lines.get(lines_end..).is_some_and(untouched)
            && (number == 0 || untouched(sums));
        if !kept {
            return Err("library: memory was written that is not the statement's".to_string());
        }
        if number != 0 {
            return Ok(Err(number));
        }
        library_rows(&self.lines, sums).map(Ok)
    }
}

fn library_settled(tables: &Tables, memory: &Memory, records: usize) -> Result<Settled, String> {
    let mut lent = Lent::new(records);
    let number = library::settle_tables(
        &tables.contract,
        &tables.windows,
        &tables.instructions,
        &tables.defaults,
        &memory.meter,
        &memory.revisions,
        &mut lent.lines,
        &mut lent.sums,
    );
    lent.settled(number)
}

/// Writes a book by the second one and by the library, with more room than
/// any file needs, just enough of it, and a byte too little.
fn written_alike(
    what: &str,
    book: &second_book::Book,
    tables: &Tables,
    memory: &Memory,
    any: Any,
) -> Result<Written, String> {
    let library = |room| library_written(tables, memory, room);
    let second = second_written(book, memory, MONTH_BYTES, any);
    alike(what, "library", &library(MONTH_BYTES + 7)?, &second)?;
    if let Ok(file) = &second {
        alike(what, "library", &library(file.len())?, &second)?;
        let short = file.len() - 1;
        let refused = second_written(book, memory, short, any);
        alike(what, "library", &library(short)?, &refused)?;
    }
    Ok(second)
}

fn second_written(book: &second_book::Book, memory: &Memory, room: usize, any: Any) -> Written {
    let write = match any {
        Any::Yes => second_write::write_any,
        Any::No => second_write::write,
    };
    write(book, memory, room, Switch::RIGHT)
}

/// The file, or the refusal; an error where more was written.
fn library_written(tables: &Tables, memory: &Memory, room: usize) -> Result<Written, String> {
    let mut file = vec![UNTOUCHED_BYTE; room];
    let answer = library::write_tables(
        &tables.contract,
        &tables.windows,
        &tables.instructions,
        &tables.defaults,
        &memory.meter,
        &memory.revisions,
        &mut file,
    );
    let length = (answer / 256) as usize;
    let behind = file.get(length..).ok_or("library: no file is that long")?;
    if behind.iter().any(|&byte| byte != UNTOUCHED_BYTE) {
        return Err("library: a byte behind the file was written".to_string());
    }
    file.truncate(length);
    match (answer % 256) as u8 {
        0 => Ok(Ok(file)),
        number if length == 0 => Ok(Err(number)),
        _ => Err("library: a refusal with a length".to_string()),
    }
}

/// Holds what a written file gives to what the tables gave.
fn settled_again(
    what: &str,
    file: &[u8],
    minutes: usize,
    lines: usize,
    settled: Settled,
) -> Result<(), String> {
    let by_file = library_listed(file, Room { minutes, lines })?;
    let by_tables = settled.unwrap_or_else(|number| {
        refusal_row(Refusal {
            number,
            offset: file.len() as u64,
        })
    });
    alike(what, "written and settled again", &by_file, &by_tables)
}

/// The library's answer for a whole file as the lister prints it.
fn library_listed(file: &[u8], room: Room) -> Result<String, String> {
    let mut memory = Memory::of_minutes(room.minutes);
    let mut lent = Lent::new(room.lines);
    let answer = library::settle_file(
        file,
        &mut memory.meter,
        &mut memory.revisions,
        &mut lent.lines,
        &mut lent.sums,
    );
    let refusal = |number| Refusal {
        number,
        offset: answer / 256,
    };
    let settled = lent.settled((answer % 256) as u8)?;
    Ok(settled.unwrap_or_else(|number| refusal_row(refusal(number))))
}

fn file_settled_alike(what: &str, file: &[u8], room: Room) -> Result<(), String> {
    let second = second_rows::list(file, room, Switch::RIGHT);
    alike(what, "library", &library_listed(file, room)?, &second)
}

/// Enters a file up to its first refusal by all three, into memory that held
/// something before.
fn entered_alike(what: &str, file: &[u8], cells: usize, bytes: usize) -> Result<(), String> {
    let before = Memory {
        meter: vec![1; cells],
        revisions: vec![UNTOUCHED_BYTE; bytes],
    };
    let mut book = second_book::Book::default();
    let mut memory = before.clone();
    let entered = second_book::enter_file(file, &mut book, &mut memory, true, Switch::RIGHT);
    let (number, offset) = entered
        .last()
        .and_then(|last| Some((last.answer.err()?, last.offset)))
        .unwrap_or((0, file.len()));
    let second = (number, offset, memory);

    let mut plain = Book::default();
    let mut memory = before.clone();
    let entered = enter::enter_file(file, &mut plain, &mut memory.meter, &mut memory.revisions);
    alike(
        what,
        "plain",
        &(entered.number, entered.offset, memory),
        &second,
    )?;
    alike(what, "plain", &plain, &plain_book(&book))?;

    let mut memory = before.clone();
    let answer = library::enter_file(file, &mut memory.meter, &mut memory.revisions);
    let entered = ((answer % 256) as u8, (answer / 256) as usize, memory);
    alike(what, "library", &entered, &second)?;
    file_written_alike(what, file, &before, &book, second)
}

/// Enters a file and writes its book by the library, with more room than any
/// file needs, just enough of it, and a byte too little. `entered` is how the
/// second one's entering ended: number, offset and memory.
fn file_written_alike(
    what: &str,
    file: &[u8],
    before: &Memory,
    book: &second_book::Book,
    entered: (u8, usize, Memory),
) -> Result<(), String> {
    let (number, offset, memory) = entered;
    let written = |room: usize| match number {
        0 => second_written(book, &memory, room, Any::No),
        _ => Err(number),
    };
    let length = written(MONTH_BYTES).map_or(0, |file| file.len());
    let rooms = [
        Some(MONTH_BYTES + 7),
        Some(length),
        length.checked_sub(1),
        Some(0),
    ];
    for room in rooms.into_iter().flatten() {
        let mut bytes = vec![UNTOUCHED_BYTE; room];
        let mut after = before.clone();
        let answer = library::write_file(file, &mut after.meter, &mut after.revisions, &mut bytes);
        let mut expected = vec![UNTOUCHED_BYTE; room];
        let answered = match written(room) {
            Ok(file) => {
                expected[..file.len()].copy_from_slice(&file);
                256 * file.len() as u64
            }
            // A refused command has its offset, and a file without room none.
            Err(26) => 26,
            Err(number) => u64::from(number) + 256 * offset as u64,
        };
        if after != memory || bytes != expected {
            return Err(format!("{what}: written into {room} bytes: other memory"));
        }
        alike(what, "library", &answer, &answered)?;
    }
    Ok(())
}

/// Enters a generated file and settles what it leaves, also with too little
/// memory.
fn check_file(seed: u64) -> Result<usize, String> {
    let file = scenes::file(seed, MONTHS);
    let (book, memory) = second_month(&file, MONTH_MINUTES);
    let what = format!("file {seed}");
    let refusal = settled_alike(&what, &book, &memory, LINES, Any::No)?;
    entered_alike(&what, &file, MONTH_MINUTES, MONTH_MINUTES)?;

    let mut random = Random::new(seed);
    let room = Room {
        minutes: random.between(0, MONTH_MINUTES as i64) as usize,
        lines: random.pick(&[0, 1, 5, 60, 719]),
    };
    // Either memory may be the longer one, and by a minute only.
    let any = random.between(0, MONTH_MINUTES as i64) as usize;
    let asked = book.asked_minutes(Switch::RIGHT) as usize;
    let (cells, bytes) = random.pick(&[
        (room.minutes, room.minutes),
        (room.minutes, any),
        (MONTH_MINUTES, room.minutes),
        (asked, asked),
        (asked, asked.saturating_sub(1)),
        (asked.saturating_sub(1), asked),
    ]);
    let what = format!("{what}, {cells} cells, {bytes} revision bytes, {room:?}");
    let mut short = first(&memory, cells, bytes);
    settled_alike(&what, &book, &short, room.lines, Any::No)?;
    entered_alike(&what, &file, cells, bytes)?;
    file_settled_alike(&what, &file, room)?;

    // What others wrote beside readings is written as their revisions, and
    // what they wrote elsewhere is not.
    for byte in &mut short.revisions {
        *byte = random.pick(&[0, 0, 1, 255]);
    }
    settled_alike(&what, &book, &short, LINES, Any::No)?;
    Ok(usize::from(refusal.is_none()))
}

/// How many made-up books got 11, and of these how many the tables could say.
#[derive(Default)]
struct Unsound {
    books: usize,
    tables: usize,
}

impl std::iter::Sum for Unsound {
    fn sum<I: Iterator<Item = Unsound>>(all: I) -> Unsound {
        all.fold(Unsound::default(), |sum, one| Unsound {
            books: sum.books + one.books,
            tables: sum.tables + one.tables,
        })
    }
}

/// Changes a book in one place, so that mostly no commands leave it.
fn check_made_up(seed: u64) -> Result<Unsound, String> {
    let file = scenes::file(seed, TWO_DAYS);
    let (mut book, memory) = second_month(&file, MINUTES);
    let mut random = Random::new(seed);
    let near = |random: &mut Random, value: &mut i64| {
        let wide = random.between(-40, 40);
        *value = (*value + random.pick(&[-30, -1, 1, 30, wide])).max(-1);
    };
    match random.between(0, 7) {
        0 => {
            if let Some(c) = &mut book.contract {
                let fields = [
                    &mut c.days,
                    &mut c.kind,
                    &mut c.service,
                    &mut c.kw,
                    &mut c.ramp_up,
                    &mut c.ramp_down,
                    &mut c.response,
                    &mut c.recovery,
                ];
                let place = random.between(0, 7) as usize;
                near(
                    &mut random,
                    fields.into_iter().nth(place).expect("eight fields"),
                );
            }
        }
        1 => {
            if let Some(c) = &mut book.contract {
                c.availability_rate = random.pick(&[-1, 1_000_001]);
            }
        }
        2 => {
            for window in book.windows.iter_mut().take(2) {
                near(&mut random, &mut window.start);
            }
        }
        3 => {
            if let Some(window) = book.windows.last_mut() {
                near(&mut random, &mut window.end);
                window.rejected = random.between(0, 2);
            }
        }
        4 => {
            if let Some(instruction) = book.instructions.last_mut() {
                near(&mut random, &mut instruction.issue);
            }
        }
        5 => {
            if let Some(instruction) = book.instructions.first_mut() {
                near(&mut random, &mut instruction.cease);
            }
        }
        6 => {
            if let Some(default) = book.defaults.first_mut() {
                near(&mut random, &mut default.minute);
                default.reach = random.between(0, 4);
            }
        }
        _ => {
            // No contract, but perhaps windows, or only a close.
            book.contract = None;
        }
    }
    let what = format!("made-up book {seed}");
    let unsound = settled_alike(&what, &book, &memory, LINES, Any::Yes)? == Some(11);
    let plain = plain_book(&book);
    if let Some(tables) = tables(&plain) {
        let month = (!unsound).then(|| Month::of(&plain));
        watched::check_tables(&what, &tables, month.as_ref())?;
    }
    // Something in an unused entry is 11 too; the other two have no such entries.
    if book.contract.is_some() && book.windows.len() < plain::WINDOWS {
        let mut unclean = plain.clone();
        unclean.windows[plain::WINDOWS - 1].end = 30;
        if plain_settled(&unclean, &memory, LINES)? != Err(11) {
            return Err(format!("{what}: an unused entry went unseen"));
        }
    }
    Ok(Unsound {
        books: usize::from(unsound),
        tables: usize::from(unsound && tables(&plain).is_some()),
    })
}

/// The second one's book in the plain one's tables.
fn plain_book(book: &second_book::Book) -> Book {
    let mut plain = Book {
        has_contract: book.contract.is_some(),
        closed: book.closed,
        contract: book.contract.as_ref().map_or(Contract::default(), contract),
        date: book.date.as_ref().map_or(Date::default(), date),
        window_count: book.windows.len(),
        instruction_count: book.instructions.len(),
        default_count: book.defaults.len(),
        ..Book::default()
    };
    plain.span = plain.contract.span() + plain.date.change();
    for (to, from) in plain.windows.iter_mut().zip(&book.windows) {
        *to = Window {
            start: from.start as i32,
            end: from.end as i32,
            rejected: from.rejected as i32,
        };
    }
    for (to, from) in plain.instructions.iter_mut().zip(&book.instructions) {
        *to = Instruction {
            issue: from.issue as i32,
            cease: from.cease as i32,
        };
    }
    for (to, from) in plain.defaults.iter_mut().zip(&book.defaults) {
        *to = Fault {
            minute: from.minute as i32,
            kind: from.kind as i32,
            reach: from.reach as i32,
        };
    }
    plain
}

fn date(from: &second_bytes::Date) -> Date {
    Date {
        year: from.year as i32,
        month: from.month as i32,
        day: from.day as i32,
    }
}

fn contract(from: &second_bytes::Contract) -> Contract {
    Contract {
        days: from.days as i32,
        kind: from.kind as i32,
        service: from.service as i32,
        kw: from.kw as i32,
        ramp_up: from.ramp_up as i32,
        ramp_down: from.ramp_down as i32,
        response: from.response as i32,
        recovery: from.recovery as i32,
        availability_rate: from.availability_rate as i32,
        utilisation_rate: from.utilisation_rate as i32,
        optional_rate: from.optional_rate as i32,
    }
}
