//! A plain reader of unit files made to be fast: one pass over the bytes, each
//! command's fields taken from their places and tested in the order of the
//! refusals. It is what the proved library's time for entering a file is
//! measured against, and it tests all that the library tests.

use crate::plain::{
    is_reading, within, Book, Contract, Date, Fault, Instruction, Window, DEFAULTS, INSTRUCTIONS,
    LAST_MINUTE, NO_READING, WINDOWS,
};

/// The refusal's number, 0 for none, and the refused command's offset or the
/// file's length.
#[derive(Clone, Copy, PartialEq, Eq, Debug)]
pub struct Entered {
    pub number: u8,
    pub offset: usize,
}

/// Enters a file's commands into the empty book, up to the file's end or the
/// first refusal; book and lent memory then hold what was taken.
pub fn enter_file(
    file: &[u8],
    book: &mut Book,
    meter: &mut [i32],
    revisions: &mut [u8],
) -> Entered {
    *book = Book::default();
    let mut offset = 0;
    while let Some((&byte, rest)) = file[offset..].split_first() {
        let (number, length) = match byte {
            b'M' => command(rest, |operands| reading(book, meter, revisions, operands)),
            b'R' => command(rest, |operands| revision(book, meter, revisions, operands)),
            b'C' => command(rest, |operands| contract(book, meter, revisions, operands)),
            b'T' => command(rest, |operands| date(book, meter, revisions, operands)),
            b'W' => command(rest, |operands| window(book, operands)),
            b'I' => command(rest, |operands| instruction(book, operands)),
            b'D' => command(rest, |operands| default(book, operands)),
            b'Z' => command(rest, |_: &[u8; 0]| close(book)),
            _ => (1, 0),
        };
        if number != 0 {
            return Entered { number, offset };
        }
        offset += length;
    }
    Entered { number: 0, offset }
}

/// Enters a command of `N` operand bytes, or gives 2; and its length.
fn command<const N: usize>(rest: &[u8], enter: impl FnOnce(&[u8; N]) -> u8) -> (u8, usize) {
    let operands = rest.get(..N).and_then(|bytes| bytes.try_into().ok());
    match operands {
        Some(operands) => (enter(operands), 1 + N),
        None => (2, 0),
    }
}

fn two(high: u8, low: u8) -> i32 {
    i32::from(u16::from_be_bytes([high, low]))
}

/// An operand without a sign that is too big for `i32` comes out below 0, and
/// is out of range there too.
fn four(bytes: &[u8], at: usize) -> i32 {
    i32::from_be_bytes([bytes[at], bytes[at + 1], bytes[at + 2], bytes[at + 3]])
}

fn minute_in_range(minute: i32) -> bool {
    within(minute, 0, LAST_MINUTE)
}

/// 12 and 13, which every command but a contract meets alike.
fn not_ready(book: &Book) -> u8 {
    if book.closed {
        12
    } else if !book.has_contract {
        13
    } else {
        0
    }
}

fn contract(book: &mut Book, meter: &mut [i32], revisions: &mut [u8], o: &[u8; 31]) -> u8 {
    let contract = Contract {
        days: i32::from(o[0]),
        kind: i32::from(o[1]),
        service: i32::from(o[2]),
        kw: four(o, 3),
        ramp_up: four(o, 7),
        ramp_down: four(o, 11),
        response: two(o[15], o[16]),
        recovery: two(o[17], o[18]),
        availability_rate: four(o, 19),
        utilisation_rate: four(o, 23),
        optional_rate: four(o, 27),
    };
    if !contract.in_range() {
        return 3;
    }
    if !contract.ramps_fit() {
        return 4;
    }
    if book.closed {
        return 12;
    }
    if book.has_contract {
        return 14;
    }
    let span = contract.span() as usize;
    let (Some(cells), Some(numbers)) = (meter.get_mut(..span), revisions.get_mut(..span)) else {
        return 15;
    };
    cells.fill(NO_READING);
    numbers.fill(0);
    book.contract = contract;
    book.has_contract = true;
    book.span = contract.span();
    0
}

/// Once in a file at most, and kept apart so that the loop over readings is as
/// quick as without it.
#[inline(never)]
fn date(book: &mut Book, meter: &mut [i32], revisions: &mut [u8], o: &[u8; 4]) -> u8 {
    let date = Date {
        year: two(o[0], o[1]),
        month: i32::from(o[2]),
        day: i32::from(o[3]),
    };
    if !date.exists() {
        return 28;
    }
    let number = not_ready(book);
    if number != 0 {
        return number;
    }
    // What the book itself asks for is there: its date was taken in this memory.
    let undated = book.contract.span() as usize;
    let asked = undated + date.gained() as usize;
    let (Some(cells), Some(numbers)) = (meter.get_mut(..asked), revisions.get_mut(..asked)) else {
        return 15;
    };
    let begun = !book.date.is_none()
        || book.window_count > 0
        || book.instruction_count > 0
        || cells[..undated].iter().any(|&kw| is_reading(kw));
    if begun {
        return 29;
    }
    if !book.dated_by(&date) {
        return 30;
    }
    cells[undated..].fill(NO_READING);
    numbers[undated..].fill(0);
    book.date = date;
    book.span += date.change();
    0
}

fn window(book: &mut Book, o: &[u8; 5]) -> u8 {
    let window = Window {
        start: two(o[0], o[1]),
        end: two(o[2], o[3]),
        rejected: i32::from(o[4]),
    };
    let in_range = minute_in_range(window.start)
        && minute_in_range(window.end)
        && within(window.rejected, 0, 1);
    if !in_range {
        return 3;
    }
    if window.start >= window.end || window.start % 30 != 0 || window.end % 30 != 0 {
        return 5;
    }
    let number = not_ready(book);
    if number != 0 {
        return number;
    }
    if window.end > book.span {
        return 16;
    }
    if window.rejected > book.contract.service {
        return 17;
    }
    let count = book.window_count;
    if count > 0 && window.start < book.windows[count - 1].end {
        return 18;
    }
    if count == WINDOWS {
        return 23;
    }
    book.windows[count] = window;
    book.window_count += 1;
    0
}

fn instruction(book: &mut Book, o: &[u8; 4]) -> u8 {
    let instruction = Instruction {
        issue: two(o[0], o[1]),
        cease: two(o[2], o[3]),
    };
    if !within(instruction.issue, 3, LAST_MINUTE) || !minute_in_range(instruction.cease) {
        return 3;
    }
    let number = not_ready(book);
    if number != 0 {
        return number;
    }
    let contract = &book.contract;
    let down = contract.down();
    if instruction.cease + down > book.span {
        return 16;
    }
    if instruction.cease < instruction.issue + contract.response {
        return 19;
    }
    let count = book.instruction_count;
    if count > 0 {
        let ended = book.instructions[count - 1].cease + down;
        if instruction.issue < ended + contract.recovery {
            return 20;
        }
    }
    if count == INSTRUCTIONS {
        return 23;
    }
    book.instructions[count] = instruction;
    book.instruction_count += 1;
    0
}

fn default(book: &mut Book, o: &[u8; 4]) -> u8 {
    let fault = Fault {
        minute: two(o[0], o[1]),
        kind: i32::from(o[2]),
        reach: i32::from(o[3]),
    };
    let in_range =
        minute_in_range(fault.minute) && within(fault.kind, 1, 4) && within(fault.reach, 1, 3);
    if !in_range {
        return 3;
    }
    let number = not_ready(book);
    if number != 0 {
        return number;
    }
    if fault.minute >= book.span {
        return 16;
    }
    if book.window_of(fault.minute).is_none() {
        return 21;
    }
    let count = book.default_count;
    if count == DEFAULTS {
        return 23;
    }
    book.defaults[count] = fault;
    book.default_count += 1;
    0
}

fn reading(book: &Book, meter: &mut [i32], revisions: &mut [u8], o: &[u8; 6]) -> u8 {
    let minute = two(o[0], o[1]);
    let kw = four(o, 2);
    if !minute_in_range(minute) || !is_reading(kw) {
        return 3;
    }
    let number = not_in_span(book, minute);
    if number != 0 {
        return number;
    }
    let cell = &mut meter[minute as usize];
    if is_reading(*cell) {
        return 22;
    }
    *cell = kw;
    revisions[minute as usize] = 0;
    0
}

fn revision(book: &Book, meter: &mut [i32], revisions: &mut [u8], o: &[u8; 7]) -> u8 {
    let minute = two(o[0], o[1]);
    let revision = o[2];
    let kw = four(o, 3);
    if !minute_in_range(minute) || revision == 0 || !is_reading(kw) {
        return 3;
    }
    let number = not_in_span(book, minute);
    if number != 0 {
        return number;
    }
    let cell = &mut meter[minute as usize];
    let held = &mut revisions[minute as usize];
    if is_reading(*cell) && revision <= *held {
        return 27;
    }
    *cell = kw;
    *held = revision;
    0
}

/// 12, 13 and 16 of a minute that is read. Contract and date were taken, so the
/// span is in the memory and 15 is settled.
fn not_in_span(book: &Book, minute: i32) -> u8 {
    let number = not_ready(book);
    if number == 0 && minute >= book.span {
        return 16;
    }
    number
}

fn close(book: &mut Book) -> u8 {
    let number = not_ready(book);
    book.closed |= number == 0;
    number
}
