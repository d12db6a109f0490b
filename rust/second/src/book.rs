//! The book: which commands it takes, and what it turns down under which
//! number. The tests stand in the order of the refusals, so the first that
//! holds is given.

use crate::bytes::{
    self, Command, Contract, Date, DefaultEntry, Instruction, Read, Revision, Window,
};
use crate::calendar;
use crate::memory::Memory;
use crate::rules::{self, *};
use crate::switches::{Switch, Wrong};

#[derive(Clone, PartialEq, Eq, Debug, Default)]
pub struct Book {
    pub contract: Option<Contract>,
    pub date: Option<Date>,
    pub windows: Vec<Window>,
    pub instructions: Vec<Instruction>,
    pub defaults: Vec<DefaultEntry>,
    pub closed: bool,
}

impl Book {
    /// The minutes of the month, with the hour that a date takes or gives; 0
    /// without a contract.
    pub fn span(&self, switch: Switch) -> i64 {
        let Some(contract) = &self.contract else {
            return 0;
        };
        let change = clock_change(self.date.as_ref(), switch);
        let kept = match switch.0 {
            Some(Wrong::UndatedSpan) => true,
            Some(Wrong::MarchKeepsItsSpan) => change < 0,
            _ => false,
        };
        undated_span(contract) + if kept { 0 } else { change }
    }

    /// The minutes that 15 asks both memories for; 0 without a contract.
    pub fn asked_minutes(&self, switch: Switch) -> i64 {
        self.contract.as_ref().map_or(0, |contract| {
            rules::asked_minutes(contract, self.date.as_ref(), switch)
        })
    }
}

/// Enters a command into a book that commands alone have made, as those of a
/// file are: 11 cannot hold of such a book.
pub fn enter(
    book: &mut Book,
    memory: &mut Memory,
    command: &Command,
    switch: Switch,
) -> Result<(), u8> {
    refused_by_input(command, switch)?;
    refused_by_state(book, memory, command, switch)?;
    take(book, memory, command, switch);
    Ok(())
}

/// Enters a command into any book, also one that somebody made up.
pub fn enter_any(
    book: &mut Book,
    memory: &mut Memory,
    command: &Command,
    switch: Switch,
) -> Result<(), u8> {
    refused_by_input(command, switch)?;
    if !sound(book, switch) {
        return Err(11);
    }
    refused_by_state(book, memory, command, switch)?;
    take(book, memory, command, switch);
    Ok(())
}

/// Refuses under `number` if `condition` holds.
fn refuse_if(condition: bool, number: u8) -> Result<(), u8> {
    if condition {
        Err(number)
    } else {
        Ok(())
    }
}

/// Refusals 3 to 5, and 28 behind them, which look at the command alone.
pub fn refused_by_input(command: &Command, switch: Switch) -> Result<(), u8> {
    refuse_if(!in_range(command), 3)?;
    match command {
        Command::Contract(c) => {
            let too_long = ramp_up_minutes(c, switch) > c.response
                || ramp_down_minutes(c, switch) > MOST_RAMP_DOWN_MINUTES;
            refuse_if(too_long, 4)
        }
        Command::Window(w) => {
            let crooked = w.start >= w.end || w.start % PERIOD != 0 || w.end % PERIOD != 0;
            refuse_if(crooked, 5)
        }
        Command::Date(d) => refuse_if(!calendar::exists(d, switch), 28),
        _ => Ok(()),
    }
}

fn in_range(command: &Command) -> bool {
    match command {
        Command::Contract(c) => {
            DAYS.contains(&c.days)
                && EITHER.contains(&c.kind)
                && EITHER.contains(&c.service)
                && CONTRACTED_KW.contains(&c.kw)
                && RAMP.contains(&c.ramp_up)
                && RAMP.contains(&c.ramp_down)
                && RESPONSE.contains(&c.response)
                && RECOVERY.contains(&c.recovery)
                && RATE.contains(&c.availability_rate)
                && RATE.contains(&c.utilisation_rate)
                && RATE.contains(&c.optional_rate)
        }
        // 28 looks at its fields.
        Command::Date(_) => true,
        Command::Window(w) => {
            MINUTE.contains(&w.start) && MINUTE.contains(&w.end) && EITHER.contains(&w.rejected)
        }
        Command::Instruction(i) => ISSUE.contains(&i.issue) && MINUTE.contains(&i.cease),
        Command::Default(d) => {
            MINUTE.contains(&d.minute)
                && DEFAULT_KIND.contains(&d.kind)
                && DEFAULT_REACH.contains(&d.reach)
        }
        Command::Reading(r) => MINUTE.contains(&r.minute) && READING.contains(&r.kw),
        Command::Revision(v) => {
            MINUTE.contains(&v.minute) && REVISION.contains(&v.number) && READING.contains(&v.kw)
        }
        Command::Close => true,
    }
}

/// Refusals 12 to 23, with 29 and 30 behind 15, and 27 before the last of them,
/// which look at the book and the lent memory too.
fn refused_by_state(
    book: &Book,
    memory: &Memory,
    command: &Command,
    switch: Switch,
) -> Result<(), u8> {
    refuse_if(book.closed, 12)?;
    if let Command::Contract(new) = command {
        refuse_if(book.contract.is_some(), 14)?;
        return refuse_if(memory.room(switch) < undated_span(new), 15);
    }
    let Some(contract) = &book.contract else {
        return Err(13);
    };
    let span = book.span(switch);
    refuse_if(
        memory.room(switch) < asked(book, contract, command, switch),
        15,
    )?;
    match command {
        Command::Contract(_) => unreachable!("answered above"),
        Command::Date(d) => {
            refuse_if(begun(book, contract, memory, switch), 29)?;
            refuse_if(!is_the_contracts_month(contract, d, switch), 30)
        }
        Command::Window(w) => {
            refuse_if(w.end > span, 16)?;
            refuse_if(w.rejected == 1 && contract.service == 0, 17)?;
            refuse_if(overlaps_last(book, w, switch), 18)?;
            refuse_if(book.windows.len() == WINDOWS, 23)
        }
        Command::Instruction(i) => {
            refuse_if(instruction_end(contract, i, switch) > span, 16)?;
            refuse_if(i.cease < response_expires(contract, i), 19)?;
            refuse_if(i.issue < recovered(book, contract, switch), 20)?;
            refuse_if(book.instructions.len() == INSTRUCTIONS, 23)
        }
        Command::Default(d) => {
            refuse_if(d.minute >= span, 16)?;
            refuse_if(!in_some_window(book, d.minute, switch), 21)?;
            refuse_if(book.defaults.len() == DEFAULTS, 23)
        }
        Command::Reading(r) => {
            refuse_if(r.minute >= span, 16)?;
            refuse_if(already_read(memory, r.minute, switch), 22)
        }
        Command::Revision(v) => {
            refuse_if(v.minute >= span, 16)?;
            refuse_if(superseded(memory, v, switch), 27)
        }
        Command::Close => Ok(()),
    }
}

/// The minutes that 15 asks for: those of the book, and for a date also those
/// that its own month will ask for.
fn asked(book: &Book, contract: &Contract, command: &Command, switch: Switch) -> i64 {
    let of_book = book.asked_minutes(switch);
    match command {
        Command::Date(date) => of_book.max(rules::asked_minutes(contract, Some(date), switch)),
        _ => of_book,
    }
}

/// Whether something is in the book that a date has to come before. A reading
/// counts as far as the contract goes without a date.
fn begun(book: &Book, contract: &Contract, memory: &Memory, switch: Switch) -> bool {
    let dated = book.date.is_some() && !switch.is(Wrong::SecondDateTaken);
    let entries = !book.windows.is_empty() && !switch.is(Wrong::DatedAfterWindows)
        || !book.instructions.is_empty();
    let mut span = 0..undated_span(contract);
    if switch.is(Wrong::DatedOverReadings) {
        span = 0..0;
    }
    if switch.is(Wrong::ReadingsPastTheSpan) {
        span = 0..memory.room(switch);
    }
    dated || entries || span.into_iter().any(|minute| memory.has_reading(minute))
}

fn is_the_contracts_month(contract: &Contract, date: &Date, switch: Switch) -> bool {
    let first = date.day == 1 || switch.is(Wrong::DatedByAnyDay);
    let days = calendar::days_of(date.year, date.month, switch);
    first && (contract.days == days || switch.is(Wrong::DaysOfAnyMonth))
}

/// Touching is no overlap.
fn overlaps_last(book: &Book, window: &Window, switch: Switch) -> bool {
    book.windows.last().is_some_and(|last| {
        let touches = window.start == last.end;
        window.start < last.end || touches && switch.is(Wrong::TouchingRefused)
    })
}

/// From when on the unit takes an instruction: the first one waits for nothing.
fn recovered(book: &Book, contract: &Contract, switch: Switch) -> i64 {
    match book.instructions.last() {
        Some(last) => instruction_end(contract, last, switch) + contract.recovery,
        None if switch.is(Wrong::RecoveryFromZero) => contract.recovery,
        None => 0,
    }
}

fn already_read(memory: &Memory, minute: i64, switch: Switch) -> bool {
    if switch.is(Wrong::OnlyMarkEmpty) {
        return memory.meter[minute as usize] != NO_READING;
    }
    memory.has_reading(minute)
}

/// Whether the minute holds a reading of this number or a greater one.
fn superseded(memory: &Memory, revision: &Revision, switch: Switch) -> bool {
    let held = memory.revision(revision.minute);
    let above =
        revision.number > held || revision.number == held && switch.is(Wrong::EqualRevisionTaken);
    let holds = memory.has_reading(revision.minute) || switch.is(Wrong::EmptyMinuteHolds);
    holds && !above
}

/// In a window entered, whether it is live or not.
fn in_some_window(book: &Book, minute: i64, switch: Switch) -> bool {
    book.windows.iter().any(|w| holds(w, minute, switch))
}

fn take(book: &mut Book, memory: &mut Memory, command: &Command, switch: Switch) {
    match *command {
        Command::Contract(c) => {
            memory.clear(0..undated_span(&c));
            book.contract = Some(c);
        }
        Command::Date(d) => {
            let undated = book.contract.as_ref().map_or(0, undated_span);
            memory.gain(undated, clock_change(Some(&d), switch), switch);
            book.date = Some(d);
        }
        Command::Window(w) => book.windows.push(w),
        Command::Instruction(i) => book.instructions.push(i),
        Command::Default(d) => book.defaults.push(d),
        Command::Reading(r) => {
            memory.put_kw(r.minute, r.kw);
            if !switch.is(Wrong::PlainKeepsRevision) {
                memory.put_revision(r.minute, 0);
            }
        }
        Command::Revision(v) => {
            memory.put_kw(v.minute, v.kw);
            memory.put_revision(v.minute, v.number);
        }
        Command::Close => book.closed = true,
    }
}

/// Whether some list of commands leaves this book (refusal 11 if not). A date
/// came before every window, instruction and reading, and the windows can always
/// have come before the defaults, so the tables' order among each other does not
/// matter. Memory of the longest span takes every contract and every date, so the
/// book is built again in such memory.
pub fn sound(book: &Book, switch: Switch) -> bool {
    let mut again = Book::default();
    let mut memory = Memory::of_minutes(*MINUTE.end() as usize);
    let mut commands = Vec::new();
    commands.extend(book.contract.map(Command::Contract));
    commands.extend(book.date.map(Command::Date));
    commands.extend(book.windows.iter().copied().map(Command::Window));
    commands.extend(book.instructions.iter().copied().map(Command::Instruction));
    commands.extend(book.defaults.iter().copied().map(Command::Default));
    commands.extend(book.closed.then_some(Command::Close));
    commands
        .iter()
        .all(|command| enter(&mut again, &mut memory, command, switch).is_ok())
}

/// What became of a file's command: where it starts, and its refusal if any.
pub struct Entered {
    pub offset: usize,
    pub answer: Result<(), u8>,
}

/// Reads a file from its first byte and enters each command, going on past
/// refused ones, up to the end, 1 or 2. With `stop` it ends at the first
/// refusal of any kind.
pub fn enter_file(
    file: &[u8],
    book: &mut Book,
    memory: &mut Memory,
    stop: bool,
    switch: Switch,
) -> Vec<Entered> {
    let mut entered = Vec::new();
    let mut offset = 0;
    loop {
        let (answer, next) = match bytes::read(file, offset, switch) {
            Read::End => return entered,
            Read::Refused(number) => (Err(number), None),
            Read::Command(command, next) => (enter(book, memory, &command, switch), Some(next)),
        };
        entered.push(Entered { offset, answer });
        match next {
            Some(next) if answer.is_ok() || !stop => offset = next,
            _ => return entered,
        }
    }
}
