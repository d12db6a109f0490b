//! A book as the proved package holds it, so that hands can put anything in:
//! whole tables, of which the counts say how much is used. The second
//! implementation has only entries that are used, so what follows from the
//! others is said here, after document 01.

use crate::line::{self, Line};
use second::book::Book;
use second::bytes::{Contract, Date, DefaultEntry, Instruction, Window};
use second::rules::{DEFAULTS, INSTRUCTIONS, WINDOWS};

const NO_CONTRACT: Contract = line::contract([0; 11]);
const NO_DATE: Date = line::date([0; 3]);
const NO_WINDOW: Window = line::window([0; 3]);
const NO_INSTRUCTION: Instruction = line::instruction([0; 2]);
const NO_DEFAULT: DefaultEntry = line::default([0; 3]);

#[derive(Clone)]
pub struct Held {
    pub agreed: bool,
    pub closed: bool,
    contract: Contract,
    date: Date,
    windows: Vec<Window>,
    instructions: Vec<Instruction>,
    defaults: Vec<DefaultEntry>,
    /// Of windows, instructions and defaults.
    pub counts: [usize; 3],
}

impl Held {
    pub fn of(book: &Book) -> Held {
        Held {
            agreed: book.contract.is_some(),
            closed: book.closed,
            contract: book.contract.unwrap_or(NO_CONTRACT),
            date: book.date.unwrap_or(NO_DATE),
            windows: filled(&book.windows, WINDOWS, NO_WINDOW),
            instructions: filled(&book.instructions, INSTRUCTIONS, NO_INSTRUCTION),
            defaults: filled(&book.defaults, DEFAULTS, NO_DEFAULT),
            counts: [
                book.windows.len(),
                book.instructions.len(),
                book.defaults.len(),
            ],
        }
    }

    /// None of a book that is 11 for what only the proved package holds.
    /// Document 01: tables of "128 windows, 64 instructions, 128 defaults" and
    /// "unused table entries are zeros"; and no list of commands sets a field
    /// of the contract but by a contract that is taken.
    pub fn book(&self) -> Option<Book> {
        if !self.agreed && self.contract != NO_CONTRACT {
            return None;
        }
        Some(Book {
            contract: self.agreed.then_some(self.contract),
            date: (self.date != NO_DATE).then_some(self.date),
            windows: used(&self.windows, self.counts[0], NO_WINDOW)?,
            instructions: used(&self.instructions, self.counts[1], NO_INSTRUCTION)?,
            defaults: used(&self.defaults, self.counts[2], NO_DEFAULT)?,
            closed: self.closed,
        })
    }

    /// A change by hand.
    pub fn change(&mut self, line: &Line) {
        let place = || line.number::<usize>(0);
        match line.letter {
            "w" => self.windows[place()] = line.window(1),
            "i" => self.instructions[place()] = line.instruction(1),
            "d" => self.defaults[place()] = line.default(1),
            _ => self.set_field(line),
        }
    }

    /// 0 agreed, 1 closed, 2 to 12 the contract's, 13 to 15 the counts, 16 to 18
    /// the date's.
    fn set_field(&mut self, line: &Line) {
        let field: usize = line.number(0);
        match field {
            0 => self.agreed = line.number::<u8>(1) != 0,
            1 => self.closed = line.number::<u8>(1) != 0,
            13..=15 => self.counts[field - 13] = line.number(1),
            16 => self.date.year = line.number(1),
            17 => self.date.month = line.number(1),
            18 => self.date.day = line.number(1),
            _ => *term(&mut self.contract, field) = line.number(1),
        }
    }
}

fn term(contract: &mut Contract, field: usize) -> &mut i64 {
    match field {
        2 => &mut contract.days,
        3 => &mut contract.kind,
        4 => &mut contract.service,
        5 => &mut contract.kw,
        6 => &mut contract.ramp_up,
        7 => &mut contract.ramp_down,
        8 => &mut contract.response,
        9 => &mut contract.recovery,
        10 => &mut contract.availability_rate,
        11 => &mut contract.utilisation_rate,
        12 => &mut contract.optional_rate,
        _ => panic!("{field}: no such field"),
    }
}

/// The entries in use, if the table has so many and the others are nothing.
fn used<T: Copy + PartialEq>(table: &[T], count: usize, nothing: T) -> Option<Vec<T>> {
    let (entries, others) = table.split_at_checked(count)?;
    others
        .iter()
        .all(|entry| *entry == nothing)
        .then(|| entries.to_vec())
}

fn filled<T: Copy>(entries: &[T], length: usize, nothing: T) -> Vec<T> {
    let mut table = entries.to_vec();
    table.resize(length, nothing);
    table
}
