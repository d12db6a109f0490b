//! A line of a script: a letter and numbers, one space apart.

use second::bytes::{
    Command, Contract, Date, DefaultEntry, Instruction, Reading, Revision, Window,
};
use std::str::FromStr;

pub struct Line<'a> {
    pub text: &'a str,
    pub letter: &'a str,
    numbers: Vec<&'a str>,
}

impl<'a> Line<'a> {
    pub fn of(text: &'a str) -> Line<'a> {
        let mut words = text.split(' ');
        Line {
            text,
            letter: words.next().unwrap_or(""),
            numbers: words.collect(),
        }
    }

    /// One that is printed as it stands.
    pub fn is_heading(&self) -> bool {
        self.text.is_empty() || self.text.starts_with('#')
    }

    /// The number at a place behind the letter, as wide as its user has it: a
    /// count that is set by hand can be above all that an operand can say.
    pub fn number<T: FromStr>(&self, place: usize) -> T {
        self.numbers
            .get(place)
            .and_then(|word| word.parse().ok())
            .unwrap_or_else(|| panic!("{}: no such number at {place}", self.text))
    }

    fn numbers<const N: usize>(&self, from: usize) -> [i64; N] {
        std::array::from_fn(|place| self.number(from + place))
    }

    /// An entry's fields, from a place on: a command's are the first numbers,
    /// those that are put into a table by hand follow the entry's number.
    pub fn window(&self, from: usize) -> Window {
        window(self.numbers(from))
    }

    pub fn instruction(&self, from: usize) -> Instruction {
        instruction(self.numbers(from))
    }

    pub fn default(&self, from: usize) -> DefaultEntry {
        default(self.numbers(from))
    }

    fn date(&self) -> Date {
        date(self.numbers(0))
    }

    /// All numbers from a place on.
    pub fn rest(&self, from: usize) -> Vec<i64> {
        (from..self.numbers.len())
            .map(|place| self.number(place))
            .collect()
    }

    fn reading(&self) -> Reading {
        let [minute, kw] = self.numbers(0);
        Reading { minute, kw }
    }

    fn revision(&self) -> Revision {
        let [minute, number, kw] = self.numbers(0);
        Revision { minute, number, kw }
    }

    /// The command of the unit file that a line gives, if it gives one.
    pub fn command(&self) -> Option<Command> {
        match self.letter {
            "C" => Some(Command::Contract(contract(self.numbers(0)))),
            "Y" => Some(Command::Date(self.date())),
            "W" => Some(Command::Window(self.window(0))),
            "I" => Some(Command::Instruction(self.instruction(0))),
            "D" => Some(Command::Default(self.default(0))),
            "M" => Some(Command::Reading(self.reading())),
            "V" => Some(Command::Revision(self.revision())),
            "Z" => Some(Command::Close),
            _ => None,
        }
    }
}

pub const fn contract(fields: [i64; 11]) -> Contract {
    Contract {
        days: fields[0],
        kind: fields[1],
        service: fields[2],
        kw: fields[3],
        ramp_up: fields[4],
        ramp_down: fields[5],
        response: fields[6],
        recovery: fields[7],
        availability_rate: fields[8],
        utilisation_rate: fields[9],
        optional_rate: fields[10],
    }
}

pub const fn date([year, month, day]: [i64; 3]) -> Date {
    Date { year, month, day }
}

pub const fn window([start, end, rejected]: [i64; 3]) -> Window {
    Window {
        start,
        end,
        rejected,
    }
}

pub const fn instruction([issue, cease]: [i64; 2]) -> Instruction {
    Instruction { issue, cease }
}

pub const fn default([minute, kind, reach]: [i64; 3]) -> DefaultEntry {
    DefaultEntry {
        minute,
        kind,
        reach,
    }
}
