//! The run of a script, whose letters `crates/test_script/src/main.rt` lists.

use crate::answers::{print_day, print_entry, print_minute};
use crate::held::Held;
use crate::line::Line;
use crate::statements::print_settlement;
use second::book::{self, Book};
use second::bytes::Command;
use second::day;
use second::memory::Memory;
use second::rules::LISTER_LINES;
use second::switches::Switch;

/// The most minutes that any script lends.
const CELLS: usize = 44700;

/// What revision memory holds after a restart: to mean anything it has to be
/// written first.
const UNWRITTEN: u8 = 77;

/// What calls go by and leave behind. Of the memory the first cells and the
/// first revision bytes are lent; others write any of them.
struct State {
    held: Held,
    kept: Held,
    memory: Memory,
    cells: usize,
    revisions: usize,
    records: usize,
    quiet: bool,
    switch: Switch,
}

impl State {
    fn new(switch: Switch) -> State {
        let empty = Held::of(&Book::default());
        State {
            held: empty.clone(),
            kept: empty,
            memory: Memory::of_minutes(CELLS),
            cells: 0,
            revisions: 0,
            records: 0,
            quiet: false,
            switch,
        }
    }

    fn enter(&mut self, command: &Command) -> Result<(), u8> {
        let Some(mut book) = self.held.book() else {
            // Document 01: "the lowest number that applies is given", and
            // those from the input are below 11.
            book::refused_by_input(command, self.switch)?;
            return Err(11);
        };
        let mut lent = self.lent();
        let answer = book::enter_any(&mut book, &mut lent, command, self.switch);
        self.memory.meter[..self.cells].copy_from_slice(&lent.meter);
        self.memory.revisions[..self.revisions].copy_from_slice(&lent.revisions);
        self.held = Held::of(&book);
        answer
    }

    /// What calls are lent of the memory.
    fn lent(&self) -> Memory {
        Memory {
            meter: self.memory.meter[..self.cells].to_vec(),
            revisions: self.memory.revisions[..self.revisions].to_vec(),
        }
    }

    /// Lends so many cells, and as many revision bytes.
    fn lend(&mut self, minutes: usize) {
        self.cells = minutes;
        self.revisions = minutes;
    }

    /// The empty book, with memory of so many minutes that all hold a kW.
    fn restart(&mut self, line: &Line) {
        self.held = Held::of(&Book::default());
        self.lend(line.number(0));
        self.memory.meter.fill(line.number(1));
        self.memory.revisions.fill(UNWRITTEN);
        if !self.quiet {
            println!("{}", line.text);
        }
    }

    fn put_cells(&mut self, line: &Line) {
        for minute in minutes(line) {
            self.memory.meter[minute] = line.number(3);
        }
    }

    fn put_revisions(&mut self, line: &Line) {
        for minute in minutes(line) {
            self.memory.revisions[minute] = line.number(3);
        }
    }

    fn print_minute(&self, line: &Line) {
        let minute: usize = line.number(0);
        let memory = &self.memory;
        print_minute(line, memory.meter[minute], memory.revisions[minute]);
    }

    fn print_day(&self, line: &Line) {
        let holidays = line.rest(1);
        let ask = |book: Book| day::day_any(&book, line.number(0), &holidays, self.switch);
        print_day(line, self.held.book().ok_or(11).and_then(ask));
    }

    fn settle(&self, step: usize, records: usize) {
        let lent = self.lent();
        print_settlement(self.held.book(), &lent, step, records, self.switch);
    }

    /// A line that is neither a heading nor a command.
    fn run_line(&mut self, line: &Line) {
        match line.letter {
            "e" => self.restart(line),
            "l" => self.lend(line.number(0)),
            "t" => self.revisions = line.number(0),
            "m" => self.put_cells(line),
            "v" => self.put_revisions(line),
            "g" => self.print_minute(line),
            "y" => self.print_day(line),
            "b" | "w" | "i" | "d" => self.held.change(line),
            "k" => self.kept = self.held.clone(),
            "r" => self.held = self.kept.clone(),
            "n" => self.records = line.number(0),
            "s" => self.settle(line.number(0), self.records),
            "o" => self.settle(line.number(0), LISTER_LINES),
            "q" => self.quiet = !self.quiet,
            _ => panic!("{}: no such letter", line.text),
        }
    }
}

/// The minutes that others write: from one on, by steps, before another.
fn minutes(line: &Line) -> impl Iterator<Item = usize> {
    let (from, to): (usize, usize) = (line.number(0), line.number(1));
    (from..to).step_by(line.number(2))
}

pub fn run(script: &str, switch: Switch) {
    let mut state = State::new(switch);
    for line in script.lines().map(Line::of) {
        if line.is_heading() {
            println!("{}", line.text);
        } else if let Some(command) = line.command() {
            let answer = state.enter(&command);
            if !state.quiet || answer.is_err() {
                print_entry(&line, answer, &state.held);
            }
        } else {
            state.run_line(&line);
        }
    }
}
