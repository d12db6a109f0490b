//! What can be timed: anything that takes in a month and does one call on it.

use crate::enter;
use crate::month::{self, Month, MINUTES};
use crate::plain::{self, Answer, Book, Line, Stage};
use std::fmt::Write;
use std::rc::Rc;
use stor::rows::statement_rows;
use stor::{self, library, Statement, Tables, LINE_NUMBERS, SUMS};

/// The line records that a month is lent.
pub const LINES: usize = stor::MONTH_LINES;

pub trait Side {
    fn name(&self) -> &'static str;

    /// What it tests before it answers.
    fn tests(&self) -> &'static str;

    /// Takes in a month; not timed.
    fn load(&mut self, month: &Rc<Month>) -> Result<(), String>;

    /// The one call, and nothing besides: this is timed. Gives the refusal's
    /// number, 0 for none.
    fn run(&mut self) -> u8;

    /// All that the last call gave, in a form that is the same for both sides;
    /// not timed.
    fn outcome(&self) -> Result<String, String>;
}

/// Those that settle a month given as a book; the first is what the other is
/// measured against.
pub fn settlers() -> Vec<Box<dyn Side>> {
    vec![
        Box::new(PlainSettler::default()),
        Box::new(LibrarySettler::default()),
    ]
}

/// Those that read and enter a month's file: first two as it is, then two with
/// a revision for every reading.
pub fn enterers() -> Vec<Box<dyn Side>> {
    vec![
        Box::new(PlainEnterer::of(Readings::Plain)),
        Box::new(LibraryEnterer(Entering::of(Readings::Plain))),
        Box::new(PlainEnterer::of(Readings::Revised)),
        Box::new(LibraryEnterer(Entering::of(Readings::Revised))),
    ]
}

#[derive(Default)]
struct PlainSettler {
    month: Rc<Month>,
    revisions: Vec<u8>,
    lines: Vec<Line>,
    answer: Option<Answer>,
}

impl Side for PlainSettler {
    fn name(&self) -> &'static str {
        "plain"
    }

    fn tests(&self) -> &'static str {
        "11 over every table entry, used or not; 15; 24; 25 in every needed minute; 26"
    }

    fn load(&mut self, month: &Rc<Month>) -> Result<(), String> {
        self.month = Rc::clone(month);
        self.revisions = vec![0; MINUTES];
        self.lines = vec![Line::default(); LINES];
        Ok(())
    }

    fn run(&mut self) -> u8 {
        let answer = plain::settle(
            &self.month.book,
            &self.month.meter,
            &self.revisions,
            &mut self.lines,
        );
        let number = answer.as_ref().err().copied().unwrap_or(0);
        self.answer = answer.ok();
        number
    }

    fn outcome(&self) -> Result<String, String> {
        let answer = self.answer.as_ref().ok_or("no answer")?;
        Ok(rows(answer, &self.lines, self.month.book.window_count))
    }
}

struct LibrarySettler {
    month: Rc<Month>,
    revisions: Vec<u8>,
    tables: Tables,
    lines: Vec<i64>,
    sums: [i64; SUMS],
}

impl Default for LibrarySettler {
    fn default() -> LibrarySettler {
        LibrarySettler {
            month: Rc::default(),
            revisions: Vec::new(),
            tables: Tables::default(),
            lines: Vec::new(),
            sums: [0; SUMS],
        }
    }
}

impl Side for LibrarySettler {
    fn name(&self) -> &'static str {
        "library"
    }

    fn tests(&self) -> &'static str {
        "the same, and the lengths of all memory lent; the tables are copied into a book first"
    }

    fn load(&mut self, month: &Rc<Month>) -> Result<(), String> {
        self.month = Rc::clone(month);
        self.revisions = vec![0; MINUTES];
        self.tables = tables(&month.book).ok_or("the tables cannot say this book")?;
        self.lines = vec![0; LINE_NUMBERS * LINES];
        Ok(())
    }

    fn run(&mut self) -> u8 {
        library::settle_tables(
            &self.tables.contract,
            &self.tables.windows,
            &self.tables.instructions,
            &self.tables.defaults,
            &self.month.meter,
            &self.revisions,
            &mut self.lines,
            &mut self.sums,
        )
    }

    fn outcome(&self) -> Result<String, String> {
        library_rows(&self.lines, &self.sums)
    }
}

/// Which of a month's files is entered.
#[derive(Clone, Copy)]
enum Readings {
    Plain,
    Revised,
}

impl Readings {
    fn file(self, month: &Month) -> &[u8] {
        match self {
            Readings::Plain => &month.file,
            Readings::Revised => &month.revised,
        }
    }

    /// What the file leaves as the revision of each minute.
    fn numbers(self) -> Vec<u8> {
        match self {
            Readings::Plain => vec![0; MINUTES],
            Readings::Revised => month::numbers(),
        }
    }
}

/// A file to enter, the memory for it, and how far the last call came.
struct Entering {
    readings: Readings,
    month: Rc<Month>,
    meter: Vec<i32>,
    revisions: Vec<u8>,
    offset: usize,
}

impl Entering {
    fn of(readings: Readings) -> Entering {
        Entering {
            readings,
            month: Rc::default(),
            meter: Vec::new(),
            revisions: Vec::new(),
            offset: 0,
        }
    }

    fn load(&mut self, month: &Rc<Month>) {
        self.month = Rc::clone(month);
        self.meter = vec![0; MINUTES];
        self.revisions = vec![0; MINUTES];
    }

    /// All that is left, in a form that is the same for both files; an error
    /// where the numbers of the revisions are not the file's.
    fn outcome(&self) -> Result<String, String> {
        let length = self.readings.file(&self.month).len();
        if self.offset != length {
            return Err(format!("entered to {} of {length}", self.offset));
        }
        if self.revisions != self.readings.numbers() {
            return Err("the revisions are not the file's".to_string());
        }
        Ok(format!("{:?}", self.meter))
    }
}

struct PlainEnterer {
    book: Book,
    entering: Entering,
}

impl PlainEnterer {
    fn of(readings: Readings) -> PlainEnterer {
        PlainEnterer {
            book: Book::default(),
            entering: Entering::of(readings),
        }
    }
}

impl Side for PlainEnterer {
    fn name(&self) -> &'static str {
        "plain"
    }

    fn tests(&self) -> &'static str {
        "every refusal from 1 to 23 that a file can meet, and 27 to 30"
    }

    fn load(&mut self, month: &Rc<Month>) -> Result<(), String> {
        self.entering.load(month);
        Ok(())
    }

    fn run(&mut self) -> u8 {
        let to = &mut self.entering;
        let file = to.readings.file(&to.month);
        let entered = enter::enter_file(file, &mut self.book, &mut to.meter, &mut to.revisions);
        to.offset = entered.offset;
        entered.number
    }

    fn outcome(&self) -> Result<String, String> {
        self.entering.outcome()
    }
}

struct LibraryEnterer(Entering);

impl Side for LibraryEnterer {
    fn name(&self) -> &'static str {
        "library"
    }

    fn tests(&self) -> &'static str {
        "the same"
    }

    fn load(&mut self, month: &Rc<Month>) -> Result<(), String> {
        self.0.load(month);
        Ok(())
    }

    fn run(&mut self) -> u8 {
        let to = &mut self.0;
        let file = to.readings.file(&to.month);
        let answer = library::enter_file(file, &mut to.meter, &mut to.revisions);
        to.offset = (answer / 256) as usize;
        (answer % 256) as u8
    }

    fn outcome(&self) -> Result<String, String> {
        self.0.outcome()
    }
}

/// A closed book in the library's tables; none where they cannot say it.
pub fn tables(book: &Book) -> Option<Tables> {
    if !book.has_contract || !book.closed {
        return None;
    }
    let c = &book.contract;
    let contract = [
        c.days,
        c.kind,
        c.service,
        c.kw,
        c.ramp_up,
        c.ramp_down,
        c.response,
        c.recovery,
        c.availability_rate,
        c.utilisation_rate,
        c.optional_rate,
        book.date.year,
        book.date.month,
        book.date.day,
    ];
    let mut tables = Tables::default();
    for (to, from) in tables.contract.iter_mut().zip(contract) {
        *to = u32::try_from(from).ok()?;
    }
    for w in &book.windows[..book.window_count] {
        put(&mut tables.windows, [w.start, w.end, w.rejected])?;
    }
    for i in &book.instructions[..book.instruction_count] {
        put(&mut tables.instructions, [i.issue, i.cease])?;
    }
    for d in &book.defaults[..book.default_count] {
        put(&mut tables.defaults, [d.minute, d.kind, d.reach])?;
    }
    Some(tables)
}

fn put<const N: usize>(table: &mut Vec<u32>, fields: [i32; N]) -> Option<()> {
    for field in fields {
        table.push(u32::try_from(field).ok()?);
    }
    Some(())
}

/// The library's numbers as the lister prints them.
pub fn library_rows(lines: &[i64], sums: &[i64; SUMS]) -> Result<String, String> {
    let statement =
        Statement::of_numbers(lines, sums).ok_or("the library's numbers are no statement")?;
    Ok(statement_rows(&statement))
}

/// A plain statement as the lister prints it.
pub fn rows(answer: &Answer, lines: &[Line], windows: usize) -> String {
    let mut text = String::new();
    for line in &lines[..answer.lines] {
        let stage = match line.stage {
            Stage::RampUp => 'U',
            Stage::Steady => 'S',
            Stage::RampDown => 'D',
        };
        let rate = if line.optional { 'O' } else { 'C' };
        writeln!(
            text,
            "L {} {} {stage} {rate} {} {} {} {}",
            line.instruction, line.period, line.expected, line.delivered, line.capped, line.pence
        )
        .expect("text takes every row");
    }
    for (number, pay) in (1..).zip(&answer.windows[..windows]) {
        writeln!(text, "A {number} {} {}", pay.paid_periods, pay.pence)
            .expect("text takes every row");
    }
    writeln!(
        text,
        "T {} {} {} {}",
        answer.capped, answer.utilisation_pence, answer.availability_pence, answer.all_pence
    )
    .expect("text takes every row");
    text
}
