//! Both sides of watching a month: every active minute, one step each, from
//! zeros. What the steps need of the month is worked out before.

use crate::month::Month;
use crate::plain::Run;
use crate::sides::{tables, Side};
use crate::watch::{self, Totals};
use std::rc::Rc;
use stor::{library, MONTH_NUMBERS, TOTAL_NUMBERS};

/// Those that watch a month; the first is what the other is measured against.
pub fn watchers() -> Vec<Box<dyn Side>> {
    vec![
        Box::new(PlainWatcher::default()),
        Box::new(LibraryWatcher::default()),
    ]
}

/// Steps through the minutes of a month, up to the first that is not taken.
#[inline(always)]
fn walk(runs: &[Run], meter: &[i32], mut step: impl FnMut(u32, u16, i32, &[i32]) -> u8) -> u8 {
    for (instruction, run) in (1..).zip(runs) {
        let base = &meter[run.issue as usize - 3..=run.issue as usize];
        for minute in run.ramp_up as u16..run.f as u16 {
            let number = step(instruction, minute, meter[usize::from(minute)], base);
            if number != 0 {
                return number;
            }
        }
    }
    0
}

#[derive(Default)]
struct PlainWatcher {
    month: Rc<Month>,
    watched: watch::Month,
    totals: Totals,
}

impl Side for PlainWatcher {
    fn name(&self) -> &'static str {
        "plain"
    }

    fn tests(&self) -> &'static str {
        "in each step the ranges of month and totals, instruction, minute, reading and base readings"
    }

    fn load(&mut self, month: &Rc<Month>) -> Result<(), String> {
        self.month = Rc::clone(month);
        self.watched = watch::Month::of(&month.book);
        Ok(())
    }

    fn run(&mut self) -> u8 {
        self.totals = Totals::default();
        let month = &self.watched;
        let totals = &mut self.totals;
        walk(month.runs(), &self.month.meter, |n, minute, kw, base| {
            watch::step(month, totals, n, minute, kw, base)
        })
    }

    fn outcome(&self) -> Result<String, String> {
        Ok(format!("{:?}", self.totals.numbers()))
    }
}

#[derive(Default)]
struct LibraryWatcher {
    month: Rc<Month>,
    /// For the times alone: the library has the month's numbers.
    watched: watch::Month,
    numbers: Vec<u32>,
    totals: [i64; TOTAL_NUMBERS],
}

impl Side for LibraryWatcher {
    fn name(&self) -> &'static str {
        "library"
    }

    fn tests(&self) -> &'static str {
        "the same, and the lengths of all memory lent"
    }

    fn load(&mut self, month: &Rc<Month>) -> Result<(), String> {
        self.month = Rc::clone(month);
        self.watched = watch::Month::of(&month.book);
        self.numbers = vec![0; MONTH_NUMBERS];
        let tables = tables(&month.book).ok_or("the tables cannot say this book")?;
        let number = library::watch_tables(
            &tables.contract,
            &tables.windows,
            &tables.instructions,
            &tables.defaults,
            &mut self.numbers,
        );
        match number == 0 && self.numbers == self.watched.numbers() {
            true => Ok(()),
            false => Err("the library has another month".to_string()),
        }
    }

    fn run(&mut self) -> u8 {
        self.totals = [0; TOTAL_NUMBERS];
        let (month, totals) = (&self.numbers, &mut self.totals);
        let runs = self.watched.runs();
        walk(runs, &self.month.meter, |n, minute, kw, base| {
            library::watch_step(month, totals, n, minute, kw, base)
        })
    }

    fn outcome(&self) -> Result<String, String> {
        Ok(format!("{:?}", self.totals))
    }
}
