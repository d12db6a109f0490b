//! Running totals, plain and made to be fast: what the library's step is measured
//! against. It makes the same tests and keeps the same numbers, in structs of its
//! own.

use crate::plain::{is_reading, nearest, within, Book, Live, Run, INSTRUCTIONS, PERIODS};
use stor::TOTAL_NUMBERS;

/// The places for periods of a month: those of the longest, and one more.
const MONTH_PERIODS: usize = PERIODS + 1;
/// What a step answers.
const TAKEN: u8 = 0;
const UNFIT: u8 = 101;
const NO_INSTRUCTION: u8 = 102;
const NOT_NEXT: u8 = 103;
const NO_READING: u8 = 104;

/// What a step needs of a month.
#[derive(Clone, PartialEq, Eq, Debug)]
pub struct Month {
    pub kw: i32,
    pub kind: i32,
    pub utilisation_rate: i32,
    pub optional_rate: i32,
    pub count: u32,
    pub runs: [Run; INSTRUCTIONS],
    pub live: [bool; MONTH_PERIODS],
}

/// What is shown after a minute; zeros before the first.
#[derive(Clone, Copy, Default, PartialEq, Eq, Debug)]
pub struct Totals {
    /// From 1.
    pub instruction: u32,
    pub minute: u16,
    pub base: i32,
    pub expected: i32,
    pub delivered: i32,
    pub capped: i64,
    pub pence: i64,
}

impl Default for Month {
    /// That of the empty book.
    fn default() -> Month {
        Month {
            kw: 0,
            kind: 0,
            utilisation_rate: 0,
            optional_rate: 0,
            count: 0,
            runs: [Run::default(); INSTRUCTIONS],
            live: [false; MONTH_PERIODS],
        }
    }
}

impl Month {
    /// Of a book that is sound.
    pub fn of(book: &Book) -> Month {
        if !book.has_contract {
            return Month::default();
        }
        let contract = &book.contract;
        let (up, down) = (contract.up(), contract.down());
        let used = &book.instructions[..book.instruction_count];
        let mut runs = [Run::default(); INSTRUCTIONS];
        for (run, instruction) in runs.iter_mut().zip(used) {
            *run = Run::of(contract, instruction, up, down);
        }
        let mut live = [false; MONTH_PERIODS];
        live[..PERIODS].copy_from_slice(&Live::of(book, &runs[..used.len()]).periods);
        Month {
            kw: contract.kw,
            kind: contract.kind,
            utilisation_rate: contract.utilisation_rate,
            optional_rate: contract.optional_rate,
            count: used.len() as u32,
            runs,
            live,
        }
    }

    /// The instructions there are.
    pub fn runs(&self) -> &[Run] {
        &self.runs[..self.count as usize]
    }

    /// How many active minutes it has.
    pub fn minutes(&self) -> usize {
        let minutes = self.runs().iter().map(|run| run.f - run.ramp_up);
        minutes.sum::<i32>() as usize
    }

    /// As the library's numbers.
    pub fn numbers(&self) -> Vec<u32> {
        let figures = [
            self.kw,
            self.kind,
            self.utilisation_rate,
            self.optional_rate,
        ];
        let mut numbers: Vec<u32> = figures.iter().map(|&figure| figure as u32).collect();
        numbers.push(self.count);
        let columns: [fn(&Run) -> i32; 5] = [
            |run| run.issue,
            |run| run.ramp_up,
            |run| run.e,
            |run| run.cease,
            |run| run.f,
        ];
        for column in columns {
            numbers.extend(self.runs.iter().map(|run| column(run) as u32));
        }
        numbers.extend(self.live.iter().map(|&live| u32::from(live)));
        numbers
    }

    fn fits(&self) -> bool {
        within(self.kw, 0, 500_000)
            & within(self.utilisation_rate, 0, 1_000_000)
            & within(self.optional_rate, 0, 1_000_000)
            & (self.count <= INSTRUCTIONS as u32)
    }

    fn live(&self, minute: i32) -> bool {
        let period = self.live.get((minute / 30) as usize);
        period.copied().unwrap_or(false)
    }

    /// The pence per MWh of a minute.
    fn price(&self, run: &Run, minute: i32) -> i32 {
        let live = self.live(minute)
            || minute < run.e && self.live(run.e)
            || minute >= run.cease && self.live(run.cease - 1);
        match live {
            true => self.utilisation_rate,
            false => self.optional_rate,
        }
    }
}

impl Totals {
    /// As the library's numbers.
    pub fn numbers(&self) -> [i64; TOTAL_NUMBERS] {
        [
            i64::from(self.instruction),
            i64::from(self.minute),
            i64::from(self.base),
            i64::from(self.expected),
            i64::from(self.delivered),
            self.capped,
            self.pence,
        ]
    }

    /// Whether they are no larger than so many minutes allow.
    fn fit(&self) -> bool {
        let inside = u32::from(self.minute % 30) + 1;
        let passed = u64::from(self.minute) + 1;
        within(self.base, -2_000_000, 2_000_000)
            & (self.expected as u32 <= 2_000_000 * inside)
            & about(self.delivered, 4_000_000 * inside)
            & about_wide(self.capped, 500_000 * passed)
            & about_wide(self.pence, 500_000_000 * passed)
    }
}

/// Whether a number is from -limit to limit.
fn about(number: i32, limit: u32) -> bool {
    (number as u32).wrapping_add(limit) <= 2 * limit
}

fn about_wide(number: i64, limit: u64) -> bool {
    (number as u64).wrapping_add(limit) <= 2 * limit
}

/// Whether a segment of an instruction does not go on into a minute, with which a
/// period may begin. Without branches, so that it is quick.
fn cut(run: &Run, minute: i32, period_begins: bool) -> bool {
    period_begins | (minute == run.e) | (minute == run.cease) | (minute == run.f)
}

/// S, of four base readings.
fn base_load(base: &[i32]) -> Option<i32> {
    let &[a, b, c, d] = base else {
        return None;
    };
    let all = is_reading(a) & is_reading(b) & is_reading(c) & is_reading(d);
    all.then(|| a + b + c + d)
}

/// Takes the totals to the next active minute, or says why not and leaves them.
/// A call, as the library's is one.
#[inline(never)]
pub fn step(
    month: &Month,
    totals: &mut Totals,
    instruction: u32,
    minute: u16,
    kw: i32,
    base: &[i32],
) -> u8 {
    if !(month.fits() & totals.fit()) {
        return UNFIT;
    }
    if instruction == 0 || instruction > month.count {
        return NO_INSTRUCTION;
    }
    let run = &month.runs[instruction as usize - 1];
    let next = i32::from(totals.minute) + 1;
    let minute_now = i32::from(minute);
    let on = instruction == totals.instruction;
    let turn = match on {
        true => minute_now == next,
        false => {
            let last = instruction - 1;
            let over = last == 0 || next == month.runs[last as usize - 1].f;
            last == totals.instruction && minute_now == run.ramp_up && over
        }
    };
    if !turn || minute_now >= run.f {
        return NOT_NEXT;
    }
    if !is_reading(kw) {
        return NO_READING;
    }
    let base = match on {
        true => totals.base,
        false => match base_load(base) {
            Some(base) => base,
            None => return NO_READING,
        },
    };
    advance(month, run, totals, on, (minute, kw), base);
    totals.instruction = instruction;
    TAKEN
}

/// The totals with a minute and its reading.
#[inline(always)]
fn advance(
    month: &Month,
    run: &Run,
    totals: &mut Totals,
    on: bool,
    (minute, kw): (u16, i32),
    base: i32,
) {
    let now = i32::from(minute);
    let steady = run.e <= now && now < run.cease;
    let above = 4 * kw - base;
    let mut expected = if steady { 4 * month.kw } else { 2 * month.kw };
    let mut delivered = if month.kind == 0 { above } else { -above };
    let inside = minute % 30;
    if on && !cut(run, now, inside == 0) {
        expected += totals.expected;
        delivered += totals.delivered;
    }
    if cut(run, now + 1, inside == 29) {
        let kwh = |quarters: i32| nearest::<240>(i64::from(quarters));
        let capped = kwh(expected).min(kwh(delivered)).max(0);
        totals.capped += capped;
        totals.pence += nearest::<1_000>(capped * i64::from(month.price(run, now)));
    }
    totals.minute = minute;
    totals.base = base;
    totals.expected = expected;
    totals.delivered = delivered;
}
