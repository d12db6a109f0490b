//! Running totals: a month worked out once, and one step for each of its active
//! minutes.

use crate::memory::taken;
use crate::{library, Refusal, MONTH_NUMBERS, NO_READING, TOTAL_NUMBERS};
use std::fmt;
use std::ops::{Range, RangeInclusive};

/// The place of the number of instructions.
const INSTRUCTIONS: usize = 4;
/// The columns of times: that of instruction n, from 1, stands n places behind.
const ISSUES: usize = 4;
const STARTS: usize = 68;
const ENDS: usize = 260;

const READING: RangeInclusive<i32> = -500_000..=500_000;

/// What a step needs of a month: contracted kW and rates, the times of its
/// instructions, and which periods live windows have. It holds no reading.
///
/// [`Memory::watch_file`](crate::Memory::watch_file) and
/// [`Memory::watch_tables`](crate::Memory::watch_tables) make it.
#[derive(Clone, PartialEq, Eq)]
pub struct Month {
    numbers: Box<[u32; MONTH_NUMBERS]>,
}

impl Month {
    /// With the numbers that a call puts, where it refuses nothing.
    pub(crate) fn made(call: impl FnOnce(&mut [u32]) -> u64) -> Result<Month, Refusal> {
        let mut numbers = Box::new([0; MONTH_NUMBERS]);
        taken(call(&mut numbers[..]))?;
        Ok(Month { numbers })
    }

    /// How many there are; they count from 1.
    pub fn instructions(&self) -> u32 {
        self.numbers[INSTRUCTIONS]
    }

    /// The active minutes of an instruction, from the first of its ramp up to the
    /// last of its ramp down; none where there is no such instruction.
    pub fn active(&self, instruction: u32) -> Range<u16> {
        self.time(STARTS, instruction)..self.time(ENDS, instruction)
    }

    /// The four minutes whose readings are an instruction's base load; none where
    /// there is no such instruction.
    pub fn base_minutes(&self, instruction: u32) -> Range<u16> {
        match self.time(ISSUES, instruction) {
            0 => 0..0,
            issue => issue.saturating_sub(3)..issue.saturating_add(1),
        }
    }

    /// All active minutes in order, each with its instruction.
    pub fn minutes(&self) -> impl Iterator<Item = (u32, u16)> + '_ {
        (1..=self.instructions()).flat_map(|n| self.active(n).map(move |minute| (n, minute)))
    }

    /// The number of an instruction in a column; 0 where it is not there. The
    /// times of a month fit 16 bits.
    fn time(&self, column: usize, instruction: u32) -> u16 {
        if instruction == 0 || instruction > self.instructions() {
            return 0;
        }
        let number = self.numbers.get(column + instruction as usize);
        number.map_or(0, |&time| time.try_into().unwrap_or(u16::MAX))
    }
}

impl fmt::Debug for Month {
    /// The times, and not all the numbers.
    fn fmt(&self, f: &mut fmt::Formatter) -> fmt::Result {
        let times = (1..=self.instructions()).map(|n| (self.base_minutes(n), self.active(n)));
        f.debug_list().entries(times).finish()
    }
}

/// Why a step was not taken. The totals are as they were.
#[derive(Clone, Copy, PartialEq, Eq, Debug)]
pub enum StepRefusal {
    /// 101: the totals are none that steps have left: a number is too large for
    /// so many minutes.
    Unfit,
    /// 102: the month has no such instruction.
    NoInstruction,
    /// 103: not the next active minute.
    NotNext,
    /// 104: a reading outside its range, or, in an instruction's first active
    /// minute, other than four base readings in theirs.
    NoReading,
}

impl StepRefusal {
    /// Of the library's answer, unless it is 0. No other numbers are promised.
    fn of_number(number: u8) -> Option<StepRefusal> {
        match number {
            0 => None,
            102 => Some(StepRefusal::NoInstruction),
            103 => Some(StepRefusal::NotNext),
            104 => Some(StepRefusal::NoReading),
            _ => Some(StepRefusal::Unfit),
        }
    }
}

/// What the screen shows after a minute; zeros before the first.
///
/// ```
/// let file = std::fs::read("../../examples/appendix2.unit")?;
/// let mut memory = stor::Memory::of_month();
/// let month = memory.watch_file(&file).expect("a file without a refusal");
/// assert_eq!(month.instructions(), 1);
/// assert_eq!(month.active(1), 19..91);
/// assert_eq!(month.base_minutes(1), 2..6);
///
/// // A step is handed its reading, and the base readings with the first minute.
/// let mut totals = stor::Totals::default();
/// totals.step(&month, 1, 19, 0, &[0, 0, 0, 0]).expect("the first active minute");
/// totals.step(&month, 1, 20, 2_000, &[]).expect("the next one");
/// assert_eq!((totals.expected, totals.delivered), (48_000, 8_000));
/// assert_eq!(totals.step(&month, 1, 22, 6_000, &[]), Err(stor::StepRefusal::NotNext));
///
/// // Over readings that stand in the meter memory, minute by minute.
/// let last = memory.walk(&month).last().expect("active minutes");
/// let last = last.expect("a reading in each of them");
/// assert_eq!((last.minute, last.capped, last.pence), (90, 12_800, 384_000));
/// # Ok::<(), std::io::Error>(())
/// ```
#[derive(Clone, Copy, PartialEq, Eq, Debug, Default)]
pub struct Totals {
    /// From 1.
    pub instruction: i64,
    /// The last step's.
    pub minute: i64,
    /// The four base readings of the instruction together, so in quarter kW.
    pub base: i64,
    /// Of the segment so far, in quarter kW-minutes: 240 of them are a kWh.
    pub expected: i64,
    /// The same, over the base load.
    pub delivered: i64,
    /// kWh of the lines complete.
    pub capped: i64,
    /// Utilisation pence of the lines complete.
    pub pence: i64,
}

impl Totals {
    /// The next active minute with its reading. In an instruction's first one
    /// `base` is the readings of its four base minutes, and it is not looked at
    /// in any other.
    pub fn step(
        &mut self,
        month: &Month,
        instruction: u32,
        minute: u16,
        kw: i32,
        base: &[i32],
    ) -> Result<(), StepRefusal> {
        let mut numbers = self.numbers();
        let number = library::watch_step(
            &month.numbers[..],
            &mut numbers,
            instruction,
            minute,
            kw,
            base,
        );
        match StepRefusal::of_number(number) {
            Some(refusal) => Err(refusal),
            None => {
                *self = Totals::of_numbers(numbers);
                Ok(())
            }
        }
    }

    fn numbers(&self) -> [i64; TOTAL_NUMBERS] {
        [
            self.instruction,
            self.minute,
            self.base,
            self.expected,
            self.delivered,
            self.capped,
            self.pence,
        ]
    }

    fn of_numbers(numbers: [i64; TOTAL_NUMBERS]) -> Totals {
        let [instruction, minute, base, expected, delivered, capped, pence] = numbers;
        Totals {
            instruction,
            minute,
            base,
            expected,
            delivered,
            capped,
            pence,
        }
    }
}

/// Why a walk ends before the last active minute.
#[derive(Clone, Copy, PartialEq, Eq, Debug)]
pub struct Stop {
    /// What the step answered: of a month and its own meter memory,
    /// [`StepRefusal::NoReading`].
    pub refusal: StepRefusal,
    /// From 1.
    pub instruction: u32,
    /// The minute without a reading.
    pub minute: u16,
    /// Whether it is missed as one of the instruction's base minutes.
    pub base: bool,
}

/// The totals after each active minute of a month, in order, over the readings
/// of meter memory. The last item is a [`Stop`] where a reading is missing.
pub struct Walk<'a> {
    month: &'a Month,
    meter: &'a [i32],
    totals: Totals,
    /// Those that are to come.
    minutes: Box<dyn Iterator<Item = (u32, u16)> + 'a>,
}

impl<'a> Walk<'a> {
    pub(crate) fn new(month: &'a Month, meter: &'a [i32]) -> Walk<'a> {
        Walk {
            month,
            meter,
            totals: Totals::default(),
            minutes: Box::new(month.minutes()),
        }
    }

    /// A minute's cell; memory that ends before it holds no reading there.
    fn kw(&self, minute: u16) -> i32 {
        let cell = self.meter.get(usize::from(minute));
        cell.copied().unwrap_or(NO_READING)
    }

    /// The base minutes that a step brings: an instruction's first one alone.
    fn base_minutes(&self, instruction: u32, minute: u16) -> Range<u16> {
        match minute == self.month.active(instruction).start {
            true => self.month.base_minutes(instruction),
            false => 0..0,
        }
    }

    fn step(&mut self, instruction: u32, minute: u16) -> Result<Totals, Stop> {
        let base_minutes = self.base_minutes(instruction, minute);
        let base: Vec<i32> = base_minutes.clone().map(|m| self.kw(m)).collect();
        let kw = self.kw(minute);
        let step = self.totals.step(self.month, instruction, minute, kw, &base);
        let missing = || {
            base_minutes
                .clone()
                .find(|&m| !READING.contains(&self.kw(m)))
        };
        match step {
            Ok(()) => Ok(self.totals),
            Err(refusal) => Err(Stop {
                refusal,
                instruction,
                minute: missing().unwrap_or(minute),
                base: missing().is_some(),
            }),
        }
    }
}

impl Iterator for Walk<'_> {
    type Item = Result<Totals, Stop>;

    fn next(&mut self) -> Option<Result<Totals, Stop>> {
        let (instruction, minute) = self.minutes.next()?;
        let step = self.step(instruction, minute);
        if step.is_err() {
            self.minutes = Box::new(std::iter::empty());
        }
        Some(step)
    }
}
