//! A plain settlement made to be fast: segment by segment, over fixed tables
//! and lent memory. It is what the proved library's time is measured against,
//! and it does the same work, the tests of book and memory included.

pub const WINDOWS: usize = 128;
pub const INSTRUCTIONS: usize = 64;
pub const DEFAULTS: usize = 128;
/// Of the longest month, a dated October: 31 days and an hour.
pub const PERIODS: usize = 48 * 31 + 2;
/// The end of the longest month.
pub const LAST_MINUTE: i32 = 44_700;
/// What a contract puts into each cell of its span.
pub const NO_READING: i32 = i32::MIN;

#[derive(Clone, Copy, Default, PartialEq, Eq, Debug)]
pub struct Contract {
    pub days: i32,
    /// 0 generator, 1 demand reducer
    pub kind: i32,
    /// 0 committed, 1 flexible
    pub service: i32,
    pub kw: i32,
    pub ramp_up: i32,
    pub ramp_down: i32,
    pub response: i32,
    pub recovery: i32,
    pub availability_rate: i32,
    pub utilisation_rate: i32,
    pub optional_rate: i32,
}

/// Of the month's first day; zeros where there is none.
#[derive(Clone, Copy, Default, PartialEq, Eq, Debug)]
pub struct Date {
    pub year: i32,
    pub month: i32,
    pub day: i32,
}

#[derive(Clone, Copy, Default, PartialEq, Eq, Debug)]
pub struct Window {
    pub start: i32,
    pub end: i32,
    /// 0 accepted, 1 rejected
    pub rejected: i32,
}

#[derive(Clone, Copy, Default, PartialEq, Eq, Debug)]
pub struct Instruction {
    pub issue: i32,
    pub cease: i32,
}

#[derive(Clone, Copy, Default, PartialEq, Eq, Debug)]
pub struct Fault {
    pub minute: i32,
    pub kind: i32,
    pub reach: i32,
}

#[derive(Clone, PartialEq, Eq, Debug)]
pub struct Book {
    pub has_contract: bool,
    pub closed: bool,
    pub contract: Contract,
    pub date: Date,
    /// Worked out when contract and date are taken: every reading is held to it.
    pub span: i32,
    pub window_count: usize,
    pub windows: [Window; WINDOWS],
    pub instruction_count: usize,
    pub instructions: [Instruction; INSTRUCTIONS],
    pub default_count: usize,
    pub defaults: [Fault; DEFAULTS],
}

impl Default for Book {
    fn default() -> Book {
        Book {
            has_contract: false,
            closed: false,
            contract: Contract::default(),
            date: Date::default(),
            span: 0,
            window_count: 0,
            windows: [Window::default(); WINDOWS],
            instruction_count: 0,
            instructions: [Instruction::default(); INSTRUCTIONS],
            default_count: 0,
            defaults: [Fault::default(); DEFAULTS],
        }
    }
}

#[derive(Clone, Copy, Default, PartialEq, Eq, Debug)]
pub enum Stage {
    #[default]
    RampUp,
    Steady,
    RampDown,
}

#[derive(Clone, Copy, Default, PartialEq, Eq, Debug)]
pub struct Line {
    /// From 1.
    pub instruction: i32,
    pub period: i32,
    pub stage: Stage,
    /// At the optional rate and not at the utilisation rate.
    pub optional: bool,
    pub expected: i64,
    pub delivered: i64,
    pub capped: i64,
    pub pence: i64,
}

#[derive(Clone, Copy, Default, PartialEq, Eq, Debug)]
pub struct WindowPay {
    pub paid_periods: i32,
    pub pence: i64,
}

#[derive(Clone, PartialEq, Eq, Debug)]
pub struct Answer {
    pub lines: usize,
    pub capped: i64,
    pub utilisation_pence: i64,
    pub availability_pence: i64,
    pub all_pence: i64,
    pub windows: [WindowPay; WINDOWS],
}

/// An instruction with its stages' first minutes worked out.
#[derive(Clone, Copy, Default, PartialEq, Eq, Debug)]
pub struct Run {
    pub issue: i32,
    pub ramp_up: i32,
    pub e: i32,
    pub cease: i32,
    pub f: i32,
}

impl Run {
    /// With U and V.
    pub fn of(contract: &Contract, instruction: &Instruction, up: i32, down: i32) -> Run {
        let e = instruction.issue + contract.response;
        Run {
            issue: instruction.issue,
            ramp_up: e - up,
            e,
            cease: instruction.cease,
            f: instruction.cease + down,
        }
    }

    fn stages(&self) -> [(Stage, i32, i32); 3] {
        [
            (Stage::RampUp, self.ramp_up, self.e),
            (Stage::Steady, self.e, self.cease),
            (Stage::RampDown, self.cease, self.f),
        ]
    }
}

pub const fn within(value: i32, least: i32, most: i32) -> bool {
    least <= value && value <= most
}

/// A cell outside this range holds no reading.
pub const fn is_reading(kw: i32) -> bool {
    kw.wrapping_add(500_000) as u32 <= 1_000_000
}

impl Date {
    pub fn is_none(&self) -> bool {
        *self == Date::default()
    }

    pub fn days(&self) -> i32 {
        match self.month {
            // No year of a date ends a century.
            2 => 28 + i32::from(self.year % 4 == 0),
            4 | 6 | 9 | 11 => 30,
            _ => 31,
        }
    }

    /// If not, it gets 28.
    pub fn exists(&self) -> bool {
        within(self.year, 2_007, 2_099)
            && within(self.month, 1, 12)
            && within(self.day, 1, self.days())
    }

    /// Minutes that 15 asks for besides those of the contract's days.
    pub fn gained(&self) -> i32 {
        60 * i32::from(self.month == 10)
    }

    /// Minutes that the month has besides those of its days.
    pub fn change(&self) -> i32 {
        self.gained() - 60 * i32::from(self.month == 3)
    }
}

impl Contract {
    /// Without a date.
    pub fn span(&self) -> i32 {
        1_440 * self.days
    }

    pub fn up(&self) -> i32 {
        (self.kw + self.ramp_up - 1) / self.ramp_up
    }

    pub fn down(&self) -> i32 {
        (self.kw + self.ramp_down - 1) / self.ramp_down
    }

    /// If not, it gets 3.
    pub fn in_range(&self) -> bool {
        within(self.days, 1, 31)
            && within(self.kind, 0, 1)
            && within(self.service, 0, 1)
            && within(self.kw, 3_000, 500_000)
            && within(self.ramp_up, 1, 500_000)
            && within(self.ramp_down, 1, 500_000)
            && within(self.response, 1, 240)
            && within(self.recovery, 0, 1_200)
            && within(self.availability_rate, 0, 1_000_000)
            && within(self.utilisation_rate, 0, 1_000_000)
            && within(self.optional_rate, 0, 1_000_000)
    }

    /// If not, it gets 4; asked of operands in range.
    pub fn ramps_fit(&self) -> bool {
        self.up() <= self.response && self.down() <= 240
    }
}

impl Book {
    /// Whether commands can have left this book; if not, it gets 11.
    pub fn sound(&self) -> bool {
        if !self.has_contract {
            return *self == Book::default();
        }
        self.window_count <= WINDOWS
            && self.instruction_count <= INSTRUCTIONS
            && self.default_count <= DEFAULTS
            && self.contract.in_range()
            && self.contract.ramps_fit()
            && self.sound_date()
            && self.sound_windows()
            && self.sound_instructions()
            && self.sound_defaults()
    }

    fn sound_date(&self) -> bool {
        let date = &self.date;
        date.is_none() || date.exists() && self.dated_by(date)
    }

    /// Whether a date is the first of a month of the contract's days; if not, it
    /// gets 30.
    pub fn dated_by(&self, date: &Date) -> bool {
        date.day == 1 && date.days() == self.contract.days
    }

    fn sound_windows(&self) -> bool {
        let (used, unused) = self.windows.split_at(self.window_count);
        let mut last_end = 0;
        for window in used {
            let sound = last_end <= window.start
                && window.start < window.end
                && window.end <= self.span
                && window.start % 30 == 0
                && window.end % 30 == 0
                && within(window.rejected, 0, self.contract.service);
            if !sound {
                return false;
            }
            last_end = window.end;
        }
        unused.iter().all(|window| *window == Window::default())
    }

    fn sound_instructions(&self) -> bool {
        let contract = &self.contract;
        let (down, span) = (contract.down(), self.span);
        let (used, unused) = self.instructions.split_at(self.instruction_count);
        let mut ready = 3;
        for instruction in used {
            // Bounds first, so that no sum below can overflow.
            let sound = within(instruction.issue, ready, span)
                && within(instruction.cease, instruction.issue, span)
                && instruction.cease >= instruction.issue + contract.response
                && instruction.cease + down <= span;
            if !sound {
                return false;
            }
            ready = instruction.cease + down + contract.recovery;
        }
        unused
            .iter()
            .all(|instruction| *instruction == Instruction::default())
    }

    fn sound_defaults(&self) -> bool {
        let (used, unused) = self.defaults.split_at(self.default_count);
        used.iter().all(|fault| {
            within(fault.kind, 1, 4)
                && within(fault.reach, 1, 3)
                && self.window_of(fault.minute).is_some()
        }) && unused.iter().all(|fault| *fault == Fault::default())
    }

    /// The window that holds a minute; the windows stand in order.
    pub fn window_of(&self, minute: i32) -> Option<usize> {
        let used = &self.windows[..self.window_count];
        let after = used.partition_point(|window| window.start <= minute);
        let index = after.checked_sub(1)?;
        (minute < used[index].end).then_some(index)
    }
}

/// The nearest whole number; of two equally near ones, the larger.
pub fn nearest<const DIVISOR: i64>(number: i64) -> i64 {
    (2 * number + DIVISOR).div_euclid(2 * DIVISOR)
}

/// Whether each of the readings is one; without branches, so that it is quick.
fn all_read(readings: &[i32]) -> bool {
    readings.iter().fold(true, |all, &kw| all & is_reading(kw))
}

fn slice(meter: &[i32], from: i32, to: i32) -> &[i32] {
    &meter[from as usize..to as usize]
}

/// Settles a book into lent line memory, or gives 11, 15, 24, 25 or 26 and
/// leaves the memory as it was.
pub fn settle(
    book: &Book,
    meter: &[i32],
    revisions: &[u8],
    lines: &mut [Line],
) -> Result<Answer, u8> {
    if !book.sound() {
        return Err(11);
    }
    let contract = &book.contract;
    let asked = contract.span() + book.date.gained();
    if meter.len().min(revisions.len()) < asked as usize {
        return Err(15);
    }
    if !book.closed {
        return Err(24);
    }
    let mut runs = [Run::default(); INSTRUCTIONS];
    let runs = &mut runs[..book.instruction_count];
    let (up, down) = (contract.up(), contract.down());
    let mut needed = 0;
    for (run, instruction) in runs.iter_mut().zip(&book.instructions) {
        *run = Run::of(contract, instruction, up, down);
        let read = all_read(slice(meter, run.issue - 3, run.issue + 1))
            && all_read(slice(meter, run.ramp_up, run.f));
        if !read {
            return Err(25);
        }
        for (_, from, to) in run.stages() {
            if from < to {
                needed += ((to - 1) / 30 - from / 30 + 1) as usize;
            }
        }
    }
    if lines.len() < needed {
        return Err(26);
    }
    let live = Live::of(book, runs);
    let mut answer = Answer {
        lines: needed,
        capped: 0,
        utilisation_pence: 0,
        availability_pence: 0,
        all_pence: 0,
        windows: [WindowPay::default(); WINDOWS],
    };
    fill_lines(
        contract,
        runs,
        &live,
        meter,
        &mut lines[..needed],
        &mut answer,
    );
    pay_windows(book, &live, &mut answer);
    answer.all_pence = answer.utilisation_pence + answer.availability_pence;
    Ok(answer)
}

/// Live windows, and the periods in them.
pub struct Live {
    windows: [bool; WINDOWS],
    pub periods: [bool; PERIODS],
}

impl Live {
    pub fn of(book: &Book, runs: &[Run]) -> Live {
        let mut live = Live {
            windows: [false; WINDOWS],
            periods: [false; PERIODS],
        };
        let reach = book.contract.recovery + book.contract.response;
        let mut before = 0;
        for (index, window) in book.windows[..book.window_count].iter().enumerate() {
            // Of the instructions that ended before the window, the last one
            // reaches furthest.
            while before < runs.len() && runs[before].f < window.start {
                before += 1;
            }
            let excluded = book.contract.recovery >= 1
                && before > 0
                && window.start < runs[before - 1].f + reach;
            if window.rejected == 0 && !excluded {
                live.windows[index] = true;
                live.periods[(window.start / 30) as usize..(window.end / 30) as usize].fill(true);
            }
        }
        live
    }

    fn holds(&self, minute: i32) -> bool {
        self.periods[(minute / 30) as usize]
    }
}

fn fill_lines(
    contract: &Contract,
    runs: &[Run],
    live: &Live,
    meter: &[i32],
    lines: &mut [Line],
    answer: &mut Answer,
) {
    let sign = if contract.kind == 0 { 1 } else { -1 };
    let kw = i64::from(contract.kw);
    let prices = [contract.utilisation_rate, contract.optional_rate].map(i64::from);
    let mut records = lines.iter_mut();
    for (number, run) in (1..).zip(runs) {
        let base: i32 = slice(meter, run.issue - 3, run.issue + 1).iter().sum();
        let base = i64::from(base);
        for (stage, start, end) in run.stages() {
            let (quarters, by_ramp) = match stage {
                Stage::RampUp => (2 * kw, live.holds(run.e)),
                Stage::Steady => (4 * kw, false),
                Stage::RampDown => (2 * kw, live.holds(run.cease - 1)),
            };
            let mut from = start;
            while from < end {
                let period = from / 30;
                let to = end.min(30 * (period + 1));
                let minutes = i64::from(to - from);
                // Thirty readings at most: their sum fits easily.
                let metered: i32 = slice(meter, from, to).iter().sum();
                let expected = nearest::<240>(quarters * minutes);
                let delivered = nearest::<240>(sign * (4 * i64::from(metered) - base * minutes));
                let capped = expected.min(delivered).max(0);
                let optional = !(by_ramp || live.periods[period as usize]);
                let pence = nearest::<1_000>(capped * prices[usize::from(optional)]);
                answer.capped += capped;
                answer.utilisation_pence += pence;
                if let Some(record) = records.next() {
                    *record = Line {
                        instruction: number,
                        period: period + 1,
                        stage,
                        optional,
                        expected,
                        delivered,
                        capped,
                        pence,
                    };
                }
                from = to;
            }
        }
    }
}

fn pay_windows(book: &Book, live: &Live, answer: &mut Answer) {
    let mut unpaid = [false; PERIODS];
    let mut faulted = [false; WINDOWS];
    for fault in &book.defaults[..book.default_count] {
        let Some(index) = book.window_of(fault.minute) else {
            continue;
        };
        if !live.windows[index] {
            continue;
        }
        let window = &book.windows[index];
        let own = fault.minute / 30;
        let (from, to) = match fault.reach {
            1 => (own, own + 1),
            2 => (window.start / 30, window.end / 30),
            _ => (own, window.end / 30),
        };
        unpaid[from as usize..to as usize].fill(true);
        faulted[index] |= fault.kind != 4;
    }
    let count = faulted.iter().filter(|&&faulted| faulted).count();
    let penalty = count.min(30) as i64;
    let contract = &book.contract;
    let of_one = nearest::<200_000>(
        i64::from(contract.kw) * i64::from(contract.availability_rate) * (100 - penalty),
    );
    let windows = &book.windows[..book.window_count];
    for (index, (window, pay)) in windows.iter().zip(&mut answer.windows).enumerate() {
        if live.windows[index] {
            let periods = &unpaid[(window.start / 30) as usize..(window.end / 30) as usize];
            pay.paid_periods = periods.iter().filter(|&&unpaid| !unpaid).count() as i32;
            pay.pence = i64::from(pay.paid_periods) * of_one;
            answer.availability_pence += pay.pence;
        }
    }
}
