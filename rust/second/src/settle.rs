//! The settlement: minutes to segments, segments to lines, windows to pence.
//! It goes minute by minute, the way the rules are worded.

use crate::book::{self, Book};
use crate::bytes::{Contract, DefaultEntry, Instruction, Window};
use crate::memory::Memory;
use crate::rules::{self, *};
use crate::switches::{Switch, Wrong};

#[derive(Clone, Copy, PartialEq, Eq, Debug)]
pub enum Stage {
    RampUp,
    Steady,
    RampDown,
}

#[derive(Clone, Copy, PartialEq, Eq, Debug)]
pub enum Rate {
    Utilisation,
    Optional,
}

/// One line: all minutes of one instruction with the same stage and period.
#[derive(Clone, Copy, PartialEq, Eq, Debug)]
pub struct Line {
    /// From 1.
    pub instruction: i64,
    pub period: i64,
    pub stage: Stage,
    pub rate: Rate,
    pub expected: i64,
    pub delivered: i64,
    pub capped: i64,
    pub pence: i64,
}

#[derive(Clone, Copy, PartialEq, Eq, Debug, Default)]
pub struct WindowPay {
    pub paid_periods: i64,
    pub pence: i64,
}

#[derive(Clone, PartialEq, Eq, Debug, Default)]
pub struct Statement {
    pub lines: Vec<Line>,
    pub windows: Vec<WindowPay>,
    pub capped: i64,
    pub utilisation_pence: i64,
    pub availability_pence: i64,
    pub all_pence: i64,
}

/// Settles a book that commands alone have made, with room for so many lines.
pub fn settle(
    book: &Book,
    memory: &Memory,
    line_records: usize,
    switch: Switch,
) -> Result<Statement, u8> {
    if memory.room(switch) < book.asked_minutes(switch) {
        return Err(15);
    }
    let contract = match &book.contract {
        Some(contract) if book.closed => contract,
        _ => return Err(24),
    };
    let all_read = book.instructions.iter().all(|instruction| {
        needed_minutes(contract, instruction, switch)
            .into_iter()
            .all(|minute| memory.has_reading(minute))
    });
    if !all_read {
        return Err(25);
    }
    let lines = lines(book, contract, &memory.meter, switch);
    if lines.len() > line_records {
        return Err(26);
    }
    let windows = window_pay(book, contract, switch);
    let utilisation_pence = lines.iter().map(|line| line.pence).sum();
    let availability_pence = windows.iter().map(|window| window.pence).sum();
    Ok(Statement {
        capped: lines.iter().map(|line| line.capped).sum(),
        utilisation_pence,
        availability_pence,
        all_pence: utilisation_pence + availability_pence,
        lines,
        windows,
    })
}

/// Settles any book, also one that somebody made up.
pub fn settle_any(
    book: &Book,
    memory: &Memory,
    line_records: usize,
    switch: Switch,
) -> Result<Statement, u8> {
    if !book::sound(book, switch) {
        return Err(11);
    }
    settle(book, memory, line_records, switch)
}

/// The stage of a minute under an instruction; none if it is not active.
pub fn stage(
    contract: &Contract,
    instruction: &Instruction,
    minute: i64,
    switch: Switch,
) -> Option<Stage> {
    let e = response_expires(contract, instruction);
    let u = ramp_up_minutes(contract, switch);
    let f = instruction_end(contract, instruction, switch);
    if e - u <= minute && minute < e {
        Some(Stage::RampUp)
    } else if e <= minute && minute < instruction.cease {
        Some(Stage::Steady)
    } else if instruction.cease <= minute && minute < f {
        Some(Stage::RampDown)
    } else {
        None
    }
}

/// The four minutes whose readings make the base load.
pub fn base_minutes(instruction: &Instruction) -> [i64; 4] {
    let issue = instruction.issue;
    [issue - 3, issue - 2, issue - 1, issue]
}

/// The active minutes with their stages, by rising minute.
pub fn active_minutes(
    contract: &Contract,
    instruction: &Instruction,
    switch: Switch,
) -> Vec<(i64, Stage)> {
    let end = instruction_end(contract, instruction, switch);
    (instruction.issue..end)
        .filter_map(|minute| {
            stage(contract, instruction, minute, switch).map(|stage| (minute, stage))
        })
        .collect()
}

/// The minutes without whose readings there is no settlement.
pub fn needed_minutes(contract: &Contract, instruction: &Instruction, switch: Switch) -> Vec<i64> {
    let base = base_minutes(instruction);
    let mut needed = base.to_vec();
    for (minute, _) in active_minutes(contract, instruction, switch) {
        if !base.contains(&minute) {
            needed.push(minute);
        }
    }
    needed
}

/// A window into which the recovery and the notice after an instruction reach.
pub fn excluded(book: &Book, contract: &Contract, window: &Window, switch: Switch) -> bool {
    book.instructions.iter().any(|instruction| {
        let f = instruction_end(contract, instruction, switch);
        let after = if switch.is(Wrong::ExcludeAtF) {
            window.start >= f
        } else {
            window.start > f
        };
        let notice = if switch.is(Wrong::RecoveryAlone) {
            0
        } else {
            contract.response
        };
        contract.recovery >= 1 && after && window.start < f + contract.recovery + notice
    })
}

/// Accepted and not excluded.
pub fn live(book: &Book, contract: &Contract, window: &Window, switch: Switch) -> bool {
    let accepted = window.rejected == 0 || switch.is(Wrong::RejectedLive);
    accepted && !excluded(book, contract, window, switch)
}

/// The minutes that belong to a line, and what they are paid at.
pub struct Segment {
    /// The instruction's place, from 0.
    pub index: usize,
    pub stage: Stage,
    pub period: i64,
    pub rate: Rate,
    pub minutes: Vec<i64>,
}

/// All segments of a book, by rising minute.
pub fn segments(book: &Book, contract: &Contract, switch: Switch) -> Vec<Segment> {
    let live_windows: Vec<Window> = book
        .windows
        .iter()
        .copied()
        .filter(|window| live(book, contract, window, switch))
        .collect();
    let mut segments = Vec::new();
    for (index, instruction) in book.instructions.iter().enumerate() {
        segments.extend(segments_of(
            contract,
            index,
            instruction,
            &live_windows,
            switch,
        ));
    }
    segments
}

fn segments_of(
    contract: &Contract,
    index: usize,
    instruction: &Instruction,
    live_windows: &[Window],
    switch: Switch,
) -> Vec<Segment> {
    let mut segments: Vec<Segment> = Vec::new();
    for (minute, stage) in active_minutes(contract, instruction, switch) {
        let period = period_of(minute);
        let rate = rate(contract, instruction, live_windows, minute, stage, switch);
        match segments.last_mut() {
            Some(last) if last.stage == stage && last.period == period => {
                // Windows begin and end with periods, so no segment has two rates.
                assert!(last.rate == rate || switch != Switch::RIGHT);
                last.minutes.push(minute);
            }
            _ => segments.push(Segment {
                index,
                stage,
                period,
                rate,
                minutes: vec![minute],
            }),
        }
    }
    segments
}

/// What a minute is paid at.
fn rate(
    contract: &Contract,
    instruction: &Instruction,
    live_windows: &[Window],
    minute: i64,
    stage: Stage,
    switch: Switch,
) -> Rate {
    let in_live = |minute| live_windows.iter().any(|w| holds(w, minute, switch));
    let e = response_expires(contract, instruction);
    let by_ramp = match stage {
        Stage::RampUp => in_live(e) && !switch.is(Wrong::RampBeforeWindowOptional),
        Stage::Steady => false,
        Stage::RampDown => {
            in_live(instruction.cease - 1) && !switch.is(Wrong::RampAfterWindowOptional)
        }
    };
    if in_live(minute) || by_ramp {
        Rate::Utilisation
    } else {
        Rate::Optional
    }
}

fn lines(book: &Book, contract: &Contract, meter: &[i32], switch: Switch) -> Vec<Line> {
    segments(book, contract, switch)
        .iter()
        .map(|segment| line(book, contract, segment, meter, switch))
        .collect()
}

fn reading(meter: &[i32], minute: i64) -> i64 {
    i64::from(meter[minute as usize])
}

/// S of an instruction, by its place: four base readings together, so that four
/// times a reading compares.
pub fn base_load(book: &Book, index: usize, meter: &[i32], switch: Switch) -> i64 {
    let index = if switch.is(Wrong::BaseOfLast) {
        index.saturating_sub(1)
    } else {
        index
    };
    let sum = base_minutes(&book.instructions[index])
        .into_iter()
        .map(|minute| reading(meter, minute))
        .sum::<i64>();
    if switch.is(Wrong::BaseRounded) {
        return 4 * nearest(i128::from(sum), 4, switch);
    }
    sum
}

/// Sums are in quarters of a kW-minute, of which 240 are a kWh.
const QUARTERS: i128 = 240;

/// What a minute of a stage expects.
pub fn expected_quarters(contract: &Contract, stage: Stage, switch: Switch) -> i64 {
    let ramp_share = if switch.is(Wrong::WholeRamp) { 4 } else { 2 };
    let share = match stage {
        Stage::Steady => 4,
        Stage::RampUp | Stage::RampDown => ramp_share,
    };
    share * contract.kw
}

/// What a minute delivers over the base load.
pub fn delivered_quarters(contract: &Contract, base: i64, meter: &[i32], minute: i64) -> i64 {
    let metered = 4 * reading(meter, minute);
    if contract.kind == 0 {
        metered - base
    } else {
        base - metered
    }
}

/// A segment's capped kWh, and those that its payment is for: the same ones.
/// What runs backwards earns nothing and costs nothing.
fn floored(lesser: i64, switch: Switch) -> (i64, i64) {
    let floored = lesser.max(0);
    match switch.0 {
        Some(Wrong::NoFloor) => (lesser, lesser),
        Some(Wrong::FloorOnPaymentAlone) => (lesser, floored),
        _ => (floored, floored),
    }
}

pub fn line(
    book: &Book,
    contract: &Contract,
    segment: &Segment,
    meter: &[i32],
    switch: Switch,
) -> Line {
    let base = base_load(book, segment.index, meter, switch);
    let mut expected_sum = 0;
    let mut delivered_sum = 0;
    let mut lesser_sum = 0;
    let mut gained_sum = 0;
    for &minute in &segment.minutes {
        let expected = expected_quarters(contract, segment.stage, switch);
        let delivered = delivered_quarters(contract, base, meter, minute);
        expected_sum += expected;
        delivered_sum += delivered;
        lesser_sum += expected.min(delivered);
        gained_sum += delivered.max(0);
    }
    let kwh = |quarters: i64| nearest(i128::from(quarters), QUARTERS, switch);
    let expected = kwh(expected_sum);
    let mut delivered = kwh(delivered_sum);
    let lesser = match switch.0 {
        Some(Wrong::CapByMinute) => kwh(lesser_sum),
        Some(Wrong::FloorByMinute) => expected.min(kwh(gained_sum)),
        _ => expected.min(delivered),
    };
    let (capped, paid) = floored(lesser, switch);
    if switch.is(Wrong::DeliveredFloored) {
        delivered = delivered.max(0);
    }
    let price = match (segment.rate, switch.is(Wrong::GlossaryRates)) {
        (Rate::Utilisation, false) | (Rate::Optional, true) => contract.utilisation_rate,
        (Rate::Optional, false) | (Rate::Utilisation, true) => contract.optional_rate,
    };
    Line {
        instruction: segment.index as i64 + 1,
        period: segment.period,
        stage: segment.stage,
        rate: segment.rate,
        expected,
        delivered,
        capped,
        pence: nearest(i128::from(paid) * i128::from(price), 1_000, switch),
    }
}

/// Whether a default reaches a period of the window that holds its minute.
fn reaches(default: &DefaultEntry, period: i64) -> bool {
    let own = period_of(default.minute);
    match default.reach {
        1 => period == own,
        2 => true,
        _ => period >= own,
    }
}

/// The defaults whose minute is in the window.
fn defaults_of<'a>(
    book: &'a Book,
    window: &'a Window,
    switch: Switch,
) -> impl Iterator<Item = &'a DefaultEntry> {
    book.defaults
        .iter()
        .filter(move |default| holds(window, default.minute, switch))
}

/// P: what each live window with a default other than delivery takes off, in
/// hundredths of every period's pay.
pub fn penalty(book: &Book, contract: &Contract, switch: Switch) -> i64 {
    let counts = |default: &&DefaultEntry| default.kind != 4 || switch.is(Wrong::DeliveryInP);
    let mut p = 0;
    for window in &book.windows {
        if live(book, contract, window, switch) {
            let faults = defaults_of(book, window, switch).filter(counts).count() as i64;
            p += if switch.is(Wrong::PByDefault) {
                faults
            } else {
                faults.min(1)
            };
        }
    }
    if switch.is(Wrong::PUnlimited) {
        return p;
    }
    p.min(MOST_P)
}

fn window_pay(book: &Book, contract: &Contract, switch: Switch) -> Vec<WindowPay> {
    let p = penalty(book, contract, switch);
    let of_one_period = nearest(
        i128::from(contract.kw) * i128::from(contract.availability_rate) * i128::from(100 - p),
        200_000,
        switch,
    );
    let mut pay = Vec::new();
    for window in &book.windows {
        let mut of_window = WindowPay::default();
        if live(book, contract, window, switch) {
            for period in period_of(window.start)..=window.end / rules::PERIOD {
                if !defaults_of(book, window, switch).any(|default| reaches(default, period)) {
                    of_window.paid_periods += 1;
                    of_window.pence += of_one_period;
                }
            }
        }
        pay.push(of_window);
    }
    pay
}
