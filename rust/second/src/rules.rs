//! Limits, minutes, ramps and rounding: what both the book and the settlement
//! go by.

use crate::bytes::{Contract, Date, Instruction, Window};
use crate::calendar;
use crate::switches::{Switch, Wrong};
use std::ops::RangeInclusive;

pub const DAYS: RangeInclusive<i64> = 1..=31;
pub const CONTRACTED_KW: RangeInclusive<i64> = 3_000..=500_000;
pub const RAMP: RangeInclusive<i64> = 1..=500_000;
pub const RESPONSE: RangeInclusive<i64> = 1..=240;
pub const RECOVERY: RangeInclusive<i64> = 0..=1_200;
pub const RATE: RangeInclusive<i64> = 0..=1_000_000;
/// As far as the longest month goes, an October of 31 days and an hour.
pub const MINUTE: RangeInclusive<i64> = 0..=44_700;
pub const ISSUE: RangeInclusive<i64> = 3..=44_700;
pub const READING: RangeInclusive<i64> = -500_000..=500_000;
/// A plain reading is revision 0.
pub const REVISION: RangeInclusive<i64> = 1..=255;
/// A kind, a service, or accepted and rejected.
pub const EITHER: RangeInclusive<i64> = 0..=1;
pub const DEFAULT_KIND: RangeInclusive<i64> = 1..=4;
pub const DEFAULT_REACH: RangeInclusive<i64> = 1..=3;
/// A date's; how far its days go depends on both.
pub const YEAR: RangeInclusive<i64> = 2_007..=2_099;
pub const MONTH: RangeInclusive<i64> = 1..=12;

pub const MOST_RAMP_DOWN_MINUTES: i64 = 240;
pub const MOST_P: i64 = 30;

pub const WINDOWS: usize = 128;
pub const INSTRUCTIONS: usize = 64;
pub const DEFAULTS: usize = 128;

pub const PERIOD: i64 = 30;
pub const DAY: i64 = 1_440;
/// What a contract puts into each cell of its span.
pub const NO_READING: i32 = i32::MIN;

/// The lister's memory: minutes of metering and line records for 11 days.
pub const LISTER_MINUTES: usize = 15_840;
pub const LISTER_LINES: usize = 719;

/// Periods count from 1 through the whole month.
pub fn period_of(minute: i64) -> i64 {
    minute / PERIOD + 1
}

/// The span of a contract without a date.
pub fn undated_span(contract: &Contract) -> i64 {
    contract.days * DAY
}

/// The minutes that 15 asks for: in an October one hour more than without a
/// date, and in a March no less.
pub fn asked_minutes(contract: &Contract, date: Option<&Date>, switch: Switch) -> i64 {
    let change = clock_change(date, switch);
    let asked = match switch.0 {
        Some(Wrong::ShortMarchMemory) => change,
        Some(Wrong::OctoberRoomUnasked) => 0,
        _ => change.max(0),
    };
    undated_span(contract) + asked
}

/// What a date changes of a span.
pub fn clock_change(date: Option<&Date>, switch: Switch) -> i64 {
    date.map_or(0, |date| {
        calendar::clock_change(date.year, date.month, switch)
    })
}

/// kW over kW a minute, taken up to a whole minute.
fn ramp_minutes(kw: i64, ramp: i64, switch: Switch) -> i64 {
    if switch.is(Wrong::RampsDown) {
        return (kw / ramp).max(1);
    }
    (kw + ramp - 1) / ramp
}

/// U
pub fn ramp_up_minutes(contract: &Contract, switch: Switch) -> i64 {
    ramp_minutes(contract.kw, contract.ramp_up, switch)
}

/// V
pub fn ramp_down_minutes(contract: &Contract, switch: Switch) -> i64 {
    ramp_minutes(contract.kw, contract.ramp_down, switch)
}

/// e, the minute in which the response expires.
pub fn response_expires(contract: &Contract, instruction: &Instruction) -> i64 {
    instruction.issue + contract.response
}

/// f, the instruction's end.
pub fn instruction_end(contract: &Contract, instruction: &Instruction, switch: Switch) -> i64 {
    instruction.cease + ramp_down_minutes(contract, switch)
}

/// A window holds its start and not its end.
pub fn holds(window: &Window, minute: i64, switch: Switch) -> bool {
    if switch.is(Wrong::WindowEndInside) {
        return window.start <= minute && minute <= window.end;
    }
    window.start <= minute && minute < window.end
}

/// The nearest whole number; of two equally near ones, the larger.
pub fn nearest(number: i128, divisor: i128, switch: Switch) -> i64 {
    let down = number.div_euclid(divisor);
    let twice_rest = 2 * number.rem_euclid(divisor);
    let half_stays = switch.is(Wrong::HalfDown) || switch.is(Wrong::HalfAway) && number < 0;
    let up = if half_stays {
        twice_rest > divisor
    } else {
        twice_rest >= divisor
    };
    let result = if up { down + 1 } else { down };
    i64::try_from(result).expect("every figure of a month fits 64 bits")
}
