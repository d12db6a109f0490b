//! The calendar of dated months: days of a month, weekdays, and the hour that
//! the clock changes take and give. Weekdays come from Zeller's congruence, so
//! no day is ever counted up from another.

use crate::bytes::Date;
use crate::rules::{DAY, MONTH, PERIOD, YEAR};
use crate::switches::{Switch, Wrong};

const FEBRUARY: i64 = 2;
const MARCH: i64 = 3;
const OCTOBER: i64 = 10;

const PERIODS: i64 = DAY / PERIOD;
/// The periods of an hour.
const HOUR: i64 = 2;

fn is_leap(year: i64, switch: Switch) -> bool {
    let year = if switch.is(Wrong::LeapYearLate) {
        year - 1
    } else {
        year
    };
    year % if year % 100 == 0 { 400 } else { 4 } == 0
}

/// The days of a month; its number is from 1 to 12.
pub fn days_of(year: i64, month: i64, switch: Switch) -> i64 {
    if month == FEBRUARY {
        return 28 + i64::from(is_leap(year, switch));
    }
    // Long and short take turns, from July to August without one.
    30 + (month + month / 8) % 2
}

/// Whether the calendar of this trade has such a day (refusal 28 if not).
pub fn exists(date: &Date, switch: Switch) -> bool {
    YEAR.contains(&date.year)
        && MONTH.contains(&date.month)
        && (1..=days_of(date.year, date.month, switch)).contains(&date.day)
}

/// 0 Sunday to 6 Saturday, by Zeller's congruence.
pub fn weekday(date: &Date) -> i64 {
    // Its years begin with March: January and February belong to the last one.
    let early = date.month <= FEBRUARY;
    let month = date.month + if early { 12 } else { 0 };
    let year = date.year - i64::from(early);
    let (century, of_century) = (year / 100, year % 100);
    let from_saturday =
        date.day + 13 * (month + 1) / 5 + of_century + of_century / 4 + century / 4 - 2 * century;
    (from_saturday + 6).rem_euclid(7)
}

pub fn is_sunday(date: &Date, switch: Switch) -> bool {
    let sunday = if switch.is(Wrong::SaturdayForSunday) {
        6
    } else {
        0
    };
    weekday(date) == sunday
}

/// The day of a month on which its last Sunday falls.
fn last_sunday(year: i64, month: i64, switch: Switch) -> i64 {
    let day = days_of(year, month, switch);
    let last = day - weekday(&Date { year, month, day });
    if switch.is(Wrong::FirstSunday) {
        return (last - 1) % 7 + 1;
    }
    last
}

/// The periods of a day: 46 and 50 where the clock changes, else 48.
pub fn periods_on(date: &Date, switch: Switch) -> i64 {
    if date.day != last_sunday(date.year, date.month, switch) {
        return PERIODS;
    }
    match date.month {
        MARCH => PERIODS - HOUR,
        OCTOBER => PERIODS + HOUR,
        _ => PERIODS,
    }
}

/// The minutes that a month has more than its days would have without a clock
/// change: what the one day on which it may change brings.
pub fn clock_change(year: i64, month: i64, switch: Switch) -> i64 {
    let day = last_sunday(year, month, switch);
    PERIOD * (periods_on(&Date { year, month, day }, switch) - PERIODS)
}
