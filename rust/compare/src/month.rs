//! Months of the calendar. The generator has its own table of days, so that a
//! slip in the settlement's calendar cannot hide.

use crate::random::Random;

#[derive(Clone, Copy, PartialEq, Eq, Debug)]
pub struct Month {
    pub year: i64,
    /// From 1, January, to 12.
    pub number: i64,
}

const DAYS: [i64; 12] = [31, 28, 31, 30, 31, 30, 31, 31, 30, 31, 30, 31];
const FEBRUARY: i64 = 2;
pub const MARCH: i64 = 3;
pub const OCTOBER: i64 = 10;
/// No month is shorter.
pub const LEAST_DAYS: i64 = 28;

impl Month {
    pub fn days(self) -> i64 {
        // No year of a unit file's dates ends a century.
        let leap_day = self.number == FEBRUARY && self.year % 4 == 0;
        DAYS[self.number as usize - 1] + i64::from(leap_day)
    }

    /// The minutes that the clock gives or takes.
    pub fn change(self) -> i64 {
        match self.number {
            MARCH => -60,
            OCTOBER => 60,
            _ => 0,
        }
    }
}

fn year(random: &mut Random) -> i64 {
    let any = random.between(2_007, 2_099);
    random.pick(&[2_007, 2_008, 2_023, 2_024, 2_096, 2_099, any, any])
}

/// Any month, those in which the clock changes often.
pub fn any(random: &mut Random) -> Month {
    let any = random.between(1, 12);
    Month {
        year: year(random),
        number: random.pick(&[MARCH, OCTOBER, FEBRUARY, any, any]),
    }
}

/// A month of so many days; none if there is none.
pub fn of_days(random: &mut Random, days: i64) -> Option<Month> {
    if days < LEAST_DAYS {
        return None;
    }
    loop {
        let month = any(random);
        if month.days() == days {
            return Some(month);
        }
    }
}

/// For a plan of so many days: about every second one that can have a date has
/// one.
pub fn for_plan(random: &mut Random, days: i64) -> Option<Month> {
    if days < LEAST_DAYS || random.once_in(2) {
        return None;
    }
    of_days(random, days)
}
