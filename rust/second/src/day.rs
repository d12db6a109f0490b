//! What kind of day a day of a dated month is.

use crate::book::{self, Book};
use crate::bytes::Date;
use crate::calendar;
use crate::switches::{Switch, Wrong};

#[derive(Clone, Copy, PartialEq, Eq, Debug)]
pub enum Day {
    /// The book has no date, or its month no such day.
    None,
    Working,
    /// A Sunday, or a holiday.
    NonWorking,
}

/// Of a book that commands alone have made. The list of holidays may hold
/// anything: a number that is no day of the month is nobody's holiday.
pub fn day(book: &Book, day: i64, holidays: &[i64], switch: Switch) -> Day {
    let (Some(contract), Some(first)) = (&book.contract, &book.date) else {
        return match switch.is(Wrong::UndatedDaysWorking) {
            true => Day::Working,
            false => Day::None,
        };
    };
    let last = contract.days + i64::from(switch.is(Wrong::DayBehindTheLast));
    if day < 1 || day > last {
        return Day::None;
    }
    let date = Date { day, ..*first };
    let holiday = holidays.contains(&day) && !switch.is(Wrong::HolidaysUnseen)
        || holidays.contains(&0) && switch.is(Wrong::HolidayOfEveryDay);
    match calendar::is_sunday(&date, switch) || holiday {
        true => Day::NonWorking,
        false => Day::Working,
    }
}

/// Of any book, also one that somebody made up.
pub fn day_any(book: &Book, number: i64, holidays: &[i64], switch: Switch) -> Result<Day, u8> {
    if !book::sound(book, switch) {
        return Err(11);
    }
    Ok(day(book, number, holidays, switch))
}
