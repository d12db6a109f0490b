//! Kinds of day of a dated month.

use crate::memory::taken;
use crate::Failure;

/// What kind of day a day of a month is.
///
/// ```
/// let file = std::fs::read("../../examples/march.unit")?;
/// let mut memory = stor::Memory::of_month();
///
/// // March 2024: the 29th is Good Friday, and the 31st a Sunday.
/// let mut day = |number| memory.day_file(&file, number, &[29]);
/// assert_eq!(day(28), Ok(stor::Day::Working));
/// assert_eq!(day(29), Ok(stor::Day::NonWorking));
/// assert_eq!(day(31), Ok(stor::Day::NonWorking));
/// assert_eq!(day(32), Ok(stor::Day::None));
/// # Ok::<(), std::io::Error>(())
/// ```
#[derive(Clone, Copy, PartialEq, Eq, Debug)]
pub enum Day {
    /// The book has no date, or its month no such day.
    None,
    /// Any other.
    Working,
    /// A Sunday, or a day whose number is in the list of holidays.
    NonWorking,
}

impl Day {
    /// Of the library's answer. No other kinds are promised.
    pub(crate) fn of_answer(answer: u64) -> Result<Day, Failure> {
        taken(answer).map_err(Failure::Refused)?;
        match answer / 256 {
            0 => Ok(Day::None),
            1 => Ok(Day::Working),
            2 => Ok(Day::NonWorking),
            _ => Err(Failure::Malformed),
        }
    }
}
