//! The memory that calls are lent, and the calls over it.

use crate::{
    library, Day, Failure, Month, Refusal, Statement, Walk, CONTRACT_NUMBERS, LINE_NUMBERS,
    MONTH_BYTES, MONTH_LINES, MONTH_MINUTES, NO_READING, SUMS,
};

/// A closed book in numbers, as the library takes it: each table's entries one
/// after the other, their fields in the order of the unit file's operands.
#[derive(Clone, PartialEq, Eq, Debug, Default)]
pub struct Tables {
    /// Days, kind, service, contracted kW, ramp up, ramp down, response,
    /// recovery, availability, utilisation and optional rate; then the year, the
    /// month and the day of the month's date, which is its first, or zeros where it
    /// has none.
    pub contract: [u32; CONTRACT_NUMBERS],
    /// Start, end, and 0 for accepted or 1 for rejected.
    pub windows: Vec<u32>,
    /// Issue and cease.
    pub instructions: Vec<u32>,
    /// Minute, kind and reach.
    pub defaults: Vec<u32>,
}

/// The memory that calls are lent: metering, its revisions, line records and
/// sums.
pub struct Memory {
    meter: Vec<i32>,
    revisions: Vec<u8>,
    lines: Vec<i64>,
    sums: [i64; SUMS],
}

impl Memory {
    /// Enough for every month.
    pub fn of_month() -> Memory {
        Memory::with_room(MONTH_MINUTES, MONTH_LINES)
    }

    /// So many minutes of metering and of revisions. Shorter memory is refused
    /// under 15 or 26 where it does not do.
    pub fn with_room(minutes: usize, line_records: usize) -> Memory {
        Memory {
            meter: vec![NO_READING; minutes],
            revisions: vec![0; minutes],
            lines: vec![0; LINE_NUMBERS * line_records],
            sums: [0; SUMS],
        }
    }

    /// The same with another number of minutes of revisions: the shorter of
    /// the two memories counts for 15.
    pub fn with_revisions(mut self, minutes: usize) -> Memory {
        self.revisions.resize(minutes, 0);
        self
    }

    /// The cells as the last call left them: for tables, put the readings
    /// here.
    pub fn meter(&mut self) -> &mut [i32] {
        &mut self.meter
    }

    /// The number of the revision by which each minute has its reading, 0 for
    /// a plain one, as the last call left them; of a minute without a reading
    /// it means nothing. For tables that are to be written, put them here.
    pub fn revisions(&mut self) -> &mut [u8] {
        &mut self.revisions
    }

    /// Enters a unit file's commands up to its end or the first refusal. The
    /// readings taken and their revisions are in the memory then.
    pub fn enter_file(&mut self, file: &[u8]) -> Result<(), Refusal> {
        let answer = library::enter_file(file, &mut self.meter, &mut self.revisions);
        taken(answer)
    }

    /// Enters and settles a whole unit file.
    pub fn settle_file(&mut self, file: &[u8]) -> Result<Statement, Failure> {
        let answer = library::settle_file(
            file,
            &mut self.meter,
            &mut self.revisions,
            &mut self.lines,
            &mut self.sums,
        );
        taken(answer).map_err(Failure::Refused)?;
        self.statement()
    }

    /// Settles a closed book over the readings in the meter memory.
    pub fn settle_tables(&mut self, tables: &Tables) -> Result<Statement, Failure> {
        let number = library::settle_tables(
            &tables.contract,
            &tables.windows,
            &tables.instructions,
            &tables.defaults,
            &self.meter,
            &self.revisions,
            &mut self.lines,
            &mut self.sums,
        );
        taken(u64::from(number)).map_err(Failure::Refused)?;
        self.statement()
    }

    /// A closed book, and the readings in the meter memory with their revisions,
    /// as a unit file.
    pub fn write_tables(&self, tables: &Tables) -> Result<Vec<u8>, Refusal> {
        let mut file = vec![0; MONTH_BYTES];
        let answer = library::write_tables(
            &tables.contract,
            &tables.windows,
            &tables.instructions,
            &tables.defaults,
            &self.meter,
            &self.revisions,
            &mut file,
        );
        shortened(file, answer)
    }

    /// Enters a unit file and writes its book, open, empty or closed, as a
    /// unit file: the same book in the writer's order.
    pub fn write_file(&mut self, file: &[u8]) -> Result<Vec<u8>, Refusal> {
        let mut written = vec![0; MONTH_BYTES];
        let answer = library::write_file(file, &mut self.meter, &mut self.revisions, &mut written);
        shortened(written, answer)
    }

    /// Enters a unit file, open, empty or closed, and works out what watching
    /// its month needs. The readings taken are in the meter memory then.
    pub fn watch_file(&mut self, file: &[u8]) -> Result<Month, Refusal> {
        Month::made(|numbers| {
            library::watch_file(file, &mut self.meter, &mut self.revisions, numbers)
        })
    }

    /// What watching the month of tables needs. It looks at no reading, and so
    /// at no memory.
    pub fn watch_tables(tables: &Tables) -> Result<Month, Refusal> {
        Month::made(|numbers| {
            u64::from(library::watch_tables(
                &tables.contract,
                &tables.windows,
                &tables.instructions,
                &tables.defaults,
                numbers,
            ))
        })
    }

    /// Walks through a month over the readings in the meter memory: the totals
    /// after each active minute, in order.
    pub fn walk<'a>(&'a self, month: &'a Month) -> Walk<'a> {
        Walk::new(month, &self.meter)
    }

    /// Enters a unit file, open, empty or closed, and says what kind of day a day of
    /// its month is. The list of holidays may hold any numbers: those that are no
    /// day of the month do nothing.
    pub fn day_file(&mut self, file: &[u8], day: u32, holidays: &[u32]) -> Result<Day, Failure> {
        Day::of_answer(library::day_file(
            file,
            &mut self.meter,
            &mut self.revisions,
            day,
            holidays,
        ))
    }

    /// What kind of day a day of the month of tables is. It looks at no reading, and
    /// so at no memory.
    pub fn day_tables(tables: &Tables, day: u32, holidays: &[u32]) -> Result<Day, Failure> {
        Day::of_answer(library::day_tables(
            &tables.contract,
            &tables.windows,
            &tables.instructions,
            &tables.defaults,
            day,
            holidays,
        ))
    }

    fn statement(&self) -> Result<Statement, Failure> {
        Statement::of_numbers(&self.lines, &self.sums).ok_or(Failure::Malformed)
    }
}

/// The bytes that were written, of all that were lent.
fn shortened(mut file: Vec<u8>, answer: u64) -> Result<Vec<u8>, Refusal> {
    taken(answer)?;
    file.truncate((answer / 256) as usize);
    Ok(file)
}

/// An answer taken apart: number and 256 times the offset, in one.
pub(crate) fn taken(answer: u64) -> Result<(), Refusal> {
    match answer.to_le_bytes()[0] {
        0 => Ok(()),
        number => Err(Refusal {
            number,
            offset: answer / 256,
        }),
    }
}
