//! Commands as the generator thinks of them, and their bytes. It has its own
//! byte table so that a slip in the settlement's one cannot hide.

#[derive(Clone, Copy, Debug)]
pub struct Contract {
    pub days: i64,
    pub kind: i64,
    pub service: i64,
    pub kw: i64,
    pub ramp_up: i64,
    pub ramp_down: i64,
    pub response: i64,
    pub recovery: i64,
    pub availability: i64,
    pub utilisation: i64,
    pub optional: i64,
}

impl Contract {
    /// Without a date.
    pub fn span(&self) -> i64 {
        1_440 * self.days
    }

    pub fn up(&self) -> i64 {
        (self.kw + self.ramp_up - 1) / self.ramp_up
    }

    pub fn down(&self) -> i64 {
        (self.kw + self.ramp_down - 1) / self.ramp_down
    }
}

#[derive(Clone, Debug)]
pub enum Entry {
    Contract(Contract),
    /// Year, month, day.
    Date(i64, i64, i64),
    /// Start, end, state.
    Window(i64, i64, i64),
    /// Issue, cease.
    Instruction(i64, i64),
    /// Minute, kind, reach.
    Default(i64, i64, i64),
    /// Minute, kW.
    Reading(i64, i64),
    /// Minute, number, kW.
    Revision(i64, i64, i64),
    Close,
    Raw(Vec<u8>),
}

impl Entry {
    pub fn put(&self, file: &mut Vec<u8>) {
        let one = |file: &mut Vec<u8>, value: i64| file.push(value as u8);
        let two = |file: &mut Vec<u8>, value: i64| file.extend((value as u16).to_be_bytes());
        let four = |file: &mut Vec<u8>, value: i64| file.extend((value as u32).to_be_bytes());
        match self {
            Entry::Contract(c) => {
                file.push(b'C');
                one(file, c.days);
                one(file, c.kind);
                one(file, c.service);
                four(file, c.kw);
                four(file, c.ramp_up);
                four(file, c.ramp_down);
                two(file, c.response);
                two(file, c.recovery);
                four(file, c.availability);
                four(file, c.utilisation);
                four(file, c.optional);
            }
            Entry::Date(year, month, day) => {
                file.push(b'T');
                two(file, *year);
                one(file, *month);
                one(file, *day);
            }
            Entry::Window(start, end, state) => {
                file.push(b'W');
                two(file, *start);
                two(file, *end);
                one(file, *state);
            }
            Entry::Instruction(issue, cease) => {
                file.push(b'I');
                two(file, *issue);
                two(file, *cease);
            }
            Entry::Default(minute, kind, reach) => {
                file.push(b'D');
                two(file, *minute);
                one(file, *kind);
                one(file, *reach);
            }
            Entry::Reading(minute, kw) => {
                file.push(b'M');
                two(file, *minute);
                four(file, *kw);
            }
            Entry::Revision(minute, number, kw) => {
                file.push(b'R');
                two(file, *minute);
                one(file, *number);
                four(file, *kw);
            }
            Entry::Close => file.push(b'Z'),
            Entry::Raw(bytes) => file.extend(bytes),
        }
    }
}

pub fn bytes(entries: &[Entry]) -> Vec<u8> {
    let mut file = Vec::new();
    for entry in entries {
        entry.put(&mut file);
    }
    file
}
