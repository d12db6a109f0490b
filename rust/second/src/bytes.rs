//! The unit file: its table of commands, and reading and writing one command.

use crate::switches::{Switch, Wrong};

#[derive(Clone, Copy, PartialEq, Eq, Debug)]
pub struct Contract {
    pub days: i64,
    /// 0 generator, 1 demand reducer
    pub kind: i64,
    /// 0 committed, 1 flexible
    pub service: i64,
    pub kw: i64,
    pub ramp_up: i64,
    pub ramp_down: i64,
    pub response: i64,
    pub recovery: i64,
    pub availability_rate: i64,
    pub utilisation_rate: i64,
    pub optional_rate: i64,
}

/// Of the month's first day.
#[derive(Clone, Copy, PartialEq, Eq, Debug)]
pub struct Date {
    pub year: i64,
    pub month: i64,
    pub day: i64,
}

#[derive(Clone, Copy, PartialEq, Eq, Debug)]
pub struct Window {
    pub start: i64,
    pub end: i64,
    /// 0 accepted, 1 rejected
    pub rejected: i64,
}

#[derive(Clone, Copy, PartialEq, Eq, Debug)]
pub struct Instruction {
    pub issue: i64,
    pub cease: i64,
}

#[derive(Clone, Copy, PartialEq, Eq, Debug)]
pub struct DefaultEntry {
    pub minute: i64,
    /// 1 data submission, 2 utilisation, 3 availability, 4 delivery
    pub kind: i64,
    /// 1 the period, 2 the whole window, 3 from the period to the window's end
    pub reach: i64,
}

#[derive(Clone, Copy, PartialEq, Eq, Debug)]
pub struct Reading {
    pub minute: i64,
    pub kw: i64,
}

/// A reading that supersedes those of lower numbers.
#[derive(Clone, Copy, PartialEq, Eq, Debug)]
pub struct Revision {
    pub minute: i64,
    pub number: i64,
    pub kw: i64,
}

/// A command as its bytes say it; the fields may be out of their ranges.
#[derive(Clone, Copy, PartialEq, Eq, Debug)]
pub enum Command {
    Contract(Contract),
    Date(Date),
    Window(Window),
    Instruction(Instruction),
    Default(DefaultEntry),
    Reading(Reading),
    Revision(Revision),
    Close,
}

/// One row of the unit file's table: the command byte and its operands' widths.
pub struct Layout {
    pub byte: u8,
    pub widths: &'static [usize],
}

pub const CONTRACT: Layout = Layout {
    byte: 0x43,
    widths: &[1, 1, 1, 4, 4, 4, 2, 2, 4, 4, 4],
};
pub const DATE: Layout = Layout {
    byte: 0x54,
    widths: &[2, 1, 1],
};
pub const WINDOW: Layout = Layout {
    byte: 0x57,
    widths: &[2, 2, 1],
};
pub const INSTRUCTION: Layout = Layout {
    byte: 0x49,
    widths: &[2, 2],
};
pub const DEFAULT: Layout = Layout {
    byte: 0x44,
    widths: &[2, 1, 1],
};
pub const READING: Layout = Layout {
    byte: 0x4D,
    widths: &[2, 4],
};
pub const REVISION: Layout = Layout {
    byte: 0x52,
    widths: &[2, 1, 4],
};
pub const CLOSE: Layout = Layout {
    byte: 0x5A,
    widths: &[],
};
pub const TABLE: [Layout; 8] = [
    CONTRACT,
    DATE,
    WINDOW,
    INSTRUCTION,
    DEFAULT,
    READING,
    REVISION,
    CLOSE,
];

impl Layout {
    /// The whole command's bytes.
    pub fn length(&self) -> usize {
        1 + self.widths.iter().sum::<usize>()
    }
}

/// What the reader answers at a position.
#[derive(Clone, Copy, PartialEq, Eq, Debug)]
pub enum Read {
    End,
    /// 1 or 2; the position stays where it was.
    Refused(u8),
    /// The command, and the position after it.
    Command(Command, usize),
}

/// Reads the command that starts at `position`.
pub fn read(file: &[u8], position: usize, switch: Switch) -> Read {
    if position >= file.len() {
        return Read::End;
    }
    let Some(layout) = TABLE.iter().find(|row| row.byte == file[position]) else {
        return Read::Refused(1);
    };
    if file.len() - position < layout.length() {
        return Read::Refused(2);
    }
    let mut at = position + 1;
    let mut operands = Vec::new();
    for &width in layout.widths {
        operands.push(number(&file[at..at + width], switch));
        at += width;
    }
    Read::Command(command(layout.byte, &operands), at)
}

/// An operand's bytes as a number without a sign.
fn number(bytes: &[u8], switch: Switch) -> i64 {
    let mut value = 0;
    for place in 0..bytes.len() {
        let byte = if switch.is(Wrong::LowByteFirst) {
            bytes[bytes.len() - 1 - place]
        } else {
            bytes[place]
        };
        value = value * 256 + i64::from(byte);
    }
    value
}

/// Two's complement of four bytes.
fn signed(value: i64) -> i64 {
    if value >= 1 << 31 {
        value - (1 << 32)
    } else {
        value
    }
}

fn command(byte: u8, operands: &[i64]) -> Command {
    match (byte, operands) {
        (
            0x43,
            &[days, kind, service, kw, ramp_up, ramp_down, response, recovery, availability_rate, utilisation_rate, optional_rate],
        ) => Command::Contract(Contract {
            days,
            kind,
            service,
            kw,
            ramp_up,
            ramp_down,
            response,
            recovery,
            availability_rate,
            utilisation_rate,
            optional_rate,
        }),
        (0x54, &[year, month, day]) => Command::Date(Date { year, month, day }),
        (0x57, &[start, end, rejected]) => Command::Window(Window {
            start,
            end,
            rejected,
        }),
        (0x49, &[issue, cease]) => Command::Instruction(Instruction { issue, cease }),
        (0x44, &[minute, kind, reach]) => Command::Default(DefaultEntry {
            minute,
            kind,
            reach,
        }),
        (0x4D, &[minute, kw]) => Command::Reading(Reading {
            minute,
            kw: signed(kw),
        }),
        (0x52, &[minute, number, kw]) => Command::Revision(Revision {
            minute,
            number,
            kw: signed(kw),
        }),
        (0x5A, &[]) => Command::Close,
        _ => unreachable!("the table gives each command its operands"),
    }
}

/// The bytes of one command.
pub fn bytes_of(command: &Command, switch: Switch) -> Vec<u8> {
    let (layout, operands) = match *command {
        Command::Contract(c) => (
            CONTRACT,
            vec![
                c.days,
                c.kind,
                c.service,
                c.kw,
                c.ramp_up,
                c.ramp_down,
                c.response,
                c.recovery,
                c.availability_rate,
                c.utilisation_rate,
                c.optional_rate,
            ],
        ),
        Command::Date(d) => (DATE, vec![d.year, d.month, d.day]),
        Command::Window(w) => (WINDOW, vec![w.start, w.end, w.rejected]),
        Command::Instruction(i) => (INSTRUCTION, vec![i.issue, i.cease]),
        Command::Default(d) => (DEFAULT, vec![d.minute, d.kind, d.reach]),
        Command::Reading(r) => (READING, vec![r.minute, r.kw]),
        Command::Revision(v) => (REVISION, vec![v.minute, v.number, v.kw]),
        Command::Close => (CLOSE, vec![]),
    };
    let mut bytes = vec![layout.byte];
    for (&width, &operand) in layout.widths.iter().zip(&operands) {
        let wide = operand.to_be_bytes();
        let mut narrow = wide[wide.len() - width..].to_vec();
        if switch.is(Wrong::LowByteFirst) {
            narrow.reverse();
        }
        bytes.extend(narrow);
    }
    bytes
}
