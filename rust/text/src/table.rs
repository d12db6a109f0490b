//! The commands of a unit file, with a word for each field and each value
//! that has one. This table is the tool's own.

/// How a field stands in its bytes.
#[derive(Clone, Copy, PartialEq, Eq)]
pub enum Width {
    One,
    Two,
    Four,
    /// Four bytes, two's complement.
    Signed,
}

impl Width {
    pub fn bytes(self) -> usize {
        match self {
            Width::One => 1,
            Width::Two => 2,
            Width::Four | Width::Signed => 4,
        }
    }

    /// The least and the greatest number the bytes can hold.
    pub fn limits(self) -> (i64, i64) {
        match self {
            Width::One => (0, 0xFF),
            Width::Two => (0, 0xFFFF),
            Width::Four => (0, 0xFFFF_FFFF),
            Width::Signed => (-0x8000_0000, 0x7FFF_FFFF),
        }
    }
}

pub struct Field {
    /// What it is called in messages, and in the text where `named`.
    pub name: &'static str,
    /// Whether the text says the name before the value.
    pub named: bool,
    pub width: Width,
    /// Words for values; any value may also be given as a number.
    pub words: &'static [(&'static str, i64)],
}

impl Field {
    /// The word for a value, or its number.
    pub fn word(&self, value: i64) -> String {
        let known = self.words.iter().find(|(_, number)| *number == value);
        known.map_or_else(|| value.to_string(), |(word, _)| word.to_string())
    }
}

pub struct Command {
    pub byte: u8,
    pub name: &'static str,
    pub fields: &'static [Field],
}

impl Command {
    pub fn length(&self) -> usize {
        1 + self.fields.iter().map(|f| f.width.bytes()).sum::<usize>()
    }
}

const fn place(name: &'static str, width: Width) -> Field {
    Field {
        name,
        named: false,
        width,
        words: &[],
    }
}

const fn named(name: &'static str, width: Width, words: &'static [(&'static str, i64)]) -> Field {
    Field {
        name,
        named: true,
        width,
        words,
    }
}

pub const COMMANDS: [Command; 8] = [
    Command {
        byte: 0x43,
        name: "contract",
        fields: &[
            named("days", Width::One, &[]),
            named("kind", Width::One, &[("generator", 0), ("reducer", 1)]),
            named("service", Width::One, &[("committed", 0), ("flexible", 1)]),
            named("kw", Width::Four, &[]),
            named("ramp-up", Width::Four, &[]),
            named("ramp-down", Width::Four, &[]),
            named("response", Width::Two, &[]),
            named("recovery", Width::Two, &[]),
            named("availability", Width::Four, &[]),
            named("utilisation", Width::Four, &[]),
            named("optional", Width::Four, &[]),
        ],
    },
    Command {
        byte: 0x54,
        name: "date",
        fields: &[
            place("year", Width::Two),
            place("month", Width::One),
            place("day", Width::One),
        ],
    },
    Command {
        byte: 0x57,
        name: "window",
        fields: &[
            place("start", Width::Two),
            place("end", Width::Two),
            Field {
                name: "state",
                named: false,
                width: Width::One,
                words: &[("accepted", 0), ("rejected", 1)],
            },
        ],
    },
    Command {
        byte: 0x49,
        name: "instruction",
        fields: &[
            named("issue", Width::Two, &[]),
            named("cease", Width::Two, &[]),
        ],
    },
    Command {
        byte: 0x44,
        name: "default",
        fields: &[
            place("minute", Width::Two),
            named(
                "kind",
                Width::One,
                &[
                    ("data-submission", 1),
                    ("utilisation", 2),
                    ("availability", 3),
                    ("delivery", 4),
                ],
            ),
            named(
                "reach",
                Width::One,
                &[("period", 1), ("window", 2), ("rest", 3)],
            ),
        ],
    },
    Command {
        byte: 0x4D,
        name: "reading",
        fields: &[place("minute", Width::Two), place("kw", Width::Signed)],
    },
    Command {
        byte: 0x52,
        name: "revision",
        fields: &[
            place("minute", Width::Two),
            place("number", Width::One),
            place("kw", Width::Signed),
        ],
    },
    Command {
        byte: 0x5A,
        name: "close",
        fields: &[],
    },
];

pub fn by_name(name: &str) -> Option<&'static Command> {
    COMMANDS.iter().find(|command| command.name == name)
}

pub fn by_byte(byte: u8) -> Option<&'static Command> {
    COMMANDS.iter().find(|command| command.byte == byte)
}
