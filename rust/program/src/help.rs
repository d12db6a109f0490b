//! The commands, and what is said of them.

use crate::{day, form, list, watch, write, Command, Failure};
use std::ffi::{OsStr, OsString};
use std::io::{self, Write};

const COMMANDS: [Command; 7] = [
    Command {
        name: "list",
        words: "[--explain] [FILE..]",
        about: "the rows of unit files: the statement of each, or its refusal",
        help: "With several files a row '# FILE' stands before each one's rows. A refusal is an
answer: the exit status is 1 only where a file cannot be read. --explain adds
lines that start with '# ': under a refusal what is wrong, the refused command
and where to look, under a statement its totals in MWh and pounds. What each row
means is in docs/COURSE.md.",
        run: list::run,
    },
    Command {
        name: "watch",
        words: "[--screen] [FILE]",
        about: "the running totals of a unit file, minute by minute",
        help: "A row M for each active minute, in order: instruction, minute, base load, what the
segment so far expects and delivers, capped kWh and pence of the lines complete.
Then the T row, where the month can be settled. --screen shows each minute in the
place of the last. A refused file has its R row on standard error and no others; a
minute without a reading is named there, after the rows before it. The exit status
is 1 then. What each number means is in docs/COURSE.md.",
        run: watch::run,
    },
    Command {
        name: "day",
        words: "FILE DAY [--holidays D,D..]",
        about: "what kind of day a day of a dated month is",
        help: "A row 'working', 'non-working' (a Sunday, or one of the holidays) or 'no such day':
a day that the month lacks, or any day of a file without a date. Days count from
1. The list of holidays may name any days; those that the month lacks do nothing.
The file need not be closed. A refused file has its R row in the place of the
answer, and as with list that is an answer too.",
        run: day::run,
    },
    Command {
        name: "write",
        words: "[FILE]",
        about: "a unit file entered and written again, in the writer's order",
        help: "The book may be open, empty or closed: whether it can be settled is not asked. Of
each minute the reading that stands is written, with its revision's number. A
refused file has its R row on standard error, no bytes, and exit status 1.",
        run: write::run,
    },
    Command {
        name: "pack",
        words: "< TEXT > FILE",
        about: "the bytes of a unit file in text form",
        help: "A wrong line is named with its number, and the exit status is 1. The text form is
in rust/text/README.md.",
        run: form::pack,
    },
    Command {
        name: "show",
        words: "< FILE > TEXT",
        about: "the text form of a unit file's bytes",
        help: "The text packs to the same bytes, whatever the bytes are.",
        run: form::show,
    },
    Command {
        name: "help",
        words: "[COMMAND]",
        about: "all commands, or what one of them does",
        help: "",
        run,
    },
];

/// The command with this name.
pub fn named(name: &OsStr) -> Option<&'static Command> {
    COMMANDS.iter().find(|command| name == command.name)
}

/// How the program is used, in a line.
pub fn usage() -> String {
    let names: Vec<&str> = COMMANDS.iter().map(|command| command.name).collect();
    format!("usage: stor {} ..", names.join("|"))
}

/// How a command is used, in a line.
pub fn usage_of(command: &Command) -> String {
    format!("usage: stor {} {}", command.name, command.words)
}

fn run(words: &[OsString]) -> Result<(), Failure> {
    let text = match words {
        [] => overview(),
        [name] => page(named(name).ok_or(Failure::Usage)?),
        _ => return Err(Failure::Usage),
    };
    io::stdout().write_all(text.as_bytes()).map_err(Failure::of)
}

/// All commands, a line each.
fn overview() -> String {
    let mut text = "stor settles months of STOR units, by the proved library.\n\n".to_string();
    for command in &COMMANDS {
        let usage = format!("stor {} {}", command.name, command.words);
        text.push_str(&format!("  {usage:<39}{}\n", command.about));
    }
    text.push_str(
        "
A FILE that is '-' or left out is standard input. Exit status: 0 done; 1 a file
cannot be read, or is not what the command takes; 2 words that are not the
program's.
",
    );
    text
}

/// One command.
fn page(command: &Command) -> String {
    let mut text = format!("{}\n\n{}.\n", usage_of(command), command.about);
    if !command.help.is_empty() {
        text.push_str(&format!("\n{}\n", command.help));
    }
    text
}
