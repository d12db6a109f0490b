//! `stor watch`: the running totals of a unit file, minute by minute.

use crate::input::{contents, is_option, STANDARD};
use crate::{Failure, MALFORMED};
use std::ffi::{OsStr, OsString};
use std::io::{self, BufWriter, Write};
use stor::{rows, Memory, Month, StepRefusal, Stop, Totals};

/// To the line's first place, and what is left of the last minute cleared.
const AGAIN: &str = "\r";
const CLEAR: &str = "\x1b[K";

/// How minutes are shown.
#[derive(Clone, Copy, PartialEq, Eq)]
enum Shown {
    /// A row for each.
    Rows,
    /// Each in the place of the last.
    InPlace,
}

pub fn run(words: &[OsString]) -> Result<(), Failure> {
    let (shown, name) = options(words)?;
    let file = contents(name)
        .map_err(|error| Failure::Failed(format!("{}: {error}", name.to_string_lossy())))?;
    let mut memory = Memory::of_month();
    let month = memory.watch_file(&file).map_err(|refusal| {
        eprint!("{}", rows::refusal_row(refusal));
        Failure::Said
    })?;
    let mut out = BufWriter::new(io::stdout().lock());
    let stop = show(&memory, &month, shown, &mut out).map_err(Failure::of)?;
    if stop.is_none() {
        let row = last_row(&mut memory, &file)?;
        out.write_all(row.as_bytes()).map_err(Failure::of)?;
    }
    out.flush().map_err(Failure::of)?;
    stop.map_or(Ok(()), |stop| Err(Failure::Failed(why(stop))))
}

/// The month's T row; nothing where it cannot be settled, as an open one.
fn last_row(memory: &mut Memory, file: &[u8]) -> Result<String, Failure> {
    match memory.settle_file(file) {
        Ok(statement) => Ok(rows::month_row(&statement)),
        Err(stor::Failure::Refused(_)) => Ok(String::new()),
        Err(stor::Failure::Malformed) => Err(Failure::of(MALFORMED)),
    }
}

fn options(words: &[OsString]) -> Result<(Shown, &OsStr), Failure> {
    let (asked, names): (Vec<&OsString>, Vec<&OsString>) =
        words.iter().partition(|word| is_option(word));
    let shown = match asked[..] {
        [] => Shown::Rows,
        [option] if option == "--screen" => Shown::InPlace,
        _ => return Err(Failure::Usage),
    };
    match names[..] {
        [] => Ok((shown, OsStr::new(STANDARD))),
        [name] => Ok((shown, name)),
        _ => Err(Failure::Usage),
    }
}

/// Shows all active minutes, or those before the one at which the walk stops.
fn show(
    memory: &Memory,
    month: &Month,
    shown: Shown,
    out: &mut impl Write,
) -> io::Result<Option<Stop>> {
    let mut drawn = false;
    let mut stop = None;
    for step in memory.walk(month) {
        match (step, shown) {
            (Ok(totals), Shown::Rows) => write!(out, "{}", rows::total_row(&totals))?,
            (Ok(totals), Shown::InPlace) => {
                redraw(&totals, out)?;
                drawn = true;
            }
            (Err(at), _) => stop = Some(at),
        }
    }
    if drawn {
        writeln!(out)?;
    }
    Ok(stop)
}

/// The row in its line's place, without the line feed, and at once.
fn redraw(totals: &Totals, out: &mut impl Write) -> io::Result<()> {
    let row = rows::total_row(totals);
    write!(out, "{AGAIN}{}{CLEAR}", row.trim_end())?;
    out.flush()
}

/// Why there are no totals of further minutes.
fn why(stop: Stop) -> String {
    let Stop {
        refusal,
        instruction,
        minute,
        base,
    } = stop;
    match (refusal, base) {
        (StepRefusal::NoReading, true) => {
            format!("minute {minute}, a base minute of instruction {instruction}, has no reading")
        }
        (StepRefusal::NoReading, false) => {
            format!("minute {minute} of instruction {instruction} has no reading")
        }
        // A month that the library worked out has no other stop.
        _ => format!("minute {minute} of instruction {instruction}: {refusal:?}"),
    }
}
