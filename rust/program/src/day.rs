//! `stor day`: what kind of day a day of a unit file's month is.

use crate::input::{contents, is_option};
use crate::Failure;
use std::ffi::{OsStr, OsString};
use std::io::{self, Write};
use stor::{rows, Memory};

/// What is said of a number that the library does not promise.
const MALFORMED: &str = "the library's answer is no kind of day";

/// What the words ask for.
struct Options<'a> {
    name: &'a OsStr,
    day: u32,
    holidays: Vec<u32>,
}

pub fn run(words: &[OsString]) -> Result<(), Failure> {
    let Options {
        name,
        day,
        holidays,
    } = options(words).ok_or(Failure::Usage)?;
    let file = contents(name)
        .map_err(|error| Failure::Failed(format!("{}: {error}", name.to_string_lossy())))?;
    let row = match Memory::of_month().day_file(&file, day, &holidays) {
        Ok(day) => rows::day_row(day).to_string(),
        // An answer in the place of the other three, as where a file is listed:
        // who reads the row has to tell four apart, and needs no status for it.
        Err(stor::Failure::Refused(refusal)) => rows::refusal_row(refusal),
        Err(stor::Failure::Malformed) => return Err(Failure::of(MALFORMED)),
    };
    io::stdout().write_all(row.as_bytes()).map_err(Failure::of)
}

/// FILE and DAY in this order; the option with its list stands anywhere.
fn options(words: &[OsString]) -> Option<Options<'_>> {
    let mut rest = words.iter();
    let mut places = Vec::new();
    let mut holidays = None;
    while let Some(word) = rest.next() {
        if word == "--holidays" && holidays.is_none() {
            holidays = Some(numbers(rest.next()?)?);
        } else if is_option(word) {
            return None;
        } else {
            places.push(word);
        }
    }
    let &[name, day] = &places[..] else {
        return None;
    };
    Some(Options {
        name,
        day: number(day.to_str()?)?,
        holidays: holidays.unwrap_or_default(),
    })
}

/// Numbers with a comma between them.
fn numbers(word: &OsStr) -> Option<Vec<u32>> {
    word.to_str()?.split(',').map(number).collect()
}

/// Digits alone: no sign, no space.
fn number(word: &str) -> Option<u32> {
    let digits = word.bytes().all(|byte| byte.is_ascii_digit());
    digits.then(|| word.parse().ok()).flatten()
}
