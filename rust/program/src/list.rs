//! `stor list`: the rows of unit files of whole months.

use crate::input::{contents, is_option, STANDARD};
use crate::{explain, Failure, MALFORMED};
use std::ffi::OsString;
use std::io::{self, Write};
use stor::{rows, Memory};

/// What the words ask for.
struct Options {
    explain: bool,
    names: Vec<OsString>,
}

pub fn run(words: &[OsString]) -> Result<(), Failure> {
    let options = options(words)?;
    match print(&options, &mut io::stdout().lock()) {
        Ok(true) => Ok(()),
        Ok(false) => Err(Failure::Said),
        Err(error) => Err(Failure::of(error)),
    }
}

fn options(words: &[OsString]) -> Result<Options, Failure> {
    let (asked, mut names): (Vec<OsString>, Vec<OsString>) =
        words.iter().cloned().partition(is_option);
    if asked.iter().any(|option| option != "--explain") {
        return Err(Failure::Usage);
    }
    if names.is_empty() {
        names.push(OsString::from(STANDARD));
    }
    Ok(Options {
        explain: !asked.is_empty(),
        names,
    })
}

/// Prints the rows of every file that can be read; true if all could be.
fn print(options: &Options, out: &mut impl Write) -> io::Result<bool> {
    // The longest month's, made once for all files.
    let mut memory = Memory::of_month();
    let mut all = true;
    for name in &options.names {
        let shown = name.to_string_lossy();
        let rows = contents(name)
            .map_err(|error| error.to_string())
            .and_then(|file| listing(&mut memory, &file, options.explain));
        match rows {
            Ok(rows) if options.names.len() == 1 => write!(out, "{rows}")?,
            Ok(rows) => write!(out, "# {shown}\n{rows}")?,
            Err(message) => {
                eprintln!("stor: {shown}: {message}");
                all = false;
            }
        }
    }
    out.flush()?;
    Ok(all)
}

/// The rows of one file, with the words for them where they are asked for.
fn listing(memory: &mut Memory, file: &[u8], explain: bool) -> Result<String, String> {
    let (mut rows, words) = match memory.settle_file(file) {
        Ok(statement) => (
            rows::statement_rows(&statement),
            explain.then(|| explain::statement(&statement)),
        ),
        Err(stor::Failure::Refused(refusal)) => (
            rows::refusal_row(refusal),
            explain.then(|| explain::refusal(refusal, file)),
        ),
        Err(stor::Failure::Malformed) => {
            return Err(MALFORMED.to_string());
        }
    };
    for line in words.into_iter().flatten() {
        rows.push_str(&format!("# {line}\n"));
    }
    Ok(rows)
}
