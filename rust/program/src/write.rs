//! `stor write`: a unit file entered and written again by the proved writer.

use crate::input::{contents, is_option, STANDARD};
use crate::Failure;
use std::ffi::{OsStr, OsString};
use std::io::{self, Write};
use stor::{rows, Memory};

pub fn run(words: &[OsString]) -> Result<(), Failure> {
    let name = match words {
        [] => OsStr::new(STANDARD),
        [name] if !is_option(name) => name,
        _ => return Err(Failure::Usage),
    };
    let file = contents(name)
        .map_err(|error| Failure::Failed(format!("{}: {error}", name.to_string_lossy())))?;
    match Memory::of_month().write_file(&file) {
        Ok(written) => io::stdout().write_all(&written).map_err(Failure::of),
        Err(refusal) => {
            eprint!("{}", rows::refusal_row(refusal));
            Err(Failure::Said)
        }
    }
}
