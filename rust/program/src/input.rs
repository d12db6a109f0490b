//! Files and standard input.

use std::ffi::{OsStr, OsString};
use std::io::{self, Read};

/// Standard input, where no file is named.
pub const STANDARD: &str = "-";

/// Whether a word is an option and no file.
pub fn is_option(word: &OsString) -> bool {
    word != STANDARD && word.as_encoded_bytes().starts_with(b"-")
}

/// All bytes of a file; `-` is standard input.
pub fn contents(name: &OsStr) -> io::Result<Vec<u8>> {
    if name != STANDARD {
        return std::fs::read(name);
    }
    let mut file = Vec::new();
    io::stdin().lock().read_to_end(&mut file)?;
    Ok(file)
}
