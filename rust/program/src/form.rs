//! `stor pack` and `stor show`: the text form, from standard input to standard
//! output.

use crate::input::{contents, STANDARD};
use crate::Failure;
use std::ffi::{OsStr, OsString};
use std::io::{self, Write};

pub fn pack(words: &[OsString]) -> Result<(), Failure> {
    let text = String::from_utf8(input(words)?);
    let text = text.map_err(|_| Failure::of("the text is not UTF-8"))?;
    put(&text::pack(&text).map_err(Failure::Failed)?)
}

pub fn show(words: &[OsString]) -> Result<(), Failure> {
    put(text::show(&input(words)?).as_bytes())
}

fn input(words: &[OsString]) -> Result<Vec<u8>, Failure> {
    if !words.is_empty() {
        return Err(Failure::Usage);
    }
    contents(OsStr::new(STANDARD)).map_err(Failure::of)
}

fn put(bytes: &[u8]) -> Result<(), Failure> {
    io::stdout().write_all(bytes).map_err(Failure::of)
}
