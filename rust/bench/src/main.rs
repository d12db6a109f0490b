//! `bench time [REPEATS]` times the plain settlement and the proved library on
//! months to order, and likewise the reading and entering of their files, with
//! plain readings and with revisions, and watching them minute by minute;
//! `bench check` holds both against the second settlement;
//! `bench file SEED` puts out the unit file of a seed.

mod check;
mod enter;
mod month;
mod plain;
mod sides;
mod time;
mod watch;
mod watchers;

use std::io::Write;
use std::process::ExitCode;

const USAGE: &str = "bench time [REPEATS] | bench check | bench file SEED";

fn run() -> Result<(), String> {
    let arguments: Vec<String> = std::env::args().skip(1).collect();
    let words: Vec<&str> = arguments.iter().map(String::as_str).collect();
    let number = |text: &str| text.parse().map_err(|_| format!("{text}: not a number"));
    match words[..] {
        ["time"] => time::time(time::REPEATS),
        ["time", repeats] => time::time((number(repeats)? as usize).max(1)),
        ["check"] => check::check(),
        ["file", seed] => std::io::stdout()
            .write_all(&month::of_seed(number(seed)?).file)
            .map_err(|error| error.to_string()),
        _ => Err(USAGE.to_string()),
    }
}

fn main() -> ExitCode {
    match run() {
        Ok(()) => ExitCode::SUCCESS,
        Err(message) => {
            eprintln!("bench: {message}");
            ExitCode::FAILURE
        }
    }
}
