//! `stor COMMAND ..`: all that the package can do with unit files. `stor help`
//! says what there is.

mod day;
mod explain;
mod form;
mod help;
mod input;
mod list;
mod watch;
mod write;

use std::ffi::OsString;
use std::process::ExitCode;

/// What is said of numbers that the library does not promise.
const MALFORMED: &str = "the library's answer is no statement";

/// Why a command did not do what it was asked for.
enum Failure {
    /// Words that are not the command's: its usage line, and exit status 2.
    Usage,
    /// Anything else, as a message, and exit status 1.
    Failed(String),
    /// The same, where the message has been said.
    Said,
}

impl Failure {
    fn of(error: impl ToString) -> Failure {
        Failure::Failed(error.to_string())
    }
}

/// One command of the program: each change to what the program can do is a row
/// of `help::COMMANDS`.
struct Command {
    name: &'static str,
    /// What may follow the name.
    words: &'static str,
    /// What it does, in a line.
    about: &'static str,
    /// What else there is to say.
    help: &'static str,
    run: fn(&[OsString]) -> Result<(), Failure>,
}

fn main() -> ExitCode {
    let words: Vec<OsString> = std::env::args_os().skip(1).collect();
    let command = words.first().and_then(|name| help::named(name));
    let Some(command) = command else {
        eprintln!("{}", help::usage());
        return ExitCode::from(2);
    };
    match (command.run)(&words[1..]) {
        Ok(()) => ExitCode::SUCCESS,
        Err(Failure::Usage) => {
            eprintln!("{}", help::usage_of(command));
            ExitCode::from(2)
        }
        Err(Failure::Failed(message)) => {
            eprintln!("stor: {message}");
            ExitCode::FAILURE
        }
        Err(Failure::Said) => ExitCode::FAILURE,
    }
}
