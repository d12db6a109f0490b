//! `second list|write|rewrite|answers|watch|day [--minutes N] [--lines N] [--wrong NAME]`
//! with a unit file on standard input; `day` goes with `--day N [--holidays N,N..]`.

use second::rows::{self, Room};
use second::rules::{LISTER_LINES, LISTER_MINUTES};
use second::switches::{Switch, SWITCHES};
use second::write;
use std::io::{self, Read, Write};
use std::process::ExitCode;
use std::str::FromStr;

struct Options {
    mode: String,
    room: Room,
    day: i64,
    holidays: Vec<i64>,
    switch: Switch,
}

const MODES: [&str; 6] = ["list", "write", "rewrite", "answers", "watch", "day"];

fn usage() -> String {
    let names: Vec<&str> = SWITCHES.iter().map(|(name, _)| *name).collect();
    format!(
        "second {} [--minutes N] [--lines N] [--day N] [--holidays N,N..] [--wrong NAME]\nwrong turns: {}",
        MODES.join("|"),
        names.join(" ")
    )
}

fn number<T: FromStr>(word: &str) -> Result<T, String> {
    word.parse().map_err(|_| format!("{word}: not a count"))
}

fn options() -> Result<Options, String> {
    let mut arguments = std::env::args().skip(1);
    let mode = arguments.next().ok_or_else(usage)?;
    if !MODES.contains(&mode.as_str()) {
        return Err(usage());
    }
    let mut options = Options {
        mode,
        room: Room {
            minutes: LISTER_MINUTES,
            lines: LISTER_LINES,
        },
        day: 0,
        holidays: Vec::new(),
        switch: Switch::RIGHT,
    };
    while let Some(argument) = arguments.next() {
        let value = arguments.next().ok_or_else(usage)?;
        match argument.as_str() {
            "--minutes" => options.room.minutes = number(&value)?,
            "--lines" => options.room.lines = number(&value)?,
            "--day" => options.day = number(&value)?,
            "--holidays" => {
                options.holidays = value.split(',').map(number).collect::<Result<_, _>>()?;
            }
            "--wrong" => {
                options.switch = Switch::named(&value).ok_or_else(usage)?;
            }
            _ => return Err(usage()),
        }
    }
    Ok(options)
}

fn run() -> Result<(), String> {
    let options = options()?;
    let mut file = Vec::new();
    io::stdin()
        .read_to_end(&mut file)
        .map_err(|error| error.to_string())?;
    let output = match options.mode.as_str() {
        "list" => rows::list(&file, options.room, options.switch).into_bytes(),
        "write" => write::written(&file, options.room.minutes, options.switch),
        "watch" => rows::watch(&file, options.room, options.switch).into_bytes(),
        "day" => rows::day(
            &file,
            options.room.minutes,
            options.day,
            &options.holidays,
            options.switch,
        )
        .into_bytes(),
        "answers" => rows::answers(&file, options.room, options.switch).into_bytes(),
        _ => write::rewrite(&file, options.room.minutes, options.switch),
    };
    io::stdout()
        .write_all(&output)
        .map_err(|error| error.to_string())
}

fn main() -> ExitCode {
    match run() {
        Ok(()) => ExitCode::SUCCESS,
        Err(message) => {
            eprintln!("second: {message}");
            ExitCode::from(2)
        }
    }
}
