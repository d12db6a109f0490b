//! Compares a lister with the second settlement on generated unit files.
//!
//!   compare [--lister PROGRAM] [--months PROGRAM] [--writer PROGRAM]
//!           [--watch PROGRAM] [--day PROGRAM] [--answers PROGRAM] [--count N]
//!           [--months-count N] [--seed S] [--wrong NAME] [--write DIRECTORY]
//!
//! A writer puts out the book of a file as a file again, and nothing where a
//! command is refused; a program that watches prints the totals after each active
//! minute; a program of days says what kind of day one of a file's month is, and is
//! given the words '-', the day and a list of holidays; a program of answers says of
//! each command what became of it; all as `second` does it.
//! The file of seed S is the same in every run, so `--count 1 --seed S` makes
//! a single one again.

mod coverage;
mod question;
mod run;

use compare::scenes::{self, Target};
use coverage::Coverage;
use question::Question;
use run::Program;
use second::book::{self, Book};
use second::memory::Memory;
use second::rows::{self, Room};
use second::rules::{LISTER_LINES, LISTER_MINUTES};
use second::switches::Switch;
use second::write;
use std::path::{Path, PathBuf};
use std::process::ExitCode;

const USAGE: &str = "compare [--lister PROGRAM] [--months PROGRAM] [--writer PROGRAM] \
                     [--watch PROGRAM] [--day PROGRAM] [--answers PROGRAM] [--count N] \
                     [--months-count N] [--seed S] [--wrong NAME] [--write DIRECTORY]";

/// After so many differences there is nothing new to learn.
const MOST_DIFFERENCES: usize = 10;
/// From so many files on, everything that is counted must have been met. Fewer
/// are a look at single files.
const ENOUGH: usize = 1_600;
/// Outputs up to this length are printed whole.
const SHORT: usize = 1_500;

const ELEVEN_DAYS: Room = Room {
    minutes: LISTER_MINUTES,
    lines: LISTER_LINES,
};

const WHOLE_MONTHS: Room = Room {
    minutes: 44_700,
    lines: 1_682,
};

const LISTER: Side = Side {
    name: "lister",
    room: ELEVEN_DAYS,
    target: Target {
        days: 11,
        whole: false,
    },
    file: scenes::file,
    words: |_| Vec::new(),
    output: |file, room, switch, _| rows::list(file, room, switch).into_bytes(),
    noticing: |output| output,
};

const MONTHS: Side = Side {
    name: "months",
    room: WHOLE_MONTHS,
    target: Target {
        days: 31,
        whole: true,
    },
    ..LISTER
};

const WRITER: Side = Side {
    name: "writer",
    target: Target {
        days: 31,
        whole: false,
    },
    output: |file, room, switch, _| write::written(file, room.minutes, switch),
    ..MONTHS
};

const WATCH: Side = Side {
    name: "watch",
    file: scenes::watched,
    output: |file, room, switch, _| rows::watch(file, room, switch).into_bytes(),
    noticing: minutes,
    ..WRITER
};

const DAY: Side = Side {
    name: "day",
    file: scenes::with_days,
    words: |seed| question::of_seed(seed).words(),
    output: |file, room, switch, seed| {
        let Question { day, holidays } = question::of_seed(seed);
        rows::day(file, room.minutes, day, &holidays, switch).into_bytes()
    },
    ..WRITER
};

const ANSWERS: Side = Side {
    name: "answers",
    output: |file, room, switch, _| rows::answers(file, room, switch).into_bytes(),
    ..LISTER
};

/// One kind of program to compare with, and what it should put out.
struct Side {
    name: &'static str,
    room: Room,
    target: Target,
    /// The file of a seed.
    file: fn(u64, Target) -> Vec<u8>,
    /// What the program is told besides, for a seed.
    words: fn(u64) -> Vec<String>,
    output: fn(&[u8], Room, Switch, u64) -> Vec<u8>,
    /// The part of an output that has to notice a rule turned wrong.
    noticing: fn(&[u8]) -> &[u8],
}

/// The rows of minutes, without the T row, which shows what settling notices.
fn minutes(rows: &[u8]) -> &[u8] {
    let last = rows.windows(3).position(|start| start == b"\nT ");
    match last {
        Some(at) => &rows[..=at],
        None if rows.starts_with(b"T ") => &[],
        None => rows,
    }
}

struct Options {
    lister: Option<Program>,
    months: Option<Program>,
    writer: Option<Program>,
    watch: Option<Program>,
    day: Option<Program>,
    answers: Option<Program>,
    count: u64,
    months_count: Option<u64>,
    seed: u64,
    switch: Switch,
    write: Option<PathBuf>,
}

fn options() -> Result<Options, String> {
    let mut options = Options {
        lister: None,
        months: None,
        writer: None,
        watch: None,
        day: None,
        answers: None,
        count: 3_000,
        months_count: None,
        seed: 1,
        switch: Switch::RIGHT,
        write: None,
    };
    let mut arguments = std::env::args().skip(1);
    while let Some(argument) = arguments.next() {
        let value = arguments.next().ok_or(USAGE)?;
        let number = || {
            value
                .parse()
                .map_err(|_| format!("{value}: not a number\n{USAGE}"))
        };
        match argument.as_str() {
            "--lister" => options.lister = Some(Program::named(&value)),
            "--months" => options.months = Some(Program::named(&value)),
            "--writer" => options.writer = Some(Program::named(&value)),
            "--watch" => options.watch = Some(Program::named(&value)),
            "--day" => options.day = Some(Program::named(&value)),
            "--answers" => options.answers = Some(Program::named(&value)),
            "--count" => options.count = number()?,
            "--months-count" => options.months_count = Some(number()?),
            "--seed" => options.seed = number()?,
            "--wrong" => {
                options.switch =
                    Switch::named(&value).ok_or(format!("{value}: no such wrong turn"))?;
            }
            "--write" => options.write = Some(PathBuf::from(value)),
            _ => return Err(USAGE.to_string()),
        }
    }
    let programs = [
        &options.lister,
        &options.months,
        &options.writer,
        &options.watch,
        &options.day,
        &options.answers,
    ];
    if programs.iter().all(|program| program.is_none()) && options.write.is_none() {
        return Err(USAGE.to_string());
    }
    Ok(options)
}

/// Where the files of this run go, apart from those of other runs.
fn place() -> Result<PathBuf, String> {
    let place = std::env::temp_dir().join(format!("compare-{}", std::process::id()));
    std::fs::create_dir_all(&place).map_err(|error| format!("{}: {error}", place.display()))?;
    Ok(place)
}

/// Prints a difference and keeps the file and both outputs.
fn report(side: &Side, seed: u64, file: &[u8], theirs: &[u8], ours: &[u8]) -> Result<(), String> {
    let stem = std::env::temp_dir().join(format!("compare-{}-{seed}", side.name));
    let keep = |ending: &str, content: &[u8]| {
        let path = stem.with_extension(ending);
        std::fs::write(&path, content).map_err(|error| format!("{}: {error}", path.display()))?;
        Ok::<PathBuf, String>(path)
    };
    println!("DIFFERENCE: {}, seed {seed}", side.name);
    println!("  file   {}", keep("unit", file)?.display());
    println!("  theirs {}", keep("theirs", theirs)?.display());
    println!("  second {}", keep("second", ours)?.display());
    let theirs = String::from_utf8_lossy(theirs);
    let ours = String::from_utf8_lossy(ours);
    if theirs.len() <= SHORT && ours.len() <= SHORT {
        print!("--- theirs\n{theirs}--- second\n{ours}---\n");
        return Ok(());
    }
    let row = theirs
        .lines()
        .zip(ours.lines())
        .position(|(left, right)| left != right)
        .unwrap_or_else(|| theirs.lines().count().min(ours.lines().count()));
    let at = |text: &str| text.lines().nth(row).unwrap_or("(no row)").to_string();
    println!("  first in row {}", row + 1);
    println!("  theirs {}", at(&theirs));
    println!("  second {}", at(&ours));
    Ok(())
}

/// What the writer puts out leaves the same book and the same readings, of the
/// same revisions.
fn check_writer(file: &[u8], minutes: usize) -> Result<(), String> {
    let read = |file: &[u8]| {
        let mut book = Book::default();
        let mut memory = Memory::of_minutes(minutes);
        book::enter_file(file, &mut book, &mut memory, false, Switch::RIGHT);
        (book, memory)
    };
    let written = write::rewrite(file, minutes, Switch::RIGHT);
    if read(file) != read(&written) {
        return Err("the second writer loses something".to_string());
    }
    Ok(())
}

/// Compares on `count` files and gives the number of differences.
fn compare(
    side: &Side,
    program: &Program,
    options: &Options,
    count: u64,
    place: &Path,
    mut coverage: Option<&mut Coverage>,
) -> Result<usize, String> {
    let right = options.switch == Switch::RIGHT;
    let mut differences = 0;
    for seed in options.seed..options.seed + count {
        let file = (side.file)(seed, side.target);
        let ours = (side.output)(&file, side.room, options.switch, seed);
        let words = (side.words)(seed);
        let theirs = program.output(&words, &file, &place.join("now.unit"), seed % 2 == 1);
        if let Some(coverage) = &mut coverage {
            match side.name {
                name if name == WRITER.name => coverage.add_written(&file, side.room, &ours),
                name if name == WATCH.name => coverage.add_watched(&file, side.room),
                name if name == DAY.name => {
                    coverage.add_asked(&file, side.room, &question::of_seed(seed));
                }
                _ => coverage.add_listed(&file, side.room),
            }
            check_writer(&file, side.room.minutes)
                .map_err(|wrong| format!("seed {seed}: {wrong}"))?;
        }
        let theirs = theirs.map_err(|error| format!("seed {seed}: {error}"))?;
        let alike = match right {
            true => theirs == ours,
            false => (side.noticing)(&theirs) == (side.noticing)(&ours),
        };
        if alike {
            continue;
        }
        differences += 1;
        if right {
            report(side, seed, &file, &theirs, &ours)?;
            if differences >= MOST_DIFFERENCES {
                println!("{}: stopped after {differences} differences", side.name);
                break;
            }
        }
    }
    Ok(differences)
}

/// Puts the files and their rows into a directory, without any comparison.
fn write_files(directory: &Path, options: &Options) -> Result<(), String> {
    for seed in options.seed..options.seed + options.count {
        let file = scenes::file(seed, LISTER.target);
        let rows = rows::list(&file, LISTER.room, options.switch);
        let stem = directory.join(format!("{seed}"));
        std::fs::write(stem.with_extension("unit"), file).map_err(|error| error.to_string())?;
        std::fs::write(stem.with_extension("rows"), rows).map_err(|error| error.to_string())?;
    }
    Ok(())
}

/// Compares with each program that is given; gives the differences and what
/// the files met.
fn compare_all(options: &Options, place: &Path) -> Result<(usize, Coverage), String> {
    let right = options.switch == Switch::RIGHT;
    let mut differences = 0;
    let mut coverage = Coverage::default();
    let months_count = options.months_count.unwrap_or(options.count.div_ceil(10));
    let sides = [
        (&LISTER, &options.lister, options.count),
        (&MONTHS, &options.months, months_count),
        (&WRITER, &options.writer, options.count),
        (&WATCH, &options.watch, options.count),
        (&DAY, &options.day, options.count),
        (&ANSWERS, &options.answers, options.count),
    ];
    for (side, program, count) in sides {
        let Some(program) = program else {
            continue;
        };
        // The lister's files are the answers' too: count once.
        let counts = side.name != ANSWERS.name || options.lister.is_none();
        let counted = (right && counts).then_some(&mut coverage);
        let found = compare(side, program, options, count, place, counted)?;
        println!("{}: {found} differences in {count} files", side.name);
        differences += found;
    }
    Ok((differences, coverage))
}

/// True if the run came out as it should.
fn run() -> Result<bool, String> {
    let options = options()?;
    if let Some(directory) = &options.write {
        write_files(directory, &options)?;
        return Ok(true);
    }
    println!("seed {}", options.seed);
    let place = place()?;
    let outcome = compare_all(&options, &place);
    std::fs::remove_dir_all(&place).map_err(|error| error.to_string())?;
    let (differences, coverage) = outcome?;
    if options.switch != Switch::RIGHT {
        return Ok(differences > 0);
    }
    if coverage.files < ENOUGH {
        return Ok(differences == 0);
    }
    coverage.print();
    let missing = coverage.missing();
    for what in &missing {
        println!("never met: {what}");
    }
    Ok(differences == 0 && missing.is_empty())
}

fn main() -> ExitCode {
    match run() {
        Ok(true) => ExitCode::SUCCESS,
        Ok(false) => ExitCode::FAILURE,
        Err(message) => {
            eprintln!("compare: {message}");
            ExitCode::from(2)
        }
    }
}
