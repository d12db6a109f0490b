//! Every command of the program as it is started: what it prints, its exit
//! status, and what it says to words that it does not know.

use std::io::Write;
use std::path::{Path, PathBuf};
use std::process::{Command, Stdio};

const APPENDIX_2: &[u8] = include_bytes!("../../../examples/appendix2.unit");
const APPENDIX_2_TEXT: &str = include_str!("../../../examples/appendix2.txt");
const APPENDIX_2_ROWS: &str = include_str!("../../../examples/appendix2.rows");

const USAGE: &str = "usage: stor list|watch|day|write|pack|show|help ..\n";
const LIST_USAGE: &str = "usage: stor list [--explain] [FILE..]\n";
const WATCH_USAGE: &str = "usage: stor watch [--screen] [FILE]\n";
const DAY_USAGE: &str = "usage: stor day FILE DAY [--holidays D,D..]\n";
const WRITE_USAGE: &str = "usage: stor write [FILE]\n";
const PACK_USAGE: &str = "usage: stor pack < TEXT > FILE\n";
const SHOW_USAGE: &str = "usage: stor show < FILE > TEXT\n";
const HELP_USAGE: &str = "usage: stor help [COMMAND]\n";

/// What a run gave: exit status, standard output and standard error.
#[derive(PartialEq, Eq, Debug)]
struct Run {
    status: i32,
    out: Vec<u8>,
    said: String,
}

impl Run {
    fn text(&self) -> &str {
        std::str::from_utf8(&self.out).expect("text")
    }
}

/// The program with words and standard input.
fn stor(words: &[&str], input: &[u8]) -> Run {
    let mut child = Command::new(env!("CARGO_BIN_EXE_stor"))
        .args(words)
        .stdin(Stdio::piped())
        .stdout(Stdio::piped())
        .stderr(Stdio::piped())
        .spawn()
        .expect("the program starts");
    let mut pipe = child.stdin.take().expect("asked for above");
    let input = input.to_vec();
    // A program that reads no input may have ended before all is written.
    let writer = std::thread::spawn(move || pipe.write_all(&input).unwrap_or(()));
    let output = child.wait_with_output().expect("the program ends");
    writer.join().expect("writing does not panic");
    Run {
        status: output.status.code().expect("no signal ends it"),
        out: output.stdout,
        said: String::from_utf8(output.stderr).expect("text"),
    }
}

fn done(out: impl AsRef<[u8]>) -> Run {
    Run {
        status: 0,
        out: out.as_ref().to_vec(),
        said: String::new(),
    }
}

fn refused_words(usage: &str) -> Run {
    Run {
        status: 2,
        out: Vec::new(),
        said: usage.to_string(),
    }
}

fn failed(said: &str) -> Run {
    Run {
        status: 1,
        out: Vec::new(),
        said: said.to_string(),
    }
}

/// A folder of a test's own, gone with it.
struct Place(PathBuf);

impl Place {
    fn new(name: &str) -> Place {
        let place = std::env::temp_dir().join(format!("stor-{}-{name}", std::process::id()));
        std::fs::create_dir_all(&place).expect("a temporary folder");
        Place(place)
    }

    fn file(&self, name: &str, contents: &[u8]) -> String {
        let path = self.0.join(name);
        std::fs::write(&path, contents).expect("a temporary file");
        path.to_str().expect("a plain name").to_string()
    }
}

impl Drop for Place {
    fn drop(&mut self) {
        std::fs::remove_dir_all(&self.0).unwrap_or(());
    }
}

fn example(name: &str) -> String {
    let path = Path::new(env!("CARGO_MANIFEST_DIR")).join("../../examples");
    format!("{}/{name}.unit", path.display())
}

#[test]
fn list_prints_the_rows_of_a_file() {
    let rows = done(APPENDIX_2_ROWS);
    assert_eq!(stor(&["list", &example("appendix2")], b""), rows);
    assert_eq!(stor(&["list"], APPENDIX_2), rows);
    assert_eq!(stor(&["list", "-"], APPENDIX_2), rows);
}

#[test]
fn list_answers_a_refusal_with_its_row() {
    assert_eq!(stor(&["list"], b"?"), done("R 1 0\n"));
    assert_eq!(stor(&["list"], b""), done("R 24 0\n"));
}

#[test]
fn list_puts_names_before_the_rows_of_several_files() {
    let place = Place::new("several");
    let one = place.file("one", APPENDIX_2);
    let two = place.file("two", b"?");
    let listed = format!("# {one}\n{APPENDIX_2_ROWS}# -\nR 24 0\n# {two}\nR 1 0\n");
    assert_eq!(stor(&["list", &one, "-", &two], b""), done(listed));
}

#[test]
fn list_goes_on_after_a_file_that_cannot_be_read() {
    let place = Place::new("unreadable");
    let two = place.file("two", b"?");
    let run = stor(&["list", "/no/such/file", &two], b"");
    assert_eq!(run.status, 1);
    assert_eq!(run.text(), format!("# {two}\nR 1 0\n"));
    assert!(
        run.said.starts_with("stor: /no/such/file: "),
        "{}",
        run.said
    );
    assert_eq!(run.said.lines().count(), 1);
    // A folder is no file.
    assert_eq!(stor(&["list", "/"], b"").status, 1);
}

#[test]
fn list_explains_a_refusal() {
    let window = "R 5 32\n\
                  # a window does not start before it ends, or not at whole periods\n\
                  # window start 31, end 60, state accepted\n\
                  # where to look: multiples of 30\n";
    let words = ["list", "--explain", &example("refusal-05")];
    assert_eq!(stor(&words, b""), done(window));
    let instruction = "R 20 37\n\
                       # an issue comes before the last instruction's end plus recovery\n\
                       # instruction issue 150, cease 200\n";
    // Options may stand behind files.
    let words = ["list", &example("refusal-20"), "--explain"];
    assert_eq!(stor(&words, b""), done(instruction));
    let revision = "R 27 40\n\
                    # a revision of a minute that already has one of this number or a greater\n\
                    # revision minute 5, number 9, kw 0\n\
                    # where to look: the numbers of earlier revisions\n";
    let words = ["list", "--explain", &example("revision-equal-27")];
    assert_eq!(stor(&words, b""), done(revision));
    let date = "R 28 32\n\
                # a date that there is not: a year outside 2007 to 2099, a month outside 1 to 12, or a day that the month lacks\n\
                # date year 2023, month 2, day 29\n\
                # where to look: 29 February: leap years alone have it\n";
    let words = ["list", "--explain", &example("refusal-28")];
    assert_eq!(stor(&words, b""), done(date));
    // No command is refused where the month cannot be settled.
    let open = "R 24 0\n# the file was not closed\n";
    assert_eq!(stor(&["list", "--explain"], b""), done(open));
}

#[test]
fn list_explains_bytes_that_are_no_command() {
    let strange = "R 1 0\n\
                   # a byte that starts no command\n\
                   # byte 3F\n\
                   # where to look: the byte at the offset\n";
    assert_eq!(stor(&["list", "--explain"], b"?"), done(strange));
    let cut = "R 2 0\n\
               # the file ends inside a command\n\
               # reading, 3 of its 7 bytes\n\
               # where to look: the last command\n";
    assert_eq!(stor(&["list", "--explain"], b"M\0\0"), done(cut));
}

#[test]
fn list_explains_a_statement() {
    let totals =
        "# capped 12.800 MWh; utilisation 3840.00, availability 324.00, all 4164.00 pounds\n";
    let listed = format!("{APPENDIX_2_ROWS}{totals}");
    assert_eq!(stor(&["list", "--explain"], APPENDIX_2), done(listed));
}

#[test]
fn list_refuses_other_options() {
    for words in [&["list", "-x"][..], &["list", "--explain", "--", "x"]] {
        assert_eq!(stor(words, b""), refused_words(LIST_USAGE));
    }
}

/// The M rows of Appendix 2, its first minute's and its last one's.
const FIRST_TOTALS: &str = "M 1 19 0 24000 0 0 0\n";
const LAST_TOTALS: &str = "M 1 90 0 24000 12000 12800 384000\n";
const APPENDIX_2_T: &str = "T 12800 384000 32400 416400\n";
/// How many active minutes it has.
const APPENDIX_2_ACTIVE: usize = 72;

#[test]
fn watch_prints_a_row_for_each_active_minute() {
    let run = stor(&["watch", &example("appendix2")], b"");
    assert_eq!((run.status, run.said.as_str()), (0, ""));
    let rows: Vec<&str> = run.text().lines().collect();
    assert_eq!(rows.len(), APPENDIX_2_ACTIVE + 1);
    assert!(run.text().starts_with(FIRST_TOTALS));
    // The ramp up's line is complete after minute 24, and the next one's sums
    // begin with minute 25.
    assert_eq!(rows[5], "M 1 24 0 144000 120000 500 15000");
    assert_eq!(rows[6], "M 1 25 0 48000 48000 500 15000");
    assert!(run
        .text()
        .ends_with(&format!("{LAST_TOTALS}{APPENDIX_2_T}")));
    assert_eq!(stor(&["watch"], APPENDIX_2), run);
    assert_eq!(stor(&["watch", "-"], APPENDIX_2), run);
}

#[test]
fn watch_takes_open_and_empty_books() {
    let open = stor(&["watch"], &APPENDIX_2[..APPENDIX_2.len() - 1]);
    assert_eq!((open.status, open.said.as_str()), (0, ""));
    assert_eq!(open.text().lines().count(), APPENDIX_2_ACTIVE);
    assert!(open.text().ends_with(LAST_TOTALS));
    assert_eq!(stor(&["watch"], b""), done(""));
    // A month without an instruction has its T row alone.
    let quiet = stor(&["watch", &example("contract-close")], b"");
    assert_eq!(quiet, done("T 0 0 0 0\n"));
}

#[test]
fn watch_goes_by_corrected_readings() {
    let right = stor(&["watch"], APPENDIX_2);
    assert_eq!(right.status, 0);
    assert_eq!(stor(&["watch", &example("corrected-month")], b""), right);
}

#[test]
fn watch_stops_at_a_minute_without_a_reading() {
    let last = stor(&["watch", &example("refusal-25")], b"");
    let said = "stor: minute 90 of instruction 1 has no reading\n";
    assert_eq!((last.status, last.said.as_str()), (1, said));
    assert_eq!(last.text().lines().count(), APPENDIX_2_ACTIVE - 1);
    assert!(last.text().starts_with(FIRST_TOTALS));
    let base = stor(&["watch", &example("missing-base-25")], b"");
    let said = "stor: minute 2, a base minute of instruction 1, has no reading\n";
    assert_eq!(base, failed(said));
}

#[test]
fn watch_gives_no_rows_of_a_refused_file() {
    assert_eq!(stor(&["watch"], b"Z"), failed("R 13 0\n"));
    let twice = [APPENDIX_2, APPENDIX_2].concat();
    let row = format!("R 12 {}\n", APPENDIX_2.len());
    assert_eq!(stor(&["watch", "--screen"], &twice), failed(&row));
}

/// What `--screen` draws for rows: each in the place of the last.
fn drawn(rows: &str) -> String {
    let minutes = rows.lines().filter(|row| row.starts_with('M'));
    let line: String = minutes.map(|row| format!("\r{row}\x1b[K")).collect();
    format!("{line}\n")
}

#[test]
fn watch_draws_minutes_in_place() {
    let rows = stor(&["watch"], APPENDIX_2);
    let screen = format!("{}{APPENDIX_2_T}", drawn(rows.text()));
    assert_eq!(stor(&["watch", "--screen"], APPENDIX_2), done(&screen));
    // Options may stand behind files.
    let words = ["watch", &example("appendix2"), "--screen"];
    assert_eq!(stor(&words, b""), done(screen));
    // Where nothing is drawn, no line is ended.
    assert_eq!(stor(&["watch", "--screen"], b""), done(""));
    // The message stands on a line of its own.
    let file = example("refusal-25");
    let rows = stor(&["watch", &file], b"");
    let screen = stor(&["watch", "--screen", &file], b"");
    assert_eq!(screen.text(), drawn(rows.text()));
    assert_eq!((screen.status, screen.said), (1, rows.said));
}

#[test]
fn watch_says_that_a_file_cannot_be_read() {
    let run = stor(&["watch", "/no/such/file"], b"");
    assert_eq!((run.status, run.text()), (1, ""));
    assert!(
        run.said.starts_with("stor: /no/such/file: "),
        "{}",
        run.said
    );
}

#[test]
fn watch_takes_one_file() {
    for words in [
        &["watch", "a", "b"][..],
        &["watch", "--explain"],
        &["watch", "--screen", "--screen"],
    ] {
        assert_eq!(stor(words, b""), refused_words(WATCH_USAGE));
    }
}

#[test]
fn list_has_memory_for_an_october() {
    let rows = include_str!("../../../examples/october.month");
    assert!(rows.starts_with("L ") && rows.contains("\nL 2 1490 D "));
    assert_eq!(stor(&["list", &example("october")], b""), done(rows));
}

#[test]
fn day_says_what_kind_a_day_is() {
    let march = example("march");
    for (day, row) in [
        ("0", "no such day\n"),
        ("1", "working\n"),
        ("3", "non-working\n"),
        ("29", "working\n"),
        ("31", "non-working\n"),
        ("32", "no such day\n"),
        ("4294967295", "no such day\n"),
    ] {
        assert_eq!(stor(&["day", &march, day], b""), done(row), "{day}");
    }
    let bytes = std::fs::read(&march).expect("an example");
    assert_eq!(stor(&["day", "-", "3"], &bytes), done("non-working\n"));
    // A month without a date has no such day.
    assert_eq!(stor(&["day", "-", "1"], APPENDIX_2), done("no such day\n"));
    assert_eq!(stor(&["day", "-", "1"], b""), done("no such day\n"));
}

#[test]
fn day_goes_by_a_list_of_holidays() {
    let march = example("march");
    for (words, row) in [
        (["day", &march, "29", "--holidays", "29"], "non-working\n"),
        (["day", &march, "28", "--holidays", "29"], "working\n"),
        (
            ["day", "--holidays", "200,29,0,29", &march, "29"],
            "non-working\n",
        ),
        (["day", &march, "--holidays", "200,29,0", "1"], "working\n"),
        (["day", &march, "200", "--holidays", "200"], "no such day\n"),
    ] {
        assert_eq!(stor(&words, b""), done(row), "{words:?}");
    }
}

#[test]
fn day_answers_a_refusal_with_its_row() {
    assert_eq!(stor(&["day", "-", "1"], b"Z"), done("R 13 0\n"));
    let late = example("refusal-29");
    assert_eq!(stor(&["day", &late, "1"], b""), done("R 29 38\n"));
}

#[test]
fn day_says_that_a_file_cannot_be_read() {
    let run = stor(&["day", "/no/such/file", "1"], b"");
    assert_eq!((run.status, run.text()), (1, ""));
    assert!(
        run.said.starts_with("stor: /no/such/file: "),
        "{}",
        run.said
    );
}

#[test]
fn day_takes_a_file_and_a_number() {
    for words in [
        &["day"][..],
        &["day", "-"],
        &["day", "-", "1", "2"],
        &["day", "-", "first"],
        &["day", "-", ""],
        &["day", "-", "-1"],
        &["day", "-", "+1"],
        &["day", "-", "4294967296"],
        &["day", "-", "1", "--holidays"],
        &["day", "-", "1", "--holidays", ""],
        &["day", "-", "1", "--holidays", "1,"],
        &["day", "-", "1", "--holidays", "1, 2"],
        &["day", "-", "1", "--holidays", "1", "--holidays", "2"],
        &["day", "-", "1", "--explain"],
    ] {
        assert_eq!(stor(words, b""), refused_words(DAY_USAGE), "{words:?}");
    }
}

#[test]
fn write_keeps_a_date() {
    for name in ["march", "october"] {
        let file = std::fs::read(example(name)).expect("an example");
        assert_eq!(stor(&["write"], &file), done(&file));
        let shown = stor(&["show"], &file);
        assert_eq!(shown.text().matches("\ndate 2024 ").count(), 1);
    }
}

#[test]
fn write_puts_a_file_into_the_writers_order() {
    let (contract, rest) = APPENDIX_2.split_at(32);
    let (window, rest) = rest.split_at(6);
    let (instruction, rest) = rest.split_at(5);
    let (readings, close) = rest.split_at(rest.len() - 1);
    let mixed = [contract, readings, instruction, window, close].concat();
    let place = Place::new("write");
    let file = place.file("mixed", &mixed);
    assert_eq!(stor(&["write", &file], b""), done(APPENDIX_2));
    assert_eq!(stor(&["write", "-"], &mixed), done(APPENDIX_2));
    assert_eq!(stor(&["write"], APPENDIX_2), done(APPENDIX_2));
}

#[test]
fn write_keeps_revisions() {
    let written = stor(&["write", &example("corrected-month")], b"");
    // The reading that was put right is a byte longer than a plain one.
    assert_eq!(written.out.len(), APPENDIX_2.len() + 1);
    assert_eq!(stor(&["list"], &written.out), done(APPENDIX_2_ROWS));
    let shown = stor(&["show"], &written.out);
    assert!(shown.text().ends_with("revision 90 1 3000\nclose\n"));
}

#[test]
fn write_takes_open_and_empty_books() {
    let open = &APPENDIX_2[..APPENDIX_2.len() - 1];
    assert_eq!(stor(&["write"], open), done(open));
    assert_eq!(stor(&["write"], b""), done(b""));
}

#[test]
fn write_gives_no_bytes_of_a_refused_file() {
    assert_eq!(stor(&["write"], b"Z"), failed("R 13 0\n"));
    let twice = [APPENDIX_2, APPENDIX_2].concat();
    let row = format!("R 12 {}\n", APPENDIX_2.len());
    assert_eq!(stor(&["write"], &twice), failed(&row));
}

#[test]
fn write_says_that_a_file_cannot_be_read() {
    let run = stor(&["write", "/no/such/file"], b"");
    assert_eq!((run.status, run.text()), (1, ""));
    assert!(
        run.said.starts_with("stor: /no/such/file: "),
        "{}",
        run.said
    );
}

#[test]
fn write_takes_one_file() {
    for words in [&["write", "a", "b"][..], &["write", "--explain"]] {
        assert_eq!(stor(words, b""), refused_words(WRITE_USAGE));
    }
}

#[test]
fn pack_turns_text_into_bytes() {
    let packed = stor(&["pack"], APPENDIX_2_TEXT.as_bytes());
    assert_eq!(packed, done(APPENDIX_2));
}

#[test]
fn pack_names_a_wrong_line() {
    let wrong = stor(&["pack"], b"close\nopen\n");
    assert_eq!(wrong, failed("stor: line 2: no command open\n"));
    let number = stor(&["pack"], b"revision 90 256 3000\n");
    let said = "stor: line 1: number 256 does not fit its bytes, which hold 0 to 255\n";
    assert_eq!(number, failed(said));
    let bytes = stor(&["pack"], b"\xFF");
    assert_eq!(bytes, failed("stor: the text is not UTF-8\n"));
}

#[test]
fn show_turns_bytes_into_text() {
    let shown = stor(&["show"], b"W\0\0\0\x1E\0Z");
    assert_eq!(shown, done("window 0 30 accepted\nclose\n"));
    let shown = stor(&["show"], b"R\0\x5A\x01\0\0\x0B\xB8");
    assert_eq!(shown, done("revision 90 1 3000\n"));
    let shown = stor(&["show"], b"T\x07\xE8\x0A\x01");
    assert_eq!(shown, done("date 2024 10 1\n"));
    let shown = stor(&["show"], APPENDIX_2);
    assert_eq!(stor(&["pack"], &shown.out), done(APPENDIX_2));
}

#[test]
fn pack_and_show_take_no_words() {
    for file in ["-", "FILE", "--explain"] {
        assert_eq!(stor(&["pack", file], b""), refused_words(PACK_USAGE));
        assert_eq!(stor(&["show", file], b""), refused_words(SHOW_USAGE));
    }
}

#[test]
fn help_names_every_command() {
    let help = stor(&["help"], b"");
    assert_eq!((help.status, help.said.as_str()), (0, ""));
    for usage in [
        LIST_USAGE,
        WATCH_USAGE,
        DAY_USAGE,
        WRITE_USAGE,
        PACK_USAGE,
        SHOW_USAGE,
        HELP_USAGE,
    ] {
        let command = usage.trim_start_matches("usage: ").trim_end();
        assert!(help.text().contains(command), "{command}");
    }
}

#[test]
fn help_has_a_page_for_each_command() {
    for (name, usage) in [
        ("list", LIST_USAGE),
        ("watch", WATCH_USAGE),
        ("day", DAY_USAGE),
        ("write", WRITE_USAGE),
        ("pack", PACK_USAGE),
        ("show", SHOW_USAGE),
        ("help", HELP_USAGE),
    ] {
        let page = stor(&["help", name], b"");
        assert_eq!((page.status, page.said.as_str()), (0, ""));
        assert!(page.text().starts_with(usage), "{name}");
        assert!(page.text().lines().count() > 2, "{name}");
    }
}

#[test]
fn unknown_words_get_a_usage_line() {
    for words in [&[][..], &["settle"], &["--help"], &["-"], &["List"]] {
        assert_eq!(stor(words, b""), refused_words(USAGE));
    }
    for words in [&["help", "settle"][..], &["help", "list", "pack"]] {
        assert_eq!(stor(words, b""), refused_words(HELP_USAGE));
    }
}

#[test]
fn output_that_cannot_be_written_is_a_failure() {
    let file = example("appendix2");
    for words in [
        &["list", &file][..],
        &["watch", &file],
        &["watch", "--screen", &file],
        &["day", &file, "1"],
    ] {
        let full = std::fs::OpenOptions::new().write(true).open("/dev/full");
        let status = Command::new(env!("CARGO_BIN_EXE_stor"))
            .args(words)
            .stdout(full.expect("a device that is always full"))
            .stderr(Stdio::null())
            .status()
            .expect("the program starts");
        assert_eq!(status.code(), Some(1), "{words:?}");
    }
}
