//! Figures worked out by hand, and what no file can show.

use crate::book::{self, Book};
use crate::bytes::{
    self, Command, Contract, DefaultEntry, Instruction, Read, Reading, Revision, Window,
};
use crate::memory::Memory;
use crate::rules::*;
use crate::settle::{self, Statement};
use crate::switches::{Switch, Wrong, SWITCHES};
use crate::watch::{self, Totals};
use crate::write;

mod dates;
mod floor;

const RIGHT: Switch = Switch::RIGHT;

fn appendix_2() -> Contract {
    Contract {
        days: 1,
        kind: 0,
        service: 0,
        kw: 12_000,
        ramp_up: 2_000,
        ramp_down: 2_000,
        response: 20,
        recovery: 0,
        availability_rate: 900,
        utilisation_rate: 30_000,
        optional_rate: 55_000,
    }
}

fn window(start: i64, end: i64) -> Command {
    let rejected = 0;
    Command::Window(Window {
        start,
        end,
        rejected,
    })
}

fn instruction(issue: i64, cease: i64) -> Command {
    Command::Instruction(Instruction { issue, cease })
}

fn reading(minute: i64, kw: i64) -> Command {
    Command::Reading(Reading { minute, kw })
}

fn revision(minute: i64, number: i64, kw: i64) -> Command {
    Command::Revision(Revision { minute, number, kw })
}

/// Memory that held something before, in each of so many cells and bytes.
fn used_memory(cells: usize, bytes: usize) -> Memory {
    Memory {
        meter: vec![7; cells],
        revisions: vec![9; bytes],
    }
}

/// A book of these commands in a day's memory; all of them are taken.
fn book_of(commands: &[Command]) -> (Book, Memory) {
    let mut book = Book::default();
    let mut memory = used_memory(1_440, 1_440);
    for command in commands {
        assert_eq!(book::enter(&mut book, &mut memory, command, RIGHT), Ok(()));
    }
    (book, memory)
}

/// The first minutes of a memory.
fn first(memory: &Memory, cells: usize, bytes: usize) -> Memory {
    Memory {
        meter: memory.meter[..cells].to_vec(),
        revisions: memory.revisions[..bytes].to_vec(),
    }
}

fn settled(commands: &[Command]) -> Result<Statement, u8> {
    let (book, memory) = book_of(commands);
    settle::settle_any(&book, &memory, 719, RIGHT)
}

#[test]
fn halves_go_up() {
    let kwh = |quarters| nearest(quarters, 240, RIGHT);
    assert_eq!([120, 119, -120, -121].map(kwh), [1, 0, 0, -1]);
    let pence = |kwh: i128| nearest(kwh * 30, 1_000, RIGHT);
    assert_eq!([50, -50].map(pence), [2, -1]);
}

#[test]
fn ramps_take_whole_minutes() {
    let mut contract = appendix_2();
    assert_eq!(ramp_up_minutes(&contract, RIGHT), 6);
    contract.ramp_up = 5_000;
    contract.ramp_down = 500_000;
    assert_eq!(ramp_up_minutes(&contract, RIGHT), 3);
    assert_eq!(ramp_down_minutes(&contract, RIGHT), 1);
}

#[test]
fn high_byte_first() {
    let above = reading(5, 15_000);
    let written = bytes::bytes_of(&above, RIGHT);
    assert_eq!(written, [0x4D, 0, 5, 0, 0, 0x3A, 0x98]);
    assert_eq!(bytes::read(&written, 0, RIGHT), Read::Command(above, 7));
    assert_eq!(bytes::read(&written, 7, RIGHT), Read::End);
    assert_eq!(bytes::read(&written, 8, RIGHT), Read::End);
    assert_eq!(bytes::read(&written[..6], 0, RIGHT), Read::Refused(2));
    let below = reading(0, -1);
    let written = bytes::bytes_of(&below, RIGHT);
    assert_eq!(bytes::read(&written, 0, RIGHT), Read::Command(below, 7));
    let revised = revision(258, 255, -2);
    let written = bytes::bytes_of(&revised, RIGHT);
    assert_eq!(written, [0x52, 1, 2, 0xFF, 0xFF, 0xFF, 0xFF, 0xFE]);
    assert_eq!(bytes::read(&written, 0, RIGHT), Read::Command(revised, 8));
    assert_eq!(bytes::read(&written[..7], 0, RIGHT), Read::Refused(2));
}

#[test]
fn table_lengths() {
    let lengths = bytes::TABLE.map(|row| row.length());
    assert_eq!(lengths, [32, 5, 6, 5, 5, 7, 8, 1]);
}

#[test]
fn line_memory_and_meter_memory() {
    let mut commands = vec![
        Command::Contract(appendix_2()),
        window(0, 180),
        instruction(5, 25),
    ];
    commands.extend((0..31).map(|minute| reading(minute, 0)));
    commands.push(Command::Close);
    let (book, memory) = book_of(&commands);
    let with = |cells, bytes, lines| {
        settle::settle_any(&book, &first(&memory, cells, bytes), lines, RIGHT)
            .map(|statement| statement.lines.len())
    };
    assert_eq!(with(1_440, 1_440, 3), Ok(3));
    assert_eq!(with(1_440, 1_440, 2), Err(26));
    assert_eq!(with(1_439, 1_440, 2), Err(15));
    assert_eq!(with(1_440, 1_439, 2), Err(15));
    let length = 32 + 6 + 5 + 31 * 7 + 1;
    let written = |room| write::write_any(&book, &memory, room, RIGHT).map(|file| file.len());
    assert_eq!(written(length), Ok(length));
    assert_eq!(written(length - 1), Err(26));
}

#[test]
fn an_empty_book() {
    let empty = Book::default();
    let none = Memory::of_minutes(0);
    assert_eq!(settle::settle_any(&empty, &none, 0, RIGHT), Err(24));
    assert_eq!(write::write_any(&empty, &none, 0, RIGHT), Ok(Vec::new()));
}

#[test]
fn books_that_no_commands_leave() {
    let good = book_of(&[
        Command::Contract(appendix_2()),
        window(0, 180),
        window(180, 210),
        instruction(5, 85),
        instruction(91, 120),
        Command::Default(DefaultEntry {
            minute: 200,
            kind: 1,
            reach: 1,
        }),
        Command::Close,
    ])
    .0;
    assert!(book::sound(&good, RIGHT));
    let spoilt: [fn(&mut Book); 7] = [
        |book| book.contract = None,
        |book| book.windows.swap(0, 1),
        |book| book.windows[1].rejected = 1,
        |book| book.instructions[1].issue = 90,
        |book| book.instructions[1].cease = 1_435,
        |book| book.defaults[0].minute = 210,
        |book| book.defaults[0].kind = 5,
    ];
    for spoil in spoilt {
        let mut book = good.clone();
        spoil(&mut book);
        let mut memory = used_memory(1_440, 1_440);
        assert_eq!(settle::settle_any(&book, &memory, 0, RIGHT), Err(11));
        assert_eq!(write::write_any(&book, &memory, 0, RIGHT), Err(11));
        // 11 stands between 5 and 12.
        let entered = book::enter_any(&mut book, &mut memory, &Command::Close, RIGHT);
        assert_eq!(entered, Err(11));
        let crooked = book::enter_any(&mut book, &mut memory, &window(60, 30), RIGHT);
        assert_eq!(crooked, Err(5));
    }
    let closed = Book {
        closed: true,
        ..Book::default()
    };
    assert!(!book::sound(&closed, RIGHT));
}

#[test]
fn any_cell_outside_the_range_is_empty() {
    let (mut book, mut memory) = book_of(&[Command::Contract(appendix_2())]);
    assert_eq!(memory, Memory::of_minutes(1_440));
    let one = reading(9, 1);
    memory.meter[9] = 500_001;
    assert_eq!(book::enter(&mut book, &mut memory, &one, RIGHT), Ok(()));
    let again = book::enter(&mut book, &mut memory, &one, RIGHT);
    assert_eq!((again, memory.meter[9]), (Err(22), 1));
}

#[test]
fn later_minutes_are_never_written() {
    let mut book = Book::default();
    let mut memory = used_memory(1_500, 1_441);
    for command in [Command::Contract(appendix_2()), revision(1_439, 4, 1)] {
        assert_eq!(book::enter(&mut book, &mut memory, &command, RIGHT), Ok(()));
    }
    assert!(memory.meter[1_440..].iter().all(|cell| *cell == 7));
    assert_eq!(memory.revisions[1_438..], [0, 4, 9]);
}

#[test]
fn refused_commands_change_nothing() {
    let (mut book, mut memory) = book_of(&[
        Command::Contract(appendix_2()),
        window(0, 60),
        revision(7, 9, 1),
    ]);
    let before = (book.clone(), memory.clone());
    for command in [
        window(30, 90),
        instruction(5, 24),
        window(90, 60),
        reading(7, 2),
        revision(7, 9, 2),
        revision(8, 0, 2),
    ] {
        assert!(book::enter(&mut book, &mut memory, &command, RIGHT).is_err());
    }
    assert!(before == (book, memory));
}

/// What becomes of commands behind a contract of a day, in its memory.
fn answers(commands: &[Command]) -> Vec<u8> {
    let (mut book, mut memory) = book_of(&[Command::Contract(appendix_2())]);
    let mut enter = |command| book::enter(&mut book, &mut memory, command, RIGHT);
    commands
        .iter()
        .map(|command| enter(command).err().unwrap_or(0))
        .collect()
}

#[test]
fn the_greatest_revision_supersedes() {
    let revised = [
        revision(7, 9, 1),
        revision(7, 9, 2),
        revision(7, 8, 2),
        revision(7, 10, 2),
        reading(7, 3),
    ];
    assert_eq!(answers(&revised), [0, 27, 27, 0, 22]);
    // A plain reading is revision 0.
    assert_eq!(answers(&[reading(7, 1), revision(7, 1, 1)]), [0, 0]);
    assert_eq!(answers(&[reading(7, 1), revision(7, 0, 1)]), [0, 3]);
    let commands = [
        Command::Contract(appendix_2()),
        reading(7, 1),
        revision(7, 9, 2),
        revision(7, 255, 3),
    ];
    let (_, memory) = book_of(&commands);
    assert_eq!((memory.meter[7], memory.revisions[7]), (3, 255));
}

#[test]
fn refusals_of_a_revision_in_their_order() {
    // 3 of each operand, then 16; 27 is asked of a minute of the span.
    let wrong = [
        revision(44_701, 1, 0),
        revision(0, 0, 0),
        revision(0, 256, 0),
        revision(0, 1, 500_001),
        revision(0, 1, -500_001),
        revision(1_440, 1, 0),
        revision(44_700, 255, 0),
    ];
    assert_eq!(answers(&wrong), [3, 3, 3, 3, 3, 16, 16]);
    let ends = [
        revision(0, 1, 500_000),
        revision(1_439, 255, -500_000),
        Command::Close,
        revision(1_439, 255, 0),
        revision(1_439, 0, 0),
    ];
    assert_eq!(answers(&ends), [0, 0, 0, 12, 3]);
    let mut none = Memory::of_minutes(0);
    let first = book::enter(&mut Book::default(), &mut none, &revision(0, 1, 0), RIGHT);
    assert_eq!(first, Err(13));
}

#[test]
fn either_memory_may_be_too_short() {
    let contract = Command::Contract(appendix_2());
    for (cells, bytes, answer) in [
        (1_440, 1_440, Ok(())),
        (1_440, 1_439, Err(15)),
        (1_439, 1_440, Err(15)),
        (1_440, 0, Err(15)),
        (0, 44_640, Err(15)),
        (1_441, 1_440, Ok(())),
    ] {
        let mut memory = used_memory(cells, bytes);
        let entered = book::enter(&mut Book::default(), &mut memory, &contract, RIGHT);
        assert_eq!(entered, answer);
        assert_eq!(memory == used_memory(cells, bytes), answer.is_err());
        // A book that was made with more memory.
        let (mut book, _) = book_of(&[contract]);
        for command in [
            reading(0, 1),
            revision(0, 1, 1),
            window(0, 30),
            Command::Close,
        ] {
            let entered = book::enter(&mut book.clone(), &mut memory, &command, RIGHT);
            assert_eq!(entered.err(), answer.err());
        }
        book.closed = true;
        let settled = settle::settle(&book, &memory, 0, RIGHT);
        assert_eq!(settled.err(), answer.err());
        let written = write::write(&book, &memory, usize::MAX, RIGHT);
        assert_eq!(written.err(), answer.err());
    }
}

/// Whatever stands in the byte of a minute without a reading.
#[test]
fn an_empty_minute_holds_no_revision() {
    let (mut book, mut memory) = book_of(&[Command::Contract(appendix_2())]);
    memory.revisions[3..6].fill(255);
    let mut enter = |memory: &mut Memory, command| {
        assert_eq!(book::enter(&mut book, memory, &command, RIGHT), Ok(()));
    };
    enter(&mut memory, revision(3, 1, 8));
    enter(&mut memory, reading(4, 9));
    assert_eq!(memory.revisions[3..6], [1, 0, 255]);
    enter(&mut memory, revision(4, 1, 9));
    // Minute 5 has no reading and is not written.
    let written = write::write(&book, &memory, 48, RIGHT);
    let readings = [[0x52, 0, 3, 1, 0, 0, 0, 8], [0x52, 0, 4, 1, 0, 0, 0, 9]].concat();
    assert_eq!(written.map(|file| file[32..].to_vec()), Ok(readings));
}

#[test]
fn readings_are_written_with_their_revisions() {
    let (book, memory) = book_of(&[
        Command::Contract(appendix_2()),
        reading(2, 3),
        reading(0, -1),
        revision(2, 1, 4),
        revision(1, 255, 2),
        Command::Close,
    ]);
    let readings = [
        0x4D, 0, 0, 0xFF, 0xFF, 0xFF, 0xFF, 0x52, 0, 1, 0xFF, 0, 0, 0, 2, 0x52, 0, 2, 1, 0, 0, 0,
        4, 0x5A,
    ];
    let written = write::write(&book, &memory, 32 + readings.len(), RIGHT).expect("room");
    assert_eq!(written[32..], readings);
    let short = write::write(&book, &memory, 31 + readings.len(), RIGHT);
    assert_eq!(short, Err(26));
    // Read again, the same readings of the same revisions.
    let mut again = (Book::default(), used_memory(1_440, 1_440));
    let entered = book::enter_file(&written, &mut again.0, &mut again.1, true, RIGHT);
    assert!(entered.iter().all(|command| command.answer.is_ok()));
    assert!(again == (book, memory));
}

#[test]
fn a_minute_takes_a_plain_reading_and_every_revision() {
    let mut commands = vec![Command::Contract(appendix_2()), reading(7, 0)];
    commands.extend((1..=255).map(|number| revision(7, number, number)));
    let (_, memory) = book_of(&commands);
    assert_eq!((memory.meter[7], memory.revisions[7]), (255, 255));
}

#[test]
fn a_corrected_reading_is_settled() {
    let entered = |last: &[Command]| {
        let mut commands = vec![
            Command::Contract(appendix_2()),
            window(0, 180),
            instruction(5, 25),
        ];
        commands.extend((0..30).map(|minute| reading(minute, 240 * minute)));
        commands.extend(last);
        commands.push(Command::Close);
        settled(&commands)
    };
    let right = entered(&[reading(30, 3_000)]);
    assert!(right.is_ok());
    assert_ne!(entered(&[reading(30, 0)]), right);
    let corrected = [reading(30, 0), revision(30, 1, 3_000)];
    assert_eq!(entered(&corrected), right);
    assert_eq!(entered(&[revision(30, 200, 3_000)]), right);
}

/// Appendix 2 with its readings, and left open.
fn appendix_2_read() -> Vec<Command> {
    let mut commands = vec![
        Command::Contract(appendix_2()),
        window(0, 180),
        instruction(5, 85),
    ];
    commands.extend((2..=5).map(|minute| reading(minute, 0)));
    commands.extend((19..25).map(|minute| reading(minute, 2_000 * (minute - 19))));
    commands.extend((25..29).map(|minute| reading(minute, 12_000)));
    commands.push(reading(29, 13_000));
    commands.extend((30..60).map(|minute| reading(minute, 10_000 + 3_000 * (minute % 2))));
    commands.extend((60..86).map(|minute| reading(minute, 13_000)));
    commands.extend((86..91).map(|minute| reading(minute, 11_000 - 2_000 * (minute - 86))));
    commands
}

/// The totals that are shown of a book of these commands.
fn shown(commands: &[Command], switch: Switch) -> Vec<Totals> {
    let (book, memory) = book_of(commands);
    watch::totals(&book, &memory, switch)
}

/// Base load, both sums, capped kWh and pence after a minute.
fn after(totals: &[Totals], minute: i64) -> [i64; 5] {
    let found = totals.iter().find(|totals| totals.minute == minute);
    let t = found.expect("an active minute");
    [t.base, t.expected, t.delivered, t.capped, t.pence]
}

#[test]
fn totals_grow_minute_by_minute() {
    let totals = shown(&appendix_2_read(), RIGHT);
    let minutes: Vec<i64> = totals.iter().map(|totals| totals.minute).collect();
    assert_eq!(minutes, (19..91).collect::<Vec<i64>>());
    assert!(totals.iter().all(|totals| totals.instruction == 1));
    for (minute, expected) in [
        (19, [0, 24_000, 0, 0, 0]),
        (20, [0, 48_000, 8_000, 0, 0]),
        (24, [0, 144_000, 120_000, 500, 15_000]),
        (25, [0, 48_000, 48_000, 500, 15_000]),
        (90, [0, 24_000, 12_000, 12_800, 384_000]),
    ] {
        assert_eq!(after(&totals, minute), expected, "{minute}");
    }
    // A close changes none of them, and the last are the statement's.
    let closed = [appendix_2_read(), vec![Command::Close]].concat();
    assert_eq!(shown(&closed, RIGHT), totals);
    let statement = settled(&closed).expect("all is read");
    assert_eq!(after(&totals, 90)[3], statement.capped);
    assert_eq!(after(&totals, 90)[4], statement.utilisation_pence);
}

/// Appendix 2, and a second instruction as soon as the first has ended: its base
/// minutes are the last three of the first one's ramp down, and one more.
fn two_instructions() -> Vec<Command> {
    let mut commands = appendix_2_read();
    commands.push(instruction(91, 111));
    commands.push(reading(91, 1_000));
    commands.extend((105..117).map(|minute| reading(minute, 4_000)));
    commands
}

#[test]
fn a_second_instruction_has_its_own_base_load() {
    let totals = shown(&two_instructions(), RIGHT);
    assert_eq!(totals.len(), 72 + 12);
    // 7,000, 5,000, 3,000 and 1,000
    assert_eq!(
        after(&totals, 105),
        [16_000, 24_000, 0, 12_800, 384_000],
        "its ramp up"
    );
    assert_eq!(totals[72].instruction, 2);
    // The cease is at e, so the ramp down follows the ramp up, and its sums begin
    // anew.
    assert_eq!(after(&totals, 110), [16_000, 144_000, 0, 12_800, 384_000]);
    assert_eq!(after(&totals, 111), [16_000, 24_000, 0, 12_800, 384_000]);
}

#[test]
fn totals_end_at_the_first_minute_without_a_reading() {
    let without = |minute| {
        let mut commands = two_instructions();
        commands.retain(|command| match command {
            Command::Reading(reading) => reading.minute != minute,
            _ => true,
        });
        shown(&commands, RIGHT)
    };
    let all = shown(&two_instructions(), RIGHT);
    // Base minutes of the first and of the second, the latter also active.
    for (minute, count) in [
        (2, 0),
        (5, 0),
        (19, 0),
        (20, 1),
        (88, 69),
        (91, 72),
        (116, 83),
    ] {
        assert_eq!(without(minute), all[..count], "{minute}");
    }
}

#[test]
fn books_without_active_minutes_show_nothing() {
    assert_eq!(shown(&[], RIGHT), []);
    let contract = Command::Contract(appendix_2());
    assert_eq!(shown(&[contract, window(0, 180)], RIGHT), []);
}

#[test]
fn wrong_totals_are_seen_where_they_are_wrong() {
    for (wrong, minute, expected) in [
        // After a line's last minute the line is counted, and its sums still stand.
        (Wrong::LineMinuteLate, 24, [0, 144_000, 120_000, 0, 0]),
        (Wrong::SumsGoneWithLine, 24, [0, 0, 0, 500, 15_000]),
        // Before it nothing is.
        (Wrong::LineAtOnce, 23, [0, 120_000, 80_000, 333, 9_990]),
        // A stage begins at 25, a period at 30.
        (Wrong::SumsByPeriod, 25, [0, 192_000, 168_000, 500, 15_000]),
        (Wrong::SumsByStage, 30, [0, 288_000, 284_000, 1_500, 45_000]),
        (Wrong::SumsRunOn, 30, [0, 432_000, 404_000, 1_500, 45_000]),
        (Wrong::BaseOfLast, 105, [0, 24_000, 16_000, 12_800, 384_000]),
    ] {
        let right = shown(&two_instructions(), RIGHT);
        let shown = shown(&two_instructions(), Switch(Some(wrong)));
        assert_eq!(after(&shown, minute), expected, "{wrong:?}");
        assert_ne!(after(&right, minute), expected, "{wrong:?}");
    }
}

#[test]
fn thirty_hundredths_at_most() {
    let mut commands = vec![Command::Contract(appendix_2())];
    for index in 0..32 {
        commands.push(window(30 * index, 30 * index + 30));
    }
    for index in 0..31 {
        commands.push(Command::Default(DefaultEntry {
            minute: 30 * index,
            kind: 1 + index % 3,
            reach: 1,
        }));
    }
    commands.push(Command::Close);
    let statement = settled(&commands).expect("a closed book");
    assert_eq!(statement.availability_pence, 3_780);
}

#[test]
fn every_switch_has_its_name() {
    for (name, wrong) in SWITCHES {
        assert_eq!(Switch::named(name), Some(Switch(Some(wrong))));
    }
    assert_eq!(Switch::named("right"), None);
}
