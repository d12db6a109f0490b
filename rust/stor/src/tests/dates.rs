//! Months with a date: files and tables, memory, and kinds of day.

use super::*;
use crate::rows::day_row;

/// The places of the date in a contract's row.
const DATE: std::ops::Range<usize> = 11..CONTRACT_NUMBERS;
/// Where a file's date stands: directly behind the contract.
const DATE_OFFSET: u64 = 32;

const UNDATED: usize = 44_640;
const MARCH: usize = UNDATED - 60;
const OCTOBER: usize = UNDATED + 60;

/// Appendix 2's contract with other days.
fn contract(days: u8) -> Vec<u8> {
    let mut bytes = APPENDIX_2[..32].to_vec();
    bytes[1] = days;
    bytes
}

fn date(year: u16, month: u8, day: u8) -> Vec<u8> {
    [&[0x54], &year.to_be_bytes()[..], &[month, day]].concat()
}

fn reading(minute: usize) -> Vec<u8> {
    let minute = (minute as u16).to_be_bytes();
    [&[0x4D], &minute[..], &[0, 0, 0, 7]].concat()
}

/// A contract of 31 days, the date of a month of 2024, and other bytes.
fn dated(month: u8, behind: &[u8]) -> Vec<u8> {
    [&contract(31), &date(2_024, month, 1), behind].concat()
}

/// Tables of 31 days with a date and nothing else.
fn dated_tables(date: [u32; 3]) -> Tables {
    let mut contract = appendix_2_tables().contract;
    contract[0] = 31;
    contract[DATE].copy_from_slice(&date);
    Tables {
        contract,
        ..Tables::default()
    }
}

fn refusal(number: u8, offset: u64) -> Refusal {
    Refusal { number, offset }
}

#[test]
fn spans_with_a_date() {
    for (month, span) in [(1, UNDATED), (3, MARCH), (10, OCTOBER)] {
        let mut memory = Memory::of_month();
        let inside = dated(month, &reading(span - 1));
        assert_eq!(memory.enter_file(&inside), Ok(()));
        assert_eq!(memory.meter()[span - 1], 7);
        let outside = dated(month, &reading(span));
        let refused = refusal(16, DATE_OFFSET + 5);
        assert_eq!(memory.enter_file(&outside), Err(refused));
    }
}

#[test]
fn dates_are_refused_and_nothing_is_altered() {
    for (number, before, date) in [
        (28, vec![], date(2_024, 2, 30)),
        (28, vec![], date(2_100, 1, 1)),
        (28, vec![], date(2_024, 13, 1)),
        (29, date(2_024, 10, 1), date(2_024, 10, 1)),
        (29, reading(44_639), date(2_024, 10, 1)),
        (30, vec![], date(2_024, 10, 2)),
        (30, vec![], date(2_024, 11, 1)),
        (2, vec![], date(2_024, 10, 1)[..4].to_vec()),
    ] {
        let mut memory = Memory::with_room(44_800, 0);
        assert_eq!(
            memory.enter_file(&[contract(31), before.clone()].concat()),
            Ok(())
        );
        // What no command before the refused one writes.
        let kept = if before.is_empty() { UNDATED } else { OCTOBER };
        memory.meter()[kept..].fill(5);
        memory.revisions()[kept..].fill(BYTE_MARK);
        let left = (memory.meter().to_vec(), memory.revisions().to_vec());
        let file = [contract(31), before.clone(), date].concat();
        let refused = refusal(number, DATE_OFFSET + before.len() as u64);
        assert_eq!(memory.enter_file(&file), Err(refused));
        let after = (memory.meter().to_vec(), memory.revisions().to_vec());
        assert!(after == left, "{number}");
    }
}

/// What entering leaves behind the contract's days in memory that was full of
/// marks: how many minutes have none of them.
fn gained(month: u8) -> usize {
    let mut meter = [7; OCTOBER + 5];
    let mut revisions = [BYTE_MARK; OCTOBER + 5];
    let file = dated(month, b"");
    let answer = library::enter_file(&file, &mut meter, &mut revisions);
    assert_eq!(answer, 256 * file.len() as u64);
    assert!(meter[..UNDATED].iter().all(|&cell| cell == NO_READING));
    let cleared = meter.iter().take_while(|&&cell| cell == NO_READING).count();
    assert!(meter[cleared..].iter().all(|&cell| cell == 7));
    assert!(revisions[..cleared].iter().all(|&byte| byte == 0));
    assert!(revisions[cleared..].iter().all(|&byte| byte == BYTE_MARK));
    cleared - UNDATED
}

#[test]
fn an_october_clears_its_hour() {
    for (month, cleared) in [(1, 0), (3, 0), (10, 60), (12, 0)] {
        assert_eq!(gained(month), cleared, "{month}");
    }
}

#[test]
fn what_15_asks_of_a_dated_file() {
    for (month, cells, bytes, answer) in [
        (10, OCTOBER, OCTOBER, Ok(())),
        (10, OCTOBER - 1, OCTOBER, Err(refusal(15, DATE_OFFSET))),
        (10, OCTOBER, OCTOBER - 1, Err(refusal(15, DATE_OFFSET))),
        (3, UNDATED, UNDATED, Ok(())),
        (3, UNDATED - 1, UNDATED, Err(refusal(15, 0))),
        (3, UNDATED, UNDATED - 1, Err(refusal(15, 0))),
        (1, UNDATED, UNDATED, Ok(())),
    ] {
        let mut memory = Memory::with_room(cells, 0).with_revisions(bytes);
        let entered = memory.enter_file(&dated(month, b""));
        assert_eq!(entered, answer, "{month}: {cells}, {bytes}");
    }
}

#[test]
fn what_15_asks_of_dated_tables() {
    for (month, cells, bytes, number) in [
        (10, OCTOBER, OCTOBER, 0),
        (10, OCTOBER - 1, OCTOBER, 15),
        (10, OCTOBER, OCTOBER - 1, 15),
        (3, UNDATED, UNDATED, 0),
        (3, UNDATED - 1, UNDATED, 15),
        (3, UNDATED, UNDATED - 1, 15),
    ] {
        let mut memory = Memory::with_room(cells, 0).with_revisions(bytes);
        let tables = dated_tables([2_024, month, 1]);
        let settled = memory.settle_tables(&tables).err();
        assert_eq!(settled, (number != 0).then_some(refused(number, 0)));
        let written = memory.write_tables(&tables).err();
        assert_eq!(written, (number != 0).then_some(refusal(number, 0)));
    }
}

#[test]
fn dates_that_no_commands_leave() {
    for (date, number) in [
        ([0, 0, 0], 0),
        ([2_024, 10, 1], 0),
        ([2_099, 12, 1], 0),
        ([2_007, 1, 1], 0),
        ([2_006, 1, 1], 11),
        ([2_100, 1, 1], 11),
        ([2_024, 10, 2], 11),
        ([2_024, 10, 0], 11),
        ([2_024, 11, 1], 11),
        ([2_024, 0, 1], 11),
        ([2_024, 13, 1], 11),
        ([0, 10, 1], 11),
        ([2_024, 0, 0], 11),
        ([0, 0, 1], 11),
        // Too wide for their fields.
        ([2_024 + 65_536, 10, 1], 11),
        ([2_024, 10 + 256, 1], 11),
        ([2_024, 10, 1 + 256], 11),
        ([u32::MAX; 3], 11),
    ] {
        let tables = dated_tables(date);
        let failure = (number != 0).then_some(refused(number, 0));
        let mut memory = Memory::of_month();
        assert_eq!(memory.settle_tables(&tables).err(), failure, "{date:?}");
        assert_eq!(
            Memory::day_tables(&tables, 1, &[]).err(),
            failure,
            "{date:?}"
        );
        let refusal = (number != 0).then_some(refusal(number, 0));
        assert_eq!(memory.write_tables(&tables).err(), refusal, "{date:?}");
        assert_eq!(Memory::watch_tables(&tables).err(), refusal, "{date:?}");
    }
    // The date of a month of other days, and one without a contract.
    let mut tables = dated_tables([2_024, 10, 1]);
    tables.contract[0] = 30;
    assert_eq!(Memory::day_tables(&tables, 1, &[]), Err(refused(11, 0)));
    let mut alone = [0; CONTRACT_NUMBERS];
    alone[DATE].copy_from_slice(&[2_024, 10, 1]);
    assert_eq!(library::day_tables(&alone, &[], &[], &[], 1, &[]), 11);
}

/// An instruction through the last hour of an October.
fn last_hour() -> Tables {
    let mut tables = dated_tables([2_024, 10, 1]);
    tables.windows = vec![UNDATED as u32, OCTOBER as u32, 0];
    tables.instructions = vec![UNDATED as u32, OCTOBER as u32 - 6];
    tables
}

#[test]
fn a_gained_hour_is_settled_written_and_watched() {
    let tables = last_hour();
    let mut memory = Memory::of_month();
    memory.meter()[UNDATED - 3..].fill(12_000);
    let statement = memory.settle_tables(&tables).expect("all is read");
    let periods: Vec<i64> = statement.lines.iter().map(|line| line.period).collect();
    assert_eq!(periods, [1_489, 1_489, 1_490, 1_490]);
    assert_eq!(statement.windows[0].paid_periods, 2);

    let file = memory.write_tables(&tables).expect("nothing to turn down");
    assert_eq!(file[32..37], date(2_024, 10, 1));
    assert_eq!(file.len(), 32 + 5 + 6 + 5 + 7 * 63 + 1);
    let mut again = Memory::of_month();
    assert_eq!(again.settle_file(&file), Ok(statement.clone()));
    assert_eq!(again.write_file(&file).as_ref(), Ok(&file));

    let month = again.watch_file(&file).expect("no refusal");
    assert_eq!(Memory::watch_tables(&tables).as_ref(), Ok(&month));
    assert_eq!(month.active(1), 44_654..44_700);
    let last = again.walk(&month).last().expect("active minutes");
    let last = last.expect("all is read");
    assert_eq!((last.minute, last.capped), (44_699, statement.capped));
    let mut numbers = [0; MONTH_NUMBERS];
    let (windows, instructions) = (&tables.windows, &tables.instructions);
    let made = library::watch_tables(&tables.contract, windows, instructions, &[], &mut numbers);
    assert_eq!(made, 0);
    // The periods from 0: the hour's two, and a place that no month fills.
    assert_eq!(numbers[325 + 1_487..], [0, 1, 1, 0]);
}

#[test]
fn a_lost_hour_is_not_of_the_month() {
    // In the hour after a March's span there is nothing, whatever stands there.
    let mut tables = dated_tables([2_024, 3, 1]);
    let mut memory = Memory::of_month();
    memory.meter()[MARCH..].fill(9);
    let file = memory.write_tables(&tables).expect("nothing to turn down");
    assert_eq!(file, dated(3, b"Z"));
    tables.windows = vec![MARCH as u32 - 30, MARCH as u32, 0];
    assert!(memory.settle_tables(&tables).is_ok());
    tables.windows = vec![MARCH as u32, MARCH as u32 + 30, 0];
    assert_eq!(memory.settle_tables(&tables), Err(refused(11, 0)));
}

/// Numbers that are no day of a March do nothing.
const HOLIDAYS: [u32; 6] = [0, 29, 29, 200, 32, u32::MAX];

#[test]
fn kinds_of_day() {
    let file = dated(3, b"");
    let tables = dated_tables([2_024, 3, 1]);
    let mut memory = Memory::of_month();
    for (number, day) in [
        (0, Day::None),
        (1, Day::Working),
        (3, Day::NonWorking),
        (28, Day::Working),
        (29, Day::NonWorking),
        (31, Day::NonWorking),
        (32, Day::None),
        (200, Day::None),
        (257, Day::None),
        (u32::MAX, Day::None),
    ] {
        assert_eq!(
            memory.day_file(&file, number, &HOLIDAYS),
            Ok(day),
            "{number}"
        );
        assert_eq!(
            Memory::day_tables(&tables, number, &HOLIDAYS),
            Ok(day),
            "{number}"
        );
    }
    assert_eq!(memory.day_file(&file, 29, &[]), Ok(Day::Working));
    // A close changes none of them.
    assert_eq!(
        memory.day_file(&dated(3, b"Z"), 3, &[]),
        Ok(Day::NonWorking)
    );
    // Without a date no day is one, without a contract either.
    for file in [&b""[..], &contract(31), APPENDIX_2] {
        assert_eq!(memory.day_file(file, 1, &HOLIDAYS), Ok(Day::None));
    }
    let undated = Memory::day_tables(&appendix_2_tables(), 1, &[]);
    assert_eq!(undated, Ok(Day::None));
}

#[test]
fn a_refused_file_has_no_days() {
    let mut memory = Memory::of_month();
    assert_eq!(memory.day_file(b"Z", 1, &[]), Err(refused(13, 0)));
    let late = dated(3, &date(2_024, 3, 1));
    let refused_late = refused(29, DATE_OFFSET + 5);
    assert_eq!(memory.day_file(&late, 1, &[]), Err(refused_late));
    let mut short = Memory::with_room(OCTOBER - 1, 0);
    let refused_short = refused(15, DATE_OFFSET);
    assert_eq!(short.day_file(&dated(10, b""), 1, &[]), Err(refused_short));
}

#[test]
fn asking_for_a_day_enters_the_file() {
    let file = dated(10, &reading(OCTOBER - 1));
    let mut meter = [5; OCTOBER + 5];
    let mut revisions = [BYTE_MARK; OCTOBER + 5];
    let answer = library::day_file(&file, &mut meter, &mut revisions, 6, &[]);
    assert_eq!(answer, 2 * 256);
    assert_eq!(meter[OCTOBER - 2..], [NO_READING, 7, 5, 5, 5, 5, 5]);
    let unwritten = BYTE_MARK;
    assert_eq!(
        revisions[OCTOBER - 1..],
        [0, unwritten, unwritten, unwritten, unwritten, unwritten]
    );
}

#[test]
fn answers_that_are_no_kind_of_day() {
    let kinds = [0, 256, 512].map(Day::of_answer);
    assert_eq!(
        kinds,
        [Ok(Day::None), Ok(Day::Working), Ok(Day::NonWorking)]
    );
    for answer in [768, 256 * 31, u64::MAX - 255] {
        assert_eq!(Day::of_answer(answer), Err(Failure::Malformed));
    }
    assert_eq!(Day::of_answer(28 + 256 * 32), Err(refused(28, 32)));
}

#[test]
fn rows_of_days() {
    let rows = [Day::None, Day::Working, Day::NonWorking].map(day_row);
    assert_eq!(rows, ["no such day\n", "working\n", "non-working\n"]);
}
