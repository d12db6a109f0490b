//! Running totals: the month, each answer of a step, and walks over a month.

use super::*;
use crate::rows::{month_row, total_row};

const MONTH_MARK: u32 = 0xA5A5_A5A5;
/// Appendix 2's one instruction: its active and its base minutes.
const ACTIVE: std::ops::Range<u16> = 19..91;
const BASE: std::ops::Range<u16> = 2..6;

/// Appendix 2's month, and the memory with its readings.
fn appendix_2_watched() -> (Month, Memory) {
    let mut memory = Memory::of_month();
    let month = memory.watch_file(APPENDIX_2).expect("no refusal");
    (month, memory)
}

/// Appendix 2's totals after a minute.
fn after(minute: u16) -> Totals {
    let (month, memory) = appendix_2_watched();
    let walked = memory.walk(&month).nth(usize::from(minute - ACTIVE.start));
    walked.expect("an active minute").expect("with a reading")
}

#[test]
fn a_files_month_has_its_times() {
    let (month, _) = appendix_2_watched();
    assert_eq!(month.instructions(), 1);
    assert_eq!((month.active(1), month.base_minutes(1)), (ACTIVE, BASE));
    for none in [0, 2, 64, 65, u32::MAX] {
        assert!(month.active(none).is_empty());
        assert!(month.base_minutes(none).is_empty());
    }
    let minutes: Vec<(u32, u16)> = month.minutes().collect();
    assert_eq!(minutes, ACTIVE.map(|m| (1, m)).collect::<Vec<_>>());
}

#[test]
fn an_open_file_has_the_same_month() {
    let (month, _) = appendix_2_watched();
    let open = &APPENDIX_2[..APPENDIX_2.len() - 1];
    assert_eq!(Memory::of_month().watch_file(open).as_ref(), Ok(&month));
    // Readings have no part in it.
    let unread = &APPENDIX_2[..32 + 6 + 5];
    assert_eq!(Memory::of_month().watch_file(unread), Ok(month));
}

#[test]
fn tables_have_the_month_of_their_file() {
    let (month, _) = appendix_2_watched();
    let mut tables = appendix_2_tables();
    assert_eq!(Memory::watch_tables(&tables).as_ref(), Ok(&month));
    // The rates and the live periods are among the numbers, defaults are not.
    tables.defaults = vec![5, 1, 1];
    assert_eq!(Memory::watch_tables(&tables).as_ref(), Ok(&month));
    tables.windows = vec![0, 150, 0];
    assert_ne!(Memory::watch_tables(&tables).as_ref(), Ok(&month));
    tables = appendix_2_tables();
    tables.contract[10] += 1;
    assert_ne!(Memory::watch_tables(&tables).as_ref(), Ok(&month));
}

#[test]
fn tables_that_say_no_book_have_no_month() {
    let refused = |changed: fn(&mut Tables)| {
        let mut tables = appendix_2_tables();
        changed(&mut tables);
        let refusal = Refusal {
            number: 11,
            offset: 0,
        };
        Memory::watch_tables(&tables) == Err(refusal)
    };
    assert!(refused(|t| t.windows.truncate(2)));
    assert!(refused(|t| t.instructions[1] = 24));
    assert!(refused(|t| t.contract[0] = 0));
    assert!(!refused(|_| ()));
}

#[test]
fn an_empty_file_has_a_month_without_minutes() {
    for file in [&b""[..], &APPENDIX_2[..32], &APPENDIX_2[..32 + 6]] {
        let mut memory = Memory::of_month();
        let month = memory.watch_file(file).expect("no refusal");
        assert_eq!(month.instructions(), 0);
        assert_eq!(memory.walk(&month).count(), 0);
        let none = Totals::default().step(&month, 1, 0, 0, &[0; 4]);
        assert_eq!(none, Err(StepRefusal::NoInstruction));
    }
}

#[test]
fn a_refused_file_has_no_month() {
    let length = APPENDIX_2.len() as u64;
    let twice = [APPENDIX_2, APPENDIX_2].concat();
    let refusal = |number, offset| Err(Refusal { number, offset });
    let mut memory = Memory::of_month();
    assert_eq!(memory.watch_file(&twice), refusal(12, length));
    assert_eq!(memory.watch_file(b"Z"), refusal(13, 0));
    let mut short = Memory::with_room(1_440, 0).with_revisions(1_439);
    assert_eq!(short.watch_file(APPENDIX_2), refusal(15, 0));
}

#[test]
fn memory_for_a_month_is_written_whole_or_not_at_all() {
    let length = APPENDIX_2.len() as u64;
    let mut memory = appendix_2_read();
    let watched = |file: &[u8], memory: &mut Memory, numbers| {
        let mut month = vec![MONTH_MARK; numbers];
        let mut revisions = [0; 1_440];
        let answer = library::watch_file(file, memory.meter(), &mut revisions, &mut month);
        (answer, month)
    };
    for (file, numbers, answer) in [
        (&b"Z"[..], MONTH_NUMBERS, 13),
        (b"Z", 0, 13),
        (APPENDIX_2, MONTH_NUMBERS - 1, 26 + 256 * length),
        (APPENDIX_2, 0, 26 + 256 * length),
        (b"", MONTH_NUMBERS - 1, 26),
    ] {
        let marked = vec![MONTH_MARK; numbers];
        assert_eq!(watched(file, &mut memory, numbers), (answer, marked));
    }
    let (answer, month) = watched(APPENDIX_2, &mut memory, MONTH_NUMBERS + 3);
    assert_eq!(answer, 256 * length);
    assert_eq!(month[MONTH_NUMBERS..], [MONTH_MARK; 3]);
    assert!(!month[..MONTH_NUMBERS].contains(&MONTH_MARK));
    // Those of Appendix 2: five figures, a time in each column, six live periods.
    assert_eq!(month[..5], [12_000, 0, 30_000, 55_000, 1]);
    assert_eq!(
        [5, 69, 133, 197, 261].map(|at| month[at]),
        [5, 19, 25, 85, 91]
    );
    assert_eq!(month[325..331], [1; 6]);
    assert!(month[331..MONTH_NUMBERS].iter().all(|&period| period == 0));
}

#[test]
fn memory_for_a_month_of_tables_is_written_whole_or_not_at_all() {
    let tables = appendix_2_tables();
    let watched = |windows: &[u32], numbers| {
        let mut month = vec![MONTH_MARK; numbers];
        let answer = library::watch_tables(
            &tables.contract,
            windows,
            &tables.instructions,
            &tables.defaults,
            &mut month,
        );
        (answer, month)
    };
    for (windows, numbers, answer) in [
        (&tables.windows[..2], MONTH_NUMBERS, 11),
        (&tables.windows[..2], 0, 11),
        (&tables.windows[..], MONTH_NUMBERS - 1, 26),
        (&tables.windows[..], 0, 26),
    ] {
        let marked = vec![MONTH_MARK; numbers];
        assert_eq!(watched(windows, numbers), (answer, marked));
    }
    let (answer, month) = watched(&tables.windows, MONTH_NUMBERS + 1);
    assert_eq!((answer, month[MONTH_NUMBERS]), (0, MONTH_MARK));
    assert!(!month[..MONTH_NUMBERS].contains(&MONTH_MARK));
}

#[test]
fn totals_after_a_minute() {
    for (minute, numbers) in [
        (19, [0, 24_000, 0, 0, 0]),
        (20, [0, 48_000, 8_000, 0, 0]),
        (24, [0, 144_000, 120_000, 500, 15_000]),
        (25, [0, 48_000, 48_000, 500, 15_000]),
        (90, [0, 24_000, 12_000, 12_800, 384_000]),
    ] {
        let [base, expected, delivered, capped, pence] = numbers;
        let totals = Totals {
            instruction: 1,
            minute: i64::from(minute),
            base,
            expected,
            delivered,
            capped,
            pence,
        };
        assert_eq!(after(minute), totals);
    }
}

#[test]
fn row_of_totals() {
    let totals = Totals {
        instruction: 64,
        minute: 44_639,
        base: -16_000,
        expected: 24_000,
        delivered: -8_000,
        capped: 33,
        pence: 990,
    };
    let row = "M 64 44639 -16000 24000 -8000 33 990\n";
    assert_eq!(total_row(&totals), row);
}

#[test]
fn a_walk_ends_as_the_statement_does() {
    let (month, mut memory) = appendix_2_watched();
    let walked: Vec<_> = memory.walk(&month).collect();
    assert_eq!(walked.len(), ACTIVE.len());
    let last = walked[walked.len() - 1].expect("all is read");
    let statement = memory.settle_file(APPENDIX_2).expect("all is read");
    assert_eq!(last.capped, statement.capped);
    assert_eq!(last.pence, statement.utilisation_pence);
    let rows = statement_rows(&statement);
    assert!(rows.ends_with(&format!("\n{}", month_row(&statement))));
}

/// A month's memory with another reading in each minute.
fn all_read() -> Memory {
    let mut memory = Memory::of_month();
    for (kw, minute) in memory.meter().iter_mut().zip(0..) {
        *kw = minute * 7_919 % 24_001 - 6_000;
    }
    memory
}

/// All totals of a month over these readings.
fn walked(memory: &Memory, month: &Month) -> Vec<Totals> {
    let walked: Result<Vec<Totals>, Stop> = memory.walk(month).collect();
    walked.expect("all is read")
}

#[test]
fn a_walk_goes_through_every_instruction() {
    let tables = full_tables();
    let month = Memory::watch_tables(&tables).expect("no refusal");
    assert_eq!(month.instructions(), 64);
    let mut memory = all_read();
    let walked = walked(&memory, &month);
    let minutes = walked
        .iter()
        .map(|t| (t.instruction as u32, t.minute as u16));
    assert!(minutes.eq(month.minutes()));
    let statement = memory.settle_tables(&tables).expect("all is read");
    let last = walked[walked.len() - 1];
    let totals = (statement.capped, statement.utilisation_pence);
    assert_eq!((last.capped, last.pence), totals);
    assert_ne!(totals, (0, 0));
    // Of these segments some run backwards, and the totals never fall.
    assert!(statement.lines.iter().any(|line| line.delivered < 0));
    let falls = |pair: &[Totals]| pair[1].capped < pair[0].capped || pair[1].pence < pair[0].pence;
    assert!(!walked.windows(2).any(falls));
}

#[test]
fn totals_go_on_in_a_month_that_is_worked_out_anew() {
    let whole = full_tables();
    let mut memory = all_read();
    let kw = memory.meter().to_vec();
    let mut totals = Totals::default();
    let mut shown = Vec::new();
    for n in 1..=64 {
        // What is in the book when the instruction comes.
        let known = Tables {
            instructions: whole.instructions[..2 * n].to_vec(),
            ..whole.clone()
        };
        let month = Memory::watch_tables(&known).expect("no refusal");
        let n = n as u32;
        let base: Vec<i32> = month.base_minutes(n).map(|m| kw[usize::from(m)]).collect();
        for minute in month.active(n) {
            let step = totals.step(&month, n, minute, kw[usize::from(minute)], &base);
            assert_eq!(step, Ok(()));
            shown.push(totals);
        }
    }
    let month = Memory::watch_tables(&whole).expect("no refusal");
    assert_eq!(shown, walked(&memory, &month));
}

#[test]
fn a_walk_stops_at_a_minute_without_a_reading() {
    let no_reading = |minute: u16, base| {
        Some(Err(Stop {
            refusal: StepRefusal::NoReading,
            instruction: 1,
            minute,
            base,
        }))
    };
    for cell in [NO_READING, 500_001, -500_001] {
        for minute in ACTIVE {
            let (month, mut memory) = appendix_2_watched();
            memory.meter()[usize::from(minute)] = cell;
            let mut walk = memory.walk(&month);
            let before = usize::from(minute - ACTIVE.start);
            assert_eq!(walk.by_ref().take(before).flatten().count(), before);
            assert_eq!(walk.next(), no_reading(minute, false));
            assert_eq!(walk.next(), None);
        }
        for minute in BASE {
            let (month, mut memory) = appendix_2_watched();
            memory.meter()[usize::from(minute)] = cell;
            // The base minutes are missed before the first active one.
            memory.meter()[usize::from(ACTIVE.start)] = cell;
            let mut walk = memory.walk(&month);
            assert_eq!(walk.next(), no_reading(minute, true));
            assert_eq!(walk.next(), None);
        }
    }
}

#[test]
fn a_walk_stops_where_the_memory_ends() {
    let (month, _) = appendix_2_watched();
    let short = Memory::with_room(10, 0);
    let stop = short.walk(&month).next().expect("an active minute");
    // Minute 2 has a cell, and no reading in it.
    assert_eq!(
        stop.map_err(|stop| (stop.minute, stop.base)),
        Err((2, true))
    );
    let none = Memory::with_room(0, 0);
    let stop = none.walk(&month).next().expect("an active minute");
    assert_eq!(stop.map_err(|stop| stop.minute), Err(2));
}

/// A step from these totals, which keeps them where it is refused.
fn step(before: Totals, minute: u16, kw: i32, base: &[i32]) -> Result<Totals, StepRefusal> {
    let (month, _) = appendix_2_watched();
    let mut totals = before;
    let step = totals.step(&month, 1, minute, kw, base);
    assert_eq!(totals == before, step.is_err());
    step.map(|()| totals)
}

#[test]
fn only_the_next_active_minute_is_taken() {
    let zeros = Totals::default();
    for (before, next) in [
        (zeros, 19),
        (after(19), 20),
        (after(29), 30),
        (after(89), 90),
    ] {
        for minute in 0..=92 {
            let taken = step(before, minute, 0, &[0; 4]);
            match minute == next {
                true => assert!(taken.is_ok()),
                false => assert_eq!(taken, Err(StepRefusal::NotNext)),
            }
        }
        assert_eq!(
            step(before, u16::MAX, 0, &[0; 4]),
            Err(StepRefusal::NotNext)
        );
    }
    // Behind the last one there is none.
    for minute in 0..=92 {
        assert_eq!(step(after(90), minute, 0, &[]), Err(StepRefusal::NotNext));
    }
}

#[test]
fn a_second_instruction_waits_for_the_end_of_the_first() {
    let mut tables = appendix_2_tables();
    tables.instructions.extend([91, 111]);
    let month = Memory::watch_tables(&tables).expect("no refusal");
    assert_eq!(month.active(2), 105..117);
    for (before, minute, taken) in [
        (after(90), 105, true),
        (after(90), 104, false),
        (after(90), 106, false),
        (after(89), 105, false),
        (Totals::default(), 105, false),
    ] {
        let mut totals = before;
        let step = totals.step(&month, 2, minute, 4_000, &[7_000, 5_000, 3_000, 1_000]);
        assert_eq!(step.is_ok(), taken);
        assert_eq!(step.is_err(), step == Err(StepRefusal::NotNext));
        if taken {
            let now = (totals.instruction, totals.base, totals.delivered);
            assert_eq!(now, (2, 16_000, 0));
        }
    }
}

#[test]
fn an_instruction_that_is_not_there() {
    let (month, _) = appendix_2_watched();
    for instruction in [0, 2, 64, 65, u32::MAX] {
        for before in [Totals::default(), after(90)] {
            let mut totals = before;
            // 102 stands before 103 and 104.
            let step = totals.step(&month, instruction, 0, 500_001, &[]);
            assert_eq!(step, Err(StepRefusal::NoInstruction));
            assert_eq!(totals, before);
        }
    }
}

#[test]
fn readings_have_their_range() {
    let zeros = Totals::default();
    for kw in [-500_000, 500_000] {
        assert!(step(zeros, 19, kw, &[0; 4]).is_ok());
        assert!(step(zeros, 19, 0, &[kw; 4]).is_ok());
        assert!(step(after(24), 25, kw, &[]).is_ok());
    }
    for kw in [-500_001, 500_001, NO_READING, i32::MAX] {
        assert_eq!(step(zeros, 19, kw, &[0; 4]), Err(StepRefusal::NoReading));
        assert_eq!(step(after(24), 25, kw, &[]), Err(StepRefusal::NoReading));
        for place in 0..4 {
            let mut base = [0; 4];
            base[place] = kw;
            assert_eq!(step(zeros, 19, 0, &base), Err(StepRefusal::NoReading));
        }
        // 103 stands before 104.
        assert_eq!(step(zeros, 20, kw, &[]), Err(StepRefusal::NotNext));
    }
}

#[test]
fn base_readings_are_four_and_asked_for_once() {
    for length in (0..8).filter(|&length| length != 4) {
        let step = step(Totals::default(), 19, 0, &vec![0; length]);
        assert_eq!(step, Err(StepRefusal::NoReading));
    }
    // Later ones are not looked at, whatever they are.
    let on = step(after(19), 20, 2_000, &[]);
    assert_eq!(on, Ok(after(20)));
    for base in [&[7][..], &[1; 4], &[NO_READING; 9]] {
        assert_eq!(step(after(19), 20, 2_000, base), on);
    }
}

/// What is changed about totals, and whether they are still in their ranges.
type Change = (fn(&mut Totals), bool);

#[test]
fn totals_that_no_steps_leave_are_refused() {
    let good = after(20);
    // Twenty-one minutes of the month, and of its first period.
    let changes: [Change; 18] = [
        (|t| t.base = 2_000_000, true),
        (|t| t.base = 2_000_001, false),
        (|t| t.base = -2_000_001, false),
        (|t| t.expected = 42_000_000, true),
        (|t| t.expected = 42_000_001, false),
        (|t| t.expected = -1, false),
        (|t| t.delivered = 84_000_000, true),
        (|t| t.delivered = 84_000_001, false),
        (|t| t.delivered = -84_000_001, false),
        (|t| t.capped = -10_500_000, true),
        (|t| t.capped = 10_500_001, false),
        (|t| t.capped = -10_500_001, false),
        (|t| t.pence = 10_500_000_000, true),
        (|t| t.pence = 10_500_000_001, false),
        (|t| t.pence = i64::MIN, false),
        (|t| t.instruction = -1, false),
        (|t| t.minute = -1, false),
        (|t| t.minute = i64::MAX, false),
    ];
    for (change, fits) in changes {
        let mut totals = good;
        change(&mut totals);
        let step = step(totals, 21, 0, &[]);
        assert_eq!(step.is_ok(), fits, "{totals:?}");
        assert_eq!(step.is_err(), step == Err(StepRefusal::Unfit));
    }
    // 101 stands before 102.
    let (month, _) = appendix_2_watched();
    let mut unfit = good;
    unfit.expected = -1;
    assert_eq!(unfit.step(&month, 9, 0, 0, &[]), Err(StepRefusal::Unfit));
}

/// Appendix 2's month in numbers, and two more behind it.
fn month_numbers() -> [u32; MONTH_NUMBERS + 2] {
    let tables = appendix_2_tables();
    let mut numbers = [0; MONTH_NUMBERS + 2];
    let made = library::watch_tables(
        &tables.contract,
        &tables.windows,
        &tables.instructions,
        &[],
        &mut numbers,
    );
    assert_eq!(made, 0);
    numbers
}

#[test]
fn a_refused_step_leaves_what_is_lent() {
    let month = month_numbers();
    // In minute 24 a segment ends, in minute 25 another begins.
    for minute in [24, 25, 89] {
        let t = after(minute);
        let numbers = [
            t.instruction,
            t.minute,
            t.base,
            t.expected,
            t.delivered,
            t.capped,
            t.pence,
            MARK,
        ];
        for (number, instruction, ahead, kw) in [
            (102, 0, 1, 0),
            (102, 2, 1, 0),
            (103, 1, 0, 0),
            (103, 1, 2, 0),
            (104, 1, 1, 500_001),
        ] {
            let mut lent = numbers;
            let answer =
                library::watch_step(&month, &mut lent, instruction, minute + ahead, kw, &[]);
            assert_eq!((answer, lent), (number, numbers));
        }
    }
    let mut zeros = [0; TOTAL_NUMBERS];
    for base in [&[0; 3][..], &[0, 0, 0, 500_001]] {
        let answer = library::watch_step(&month, &mut zeros, 1, 19, 0, base);
        assert_eq!((answer, zeros), (104, [0; TOTAL_NUMBERS]));
    }
}

#[test]
fn too_few_numbers_are_refused() {
    let numbers = month_numbers();
    let first = |month: &[u32], lent: usize| {
        let mut totals = vec![0; TOTAL_NUMBERS];
        totals.resize(lent, MARK);
        let number = library::watch_step(month, &mut totals, 1, 19, 0, &[1; 4]);
        (number, totals)
    };
    let stepped = [1, 19, 4, 24_000, -4, 0, 0];
    for behind in 0..3 {
        let (number, totals) = first(&numbers[..MONTH_NUMBERS + behind], TOTAL_NUMBERS + behind);
        assert_eq!((number, &totals[..TOTAL_NUMBERS]), (0, &stepped[..]));
        assert_eq!(totals[TOTAL_NUMBERS..], vec![MARK; behind]);
    }
    let unfit = |month: &[u32], lent| first(month, lent) == (101, vec![0; lent]);
    for few in [0, 4, MONTH_NUMBERS - 1] {
        assert!(unfit(&numbers[..few], TOTAL_NUMBERS));
    }
    for few in 0..TOTAL_NUMBERS {
        assert!(unfit(&numbers, few));
    }
    // A month's figures have their ranges.
    for (place, most) in [(0, 500_000), (2, 1_000_000), (3, 1_000_000), (4, 64)] {
        let mut month = numbers;
        month[place] = most;
        assert_eq!(first(&month, TOTAL_NUMBERS).0, 0);
        month[place] = most + 1;
        assert!(unfit(&month, TOTAL_NUMBERS));
    }
}
