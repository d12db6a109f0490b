mod dates;
mod watch;

use crate::rows::{refusal_row, statement_rows};
use crate::*;

const APPENDIX_2: &[u8] = include_bytes!("../../../examples/appendix2.unit");
const APPENDIX_2_ROWS: &str = include_str!("../../../examples/appendix2.rows");
const APPENDIX_2_LINES: usize = 6;
/// Marks lent memory, to see what a call leaves alone.
const MARK: i64 = -77;
const BYTE_MARK: u8 = 0xA5;
/// The last minute that Appendix 2 has a reading of, and its command's place.
const LAST_READ: usize = 90;
const LAST_READING: usize = APPENDIX_2.len() - 8;

fn appendix_2_tables() -> Tables {
    Tables {
        contract: [
            1, 0, 0, 12_000, 2_000, 2_000, 20, 0, 900, 30_000, 55_000, 0, 0, 0,
        ],
        windows: vec![0, 180, 0],
        instructions: vec![5, 85],
        defaults: Vec::new(),
    }
}

fn revision(minute: usize, number: u8, kw: i32) -> Vec<u8> {
    let minute = (minute as u16).to_be_bytes();
    [&[0x52], &minute[..], &[number], &kw.to_be_bytes()].concat()
}

/// Appendix 2 up to its last reading, of 3,000 kW, and then other bytes in its
/// place.
fn with_last(bytes: &[&[u8]]) -> Vec<u8> {
    [&APPENDIX_2[..LAST_READING], &bytes.concat(), b"Z"].concat()
}

/// What a plain reading of 0 in that minute is.
const LAST_AS_0: &[u8] = &[0x4D, 0, LAST_READ as u8, 0, 0, 0, 0];

/// A month's memory with the readings of Appendix 2 in it.
fn appendix_2_read() -> Memory {
    let mut memory = Memory::of_month();
    assert_eq!(memory.enter_file(APPENDIX_2), Ok(()));
    memory
}

fn refused(number: u8, offset: u64) -> Failure {
    Failure::Refused(Refusal { number, offset })
}

#[test]
fn rows_of_a_statement() {
    let line = Line {
        instruction: 1,
        period: 1_488,
        stage: Stage::RampUp,
        rate: Rate::Utilisation,
        expected: 600,
        delivered: 500,
        capped: 500,
        pence: 15_000,
    };
    let statement = Statement {
        lines: vec![
            line,
            Line {
                stage: Stage::Steady,
                rate: Rate::Optional,
                delivered: -500,
                capped: 0,
                pence: 0,
                ..line
            },
            Line {
                instruction: 64,
                stage: Stage::RampDown,
                ..line
            },
        ],
        windows: vec![
            WindowPay {
                paid_periods: 6,
                pence: 32_400,
            },
            WindowPay {
                paid_periods: 0,
                pence: 0,
            },
        ],
        capped: 1_000,
        utilisation_pence: 30_000,
        availability_pence: 32_400,
        all_pence: 62_400,
    };
    let rows = "L 1 1488 U C 600 500 500 15000\n\
                L 1 1488 S O 600 -500 0 0\n\
                L 64 1488 D C 600 500 500 15000\n\
                A 1 6 32400\n\
                A 2 0 0\n\
                T 1000 30000 32400 62400\n";
    assert_eq!(statement_rows(&statement), rows);
}

#[test]
fn row_of_a_refusal() {
    let refusal = Refusal {
        number: 15,
        offset: 313_391,
    };
    assert_eq!(refusal_row(refusal), "R 15 313391\n");
}

#[test]
fn a_file_is_settled() {
    let statement = Memory::of_month().settle_file(APPENDIX_2);
    let rows = statement.map(|statement| statement_rows(&statement));
    assert_eq!(rows.as_deref(), Ok(APPENDIX_2_ROWS));
}

#[test]
fn what_runs_backwards_is_listed_and_not_paid() {
    let file = include_bytes!("../../../examples/runs-backwards.unit");
    let statement = Memory::of_month().settle_file(file).expect("all is read");
    let delivered: Vec<i64> = statement.lines.iter().map(|line| line.delivered).collect();
    assert_eq!(delivered, [-3, -2, 0]);
    let paid = |line: &Line| line.capped != 0 || line.pence != 0;
    assert!(!statement.lines.iter().any(paid));
    assert_eq!((statement.capped, statement.utilisation_pence), (0, 0));
    assert_eq!(statement.all_pence, 32_400);
}

#[test]
fn tables_are_settled_like_the_file() {
    let by_file = Memory::of_month().settle_file(APPENDIX_2);
    let by_tables = appendix_2_read().settle_tables(&appendix_2_tables());
    assert!(by_file.is_ok());
    assert_eq!(by_tables, by_file);
}

#[test]
fn entering_leaves_the_readings() {
    let mut memory = Memory::of_month();
    memory.meter().fill(1);
    memory.revisions().fill(9);
    assert_eq!(memory.enter_file(APPENDIX_2), Ok(()));
    let meter = memory.meter();
    // Minute 0 has no reading, minutes after the first day are not the contract's.
    assert_eq!(meter[0], NO_READING);
    assert!(meter[2..6].iter().all(|&kw| kw != NO_READING && kw != 1));
    assert!(meter[1_440..].iter().all(|&kw| kw == 1));
    let revisions = memory.revisions();
    assert_eq!(revisions[..1_440], [0; 1_440]);
    assert!(revisions[1_440..].iter().all(|&number| number == 9));
}

#[test]
fn a_corrected_reading_is_settled() {
    let right = Memory::of_month().settle_file(APPENDIX_2);
    assert!(right.is_ok());
    let mut memory = Memory::of_month();
    assert_ne!(memory.settle_file(&with_last(&[LAST_AS_0])), right);
    let corrected = with_last(&[LAST_AS_0, &revision(LAST_READ, 1, 3_000)]);
    assert_eq!(memory.settle_file(&corrected), right);
    assert_eq!(memory.meter()[LAST_READ], 3_000);
    assert_eq!(memory.revisions()[LAST_READ], 1);
    // A minute without a reading takes any revision.
    let revised = with_last(&[&revision(LAST_READ, 255, 3_000)]);
    assert_eq!(memory.settle_file(&revised), right);
    assert_eq!(memory.revisions()[LAST_READ], 255);
}

#[test]
fn revisions_are_refused_and_nothing_is_altered() {
    let nine = revision(LAST_READ, 9, 3_000);
    for (number, refused) in [
        (27, revision(LAST_READ, 9, 0)),
        (27, revision(LAST_READ, 1, 0)),
        (22, LAST_AS_0.to_vec()),
        (3, revision(LAST_READ, 0, 0)),
        (3, revision(LAST_READ, 10, 500_001)),
        (3, revision(44_701, 10, 0)),
        (16, revision(44_700, 10, 0)),
        (16, revision(1_440, 10, 0)),
        (2, revision(LAST_READ, 10, 0)[..6].to_vec()),
    ] {
        let mut memory = Memory::of_month();
        let file = [&APPENDIX_2[..LAST_READING], &nine, &refused].concat();
        let refusal = Refusal {
            number,
            offset: (LAST_READING + nine.len()) as u64,
        };
        assert_eq!(memory.enter_file(&file), Err(refusal));
        assert_eq!(memory.meter()[LAST_READ], 3_000);
        assert_eq!(memory.revisions()[LAST_READ], 9);
    }
}

#[test]
fn one_memory_serves_file_after_file() {
    let mut memory = Memory::of_month();
    let first = memory.settle_file(APPENDIX_2);
    assert_eq!(memory.settle_file(b"Z"), Err(refused(13, 0)));
    assert_eq!(memory.settle_file(b""), Err(refused(24, 0)));
    assert_eq!(memory.settle_file(APPENDIX_2), first);
}

#[test]
fn refusals_have_their_offsets() {
    let length = APPENDIX_2.len() as u64;
    let mut memory = Memory::of_month();
    let twice = [APPENDIX_2, APPENDIX_2].concat();
    assert_eq!(memory.settle_file(&twice), Err(refused(12, length)));
    let open = &APPENDIX_2[..APPENDIX_2.len() - 1];
    assert_eq!(memory.settle_file(open), Err(refused(24, length - 1)));
    let cut = &APPENDIX_2[..APPENDIX_2.len() - 2];
    // The last reading is seven bytes long, and the close stood behind it.
    let refusal = Refusal {
        number: 2,
        offset: length - 8,
    };
    assert_eq!(memory.enter_file(cut), Err(refusal));
}

#[test]
fn short_memory_is_refused() {
    let length = APPENDIX_2.len() as u64;
    let mut few_minutes = Memory::with_room(1_439, MONTH_LINES);
    assert_eq!(few_minutes.settle_file(APPENDIX_2), Err(refused(15, 0)));
    let mut few_revisions = Memory::of_month().with_revisions(1_439);
    assert_eq!(few_revisions.settle_file(APPENDIX_2), Err(refused(15, 0)));
    let mut few_lines = Memory::with_room(1_440, APPENDIX_2_LINES - 1);
    assert_eq!(few_lines.settle_file(APPENDIX_2), Err(refused(26, length)));
    let mut more_revisions = Memory::with_room(1_439, MONTH_LINES).with_revisions(1_440);
    assert_eq!(more_revisions.settle_file(APPENDIX_2), Err(refused(15, 0)));
    let mut just_enough = Memory::with_room(1_440, APPENDIX_2_LINES);
    assert!(just_enough.settle_file(APPENDIX_2).is_ok());
}

#[test]
fn tables_that_no_commands_leave_are_refused() {
    let mut memory = appendix_2_read();
    let mut tables = appendix_2_tables();
    tables.windows = vec![0, 180, 1];
    assert_eq!(memory.settle_tables(&tables), Err(refused(11, 0)));
    tables = appendix_2_tables();
    tables.defaults = vec![180, 1, 1];
    assert_eq!(memory.settle_tables(&tables), Err(refused(11, 0)));
    tables = appendix_2_tables();
    tables.contract[0] = 0;
    assert_eq!(memory.settle_tables(&tables), Err(refused(11, 0)));
}

#[test]
fn tables_meet_the_refusals_of_settling() {
    let tables = appendix_2_tables();
    let mut unread = Memory::of_month();
    assert_eq!(unread.settle_tables(&tables), Err(refused(25, 0)));
    let mut short = Memory::with_room(1_439, MONTH_LINES);
    assert_eq!(short.settle_tables(&tables), Err(refused(15, 0)));
    let mut few_revisions = appendix_2_read().with_revisions(1_439);
    assert_eq!(few_revisions.settle_tables(&tables), Err(refused(15, 0)));
    let mut enough = appendix_2_read().with_revisions(1_440);
    assert!(enough.settle_tables(&tables).is_ok());
    let mut few_lines = Memory::with_room(1_440, APPENDIX_2_LINES - 1);
    assert_eq!(few_lines.enter_file(APPENDIX_2), Ok(()));
    assert_eq!(few_lines.settle_tables(&tables), Err(refused(26, 0)));
}

#[test]
fn lent_memory_behind_the_answer_is_kept() {
    let mut meter = [NO_READING; 1_440];
    let mut revisions = [BYTE_MARK; 1_445];
    let mut lines = [MARK; LINE_NUMBERS * APPENDIX_2_LINES + 5];
    let mut sums = [MARK; SUMS + 3];
    let answer = library::settle_file(
        APPENDIX_2,
        &mut meter,
        &mut revisions,
        &mut lines,
        &mut sums,
    );
    assert_eq!(answer, 256 * APPENDIX_2.len() as u64);
    assert_eq!(revisions[1_440..], [BYTE_MARK; 5]);
    assert_eq!(lines[lines.len() - 5..], [MARK; 5]);
    assert_eq!(sums[SUMS..], [MARK; 3]);
    assert_eq!(
        sums[..TOTALS_AND_FIRST_WINDOW.len()],
        TOTALS_AND_FIRST_WINDOW
    );
    assert_eq!(sums[TOTALS_AND_FIRST_WINDOW.len()..SUMS], [0; 254]);
}

const TOTALS_AND_FIRST_WINDOW: [i64; 8] = [6, 1, 12_800, 384_000, 32_400, 416_400, 6, 32_400];

#[test]
fn a_refusal_keeps_lines_and_sums() {
    let mut meter = [NO_READING; 1_440];
    let mut revisions = [0; 1_440];
    let mut lines = [MARK; LINE_NUMBERS * (APPENDIX_2_LINES - 1)];
    let mut sums = [MARK; SUMS];
    let open = &APPENDIX_2[..APPENDIX_2.len() - 1];
    for (file, number) in [(APPENDIX_2, 26), (open, 24), (b"Z", 13)] {
        let answer = library::settle_file(file, &mut meter, &mut revisions, &mut lines, &mut sums);
        assert_eq!(answer % 256, number);
        assert!(lines.iter().chain(&sums).all(|&number| number == MARK));
    }
}

#[test]
fn too_few_sums_are_refused_last() {
    let length = APPENDIX_2.len() as u64;
    let open = &APPENDIX_2[..APPENDIX_2.len() - 1];
    let mut lines = [MARK; LINE_NUMBERS * APPENDIX_2_LINES];
    let mut sums = [MARK; SUMS - 1];
    for (file, minutes, answer) in [
        (APPENDIX_2, 1_440, 26 + 256 * length),
        (open, 1_440, 24 + 256 * (length - 1)),
        (APPENDIX_2, 1_439, 15),
        (b"Z", 1_440, 13),
    ] {
        let mut meter = vec![NO_READING; minutes];
        let mut revisions = [0; 1_440];
        let answered =
            library::settle_file(file, &mut meter, &mut revisions, &mut lines, &mut sums);
        assert_eq!(answered, answer);
        assert!(lines.iter().chain(&sums).all(|&number| number == MARK));
    }
}

#[test]
fn tables_with_too_few_sums_are_refused_last() {
    let tables = appendix_2_tables();
    let mut lines = [MARK; LINE_NUMBERS * APPENDIX_2_LINES];
    let mut sums = [MARK; SUMS - 1];
    for (windows, meter, number) in [
        (&tables.windows[..], appendix_2_read().meter(), 26),
        (&tables.windows[..2], appendix_2_read().meter(), 11),
        (&tables.windows[..], &mut [NO_READING; 1_440][..], 25),
    ] {
        let answered = library::settle_tables(
            &tables.contract,
            windows,
            &tables.instructions,
            &tables.defaults,
            meter,
            &[0; 1_440],
            &mut lines,
            &mut sums,
        );
        assert_eq!(answered, number);
        assert!(lines.iter().chain(&sums).all(|&number| number == MARK));
    }
}

#[test]
fn tables_of_wrong_lengths_are_refused() {
    let change = |changed: fn(&mut Tables)| {
        let mut tables = appendix_2_tables();
        tables.contract[0] = 31;
        changed(&mut tables);
        appendix_2_read().settle_tables(&tables)
    };
    // Numbers that end inside an entry.
    assert_eq!(change(|t| t.windows.truncate(2)), Err(refused(11, 0)));
    assert_eq!(change(|t| t.instructions.truncate(1)), Err(refused(11, 0)));
    assert_eq!(change(|t| t.defaults = vec![0, 1]), Err(refused(11, 0)));
    assert_eq!(change(|t| t.windows.push(0)), Err(refused(11, 0)));
    // More entries than a table holds, each of them in order.
    assert_eq!(change(|t| t.windows = windows(129)), Err(refused(11, 0)));
    assert_eq!(
        change(|t| t.instructions = instructions(65)),
        Err(refused(11, 0))
    );
    assert_eq!(
        change(|t| t.defaults = [0, 1, 1].repeat(129)),
        Err(refused(11, 0))
    );
    assert!(change(|_| ()).is_ok());
}

#[test]
fn contracts_of_other_lengths_are_refused() {
    let tables = appendix_2_tables();
    let numbers = [&tables.contract[..], &[0]].concat();
    for length in 0..=numbers.len() {
        let mut lines = [MARK; LINE_NUMBERS * APPENDIX_2_LINES];
        let mut sums = [MARK; SUMS];
        let number = library::settle_tables(
            &numbers[..length],
            &tables.windows,
            &tables.instructions,
            &tables.defaults,
            appendix_2_read().meter(),
            &[0; 1_440],
            &mut lines,
            &mut sums,
        );
        let fits = length == CONTRACT_NUMBERS;
        assert_eq!(number, if fits { 0 } else { 11 });
        let altered = lines.iter().chain(&sums).any(|&n| n != MARK);
        assert_eq!(altered, fits);
    }
}

#[test]
fn full_tables_are_settled() {
    let mut memory = Memory::of_month();
    memory.meter().fill(0);
    let statement = memory
        .settle_tables(&full_tables())
        .expect("nothing to turn down");
    assert_eq!(statement.windows.len(), 128);
    // No stage of these instructions crosses a period.
    assert_eq!(statement.lines.len(), 3 * 64);
}

/// A month with every place of every table in use, and as long as they get.
fn full_tables() -> Tables {
    let mut tables = appendix_2_tables();
    tables.contract[0] = 31;
    tables.contract[11..].copy_from_slice(&[2_024, 10, 1]);
    tables.windows = windows(128);
    tables.instructions = instructions(64);
    tables.defaults = [0, 1, 1].repeat(128);
    tables
}

#[test]
fn tables_are_written_as_the_file() {
    let written = appendix_2_read().write_tables(&appendix_2_tables());
    assert_eq!(written.as_deref(), Ok(APPENDIX_2));
}

#[test]
fn cells_that_hold_no_reading_are_not_written() {
    let mut memory = appendix_2_read();
    let meter = memory.meter();
    meter[..2].copy_from_slice(&[500_001, -500_001]);
    // Minutes after the contract's day.
    meter[1_440..].fill(7);
    let revisions = memory.revisions();
    revisions[..2].fill(1);
    revisions[1_440..].fill(1);
    let written = memory.write_tables(&appendix_2_tables());
    assert_eq!(written.as_deref(), Ok(APPENDIX_2));
}

/// Appendix 2's tables with these contract numbers, written into so many
/// marked bytes: the answer, and the bytes after it.
fn written(contract: &[u32], meter: &[i32], revisions: &[u8], room: usize) -> (u64, Vec<u8>) {
    let tables = appendix_2_tables();
    let mut file = vec![BYTE_MARK; room];
    let answer = library::write_tables(
        contract,
        &tables.windows,
        &tables.instructions,
        &tables.defaults,
        meter,
        revisions,
        &mut file,
    );
    (answer, file)
}

#[test]
fn a_file_is_written_into_the_first_bytes() {
    let contract = appendix_2_tables().contract;
    let mut memory = appendix_2_read();
    let taken = 256 * APPENDIX_2.len() as u64;
    for behind in [0, 1, 100] {
        let bytes = [APPENDIX_2, &vec![BYTE_MARK; behind]].concat();
        let written = written(&contract, memory.meter(), &[0; 1_440], bytes.len());
        assert_eq!(written, (taken, bytes));
    }
}

#[test]
fn a_refusal_keeps_every_byte() {
    let contract = appendix_2_tables().contract;
    let mut memory = appendix_2_read();
    let meter = memory.meter();
    let room = APPENDIX_2.len();
    let too_long = [&contract[..], &[0]].concat();
    let revisions = [0; 1_440];
    for (number, contract, cells, bytes, room) in [
        (11, &contract[..11], 1_440, 1_440, room),
        (11, &too_long[..], 1_440, 1_440, room),
        (11, &[0; CONTRACT_NUMBERS], 1_440, 1_440, room),
        (11, &contract[..13], 1_439, 1_439, room - 1),
        (15, &contract, 1_439, 1_440, room - 1),
        (15, &contract, 1_440, 1_439, room - 1),
        (26, &contract, 1_440, 1_440, room - 1),
        (26, &contract, 1_440, 1_440, 0),
    ] {
        let written = written(contract, &meter[..cells], &revisions[..bytes], room);
        assert_eq!(written, (number, vec![BYTE_MARK; room]));
    }
}

#[test]
fn tables_that_no_commands_leave_are_not_written() {
    let refused = |changed: fn(&mut Tables)| {
        let mut tables = appendix_2_tables();
        changed(&mut tables);
        let written = appendix_2_read().write_tables(&tables);
        let refusal = Refusal {
            number: 11,
            offset: 0,
        };
        written == Err(refusal)
    };
    assert!(refused(|t| t.windows.truncate(2)));
    assert!(refused(|t| t.instructions.push(0)));
    assert!(refused(|t| t.defaults = vec![0, 1]));
    assert!(refused(|t| t.windows = vec![0, 180, 1]));
    assert!(refused(|t| t.contract[0] = 0));
    assert!(!refused(|_| ()));
}

#[test]
fn a_full_month_is_written_and_settled_again() {
    let tables = full_tables();
    let mut memory = Memory::of_month();
    memory.meter().fill(-1);
    // Each number makes the file a byte longer.
    for (number, shorter) in [(0, MONTH_MINUTES), (1, 0), (255, 0)] {
        memory.revisions().fill(number);
        let file = memory.write_tables(&tables).expect("nothing to turn down");
        assert_eq!(file.len(), MONTH_BYTES - shorter);
        let by_tables = memory.settle_tables(&tables);
        assert!(by_tables.is_ok());
        let mut again = Memory::of_month();
        assert_eq!(again.settle_file(&file), by_tables);
        assert_eq!(again.meter(), memory.meter());
        assert_eq!(again.revisions(), memory.revisions());
    }
}

#[test]
fn a_revised_reading_is_written_in_its_minutes_turn() {
    let revised = with_last(&[&revision(LAST_READ, 7, 3_000)]);
    let superseding = [
        &APPENDIX_2[..32],
        LAST_AS_0,
        &revision(LAST_READ, 7, 3_000),
        &APPENDIX_2[32..LAST_READING],
        b"Z",
    ];
    let mut memory = Memory::of_month();
    let written = memory.write_file(&superseding.concat());
    assert_eq!(written.as_ref(), Ok(&revised));
    let tables = appendix_2_tables();
    assert_eq!(memory.write_tables(&tables).as_ref(), Ok(&revised));
    memory.revisions()[LAST_READ] = 0;
    let plain = memory.write_tables(&tables);
    assert_eq!(plain.as_deref(), Ok(APPENDIX_2));
}

#[test]
fn a_file_is_written_in_the_writers_order() {
    // Behind its contract, the parts of Appendix 2 the other way round.
    let (contract, rest) = APPENDIX_2.split_at(32);
    let (entries, rest) = rest.split_at(6 + 5);
    let (window, instruction) = entries.split_at(6);
    let readings = &rest[..rest.len() - 1];
    let mixed = [contract, readings, instruction, window, b"Z"].concat();
    let mut memory = Memory::of_month();
    assert_eq!(memory.write_file(&mixed).as_deref(), Ok(APPENDIX_2));
    assert_eq!(memory.write_file(APPENDIX_2).as_deref(), Ok(APPENDIX_2));
}

#[test]
fn open_and_empty_books_are_written() {
    let mut memory = Memory::of_month();
    assert_eq!(memory.write_file(b"").as_deref(), Ok(&b""[..]));
    let open = &APPENDIX_2[..APPENDIX_2.len() - 1];
    assert_eq!(memory.write_file(open).as_deref(), Ok(open));
    let contract = &APPENDIX_2[..32];
    assert_eq!(memory.write_file(contract).as_deref(), Ok(contract));
}

#[test]
fn a_refused_file_is_not_written() {
    let length = APPENDIX_2.len();
    let mut meter = [NO_READING; 1_440];
    let cut = &APPENDIX_2[..length - 2];
    let mut revisions = [0; 1_440];
    for (file, cells, bytes, room, answer) in [
        (&b"Z"[..], 1_440, 1_440, length, 13),
        (cut, 1_440, 1_440, length, 2 + 256 * (length as u64 - 8)),
        (APPENDIX_2, 1_439, 1_440, length, 15),
        (APPENDIX_2, 1_440, 1_439, length, 15),
        (APPENDIX_2, 1_440, 1_440, length - 1, 26),
        (APPENDIX_2, 1_440, 1_440, 0, 26),
    ] {
        let mut written = vec![BYTE_MARK; room];
        let answered = library::write_file(
            file,
            &mut meter[..cells],
            &mut revisions[..bytes],
            &mut written,
        );
        assert_eq!((answered, written), (answer, vec![BYTE_MARK; room]));
    }
}

#[test]
fn bytes_behind_a_written_file_are_kept() {
    let length = APPENDIX_2.len();
    let mut meter = [NO_READING; 1_440];
    let mut revisions = [0; 1_440];
    let mut written = vec![BYTE_MARK; length + 3];
    let answer = library::write_file(APPENDIX_2, &mut meter, &mut revisions, &mut written);
    assert_eq!(answer, 256 * length as u64);
    assert_eq!(written, [APPENDIX_2, &[BYTE_MARK; 3]].concat());
}

fn windows(count: u32) -> Vec<u32> {
    (0..count).flat_map(|k| [30 * k, 30 * k + 30, 0]).collect()
}

fn instructions(count: u32) -> Vec<u32> {
    (0..count)
        .map(|k| 60 * k + 30)
        .flat_map(|issue| [issue - 20, issue + 10])
        .collect()
}

/// Numbers of one line and one window, in form.
fn numbers() -> ([i64; 2 * LINE_NUMBERS], [i64; SUMS]) {
    let mut sums = [0; SUMS];
    sums[0] = 1;
    sums[1] = 1;
    let mut lines = [9; 2 * LINE_NUMBERS];
    lines[2] = 2;
    lines[3] = 1;
    (lines, sums)
}

#[test]
fn numbers_in_form_are_a_statement() {
    let (lines, sums) = numbers();
    let statement = Statement::of_numbers(&lines, &sums).expect("in form");
    assert_eq!((statement.lines.len(), statement.windows.len()), (1, 1));
    assert_eq!(statement.lines[0].stage, Stage::RampDown);
    assert_eq!(statement.lines[0].rate, Rate::Optional);
}

#[test]
fn numbers_out_of_form_are_no_statement() {
    let (lines, sums) = numbers();
    for (place, number) in [
        (0, -1),
        (0, 3),
        (0, i64::MIN),
        (0, i64::MAX),
        (1, -1),
        (1, WINDOWS as i64 + 1),
        (1, i64::MAX),
    ] {
        let mut sums = sums;
        sums[place] = number;
        assert_eq!(
            Statement::of_numbers(&lines, &sums),
            None,
            "{place}: {number}"
        );
    }
    for (place, number) in [(2, 3), (2, -1), (3, 2), (3, i64::MIN)] {
        let mut lines = lines;
        lines[place] = number;
        assert_eq!(
            Statement::of_numbers(&lines, &sums),
            None,
            "{place}: {number}"
        );
    }
}
