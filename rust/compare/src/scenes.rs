//! What a generated file is about. Each scene aims at one part of the rules;
//! the seed of a file picks its scene, so that a few dozen neighbouring seeds
//! meet them all.

use crate::entry::{bytes, Contract, Entry};
use crate::month::{self, Month, LEAST_DAYS, MARCH, OCTOBER};
use crate::plan::{self, Plan, Size, Style};
use crate::random::Random;

/// For whom a file is made.
#[derive(Clone, Copy, PartialEq, Eq, Debug)]
pub struct Target {
    /// The longest month that is likely to fit.
    pub days: i64,
    /// Whether most files are to be of that length; else most are short.
    pub whole: bool,
}

impl Target {
    /// A day or two are enough for what the scene is about.
    const ONE_DAY: Target = Target {
        days: 1,
        whole: false,
    };

    /// The days that a scene has drawn, or nearly always all of them.
    fn days(self, random: &mut Random, drawn: i64) -> i64 {
        if self.whole && !random.once_in(8) {
            return self.days;
        }
        drawn
    }
}

const SCENE_COUNT: usize = 56;
/// How often `each_end` stands among the scenes, evenly spread.
const EACH_END: u64 = 4;
type Scene = fn(&mut Random, Target) -> Vec<u8>;

const SCENES: [Scene; SCENE_COUNT] = [
    each_end,
    settled,
    settled,
    settled,
    settled,
    excluding,
    excluding,
    ramps_at_edges,
    faults,
    faults,
    range_ends,
    full_day,
    fullest,
    dated,
    each_end,
    long,
    nothing_much,
    after_close,
    missing_reading,
    outside_range,
    outside_range,
    outside_range,
    faults,
    slow_ramp,
    crooked_window,
    dated,
    dated_late,
    dated_wrong,
    each_end,
    before_contract,
    second_contract,
    too_long,
    after_span,
    rejected_committed,
    overlapping_windows,
    early_cease,
    early_issue,
    outside_windows,
    read_twice,
    dated,
    dated_ends,
    dated_fullest,
    each_end,
    revised_late,
    revised_often,
    full_tables,
    full_tables,
    left_open,
    strange_byte,
    cut_short,
    corrupted,
    soup,
    careless,
    dated_late,
    dated_wrong,
    dated_ends,
];

/// The scenes of files that are watched: nearly all are taken, and most have
/// active minutes.
const WATCHED: [Scene; 16] = [
    dated,
    dated_last,
    settled,
    settled,
    settled,
    excluding,
    excluding,
    ramps_at_edges,
    ramps_at_edges,
    range_ends,
    full_day,
    slow_ramp,
    fullest_days,
    left_open,
    missing_reading,
    nothing_much,
];

/// The scenes of files of which days are asked: most have a date and are taken.
const DAYS: [Scene; 9] = [
    dated,
    dated,
    dated,
    dated,
    dated,
    nothing_much,
    settled,
    dated_late,
    dated_wrong,
];

/// The file of a seed.
pub fn file(seed: u64, target: Target) -> Vec<u8> {
    of_scenes(&SCENES, seed, target)
}

/// The file of a seed that is to be watched.
pub fn watched(seed: u64, target: Target) -> Vec<u8> {
    of_scenes(&WATCHED, seed, target)
}

/// The file of a seed of which a day is to be asked.
pub fn with_days(seed: u64, target: Target) -> Vec<u8> {
    of_scenes(&DAYS, seed, target)
}

fn of_scenes(scenes: &[Scene], seed: u64, target: Target) -> Vec<u8> {
    let mut random = Random::new(seed);
    let scene = scenes[(seed % scenes.len() as u64) as usize];
    scene(&mut random, target)
}

fn small_size(random: &mut Random, target: Target) -> Size {
    let mut size = plan::small(random, target.days);
    size.days = target.days(random, size.days);
    size
}

fn small_plan(random: &mut Random, target: Target) -> Plan {
    let size = small_size(random, target);
    plan::draw(random, size)
}

/// A plan that has windows and instructions.
fn busy_plan(random: &mut Random, target: Target) -> Plan {
    let mut size = small_size(random, target);
    size.windows = random.between(1, 6);
    size.instructions = random.between(1, 3);
    let mut plan = plan::draw(random, size);
    while plan.instructions.is_empty() {
        plan = plan::draw(random, size);
    }
    plan
}

/// One entry put where it disturbs: `after` says how many must come before.
fn disturbed(random: &mut Random, plan: &Plan, after: usize, entry: Entry) -> Vec<u8> {
    let mut entries = plan.entries(random);
    let last = entries.len() - 1;
    let at = random.between(after.min(last) as i64, last as i64) as usize;
    entries.insert(at, entry);
    bytes(&entries)
}

fn settled(random: &mut Random, target: Target) -> Vec<u8> {
    let plan = small_plan(random, target);
    bytes(&plan.entries(random))
}

/// Recovery at least 1 and windows behind each instruction's end.
fn excluding(random: &mut Random, target: Target) -> Vec<u8> {
    let drawn = random.between(1, 2.min(target.days));
    let days = target.days(random, drawn);
    let mut contract = plan::contract(random, days);
    contract.recovery = random.pick(&[1, 10, 30, 60, 89, 120]);
    let size = Size {
        days,
        windows: random.between(4, 16),
        instructions: random.between(1, 4),
        defaults: random.between(0, 4),
    };
    let plan = plan::draw_for(random, contract, size);
    bytes(&plan.entries(random))
}

/// Long ramps that cross periods and the edges of windows.
fn ramps_at_edges(random: &mut Random, _: Target) -> Vec<u8> {
    let mut contract = plan::contract(random, 1);
    let up = random.between(20, 60);
    let down = random.between(20, 60);
    contract.kw = 12_000;
    contract.ramp_up = (12_000 + up - 1) / up;
    contract.ramp_down = (12_000 + down - 1) / down;
    contract.response = contract.up() + random.pick(&[0, 0, 7]);
    contract.utilisation = 30_000;
    contract.optional = 55_000;
    let size = Size {
        days: 1,
        windows: random.between(2, 10),
        instructions: random.between(1, 4),
        defaults: 0,
    };
    let plan = plan::draw_for(random, contract, size);
    bytes(&plan.entries(random))
}

/// Many windows and many defaults, so that P is met below, at and above 30.
fn faults(random: &mut Random, target: Target) -> Vec<u8> {
    let drawn = random.between(2, target.days.min(4));
    let days = target.days(random, drawn);
    let mut size = Size {
        days,
        windows: random.between(28, 60),
        instructions: random.between(0, 2),
        defaults: random.between(0, 30),
    };
    let mut contract = plan::contract(random, days);
    contract.availability = random.pick(&[900, 901, 1_000, 1_000_000]);
    if random.once_in(2) {
        size.defaults = 0;
        // No instruction, so that no window of a committed unit is left out.
        contract.service = 0;
        size.instructions = random.pick(&[0, 0, 1]);
    }
    let mut plan = plan::draw_for(random, contract, size);
    if size.defaults == 0 {
        // One in each of about thirty windows, most of them of a kind that counts.
        let most = random.pick(&[29, 30, 30, 31, 32, 60]);
        for window in plan.windows.clone().into_iter().take(most) {
            let mut default = plan::default_in(random, window);
            if default.1 == 4 && !random.once_in(20) {
                default.1 = 1;
            }
            if !random.once_in(5) {
                default.2 = 1;
            }
            plan.defaults.push(default);
        }
    }
    bytes(&plan.entries(random))
}

/// Everything at an end of its range, as far as it can be taken together.
fn range_ends(random: &mut Random, target: Target) -> Vec<u8> {
    let kw = random.pick(&[3_000, 500_000]);
    let response = random.pick(&[1, 240, 240]);
    let ramp_up = if response == 1 || random.once_in(2) {
        random.pick(&[500_000, kw])
    } else {
        (kw + 239) / 240
    };
    let ramp_down = random.pick(&[500_000, (kw + 239) / 240]);
    let days = random.pick(&[1, 1, 1, target.days, 31]);
    let contract = Contract {
        days,
        kind: random.between(0, 1),
        service: random.between(0, 1),
        kw,
        ramp_up,
        ramp_down,
        response,
        recovery: random.pick(&[0, 0, 1_200]),
        availability: random.pick(&[0, 1_000_000]),
        utilisation: random.pick(&[0, 1_000_000]),
        optional: random.pick(&[0, 1_000_000]),
    };
    let date = month::for_plan(random, days);
    let span = contract.span() + date.map_or(0, Month::change);
    let mut plan = Plan {
        contract,
        date,
        windows: vec![(0, 30, 0), (span - 30, span, 0)],
        instructions: vec![(3, 3 + response + random.pick(&[0, 1, 60]))],
        defaults: vec![(0, 1, 1), (span - 1, 4, 3)],
        readings: Vec::new(),
        revised: random.pick(&[0, 0, 2]),
    };
    let last_issue = span - contract.down() - response;
    if last_issue > 3 + response + 60 + contract.down() + contract.recovery && random.once_in(2) {
        plan.instructions.push((last_issue, last_issue + response));
    }
    let needed = plan.needed();
    plan.read(random, Style::Ends, &needed);
    if !needed.contains(&(span - 1)) {
        plan.read(random, Style::Ends, &[span - 1]);
    }
    let mut entries = plan.entries(random);
    if random.once_in(3) {
        let last = entries.len() - 1;
        let beyond = [
            Entry::Instruction(44_700, 44_700),
            Entry::Instruction(3, 0),
            Entry::Window(0, 44_700, 0),
            Entry::Window(44_670, 44_700, 1),
            Entry::Default(44_700, 4, 3),
            Entry::Reading(44_700, 0),
            Entry::Revision(44_700, 255, 0),
        ];
        let chosen = random.between(0, beyond.len() as i64 - 1) as usize;
        entries.insert(last, beyond[chosen].clone());
    }
    bytes(&entries)
}

/// A reading in every minute of a day or two, or of a whole month.
fn full_day(random: &mut Random, target: Target) -> Vec<u8> {
    let mut plan = small_plan(random, Target::ONE_DAY);
    let drawn = random.between(1, 2.min(target.days));
    plan.contract.days = target.days(random, drawn);
    plan.date = month::for_plan(random, plan.contract.days);
    let style = random.pick(&[Style::Likely, Style::Wide, Style::Small]);
    plan.read_all(random, style);
    bytes(&plan.entries(random))
}

/// As many lines as the days can hold: instructions without a gap, of whose
/// stages none starts with a period. Often the other tables are full too.
fn fullest(random: &mut Random, target: Target) -> Vec<u8> {
    let drawn = if random.once_in(3) {
        target.days
    } else {
        random.between(1, 3.min(target.days))
    };
    let days = target.days(random, drawn);
    let date = month::for_plan(random, days);
    fullest_of(random, days, date)
}

fn fullest_of(random: &mut Random, days: i64, date: Option<Month>) -> Vec<u8> {
    let mut contract = plan::contract(random, days);
    contract.response = 1;
    contract.ramp_up = contract.kw;
    contract.ramp_down = contract.kw;
    contract.recovery = 0;
    let span = contract.span() + date.map_or(0, Month::change);
    let mut plan = Plan {
        contract,
        date,
        windows: Vec::new(),
        instructions: Vec::new(),
        defaults: Vec::new(),
        readings: Vec::new(),
        revised: random.pick(&[0, 0, 0, 1, 50]),
    };
    let mut issue = 3;
    for index in 1..=64 {
        let mut end = 3 + (span - 3) * index / 64;
        while index < 64 && [29, 0, 1].contains(&(end % 30)) {
            end += 1;
        }
        plan.instructions.push((issue, end - 1));
        issue = end;
    }
    let style = random.pick(&[Style::Wide, Style::Halves, Style::Likely]);
    let all: Vec<i64> = (0..span).collect();
    plan.read(random, style, &all);
    let every_table = random.once_in(2);
    let some = random.between(0, 128);
    let count = if every_table { 128 } else { some };
    for index in 0..count.min(span / 60) {
        let state = i64::from(plan.contract.service == 1 && random.once_in(5));
        plan.windows.push((60 * index, 60 * index + 30, state));
    }
    if every_table {
        for _ in 0..128 {
            let window = random.pick(&plan.windows);
            let default = plan::default_in(random, window);
            plan.defaults.push(default);
        }
    }
    bytes(&plan.entries(random))
}

/// The same with few days, for those that look at every minute.
fn fullest_days(random: &mut Random, _: Target) -> Vec<u8> {
    let few = Target {
        days: 3,
        whole: false,
    };
    fullest(random, few)
}

/// Many days with most tables well filled; every minute read only now and then.
fn long(random: &mut Random, target: Target) -> Vec<u8> {
    let days = random.between(target.days / 2, target.days).max(1);
    let size = Size {
        days,
        windows: random.between(20, 128),
        instructions: random.between(5, 64),
        defaults: random.between(0, 128),
    };
    let mut plan = plan::draw(random, size);
    if random.once_in(4) {
        plan.read_all(random, Style::Wide);
    }
    bytes(&plan.entries(random))
}

fn first_of(month: Month) -> Entry {
    Entry::Date(month.year, month.number, 1)
}

impl Target {
    /// Whether a month is likely to fit: else no date is ever taken.
    fn takes_dates(self) -> bool {
        self.days >= LEAST_DAYS
    }
}

/// A month to be dated: as many days as it has, where so many fit.
fn dated_days(random: &mut Random, target: Target, month: Month) -> i64 {
    match target.takes_dates() {
        true => month.days(),
        false => {
            let drawn = random.between(1, target.days);
            random.pick(&[drawn, target.days])
        }
    }
}

/// A plan with a date, and the month that is dated: any, or those of a year one
/// after the other as seeds rise.
fn dated_plan(random: &mut Random, target: Target) -> (Plan, Month) {
    let mut month = month::any(random);
    if !random.once_in(4) {
        month.number = 1 + random.turn(SCENE_COUNT as u64, 12) as i64;
    }
    let days = dated_days(random, target, month);
    let size = plan::small(random, 1);
    let size = Size {
        days,
        windows: random.pick(&[size.windows, size.windows, 60]),
        instructions: random.pick(&[size.instructions, size.instructions, 30]),
        ..size
    };
    let contract = plan::contract(random, days);
    let plan = plan::draw_month(random, contract, Some(month), size);
    (plan, month)
}

/// A month with a date, now and then read in every minute.
fn dated(random: &mut Random, target: Target) -> Vec<u8> {
    if !target.takes_dates() && !random.once_in(4) {
        return settled(random, target);
    }
    let (mut plan, _) = dated_plan(random, target);
    if target.whole && random.once_in(6) {
        plan.read_all(random, Style::Small);
    }
    bytes(&plan.entries(random))
}

/// The fullest months: an October has the most lines of all.
fn dated_fullest(random: &mut Random, target: Target) -> Vec<u8> {
    if !target.takes_dates() {
        return fullest(random, target);
    }
    let other = month::any(random);
    let october = Month {
        number: OCTOBER,
        ..other
    };
    let month = random.pick(&[october, october, other]);
    let days = dated_days(random, target, month);
    fullest_of(random, days, Some(month))
}

/// A March or an October with entries up to its last minute.
fn to_the_end(random: &mut Random, target: Target) -> Plan {
    let (mut plan, month) = dated_plan(random, target);
    let number = [MARCH, OCTOBER][random.turn(SCENE_COUNT as u64, 2)];
    if target.takes_dates() {
        plan.contract.days = 31;
        plan.date = Some(Month { number, ..month });
    }
    let span = plan.span();
    plan.windows.truncate(2);
    plan.windows.retain(|window| window.1 <= span - 30);
    plan.windows.push((span - 30, span, 0));
    plan.defaults = vec![(span - 1, random.between(1, 4), 1)];
    plan.instructions.truncate(1);
    let c = plan.contract;
    let cease = span - c.down();
    let issue = cease - c.response;
    let ready = |last: &(i64, i64)| last.1 + c.down() + c.recovery;
    plan.instructions.retain(|first| ready(first) <= issue);
    plan.instructions.push((issue, cease));
    plan.readings.clear();
    let needed = plan.needed();
    plan.read(random, Style::Likely, &needed);
    plan
}

/// The same, and often an entry just beyond the end, or where the month would end
/// without a date.
fn dated_ends(random: &mut Random, target: Target) -> Vec<u8> {
    if !target.takes_dates() {
        return range_ends(random, target);
    }
    let plan = to_the_end(random, target);
    let (span, undated) = (plan.span(), plan.contract.span());
    let number = random.between(1, 255);
    let beyond = match random.turn(2 * SCENE_COUNT as u64, 6) {
        0 => Some(Entry::Window(span, span + 30, 0)),
        1 => Some(Entry::Default(span, 1, 1)),
        2 => Some(Entry::Reading(span, 7)),
        3 => Some(Entry::Reading(undated - 1, 7)),
        4 => Some(Entry::Revision(span.max(undated - 1), number, 7)),
        _ => None,
    };
    let mut entries = plan.entries(random);
    let last = entries.len() - 1;
    entries.splice(last..last, beyond);
    bytes(&entries)
}

fn dated_last(random: &mut Random, target: Target) -> Vec<u8> {
    let plan = to_the_end(random, target);
    bytes(&plan.entries(random))
}

/// A date behind something that it has to come before, or just may.
fn dated_late(random: &mut Random, target: Target) -> Vec<u8> {
    let (mut plan, month) = dated_plan(random, target);
    plan.date = None;
    let other = month::any(random);
    let last = plan.contract.span() - 1;
    let minute = random.between(0, last);
    let before = match random.turn(SCENE_COUNT as u64, 8) {
        0 => Some(first_of(month)),
        1 => Some(first_of(other)),
        2 => Some(Entry::Window(0, 30, 0)),
        3 => Some(Entry::Instruction(3, 3 + plan.contract.response)),
        4 => Some(Entry::Reading(minute, 0)),
        5 => Some(Entry::Reading(last, 0)),
        6 => Some(Entry::Revision(last, 9, 0)),
        _ => None,
    };
    let mut entries = plan.entries(random);
    let date = first_of(random.pick(&[month, month, other]));
    entries.splice(1..1, before.into_iter().chain([date]));
    bytes(&entries)
}

/// A date that is no day, not the first, or of a month of other days: in the place
/// of the right one, or beside it.
fn dated_wrong(random: &mut Random, target: Target) -> Vec<u8> {
    let (mut plan, month) = dated_plan(random, target);
    let Month { year, number } = month;
    let date = match random.turn(SCENE_COUNT as u64, 8) {
        0 => Entry::Date(random.pick(&[0, 2_006, 2_100, 65_535]), number, 1),
        1 => Entry::Date(year, random.pick(&[0, 13, 255]), 1),
        2 => Entry::Date(year, number, random.pick(&[0, month.days() + 1, 255])),
        3 => Entry::Date(2_023, 2, 29),
        4 => Entry::Date(year, number, random.pick(&[2, month.days()])),
        5 => Entry::Date(year + 1, number, 1),
        6 => Entry::Date(year, number % 12 + 1, 1),
        _ => {
            plan.contract.days = (plan.contract.days - random.between(0, 3)).max(1);
            first_of(month)
        }
    };
    let mut entries = plan.entries(random);
    if random.once_in(4) {
        let at = random.between(0, 2) as usize;
        entries.insert(at, date);
    } else {
        entries[1] = date;
    }
    bytes(&entries)
}

fn nothing_much(random: &mut Random, target: Target) -> Vec<u8> {
    let days = random.between(1, target.days);
    let contract = Entry::Contract(plan::contract(random, days));
    match random.turn(SCENE_COUNT as u64, 5) {
        0 => Vec::new(),
        1 => bytes(&[contract]),
        2 => bytes(&[contract, Entry::Close]),
        3 => bytes(&[contract, Entry::Window(0, 30, 0), Entry::Close]),
        _ => vec![random.between(0, 255) as u8],
    }
}

/// Something that is in order in itself.
fn any_entry(random: &mut Random) -> Entry {
    match random.between(0, 7) {
        0 => Entry::Contract(plan::contract(random, 1)),
        1 => Entry::Window(0, 30, 0),
        7 => first_of(month::any(random)),
        2 => Entry::Instruction(3, 300),
        3 => Entry::Default(0, 1, 1),
        4 => Entry::Reading(random.between(0, 1_439), 0),
        5 => Entry::Revision(random.between(0, 1_439), random.pick(&[1, 255]), 0),
        _ => Entry::Close,
    }
}

/// Commands, good and bad ones, and other bytes behind the close.
fn after_close(random: &mut Random, target: Target) -> Vec<u8> {
    let plan = small_plan(random, target);
    let mut entries = plan.entries(random);
    entries.push(match random.between(0, 6) {
        0 => Entry::Raw(vec![random.between(0, 255) as u8]),
        1 => Entry::Window(60, 30, 0),
        2 => bad_operand(random),
        3 => Entry::Raw(vec![b'M', 0, 1]),
        _ => any_entry(random),
    });
    bytes(&entries)
}

/// A field just beyond an end of its range, or far beyond.
fn bad_operand(random: &mut Random) -> Entry {
    let mut c = plan::contract(random, 1);
    match random.between(0, 24) {
        0 => c.days = random.pick(&[0, 32, 255]),
        1 => c.kind = random.pick(&[2, 255]),
        2 => c.service = random.pick(&[2, 255]),
        3 => c.kw = random.pick(&[2_999, 500_001, 0, 0xFFFF_FFFF]),
        4 => c.ramp_up = random.pick(&[0, 500_001, 0x8000_0000]),
        5 => c.ramp_down = random.pick(&[0, 500_001, 0x8000_0000]),
        6 => c.response = random.pick(&[0, 241, 65_535]),
        7 => c.recovery = random.pick(&[1_201, 65_535]),
        8 => c.availability = random.pick(&[1_000_001, 0xFFFF_FFFF]),
        9 => c.utilisation = random.pick(&[1_000_001, 0xFFFF_FFFF]),
        10 => c.optional = random.pick(&[1_000_001, 0xFFFF_FFFF]),
        11 => return Entry::Window(random.pick(&[44_701, 65_535]), 30, 0),
        12 => return Entry::Window(0, random.pick(&[44_701, 65_535]), 0),
        13 => return Entry::Window(0, 30, random.pick(&[2, 255])),
        14 => return Entry::Instruction(random.pick(&[0, 1, 2, 44_701, 65_535]), 300),
        15 => return Entry::Instruction(3, random.pick(&[44_701, 65_535])),
        16 => return Entry::Default(random.pick(&[44_701, 65_535]), 1, 1),
        17 => return Entry::Default(0, random.pick(&[0, 5, 255]), 1),
        18 => return Entry::Default(0, 1, random.pick(&[0, 4, 255])),
        19 => return Entry::Reading(random.pick(&[44_701, 65_535]), 0),
        20 => return Entry::Revision(random.pick(&[44_701, 65_535]), 1, 0),
        21 => return Entry::Revision(0, 0, random.pick(&[0, 500_001])),
        22 => return Entry::Revision(0, 255, bad_kw(random)),
        _ => return Entry::Reading(0, bad_kw(random)),
    }
    Entry::Contract(c)
}

fn bad_kw(random: &mut Random) -> i64 {
    random.pick(&[-500_001, 500_001, i64::from(i32::MIN), i64::from(i32::MAX)])
}

/// The ends of an operand's range and the numbers just beyond them, one after
/// the other as seeds rise.
fn each_end(random: &mut Random, target: Target) -> Vec<u8> {
    let plan = small_plan(random, target);
    let ends = range_ends_of(plan::contract(random, 1));
    let entry = ends[random.turn(SCENE_COUNT as u64 / EACH_END, ends.len())].clone();
    let after = usize::from(!matches!(entry, Entry::Contract(_)));
    disturbed(random, &plan, after, entry)
}

/// A command for each end of each range, and for each number just beyond one.
fn range_ends_of(c: Contract) -> Vec<Entry> {
    let contract = |numbers: &[i64], changed: fn(Contract, i64) -> Contract| {
        let entry = |number: &i64| Entry::Contract(changed(c, *number));
        numbers.iter().map(entry).collect::<Vec<Entry>>()
    };
    let entries = |numbers: &[i64], entry: fn(i64) -> Entry| {
        let entry = |number: &i64| entry(*number);
        numbers.iter().map(entry).collect::<Vec<Entry>>()
    };
    let either = &[0, 1, 2];
    let ramp = &[0, 1, 500_000, 500_001];
    let rate = &[0, 1_000_000, 1_000_001];
    let minute = &[0, 44_700, 44_701];
    let kw = &[-500_001, -500_000, 500_000, 500_001];
    [
        contract(&[0, 1, 31, 32], |c, days| Contract { days, ..c }),
        contract(either, |c, kind| Contract { kind, ..c }),
        contract(either, |c, service| Contract { service, ..c }),
        contract(&[2_999, 3_000, 500_000, 500_001], |c, kw| Contract {
            kw,
            ..c
        }),
        contract(ramp, |c, ramp_up| Contract { ramp_up, ..c }),
        contract(ramp, |c, ramp_down| Contract { ramp_down, ..c }),
        contract(&[0, 1, 240, 241], |c, response| Contract { response, ..c }),
        contract(&[0, 1_200, 1_201], |c, recovery| Contract { recovery, ..c }),
        contract(rate, |c, availability| Contract { availability, ..c }),
        contract(rate, |c, utilisation| Contract { utilisation, ..c }),
        contract(rate, |c, optional| Contract { optional, ..c }),
        entries(&[2_006, 2_007, 2_099, 2_100], |year| {
            Entry::Date(year, 1, 1)
        }),
        entries(&[0, 1, 12, 13], |month| Entry::Date(2_024, month, 1)),
        entries(&[0, 1, 31, 32], |day| Entry::Date(2_024, 3, day)),
        entries(&[30, 31], |day| Entry::Date(2_024, 4, day)),
        entries(&[28, 29], |day| Entry::Date(2_023, 2, day)),
        entries(&[29, 30], |day| Entry::Date(2_024, 2, day)),
        entries(minute, |start| Entry::Window(start, 30, 0)),
        entries(minute, |end| Entry::Window(0, end, 0)),
        entries(either, |state| Entry::Window(0, 30, state)),
        entries(&[2, 3, 44_700, 44_701], |issue| {
            Entry::Instruction(issue, 300)
        }),
        entries(minute, |cease| Entry::Instruction(3, cease)),
        entries(minute, |minute| Entry::Default(minute, 1, 1)),
        entries(&[0, 1, 4, 5], |kind| Entry::Default(0, kind, 1)),
        entries(&[0, 1, 3, 4], |reach| Entry::Default(0, 1, reach)),
        entries(minute, |minute| Entry::Reading(minute, 0)),
        entries(kw, |kw| Entry::Reading(0, kw)),
        entries(minute, |minute| Entry::Revision(minute, 255, 0)),
        entries(&[0, 1, 255], |number| Entry::Revision(0, number, 0)),
        entries(kw, |kw| Entry::Revision(0, 255, kw)),
    ]
    .concat()
}

fn outside_range(random: &mut Random, target: Target) -> Vec<u8> {
    let plan = small_plan(random, target);
    let bad = bad_operand(random);
    disturbed(random, &plan, 0, bad)
}

/// Ramps of just as many minutes as are allowed, and of one more.
fn slow_ramp(random: &mut Random, target: Target) -> Vec<u8> {
    let mut c = plan::contract(random, 1);
    let ramp = random.between(13, 2_000);
    match random.between(0, 5) {
        0 => {
            c.response = random.between(2, 239);
            c.kw = 500_000;
            c.ramp_up = 500_000 / (c.response + 1);
        }
        1 => {
            c.ramp_down = ramp;
            c.kw = 240 * ramp;
            c.ramp_up = c.kw;
        }
        2 => {
            c.ramp_down = ramp;
            c.kw = 240 * ramp + random.between(1, ramp);
            c.ramp_up = c.kw;
        }
        3 => {
            c.response = random.between(4, 240);
            c.kw = c.response * 750;
            c.ramp_up = 750;
            c.ramp_down = c.kw;
        }
        4 => c.ramp_up = 1,
        _ => c.ramp_down = 1,
    }
    let size = plan::small(random, 1);
    let plan = if c.up() <= c.response && c.down() <= 240 {
        plan::draw_for(random, c, Size { days: 1, ..size })
    } else {
        let plan = small_plan(random, target);
        if random.once_in(2) {
            return disturbed(random, &plan, 0, Entry::Contract(c));
        }
        Plan {
            contract: c,
            date: None,
            ..plan
        }
    };
    bytes(&plan.entries(random))
}

fn crooked_window(random: &mut Random, target: Target) -> Vec<u8> {
    let plan = small_plan(random, target);
    let crooked = random.pick(&[
        (30, 30),
        (60, 30),
        (1, 30),
        (29, 60),
        (31, 60),
        (0, 29),
        (0, 31),
        (0, 1),
        (15, 45),
        (44_700, 44_700),
        (44_699, 44_700),
        (44_700, 0),
    ]);
    let entry = Entry::Window(crooked.0, crooked.1, random.between(0, 1));
    disturbed(random, &plan, 0, entry)
}

fn before_contract(random: &mut Random, target: Target) -> Vec<u8> {
    let plan = small_plan(random, target);
    let mut entries = plan.entries(random);
    let early = match any_entry(random) {
        Entry::Contract(_) => Entry::Close,
        other => other,
    };
    entries.insert(0, early);
    bytes(&entries)
}

fn second_contract(random: &mut Random, target: Target) -> Vec<u8> {
    let plan = small_plan(random, target);
    let days = random.pick(&[1, 31, plan.contract.days]);
    let again = Entry::Contract(plan::contract(random, days));
    disturbed(random, &plan, 1, again)
}

/// More days than the lister's memory; the longest that fits besides.
fn too_long(random: &mut Random, _: Target) -> Vec<u8> {
    let mut plan = small_plan(random, Target::ONE_DAY);
    plan.contract.days = random.pick(&[11, 12, 12, 13, 31]);
    bytes(&plan.entries(random))
}

fn after_span(random: &mut Random, target: Target) -> Vec<u8> {
    let plan = small_plan(random, target);
    let c = plan.contract;
    let span = plan.span();
    let entry = match random.between(0, 4) {
        0 => Entry::Window(span - 30, span + 30, random.between(0, 1)),
        1 => {
            // The end is one minute too far, or the cease is too early besides.
            let cease = span - c.down() + 1;
            let issue = (cease - random.pick(&[c.response, c.response - 1, 0])).max(3);
            Entry::Instruction(issue, cease)
        }
        2 => Entry::Default(span + random.pick(&[0, 0, 1]), 1, 1),
        3 => Entry::Revision(span + random.pick(&[0, 0, 1]), random.between(1, 255), 0),
        _ => Entry::Reading(span + random.pick(&[0, 0, 1]), 0),
    };
    disturbed(random, &plan, plan.head(), entry)
}

fn rejected_committed(random: &mut Random, target: Target) -> Vec<u8> {
    let mut plan = busy_plan(random, target);
    plan.contract.service = 0;
    // The rejected one may also overlap: 17 comes before 18.
    if let Some(window) = plan.windows.last_mut() {
        window.2 = 1;
    }
    bytes(&plan.entries(random))
}

fn overlapping_windows(random: &mut Random, target: Target) -> Vec<u8> {
    let mut plan = busy_plan(random, target);
    let place = random.between(0, plan.windows.len() as i64 - 1) as usize;
    let (start, end, _) = plan.windows[place];
    let back = random.pick(&[30, end - start]);
    plan.windows.insert(place + 1, (end - back, end, 0));
    bytes(&plan.entries(random))
}

fn early_cease(random: &mut Random, target: Target) -> Vec<u8> {
    let mut plan = busy_plan(random, target);
    let place = random.between(0, plan.instructions.len() as i64 - 1) as usize;
    let e = plan.instructions[place].0 + plan.contract.response;
    plan.instructions[place].1 = random.pick(&[e, e - 1, e - 1, e - 1, 0]);
    bytes(&plan.entries(random))
}

fn early_issue(random: &mut Random, target: Target) -> Vec<u8> {
    let mut plan = busy_plan(random, target);
    let c = plan.contract;
    let place = random.between(0, plan.instructions.len() as i64 - 1) as usize;
    let ready = plan.instructions[place].1 + c.down() + c.recovery;
    let issue = (ready - random.pick(&[0, 1, 1, c.recovery])).max(3);
    plan.instructions
        .insert(place + 1, (issue, issue + c.response));
    let needed = plan.needed();
    plan.readings.clear();
    plan.read(random, Style::Small, &needed);
    bytes(&plan.entries(random))
}

/// A default at the end of a window, or in none that has been entered yet.
fn outside_windows(random: &mut Random, target: Target) -> Vec<u8> {
    let mut plan = busy_plan(random, target);
    if random.once_in(2) {
        let window = random.pick(&plan.windows);
        plan.defaults.push((window.1.min(plan.span() - 1), 1, 1));
        return bytes(&plan.entries(random));
    }
    let minute = random.pick(&plan.windows).0;
    disturbed(random, &plan, 1, Entry::Default(minute, 2, 2))
}

fn read_twice(random: &mut Random, target: Target) -> Vec<u8> {
    let mut plan = busy_plan(random, target);
    let (minute, kw) = random.pick(&plan.readings);
    let again = random.pick(&[kw, 0]);
    plan.readings.push((minute, again));
    bytes(&plan.entries(random))
}

/// Behind a reading that was revised, one that is not above it, one that just
/// is, or a plain one.
fn revised_late(random: &mut Random, target: Target) -> Vec<u8> {
    let mut plan = busy_plan(random, target);
    plan.revised = random.pick(&[1, 2]);
    let mut entries = plan.entries(random);
    let revisions: Vec<(i64, i64)> = entries
        .iter()
        .filter_map(|entry| match entry {
            Entry::Revision(minute, number, _) => Some((*minute, *number)),
            _ => None,
        })
        .collect();
    if !revisions.is_empty() {
        let (minute, number) = random.pick(&revisions);
        let below = random.between(1, number);
        let last = entries.len() - 1;
        let late = match random.between(0, 5) {
            0 => Entry::Reading(minute, 7),
            1 => Entry::Revision(minute, (number + 1).min(255), 7),
            2 => Entry::Revision(minute, below, 7),
            _ => Entry::Revision(minute, number, 7),
        };
        entries.insert(last, late);
    }
    bytes(&entries)
}

/// Minutes that are read and then revised as often as can be, once more now
/// and then: such a file can be longer than any without revisions.
fn revised_often(random: &mut Random, target: Target) -> Vec<u8> {
    let plan = small_plan(random, target);
    let mut entries = plan.entries(random);
    let mut often = Vec::new();
    let known = |minute: &i64| plan.readings.iter().any(|reading| reading.0 == *minute);
    let most = random.pick(&[1, 2, 70]);
    for minute in (0..plan.span()).filter(|minute| !known(minute)).take(most) {
        often.push(Entry::Reading(minute, minute));
        often.extend((1..=255).map(|number| Entry::Revision(minute, number, number - minute)));
    }
    if random.once_in(3) && !often.is_empty() {
        let again = random.between(0, often.len() as i64 - 1) as usize;
        often.push(often[again].clone());
    }
    let last = entries.len() - 1;
    entries.splice(last..last, often);
    bytes(&entries)
}

/// Tables that are just full, and one more in them.
fn full_tables(random: &mut Random, target: Target) -> Vec<u8> {
    let days = random.between(3, target.days.max(3));
    let mut contract = plan::contract(random, days);
    contract.response = contract.response.min(10);
    contract.ramp_up = contract.kw;
    contract.ramp_down = contract.kw;
    contract.recovery = random.pick(&[0, 1, 30]);
    let mut plan = Plan {
        contract,
        date: month::for_plan(random, days),
        windows: Vec::new(),
        instructions: Vec::new(),
        defaults: Vec::new(),
        readings: Vec::new(),
        revised: random.pick(&[0, 0, 3]),
    };
    let over = random.between(0, 4);
    let windows = random.pick(&[3, 127, 128]) + i64::from(over == 1);
    let instructions = random.pick(&[1, 63, 64]) + i64::from(over == 2);
    let defaults = random.pick(&[2, 127, 128]) + i64::from(over == 3);
    let (windows, instructions, defaults) = match over {
        1 => (129, instructions, defaults),
        2 => (windows, 65, defaults),
        3 => (windows, instructions, 129),
        _ => (windows, instructions, defaults),
    };
    for index in 0..windows {
        let state = i64::from(contract.service == 1 && random.once_in(3));
        plan.windows.push((30 * index, 30 * index + 30, state));
    }
    let step = plan.span() / 66;
    for index in 0..instructions {
        let issue = 3 + step * index;
        plan.instructions
            .push((issue, issue + contract.response + random.between(0, 2)));
    }
    for _ in 0..defaults {
        let window = random.pick(&plan.windows);
        let default = plan::default_in(random, window);
        plan.defaults.push(default);
    }
    let needed = plan.needed();
    plan.read(random, Style::Wide, &needed);
    let mut entries = plan.entries(random);
    if random.once_in(3) {
        // Wrong in another way too, which comes before 23.
        let last = entries.len() - 1;
        entries.insert(last, Entry::Window(0, 30, 0));
    }
    bytes(&entries)
}

fn left_open(random: &mut Random, target: Target) -> Vec<u8> {
    let mut plan = small_plan(random, target);
    if random.once_in(3) {
        // Open comes before missing readings.
        plan.readings.clear();
    }
    let mut entries = plan.entries(random);
    entries.pop();
    bytes(&entries)
}

fn missing_reading(random: &mut Random, target: Target) -> Vec<u8> {
    let mut plan = busy_plan(random, target);
    let needed = plan.needed();
    let (issue, cease) = random.pick(&plan.instructions);
    let c = plan.contract;
    let any = random.pick(&needed);
    let e = issue + c.response;
    // Edges of the needed minutes on both sides; outside nothing is missed.
    let minute = random.pick(&[
        any,
        any,
        issue - 4,
        issue - 3,
        issue,
        issue + 1,
        e - c.up() - 1,
        e - c.up(),
        e - 1,
        e,
        cease - 1,
        cease,
        cease + c.down() - 1,
        cease + c.down(),
    ]);
    plan.readings.retain(|reading| reading.0 != minute);
    bytes(&plan.entries(random))
}

/// A byte that starts no command.
fn strange_byte(random: &mut Random, target: Target) -> Vec<u8> {
    let plan = small_plan(random, target);
    let any = random.between(0, 255) as u8;
    // Neighbours of command bytes and their small letters are likely slips.
    let byte = random.pick(&[0, 0xFF, b'B', b'E', b'L', b'Q', b'S', b'c', b'm', b'r', any]);
    disturbed(random, &plan, 0, Entry::Raw(vec![byte]))
}

/// A file to be damaged.
fn whole_file(random: &mut Random, target: Target) -> Vec<u8> {
    if target.whole && random.once_in(3) {
        return fullest(random, target);
    }
    settled(random, target)
}

fn cut_short(random: &mut Random, target: Target) -> Vec<u8> {
    let mut file = whole_file(random, target);
    let length = random.between(0, file.len() as i64 - 1) as usize;
    file.truncate(length);
    file
}

fn corrupted(random: &mut Random, target: Target) -> Vec<u8> {
    let mut file = whole_file(random, target);
    for _ in 0..random.between(1, 3) {
        if file.is_empty() {
            break;
        }
        let at = random.between(0, file.len() as i64 - 1) as usize;
        let near = random.between(0, 40.min(file.len() as i64 - 1)) as usize;
        let at = random.pick(&[at, near]);
        match random.between(0, 3) {
            0 => file[at] = random.between(0, 255) as u8,
            1 => file[at] ^= 1 << random.between(0, 7),
            2 => {
                file.remove(at);
            }
            _ => file.insert(at, random.between(0, 255) as u8),
        }
    }
    file
}

/// Bytes without a plan, command bytes among them.
fn soup(random: &mut Random, _: Target) -> Vec<u8> {
    let length = random.between(1, 120);
    let mut file = Vec::new();
    if random.once_in(2) {
        Entry::Contract(plan::contract(random, 1)).put(&mut file);
    }
    for _ in 0..length {
        let any = random.between(0, 255) as u8;
        let command = random.pick(b"CTWIDMRZ");
        file.push(random.pick(&[0, any, command, command]));
    }
    file
}

/// Commands drawn without a look at one another, from a few values each.
fn careless(random: &mut Random, _: Target) -> Vec<u8> {
    let mut entries = vec![Entry::Contract(plan::contract(random, 1))];
    for _ in 0..random.between(1, 12) {
        let start = 30 * random.between(0, 48);
        let minute = random.pick(&[0, 3, 29, 30, 60, 61, 1_439, 1_440]);
        entries.push(match random.between(0, 11) {
            0..=2 => Entry::Window(start, start + 30 * random.between(0, 3), 0),
            3..=4 => Entry::Instruction(minute, minute + random.between(0, 300)),
            5..=6 => Entry::Default(minute, random.between(1, 4), random.between(1, 3)),
            7..=8 => Entry::Reading(minute, random.between(-9, 9)),
            9..=10 => Entry::Revision(minute, random.between(1, 3), random.between(-9, 9)),
            _ => any_entry(random),
        });
    }
    entries.push(Entry::Close);
    bytes(&entries)
}
