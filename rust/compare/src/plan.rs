//! A month that a book takes and settles, drawn so that the edges of the rules
//! are met often.

use crate::entry::{Contract, Entry};
use crate::month::{self, Month};
use crate::random::Random;

#[derive(Clone, Debug)]
pub struct Plan {
    pub contract: Contract,
    /// Of which it is the first day's, if it has one.
    pub date: Option<Month>,
    /// Start, end, state.
    pub windows: Vec<(i64, i64, i64)>,
    /// Issue, cease.
    pub instructions: Vec<(i64, i64)>,
    /// Minute, kind, reach.
    pub defaults: Vec<(i64, i64, i64)>,
    /// Minute, kW; at most one for a minute.
    pub readings: Vec<(i64, i64)>,
    /// One of so many readings is revised; of 0, none.
    pub revised: i64,
}

/// How the readings are drawn.
#[derive(Clone, Copy, PartialEq, Eq, Debug)]
pub enum Style {
    /// What a unit does that follows its instruction, more or less.
    Likely,
    /// Small numbers, of which sums fall onto halves of a kWh.
    Halves,
    /// A few kW up and down.
    Small,
    /// Anything that a month to order may hold.
    Wide,
    /// The ends of the range.
    Ends,
}

const STYLES: [Style; 7] = [
    Style::Likely,
    Style::Likely,
    Style::Likely,
    Style::Halves,
    Style::Small,
    Style::Wide,
    Style::Ends,
];

/// How big a plan may become.
#[derive(Clone, Copy, Debug)]
pub struct Size {
    pub days: i64,
    pub windows: i64,
    pub instructions: i64,
    pub defaults: i64,
}

pub fn small(random: &mut Random, most_days: i64) -> Size {
    let days = if random.once_in(4) {
        random.between(1, most_days)
    } else {
        random.between(1, 2)
    };
    Size {
        days,
        windows: random.between(0, 8),
        instructions: random.between(0, 4),
        defaults: random.between(0, 6),
    }
}

pub fn contract(random: &mut Random, days: i64) -> Contract {
    let any_kw = random.between(3_000, 500_000);
    let usual_kw = random.between(3_000, 30_000);
    let sixty_kw = 60 * random.between(50, 400);
    let kw = random.pick(&[3_000, 500_000, 12_000, 12_000, any_kw, usual_kw, sixty_kw]);
    let any_response = random.between(1, 240);
    let response = random.pick(&[1, 2, 20, 20, 20, 40, 240, any_response]);
    let any_up = random.between(1, response);
    let up = random.pick(&[1, response, response, any_up, any_up]);
    let some_down = random.between(1, 40);
    let down = random.pick(&[1, 2, 6, 6, some_down, some_down, 240]);
    let any_recovery = random.between(0, 300);
    let recovery = random.pick(&[0, 0, 0, 1, 60, 60, 1_200, any_recovery, any_recovery]);
    Contract {
        days,
        kind: random.between(0, 1),
        service: random.between(0, 1),
        kw,
        ramp_up: ramp(random, kw, up),
        ramp_down: ramp(random, kw, down),
        response,
        recovery,
        availability: rate(random),
        utilisation: rate(random),
        optional: rate(random),
    }
}

/// A ramp that takes at most `minutes`, nearly always just as many.
fn ramp(random: &mut Random, kw: i64, minutes: i64) -> i64 {
    if minutes == 1 && random.once_in(3) {
        return 500_000;
    }
    (kw + minutes - 1) / minutes
}

fn rate(random: &mut Random) -> i64 {
    let any = random.between(0, 1_000_000);
    let usual = random.between(1, 60_000);
    random.pick(&[
        0, 1_000_000, 30, 250, 500, 900, 30_000, 55_000, usual, usual, any,
    ])
}

pub fn draw(random: &mut Random, size: Size) -> Plan {
    let contract = contract(random, size.days);
    draw_for(random, contract, size)
}

pub fn draw_for(random: &mut Random, contract: Contract, size: Size) -> Plan {
    let date = month::for_plan(random, contract.days);
    draw_month(random, contract, date, size)
}

/// The plan of a contract that has the days of its date, if there is one.
pub fn draw_month(
    random: &mut Random,
    contract: Contract,
    date: Option<Month>,
    size: Size,
) -> Plan {
    let span = contract.span() + date.map_or(0, Month::change);
    let windows = windows(random, &contract, span, size.windows);
    let instructions = instructions(random, &contract, span, &windows, size.instructions);
    let mut plan = Plan {
        contract,
        date,
        windows,
        instructions,
        defaults: Vec::new(),
        readings: Vec::new(),
        revised: random.pick(&[0, 0, 0, 1, 2, 10]),
    };
    for _ in 0..size.defaults {
        if plan.windows.is_empty() {
            break;
        }
        let window = random.between(0, plan.windows.len() as i64 - 1) as usize;
        let default = default_in(random, plan.windows[window]);
        plan.defaults.push(default);
    }
    let style = random.pick(&STYLES);
    let extra = random.between(0, 20);
    let needed = plan.needed();
    plan.read(random, style, &needed);
    plan.read_some_more(random, style, extra);
    plan
}

fn windows(random: &mut Random, contract: &Contract, span: i64, most: i64) -> Vec<(i64, i64, i64)> {
    let mut windows = Vec::new();
    let periods = span / 30;
    // Spread over the month now and then, else crowded at its beginning.
    let gap = random.pick(&[3, 8, periods / (most + 1)]).max(1);
    let mut at = if random.once_in(2) {
        0
    } else {
        random.between(0, gap)
    };
    for _ in 0..most {
        let longest = random.pick(&[1, 4, 12]);
        let length = random.between(1, longest);
        if at + length > periods {
            break;
        }
        let state = i64::from(contract.service == 1 && random.once_in(4));
        windows.push((30 * at, 30 * (at + length), state));
        at += length;
        if !random.once_in(3) {
            at += random.between(1, gap);
        }
    }
    windows
}

/// Issue and cease are drawn near the minutes at which some rule changes.
fn instructions(
    random: &mut Random,
    contract: &Contract,
    span: i64,
    windows: &[(i64, i64, i64)],
    most: i64,
) -> Vec<(i64, i64)> {
    let mut instructions: Vec<(i64, i64)> = Vec::new();
    let reach = contract.recovery + contract.response;
    // Spread over the month now and then, else as soon as can be.
    let gap = random.pick(&[0, 0, span / (most + 1)]);
    for _ in 0..most {
        let soonest = instructions
            .last()
            .map_or(3, |last| last.1 + contract.down() + contract.recovery);
        let ready = soonest + random.between(0, gap);
        let mut issue = ready + random.pick(&[0, 0, 1, 2, 5, 30, 100]);
        let mut lasting = random.pick(&[0, 0, 1, 2, 29, 30, 31, 60, 200]);
        if let Some((start, end)) = some_window(random, windows) {
            // The response expires at an edge of a window.
            let wanted = random.pick(&[start, start - 1, end, end - 1]) - contract.response;
            if wanted >= ready && wanted <= ready + 600 && random.once_in(2) {
                issue = wanted;
            }
        }
        let e = issue + contract.response;
        if let Some((start, end)) = some_window(random, windows) {
            let near_end = start + random.pick(&[0, -1, -reach, 1 - reach, -1 - reach]);
            let cease = random.pick(&[
                near_end - contract.down(),
                near_end - contract.down(),
                near_end - contract.down(),
                near_end - contract.down(),
                start + 1,
                start,
                end,
                end + 1,
            ]);
            if cease >= e && cease <= e + 900 && random.once_in(2) {
                lasting = cease - e;
            }
        }
        let to_span = span - contract.down() - e;
        if (0..600).contains(&to_span) && random.once_in(6) {
            lasting = to_span;
        }
        if e + lasting + contract.down() > span {
            break;
        }
        instructions.push((issue, e + lasting));
    }
    instructions
}

fn some_window(random: &mut Random, windows: &[(i64, i64, i64)]) -> Option<(i64, i64)> {
    if windows.is_empty() {
        return None;
    }
    let (start, end, _) = random.pick(windows);
    Some((start, end))
}

pub fn default_in(random: &mut Random, window: (i64, i64, i64)) -> (i64, i64, i64) {
    let (start, end, _) = window;
    let any = random.between(start, end - 1);
    let minute = random.pick(&[start, end - 1, any, any]);
    (minute, random.between(1, 4), random.between(1, 3))
}

/// A minute's reading by rising revisions, of which the first may be a plain
/// one; all but the last say something else.
fn revised(random: &mut Random, minute: i64, kw: i64) -> Vec<Entry> {
    let mut number = random.pick(&[0, 0, 0, 1, 1, 9, 254, 255]);
    let mut rising = vec![number];
    for _ in 0..random.between(0, 3) {
        if number == 255 {
            break;
        }
        let any = random.between(number + 1, 255);
        number = random.pick(&[number + 1, number + 1, any, 255]);
        rising.push(number);
    }
    rising
        .into_iter()
        .map(|turn| {
            let wrong = random.pick(&[0, -kw, 500_000]);
            let said = if turn == number { kw } else { wrong };
            match turn {
                0 => Entry::Reading(minute, said),
                _ => Entry::Revision(minute, turn, said),
            }
        })
        .collect()
}

impl Plan {
    /// With the hour that a date takes or gives.
    pub fn span(&self) -> i64 {
        self.contract.span() + self.date.map_or(0, Month::change)
    }

    /// How many of its commands come before all others.
    pub fn head(&self) -> usize {
        1 + usize::from(self.date.is_some())
    }

    pub fn needed(&self) -> Vec<i64> {
        let mut needed = Vec::new();
        for &(issue, cease) in &self.instructions {
            let e = issue + self.contract.response;
            needed.extend(issue - 3..=issue);
            needed.extend(e - self.contract.up()..cease + self.contract.down());
        }
        needed.sort_unstable();
        needed.dedup();
        needed
    }

    /// A reading in each of the minutes.
    pub fn read(&mut self, random: &mut Random, style: Style, minutes: &[i64]) {
        for &minute in minutes {
            let kw = self.reading(random, style, minute);
            self.readings.push((minute, kw));
        }
    }

    /// Readings in minutes that have none yet, near the last one.
    fn read_some_more(&mut self, random: &mut Random, style: Style, count: i64) {
        let mut minutes = Vec::new();
        for _ in 0..count {
            let minute = random.between(0, self.span() - 1);
            let known = self.readings.iter().any(|reading| reading.0 == minute);
            if !known && !minutes.contains(&minute) {
                minutes.push(minute);
            }
        }
        self.read(random, style, &minutes);
    }

    /// A reading in every minute of the span, and no others.
    pub fn read_all(&mut self, random: &mut Random, style: Style) {
        self.readings.clear();
        let all: Vec<i64> = (0..self.span()).collect();
        self.read(random, style, &all);
    }

    fn reading(&self, random: &mut Random, style: Style, minute: i64) -> i64 {
        match style {
            Style::Likely => self.likely(random, minute),
            Style::Halves => random.pick(&[-30, -15, 0, 0, 0, 15, 30]),
            Style::Small => random.between(-12, 12),
            Style::Wide => random.between(-6_000, 18_000),
            Style::Ends => random.pick(&[-500_000, 500_000]),
        }
    }

    /// Around 2,000 kW, and the contracted kW more or less while instructed.
    fn likely(&self, random: &mut Random, minute: i64) -> i64 {
        let c = &self.contract;
        let mut move_kw = 0;
        for &(issue, cease) in &self.instructions {
            let e = issue + c.response;
            if e - c.up() <= minute && minute < e {
                move_kw = c.kw * (minute - e + c.up()) / c.up();
            } else if e <= minute && minute < cease {
                move_kw = c.kw;
            } else if cease <= minute && minute < cease + c.down() {
                move_kw = c.kw * (cease + c.down() - minute) / c.down();
            }
        }
        let noise = random.between(-(c.kw / 20), c.kw / 20);
        let rest = 2_000 + random.between(0, 3);
        let kw = if c.kind == 0 {
            rest + move_kw + noise
        } else {
            rest + c.kw - move_kw + noise
        };
        kw.clamp(-500_000, 500_000)
    }

    /// The readings' commands. What puts a revised one right follows at once, or
    /// behind all readings, as after a visit to the site.
    fn reading_entries(&self, random: &mut Random) -> Vec<Entry> {
        let mut readings = self.readings.clone();
        if random.once_in(3) {
            random.shuffle(&mut readings);
        } else {
            readings.sort_unstable();
        }
        let mut entries = Vec::new();
        let mut after_all = Vec::new();
        for (minute, kw) in readings {
            if self.revised == 0 || !random.once_in(self.revised) {
                entries.push(Entry::Reading(minute, kw));
                continue;
            }
            let mut rising = revised(random, minute, kw);
            if random.once_in(2) {
                after_all.extend(rising.split_off(1));
            }
            entries.extend(rising);
        }
        entries.extend(after_all);
        entries
    }

    /// The plan's commands, the tables mixed with one another now and then.
    pub fn entries(&self, random: &mut Random) -> Vec<Entry> {
        let readings = self.reading_entries(random);
        let mut windows = self.windows.iter().peekable();
        let mut instructions = self.instructions.iter().peekable();
        let mut defaults = self.defaults.iter().peekable();
        let mut readings = readings.into_iter().peekable();
        let mut entries = vec![Entry::Contract(self.contract)];
        let date = |month: Month| Entry::Date(month.year, month.number, 1);
        entries.extend(self.date.map(date));
        let mixed = random.once_in(2);
        let mut entered_to = 0;
        loop {
            let turn = if mixed { random.between(0, 5) } else { 0 };
            // A default waits for its window.
            let waits = |minute: i64, entered_to: i64| minute >= entered_to;
            if turn >= 3 && readings.peek().is_some() {
                entries.extend(readings.next());
            } else if turn == 2 && instructions.peek().is_some() {
                entries.extend(instructions.next().map(|i| Entry::Instruction(i.0, i.1)));
            } else if turn == 1 && defaults.peek().is_some_and(|d| !waits(d.0, entered_to)) {
                entries.extend(defaults.next().map(|d| Entry::Default(d.0, d.1, d.2)));
            } else if let Some(w) = windows.next() {
                entered_to = w.1;
                entries.push(Entry::Window(w.0, w.1, w.2));
            } else if let Some(i) = instructions.next() {
                entries.push(Entry::Instruction(i.0, i.1));
            } else if let Some(d) = defaults.next() {
                entries.push(Entry::Default(d.0, d.1, d.2));
            } else if let Some(reading) = readings.next() {
                entries.push(reading);
            } else {
                break;
            }
        }
        entries.push(Entry::Close);
        entries
    }
}
