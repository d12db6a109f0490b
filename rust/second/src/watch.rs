//! Running totals: what is shown after each active minute. The totals of a
//! minute are worked out from the month's segments and the minutes so far, never
//! from the totals before it.

use crate::book::Book;
use crate::bytes::Contract;
use crate::memory::Memory;
use crate::settle::{self, Line, Segment};
use crate::switches::{Switch, Wrong};

/// What is shown after an active minute.
#[derive(Clone, Copy, PartialEq, Eq, Debug)]
pub struct Totals {
    /// From 1.
    pub instruction: i64,
    pub minute: i64,
    /// S of the instruction.
    pub base: i64,
    /// Both sums of the segment so far, in quarters of a kW-minute.
    pub expected: i64,
    pub delivered: i64,
    /// Of the lines complete.
    pub capped: i64,
    pub pence: i64,
}

/// The totals after each active minute of a book, up to the first one for which
/// a reading is missing: its own, or one of its instruction's base minutes.
pub fn totals(book: &Book, memory: &Memory, switch: Switch) -> Vec<Totals> {
    let Some(contract) = &book.contract else {
        return Vec::new();
    };
    let month = Month {
        book,
        contract,
        meter: &memory.meter,
        switch,
    };
    let segments = settle::segments(book, contract, switch);
    let lines = month.lines(&segments);
    let mut shown = Vec::new();
    for segment in &segments {
        let base = settle::base_minutes(&book.instructions[segment.index]);
        let summed = month.summed(&segments, segment);
        for &minute in &segment.minutes {
            if !base.iter().chain([&minute]).all(|m| memory.has_reading(*m)) {
                return shown;
            }
            shown.push(month.totals(&lines, segment, &summed, minute));
        }
    }
    shown
}

/// What a line comes to, and its segment's last minute. Where a reading is
/// missing it comes to nothing that is true, and no minute after it is shown.
struct Complete {
    last: i64,
    capped: i64,
    pence: i64,
}

struct Month<'a> {
    book: &'a Book,
    contract: &'a Contract,
    meter: &'a [i32],
    switch: Switch,
}

impl Month<'_> {
    fn lines(&self, segments: &[Segment]) -> Vec<Complete> {
        let complete = |segment: &Segment| {
            let line = self.line(segment);
            Complete {
                last: segment.minutes[segment.minutes.len() - 1],
                capped: line.capped,
                pence: line.pence,
            }
        };
        segments.iter().map(complete).collect()
    }

    fn line(&self, segment: &Segment) -> Line {
        settle::line(self.book, self.contract, segment, self.meter, self.switch)
    }

    /// The totals after a minute of a segment.
    fn totals(
        &self,
        lines: &[Complete],
        segment: &Segment,
        summed: &[&Segment],
        minute: i64,
    ) -> Totals {
        let (mut expected, mut delivered) = self.sums(segment, summed, minute);
        let (mut capped, mut pence) = self.complete(lines, minute);
        let is_complete = segment.minutes.last() == Some(&minute);
        if self.switch.is(Wrong::DeliveredFloored) {
            delivered = delivered.max(0);
        }
        if self.switch.is(Wrong::SumsGoneWithLine) && is_complete {
            (expected, delivered) = (0, 0);
        }
        if self.switch.is(Wrong::LineAtOnce) && !is_complete {
            let line = self.line(&so_far(segment, minute));
            capped += line.capped;
            pence += line.pence;
        }
        Totals {
            instruction: segment.index as i64 + 1,
            minute,
            base: self.base(segment),
            expected,
            delivered,
            capped,
            pence,
        }
    }

    fn base(&self, segment: &Segment) -> i64 {
        settle::base_load(self.book, segment.index, self.meter, self.switch)
    }

    /// Capped kWh and pence of the lines of which no minute is to come.
    fn complete(&self, lines: &[Complete], minute: i64) -> (i64, i64) {
        let late = i64::from(self.switch.is(Wrong::LineMinuteLate));
        let mut sums = (0, 0);
        for line in lines {
            if line.last + late <= minute {
                sums.0 += line.capped;
                sums.1 += line.pence;
            }
        }
        sums
    }

    /// What the minutes so far expect and deliver together.
    fn sums(&self, segment: &Segment, summed: &[&Segment], minute: i64) -> (i64, i64) {
        let base = self.base(segment);
        let mut sums = (0, 0);
        for part in summed {
            for minute in so_far(part, minute).minutes {
                sums.0 += settle::expected_quarters(self.contract, part.stage, self.switch);
                sums.1 += settle::delivered_quarters(self.contract, base, self.meter, minute);
            }
        }
        sums
    }

    /// The segments whose minutes go into the two sums: this one alone.
    fn summed<'s>(&self, segments: &'s [Segment], segment: &Segment) -> Vec<&'s Segment> {
        segments
            .iter()
            .filter(|other| self.together(other, segment))
            .collect()
    }

    /// Whether two segments are summed as one: they must be one and the same.
    fn together(&self, one: &Segment, other: &Segment) -> bool {
        let stage = one.stage == other.stage
            || self.switch.is(Wrong::SumsByPeriod)
            || self.switch.is(Wrong::SumsRunOn);
        let period = one.period == other.period
            || self.switch.is(Wrong::SumsByStage)
            || self.switch.is(Wrong::SumsRunOn);
        one.index == other.index && stage && period
    }
}

/// A segment as far as it has come.
fn so_far(segment: &Segment, minute: i64) -> Segment {
    Segment {
        minutes: segment
            .minutes
            .iter()
            .copied()
            .filter(|m| *m <= minute)
            .collect(),
        ..*segment
    }
}
