//! The memory that is lent for readings: a kW for each minute, and beside it
//! the number of the revision that gave it. Each has a length of its own.

use crate::rules::{NO_READING, READING};
use crate::switches::{Switch, Wrong};
use std::ops::Range;

#[derive(Clone, PartialEq, Eq, Debug)]
pub struct Memory {
    pub meter: Vec<i32>,
    /// Of a minute without a reading the byte means nothing.
    pub revisions: Vec<u8>,
}

impl Memory {
    /// So many minutes in both, and no reading in any.
    pub fn of_minutes(minutes: usize) -> Memory {
        Memory {
            meter: vec![NO_READING; minutes],
            revisions: vec![0; minutes],
        }
    }

    /// The minutes that both hold.
    pub fn room(&self, switch: Switch) -> i64 {
        let cells = self.meter.len();
        if switch.is(Wrong::RevisionRoomUnasked) {
            return cells as i64;
        }
        cells.min(self.revisions.len()) as i64
    }

    /// A cell outside the reading range holds no reading.
    pub fn has_reading(&self, minute: i64) -> bool {
        READING.contains(&self.kw(minute))
    }

    pub fn kw(&self, minute: i64) -> i64 {
        i64::from(self.meter[minute as usize])
    }

    /// The byte of a minute, whether it has a reading or not.
    pub fn revision(&self, minute: i64) -> i64 {
        // There is none only where a switch leaves the room unasked.
        let byte = self.revisions.get(minute as usize).copied();
        i64::from(byte.unwrap_or(0))
    }

    /// What a contract leaves in the minutes of its span: no reading.
    pub fn clear(&mut self, minutes: Range<i64>) {
        self.mark(minutes.clone());
        self.unrevise(minutes);
    }

    /// What a date leaves where its month has so many minutes more than its
    /// contract's days: the same in these. Where it has fewer, all stays.
    pub fn gain(&mut self, undated: i64, more: i64, switch: Switch) {
        let gained = undated..undated + more;
        if !switch.is(Wrong::GainedHourUnmarked) {
            self.mark(gained.clone());
        }
        if !switch.is(Wrong::GainedRevisionsKept) {
            self.unrevise(gained);
        }
    }

    fn mark(&mut self, minutes: Range<i64>) {
        for minute in minutes {
            self.put_kw(minute, i64::from(NO_READING));
        }
    }

    fn unrevise(&mut self, minutes: Range<i64>) {
        for minute in minutes {
            self.put_revision(minute, 0);
        }
    }

    pub fn put_kw(&mut self, minute: i64, kw: i64) {
        // Here too a cell is missing only where a switch leaves the room unasked.
        if let Some(cell) = self.meter.get_mut(minute as usize) {
            *cell = kw as i32;
        }
    }

    pub fn put_revision(&mut self, minute: i64, number: i64) {
        if let Some(byte) = self.revisions.get_mut(minute as usize) {
            *byte = number as u8;
        }
    }
}
