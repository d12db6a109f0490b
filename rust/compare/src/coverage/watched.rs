//! What files meet that are watched, minute by minute.

use super::{answer, Coverage};
use second::book::Book;
use second::bytes::{Contract, Window};
use second::memory::Memory;
use second::rows::Room;
use second::rules::*;
use second::settle;
use second::switches::Switch;
use second::watch::{self, Totals};

impl Coverage {
    /// Counts what a file meets when it is watched. Nearly every such file is
    /// taken.
    pub fn add_watched(&mut self, file: &[u8], room: Room) {
        self.watched = true;
        let (entered, book, memory) = self.entered(file, room);
        if answer(&entered).is_err() {
            self.refused += 1;
            return;
        }
        let shown = watch::totals(&book, &memory, Switch::RIGHT);
        self.minutes += shown.len();
        self.met("watched, open", !book.closed && !shown.is_empty());
        self.met("watched, closed", book.closed && !shown.is_empty());
        self.met("watched, no contract", book.contract.is_none());
        if let Some(contract) = book.contract {
            self.count_stop(&contract, &book, &memory, &shown);
            self.count_watched(&contract, &book, &memory, &shown);
        }
    }

    /// Whether all active minutes are shown, and if not, what is missing.
    fn count_stop(&mut self, contract: &Contract, book: &Book, memory: &Memory, shown: &[Totals]) {
        let active: Vec<(usize, i64)> = (book.instructions.iter().enumerate())
            .flat_map(|(index, instruction)| {
                let minutes = settle::active_minutes(contract, instruction, Switch::RIGHT);
                minutes.into_iter().map(move |(minute, _)| (index, minute))
            })
            .collect();
        self.met("watched, no active minute", active.is_empty());
        let Some(&(index, minute)) = active.get(shown.len()) else {
            return;
        };
        let base = settle::base_minutes(&book.instructions[index]);
        let all_base = base.iter().all(|minute| memory.has_reading(*minute));
        let own = memory.has_reading(minute);
        self.met("watched, stopped at a minute", all_base && !own);
        self.met("watched, stopped at a base minute", !all_base && own);
    }

    fn count_watched(
        &mut self,
        contract: &Contract,
        book: &Book,
        memory: &Memory,
        shown: &[Totals],
    ) {
        let any = !shown.is_empty();
        self.months += usize::from(any);
        self.met("watched, generator", any && contract.kind == 0);
        self.met("watched, demand reducer", any && contract.kind == 1);
        let later = shown.iter().any(|totals| totals.minute >= DAY);
        self.met("watched, later day", later);
        self.met("watched, dated", any && book.date.is_some());
        let gained = shown
            .iter()
            .any(|totals| totals.minute >= *DAYS.end() * DAY);
        self.met("watched, minute of a gained hour", gained);
        let below = shown
            .iter()
            .any(|totals| totals.delivered < 0 && totals.capped > 0);
        self.met("watched, delivered below 0 after a paid line", below);
        let revised = shown
            .iter()
            .any(|totals| memory.revision(totals.minute) > 0);
        self.met("watched, reading revised", revised);
        let second = shown.iter().any(|totals| totals.instruction == 2);
        self.met("watched, second instruction", second);
        for window in &book.windows {
            let inside = shown
                .iter()
                .any(|totals| holds(window, totals.minute, Switch::RIGHT));
            let excluded = settle::excluded(book, contract, window, Switch::RIGHT);
            let rejected = window.rejected == 1;
            self.met("watched, minute in a rejected window", inside && rejected);
            let excluded = excluded && !rejected;
            self.met("watched, minute in an excluded window", inside && excluded);
        }
        let last = shown.last().map_or(-1, |totals| totals.minute);
        self.count_watched_instructions(contract, book, last);
        for segment in settle::segments(book, contract, Switch::RIGHT) {
            let alone = segment.minutes.len() == 1 && segment.minutes[0] <= last;
            self.met("watched, segment of one minute", alone);
        }
    }

    /// Of the instructions that are shown to their ends.
    fn count_watched_instructions(&mut self, contract: &Contract, book: &Book, last: i64) {
        let in_live = |minute: i64| {
            let live = |w: &&Window| settle::live(book, contract, w, Switch::RIGHT);
            let mut live = book.windows.iter().filter(live);
            live.any(|w| holds(w, minute, Switch::RIGHT))
        };
        let across = |from: i64, to: i64| period_of(from) != period_of(to - 1);
        let mut before = 0;
        for instruction in &book.instructions {
            let e = response_expires(contract, instruction);
            let first = e - ramp_up_minutes(contract, Switch::RIGHT);
            let (cease, f) = (
                instruction.cease,
                instruction_end(contract, instruction, Switch::RIGHT),
            );
            if f > last + 1 {
                break;
            }
            self.met("watched, cease = e", cease == e);
            self.met("watched, ramp up across periods", across(first, e));
            self.met("watched, ramp down across periods", across(cease, f));
            self.met(
                "watched, ramp up paid by e alone",
                in_live(e) && !in_live(first),
            );
            self.met(
                "watched, ramp down paid by cease - 1 alone",
                in_live(cease - 1) && !in_live(f - 1),
            );
            self.met(
                "watched, base minute active in the instruction before",
                instruction.issue - 3 < before,
            );
            self.met(
                "watched, base minute active in its own ramp up",
                first <= instruction.issue,
            );
            before = f;
        }
    }
}
