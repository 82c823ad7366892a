//! What the cases met with.

use super::moments::{windows, Step, MOMENTS};
use crate::compare::{missing, numbered};
use crate::images::forced::Outcome;
use crate::images::layout::*;
use crate::images::runs::{Origin, ORIGINS};
use crate::library::raw::Entry;
use crate::peer::calls::Call;
use crate::peer::sheet::records;
use std::fmt;

const WINDOW: u8 = 7;

#[derive(Clone, Debug, Default, PartialEq, Eq)]
pub struct Tally {
    pub cases: usize,
    pub calls: usize,
    /// Cases by where the first state comes from.
    pub origins: [usize; 2],
    /// Calls by number.
    pub numbers: [usize; 17],
    /// Hand-ins that were taken; the place is the fate's number, never 0.
    pub answered: [usize; 6],
    /// Moves of the minute that are taken: to the same one, to the next, further.
    pub moves: [usize; 3],
    /// Moves turned down by 16 by one minute, and by more.
    pub backward: [usize; 2],
    pub moments: [usize; MOMENTS.len()],
    /// Cases with one window, with several, with one on every event of a full sheet.
    pub one_window: usize,
    pub windows: usize,
    pub all_windows: usize,
    /// Previews that add lines, entries answered with each fate, moves that are entries
    /// (turned down by 2), lists as a whole, and sheets with a window written out; those
    /// in which a window stood above a rule or an event, or after a higher event's.
    pub previews: usize,
    pub entries: [usize; 6],
    pub moves_in_batch: usize,
    pub lists: usize,
    pub sheets: usize,
    pub mixed: usize,
}

impl Tally {
    pub fn add_call(&mut self, step: &Step, outcome: &Outcome) {
        self.calls += 1;
        self.numbers[usize::from(outcome.number)] += 1;
        if let Some(fate) = outcome.fate {
            self.answered[usize::from(fate)] += 1;
        }
        if let Call::Advance(minute) = step.call {
            self.add_move(minute_at(step.before, MINUTE), minute);
        }
        if outcome.number != 0 {
            return;
        }
        for window in windows(step.before) {
            for ((moment, _), met) in MOMENTS.iter().zip(&mut self.moments) {
                *met += usize::from(step.is(*moment, &window));
            }
        }
    }

    fn add_move(&mut self, now: u32, to: u32) {
        match to.checked_sub(now) {
            Some(further) => self.moves[further.min(2) as usize] += 1,
            None => self.backward[usize::from(now - to > 1)] += 1,
        }
    }

    pub fn add_case(&mut self, start: &Image, origin: Origin) {
        let windows = windows(start).len();
        self.cases += 1;
        self.origins[origin as usize] += 1;
        self.one_window += usize::from(windows == 1);
        self.windows += usize::from(windows > 1);
        self.all_windows += usize::from(windows == 16);
    }

    pub fn add_batch(&mut self, answered: &[Entry]) {
        for entry in answered {
            self.entries[usize::from(entry.fate)] += 1;
            self.moves_in_batch += usize::from(entry.kind == 19 && entry.refused == 2);
        }
    }

    /// The sheet of a case, another form of it, and what is written of both.
    pub fn add_sheet(&mut self, sheet: &[u8], other: &[u8], written: &[u8]) {
        let windows = records(written)
            .into_iter()
            .filter(|record| record[0] == WINDOW);
        self.sheets += usize::from(windows.count() > 0);
        let mixed = |sheet: &[u8]| {
            let all = records(sheet);
            all.windows(2)
                .any(|two| two[0][0] == WINDOW && (two[1][0] != WINDOW || two[0][1] > two[1][1]))
        };
        self.mixed += usize::from(mixed(sheet)) + usize::from(mixed(other));
    }

    fn counts(&self) -> Vec<(String, usize)> {
        let named = [
            ("calls taken", self.numbers[0]),
            ("moves to the same minute", self.moves[0]),
            ("moves to the next minute", self.moves[1]),
            ("moves further", self.moves[2]),
            ("moves back by one", self.backward[0]),
            ("moves back by more", self.backward[1]),
            ("cases with one window", self.one_window),
            ("cases with several windows", self.windows),
            ("cases with sixteen windows", self.all_windows),
            ("previews that add lines", self.previews),
            ("moves in a batch, turned down by 2", self.moves_in_batch),
            ("lists", self.lists),
            ("sheets with a window written out", self.sheets),
            ("sheets with windows among others", self.mixed),
        ];
        let mut counts: Vec<(String, usize)> = Vec::new();
        counts.extend(named.map(|(name, met)| (name.to_string(), met)));
        for ((_, name), met) in MOMENTS.iter().zip(self.moments) {
            counts.push((name.to_string(), met));
        }
        counts.extend(numbered("calls turned down by", &self.numbers[..12], 9));
        counts.extend(numbered("calls turned down by", &self.numbers, 16));
        counts.extend(numbered("hand-ins answered with fate", &self.answered, 1));
        counts.extend(numbered("entries answered with fate", &self.entries, 1));
        for (name, met) in ORIGINS.iter().zip(self.origins) {
            counts.push((format!("first states that are {name}"), met));
        }
        counts
    }

    /// The first thing that was met fewer than `least` times.
    pub fn missing(&self, least: usize) -> Option<String> {
        missing(self.counts(), least)
    }
}

impl fmt::Display for Tally {
    fn fmt(&self, out: &mut fmt::Formatter) -> fmt::Result {
        let (cases, calls) = (self.cases, self.calls);
        writeln!(out, "{cases} cases, {calls} calls")?;
        for (name, met) in self.counts() {
            writeln!(out, "{name}: {met}")?;
        }
        Ok(())
    }
}
