//! What the cases met with.

use super::scenes::{Otherwise, Step, SCENES};
use super::sides::{sides, Side};
use crate::compare::{missing, numbered};
use crate::images::forced::Outcome;
use crate::images::layout::{Image, ATTRIBUTES};
use crate::images::marks::FORCIBLE;
use crate::images::previews::Counts;
use crate::images::runs::{Origin, ORIGINS};
use crate::library::raw::Entry;
use std::fmt;

#[derive(Clone, Debug, Default, PartialEq, Eq)]
pub struct Tally {
    pub cases: usize,
    pub calls: usize,
    /// Cases by where the first state comes from.
    pub origins: [usize; 2],
    /// Calls by number.
    pub numbers: [usize; 12],
    /// Hand-ins that were taken; the place is the fate's number, never 0.
    pub answered: [usize; 6],
    /// The scenes, with the trigger as a and as b.
    pub scenes: [[usize; 2]; SCENES.len()],
    /// Calls and cases that come out otherwise without S-6; calls with the trigger of a
    /// live conditional as a, and as b; calls for which that was not found out, and for
    /// which no one was asked.
    pub decided_calls: usize,
    pub decided_cases: usize,
    pub decided_places: [usize; 2],
    pub unknown: usize,
    pub not_asked: usize,
    /// Sheets with several conditionals that S-6 is about; with a forcible trigger.
    pub several: usize,
    pub forcible_trigger: usize,
    /// Previews that add lines, entries answered with each fate, lists compared by their
    /// reports, and sheets written out.
    pub previews: usize,
    pub entries: [usize; 6],
    pub lists: usize,
    pub sheets: usize,
}

impl Tally {
    /// A call and what it comes to. Gives whether S-6 has decided it.
    pub fn add_call(&mut self, step: &Step, outcome: &Outcome) -> bool {
        self.calls += 1;
        self.numbers[usize::from(outcome.number)] += 1;
        if let Some(fate) = outcome.fate {
            self.answered[usize::from(fate)] += 1;
        }
        let decided = step.otherwise.is_decided(step.after);
        self.decided_calls += usize::from(decided);
        match step.otherwise {
            Otherwise::Unknown => self.unknown += 1,
            Otherwise::NotAsked => self.not_asked += 1,
            Otherwise::Same | Otherwise::Known(_) => {}
        }
        let sides = sides(step.before);
        for (place, met) in self.decided_places.iter_mut().enumerate() {
            let mut live = sides.iter().filter(|side| side.is_live(step.before));
            *met += usize::from(decided && live.any(|side| side.place == place));
        }
        for side in &sides {
            for ((scene, _), met) in SCENES.iter().zip(&mut self.scenes) {
                met[side.place] += usize::from(step.is(*scene, side));
            }
        }
        decided
    }

    pub fn add_case(&mut self, start: &Image, origin: Origin, decided: bool) {
        self.cases += 1;
        self.origins[origin as usize] += 1;
        self.decided_cases += usize::from(decided);
        let meant: Vec<Side> = sides(start)
            .into_iter()
            .filter(|side| side.is_meant(start))
            .collect();
        self.several += usize::from(meant.len() > 1);
        let forcible = |side: &Side| start[ATTRIBUTES + side.trigger] & FORCIBLE != 0;
        self.forcible_trigger += usize::from(meant.iter().any(forcible));
    }

    pub fn add_preview(&mut self, added: Counts) {
        self.previews += usize::from(added != [0; 4]);
    }

    pub fn add_batch(&mut self, answered: &[Entry]) {
        for entry in answered {
            self.entries[usize::from(entry.fate)] += 1;
        }
    }

    fn counts(&self) -> Vec<(String, usize)> {
        let [decided_a, decided_b] = self.decided_places;
        let named = [
            ("calls taken", self.numbers[0]),
            ("calls decided by S-6, the trigger a", decided_a),
            ("calls decided by S-6, the trigger b", decided_b),
            ("several conditionals of the sort", self.several),
            ("forcible triggers", self.forcible_trigger),
            ("previews that add lines", self.previews),
            ("lists", self.lists),
            ("sheets written out", self.sheets),
        ];
        let mut counts: Vec<(String, usize)> = Vec::new();
        counts.extend(named.map(|(name, met)| (name.to_string(), met)));
        for ((_, name), [as_a, as_b]) in SCENES.iter().zip(self.scenes) {
            counts.push((format!("{name}, the trigger a"), as_a));
            counts.push((format!("{name}, the trigger b"), as_b));
        }
        counts.extend(numbered("calls turned down by", &self.numbers, 9));
        counts.extend(numbered("hand-ins answered with fate", &self.answered, 1));
        counts.extend(numbered("entries answered with fate", &self.entries, 1));
        for (name, met) in ORIGINS.iter().zip(self.origins) {
            counts.push((format!("first states that are {name}"), met));
        }
        counts
    }

    /// The first thing that was met fewer than `least` times.
    pub fn missing(&self, least: usize) -> Option<String> {
        missing(self.counts(), least)
    }
}

impl fmt::Display for Tally {
    fn fmt(&self, out: &mut fmt::Formatter) -> fmt::Result {
        let (cases, calls) = (self.cases, self.calls);
        writeln!(out, "{cases} cases, {calls} calls")?;
        let (cases, calls) = (self.decided_cases, self.decided_calls);
        writeln!(out, "decided by S-6: {cases} cases, {calls} calls")?;
        let (unknown, not_asked) = (self.unknown, self.not_asked);
        writeln!(
            out,
            "not found out: {unknown} calls, not asked: {not_asked}"
        )?;
        for (name, met) in self.counts() {
            writeln!(out, "{name}: {met}")?;
        }
        Ok(())
    }
}
