//! What batches met with.

use super::outcome::Outcome;
use crate::compare::{missing, numbered};
use crate::images::layout::{Image, FATE};
use crate::images::marks::{Forced, FORCED};
use crate::images::runs::{Run, ORIGINS};
use crate::library::raw::Entry;
use crate::peer::batch::MOST;
use crate::peer::{Fate, Scheduler};
use std::fmt;

const CLOSING: u8 = 17;
const HELD: u8 = 1;

/// Classes of lengths, by the longest of each.
const LENGTHS: [(&str, usize); 9] = [
    ("no entry", 0),
    ("1 entry", 1),
    ("2 to 62", 62),
    ("63", 63),
    ("64", 64),
    ("65", 65),
    ("66 to 199", 199),
    ("200 to 999", 999),
    ("1,000 or more", usize::MAX),
];

#[derive(Clone, Debug, Default, PartialEq, Eq)]
pub struct Tally {
    pub batches: usize,
    /// Single calls before and between them.
    pub calls: usize,
    /// Batches by number, and those with 12 that are too long as well.
    pub numbers: [usize; 14],
    pub damaged_and_long: usize,
    /// Batches on states, by length and by where the state comes from; forced events
    /// before them.
    pub lengths: [usize; 9],
    pub origins: [usize; 3],
    pub forced_before: Forced,
    /// Batches on a state that a batch was made on before.
    pub later: usize,
    /// Batches taken that leave something to settle: those without an entry, and those
    /// whose entries all change nothing.
    pub idle_empty: usize,
    pub idle: usize,
    /// Entries turned down by 2, hand-ins and closings by 9, and closings by 10; all of
    /// them by kind.
    pub other_kind: usize,
    pub no_such_event: usize,
    pub no_such_step: usize,
    pub closed_already: usize,
    pub kinds: Kinds,
    /// Hand-ins that were taken; the place is the fate's number, never 0.
    pub answered: [usize; 6],
    pub closed: usize,
    /// Hand-ins answered with forced whose event an earlier entry forces.
    pub forced_earlier: usize,
    /// Hand-ins answered with held whose event a later entry settles.
    pub settled_later: usize,
    /// Entries that an earlier one of the list is the same as.
    pub repeated: usize,
    /// Batches that go on: an entry turned down, by its number, stands before one that
    /// is taken.
    pub gone_on: [usize; 11],
}

impl Tally {
    /// A batch on a run, with the bytes before it and, where they are a state, with the
    /// peer after it.
    pub fn add(&mut self, outcome: &Outcome, run: &Run) {
        let lent = outcome.lent();
        self.batches += 1;
        self.numbers[usize::from(outcome.number)] += 1;
        let Some(peer) = &run.peer else {
            self.damaged_and_long += usize::from(lent.len() > MOST);
            return;
        };
        let class = LENGTHS.iter().position(|(_, most)| lent.len() <= *most);
        self.lengths[class.unwrap_or_default()] += 1;
        self.origins[run.origin as usize] += 1;
        self.forced_before.add(&run.image, run.origin);
        if outcome.number == 0 {
            self.add_taken(lent, peer);
            self.add_forced(lent, &run.image);
        }
    }

    /// The entries of a batch that is taken, with the bytes before it.
    fn add_forced(&mut self, entries: &[Entry], before: &Image) {
        let forced = entries.iter().filter(|entry| entry.fate == FORCED);
        let earlier = forced.filter(|entry| before[FATE + usize::from(entry.number)] != FORCED);
        self.forced_earlier += earlier.count();
    }

    fn add_taken(&mut self, entries: &[Entry], peer: &Scheduler) {
        let mut bad = [false; 11];
        let mut gone_on = [false; 11];
        for (place, entry) in entries.iter().enumerate() {
            self.add_entry(entry, peer);
            let same = |other: &Entry| (other.kind, other.number) == (entry.kind, entry.number);
            self.repeated += usize::from(entries[..place].iter().any(same));
            match entry.refused {
                0 => gone_on = bad,
                number => bad[usize::from(number)] = true,
            }
        }
        for (number, met) in gone_on.into_iter().enumerate() {
            self.gone_on[number] += usize::from(met);
        }
        if !peer.is_at_rest() {
            self.idle_empty += usize::from(entries.is_empty());
            self.idle += usize::from(!entries.is_empty());
        }
    }

    /// An entry, with the peer after the whole batch.
    fn add_entry(&mut self, entry: &Entry, peer: &Scheduler) {
        match (entry.refused, entry.kind) {
            (0, CLOSING) => self.closed += 1,
            (0, _) => {
                self.answered[usize::from(entry.fate)] += 1;
                let settled = peer.state().fate(entry.number) != Fate::Held;
                self.settled_later += usize::from(entry.fate == HELD && settled);
            }
            (9, CLOSING) => self.no_such_step += 1,
            (9, _) => self.no_such_event += 1,
            (10, _) => self.closed_already += 1,
            _ => self.other_kind += 1,
        }
        if entry.refused != 0 {
            self.kinds.0[usize::from(entry.kind)] += 1;
        }
    }

    /// The first thing that was met fewer than `least` times.
    pub fn missing(&self, least: usize) -> Option<String> {
        let named = [
            ("single calls", self.calls),
            ("batches after another", self.later),
            ("batches taken", self.numbers[0]),
            ("batches turned down by 12", self.numbers[12]),
            ("batches turned down by 13", self.numbers[13]),
            ("long batches turned down by 12", self.damaged_and_long),
            ("empty batches with something to settle", self.idle_empty),
            ("idle batches with something to settle", self.idle),
            ("entries turned down by 2", self.other_kind),
            ("hand-ins turned down by 9", self.no_such_event),
            ("closings turned down by 9", self.no_such_step),
            ("closings turned down by 10", self.closed_already),
            ("entries turned down of each kind", self.kinds.least().1),
            ("closings", self.closed),
            ("events that a later entry settles", self.settled_later),
            ("events that an earlier entry forces", self.forced_earlier),
            ("entries that repeat an earlier one", self.repeated),
            ("batches that go on after 2", self.gone_on[2]),
            ("batches that go on after 9", self.gone_on[9]),
            ("batches that go on after 10", self.gone_on[10]),
        ];
        let mut counts: Vec<(String, usize)> = Vec::new();
        counts.extend(named.map(|(name, met)| (name.to_string(), met)));
        counts.extend(numbered("hand-ins answered with fate", &self.answered, 1));
        for (name, met) in ORIGINS.iter().zip(self.origins) {
            counts.push((format!("batches on states that are {name}"), met));
        }
        counts.extend(self.forced_before.counts());
        for ((name, _), met) in LENGTHS.iter().zip(self.lengths) {
            counts.push((format!("batches of {name}"), met));
        }
        missing(counts, least)
    }
}

/// How often a kind was met, by the kind.
#[derive(Clone, PartialEq, Eq)]
pub struct Kinds([usize; 256]);

impl Kinds {
    /// The kind that was met least often.
    fn least(&self) -> (usize, usize) {
        let numbered = self.0.into_iter().enumerate();
        numbered.min_by_key(|(_, met)| *met).unwrap_or_default()
    }
}

impl Default for Kinds {
    fn default() -> Kinds {
        Kinds([0; 256])
    }
}

impl fmt::Debug for Kinds {
    fn fmt(&self, out: &mut fmt::Formatter) -> fmt::Result {
        let (kind, met) = self.least();
        write!(out, "each at least {met} times (kind {kind})")
    }
}
