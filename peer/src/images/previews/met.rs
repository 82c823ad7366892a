//! What previews met with.

use super::outcome::Outcome;
use crate::compare::{missing, numbered};
use crate::images::layout::{number, Image, BEYOND, FATE};
use crate::images::marks::Forced;
use crate::images::runs::{Run, ORIGINS};
use crate::peer::Fate;

#[derive(Clone, Debug, Default, PartialEq, Eq)]
pub struct Tally {
    pub previews: usize,
    /// Single calls between them.
    pub calls: usize,
    /// Previews by number.
    pub numbers: [usize; 13],
    /// Those with 9, of an event that a sheet could declare and of one that none can;
    /// those with 12 of an event that none can.
    pub undeclared: usize,
    pub beyond: usize,
    pub damaged_and_beyond: usize,
    /// Previews on states, by where the state comes from; forced events there.
    pub origins: [usize; 3],
    pub forced_before: Forced,
    /// Previews taken, by the fate of the event before.
    pub fates: [usize; 6],
    /// Of an event that is not open, on a state with something to settle.
    pub idle: usize,
    /// Of an open event, by how many are settled: none, 1, 2, 3, and 4 or more.
    pub settled: [usize; 5],
    /// Those with refusals, and with events done as well.
    pub refused: usize,
    pub done_and_refused: usize,
    /// Those with forced events, with several, and with refusals as well.
    pub forced: usize,
    pub several_forced: usize,
    pub forced_and_refused: usize,
    /// Those after which the event is held and others are settled, by where the state
    /// comes from. A list leads to none: all that can be settled without the event is
    /// settled before.
    pub others: [usize; 3],
}

impl Tally {
    /// A preview on a state of a run, with the bytes after really handing in.
    pub fn add(&mut self, event: u8, outcome: &Outcome, after: &Image, run: &Run) {
        self.previews += 1;
        self.numbers[usize::from(outcome.number)] += 1;
        let Some(peer) = &run.peer else {
            self.damaged_and_beyond += usize::from(event >= BEYOND);
            return;
        };
        self.origins[run.origin as usize] += 1;
        self.forced_before.add(&run.image, run.origin);
        if outcome.number != 0 {
            self.undeclared += usize::from(event < BEYOND);
            self.beyond += usize::from(event >= BEYOND);
            return;
        }
        let fate = peer.state().fate(event);
        self.fates[usize::from(number(fate))] += 1;
        if fate != Fate::Open {
            self.idle += usize::from(!peer.is_at_rest());
            return;
        }
        let settled = self.add_open(outcome);
        let held = after[FATE + usize::from(event)] == number(Fate::Held);
        self.others[run.origin as usize] += usize::from(held && settled > 0);
    }

    /// A preview of an open event. Gives how many are settled.
    fn add_open(&mut self, outcome: &Outcome) -> usize {
        let [done, refused, _, forced] = outcome.added();
        let settled = usize::from(done + refused + forced);
        self.settled[settled.min(4)] += 1;
        self.refused += usize::from(refused > 0);
        self.done_and_refused += usize::from(done > 0 && refused > 0);
        self.forced += usize::from(forced > 0);
        self.several_forced += usize::from(forced > 1);
        self.forced_and_refused += usize::from(forced > 0 && refused > 0);
        settled
    }

    /// The first thing that was met fewer than `least` times.
    pub fn missing(&self, least: usize) -> Option<String> {
        let named = [
            ("single calls", self.calls),
            ("previews taken", self.numbers[0]),
            ("previews turned down by 9", self.numbers[9]),
            ("previews turned down by 12", self.numbers[12]),
            ("9 for an event below 16", self.undeclared),
            ("9 for an event from 16 on", self.beyond),
            ("12 with an event from 16 on", self.damaged_and_beyond),
            ("idle previews with something to settle", self.idle),
            ("previews with refusals", self.refused),
            ("previews with done and refused", self.done_and_refused),
            ("previews with forced", self.forced),
            ("previews with several forced", self.several_forced),
            ("previews with forced and refused", self.forced_and_refused),
            ("events held, with others settled", self.others[1]),
        ];
        let mut counts: Vec<(String, usize)> = Vec::new();
        counts.extend(named.map(|(name, met)| (name.to_string(), met)));
        counts.extend(numbered("previews of an event of fate", &self.fates, 0));
        counts.extend(numbered("settled by a preview", &self.settled, 0));
        for (name, met) in ORIGINS.iter().zip(self.origins) {
            counts.push((format!("previews on states that are {name}"), met));
        }
        counts.extend(self.forced_before.counts());
        missing(counts, least)
    }
}
