//! What the cases met with.

use super::outcome::Outcome;
use crate::compare::{missing, numbered};
use crate::images::layout::*;
use crate::images::marks::{DONE, FORCED, FORCIBLE};
use crate::images::previews::Counts;
use crate::images::runs::{Origin, ORIGINS};
use crate::library::raw::Entry;
use crate::peer::calls::Call;
use crate::peer::rules::{Rule, Standing};
use crate::peer::set::{has, one, within, Set};
use crate::peer::{Cause, Fate, Scheduler};

#[derive(Clone, Debug, Default, PartialEq, Eq)]
pub struct Tally {
    pub cases: usize,
    pub calls: usize,
    /// Cases by where the first state comes from, and those in which something is forced.
    pub origins: [usize; 2],
    pub forcing_cases: usize,
    /// Calls by number.
    pub numbers: [usize; 17],
    /// Hand-ins that were taken; the place is the fate's number, never 0.
    pub answered: [usize; 6],
    /// Those answered with forced: of events that the list forced, and of those that were
    /// brought so.
    pub forced_in_list: usize,
    pub forced_before: usize,
    /// The lines that calls add; the place is the fate's number.
    pub lines: [usize; 6],
    /// Calls that force: hand-ins, closings, and windings up, of which none does, as no
    /// event is open then. Those of them that force several.
    pub forcing: [usize; 4],
    pub several: usize,
    /// Hand-ins that force an event ahead of the one handed in, and behind it.
    pub ahead: usize,
    pub behind: usize,
    /// Forcible events that are done as they were handed in, in an order and alone.
    pub forcible_ordered: usize,
    pub forcible_alone: usize,
    /// Orders with a forced event; the place is the length, from 2 on.
    pub forced_orders: [usize; 7],
    /// Rules that stand after the list: orders of two done events, with a forced one;
    /// needs and conditionals with a forced goal; those with a forced trigger. All their
    /// triggers are done.
    pub kept_orders: usize,
    pub kept_needs: usize,
    pub kept_conditionals: usize,
    pub forced_triggers: usize,
    /// Refusals of events that forced ones bar.
    pub barred: usize,
    /// Previews with a forced event, and entries answered with forced.
    pub previews: usize,
    pub entries: usize,
}

impl Tally {
    pub fn add_preview(&mut self, [.., forced]: Counts) {
        self.previews += usize::from(forced > 0);
    }

    pub fn add_batch(&mut self, answered: &[Entry]) {
        let forced = answered.iter().filter(|entry| entry.fate == FORCED);
        self.entries += forced.count();
    }

    /// A call, with the bytes at the start of the list and right before it.
    pub fn add_call(&mut self, call: Call, [start, before]: [&Image; 2], outcome: &Outcome) {
        self.calls += 1;
        self.numbers[usize::from(outcome.number)] += 1;
        if let (Call::Submit(event), Some(fate)) = (call, outcome.fate) {
            let brought = start[FATE + usize::from(event)] == FORCED;
            self.answered[usize::from(fate)] += 1;
            self.forced_before += usize::from(fate == FORCED && brought);
            self.forced_in_list += usize::from(fate == FORCED && !brought);
        }
        let image = &outcome.image;
        let lines = usize::from(before[LINES])..usize::from(image[LINES]);
        self.add_lines(
            call,
            &image[LINE_EVENT..][lines.clone()],
            &image[LINE_FATE..][lines],
        );
    }

    /// The lines that a call adds.
    fn add_lines(&mut self, call: Call, events: &[u8], fates: &[u8]) {
        for fate in fates {
            self.lines[usize::from(*fate)] += 1;
        }
        let forced = |fates: &[u8]| fates.iter().filter(|fate| **fate == FORCED).count();
        if forced(fates) == 0 {
            return;
        }
        let (place, own) = match call {
            Call::Submit(own) => (0, events.iter().position(|event| *event == own)),
            Call::CloseStep(_) => (1, None),
            Call::Finish => (2, None),
            Call::Advance(_) => (3, None),
        };
        self.forcing[place] += 1;
        self.several += usize::from(forced(fates) > 1);
        if let Some(own) = own.filter(|own| fates[*own] == DONE) {
            self.ahead += usize::from(forced(&fates[..own]) > 0);
            self.behind += usize::from(forced(&fates[own..]) > 0);
        }
    }

    /// A case, with the peer after its list.
    pub fn add_case(&mut self, origin: Origin, peer: &Scheduler) {
        self.cases += 1;
        self.origins[origin as usize] += 1;
        for length in 1..=6 {
            self.forced_orders[length] += peer.met().forced_orders[length];
        }
        let forcing = peer.met().forced_orders != [0; 7];
        self.forcing_cases += usize::from(forcing);
        self.add_history(peer);
        for (number, rule) in peer.sheet().rules.iter().enumerate() {
            if !has(peer.state().broken, number as u8) {
                self.add_rule(rule, peer.state().done, peer.state().forced);
            }
        }
    }

    fn add_history(&mut self, peer: &Scheduler) {
        let (mut forced, mut failed) = (0, 0);
        for line in peer.history() {
            let forcible = peer.sheet().attributes(line.event) & FORCIBLE != 0;
            match line.cause {
                Cause::Ordered => self.forcible_ordered += usize::from(forcible),
                Cause::Alone => self.forcible_alone += usize::from(forcible),
                Cause::Barred => {
                    let bars = is_barred(peer, line.event, forced, failed);
                    self.barred += usize::from(bars);
                }
                _ => {}
            }
            match line.fate {
                Fate::Forced => forced |= one(line.event),
                Fate::Refused | Fate::Lapsed => failed |= one(line.event),
                _ => {}
            }
        }
    }

    /// A rule that stands.
    fn add_rule(&mut self, rule: &Rule, done: Set, forced: Set) {
        match *rule {
            Rule::Order { first, second, .. } => {
                let both = one(first) | one(second);
                let met = within(both, done) && both & forced != 0;
                self.kept_orders += usize::from(met);
            }
            Rule::Follow { triggers, goal, .. } if within(triggers, done) => {
                let kept = if triggers.count_ones() == 1 {
                    &mut self.kept_needs
                } else {
                    &mut self.kept_conditionals
                };
                *kept += usize::from(has(forced, goal));
                self.forced_triggers += usize::from(triggers & forced != 0);
            }
            Rule::Follow { .. } => {}
        }
    }

    /// The first thing that was met fewer than `least` times.
    pub fn missing(&self, least: usize) -> Option<String> {
        let named = [
            ("cases in which something is forced", self.forcing_cases),
            ("calls taken", self.numbers[0]),
            ("answers forced, by the list", self.forced_in_list),
            ("answers forced, as brought", self.forced_before),
            ("hand-ins that force", self.forcing[0]),
            ("closings that force", self.forcing[1]),
            ("calls that force several", self.several),
            ("events forced ahead of the one handed in", self.ahead),
            ("events forced behind the one handed in", self.behind),
            ("forcible events done in an order", self.forcible_ordered),
            ("forcible events done alone", self.forcible_alone),
            ("orders with a forced event", self.kept_orders),
            ("needs with a forced goal", self.kept_needs),
            ("conditionals with a forced goal", self.kept_conditionals),
            ("rules with a forced trigger", self.forced_triggers),
            ("refusals of what forced events bar", self.barred),
            ("previews with a forced event", self.previews),
            ("entries answered with forced", self.entries),
        ];
        let mut counts: Vec<(String, usize)> = Vec::new();
        counts.extend(named.map(|(name, met)| (name.to_string(), met)));
        counts.extend(numbered("calls turned down by", &self.numbers[..12], 9));
        counts.extend(numbered("calls turned down by", &self.numbers, 16));
        counts.extend(numbered("hand-ins answered with fate", &self.answered, 1));
        counts.extend(numbered("lines of fate", &self.lines, 2));
        counts.extend(numbered("forced orders of length", &self.forced_orders, 2));
        for (name, met) in ORIGINS.iter().zip(self.origins) {
            counts.push((format!("first states that are {name}"), met));
        }
        missing(counts, least)
    }
}

/// Whether a rule that stands to the end bars the event, and would not if what was forced
/// so far were not done.
fn is_barred(peer: &Scheduler, event: u8, forced: Set, failed: Set) -> bool {
    let open = 0;
    let bars = |rule: &Rule, done| rule.bars(event, Standing { open, done, failed });
    let mut rules = (0..).zip(&peer.sheet().rules);
    rules.any(|(number, rule)| {
        !has(peer.state().broken, number) && bars(rule, forced) && !bars(rule, 0)
    })
}
