//! What writings met with.

use super::outcome::Outcome;
use crate::compare::{missing, numbered};
use crate::images::marks::Forced;
use crate::images::runs::{Run, ORIGINS};
use crate::peer::sheet::{records, MOST_EVENTS, MOST_RULES};
use crate::peer::write::LONGEST;
use crate::peer::Scheduler;

const EVENT: u8 = 1;
const FOUR_EVENTS: u8 = 6;
const CONDITIONAL: usize = 4;
const WINDOW: u8 = 7;

/// How a buffer's length is to the sheet's.
const BUFFERS: [&str; 8] = [
    "too short by 3 or more",
    "too short by 2",
    "too short by 1",
    "as long",
    "longer by 1",
    "longer by 2",
    "longer by 3",
    "longer by 4 or more",
];
/// The place of a buffer that is as long as the sheet.
const AS_MANY: usize = 3;

#[derive(Clone, Debug, Default, PartialEq, Eq)]
pub struct Tally {
    pub writings: usize,
    /// Single calls between them.
    pub calls: usize,
    /// Writings by number, and those with 12 that 14 would meet as well.
    pub numbers: [usize; 15],
    pub damaged_and_short: usize,
    /// Writings of states, by where the state comes from.
    pub origins: [usize; 3],
    /// Those of them by how the buffer's length is to the sheet's; into buffers of no
    /// byte, of one, of as many as any sheet needs, and of more than one byte can count.
    pub buffers: [usize; 8],
    pub no_byte: usize,
    pub one_byte: usize,
    pub enough_for_any: usize,
    pub beyond_a_byte: usize,
    /// Sheets written: with no event, with all events, with all rules, as long as any.
    pub empty: usize,
    pub all_events: usize,
    pub all_rules: usize,
    pub longest: usize,
    /// Events written, by step and by attributes, of which 4 and 5 are no event's; rules
    /// written, by kind; conditionals that name the higher of their triggers first.
    pub steps: [usize; 8],
    pub attributes: [usize; 8],
    pub rules: [usize; 5],
    /// Windows written.
    pub windows: usize,
    pub higher_first: usize,
    /// Sheets written of states with an event of a fate, by its number; with a closed step,
    /// with a broken rule, with bytes past the counts; with forced events.
    pub fates: [usize; 6],
    pub closed: usize,
    pub broken: usize,
    pub leftovers: usize,
    pub forced: Forced,
    /// Sheets of runs: with a record of four events among those of one; with a rule above
    /// an event; with both.
    pub sheets: usize,
    pub fours: usize,
    pub mixed: usize,
    pub fours_and_mixed: usize,
    /// Forms: with four events in place of a record of four, with such a record in place
    /// of four events, with a rule elsewhere.
    pub forms: usize,
    pub parted: usize,
    pub joined: usize,
    pub moved: usize,
}

impl Tally {
    /// A writing of the bytes of a run, with others past the counts or without.
    pub fn add(&mut self, outcome: &Outcome, run: &Run, leftovers: bool) {
        self.writings += 1;
        self.numbers[usize::from(outcome.number)] += 1;
        let lent = outcome.lent().len();
        let Some(peer) = &run.peer else {
            self.damaged_and_short += usize::from(lent == 0);
            return;
        };
        self.origins[run.origin as usize] += 1;
        self.add_buffer(lent, outcome.need);
        if outcome.number == 0 {
            self.leftovers += usize::from(leftovers);
            self.add_written(outcome.sheet());
            self.add_fates(peer);
            self.forced.add(&run.image, run.origin);
        }
    }

    fn add_buffer(&mut self, lent: usize, need: usize) {
        let class = (lent + AS_MANY).saturating_sub(need);
        self.buffers[class.min(BUFFERS.len() - 1)] += 1;
        self.no_byte += usize::from(lent == 0);
        self.one_byte += usize::from(lent == 1);
        self.enough_for_any += usize::from(lent == LONGEST);
        self.beyond_a_byte += usize::from(lent > 255);
    }

    fn add_written(&mut self, sheet: &[u8]) {
        let records = records(sheet);
        let count = |kind| records.iter().filter(|record| record[0] == kind).count();
        let (events, windows) = (count(EVENT), count(WINDOW));
        self.empty += usize::from(records.is_empty());
        self.all_events += usize::from(events == MOST_EVENTS);
        self.all_rules += usize::from(records.len() - events - windows == MOST_RULES);
        self.longest += usize::from(sheet.len() == LONGEST);
        for record in records {
            self.add_record(record);
        }
    }

    fn add_record(&mut self, record: &[u8]) {
        let [kind, one, other] = [0, 1, 2].map(|place| usize::from(record[place]));
        if record[0] == EVENT {
            self.steps[one] += 1;
            self.attributes[other] += 1;
        } else if record[0] == WINDOW {
            self.windows += 1;
        } else {
            self.rules[kind] += 1;
            self.higher_first += usize::from(kind == CONDITIONAL && one > other);
        }
    }

    fn add_fates(&mut self, peer: &Scheduler) {
        let (sheet, state) = (peer.sheet(), peer.state());
        let sets = [
            state.open(sheet),
            state.held,
            state.done & !state.forced,
            state.refused,
            state.lapsed,
            state.forced,
        ];
        for (met, set) in self.fates.iter_mut().zip(sets) {
            *met += usize::from(set != 0);
        }
        self.closed += usize::from(state.closed != 0);
        self.broken += usize::from(state.broken != 0);
    }

    /// The sheet of a run.
    pub fn add_sheet(&mut self, sheet: &[u8]) {
        let form = Form::of(sheet);
        let (fours, mixed) = (form.has_both(), form.is_mixed());
        self.sheets += 1;
        self.fours += usize::from(fours);
        self.mixed += usize::from(mixed);
        self.fours_and_mixed += usize::from(fours && mixed);
    }

    /// A sheet and another form of it.
    pub fn add_form(&mut self, sheet: &[u8], other: &[u8]) {
        let (before, after) = (Form::of(sheet), Form::of(other));
        let pairs = || before.of_four.iter().zip(&after.of_four);
        self.forms += 1;
        self.parted += usize::from(pairs().any(|(before, after)| before > after));
        self.joined += usize::from(pairs().any(|(before, after)| before < after));
        self.moved += usize::from(before.above != after.above);
    }

    /// The first thing that was met fewer than `least` times.
    pub fn missing(&self, least: usize) -> Option<String> {
        let mut counts: Vec<(String, usize)> = Vec::new();
        let named = self.named().into_iter();
        counts.extend(named.map(|(name, met)| (name.to_string(), met)));
        counts.extend(numbered("events of step", &self.steps, 0));
        counts.extend(numbered("events of attributes", &self.attributes[..4], 0));
        counts.extend(numbered("events of attributes", &self.attributes, 6));
        counts.extend(numbered("rules of kind", &self.rules, 2));
        counts.extend(numbered("states with an event of fate", &self.fates, 0));
        for (name, met) in ORIGINS.iter().zip(self.origins) {
            counts.push((format!("states that are {name}"), met));
        }
        counts.extend(self.forced.counts());
        for (name, met) in BUFFERS.iter().zip(self.buffers) {
            counts.push((format!("buffers {name}"), met));
        }
        missing(counts, least)
    }

    fn named(&self) -> Vec<(&'static str, usize)> {
        vec![
            ("single calls", self.calls),
            ("sheets written", self.numbers[0]),
            ("turned down by 12", self.numbers[12]),
            ("turned down by 14", self.numbers[14]),
            ("12 with a buffer of no byte", self.damaged_and_short),
            ("buffers of no byte", self.no_byte),
            ("buffers of one byte", self.one_byte),
            ("buffers as long as any sheet", self.enough_for_any),
            ("buffers of more than 255", self.beyond_a_byte),
            ("sheets without an event", self.empty),
            ("sheets of 16 events", self.all_events),
            ("sheets of 16 rules", self.all_rules),
            ("sheets as long as any", self.longest),
            ("conditionals with the higher first", self.higher_first),
            ("windows", self.windows),
            ("states with a closed step", self.closed),
            ("states with a broken rule", self.broken),
            ("states with bytes past the counts", self.leftovers),
            ("sheets with four events in one record", self.fours),
            ("sheets with a rule above an event", self.mixed),
            ("sheets with both", self.fours_and_mixed),
            ("forms with four in place of one", self.parted),
            ("forms with one in place of four", self.joined),
            ("forms with a rule elsewhere", self.moved),
        ]
    }
}

/// What two sheets that declare the same can differ in.
#[derive(Default)]
struct Form {
    /// Of each event, whether it is declared with three others.
    of_four: Vec<bool>,
    /// Of each rule, how many events stand above it.
    above: Vec<usize>,
}

impl Form {
    fn of(sheet: &[u8]) -> Form {
        let mut form = Form::default();
        for record in records(sheet) {
            match record[0] {
                EVENT => form.of_four.push(false),
                FOUR_EVENTS => form.of_four.extend([true; 4]),
                WINDOW => {}
                _ => form.above.push(form.of_four.len()),
            }
        }
        form
    }

    /// Both records of four events and of one.
    fn has_both(&self) -> bool {
        self.of_four.contains(&true) && self.of_four.contains(&false)
    }

    fn is_mixed(&self) -> bool {
        self.above.iter().any(|above| *above < self.of_four.len())
    }
}
