//! Random sheets. They are valid most of the time; the rest are damaged in a
//! way that aims at one row of the table, or are random bytes.

use super::damage::damage;
use super::shapes::shaped;
use super::Random;

const DAMAGED_PERCENT: u64 = 25;
const CHAIN_PERCENT: u64 = 20;
const SHAPED_PERCENT: u64 = 55;
/// st, pr, cm, ab.
pub(super) const FOUR: [u8; 4] = [7, 0, 6, 1];
/// Delayable or forcible.
const ACTIVE: u8 = 5;

/// A sheet being made, record by record, without its end.
#[derive(Clone, Debug, Default)]
pub struct Draft {
    pub records: Vec<Vec<u8>>,
    attributes: Vec<u8>,
    steps: Vec<u8>,
    pub rules: usize,
}

impl Draft {
    pub fn bytes(&self) -> Vec<u8> {
        let mut bytes = self.records.concat();
        bytes.push(5);
        bytes
    }

    pub fn events(&self) -> usize {
        self.attributes.len()
    }

    fn active(&self) -> usize {
        let active = |sum: &&u8| **sum & ACTIVE != 0;
        self.attributes.iter().filter(active).count()
    }

    pub fn declare(&mut self, step: u8, sum: u8) {
        self.records.push(vec![1, step, sum]);
        self.attributes.push(sum);
        self.steps.push(step);
    }

    pub fn declare_four(&mut self, step: u8) {
        self.records.push(vec![6, step]);
        self.attributes.extend(FOUR);
        self.steps.extend([step; 4]);
    }

    /// The delayable events, lowest first.
    pub fn delayable(&self) -> impl Iterator<Item = u8> + '_ {
        let all = 0..self.events() as u8;
        all.filter(|event| self.is(*event, 4))
    }

    /// How many events the records above a place declare.
    pub fn events_above(&self, place: usize) -> usize {
        let declares = |record: &Vec<u8>| match record[0] {
            1 => 1,
            6 => 4,
            _ => 0,
        };
        self.records[..place].iter().map(declares).sum()
    }

    /// How many of the records it takes to declare an event.
    pub fn declared_by(&self, event: u8) -> usize {
        let declares = |place: &usize| self.events_above(*place) > usize::from(event);
        (0..self.records.len())
            .find(declares)
            .unwrap_or(self.records.len())
    }

    pub fn add_rule(&mut self, rule: Vec<u8>) {
        self.records.push(rule);
        self.rules += 1;
    }

    /// Adds those of the rules that are enforceable, up to `most` on the sheet.
    pub fn add_fitting(&mut self, rules: Vec<Vec<u8>>, most: usize) {
        for rule in rules {
            if self.rules < most && self.enforceable(&rule) {
                self.add_rule(rule);
            }
        }
    }

    fn is(&self, event: u8, attribute: u8) -> bool {
        self.attributes[usize::from(event)] & attribute != 0
    }

    pub fn enforceable(&self, rule: &[u8]) -> bool {
        match *rule {
            [2, a, b] => self.is(b, 4) || self.is(a, 2),
            [3, a, b] => self.is(a, 2) || self.is(b, 1),
            [4, a, b, c] => self.is(a, 2) || self.is(b, 2) || self.is(c, 1),
            _ => false,
        }
    }
}

/// The record of a window.
pub fn window_record(event: u8, from: u32, until: u32) -> Vec<u8> {
    let minutes = [from, until].map(u32::to_le_bytes).concat();
    [&[7, event][..], &minutes].concat()
}

/// One sheet with the lists' view of it: the number of its events and its
/// steps. For a damaged sheet they are those before the damage.
pub struct Made {
    pub bytes: Vec<u8>,
    pub events: usize,
    pub steps: Vec<u8>,
}

pub fn sheet(random: &mut Random) -> Made {
    let draft = draft(random);
    let damaged = random.percent(DAMAGED_PERCENT);
    finish(random, draft, damaged)
}

/// An admitted sheet of at most `most` events.
pub fn admitted_sheet(random: &mut Random, most: usize) -> Made {
    let events = random.between(1, most);
    let rules = random.between(0, 2 * events).min(16);
    let draft = draft_of(random, events, rules);
    finish(random, draft, false)
}

pub fn finish(random: &mut Random, draft: Draft, damaged: bool) -> Made {
    let (events, mut steps) = (draft.events(), draft.steps.clone());
    steps.sort_unstable();
    steps.dedup();
    let bytes = if damaged {
        damage(random, draft)
    } else {
        draft.bytes()
    };
    Made {
        bytes,
        events,
        steps,
    }
}

/// A chain, some shapes, or events and rules of all sorts.
fn draft(random: &mut Random) -> Draft {
    if random.percent(CHAIN_PERCENT) {
        return draft_chain(random);
    }
    if random.percent(SHAPED_PERCENT) {
        return draft_shaped(random);
    }
    let (least, most) = random.pick(&[(0, 3), (2, 4), (3, 6), (5, 8), (7, 12), (13, 16)]);
    let events = random.between(least, most);
    let rules = if random.percent(80) {
        random.between(events / 2, 2 * events).min(16)
    } else {
        random.between(0, 16)
    };
    draft_of(random, events, rules)
}

/// Events and rules in mixed order. Some sheets favour delayable events, some
/// forcible ones; some have a chain of needs.
pub(super) fn draft_of(random: &mut Random, events: usize, rules: usize) -> Draft {
    const DELAYED: &[u8] = &[6, 6, 6, 6, 7, 1, 0];
    const FORCED: &[u8] = &[1, 1, 7, 7, 3, 6, 0];
    const EVEN: &[u8] = &[0, 1, 2, 3, 6, 7, 6, 6];
    let palette = random.pick(&[DELAYED, FORCED, EVEN, &[6], EVEN]);
    let steps = random.between(1, 8) as u8;
    let shift = random.below(8) as u8;
    let mixed = random.percent(40);
    let mut draft = Draft::default();
    while draft.events() < events {
        let step = (random.below(usize::from(steps)) as u8 + shift) % 8;
        if draft.events() + 4 <= events && random.percent(20) {
            draft.declare_four(step);
        } else {
            let sum = random.pick(palette);
            draft.declare(step, sum);
        }
        if mixed && draft.rules < rules && random.percent(40) {
            add_rule(random, &mut draft);
        }
    }
    if random.percent(25) {
        add_chain(random, &mut draft, rules);
    }
    for _ in draft.rules..rules {
        add_rule(random, &mut draft);
    }
    draft
}

/// Mostly delayable events in one chain or ring, and few other rules: long
/// orders, and events held until the winding up.
fn draft_chain(random: &mut Random) -> Draft {
    let mut draft = Draft::default();
    for event in 0..random.pick(&[2, 2, 3, 4, 5, 6, 6, 6, 7, 7, 8, 12, 16]) {
        let sum = random.pick(&[6, 6, 6, 6, 6, 6, 6, 6, 7, 1]);
        draft.declare(event % 8, sum);
    }
    let mut chain: Vec<u8> = (0..draft.events() as u8).collect();
    random.shuffle(&mut chain);
    link(random, &mut draft, chain, 16);
    let more = random.below(3);
    for _ in 0..more.min(16 - draft.rules) {
        add_rule(random, &mut draft);
    }
    draft
}

/// Rings, stars and the like, and few other rules.
fn draft_shaped(random: &mut Random) -> Draft {
    let (least, most) = random.pick(&[(2, 5), (3, 7), (6, 12), (16, 16), (16, 16)]);
    let events = random.between(least, most);
    let mut draft = shaped(random, events);
    let more = random.pick(&[0, 0, 1, 2, 5]);
    for _ in 0..more.min(16 - draft.rules) {
        add_rule(random, &mut draft);
    }
    draft
}

/// A random rule that is enforceable, if one turns up.
pub fn add_rule(random: &mut Random, draft: &mut Draft) {
    for _ in 0..20 {
        let Some(rule) = any_rule(random, draft) else {
            return;
        };
        if draft.enforceable(&rule) {
            draft.add_rule(rule);
            return;
        }
    }
}

/// A random rule on different declared events, enforceable or not.
pub fn any_rule(random: &mut Random, draft: &Draft) -> Option<Vec<u8>> {
    let kind = random.pick(&[2, 2, 3, 3, 3, 4, 4]);
    let length = if kind == 4 { 3 } else { 2 };
    if draft.events() < length {
        return None;
    }
    let mut events: Vec<u8> = (0..draft.events() as u8).collect();
    random.shuffle(&mut events);
    if random.percent(60) {
        // On active events, as far as there are enough of them.
        events.sort_by_key(|event| !draft.is(*event, ACTIVE));
        let active = draft.active().max(length).min(draft.events());
        random.shuffle(&mut events[..active]);
    }
    let mut rule = vec![kind];
    rule.extend(&events[..length]);
    Some(rule)
}

/// Needs, orders or both from one active event to the next, sometimes closed
/// to a ring.
fn add_chain(random: &mut Random, draft: &mut Draft, rules: usize) {
    let all = 0..draft.events() as u8;
    let mut chain: Vec<u8> = all.filter(|event| draft.is(*event, ACTIVE)).collect();
    if random.percent(70) {
        random.shuffle(&mut chain);
    }
    if random.percent(30) {
        chain.truncate(random.between(2, 5));
    }
    link(random, draft, chain, rules);
}

/// A rule from each event of the chain to the next, as far as enforceable.
fn link(random: &mut Random, draft: &mut Draft, mut chain: Vec<u8>, rules: usize) {
    if chain.len() > 1 && random.percent(60) {
        chain.push(chain[0]);
    }
    let kinds: &[u8] = random.pick(&[&[3], &[3], &[2], &[2, 3], &[2, 3, 3, 3, 3, 3]]);
    for pair in chain.windows(2) {
        let rule = vec![random.pick(kinds), pair[0], pair[1]];
        if draft.rules < rules && draft.enforceable(&rule) {
            draft.add_rule(rule);
        }
    }
}
