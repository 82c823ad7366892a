//! The chosen order.
//!
//! Length by length, from one event to six, the orders made of held events
//! alone are looked at before those with an open forcible event, and the first
//! viable one is taken (document 01, with the sequence of looking that S-4 asks
//! for).
//!
//! Which events may come next and what is owed depend on the set of events done
//! so far, not on their sequence. So a walk goes over sets, in one layer for
//! each length, and keeps for each set the first sequence that reaches it,
//! compared from the front. No first order is lost by that:
//!
//! - Take the first of all sequences that reach a set, and let x be its last
//!   event. What stands before x is the first sequence for its own set: an
//!   earlier one followed by x would reach the whole set too, and earlier.
//! - So each set of the next layer gets its first sequence from a sequence kept
//!   in this one, with one event added. A layer stands in the order of its
//!   sequences; going through it in turn and adding events lowest first makes
//!   the next sequences in their order, and the first that reaches a set is the
//!   one to keep.
//! - A set is left out only when no order that is looked for goes through it,
//!   in whatever sequence it was reached. So every way to the set of such an
//!   order stays.
//!
//! The first set of a layer with the event in it and nothing owed is then the
//! first viable order of that length. The walk over held events comes first;
//! when it has none of a length, every viable order of that length has an open
//! event, and the walk over all usable events gives the first of those.
//!
//! An order also says which of its events were open, for whoever does it (S-5).
//!
//! An open trigger that nothing can stop is open or done all through a search.
//! Either way its rule says the same of the other trigger (S-6), so it is left
//! out of what has to be done for the rule to ask for its goal.
//!
//! The minute stands still during a search. So an event outside its window is in no
//! order at all (S-7), held or open.

use super::rules::Rule;
use super::scheduler::State;
use super::set::{has, lowest, members, one, within, Set};
use super::sheet::Sheet;

const LONGEST: u32 = 6;

/// The unbroken rules, turned round so that each event has its own conditions.
/// Refused and lapsed events do not change during a search and are worked in.
#[derive(Default)]
struct Terms {
    /// Events that have to be done before this one.
    waits_for: [Set; 16],
    /// Events of which none may be done before this one.
    not_after: [Set; 16],
    /// Events that no order can contain.
    never: Set,
    /// Of each rule whose goal is not refused or lapsed, the triggers that have to
    /// be done for it to ask for its goal, and the goal.
    debts: Vec<(Set, Set)>,
}

impl Terms {
    fn new(sheet: &Sheet, state: &State) -> Terms {
        let mut terms = Terms {
            never: sheet.early(state.minute) | sheet.late(state.minute),
            ..Terms::default()
        };
        let (failed, open) = (state.failed(), state.open(sheet));
        for (number, rule) in sheet.rules.iter().enumerate() {
            if !has(state.broken, number as u8) {
                terms.add(rule, failed, open);
            }
        }
        terms
    }

    fn add(&mut self, rule: &Rule, failed: Set, open: Set) {
        match *rule {
            Rule::Order {
                first,
                second,
                waits,
            } => {
                self.not_after[usize::from(first)] |= one(second);
                if waits {
                    self.waits_for[usize::from(second)] |= one(first) & !failed;
                }
            }
            Rule::Follow {
                triggers,
                goal,
                unstoppable,
                ..
            } => {
                let asked = triggers & !(unstoppable & open);
                if !has(failed, goal) {
                    self.debts.push((asked, one(goal)));
                    return;
                }
                for event in members(triggers) {
                    match asked & !one(event) {
                        0 => self.never |= one(event),
                        other => self.not_after[usize::from(event)] |= other,
                    }
                }
            }
        }
    }

    fn allows(&self, event: u8, done: Set) -> bool {
        let event = usize::from(event);
        within(self.waits_for[event], done) && self.not_after[event] & done == 0
    }

    /// The events still to be done for rules that owe.
    fn owed(&self, done: Set) -> Set {
        let mut owed = 0;
        for &(triggers, goal) in &self.debts {
            if within(triggers, done) {
                owed |= goal & !done;
            }
        }
        owed
    }
}

/// An order of 1 to 6 events, four bits for each, the first one topmost.
#[derive(Clone, Copy, Debug, PartialEq, Eq)]
pub struct Order {
    digits: u32,
    length: u32,
    forced: Set,
}

impl Order {
    pub fn events(self) -> impl Iterator<Item = u8> {
        (0..self.length)
            .rev()
            .map(move |place| (self.digits >> (4 * place) & 15) as u8)
    }

    /// Those of its events that were open when it was chosen: doing it forces them.
    pub fn forced(self) -> Set {
        self.forced
    }
}

/// A set of done events and the digits of the first sequence that reaches it.
#[derive(Clone, Copy, Debug)]
struct Reached {
    done: Set,
    digits: u32,
}

/// What the orders looked for are made of.
struct Aim {
    usable: Set,
    /// They have at least one of these.
    wanted: Set,
    /// How many more events may come after the layer being made.
    places: u32,
}

/// The sets reached, layer after layer.
#[derive(Clone, Debug)]
struct Walk {
    seen: Vec<u64>,
    reached: Vec<Reached>,
    /// Where the last layer begins.
    layer: usize,
}

impl Default for Walk {
    fn default() -> Walk {
        Walk {
            seen: vec![0; 65_536 / 64],
            reached: Vec::new(),
            layer: 0,
        }
    }
}

impl Walk {
    fn start(&mut self, done: Set) {
        for reached in self.reached.drain(..) {
            self.seen[usize::from(reached.done >> 6)] = 0;
        }
        self.reached.push(Reached { done, digits: 0 });
        self.layer = 0;
    }

    /// Makes the next layer.
    fn lengthen(&mut self, terms: &Terms, aim: &Aim) {
        let end = self.reached.len();
        for place in self.layer..end {
            let from = self.reached[place];
            for event in members(aim.usable & !from.done) {
                if terms.allows(event, from.done) {
                    self.reach(terms, aim, from, event);
                }
            }
        }
        self.layer = end;
    }

    /// Adds a set unless it is there already, or no order looked for goes
    /// through it: a debt ends only when its goal is done, so there has to be a
    /// place for every goal owed, and for a wanted event where none is done or
    /// owed.
    fn reach(&mut self, terms: &Terms, aim: &Aim, from: Reached, event: u8) {
        let done = from.done | one(event);
        let (word, bit) = (usize::from(done >> 6), 1u64 << (done & 63));
        if self.seen[word] & bit != 0 {
            return;
        }
        let owed = terms.owed(done);
        let missing = u32::from((done | owed) & aim.wanted == 0);
        if within(owed, aim.usable) && owed.count_ones() + missing <= aim.places {
            self.seen[word] |= bit;
            let digits = from.digits << 4 | u32::from(event);
            self.reached.push(Reached { done, digits });
        }
    }

    /// The lowest event of `wanted` with a viable order in the last layer, and
    /// what the first such order reaches.
    fn found(&self, terms: &Terms, mut wanted: Set) -> Option<(u8, Reached)> {
        let mut best = None;
        for reached in &self.reached[self.layer..] {
            let Some(event) = lowest(reached.done & wanted) else {
                continue;
            };
            if terms.owed(reached.done) == 0 {
                wanted &= one(event) - 1;
                best = Some((event, *reached));
            }
        }
        best
    }
}

/// The lists that a search uses; kept so that they are not made anew each time.
#[derive(Clone, Debug, Default)]
pub struct Search {
    over_held: Walk,
    over_all: Walk,
}

impl Search {
    /// The chosen order of the lowest event of `wanted` that has a viable one.
    /// The events of `wanted` are held.
    pub fn chosen(&mut self, sheet: &Sheet, state: &State, wanted: Set) -> Option<Order> {
        let terms = Terms::new(sheet, state);
        let (held, open) = (state.held & !terms.never, state.open(sheet));
        let all = held | (open & sheet.forcible & !terms.never);
        self.over_held.start(state.done);
        self.over_all.start(state.done);
        let mut wanted = wanted & held;
        let mut best = None;
        for length in 1..=LONGEST {
            let places = LONGEST - length;
            for (walk, usable) in [(&mut self.over_held, held), (&mut self.over_all, all)] {
                // Once an event has an order, only lower ones are wanted still.
                if wanted == 0 {
                    return best;
                }
                let aim = Aim {
                    usable,
                    wanted,
                    places,
                };
                walk.lengthen(&terms, &aim);
                if let Some((event, reached)) = walk.found(&terms, wanted) {
                    wanted &= one(event) - 1;
                    best = Some(Order {
                        digits: reached.digits,
                        length,
                        // What was done before the order was not open.
                        forced: reached.done & open,
                    });
                }
            }
        }
        best
    }
}
