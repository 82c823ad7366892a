//! What one rule says.
//!
//! A need a, b and a conditional a, b, c are one form here: once all triggers
//! are done, the goal has to be done too. A need has one trigger, so "the other
//! triggers are done" holds of it always; a conditional has two, so doing
//! either is forbidden only when the other is done already.
//!
//! An open trigger that nothing can stop is as good as done for the other one,
//! if the goal can't be forced either (S-6): whatever is done beside it has to
//! have the goal. That ends when the trigger is settled, or held as it is handed
//! in.

use super::set::{has, one, within, Set};

/// How the events stand, as far as rules ask. Those in none of the sets are held.
#[derive(Clone, Copy, Debug)]
pub struct Standing {
    pub open: Set,
    pub done: Set,
    /// Refused or lapsed.
    pub failed: Set,
}

#[derive(Clone, Copy, Debug, PartialEq, Eq)]
pub enum Rule {
    /// `waits` is true when `second` is delayable. It is an attribute of the
    /// event, so a forced `second` waits as well.
    Order { first: u8, second: u8, waits: bool },
    Follow {
        triggers: Set,
        goal: u8,
        /// Of a goal that can't be forced, the trigger that is neither rejectable
        /// nor delayable. There is one at most, as the other makes the rule
        /// enforceable; a need has none.
        unstoppable: Set,
        /// The trigger that the sheet names first. What the rule says does not
        /// depend on it, what the sheet says does.
        named_first: u8,
    },
}

impl Rule {
    /// Forbids doing `event` for good: every ground but waiting.
    pub fn bars(&self, event: u8, at: Standing) -> bool {
        match *self {
            Rule::Order { first, second, .. } => event == first && has(at.done, second),
            Rule::Follow {
                triggers,
                goal,
                unstoppable,
                ..
            } => {
                let counted = at.done | (unstoppable & at.open);
                has(triggers, event)
                    && within(triggers & !one(event), counted)
                    && has(at.failed, goal)
            }
        }
    }

    /// Forbids doing `event` for now: the second of an order while the first is
    /// unsettled. A held first is not settled. (The search works this ground in
    /// for itself; an event done alone is not delayable and never waits.)
    pub fn delays(&self, event: u8, at: Standing) -> bool {
        match *self {
            Rule::Order {
                first,
                second,
                waits,
            } => waits && event == second && !has(at.done | at.failed, first),
            Rule::Follow { .. } => false,
        }
    }

    pub fn forbids(&self, event: u8, at: Standing) -> bool {
        self.bars(event, at) || self.delays(event, at)
    }

    pub fn owes(&self, at: Standing) -> bool {
        match *self {
            Rule::Order { .. } => false,
            Rule::Follow {
                triggers,
                goal,
                unstoppable,
                ..
            } => {
                let counted = at.done | (unstoppable & at.open);
                within(triggers, counted) && !has(at.done | at.failed, goal)
            }
        }
    }
}
