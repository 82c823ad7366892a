//! The conditionals of a state, read off its bytes alone, and what has to hold of them
//! after every call from an admitted sheet on.

use crate::images::layout::*;
use crate::images::marks::{bare, DONE, FORCIBLE};

pub const OPEN: u8 = 0;
pub const HELD: u8 = 1;
pub const REFUSED: u8 = 3;
pub const LAPSED: u8 = 4;
const REJECTABLE: u8 = 2;
const DELAYABLE: u8 = 4;
const CONDITIONAL: u8 = 4;

/// A conditional, seen from one of its a and b.
#[derive(Clone, Copy, Debug)]
pub struct Side {
    pub rule: usize,
    /// Whether the trigger is a, or b; the place in a count.
    pub place: usize,
    /// The one that may be left open, and the one beside it.
    pub trigger: usize,
    pub other: usize,
    pub goal: usize,
}

/// Every conditional twice: its a is the trigger, then its b.
pub fn sides(image: &Image) -> Vec<Side> {
    let mut found = Vec::new();
    for rule in 0..usize::from(image[RULES]) {
        if image[RULE_KIND + rule] != CONDITIONAL {
            continue;
        }
        let [a, b, goal] = [RULE_A, RULE_B, RULE_C].map(|row| usize::from(image[row + rule]));
        for (place, (trigger, other)) in [(a, b), (b, a)].into_iter().enumerate() {
            found.push(Side {
                rule,
                place,
                trigger,
                other,
                goal,
            });
        }
    }
    found
}

impl Side {
    fn sum(&self, image: &Image, event: usize) -> u8 {
        image[ATTRIBUTES + event]
    }

    /// Nothing can stop the trigger.
    pub fn is_unstoppable(&self, image: &Image) -> bool {
        self.sum(image, self.trigger) & (REJECTABLE | DELAYABLE) == 0
    }

    pub fn has_forcible_goal(&self, image: &Image) -> bool {
        self.sum(image, self.goal) & FORCIBLE != 0
    }

    /// Whether the conditional is one that S-6 is about, from this side.
    pub fn is_meant(&self, image: &Image) -> bool {
        self.is_unstoppable(image) && !self.has_forcible_goal(image)
    }

    pub fn is_broken(&self, image: &Image) -> bool {
        image[BROKEN + self.rule] == 1
    }

    /// Whether S-6 can say anything in a call on these bytes.
    pub fn is_live(&self, image: &Image) -> bool {
        let [other, trigger, goal] = self.fates(image);
        self.is_meant(image)
            && !self.is_broken(image)
            && trigger == OPEN
            && is_unsettled(other)
            && !is_done(goal)
    }

    /// Of the other, the trigger and the goal.
    pub fn fates(&self, image: &Image) -> [u8; 3] {
        [self.other, self.trigger, self.goal].map(|event| image[FATE + event])
    }
}

pub fn is_unsettled(fate: u8) -> bool {
    [OPEN, HELD].contains(&fate)
}

pub fn is_done(fate: u8) -> bool {
    bare(fate) == DONE
}

pub fn is_gone(fate: u8) -> bool {
    [REFUSED, LAPSED].contains(&fate)
}

/// Asks for what S-6 promises between calls from an admitted sheet on: where an open
/// trigger can't be stopped, its other is done only if the goal is; and a conditional is
/// broken only if its goal is forcible and one of its a and b is not rejectable.
pub fn kept(image: &Image) -> Result<(), String> {
    for side in sides(image) {
        let [other, trigger, goal] = side.fates(image);
        let early = is_done(other) && trigger == OPEN && !is_done(goal);
        if side.is_meant(image) && early {
            return Err(format!("rule {}: done without the goal", side.rule));
        }
        let both = [side.trigger, side.other].map(|event| side.sum(image, event));
        let firm = both.iter().any(|sum| sum & REJECTABLE == 0);
        if side.is_broken(image) && !(side.has_forcible_goal(image) && firm) {
            return Err(format!("rule {}: broken, and could be kept", side.rule));
        }
    }
    Ok(())
}
