//! What a call comes to round a conditional, read off the bytes before it and after it.

use super::sides::*;
use crate::images::layout::*;
use crate::images::marks::FORCED;
use crate::peer::calls::Call;

/// What a call can come to round one conditional, from one side of it. Where not said
/// otherwise, the trigger can't be stopped, the goal can't be forced, and the trigger is
/// open after the call.
#[derive(Clone, Copy, Debug, PartialEq, Eq)]
pub enum Scene {
    /// The other is handed in and held, or refused, for want of the goal.
    Held,
    RefusedAtOnce,
    /// It is done with the goal in one order, and after it.
    Together,
    AfterGoal,
    /// It is refused, as the goal has lapsed, and as it is refused.
    GoalLapsed,
    GoalRefused,
    /// It waited and is done as the trigger lapses; the goal lapses with that.
    Freed,
    FreedWithGoalLapsed,
    /// It waits on, as the trigger is done; it is then refused with the goal gone.
    TriggerDone,
    RefusedLater,
    /// It is done at its hand-in: the goal is forcible; the trigger is rejectable; the
    /// trigger has lapsed; and so has the goal, or it is refused.
    ForcibleGoal,
    RejectableTrigger,
    TriggerLapsed,
    BothGone,
    /// The trigger is forced, and with it the two others are done.
    TriggerForced,
    AllThree,
    /// The trigger is handed in after the two others are done.
    TriggerLast,
    /// The trigger is handed in with the other done and the goal gone, as brought.
    BrokenAsBrought,
    /// A rule with a forcible goal is broken.
    BrokenForcible,
}
use Scene::*;

/// What counts call the scenes.
pub const SCENES: [(Scene, &str); 19] = [
    (Held, "held, the goal missing"),
    (RefusedAtOnce, "refused at once, the goal missing"),
    (Together, "done with the goal in one order"),
    (AfterGoal, "done after the goal"),
    (GoalLapsed, "refused, the goal lapsed"),
    (GoalRefused, "refused, the goal refused"),
    (Freed, "freed by the trigger's lapse"),
    (FreedWithGoalLapsed, "freed, the goal lapsed as well"),
    (TriggerDone, "still held, the trigger done"),
    (RefusedLater, "refused, the trigger done before"),
    (ForcibleGoal, "done at once, the goal forcible"),
    (RejectableTrigger, "done at once, the trigger rejectable"),
    (TriggerLapsed, "done at once, the trigger lapsed"),
    (BothGone, "done at once, trigger and goal gone"),
    (TriggerForced, "the trigger forced"),
    (AllThree, "the trigger forced with the two others"),
    (TriggerLast, "the trigger last of three"),
    (BrokenAsBrought, "broken, as brought"),
    (BrokenForcible, "broken, the goal forcible"),
];

/// A call, with the bytes before it and after it.
pub struct Step<'a> {
    pub call: Call,
    pub before: &'a Image,
    pub after: &'a Image,
    /// What is known of the bytes that the call leads to without S-6.
    pub otherwise: Otherwise,
}

/// The call's result without S-6.
#[derive(Clone, Debug)]
pub enum Otherwise {
    /// No one was asked.
    NotAsked,
    /// It takes too long to find out.
    Unknown,
    /// S-6 says nothing of these bytes.
    Same,
    Known(Box<Image>),
}

impl Otherwise {
    /// Whether S-6 has decided the call, which led to these bytes.
    pub fn is_decided(&self, after: &Image) -> bool {
        matches!(self, Otherwise::Known(image) if **image != *after)
    }

    /// Whether it has decided this event's fate, as far as anyone was asked.
    fn is_decided_for(&self, event: usize, after: &Image) -> bool {
        match self {
            Otherwise::NotAsked => true,
            Otherwise::Known(image) => image[FATE + event] != after[FATE + event],
            Otherwise::Unknown | Otherwise::Same => false,
        }
    }
}

impl Step<'_> {
    fn hands_in(&self, event: usize) -> bool {
        self.call == Call::Submit(event as u8)
    }

    fn line(&self, event: usize) -> Option<usize> {
        let lines = &self.after[LINE_EVENT..][..usize::from(self.after[LINES])];
        lines.iter().position(|line| usize::from(*line) == event)
    }

    fn is_new(&self, event: usize) -> bool {
        let line = self.line(event);
        line.is_some_and(|line| line >= usize::from(self.before[LINES]))
    }

    pub fn is(&self, scene: Scene, side: &Side) -> bool {
        let was = side.fates(self.before);
        let meant = side.is_meant(self.before) && !side.is_broken(self.before);
        match scene {
            Held | RefusedAtOnce | GoalLapsed | GoalRefused => {
                meant && was[1] == OPEN && self.keeps_from(scene, side)
            }
            Together | AfterGoal | Freed | FreedWithGoalLapsed | TriggerForced | AllThree => {
                meant && was[1] == OPEN && self.does(scene, side)
            }
            TriggerDone | RefusedLater | TriggerLast | TriggerLapsed | BothGone => {
                meant && self.leaves(scene, side)
            }
            ForcibleGoal | RejectableTrigger => self.lets(scene, side),
            BrokenAsBrought | BrokenForcible => {
                let new = !side.is_broken(self.before) && side.is_broken(self.after);
                let forcible = side.has_forcible_goal(self.before);
                new && self.hands_in(side.trigger) && forcible == (scene == BrokenForcible)
            }
        }
    }

    /// The other is held or refused by S-6, and the trigger stays open.
    fn keeps_from(&self, scene: Scene, side: &Side) -> bool {
        let [other, trigger, goal] = side.fates(self.after);
        let own = self.hands_in(side.other) && is_unsettled(goal);
        let refused = other == REFUSED && self.is_new(side.other);
        let fits = match scene {
            Held => own && other == HELD && side.fates(self.before)[0] == OPEN,
            RefusedAtOnce => own && refused,
            GoalLapsed => refused && goal == LAPSED,
            GoalRefused => refused && goal == REFUSED,
            _ => false,
        };
        fits && trigger == OPEN && self.otherwise.is_decided_for(side.other, self.after)
    }

    /// The other is done, or the trigger forced. In one order with the goal the other may
    /// stand before it, and in no other way.
    fn does(&self, scene: Scene, side: &Side) -> bool {
        let [other, trigger, goal] = side.fates(self.after);
        let waited = side.fates(self.before)[0] == HELD;
        let done = is_done(other) && self.is_new(side.other);
        let first = self.line(side.other) < self.line(side.goal);
        let freed = waited && done && trigger == LAPSED;
        match scene {
            Together => done && is_done(goal) && trigger == OPEN && first,
            AfterGoal => done && is_done(goal) && trigger == OPEN && !first,
            Freed => freed && is_unsettled(goal),
            FreedWithGoalLapsed => freed && goal == LAPSED,
            TriggerForced => trigger == FORCED,
            AllThree => trigger == FORCED && done && is_done(goal) && self.is_new(side.goal),
            _ => false,
        }
    }

    /// What comes once the trigger is settled.
    fn leaves(&self, scene: Scene, side: &Side) -> bool {
        let was = side.fates(self.before);
        let [other, trigger, goal] = side.fates(self.after);
        let at_once = self.hands_in(side.other) && self.is_new(side.other) && is_done(other);
        let own = self.hands_in(side.trigger) && was[1] == OPEN && is_done(trigger);
        match scene {
            TriggerDone => own && was[0] == HELD && other == HELD,
            RefusedLater => was[0] == HELD && is_done(was[1]) && other == REFUSED && is_gone(goal),
            TriggerLast => own && is_done(was[0]) && is_done(was[2]),
            TriggerLapsed => at_once && was[1] == LAPSED && is_unsettled(goal),
            BothGone => at_once && was[1] == LAPSED && is_gone(goal),
            _ => false,
        }
    }

    /// The other is done with the goal unsettled and the trigger open, as S-6 is not about
    /// this conditional.
    fn lets(&self, scene: Scene, side: &Side) -> bool {
        let [other, trigger, goal] = side.fates(self.after);
        let done = self.hands_in(side.other) && self.is_new(side.other) && is_done(other);
        let (firm, forcible) = (
            side.is_unstoppable(self.before),
            side.has_forcible_goal(self.before),
        );
        let kind = if scene == ForcibleGoal {
            firm && forcible
        } else {
            !firm && !forcible
        };
        kind && done && trigger == OPEN && is_unsettled(goal)
    }
}
