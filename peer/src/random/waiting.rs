//! Sheets with conditionals of which nothing can stop a or b, and lists of calls round
//! them (S-6). Some come close and are not of that sort: their third event is forcible,
//! or both others are rejectable.

use super::lists::any_call;
use super::sheets::{add_rule, finish, Draft, Made};
use super::Random;
use crate::peer::calls::Call;
use crate::peer::sheet::{MOST_EVENTS, MOST_RULES};

/// What the attributes of one sheet are picked from, by part.
struct Palette {
    others: &'static [u8],
    triggers: &'static [u8],
    goals: &'static [u8],
}

const PALETTES: &[Palette] = &[
    Palette {
        others: &[6],
        triggers: &[0],
        goals: &[6],
    },
    Palette {
        others: &[6, 6, 7],
        triggers: &[0, 1],
        goals: &[6, 2],
    },
    Palette {
        others: &[6, 7, 7],
        triggers: &[1],
        goals: &[6, 6, 0],
    },
    Palette {
        others: &[6, 6, 7, 2, 3],
        triggers: &[0, 0, 1, 2],
        goals: &[6, 6, 2, 0, 7],
    },
    Palette {
        others: &[6, 6, 7, 2, 3],
        triggers: &[0, 1],
        goals: &[2, 2, 6, 0],
    },
    Palette {
        others: &[6],
        triggers: &[0, 0, 1],
        goals: &[2, 6],
    },
    Palette {
        others: &[0, 1, 6, 6, 7],
        triggers: &[0, 1, 1],
        goals: &[7, 1, 3],
    },
    Palette {
        others: &[6, 6, 7, 3],
        triggers: &[2, 3, 6, 7],
        goals: &[6, 6, 2, 0],
    },
    Palette {
        others: &[0, 1, 2, 3, 6, 7],
        triggers: &[0, 1, 2, 3, 6, 7],
        goals: &[0, 1, 2, 3, 6, 7],
    },
];

/// What an event is in the conditionals of a sheet.
#[derive(Clone, Copy, PartialEq, Eq)]
enum Part {
    Other,
    Trigger,
    Goal,
}

/// The events of one conditional: one of a and b, the one that may be left open beside
/// it, and c.
#[derive(Clone, Copy, Debug)]
pub struct Three {
    pub other: u8,
    pub trigger: u8,
    pub goal: u8,
}

impl Three {
    fn events(self) -> [u8; 3] {
        [self.other, self.trigger, self.goal]
    }
}

/// A sheet with its conditionals and the step of each event.
pub struct Waiting {
    pub made: Made,
    pub threes: Vec<Three>,
    steps: Vec<u8>,
}

/// An admitted sheet with one such conditional or more, which share events, and other
/// rules that name those events.
pub fn waiting_sheet(random: &mut Random) -> Waiting {
    loop {
        let events = random.pick(&[3, 3, 3, 4, 4, 4, 5, 5, 6, 6, 7, 9, 16]);
        let parts = parts(random, events);
        let steps = steps(random, events);
        let mut draft = declared(random, &parts, &steps);
        let mut threes = Vec::new();
        for _ in 0..random.pick(&[1, 1, 1, 2, 2, 3, 4, events]) {
            threes.extend(add_conditional(random, &mut draft, &parts));
        }
        if threes.is_empty() {
            continue;
        }
        for _ in 0..random.pick(&[0, 0, 1, 1, 1, 2, 3, events]) {
            let three = random.pick(&threes);
            add_neighbour(random, &mut draft, three);
        }
        let made = finish(random, draft, false);
        return Waiting {
            made,
            threes,
            steps,
        };
    }
}

/// The part of each event; there is one of each part at least.
fn parts(random: &mut Random, events: usize) -> Vec<Part> {
    use Part::{Goal, Other, Trigger};
    let mut parts = vec![Other, Trigger, Goal];
    while parts.len() < events {
        parts.push(random.pick(&[Other, Other, Trigger, Goal, Goal]));
    }
    random.shuffle(&mut parts);
    parts
}

/// Most often a step for each event, as far as there are enough.
fn steps(random: &mut Random, events: usize) -> Vec<u8> {
    let few = random.between(1, 8);
    let apart = random.percent(70);
    let step = |event| if apart { event % 8 } else { random.below(few) };
    (0..events).map(step).map(|step| step as u8).collect()
}

fn declared(random: &mut Random, parts: &[Part], steps: &[u8]) -> Draft {
    let palette = &PALETTES[random.below(PALETTES.len())];
    let mut draft = Draft::default();
    for (part, step) in parts.iter().zip(steps) {
        let sum = random.pick(match part {
            Part::Other => palette.others,
            Part::Trigger => palette.triggers,
            Part::Goal => palette.goals,
        });
        draft.declare(*step, sum);
    }
    draft
}

/// A conditional on an event of each part, with the trigger as a or as b, if that is
/// enforceable.
fn add_conditional(random: &mut Random, draft: &mut Draft, parts: &[Part]) -> Option<Three> {
    let mut any_of = |part| {
        let events = (0..).zip(parts).filter(|(_, own)| **own == part);
        let events: Vec<u8> = events.map(|(event, _)| event).collect();
        random.pick(&events)
    };
    let (other, trigger, goal) = (
        any_of(Part::Other),
        any_of(Part::Trigger),
        any_of(Part::Goal),
    );
    let rule = if random.percent(50) {
        vec![4, other, trigger, goal]
    } else {
        vec![4, trigger, other, goal]
    };
    if draft.rules == MOST_RULES || !draft.enforceable(&rule) {
        return None;
    }
    draft.add_rule(rule);
    Some(Three {
        other,
        trigger,
        goal,
    })
}

/// An order or a need that names an event of the conditional, or any rule: the goal is
/// barred or waits, the trigger is needed or goes before the other, and so on.
fn add_neighbour(random: &mut Random, draft: &mut Draft, three: Three) {
    let any = outsider(random, draft.events(), three);
    let rule = match random.below(15) {
        0..=2 => vec![3, three.goal, any],
        3 => vec![3, three.goal, three.trigger],
        4 => vec![3, three.goal, three.other],
        5 => vec![2, three.goal, any],
        6 => vec![2, any, three.goal],
        7 => vec![3, any, three.trigger],
        8 => vec![3, three.other, three.trigger],
        9 => vec![2, three.trigger, three.other],
        10 => vec![2, three.other, three.trigger],
        11 => vec![3, three.other, any],
        12 => vec![3, three.trigger, any],
        _ => {
            if draft.rules < MOST_RULES {
                add_rule(random, draft);
            }
            return;
        }
    };
    if rule[1] != rule[2] {
        draft.add_fitting(vec![rule], MOST_RULES);
    }
}

/// Most often an event that is none of the three, if there is one.
fn outsider(random: &mut Random, events: usize, three: Three) -> u8 {
    let mut any = random.below(events) as u8;
    for _ in 0..3 {
        if three.events().contains(&any) {
            any = random.below(events) as u8;
        }
    }
    any
}

/// A list for such a sheet: at first hand-ins of one conditional's events and closings of
/// their steps in any sequence, then most events, with closings, calls of any number and
/// now and then a winding up among them.
pub fn waiting_calls(random: &mut Random, waiting: &Waiting) -> Vec<Call> {
    let mut calls = Vec::new();
    for _ in 0..random.pick(&[0, 1, 1, 1, 2]) {
        let three = random.pick(&waiting.threes);
        calls.extend(scene(random, waiting, three));
    }
    let mut rest: Vec<Call> = (0..waiting.made.events as u8).map(Call::Submit).collect();
    random.shuffle(&mut rest);
    rest.truncate(random.between(0, MOST_EVENTS.min(2 * rest.len())));
    let closings = random.pick(&[0, 1, 1, 2, 3]);
    rest.extend((0..closings).map(|_| Call::CloseStep(random.pick(&waiting.made.steps))));
    let any = random.pick(&[0, 0, 0, 1, 2]);
    rest.extend((0..any).map(|_| any_call(random)));
    random.shuffle(&mut rest);
    calls.extend(rest);
    if random.percent(40) {
        calls.extend(ending(random, &waiting.made));
    }
    calls
}

/// Some calls on the events of one conditional, the other often first.
fn scene(random: &mut Random, waiting: &Waiting, three: Three) -> Vec<Call> {
    let step = |event: u8| waiting.steps[usize::from(event)];
    let hand_ins = three.events().map(Call::Submit);
    let closings = three.events().map(|event| Call::CloseStep(step(event)));
    let mut calls = hand_ins.to_vec();
    calls.extend(&closings[1..]);
    if random.percent(20) {
        calls.push(closings[0]);
    }
    if random.percent(40) {
        let any = outsider(random, waiting.made.events, three);
        calls.push(random.pick(&[Call::Submit(any), Call::CloseStep(step(any))]));
    }
    random.shuffle(&mut calls);
    if random.percent(50) {
        calls.retain(|call| *call != hand_ins[0]);
        calls.insert(0, hand_ins[0]);
    }
    calls.truncate(random.between(2, calls.len()));
    calls
}

/// All steps closed, in any sequence, and wound up.
fn ending(random: &mut Random, made: &Made) -> Vec<Call> {
    let mut steps = made.steps.clone();
    random.shuffle(&mut steps);
    let mut calls: Vec<Call> = steps.into_iter().map(Call::CloseStep).collect();
    calls.push(Call::Finish);
    calls
}
