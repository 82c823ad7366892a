//! Sheets on which orders force events: most events are forcible, and rules lead to them.

use super::shapes::chain;
use super::sheets::{add_rule, finish, Draft, Made};
use super::Random;

/// What the attributes of one sheet are picked from.
const PALETTES: &[&[u8]] = &[
    &[1],
    &[7],
    &[1, 7],
    &[1, 3, 7],
    &[0, 1, 1, 7],
    &[1, 6, 7, 7],
    &[1, 2, 3, 6, 7],
    &[0, 1, 1, 3, 6, 7, 7],
];
const MOST_RULES: usize = 16;

/// An admitted sheet, at times with a chain or a ring of needs, so that much is forced at
/// once, and at times with an event that waits and then forces.
pub fn forcible_sheet(random: &mut Random) -> Made {
    let events = random.pick(&[2, 3, 3, 4, 4, 5, 6, 7, 8, 10, 16]);
    let palette = random.pick(PALETTES);
    let steps = random.between(1, 8);
    let mut draft = Draft::default();
    if events > 3 && random.percent(30) {
        add_waiting(random, &mut draft);
    }
    while draft.events() < events {
        let step = random.below(steps) as u8;
        let sum = random.pick(palette);
        draft.declare(step, sum);
    }
    if random.percent(30) {
        let mut row: Vec<u8> = (0..events as u8).collect();
        random.shuffle(&mut row);
        row.truncate(random.between(2, events));
        row.extend(random.percent(30).then_some(row[0]));
        draft.add_fitting(chain(3, &row), MOST_RULES);
    }
    let rules = random.between(events / 2, 2 * events).min(MOST_RULES);
    for _ in draft.rules..rules {
        add_rule(random, &mut draft);
    }
    finish(random, draft, false)
}

/// Three events of three steps: the first can't be forced, and the second waits for it and
/// needs the third. A closing of the first step forces the third.
pub(super) fn add_waiting(random: &mut Random, draft: &mut Draft) {
    let mut steps: Vec<u8> = (0..8).collect();
    random.shuffle(&mut steps);
    for (step, sums) in steps.into_iter().zip([&[0, 2, 6][..], &[6, 7], &[1, 3, 7]]) {
        let sum = random.pick(sums);
        draft.declare(step, sum);
    }
    draft.add_rule(vec![2, 0, 1]);
    draft.add_rule(vec![3, 1, 2]);
}
