//! Sheets of a shape: rings, chains and stars of needs; orders in a row, in a
//! ring, among all of some events or against each other; conditionals along a
//! row or round one event. They are the sheets that are hard to search.

use super::sheets::{add_rule, finish, Draft, Made};
use super::Random;

/// What the attributes of one sheet are picked from. With the first nine every
/// event can stand in an order.
const PALETTES: &[&[u8]] = &[
    &[6],
    &[6],
    &[7],
    &[1],
    &[6, 7],
    &[1, 7],
    &[6, 6, 6, 1],
    &[6, 6, 6, 7, 1],
    &[1, 3, 6, 7],
    &[6, 6, 6, 6, 0],
    &[0, 2, 6, 7],
    &[0, 1, 2, 3, 6, 7],
];

/// An admitted sheet of exactly 16 events and 16 rules.
pub fn hostile_sheet(random: &mut Random) -> Made {
    loop {
        let mut draft = shaped(random, 16);
        for _ in draft.rules..16 {
            add_rule(random, &mut draft);
        }
        if draft.rules == 16 {
            return finish(random, draft, false);
        }
    }
}

/// At least two events with rules in one to four shapes.
pub fn shaped(random: &mut Random, events: usize) -> Draft {
    let palette = random.pick(PALETTES);
    let steps = random.pick(&[1, 2, 5, 8, 8, 8]);
    let mut draft = Draft::default();
    for event in 0..events {
        let sum = random.pick(palette);
        draft.declare((event % steps) as u8, sum);
    }
    let mut row: Vec<u8> = (0..events as u8).collect();
    if random.percent(60) {
        random.shuffle(&mut row);
    }
    for _ in 0..random.pick(&[1, 1, 2, 2, 3, 4]) {
        // Six and seven lie on either side of the longest order.
        let any = random.between(2, events);
        let size = random.pick(&[events, events, 6, 7, any]).min(events);
        let start = random.below(events - size + 1);
        let mut rules = shape(random, &row[start..start + size]);
        if random.percent(30) {
            random.shuffle(&mut rules);
        }
        draft.add_fitting(rules, 16);
    }
    draft
}

/// The rules of one shape on the events of the row, which are two or more. The
/// first is the hub of a star.
fn shape(random: &mut Random, row: &[u8]) -> Vec<Vec<u8>> {
    let (hub, others) = (row[0], &row[1..]);
    let either = random.pick(&[2, 3]);
    match random.below(12) {
        0 | 1 => ring(3, row),
        2 => chain(3, row),
        3 => others.iter().map(|event| vec![3, *event, hub]).collect(),
        4 => others.iter().map(|event| vec![3, hub, *event]).collect(),
        5 => ring(2, row),
        6 => chain(2, row),
        7 => all_in_order(&row[..row.len().min(6)]),
        8 => {
            // Rings of two are rules against each other.
            let size = random.pick(&[2, 2, 2, 3, 5, 6, 7]);
            let parts = row.chunks(size).filter(|part| part.len() > 1);
            parts.flat_map(|part| ring(either, part)).collect()
        }
        9 => {
            let back: Vec<u8> = row.iter().rev().copied().collect();
            let needs = chain(3, row).into_iter();
            needs
                .zip(chain(2, &back))
                .flat_map(<[_; 2]>::from)
                .collect()
        }
        10 => row.windows(3).map(|three| [&[4], three].concat()).collect(),
        _ => {
            let parts = others.windows(2);
            parts.map(|two| [&[4, hub], two].concat()).collect()
        }
    }
}

/// A rule from each event to the next.
pub(super) fn chain(kind: u8, row: &[u8]) -> Vec<Vec<u8>> {
    row.windows(2).map(|two| [&[kind], two].concat()).collect()
}

fn ring(kind: u8, row: &[u8]) -> Vec<Vec<u8>> {
    chain(kind, &[row, &row[..1]].concat())
}

/// Each event before every later one of the row.
fn all_in_order(row: &[u8]) -> Vec<Vec<u8>> {
    let mut rules = Vec::new();
    for (place, first) in row.iter().enumerate() {
        for second in &row[place + 1..] {
            rules.push(vec![2, *first, *second]);
        }
    }
    rules
}
