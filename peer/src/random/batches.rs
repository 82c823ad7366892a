//! Random batches, as the kind and the number of each entry.

use super::lists::{all_events, one_call};
use super::sheets::Made;
use super::Random;
use crate::peer::batch::MOST;

const HAND_IN: u8 = 16;
const CLOSING: u8 = 17;
/// Longer than a batch may be. Cut to one byte or to two, some would fit.
const LONG: &[usize] = &[66, 100, 128, 200, 200, 256, 257, 320, 1_000, 1_000, 65_600];

/// How long a batch is: half of the time at an edge, at times far beyond it.
pub fn batch_length(random: &mut Random) -> usize {
    match random.below(20) {
        0..=9 => random.pick(&[0, 1, MOST - 1, MOST, MOST + 1]),
        10..=13 => random.between(2, 10),
        14..=17 => random.between(2, MOST - 2),
        _ => random.pick(LONG),
    }
}

/// A batch for a sheet: what a list has, with entries among it that are turned down,
/// or nothing but such.
pub fn batch(random: &mut Random, made: &Made, length: usize) -> Vec<[u8; 2]> {
    let closing = random.pick(&[0, 2, 5, 15, 40]);
    let bad = random.pick(&[0, 0, 5, 15, 40, 100]);
    let mut list = Vec::new();
    if random.percent(50) {
        let events = all_events(random, made);
        list.extend(events.chunks_exact(2).map(|call| [call[0], call[1]]));
    }
    list.truncate(length);
    while list.len() < length {
        let call = one_call(random, made, closing);
        // A winding up is of a kind that no entry has, with any number.
        let number = call.get(1).copied();
        list.push([call[0], number.unwrap_or_else(|| random.byte())]);
    }
    for entry in &mut list {
        if random.percent(bad) {
            *entry = any_entry(random);
        }
    }
    list
}

/// Most often turned down: of another kind, with a number that would fit, or with a
/// number of any value.
fn any_entry(random: &mut Random) -> [u8; 2] {
    match random.below(8) {
        0..=3 => [random.byte(), random.below(16) as u8],
        4 => [random.pick(&[0, 1, 15, 18, 18, 19]), random.below(8) as u8],
        5 | 6 => [HAND_IN, random.byte()],
        _ => [CLOSING, random.byte()],
    }
}

/// A batch of hand-ins and closings alone, of which `closing` per cent close a step.
pub fn replies(random: &mut Random, made: &Made, length: usize, closing: u64) -> Vec<[u8; 2]> {
    let mut list = Vec::new();
    while list.len() < length {
        if let [kind, number] = one_call(random, made, closing)[..] {
            list.push([kind, number]);
        }
    }
    list
}
