//! Sheets and calls as bytes, and the three fullest states as a sheet with the
//! calls that lead to them.

use crate::random::window_record;

/// A sheet and a list of calls.
pub type Pair = (Vec<u8>, Vec<u8>);

pub const STEPS: u8 = 8;

/// A sheet of events with the same attributes, event n in step n modulo 8, and
/// of rules with two events each.
pub fn sheet(events: u8, attributes: u8, rules: impl Iterator<Item = [u8; 3]>) -> Vec<u8> {
    let declared = (0..events).map(|event| [1, event % STEPS, attributes]);
    let mut bytes: Vec<u8> = declared.chain(rules).flatten().collect();
    bytes.push(5);
    bytes
}

/// Every event handed in, lowest first.
pub fn hand_ins(events: u8) -> Vec<u8> {
    (0..events).flat_map(|event| [16, event]).collect()
}

/// Every step that has one of the events closed, lowest first.
pub fn closings(events: u8) -> Vec<u8> {
    let steps = 0..events.min(STEPS);
    steps.flat_map(|step| [17, step]).collect()
}

/// A rule of this kind from each event to the next, and from the last to the
/// first.
pub fn ring(events: u8, kind: u8) -> impl Iterator<Item = [u8; 3]> {
    (0..events).map(move |event| [kind, event, (event + 1) % events])
}

/// Fifteen events that each need a sixteenth.
pub fn star() -> Vec<u8> {
    sheet(16, 6, (0..15).map(|event| [3, event, 15]))
}

/// Sixteen events done, under sixteen orders; no step is closed.
pub fn all_settled() -> Pair {
    let row = (0..15).map(|event| [2, event, event + 1]);
    (sheet(16, 2, row.chain([[2, 0, 2]])), hand_ins(16))
}

/// Sixteen events held, each for want of the one before it, in a ring of orders;
/// no step is closed.
pub fn all_held() -> Pair {
    (sheet(16, 6, ring(16, 2)), hand_ins(16))
}

/// Sixteen events held, as their windows open at minute 1, under sixteen orders that they
/// can be done in; no step is closed.
pub fn all_early() -> Pair {
    let row = (0..15).map(|event| [2, event, event + 1]);
    let mut sheet = sheet(16, 6, row.chain([[2, 0, 2]]));
    let windows = (0..16).flat_map(|event| window_record(event, 1, 2));
    sheet.splice(sheet.len() - 1..sheet.len() - 1, windows);
    (sheet, hand_ins(16))
}
