//! Random lists of calls.

use super::sheets::Made;
use super::{random_bytes, Random};
use crate::peer::calls::{split_call, Call};

/// A list of calls for a sheet: short, middling or long.
pub fn calls(random: &mut Random, made: &Made) -> Vec<u8> {
    let length = match random.below(20) {
        0..=6 => random.between(0, 6),
        7..=17 => random.between(5, 40),
        _ => random.between(40, 400),
    };
    let closing = random.pick(&[0, 2, 5, 15, 40]);
    let mut list = Vec::new();
    if random.percent(if made.events > 7 { 60 } else { 40 }) {
        list.extend(all_events(random, made));
    }
    for _ in 0..length {
        list.extend(one_call(random, made, closing));
    }
    if random.percent(45) {
        list.extend(ending(random, made));
    }
    match random.below(25) {
        0 => list.push(random.pick(&[16, 17])),
        1 => list.insert(random.below(list.len() + 1), random.pick(&[0, 15, 19, 255])),
        2 => list = random_bytes(random),
        _ => {}
    }
    list
}

/// The readable calls of a list for a sheet, with some of any number among them and moves
/// of the minute now and then.
pub fn single_calls(random: &mut Random, made: &Made) -> Vec<Call> {
    let list = calls(random, made);
    let mut rest = list.as_slice();
    let mut single = Vec::new();
    while let Some((call, after)) = split_call(rest) {
        if random.percent(8) {
            single.push(any_call(random));
        }
        if random.percent(4) {
            single.push(Call::Advance(any_minute(random)));
        }
        single.push(call);
        rest = after;
    }
    single
}

/// A call with any byte as its number.
pub fn any_call(random: &mut Random) -> Call {
    match random.below(5) {
        0 | 1 => Call::Submit(random.byte()),
        2 | 3 => Call::CloseStep(random.byte()),
        _ => Call::Finish,
    }
}

/// Most often a small one, so that many are below the one before.
pub fn any_minute(random: &mut Random) -> u32 {
    match random.below(10) {
        0..=7 => random.below(6) as u32,
        8 => random.word() as u32 >> random.below(32),
        _ => random.pick(&[0, 255, 256, 65_535, 65_536, 1 << 24, u32::MAX - 1, u32::MAX]),
    }
}

/// Calls of all sorts, of which `closing` per cent close a step.
pub fn mixed_list(random: &mut Random, made: &Made, length: usize, closing: u64) -> Vec<u8> {
    let mut list = Vec::new();
    for _ in 0..length {
        list.extend(one_call(random, made, closing));
    }
    list
}

/// Most events, each handed in once, then everything closed and wound up; at
/// times with closings among the hand-ins.
pub fn hostile_list(random: &mut Random, made: &Made) -> Vec<u8> {
    let mut list = all_events(random, made);
    for _ in 0..random.pick(&[0, 0, 0, 0, 1, 1, 2, 4]) {
        // Each hand-in is two bytes.
        let place = 2 * random.below(list.len() / 2 + 1);
        let step = random.pick(&made.steps);
        list.splice(place..place, [17, step]);
    }
    list.extend(ending(random, made));
    list
}

/// A hand-in, a closing (`closing` per cent) or a winding up.
pub(super) fn one_call(random: &mut Random, made: &Made, closing: u64) -> Vec<u8> {
    if random.percent(closing) {
        return if made.steps.is_empty() || random.percent(10) {
            vec![17, random.pick(&[0, 3, 7, 8, 9, 15, 16, 255])]
        } else {
            vec![17, random.pick(&made.steps)]
        };
    }
    if random.percent(3) {
        vec![18]
    } else if made.events == 0 || random.percent(3) {
        vec![16, random.byte()]
    } else {
        // One above the last now and then.
        let beyond = usize::from(random.percent(10));
        vec![16, random.below(made.events + beyond) as u8]
    }
}

/// Most events, each handed in once, in any order.
pub(super) fn all_events(random: &mut Random, made: &Made) -> Vec<u8> {
    let mut events: Vec<u8> = (0..made.events as u8).collect();
    if random.percent(80) {
        random.shuffle(&mut events);
    }
    let left_out = random.pick(&[0, 0, 0, 1, 2, 4]);
    events.truncate(events.len().saturating_sub(left_out));
    events.iter().flat_map(|event| [16, *event]).collect()
}

/// All steps closed, in any order, and wound up, at times with hand-ins between.
fn ending(random: &mut Random, made: &Made) -> Vec<u8> {
    let mut steps = made.steps.clone();
    random.shuffle(&mut steps);
    let mut list = Vec::new();
    for step in steps {
        list.extend([17, step]);
        if random.percent(15) {
            list.extend(one_call(random, made, 0));
        }
    }
    list.push(18);
    if random.percent(10) {
        list.push(18);
    }
    list
}
