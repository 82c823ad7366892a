//! The 384 bytes of a state, as the C header lays them out.

use crate::library::STATE_LEN;
use crate::peer::set::has;
use crate::peer::{Fate, Scheduler};

pub type Image = [u8; STATE_LEN];

pub const VERSION: usize = 0;
pub const EVENTS: usize = 1;
pub const RULES: usize = 2;
pub const LINES: usize = 3;
pub const STEP: usize = 4;
pub const ATTRIBUTES: usize = 20;
pub const RULE_KIND: usize = 36;
pub const RULE_A: usize = 52;
pub const RULE_B: usize = 68;
pub const RULE_C: usize = 84;
pub const FATE: usize = 100;
pub const BROKEN: usize = 116;
pub const CLOSED: usize = 132;
pub const LINE_EVENT: usize = 140;
pub const LINE_FATE: usize = 156;
pub const MINUTE: usize = 172;
/// Four bytes for each event, the lowest first; both 0 where it has no window.
pub const FROM: usize = 176;
pub const UNTIL: usize = 240;
pub const SPARE: usize = 304;

/// The least event that no state declares.
pub const BEYOND: u8 = 16;

/// The attributes of the four events of a record of kind 6.
const FOUR: [u8; 4] = [7, 0, 6, 1];
const ORDER: u8 = 2;

/// The bytes of the first state of an admitted sheet, from its records.
pub fn first(sheet: &[u8]) -> Image {
    let mut image = [0; STATE_LEN];
    image[VERSION] = 1;
    image[RULE_KIND..RULE_A].fill(ORDER);
    let mut rest = sheet;
    loop {
        rest = match *rest {
            [1, step, sum, ref rest @ ..] => {
                declare(&mut image, step, &[sum]);
                rest
            }
            [6, step, ref rest @ ..] => {
                declare(&mut image, step, &FOUR);
                rest
            }
            [kind @ (2 | 3), a, b, ref rest @ ..] => {
                add_rule(&mut image, [kind, a, b, 0]);
                rest
            }
            [4, a, b, c, ref rest @ ..] => {
                add_rule(&mut image, [4, a, b, c]);
                rest
            }
            [7, event, ref rest @ ..] => {
                let (from, after) = rest.split_at(4);
                let (until, after) = after.split_at(4);
                image[FROM + 4 * usize::from(event)..][..4].copy_from_slice(from);
                image[UNTIL + 4 * usize::from(event)..][..4].copy_from_slice(until);
                after
            }
            _ => return image,
        }
    }
}

fn declare(image: &mut Image, step: u8, attributes: &[u8]) {
    for sum in attributes {
        let event = usize::from(image[EVENTS]);
        image[STEP + event] = step;
        image[ATTRIBUTES + event] = *sum;
        image[EVENTS] += 1;
    }
}

fn add_rule(image: &mut Image, [kind, a, b, c]: [u8; 4]) {
    let rule = usize::from(image[RULES]);
    image[RULE_KIND + rule] = kind;
    image[RULE_A + rule] = a;
    image[RULE_B + rule] = b;
    image[RULE_C + rule] = c;
    image[RULES] += 1;
}

/// Puts what calls change, as the peer has it, over the image of the sheet.
pub fn put(image: &mut Image, scheduler: &Scheduler) {
    let state = scheduler.state();
    for event in 0..image[EVENTS] {
        image[FATE + usize::from(event)] = number(state.fate(event));
    }
    for rule in 0..image[RULES] {
        image[BROKEN + usize::from(rule)] = u8::from(has(state.broken, rule));
    }
    for step in 0..8 {
        image[CLOSED + usize::from(step)] = u8::from(has(state.closed, step));
    }
    put_minute(image, MINUTE, state.minute);
    image[LINES] = scheduler.history().len() as u8;
    for (place, line) in scheduler.history().iter().enumerate() {
        image[LINE_EVENT + place] = line.event;
        image[LINE_FATE + place] = number(line.fate);
    }
}

/// The minute that stands at a place.
pub fn minute_at(image: &Image, place: usize) -> u32 {
    let bytes = std::array::from_fn(|byte| image[place + byte]);
    u32::from_le_bytes(bytes)
}

pub fn put_minute(image: &mut Image, place: usize, minute: u32) {
    image[place..place + 4].copy_from_slice(&minute.to_le_bytes());
}

/// An event's window, from and until; none where both are 0.
pub fn window_of(image: &Image, event: usize) -> Option<[u32; 2]> {
    let window = [FROM, UNTIL].map(|row| minute_at(image, row + 4 * event));
    (window != [0, 0]).then_some(window)
}

/// The header's number of a fate.
pub fn number(fate: Fate) -> u8 {
    match fate {
        Fate::Open => 0,
        Fate::Held => 1,
        Fate::Done => 2,
        Fate::Refused => 3,
        Fate::Lapsed => 4,
        Fate::Forced => 5,
    }
}
