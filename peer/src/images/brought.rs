//! States that a caller brings, to which no list may lead, and the peer's state of
//! any bytes that hang together.

use super::layout::*;
use super::marks::{DONE, FORCED};
use super::sound::is_sound;
use crate::peer::set::{one, Set};
use crate::peer::sheet::{MOST_EVENTS, MOST_RULES};
use crate::peer::{Fate, Scheduler, Sheet, State};
use crate::random::{sheet, Made, Random};

const DELAYABLE: u8 = 4;
/// Delayable or forcible.
const ACTIVE: u8 = 5;

/// Any fates, marks and history over a random sheet, where that is a state that
/// hangs together, of two events or more, of which orders now or later could contain
/// at most `most`.
pub fn brought(random: &mut Random, most: usize) -> Option<(Made, Image)> {
    let made = sheet(random);
    let image = brought_over(random, &made, most)?;
    Some((made, image))
}

/// The same over a sheet that is given.
pub fn brought_over(random: &mut Random, made: &Made, most: usize) -> Option<Image> {
    Sheet::read(&made.bytes).ok()?;
    let mut image = first(&made.bytes);
    let chance = random.pick(&[0, 10, 50]);
    for step in 0..8 {
        image[CLOSED + step] = u8::from(random.percent(chance));
    }
    for rule in 0..usize::from(image[RULES]) {
        image[BROKEN + rule] = u8::from(random.percent(chance));
    }
    put_fates(random, &mut image);
    (image[EVENTS] > 1 && active(&image) <= most && is_sound(&image)).then_some(image)
}

/// Events that are done are forced now and then, whether they are forcible or not.
fn put_fates(random: &mut Random, image: &mut Image) {
    let mut events: Vec<usize> = (0..usize::from(image[EVENTS])).collect();
    random.shuffle(&mut events);
    for event in events {
        let closed = image[CLOSED + usize::from(image[STEP + event])] == 1;
        let done = random.pick(&[DONE, DONE, FORCED]);
        let fate = match random.pick(&[0, 0, 1, 1, 1, DONE, DONE, 3, 4]) {
            1 if image[ATTRIBUTES + event] & DELAYABLE == 0 => done,
            0 if closed => 4,
            DONE => done,
            fate => fate,
        };
        image[FATE + event] = fate;
        if fate > 1 {
            let line = usize::from(image[LINES]);
            image[LINE_EVENT + line] = event as u8;
            image[LINE_FATE + line] = fate;
            image[LINES] += 1;
        }
    }
}

/// The unsettled events that an order could contain, now or later.
fn active(image: &Image) -> usize {
    let unsettled = |event: &usize| image[FATE + event] <= 1;
    let events = (0..usize::from(image[EVENTS])).filter(unsettled);
    events
        .filter(|event| image[ATTRIBUTES + event] & ACTIVE != 0)
        .count()
}

/// The bytes of a state with any others past its counts, as far as they are a state still.
pub fn leftovers(random: &mut Random, image: &Image) -> Image {
    let mut copy = *image;
    let count = |place: usize| usize::from(image[place]);
    for event in count(EVENTS)..MOST_EVENTS {
        copy[STEP + event] = any_byte(random);
        copy[ATTRIBUTES + event] = any_byte(random);
        copy[FATE + event] = random.below(6) as u8;
    }
    for rule in count(RULES)..MOST_RULES {
        let kind = random.pick(&[2, 3, 4, 4]);
        copy[RULE_KIND + rule] = kind;
        copy[RULE_A + rule] = any_byte(random);
        copy[RULE_B + rule] = any_byte(random);
        copy[RULE_C + rule] = if kind == 4 { any_byte(random) } else { 0 };
        copy[BROKEN + rule] = random.below(2) as u8;
    }
    for line in count(LINES)..MOST_EVENTS {
        copy[LINE_EVENT + line] = any_byte(random);
        copy[LINE_FATE + line] = random.below(6) as u8;
    }
    copy
}

/// Half of the time one that a declaration could have.
fn any_byte(random: &mut Random) -> u8 {
    let byte = random.byte();
    random.pick(&[byte, byte % 8])
}

/// The peer's state of the bytes; none where number 12 meets them.
pub fn scheduler(image: &Image) -> Option<Scheduler> {
    if !is_sound(image) {
        return None;
    }
    let sheet = Sheet::read(&as_sheet(image)).expect("a state that hangs together has a sheet");
    let of_fate = |fate| places(image, FATE, image[EVENTS], number(fate));
    let state = State {
        held: of_fate(Fate::Held),
        done: of_fate(Fate::Done) | of_fate(Fate::Forced),
        forced: of_fate(Fate::Forced),
        refused: of_fate(Fate::Refused),
        lapsed: of_fate(Fate::Lapsed),
        broken: places(image, BROKEN, image[RULES], 1),
        closed: places(image, CLOSED, 8, 1),
        minute: minute_at(image, MINUTE),
    };
    let settled = &image[LINE_EVENT..][..usize::from(image[LINES])];
    Some(Scheduler::bring(sheet, state, settled))
}

/// The places of a row, among its first `count`, that have this value.
fn places(image: &Image, row: usize, count: u8, value: u8) -> Set {
    let fitting = (0..count).filter(|place| image[row + usize::from(*place)] == value);
    fitting.fold(0, |set, place| set | one(place))
}

/// A sheet that declares what the bytes do. Those of no state may count anything.
pub fn as_sheet(image: &Image) -> Vec<u8> {
    let mut bytes = Vec::new();
    for event in 0..usize::from(image[EVENTS]) {
        bytes.extend([1, image[STEP + event], image[ATTRIBUTES + event]]);
    }
    for rule in 0..usize::from(image[RULES]) {
        let kind = image[RULE_KIND + rule];
        bytes.extend([kind, image[RULE_A + rule], image[RULE_B + rule]]);
        if kind == 4 {
            bytes.push(image[RULE_C + rule]);
        }
    }
    for event in 0..usize::from(image[EVENTS]).min(MOST_EVENTS) {
        if let Some([from, until]) = window_of(image, event) {
            bytes.extend([7, event as u8]);
            bytes.extend([from, until].map(u32::to_le_bytes).concat());
        }
    }
    bytes.push(5);
    bytes
}
