//! The mark that tells a forced event from any other that is done: bytes without it, bytes
//! with another one, and those that are no state for nothing but a mark.

use super::layout::*;
use super::runs::{Origin, ORIGINS};
use super::sound::is_sound;
use crate::random::Random;

/// The two fates that count as done.
pub const DONE: u8 = 2;
pub const FORCED: u8 = 5;
pub const FORCIBLE: u8 = 1;

/// The fate with forced read as done.
pub fn bare(fate: u8) -> u8 {
    match fate {
        FORCED => DONE,
        _ => fate,
    }
}

/// The bytes with every forced event written as done.
pub fn unmarked(image: &Image) -> Image {
    let mut copy = *image;
    for row in [FATE..BROKEN, LINE_FATE..MINUTE] {
        copy[row].iter_mut().for_each(|fate| *fate = bare(*fate));
    }
    copy
}

/// Where the fates of a line's event and of the line stand.
fn fates_of(image: &Image, line: usize) -> [usize; 2] {
    let event = usize::from(image[LINE_EVENT + line]);
    [FATE + event, LINE_FATE + line]
}

/// The lines that say done or forced, by their places.
fn done_lines(image: &Image) -> Vec<usize> {
    let lines = 0..usize::from(image[LINES]);
    let done = |line: &usize| bare(image[LINE_FATE + line]) == DONE;
    lines.filter(done).collect()
}

/// A copy of a state in which an event, or its line, or both are forced where they were
/// done, or done where they were forced, and the places of that; none where no event is
/// done.
pub fn marked_otherwise(random: &mut Random, image: &Image) -> Option<(Image, Vec<usize>)> {
    if !is_sound(image) {
        return None;
    }
    let lines = done_lines(image);
    if lines.is_empty() {
        return None;
    }
    let both = fates_of(image, random.pick(&lines));
    let places = random.pick(&[&both[..1], &both[1..], &both[..]]);
    let mut copy = *image;
    for place in places {
        copy[*place] = DONE + FORCED - image[*place];
    }
    Some((copy, places.to_vec()))
}

/// Of bytes that are no state for nothing but a mark, whether a line says done of a forced
/// event, and whether one says forced of an event that is done.
pub fn at_odds(image: &Image) -> Option<[bool; 2]> {
    if is_sound(image) || !is_sound(&unmarked(image)) {
        return None;
    }
    let lines = done_lines(image);
    let has = |fates: [u8; 2]| {
        let mut all = lines.iter().map(|line| fates_of(image, *line));
        all.any(|places| places.map(|place| image[place]) == fates)
    };
    Some([has([FORCED, DONE]), has([DONE, FORCED])])
}

/// Whether a state has a forced event, and whether it has one that is not forcible.
pub fn has_forced(image: &Image) -> [bool; 2] {
    let events = 0..usize::from(image[EVENTS]);
    let forced = events.filter(|event| image[FATE + event] == FORCED);
    let sums: Vec<u8> = forced.map(|event| image[ATTRIBUTES + event]).collect();
    [!sums.is_empty(), sums.iter().any(|sum| sum & FORCIBLE == 0)]
}

/// States with a forced event, and with one that is not forcible, by where they come from.
#[derive(Clone, Debug, Default, PartialEq, Eq)]
pub struct Forced {
    pub states: [usize; 3],
    /// A list leads to none.
    pub unforcible: [usize; 3],
}

impl Forced {
    /// The bytes of a state.
    pub fn add(&mut self, image: &Image, origin: Origin) {
        let [forced, unforcible] = has_forced(image);
        self.states[origin as usize] += usize::from(forced);
        self.unforcible[origin as usize] += usize::from(unforcible);
    }

    pub fn counts(&self) -> Vec<(String, usize)> {
        let mut counts = Vec::new();
        for (name, met) in ORIGINS.iter().zip(self.states) {
            counts.push((format!("states with a forced event that are {name}"), met));
        }
        for (name, met) in ORIGINS.iter().zip(self.unforcible).skip(1) {
            counts.push((format!("states that are {name}, one not forcible"), met));
        }
        counts
    }
}
