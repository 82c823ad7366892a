//! States with fates that no list leads to: one of a and b is done, the other open, and c
//! anything. Where c is unsettled number 12 meets them, if the conditional stands and is
//! one that S-6 is about; every function then gives 12 and writes nothing. The others are
//! states like any other.

use super::sides::{is_done, sides, Side, HELD, OPEN};
use crate::compare::{hex, missing};
use crate::images::batches::{self, unanswered};
use crate::images::brought::scheduler;
use crate::images::damaged::{self, Functions};
use crate::images::forced::Outcome;
use crate::images::layout::*;
use crate::images::sound::is_sound;
use crate::images::{previews, sheets, FILL};
use crate::library::{raw, LONGEST_SHEET};
use crate::peer::calls::Call;
use crate::random::{waiting_calls, waiting_sheet, Random};

/// The damaged states of the test.
pub const COUNT: usize = 30_000;
/// The states with a rule that is marked as broken, and with a fate changed elsewhere.
const BROKEN_PERCENT: u64 = 10;
const ELSEWHERE_PERCENT: u64 = 20;
/// How often a state is looked for over one sheet.
const TRIES: usize = 4;
const FATES: [u8; 6] = [0, 1, 2, 3, 4, 5];

/// Gives an event another fate, with the line that this takes.
pub fn put_fate(image: &mut Image, event: usize, fate: u8) {
    let lines = usize::from(image[LINES]);
    let kept = (0..lines).filter(|line| usize::from(image[LINE_EVENT + line]) != event);
    let mut kept: Vec<[u8; 2]> = kept
        .map(|line| [image[LINE_EVENT + line], image[LINE_FATE + line]])
        .collect();
    if ![OPEN, HELD].contains(&fate) {
        kept.push([event as u8, fate]);
    }
    for row in [LINE_EVENT, LINE_FATE] {
        image[row..row + lines].fill(0);
    }
    for (line, [event, fate]) in kept.iter().enumerate() {
        image[LINE_EVENT + line] = *event;
        image[LINE_FATE + line] = *fate;
    }
    image[LINES] = kept.len() as u8;
    image[FATE + event] = fate;
}

/// Damages a state round one of its conditionals; gives the places of the fates.
fn damage(random: &mut Random, image: &mut Image) -> Option<(Side, Vec<usize>)> {
    let sides = sides(image);
    let meant: Vec<Side> = sides
        .into_iter()
        .filter(|side| side.is_meant(image))
        .collect();
    if meant.is_empty() {
        return None;
    }
    let side = random.pick(&meant);
    let done = random.pick(&[2, 2, 5]);
    let mut fates = vec![(side.goal, random.pick(&FATES))];
    fates.extend([(side.trigger, OPEN), (side.other, done)]);
    if random.percent(ELSEWHERE_PERCENT) {
        let event = random.below(usize::from(image[EVENTS]));
        fates.push((event, random.pick(&FATES)));
    }
    random.shuffle(&mut fates[..3]);
    for (event, fate) in &fates {
        put_fate(image, *event, *fate);
    }
    if random.percent(BROKEN_PERCENT) {
        image[BROKEN + side.rule] = 1;
    }
    // Most often as if the steps of what is open had not been closed.
    for event in 0..usize::from(image[EVENTS]) {
        let closed = CLOSED + usize::from(image[STEP + event]);
        if image[FATE + event] == OPEN && random.percent(90) {
            image[closed] = 0;
        }
    }
    let places = fates.into_iter().map(|(event, _)| FATE + event);
    Some((side, places.collect()))
}

/// A state over a first one that hangs together, and that no list may lead to.
pub fn any_state(random: &mut Random, first: &Image) -> Option<Image> {
    for _ in 0..TRIES {
        let mut image = *first;
        if damage(random, &mut image).is_some() && is_sound(&image) {
            return Some(image);
        }
    }
    None
}

/// Damages states of random lists, and calls all functions on what comes of it, up to the
/// first wrong answer.
pub fn compare(seed: u64, count: usize, library: &Functions) -> Result<Tally, String> {
    let mut random = Random::new(seed);
    let mut tally = Tally::default();
    let mut treated = damaged::Tally::default();
    while tally.images < count {
        let waiting = waiting_sheet(&mut random);
        let mut image = first(&waiting.made.bytes);
        let calls = waiting_calls(&mut random, &waiting);
        let made = random.below(calls.len() + 1);
        for call in &calls[..made] {
            (library.call)(&mut image, *call);
        }
        let Some((side, places)) = damage(&mut random, &mut image) else {
            continue;
        };
        tally.add(&image, &side);
        library
            .treat(&mut random, &image, &places, &mut treated)
            .and_then(|()| others(&image, &calls))
            .and_then(|()| same_calls(library, &image, &calls))
            .map_err(|what| format!("{what}, bytes {}", hex(&image)))?;
    }
    Ok(tally)
}

/// The functions that damage elsewhere is not tried on.
pub fn others(image: &Image, calls: &[Call]) -> Result<(), String> {
    let peer = scheduler(image);
    for event in 0..image[EVENTS] {
        previews::agree(previews::LIBRARY, image, peer.as_ref(), event, [FILL; 4])?;
    }
    let lent = unanswered(calls);
    batches::agree(raw::submit_all, image, peer.clone().as_mut(), &lent)?;
    let fill = [FILL; LONGEST_SHEET];
    sheets::agree(sheets::LIBRARY, image, peer.as_ref(), &fill)?;
    Ok(())
}

/// The calls come to the same in the peer, where the bytes are a state.
pub fn same_calls(library: &Functions, image: &Image, calls: &[Call]) -> Result<(), String> {
    let Some(mut peer) = scheduler(image) else {
        return Ok(());
    };
    let mut image = *image;
    for call in calls {
        let outcome = Outcome::of_library(library.call, &image, *call);
        let own = Outcome::of_peer(&mut peer, &image, *call);
        let agreed = outcome.same(&own);
        agreed.map_err(|what| format!("{call:?}: {what}"))?;
        image = outcome.image;
    }
    Ok(())
}

/// What was met with.
#[derive(Clone, Debug, Default, PartialEq, Eq)]
pub struct Tally {
    pub images: usize,
    pub turned_down: usize,
    /// Bytes with the other done and the trigger open that pass, by the goal's fate; none
    /// that is unsettled. Those that pass although it is, since the rule is broken.
    pub passed: [usize; 6],
    pub passed_broken: [usize; 6],
    /// Bytes turned down for nothing but the rule, by the goal's fate.
    pub owing: [usize; 6],
}

impl Tally {
    fn add(&mut self, image: &Image, side: &Side) {
        self.images += 1;
        let sound = is_sound(image);
        self.turned_down += usize::from(!sound);
        let [other, trigger, goal] = side.fates(image);
        if !is_done(other) || trigger != OPEN {
            return;
        }
        let mut broken = *image;
        broken[BROKEN + side.rule] = 1;
        let met = match (sound, side.is_broken(image)) {
            (true, false) => &mut self.passed,
            (true, true) => &mut self.passed_broken,
            (false, _) if is_sound(&broken) => &mut self.owing,
            (false, _) => return,
        };
        met[usize::from(goal)] += 1;
    }

    /// The first thing that was met fewer than `least` times.
    pub fn missing(&self, least: usize) -> Option<String> {
        let mut counts = vec![("turned down".to_string(), self.turned_down)];
        for fate in FATES.map(usize::from) {
            let (name, met) = match fate {
                0 | 1 => ("turned down", self.owing[fate]),
                _ => ("passed", self.passed[fate]),
            };
            counts.push((format!("{name} with a goal of fate {fate}"), met));
        }
        let broken = self.passed_broken[..2].iter().sum();
        counts.push(("passed, the rule broken".to_string(), broken));
        missing(counts, least)
    }
}
