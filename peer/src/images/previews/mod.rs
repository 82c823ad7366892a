//! Previews, compared on every state of a run: the number, the four counts, and all
//! bytes of the state, which stay. What the library's preview comes to has to be what
//! the peer's does, and what the library's own hand-in adds on a copy of the bytes.
//!
//! A run has a first state or one that is brought, and then a list of single calls, now
//! and then with damage after one. Events are previewed at the start and after every
//! call.

mod met;
mod outcome;

pub use met::Tally;
pub use outcome::{agree, of_peer, Counts, Outcome, Preview, LIBRARY};

use super::layout::{Image, BEYOND, EVENTS, FATE};
use super::runs::Run;
use crate::random::Random;

/// The previews of the test.
pub const COUNT: usize = 300_000;
/// More than a count can be.
const LEAST_FILL: usize = 17;

/// Compares a library's previews with the peer's, `count` of them or some more, up to
/// the first difference.
pub fn compare(seed: u64, count: usize, library: Preview) -> Result<Tally, String> {
    let mut random = Random::new(seed);
    let mut tally = Tally::default();
    while tally.previews < count {
        let mut run = Run::start(&mut random);
        let right = run.go_through(&mut random, |run, random| {
            let mut each = events(random, run).into_iter();
            each.try_for_each(|event| preview(run, random, event, library, &mut tally))
        });
        let place = |what| format!("preview {}, {run}\n{what}", tally.previews);
        tally.calls += right.map_err(place)?;
    }
    Ok(tally)
}

/// A preview of an event, over bytes that could not be its counts.
fn preview(
    run: &Run,
    random: &mut Random,
    event: u8,
    library: Preview,
    tally: &mut Tally,
) -> Result<(), String> {
    let fill = [0; 4].map(|_: u8| random.between(LEAST_FILL, 255) as u8);
    let agreed = agree(library, &run.image, run.peer.as_ref(), event, fill);
    let (outcome, after) = agreed.map_err(|what| format!("event {event}: {what}"))?;
    tally.add(event, &outcome, &after, run);
    Ok(())
}

/// The events to preview on a state of a run.
fn events(random: &mut Random, run: &Run) -> Vec<u8> {
    if run.is_at_start() {
        return all_events(random, &run.image);
    }
    some_events(random, &run.image)
}

/// The events to preview at the start of a run: all that the sheet declares and one
/// above them, or all that a sheet could; and any.
fn all_events(random: &mut Random, image: &Image) -> Vec<u8> {
    let most = random.pick(&[image[EVENTS], image[EVENTS], image[EVENTS], BEYOND]);
    let mut events: Vec<u8> = (0..=most).collect();
    events.push(random.byte());
    events
}

/// The events to preview after a call: one that is open, one of the sheet or one above
/// them, and now and then any.
fn some_events(random: &mut Random, image: &Image) -> Vec<u8> {
    let most = image[EVENTS].min(BEYOND);
    let is_open = |event: &u8| image[FATE + usize::from(*event)] == 0;
    let open: Vec<u8> = (0..most).filter(is_open).collect();
    let mut events = vec![random.below(usize::from(most) + 1) as u8];
    if !open.is_empty() {
        events.push(random.pick(&open));
    }
    if random.percent(20) {
        events.push(random.byte());
    }
    events
}
