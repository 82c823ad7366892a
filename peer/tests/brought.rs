//! States that a caller brings, to which no list may lead: the library's calls on
//! their bytes against a plain reading of document 01, of S-5 and of S-6 that tries every
//! order.

mod on_images;
#[allow(dead_code)]
mod plain;

use on_images::{make, plain_of, put};
use peer::compare::{hex, SEED};
use peer::images::brought::brought;
use peer::images::damaged::LIBRARY;
use peer::images::layout::*;
use peer::images::marks::{has_forced, unmarked, FORCED};
use peer::library::raw;
use peer::peer::calls::Call;
use peer::random::Random;

const STATES: usize = 30_000;
const CALLS: usize = 4;
/// Trying every order takes too long among more events than these.
const MOST: usize = 6;
const LEAST: usize = 150;

fn any_call(random: &mut Random, image: &Image) -> Call {
    match random.below(8) {
        0..=4 => Call::Submit(random.below(usize::from(image[EVENTS]) + 1) as u8),
        5 | 6 => Call::CloseStep(random.below(9) as u8),
        _ => random.pick(&[Call::Finish, Call::Advance(0), Call::Advance(1)]),
    }
}

/// Calls that changed the state, that settled several events, that recorded a rule,
/// that forced an event, and that were turned down; hand-ins of an event that is forced.
/// States with a forced event, and with one that is not forcible.
#[derive(Debug, Default)]
struct Tally {
    changed: usize,
    several: usize,
    recorded: usize,
    forcing: usize,
    turned_down: usize,
    of_forced: usize,
    forced: usize,
    unforcible: usize,
}

impl Tally {
    fn add_state(&mut self, image: &Image) {
        let [forced, unforcible] = has_forced(image);
        self.forced += usize::from(forced);
        self.unforcible += usize::from(unforcible);
    }

    fn add(&mut self, call: Call, before: &Image, after: &Image, number: u8) {
        let marks = |image: &Image| {
            image[BROKEN..CLOSED]
                .iter()
                .filter(|mark| **mark == 1)
                .count()
        };
        self.changed += usize::from(before != after);
        self.several += usize::from(after[LINES] > before[LINES] + 1);
        self.recorded += usize::from(marks(after) > marks(before));
        self.turned_down += usize::from(number != 0);
        let lines = usize::from(before[LINES])..usize::from(after[LINES]);
        self.forcing += usize::from(after[LINE_FATE..][lines].contains(&FORCED));
        if let (Call::Submit(event), 0) = (call, number) {
            let forced = before[FATE + usize::from(event)] == FORCED;
            self.of_forced += usize::from(forced);
        }
    }

    fn counts(&self) -> [usize; 8] {
        [
            self.changed,
            self.several,
            self.recorded,
            self.forcing,
            self.turned_down,
            self.of_forced,
            self.forced,
            self.unforcible,
        ]
    }
}

fn agree(random: &mut Random, sheet: &[u8], start: &Image, tally: &mut Tally) {
    let mut plain = plain_of(sheet, start);
    let mut image = *start;
    for _ in 0..CALLS {
        let call = any_call(random, &image);
        let (before, refused) = (image, plain.refused_calls);
        make(&mut plain, call);
        let mut expected = before;
        put(&plain, &mut expected);
        let number = (LIBRARY.call)(&mut image, call);
        let place = format!("{call:?} on {}", hex(&before));
        assert_eq!(number != 0, plain.refused_calls > refused, "{place}");
        assert!(image == expected, "{place}: {}", hex(&image));
        tally.add(call, &before, &image, number);
    }
}

#[test]
fn calls_on_brought_states_agree() {
    let mut random = Random::new(SEED ^ 0xb40);
    let mut tally = Tally::default();
    let mut states = 0;
    while states < STATES {
        if let Some((made, image)) = brought(&mut random, MOST) {
            assert_eq!(raw::check(&image), 0, "{}", hex(&image));
            assert_eq!(raw::check(&unmarked(&image)), 0, "{}", hex(&image));
            tally.add_state(&image);
            agree(&mut random, &made.bytes, &image, &mut tally);
            states += 1;
        }
    }
    println!("{tally:?}");
    assert!(
        tally.counts().iter().all(|count| *count >= LEAST),
        "{tally:?}"
    );
}
