//! States that a host keeps: single calls against the peer, and damaged bytes.
//! `COMPARE_SEED` in the environment gives another seed.

use peer::compare::{seed, SEED};
use peer::images::damaged::{self, Functions, LIBRARY};
use peer::images::layout::*;
use peer::images::marks::{has_forced, unmarked};
use peer::images::single::{self, Host, Shown};
use peer::library::{raw, State, STATE_LEN};
use peer::peer::calls::Call;
use peer::random::{sheet, Random};

/// Everything that the comparisons are about has to be met this often.
const LEAST: usize = 150;

#[test]
fn every_call_agrees_with_peer() {
    let seed = seed();
    match single::compare::<State>(seed, single::COUNT) {
        Ok(tally) => {
            println!("{tally:#?}");
            assert_eq!(tally.pairs, single::COUNT);
            assert_eq!(tally.answered[0], 0);
            assert_eq!(tally.missing(LEAST), None);
        }
        Err(difference) => panic!("seed {seed}, {difference}"),
    }
}

#[test]
fn damaged_bytes_are_turned_down_or_stay_a_state() {
    let seed = seed() ^ 0xda_4a6e;
    match damaged::compare(seed, damaged::STATES, &LIBRARY) {
        Ok(tally) => {
            println!("{tally:#?}");
            assert!(tally.images >= 20_000);
            assert_eq!(tally.missing(LEAST), None);
            assert_eq!(tally.changed_to_none.map(|[_, passed]| passed), [0, 0]);
        }
        Err(wrong) => panic!("seed {seed}, {wrong}"),
    }
}

/// The first state of a sheet, and the empty one of a sheet that is turned down,
/// whatever was there before.
#[test]
fn sheets_are_opened_over_any_bytes() {
    let mut random = Random::new(SEED);
    let mut met = [0, 0];
    while met[0] < LEAST || met[1] < LEAST {
        let bytes = sheet(&mut random).bytes;
        let mut image = [0; STATE_LEN].map(|_: u8| random.byte());
        let refused = raw::open(&mut image, &bytes).0 != 0;
        assert_eq!(image, first(if refused { &[5] } else { &bytes }));
        met[usize::from(refused)] += 1;
    }
}

/// A state that forgets an event that waits once all sixteen do.
struct Forgets(State);

impl Host for Forgets {
    fn open(sheet: &[u8]) -> Result<Forgets, (u8, usize)> {
        <State as Host>::open(sheet).map(Forgets)
    }

    fn call(&mut self, call: Call) -> (u8, Option<u8>) {
        Host::call(&mut self.0, call)
    }

    fn image(&self) -> &Image {
        self.0.image()
    }

    fn shown(&self) -> Shown {
        let mut shown = self.0.shown();
        if shown.held.len() == 16 {
            shown.held.pop();
        }
        shown
    }

    fn report(&self, refused: usize) -> Vec<u8> {
        Host::report(&self.0, refused)
    }
}

#[test]
fn the_comparison_of_calls_can_fail() {
    let wrong = single::compare::<Forgets>(SEED, single::COUNT);
    assert!(wrong.is_err_and(|what| what.contains("what it shows")));
    let few = single::compare::<State>(SEED, 200).expect("no difference");
    assert!(few.missing(LEAST).is_some());
}

/// The bytes with the last one cleared.
fn without_last(image: &Image) -> Image {
    let mut image = *image;
    image[STATE_LEN - 1] = 0;
    image
}

/// The bytes of a state without the mark; any others as they are.
fn shown_done(image: &Image) -> Image {
    match raw::check(image) {
        0 => unmarked(image),
        _ => *image,
    }
}

/// Checks that take a line that says done for that of a forced event, and the reverse; that
/// ask a forced event to be forcible; that know no forced event; that take 6 for a fate; and
/// that look at no fate past the counts.
const WRONG_CHECKS: [fn(&Image) -> u8; 5] = [
    |image| raw::check(&unmarked(image)),
    |image| match (raw::check(image), has_forced(image)) {
        (0, [_, true]) => 12,
        (number, _) => number,
    },
    |image| match (raw::check(image), has_forced(image)) {
        (0, [true, _]) => 12,
        (number, _) => number,
    },
    |image| raw::check(&image.map(|byte| if byte == 6 { 5 } else { byte })),
    |image| {
        let mut image = *image;
        let past = usize::from(image[EVENTS]).min(16);
        image[FATE + past..BROKEN].fill(0);
        raw::check(&image)
    },
];

/// Functions that do not look at the last byte, that write before they turn a call
/// down, or that report on bytes that are no state, are found out, and so are those that
/// treat a forced event wrongly.
#[test]
fn the_comparison_of_damage_can_fail() {
    let blind = Functions {
        check: |image| raw::check(&without_last(image)),
        ..LIBRARY
    };
    let hasty = Functions {
        call: |image, call| {
            let number = (LIBRARY.call)(image, call);
            image[SPARE..].fill(0);
            number
        },
        ..LIBRARY
    };
    let open = Functions {
        report: |image, refused, out| raw::report(&without_last(image), refused, out),
        ..LIBRARY
    };
    let shows_done = Functions {
        report: |image, refused, out| raw::report(&shown_done(image), refused, out),
        ..LIBRARY
    };
    let checks = WRONG_CHECKS.map(|check| Functions { check, ..LIBRARY });
    let checks = checks.into_iter().map(|wrong| (wrong, "check"));
    let others = [
        (blind, "check"),
        (hasty, "left as"),
        (open, "report"),
        (shows_done, "report"),
    ];
    for (wrong, what) in checks.chain(others) {
        let found = damaged::compare(SEED, damaged::STATES, &wrong);
        assert!(found.is_err_and(|found| found.contains(what)), "{what}");
    }
    let few = damaged::compare(SEED, 100, &LIBRARY).expect("nothing wrong");
    assert!(few.missing(LEAST).is_some());
}
