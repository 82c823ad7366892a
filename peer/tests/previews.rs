//! Previews on states that a host keeps, against the peer and against really handing in.
//! `COMPARE_SEED` in the environment gives another seed.

use peer::cases::sheet_of;
use peer::compare::{seed, SEED};
use peer::images::brought::scheduler;
use peer::images::layout::{first, Image, ATTRIBUTES, EVENTS, FATE, LINES, LINE_FATE};
use peer::images::marks::FORCIBLE;
use peer::images::previews::{agree, compare, Counts, Preview, COUNT, LIBRARY};
use peer::images::runs::led_to;
use peer::library::{raw, STATE_LEN};

/// Everything that the comparison is about has to be met this often, and each number.
const LEAST: usize = 150;
const LEAST_OF_NUMBER: usize = 2_000;
const FILL: Counts = [0xa1, 0xb2, 0xc3, 0xd4];
const NONE: Counts = [0; 4];

#[test]
fn every_preview_agrees_with_peer() {
    let seed = seed();
    match compare(seed, COUNT, LIBRARY) {
        Ok(tally) => {
            println!("{tally:#?}");
            assert!(tally.previews >= COUNT);
            assert_eq!(tally.missing(LEAST), None);
            for number in [0, 9, 12] {
                assert!(tally.numbers[number] >= LEAST_OF_NUMBER, "{number}");
            }
            assert_eq!(tally.others[0], 0);
            assert_eq!(tally.forced_before.unforcible[0], 0);
        }
        Err(difference) => panic!("seed {seed}, {difference}"),
    }
}

/// Counts the whole history after the hand-in.
fn counts_history(image: &mut Image, event: u8, added: &mut Counts) -> u8 {
    let mut after = *image;
    let number = raw::submit(&mut after, event);
    if number == 0 {
        *added = NONE;
        for fate in &after[LINE_FATE..][..usize::from(after[LINES])] {
            added[usize::from(*fate) - 2] += 1;
        }
    }
    number
}

/// Counts the event itself and no other.
fn counts_itself(image: &mut Image, event: u8, added: &mut Counts) -> u8 {
    let mut after = *image;
    let number = raw::submit(&mut after, event);
    if number == 0 {
        *added = NONE;
        let place = FATE + usize::from(event);
        if let (0, fate @ 2..) = (image[place], after[place]) {
            added[usize::from(fate) - 2] = 1;
        }
    }
    number
}

/// Counts something where there is something to settle, though the event is not open.
fn counts_settling(image: &mut Image, event: u8, added: &mut Counts) -> u8 {
    let number = raw::preview(image, event, added);
    if number == 0 && image[FATE + usize::from(event)] != 0 {
        let peer = scheduler(image).expect("a state");
        added[0] += u8::from(!peer.is_at_rest());
    }
    number
}

fn takes_everything(image: &mut Image, event: u8, added: &mut Counts) -> u8 {
    raw::preview(image, event, added);
    0
}

fn writes_when_turned_down(image: &mut Image, event: u8, added: &mut Counts) -> u8 {
    let number = raw::preview(image, event, added);
    if number != 0 {
        *added = NONE;
    }
    number
}

/// Leaves a count of none as it was before.
fn writes_no_zero(image: &mut Image, event: u8, added: &mut Counts) -> u8 {
    let mut counts = NONE;
    let number = raw::preview(image, event, &mut counts);
    for (place, count) in added.iter_mut().zip(counts) {
        *place = if count == 0 { *place } else { count };
    }
    number
}

fn tests_event_first(image: &mut Image, event: u8, added: &mut Counts) -> u8 {
    if event >= image[EVENTS] {
        return 9;
    }
    raw::preview(image, event, added)
}

fn counts_forced_as_done(image: &mut Image, event: u8, added: &mut Counts) -> u8 {
    let number = raw::preview(image, event, added);
    if number == 0 {
        added[0] += added[3];
        added[3] = 0;
    }
    number
}

/// Counts what is forced among what is done, and apart as well.
fn counts_forced_twice(image: &mut Image, event: u8, added: &mut Counts) -> u8 {
    let number = raw::preview(image, event, added);
    if number == 0 {
        added[0] += added[3];
    }
    number
}

/// Counts what a forcible event adds for itself as forced.
fn counts_itself_as_forced(image: &mut Image, event: u8, added: &mut Counts) -> u8 {
    let number = raw::preview(image, event, added);
    let forcible = || image[ATTRIBUTES + usize::from(event)] & FORCIBLE != 0;
    if number == 0 && added[0] > 0 && forcible() {
        added[0] -= 1;
        added[3] += 1;
    }
    number
}

fn really_hands_in(image: &mut Image, event: u8, added: &mut Counts) -> u8 {
    raw::preview(image, event, added);
    raw::submit(image, event)
}

/// Each wrong preview is found out by what is wrong in it, and too few previews are
/// noticed.
#[test]
fn the_comparison_of_previews_can_fail() {
    let wrong: [(Preview, &str); 11] = [
        (counts_history, "the counts"),
        (counts_itself, "the counts"),
        (counts_settling, "the counts"),
        (takes_everything, "the number"),
        (writes_when_turned_down, "the counts"),
        (writes_no_zero, "the counts"),
        (counts_forced_as_done, "the counts"),
        (counts_forced_twice, "the counts"),
        (counts_itself_as_forced, "the counts"),
        (tests_event_first, "the number"),
        (really_hands_in, "the bytes"),
    ];
    for (place, (preview, what)) in wrong.into_iter().enumerate() {
        let found = compare(SEED, COUNT, preview).expect_err("a difference");
        println!("{place}: {:?}", found.split(',').next());
        assert!(found.contains(what), "wrong preview {place}: {found}");
    }
    let few = compare(SEED, 200, LIBRARY).expect("no difference");
    assert!(few.missing(LEAST).is_some());
}

/// Previews the event in both and asks for the counts, or for the number, that are worked
/// out by hand.
fn check(image: &Image, event: u8, expected: Result<Counts, u8>) {
    let agreed = agree(LIBRARY, image, scheduler(image).as_ref(), event, FILL);
    let (outcome, _) = agreed.unwrap_or_else(|difference| panic!("{difference}"));
    let (number, added) = match expected {
        Ok(added) => (0, added),
        Err(number) => (number, FILL),
    };
    assert_eq!(
        (outcome.number, outcome.added()),
        (number, added),
        "{event}"
    );
}

/// Those that wait for the event are done with it; those that it forces are counted apart.
#[test]
fn other_events_are_counted() {
    let image = led_to(sheet_of("A"), &[]);
    check(&image, 0, Ok(NONE)); // it would be held
    check(&image, 1, Ok(NONE));
    check(&led_to(sheet_of("A"), &[16, 0]), 1, Ok([2, 0, 0, 0]));
    check(&led_to(sheet_of("A"), &[16, 1]), 0, Ok([2, 0, 0, 0]));
    check(&led_to(sheet_of("L"), &[16, 0, 16, 1]), 2, Ok([2, 0, 0, 0]));
    let image = led_to(sheet_of("D"), &[]);
    check(&image, 0, Ok([1, 0, 0, 1]));
    check(&image, 1, Ok([1, 0, 0, 0]));
    check(&led_to(sheet_of("E"), &[17, 1]), 0, Ok([1, 0, 0, 0])); // alone
    let six = [16, 0, 16, 1, 16, 2, 16, 3, 16, 4, 16, 5];
    check(&led_to(sheet_of("J/six"), &six[..10]), 5, Ok([6, 0, 0, 0]));
    check(&led_to(sheet_of("J/seven"), &six), 6, Ok(NONE));
    check(&led_to(sheet_of("K"), &six), 6, Ok([7, 0, 0, 0]));
}

/// The event is refused, or one that is held is since it is done: case G, and G with a
/// third event that 0 needs.
#[test]
fn refusals_are_counted() {
    check(&led_to(sheet_of("G"), &[16, 1]), 0, Ok([0, 1, 0, 0]));
    check(&led_to(sheet_of("L"), &[16, 0, 17, 2]), 1, Ok([0, 1, 0, 0]));
    let sheet = [1, 0, 6, 1, 1, 0, 1, 2, 6, 2, 0, 1, 3, 0, 2, 5];
    let image = led_to(&sheet, &[16, 0]);
    check(&image, 1, Ok([1, 1, 0, 0]));
    check(&image, 2, Ok([2, 0, 0, 0]));
}

/// Also where there is something to settle: case C with event 0 held, which nothing keeps
/// from being done. An open event settles that, and may itself be held after it: case K
/// with event 6 held.
#[test]
fn an_event_that_is_not_open_counts_nothing() {
    check(&led_to(sheet_of("A"), &[16, 0]), 0, Ok(NONE));
    let done = led_to(sheet_of("A"), &[16, 0, 16, 1]);
    let refused = led_to(sheet_of("B"), &[16, 0, 17, 1]);
    let forced = led_to(sheet_of("D"), &[16, 0]);
    for event in [0, 1] {
        check(&done, event, Ok(NONE));
        check(&refused, event, Ok(NONE));
        check(&forced, event, Ok(NONE));
    }
    let mut image = first(sheet_of("C"));
    image[FATE] = 1;
    check(&image, 0, Ok(NONE));
    check(&image, 1, Ok([2, 0, 0, 0]));
    let mut image = first(sheet_of("K"));
    image[FATE + 6] = 1;
    check(&image, 0, Ok([1, 0, 0, 0]));
}

#[test]
fn what_a_hand_in_turns_down_is_turned_down() {
    let image = led_to(sheet_of("A"), &[16, 0]);
    let empty = first(sheet_of("I/2"));
    for event in [2, 15, 16, 255] {
        check(&image, event, Err(9));
        check(&empty, event, Err(9));
    }
    check(&empty, 0, Err(9));
    for event in [0, 16, 255] {
        check(&[0; STATE_LEN], event, Err(12));
    }
}
