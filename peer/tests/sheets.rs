//! Sheets written out of states that a host keeps, against the peer and against reading
//! them again. `COMPARE_SEED` in the environment gives another seed.

use peer::cases::{sheet_of, CASES};
use peer::compare::{seed, SEED};
use peer::images::brought::{as_sheet, leftovers, scheduler};
use peer::images::layout::{Image, ATTRIBUTES, EVENTS, LINES, RULES, STEP};
use peer::images::runs::led_to;
use peer::images::sheets::{agree, compare, reads_back, written_alike, Write, COUNT, LIBRARY};
use peer::images::FILL;
use peer::library::{raw, STATE_LEN};
use peer::peer::sheet::{records, Sheet};
use peer::peer::write::LONGEST;
use peer::random::{window_record, Random};

/// Everything that the comparison is about has to be met this often, and each number.
const LEAST: usize = 150;
const LEAST_OF_NUMBER: usize = 2_000;

#[test]
fn every_sheet_written_agrees_with_peer() {
    let seed = seed();
    match compare(seed, COUNT, LIBRARY) {
        Ok(tally) => {
            println!("{tally:#?}");
            assert!(tally.writings >= COUNT);
            assert_eq!(tally.missing(LEAST), None);
            for number in [0, 12, 14] {
                assert!(tally.numbers[number] >= LEAST_OF_NUMBER, "{number}");
            }
            assert_eq!(tally.numbers.iter().sum::<usize>(), tally.writings);
            assert_eq!(tally.forced.unforcible[0], 0);
        }
        Err(difference) => panic!("seed {seed}, {difference}"),
    }
}

/// Treats these bytes as the sheet of the state, and is right in all else.
fn put(image: &Image, sheet: &[u8], out: &mut [u8]) -> (u8, usize) {
    if raw::check(image) != 0 {
        return (12, 0);
    }
    let Some(place) = out.get_mut(..sheet.len()) else {
        return (14, sheet.len());
    };
    place.copy_from_slice(sheet);
    (0, sheet.len())
}

/// Declares four events in one record where they are those of a record of kind 6.
fn joins_fours(image: &mut Image, out: &mut [u8]) -> (u8, usize) {
    let sheet = as_sheet(image);
    let mut joined = Vec::new();
    let mut rest = sheet.as_slice();
    while let [1, step, sum, after @ ..] = rest {
        let four = [7, 0, 6, 1].map(|sum| [1, *step, sum]).concat();
        rest = match rest.strip_prefix(four.as_slice()) {
            Some(after) => {
                joined.extend([6, *step]);
                after
            }
            None => {
                joined.extend([1, *step, *sum]);
                after
            }
        };
    }
    joined.extend(rest);
    put(image, &joined, out)
}

fn puts_rules_first(image: &mut Image, out: &mut [u8]) -> (u8, usize) {
    let sheet = as_sheet(image);
    let (events, rest) = sheet.split_at(usize::from(image[EVENTS]) * 3);
    let (end, rules) = rest.split_last().expect("an end");
    put(image, &[rules, events, &[*end]].concat(), out)
}

/// The records of the state in another sequence, or without some.
fn rearranged(image: &Image, out: &mut [u8], change: impl Fn(&mut Vec<Vec<u8>>)) -> (u8, usize) {
    let sheet = as_sheet(image);
    let mut all: Vec<Vec<u8>> = records(&sheet)
        .iter()
        .map(|record| record.to_vec())
        .collect();
    change(&mut all);
    all.push(vec![5]);
    put(image, &all.concat(), out)
}

fn puts_windows_before_rules(image: &mut Image, out: &mut [u8]) -> (u8, usize) {
    let place = |record: &Vec<u8>| [0, 1, 3, 3, 3, 5, 1, 2][usize::from(record[0])];
    rearranged(image, out, |all| all.sort_by_key(place))
}

fn puts_higher_windows_first(image: &mut Image, out: &mut [u8]) -> (u8, usize) {
    rearranged(image, out, |all| {
        let windows = all.iter().position(|record| record[0] == 7);
        if let Some(first) = windows {
            all[first..].reverse();
        }
    })
}

fn forgets_windows(image: &mut Image, out: &mut [u8]) -> (u8, usize) {
    rearranged(image, out, |all| all.retain(|record| record[0] != 7))
}

/// Names the lower trigger of a conditional first.
fn sorts_triggers(image: &mut Image, out: &mut [u8]) -> (u8, usize) {
    let sheet = as_sheet(image);
    let mut sorted: Vec<Vec<u8>> = Vec::new();
    for record in records(&sheet) {
        let mut record = record.to_vec();
        if record[0] == 4 {
            record[1..3].sort_unstable();
        }
        sorted.push(record);
    }
    sorted.push(vec![5]);
    put(image, &sorted.concat(), out)
}

/// Writes all the places that a state has for events and rules.
fn writes_every_place(image: &mut Image, out: &mut [u8]) -> (u8, usize) {
    let mut full = *image;
    full[EVENTS] = 16;
    full[RULES] = 16;
    put(image, &as_sheet(&full), out)
}

fn tests_length_first(image: &mut Image, out: &mut [u8]) -> (u8, usize) {
    let need = as_sheet(image).len();
    if out.len() < need {
        return (14, need);
    }
    raw::write_sheet(image, out)
}

fn takes_one_too_few(image: &mut Image, out: &mut [u8]) -> (u8, usize) {
    let (number, need) = raw::write_sheet(image, out);
    if (number, out.len() + 1) == (14, need) {
        out.copy_from_slice(&as_sheet(image)[..need - 1]);
        return (0, need);
    }
    (number, need)
}

fn writes_as_much_as_fits(image: &mut Image, out: &mut [u8]) -> (u8, usize) {
    let (number, need) = raw::write_sheet(image, out);
    if number == 14 {
        out.copy_from_slice(&as_sheet(image)[..out.len()]);
    }
    (number, need)
}

fn writes_beyond(image: &mut Image, out: &mut [u8]) -> (u8, usize) {
    let (number, need) = raw::write_sheet(image, out);
    if let (0, Some(byte)) = (number, out.get_mut(need)) {
        *byte = !*byte;
    }
    (number, need)
}

fn writes_when_turned_down(image: &mut Image, out: &mut [u8]) -> (u8, usize) {
    let (number, need) = raw::write_sheet(image, out);
    if let (12, Some(byte)) = (number, out.first_mut()) {
        *byte = !*byte;
    }
    (number, need)
}

fn loses_length(image: &mut Image, out: &mut [u8]) -> (u8, usize) {
    match raw::write_sheet(image, out) {
        (14, _) => (14, 0),
        taken => taken,
    }
}

fn gives_length_of_no_state(image: &mut Image, out: &mut [u8]) -> (u8, usize) {
    match raw::write_sheet(image, out) {
        (12, _) => (12, as_sheet(image).len()),
        taken => taken,
    }
}

/// Takes a buffer of 256 bytes for one of none.
fn counts_in_a_byte(image: &mut Image, out: &mut [u8]) -> (u8, usize) {
    let length = out.len() % 256;
    raw::write_sheet(image, &mut out[..length])
}

fn writes_first_states_alone(image: &mut Image, out: &mut [u8]) -> (u8, usize) {
    if image[LINES] != 0 {
        return (12, 0);
    }
    raw::write_sheet(image, out)
}

/// Looks at steps that no event has.
fn minds_leftovers(image: &mut Image, out: &mut [u8]) -> (u8, usize) {
    let past = STEP + usize::from(image[EVENTS]).min(16)..ATTRIBUTES;
    if image[past].iter().any(|step| *step > 7) {
        return (12, 0);
    }
    raw::write_sheet(image, out)
}

/// Has no room for the longest sheet.
fn stops_below_longest(image: &mut Image, out: &mut [u8]) -> (u8, usize) {
    let room = out.len().min(LONGEST - 1);
    raw::write_sheet(image, &mut out[..room])
}

/// Takes an end without a record above it for nothing.
fn writes_no_end_alone(image: &mut Image, out: &mut [u8]) -> (u8, usize) {
    let sheet = as_sheet(image);
    put(image, if sheet == [5] { &[] } else { &sheet }, out)
}

fn forgets_history(image: &mut Image, out: &mut [u8]) -> (u8, usize) {
    let taken = raw::write_sheet(image, out);
    image[LINES] = 0;
    taken
}

/// Each wrong writing is found out by what is wrong in it, and too few writings are
/// noticed.
#[test]
fn the_comparison_of_sheets_can_fail() {
    let wrong: [(Write, &str); 20] = [
        (joins_fours, "the length"),
        (puts_rules_first, "the buffer"),
        (sorts_triggers, "the buffer"),
        (puts_windows_before_rules, "the buffer"),
        (puts_higher_windows_first, "the buffer"),
        (forgets_windows, "the length"),
        (writes_every_place, "the length"),
        (tests_length_first, "the number"),
        (takes_one_too_few, "the number"),
        (writes_as_much_as_fits, "the buffer"),
        (writes_beyond, "the buffer"),
        (writes_when_turned_down, "the buffer"),
        (loses_length, "the length"),
        (gives_length_of_no_state, "the length"),
        (counts_in_a_byte, "not written"),
        (stops_below_longest, "not written"),
        (writes_no_end_alone, "the number"),
        (writes_first_states_alone, "the number"),
        (minds_leftovers, "the number"),
        (forgets_history, "the bytes"),
    ];
    for (place, (write, what)) in wrong.into_iter().enumerate() {
        let found = compare(SEED, COUNT, write).expect_err("a difference");
        println!("{place}: {:?}", found.split(',').next());
        assert!(found.contains(what), "wrong writing {place}: {found}");
    }
    let few = compare(SEED, 200, LIBRARY).expect("no difference");
    assert!(few.missing(LEAST).is_some());
}

fn refuses_all(_: &mut Image, _: &mut [u8]) -> (u8, usize) {
    (14, LONGEST)
}

/// A sheet that declares something else, that is not admitted or that is not written
/// again as it was is found out, and so are two sheets that are not forms of each other.
#[test]
fn reading_again_can_fail() {
    let image = led_to(sheet_of("A"), &[16, 0]);
    let found = |library: Write, sheet: &[u8]| reads_back(library, &image, sheet).err();
    let says = |found: Option<String>, what: &str| found.is_some_and(|found| found.contains(what));
    assert_eq!(found(LIBRARY, sheet_of("A")), None);
    assert!(says(found(LIBRARY, sheet_of("C")), "read back"));
    assert!(says(found(LIBRARY, sheet_of("H")), "read back"));
    assert!(says(found(LIBRARY, &[5, 5]), "turned down by 8 at 1"));
    assert!(says(
        found(puts_rules_first, sheet_of("A")),
        "written again"
    ));
    assert!(says(found(refuses_all, sheet_of("A")), "not written"));
    let (st, four) = (&[1, 3, 7, 5][..], &[6, 3, 5][..]);
    let four_events = [1, 3, 7, 1, 3, 0, 1, 3, 6, 1, 3, 1, 5];
    assert_eq!(written_alike(LIBRARY, four, &four_events), Ok(()));
    assert!(says(written_alike(LIBRARY, four, st).err(), "forms"));
    assert!(says(
        written_alike(LIBRARY, four, &[]).err(),
        "turned down by 1 at 0"
    ));
}

/// Writes the bytes in both, into buffers of all lengths up to more than enough, and asks
/// for the sheet that is worked out by hand.
fn check(image: &Image, sheet: &[u8]) {
    let peer = scheduler(image);
    for length in 0..sheet.len() + 4 {
        let mut expected = vec![FILL; length];
        let agreed = agree(LIBRARY, image, peer.as_ref(), &expected);
        let outcome = agreed.unwrap_or_else(|difference| panic!("{difference}"));
        let number = match expected.get_mut(..sheet.len()) {
            Some(place) => {
                place.copy_from_slice(sheet);
                0
            }
            None => 14,
        };
        assert_eq!((outcome.number, outcome.need), (number, sheet.len()));
        assert_eq!(outcome.lent(), expected);
    }
}

/// The cases of document 01 have their events first and then their rules, one by one. So
/// they are written as they stand, at first and after their calls.
#[test]
fn cases_are_written_as_they_stand() {
    let admitted = |sheet: &[u8]| Sheet::read(sheet).is_ok();
    for case in CASES.iter().filter(|case| admitted(case.sheet)) {
        check(&led_to(case.sheet, &[]), case.sheet);
        check(&led_to(case.sheet, case.calls), case.sheet);
    }
}

/// Four events of one record, alone and among others, with rules between them.
#[test]
fn records_are_taken_apart_and_put_in_order() {
    let four = [1, 3, 7, 1, 3, 0, 1, 3, 6, 1, 3, 1, 5];
    check(&led_to(&[6, 3, 5], &[]), &four);
    let mixed = [
        1, 2, 6, // event 0
        6, 1, // 1 to 4
        2, 0, 3, // order
        1, 0, 1, // 5
        4, 3, 0, 5, // conditional
        6, 7, // 6 to 9
        3, 8, 5, // need
        5,
    ];
    let written = [
        1, 2, 6, // event 0
        1, 1, 7, 1, 1, 0, 1, 1, 6, 1, 1, 1, // 1 to 4
        1, 0, 1, // 5
        1, 7, 7, 1, 7, 0, 1, 7, 6, 1, 7, 1, // 6 to 9
        2, 0, 3, // order
        4, 3, 0, 5, // conditional
        3, 8, 5, // need
        5,
    ];
    check(&led_to(&mixed, &[]), &written);
    let calls = [16, 0, 16, 5, 17, 7, 16, 2];
    check(&led_to(&mixed, &calls), &written);
    let mut random = Random::new(SEED);
    for _ in 0..20 {
        check(&leftovers(&mut random, &led_to(&mixed, &calls)), &written);
    }
}

/// The empty state, also that of a sheet that is turned down, is the end alone.
#[test]
fn the_empty_state_is_one_byte() {
    check(&led_to(&[5], &[]), &[5]);
    let mut image = [FILL; STATE_LEN];
    assert_eq!(raw::open(&mut image, sheet_of("F")), (7, 6));
    check(&image, &[5]);
    let mut random = Random::new(SEED);
    for _ in 0..20 {
        check(&leftovers(&mut random, &image), &[5]);
    }
}

/// Sixteen events and sixteen conditionals, with sixteen windows, and without from records
/// of one event and of four.
#[test]
fn the_longest_sheet_is_written() {
    let rules = (0..16).flat_map(|rule| [4, (rule + 2) % 16, rule, (rule + 1) % 16]);
    let rules: Vec<u8> = rules.collect();
    let delayable: Vec<u8> = (0..16).flat_map(|event| [1, event % 8, 6]).collect();
    let windows = (0..16).flat_map(|event| window_record(event, 1 << event, u32::MAX));
    let windows: Vec<u8> = windows.chain([5]).collect();
    let without = [&delayable[..], &rules, &[5]].concat();
    check(&led_to(&without, &[]), &without);
    let sheet = [&delayable[..], &rules, &windows].concat();
    assert_eq!((sheet.len(), LONGEST), (273, 273));
    check(&led_to(&sheet, &[]), &sheet);
    let rules = [4, 2, 0, 3, 4, 6, 4, 7, 4, 10, 8, 11, 4, 14, 12, 15].repeat(4);
    let fours = [&[6, 0, 6, 5, 6, 2, 6, 7][..], &rules, &[5]].concat();
    let events = [0, 5, 2, 7].map(|step| [1, step, 7, 1, step, 0, 1, step, 6, 1, step, 1]);
    let sheet = [&events.concat()[..], &rules, &[5]].concat();
    assert_eq!(sheet.len(), without.len());
    check(&led_to(&fours, &[]), &sheet);
}

/// Bytes that are no state are turned down before the buffer is looked at.
#[test]
fn no_state_is_no_sheet() {
    let mut incoherent = led_to(sheet_of("A"), &[]);
    incoherent[LINES] = 1;
    for image in [[0; STATE_LEN], [FILL; STATE_LEN], incoherent] {
        for length in [0, 1, 12, 13, LONGEST, 200] {
            let fill = vec![FILL; length];
            let agreed = agree(LIBRARY, &image, scheduler(&image).as_ref(), &fill);
            let outcome = agreed.unwrap_or_else(|difference| panic!("{difference}"));
            assert_eq!((outcome.number, outcome.need), (12, 0));
            assert_eq!(outcome.lent(), fill);
        }
    }
}
