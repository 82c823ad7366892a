//! Batches on states that a host keeps, against the peer and against single calls.
//! `COMPARE_SEED` in the environment gives another seed.

use peer::cases::sheet_of;
use peer::compare::{seed, SEED};
use peer::images::batches::{agree, compare, Batch, COUNT};
use peer::images::brought::scheduler;
use peer::images::layout::{first, Image, FATE, LINES, LINE_EVENT, LINE_FATE, SPARE};
use peer::images::marks::bare;
use peer::images::FILL;
use peer::library::raw::{self, Entry};
use peer::library::STATE_LEN;
use peer::peer::batch::MOST;

/// Everything that the comparison is about has to be met this often.
const LEAST: usize = 150;

#[test]
fn every_batch_agrees_with_peer() {
    let seed = seed();
    match compare(seed, COUNT, raw::submit_all) {
        Ok(tally) => {
            println!("{tally:#?}");
            assert!(tally.batches >= COUNT);
            assert_eq!(tally.answered[0], 0);
            assert_eq!(tally.missing(LEAST), None);
            assert_eq!(tally.forced_before.unforcible[0], 0);
        }
        Err(difference) => panic!("seed {seed}, {difference}"),
    }
}

/// Batches that leave the last entry of a full list without its answer, that write into
/// bytes that they turn down, or that answer done for a forced event, are found out, and
/// too few batches are noticed.
#[test]
fn the_comparison_of_batches_can_fail() {
    let unanswered: Batch = |image, entries| {
        let last = entries.last().copied();
        let number = raw::submit_all(image, entries);
        if let (MOST, Some(last)) = (entries.len(), last) {
            entries[MOST - 1] = last;
        }
        number
    };
    let hasty: Batch = |image, entries| {
        let number = raw::submit_all(image, entries);
        image[SPARE..].fill(0);
        number
    };
    let answers_done: Batch = |image, entries| {
        let number = raw::submit_all(image, entries);
        if number == 0 {
            entries
                .iter_mut()
                .for_each(|entry| entry.fate = bare(entry.fate));
        }
        number
    };
    for (wrong, what) in [
        (unanswered, "the entries"),
        (hasty, "the bytes"),
        (answers_done, "the entries"),
    ] {
        let found = compare(SEED, COUNT, wrong);
        assert!(found.is_err_and(|found| found.contains(what)), "{what}");
    }
    let few = compare(SEED, 200, raw::submit_all).expect("no difference");
    assert!(few.missing(LEAST).is_some());
}

/// Makes the batch in both and asks for the number and for the answers, which are worked
/// out by hand: of each row the kind, the number, what it is refused by and the fate.
fn check(image: &mut Image, number: u8, rows: &[[u8; 4]]) {
    let entry = |[kind, number, ..]: &[u8; 4]| Entry {
        kind: *kind,
        number: *number,
        refused: FILL,
        fate: FILL,
    };
    let lent: Vec<Entry> = rows.iter().map(entry).collect();
    let agreed = agree(raw::submit_all, image, scheduler(image).as_mut(), &lent);
    let outcome = agreed.unwrap_or_else(|difference| panic!("{difference}"));
    let bytes = |entry: &Entry| [entry.kind, entry.number, entry.refused, entry.fate];
    let answers: Vec<[u8; 4]> = outcome.lent().iter().map(bytes).collect();
    assert_eq!((outcome.number, answers.as_slice()), (number, rows));
    *image = outcome.image;
}

/// The history's events, each with its fate.
fn lines(image: &Image) -> Vec<(u8, u8)> {
    let lines = 0..usize::from(image[LINES]);
    lines
        .map(|line| (image[LINE_EVENT + line], image[LINE_FATE + line]))
        .collect()
}

/// Each fate is the one right after its own entry, and what is turned down keeps
/// nothing from going ahead.
#[test]
fn answers_are_those_of_the_calls_in_turn() {
    let mut image = first(sheet_of("A"));
    let rows = [
        [16, 0, 0, 1], // held, for want of 1
        [18, 0, 2, 0],
        [16, 2, 9, 0],
        [16, 1, 0, 2], // both are done
        [16, 0, 0, 2],
        [17, 1, 0, 0],
        [17, 1, 10, 0],
        [17, 2, 9, 0],
        [0, 0, 2, 0],
        [17, 0, 0, 0],
    ];
    check(&mut image, 0, &rows);
    assert_eq!(lines(&image), [(0, 2), (1, 2)]);
    let mut image = first(sheet_of("B"));
    let rows = [[16, 0, 0, 1], [17, 1, 0, 0], [16, 0, 0, 3], [16, 1, 0, 4]];
    check(&mut image, 0, &rows);
    assert_eq!(lines(&image), [(1, 4), (0, 3)]);
    // Event 1 is forced, and stays so.
    let mut image = first(sheet_of("D"));
    let rows = [[16, 0, 0, 2], [16, 1, 0, 5], [17, 1, 0, 0], [16, 1, 0, 5]];
    check(&mut image, 0, &rows);
    assert_eq!(lines(&image), [(0, 2), (1, 5)]);
}

/// A list of 64 is taken, and one of 65 is not, nor are any on bytes that are no state.
#[test]
fn lists_are_taken_up_to_their_limit() {
    let mut image = first(sheet_of("A"));
    let unwritten = [16, 1, FILL, FILL];
    check(&mut image, 13, &[unwritten; MOST + 1]);
    assert_eq!(image, first(sheet_of("A")));
    check(&mut image, 0, &[[16, 0, 0, 1]; MOST]);
    check(&mut image, 0, &[[16, 1, 0, 2]; MOST]);
    let mut none = [0; STATE_LEN];
    for length in [0, 1, MOST, MOST + 1] {
        check(&mut none, 12, &vec![unwritten; length]);
    }
    assert_eq!(none, [0; STATE_LEN]);
}

/// A list without an entry does not settle, nor does one whose entries change nothing:
/// case C with event 0 held, which nothing keeps from being done.
#[test]
fn an_empty_list_does_nothing() {
    let mut image = first(sheet_of("C"));
    image[FATE] = 1;
    let before = image;
    check(&mut image, 0, &[]);
    check(&mut image, 0, &[[16, 0, 0, 1], [16, 2, 9, 0]]);
    assert_eq!(image, before);
    check(&mut image, 0, &[[17, 1, 0, 0], [16, 0, 0, 2]]);
    assert_eq!(lines(&image), [(1, 4), (0, 2)]);
}
