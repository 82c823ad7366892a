//! Journals that survive a cut: the library against the peer, and against rows worked out
//! by hand. `COMPARE_SEED` in the environment gives another seed.

mod misread;

use peer::compare::{seed, SEED};
use peer::images::journals::{
    agree_on_append, agree_on_opening, compare, cuts, Functions, COUNT, LIBRARY,
};
use peer::images::layout::{first, minute_at, FATE, MINUTE};
use peer::library::raw;
use peer::library::STATE_LEN;
use peer::random::Append;

/// Everything that the comparison is about has to be met this often.
const LEAST: usize = 200;

#[test]
fn every_case_agrees_with_peer() {
    let seed = seed();
    match compare(seed, COUNT, &LIBRARY) {
        Ok(tally) => {
            println!("{tally}");
            assert_eq!(tally.cases, COUNT);
            assert_eq!(tally.missing(LEAST), None);
        }
        Err(wrong) => panic!("seed {seed}, {wrong}"),
    }
}

/// Each wrong reading is found out, and too few cases are noticed.
#[test]
fn the_comparison_of_journals_can_fail() {
    for (name, wrong, what) in misread::libraries() {
        let found = compare(SEED, COUNT, &wrong).expect_err(name);
        println!("{name}: {:?}", found.split(',').next());
        assert!(found.contains(what), "{name}: {found}");
    }
    let few = compare(SEED, 100, &LIBRARY).expect("nothing wrong");
    assert!(few.missing(LEAST).is_some());
}

#[test]
fn every_cut_opens_to_its_whole_records() {
    let seed = seed() ^ 8;
    let tally = cuts::compare(seed, cuts::COUNT, &LIBRARY);
    let tally = tally.unwrap_or_else(|wrong| panic!("seed {seed}, {wrong}"));
    println!("{tally:?}");
    assert_eq!(tally.missing(LEAST), None);
}

/// What a cut can show alone is found out by cuts alone.
#[test]
fn the_comparison_of_cuts_can_fail() {
    let names = [
        "a cut record is 17",
        "the last whole record is lost",
        "a cut loses a whole record too",
        "a cut record is filled up",
        "a cut record is not counted",
        "all bytes are counted as read",
        "8 for bytes behind the sheet",
        "a cut sheet with bytes left over",
        "minutes highest byte first",
        "no kind 19, as in a list",
        "a record that changes nothing is 17",
    ];
    for name in names {
        let (_, open) = misread::OPENINGS
            .into_iter()
            .find(|own| own.0 == name)
            .expect(name);
        let wrong = Functions { open, ..LIBRARY };
        cuts::compare(SEED, cuts::COUNT, &wrong).expect_err(name);
    }
    let few = cuts::compare(SEED, 3, &LIBRARY).expect("nothing wrong");
    assert!(few.missing(LEAST).is_some());
}

/// Case A: two events that need to be done in their sequence, or not at all.
const A: &[u8] = &[1, 0, 6, 1, 1, 6, 2, 0, 1, 3, 0, 1, 5];
const OPEN: u8 = 0;
const HELD: u8 = 1;
const DONE: u8 = 2;
const REFUSED: u8 = 3;
const LAPSED: u8 = 4;

/// The bytes behind case A's sheet, what opening gives, the fates and the minute.
type Row = (&'static [u8], (u8, usize, usize), [u8; 2], u32);

/// Worked out by hand from the request's words.
const ROWS: [Row; 24] = [
    (&[], (0, 13, 0), [OPEN, OPEN], 0),
    // Records that are whole, and cut.
    (&[16], (0, 13, 1), [OPEN, OPEN], 0),
    (&[16, 0], (0, 15, 0), [HELD, OPEN], 0),
    (&[16, 0, 16], (0, 15, 1), [HELD, OPEN], 0),
    (&[16, 0, 16, 1], (0, 17, 0), [DONE, DONE], 0),
    (&[16, 0, 17], (0, 15, 1), [HELD, OPEN], 0),
    (&[16, 0, 17, 1], (0, 17, 0), [REFUSED, LAPSED], 0),
    (&[19], (0, 13, 1), [OPEN, OPEN], 0),
    (&[19, 1, 2, 0], (0, 13, 4), [OPEN, OPEN], 0),
    (&[19, 1, 2, 0, 0], (0, 18, 0), [OPEN, OPEN], 513),
    // What is cut is not looked at.
    (&[19, 18, 255, 0], (0, 13, 4), [OPEN, OPEN], 0),
    // Records that change nothing.
    (&[16, 0, 16, 0], (0, 17, 0), [HELD, OPEN], 0),
    (&[19, 0, 0, 0, 0], (0, 18, 0), [OPEN, OPEN], 0),
    (&[17, 0, 17, 1, 18, 18], (0, 19, 0), [LAPSED, LAPSED], 0),
    // Turned down by 9, 10, 11 and 16, with the state before.
    (&[16, 2], (17, 13, 0), [OPEN, OPEN], 0),
    (&[16, 0, 16, 2, 16, 1], (17, 15, 0), [HELD, OPEN], 0),
    (&[17, 2], (17, 13, 0), [OPEN, OPEN], 0),
    (&[17, 1, 17, 1], (17, 15, 0), [OPEN, LAPSED], 0),
    (&[17, 1, 18], (17, 15, 0), [OPEN, LAPSED], 0),
    (
        &[19, 1, 2, 0, 0, 19, 0, 2, 0, 0],
        (17, 18, 0),
        [OPEN, OPEN],
        513,
    ),
    // Bytes that are no call's kind, also as the last.
    (&[20], (17, 13, 0), [OPEN, OPEN], 0),
    (&[5], (17, 13, 0), [OPEN, OPEN], 0),
    (&[16, 0, 15], (17, 15, 0), [HELD, OPEN], 0),
    (&[16, 0, 0, 16, 1], (17, 15, 0), [HELD, OPEN], 0),
];

#[test]
fn openings_worked_out_by_hand() {
    for (records, answer, fates, minute) in ROWS {
        let journal = [A, records].concat();
        let mut image = [0xff; STATE_LEN];
        let opened = raw::open_journal(&mut image, &journal);
        assert_eq!(opened, answer, "{records:?}");
        assert_eq!(image[FATE..][..2], fates, "{records:?}");
        assert_eq!(minute_at(&image, MINUTE), minute, "{records:?}");
        assert!(agree_on_opening(&LIBRARY, &journal).is_ok());
    }
}

/// Bytes without a whole sheet in front, with the number and its offset.
const NO_SHEETS: [(&[u8], (u8, usize)); 7] = [
    (&[], (1, 0)),
    (&[1, 0, 6, 1, 1, 6, 2, 0, 1, 3, 0, 1], (1, 12)),
    (&[1, 0, 6, 1, 1, 6, 2, 0, 1, 3, 0], (1, 9)),
    (&[16, 0], (2, 0)),
    (&[1, 0, 4, 5, 16, 0], (5, 0)),
    (&[1, 0, 6, 3, 0, 1, 5, 18], (6, 3)),
    (&[1, 0, 6, 7, 0, 1, 0, 0, 0, 1, 0, 0, 0, 5, 18], (15, 3)),
];

#[test]
fn sheets_at_fault_give_their_own_number() {
    for (journal, (number, at)) in NO_SHEETS {
        let mut image = [0xff; STATE_LEN];
        let opened = raw::open_journal(&mut image, journal);
        assert_eq!(opened, (number, at, 0), "{journal:?}");
        assert_eq!(image, first(&[5]), "{journal:?}");
        assert!(agree_on_opening(&LIBRARY, journal).is_ok());
    }
}

/// Bytes behind case A's sheet, how many of them are the journal's, a kind and a number;
/// what appending gives, and the bytes after it.
type Appended = (
    &'static [u8],
    usize,
    u8,
    u32,
    (u8, usize, usize),
    &'static [u8],
);

const APPENDED: [Appended; 17] = [
    // Each kind, with no byte to spare and with some.
    (&[9, 9], 0, 16, 1, (0, 15, 13), &[16, 1]),
    (&[9, 9, 9], 0, 17, 1, (0, 15, 13), &[17, 1, 9]),
    (
        &[17, 0, 17, 1, 9],
        4,
        18,
        900,
        (0, 18, 17),
        &[17, 0, 17, 1, 18],
    ),
    (
        &[9, 9, 9, 9, 9, 9],
        0,
        19,
        513,
        (0, 18, 13),
        &[19, 1, 2, 0, 0, 9],
    ),
    // Over leftover bytes, all of them and some.
    (&[16, 9], 1, 17, 0, (0, 15, 13), &[17, 0]),
    (&[19, 7, 7, 7], 4, 16, 0, (0, 15, 13), &[16, 0, 7, 7]),
    // The journal may be shorter than what the buffer has.
    (&[16, 0, 16, 1], 2, 17, 1, (0, 17, 15), &[16, 0, 17, 1]),
    // The length is tested first, then the journal, the call and the room.
    (&[20], 2, 21, 0, (14, 15, 0), &[20]),
    (&[20], 1, 21, 0, (17, 14, 13), &[20]),
    (&[17, 1, 17, 1], 4, 16, 900, (17, 17, 15), &[17, 1, 17, 1]),
    (&[16], 1, 20, 900, (2, 14, 13), &[16]),
    (&[16], 1, 16, 256, (9, 14, 13), &[16]),
    (&[16], 1, 17, 2, (9, 14, 13), &[16]),
    (&[17, 1], 2, 17, 1, (10, 15, 15), &[17, 1]),
    (&[17, 1], 2, 18, 0, (11, 15, 15), &[17, 1]),
    (
        &[19, 1, 2, 0, 0],
        5,
        19,
        512,
        (16, 18, 18),
        &[19, 1, 2, 0, 0],
    ),
    (&[19, 0, 0, 0], 4, 19, 0, (14, 17, 13), &[19, 0, 0, 0]),
];

#[test]
fn appends_worked_out_by_hand() {
    for (records, behind, kind, number, answer, after) in APPENDED {
        let buffer = [A, records].concat();
        let len = A.len() + behind;
        let mut lent = buffer.clone();
        let given = raw::append(&mut lent, len, kind, number);
        assert_eq!(given, answer, "{kind}, {number} behind {records:?}");
        assert_eq!(lent, [A, after].concat(), "{kind}, {number}");
        let asked = Append {
            buffer,
            len,
            kind,
            number,
        };
        assert_eq!(agree_on_append(&LIBRARY, &asked), Ok(answer));
    }
}

/// More records than two bytes count.
#[test]
fn long_journals() {
    let mut journal = vec![18; 70_001];
    journal[0] = 5;
    assert!(agree_on_opening(&LIBRARY, &journal).is_ok());
    let mut image = [0; STATE_LEN];
    assert_eq!(raw::open_journal(&mut image, &journal), (0, 70_001, 0));
    let asked = |buffer: &[u8]| Append {
        buffer: buffer.to_vec(),
        len: 70_000,
        kind: 18,
        number: 0,
    };
    let appended = agree_on_append(&LIBRARY, &asked(&journal));
    assert_eq!(appended, Ok((0, 70_001, 70_000)));
    let short = agree_on_append(&LIBRARY, &asked(&journal[..70_000]));
    assert_eq!(short, Ok((14, 70_000, 70_000)));
}
