//! The library against the peer on random sheets and lists. `COMPARE_SEED` in
//! the environment gives another seed.

use peer::compare::{compare, seed, COUNT, SEED};
use peer::peer::Sheet;
use peer::{library, peer as second};

/// Everything that the comparison is about has to be met this often.
const LEAST: usize = 150;

#[test]
fn library_agrees_with_peer() {
    let seed = seed();
    match compare(seed, COUNT, library::run) {
        Ok(tally) => {
            println!("{tally:#?}");
            assert_eq!(tally.pairs, COUNT);
            assert_eq!(tally.missing(LEAST), None);
            assert_eq!(tally.broken_orders, 0);
            assert_eq!(tally.forced_lines, tally.forced);
        }
        Err(difference) => panic!("seed {seed}, {difference}"),
    }
}

/// A library that is wrong only where all sixteen events could stand in an
/// order is found out, and so is one that says done of what it forces; too few pairs
/// are noticed.
#[test]
fn the_comparison_can_fail() {
    let wrong = |sheet: &[u8], calls: &[u8]| {
        let mut report = second::run(sheet, calls);
        let read = Sheet::read(sheet);
        if read.is_ok_and(|sheet| (sheet.delayable | sheet.forcible).count_ones() == 16) {
            report.pop();
        }
        report
    };
    assert!(compare(SEED, 1_000, wrong).is_err());
    let shows_done = |sheet: &[u8], calls: &[u8]| {
        let report = second::run(sheet, calls);
        let text = String::from_utf8(report).expect("a report is plain text");
        text.replace("forced", "done").into_bytes()
    };
    assert!(compare(SEED, 1_000, shows_done).is_err());
    let few = compare(SEED, 1_000, second::run).expect("the peer agrees with itself");
    assert!(few.missing(LEAST).is_some());
}
