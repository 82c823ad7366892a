//! What the library does with the buffer it is lent.

use peer::bench::kept::make_all;
use peer::cases::CASES;
use peer::compare::{pair, SEED};
use peer::library::{raw, run_into, State, LONGEST_REPORT};
use peer::peer as second;
use peer::peer::trace;
use peer::random::Random;

const FILL: u8 = 0xa5;

/// Lengths from none to beyond the report: too short ones stay untouched,
/// and the bytes beyond the report stay in the others.
fn check_report(report: &[u8], write: impl Fn(&mut [u8]) -> usize) {
    assert!(report.len() <= LONGEST_REPORT);
    let need = report.len();
    for length in [0, 1, need / 2, need - 1, need, need + 1, need + 100] {
        let mut out = vec![FILL; length];
        assert_eq!(write(&mut out), need, "length {length}");
        let written = if length < need { 0 } else { need };
        assert_eq!(out[..written], report[..written], "length {length}");
        assert!(out[written..].iter().all(|byte| *byte == FILL));
    }
}

/// The report of a list and, where the sheet is admitted, that of the state after
/// its calls.
fn check(sheet: &[u8], calls: &[u8]) {
    let report = second::run(sheet, calls);
    check_report(&report, |out| run_into(sheet, calls, out));
    if let (Ok(mut state), Ok(run)) = (State::open(sheet), trace(sheet, calls)) {
        make_all(&mut state, calls, |_| {});
        let refused = run.turned_down();
        check_report(&report, |out| raw::report(state.as_bytes(), refused, out));
    }
}

#[test]
fn buffer_of_each_case() {
    for case in CASES {
        check(case.sheet, case.calls);
    }
}

#[test]
fn buffer_of_random_pairs() {
    let mut random = Random::new(SEED ^ 0xb0ffe4);
    for _ in 0..300 {
        let (sheet, calls) = pair(&mut random);
        check(&sheet, &calls);
    }
}

/// A line for each of 16 events, and many calls turned down.
#[test]
fn buffer_of_a_long_report() {
    let mut sheet: Vec<u8> = [1, 0, 6].repeat(16);
    for event in 0..15 {
        sheet.extend([3, event, event + 1]);
    }
    sheet.extend([3, 15, 0, 5]);
    let mut calls: Vec<u8> = (0..16).flat_map(|event| [16, event]).take(14).collect();
    calls.extend([17, 0, 18]);
    calls.extend([17, 0].repeat(100_000));
    check(&sheet, &calls);
}
