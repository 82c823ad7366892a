//! Cases A to L of document 01, the two cases of sixteen events, and that of S-6.

use peer::cases::CASES;
use peer::{library, peer as second};

#[test]
fn peer_reports_each_case() {
    for case in CASES {
        let report = second::run(case.sheet, case.calls);
        assert_eq!(text(&report), case.report, "case {}", case.name);
    }
}

#[test]
fn library_reports_each_case() {
    for case in CASES {
        let report = library::run(case.sheet, case.calls);
        assert_eq!(text(&report), case.report, "case {}", case.name);
    }
}

#[test]
fn every_letter_has_a_case() {
    for letter in 'A'..='L' {
        assert!(CASES.iter().any(|case| case.name.starts_with(letter)));
    }
}

fn text(report: &[u8]) -> &str {
    std::str::from_utf8(report).expect("a report is plain text")
}
