//! The examples of a batch, a preview, a sheet, forced events, an event that waits, one with
//! a window and a journal print what the same hosts in C print.

#[allow(dead_code)]
#[path = "../examples/batch.rs"]
mod batch;
#[allow(dead_code)]
#[path = "../examples/chapel.rs"]
mod chapel;
#[allow(dead_code)]
#[path = "../examples/forced.rs"]
mod forced;
#[allow(dead_code)]
#[path = "../examples/journal.rs"]
mod journal;
#[allow(dead_code)]
#[path = "../examples/preview.rs"]
mod preview;
#[allow(dead_code)]
#[path = "../examples/sheet.rs"]
mod sheet;
#[allow(dead_code)]
#[path = "../examples/waiting.rs"]
mod waiting;

use std::error::Error;

/// What an example tells.
fn told(run: impl FnOnce(&mut Vec<u8>) -> Result<(), Box<dyn Error>>) -> String {
    let mut out = Vec::new();
    run(&mut out).expect("a run to the end");
    String::from_utf8(out).expect("text")
}

#[test]
fn a_morning_is_told_as_in_c() {
    let in_c = include_str!("../../../examples/batch/stdout");
    assert_eq!(told(|out| batch::run(out)), in_c);
}

#[test]
fn what_would_be_settled_is_told_as_in_c() {
    let in_c = include_str!("../../../examples/preview/stdout");
    assert_eq!(told(|out| preview::run(out)), in_c);
}

#[test]
fn what_was_forced_is_told_as_in_c() {
    let in_c = include_str!("../../../examples/forced/stdout");
    assert_eq!(told(|out| forced::run(out)), in_c);
}

#[test]
fn a_sheet_passed_on_is_told_as_in_c() {
    let in_c = include_str!("../../../examples/sheet/stdout");
    assert_eq!(told(|out| sheet::run(out)), in_c);
}

#[test]
fn what_waits_is_told_as_in_c() {
    let in_c = include_str!("../../../examples/waiting/stdout");
    assert_eq!(told(|out| waiting::run(out)), in_c);
}

#[test]
fn hours_of_a_chapel_are_told_as_in_c() {
    let in_c = include_str!("../../../examples/chapel/stdout");
    assert_eq!(told(|out| chapel::run(out)), in_c);
}

#[test]
fn a_journal_that_is_cut_is_told_as_in_c() {
    let in_c = include_str!("../../../examples/journal/stdout");
    assert_eq!(told(|out| journal::run(out)), in_c);
}
