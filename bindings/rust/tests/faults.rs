//! Faults, fates and bytes of any number: nothing panics, and nothing is lost.

mod common;

use common::changes;
use sinewhopa::{CallFault, Fate, SheetFault, State, STATE_LEN};
use std::error::Error;

/// Case A, with event 0 held.
fn state() -> State {
    let mut state = State::open(&[1, 0, 6, 1, 1, 6, 2, 0, 1, 3, 0, 1, 5]).expect("a sheet");
    assert_eq!(state.submit(0), Ok(Fate::Held));
    state
}

#[test]
fn every_number_has_a_fault_and_a_fate() {
    for number in 0..=255 {
        let sheet = SheetFault::from_number(number, 9);
        assert_eq!((sheet.number(), sheet.offset()), (number, 9));
        assert!(sheet.to_string().ends_with("at offset 9 of the sheet"));
        let unnamed = matches!(sheet, SheetFault::Other { .. });
        let named = number == 15 || (1..=8).contains(&number);
        assert_eq!(unnamed, !named);
        let call = CallFault::from_number(number);
        assert_eq!(call.number(), number);
        assert!(!call.to_string().is_empty());
        let named = [2, 16].contains(&number) || (9..=14).contains(&number);
        assert_eq!(matches!(call, CallFault::Other(_)), !named);
        let fate = Fate::from_number(number);
        assert_eq!((fate.number(), fate.is_settled()), (number, number > 1));
        assert_eq!(fate.counts_as_done(), [2, 5].contains(&number));
        assert_eq!(matches!(fate, Fate::Other(_)), number > 5);
    }
}

#[test]
fn numbers_without_a_name_are_said() {
    let faults: [Box<dyn Error>; 2] = [
        Box::new(SheetFault::from_number(60, 2)),
        Box::new(CallFault::from_number(61)),
    ];
    let said = faults.map(|fault| fault.to_string());
    assert_eq!(
        said[0],
        "turned down by number 60, at offset 2 of the sheet"
    );
    assert_eq!(said[1], "turned down by number 61");
    assert_eq!(Fate::from_number(62).to_string(), "fate 62");
    assert_eq!(Fate::from_number(5).to_string(), "forced");
}

/// Each of the nine faults of a sheet, with its offset.
#[test]
fn sheets_are_turned_down() {
    let rows: [(&[u8], SheetFault); 9] = [
        (&[1, 0, 6], SheetFault::Cut { at: 3 }),
        (&[8], SheetFault::BadKind { at: 0 }),
        (
            &[6, 0, 6, 1, 6, 2, 6, 3, 6, 4, 5],
            SheetFault::Full { at: 8 },
        ),
        (&[1, 8, 0, 5], SheetFault::BadStep { at: 0 }),
        (&[1, 0, 4, 5], SheetFault::BadAttributes { at: 0 }),
        (&[1, 0, 6, 2, 0, 1, 5], SheetFault::BadNames { at: 3 }),
        (
            &[1, 0, 1, 1, 1, 6, 3, 0, 1, 5],
            SheetFault::Unenforceable { at: 6 },
        ),
        (&[5, 5], SheetFault::Extra { at: 1 }),
        (
            &[1, 0, 2, 7, 0, 0, 0, 0, 0, 1, 0, 0, 0, 5],
            SheetFault::BadWindow { at: 3 },
        ),
    ];
    for (sheet, fault) in rows {
        assert_eq!(State::open(sheet), Err(fault));
    }
}

/// A call that is turned down leaves the state as it was.
#[test]
fn calls_are_turned_down() {
    let mut state = state();
    let before = state.clone();
    assert_eq!(state.submit(2), Err(CallFault::Unknown));
    assert_eq!(state.close_step(2), Err(CallFault::Unknown));
    assert_eq!(state.close_step(255), Err(CallFault::Unknown));
    assert_eq!(state.finish(), Err(CallFault::NotClosed));
    assert_eq!(state, before);
    assert_eq!(state.advance(7), Ok(()));
    let before = state.clone();
    assert_eq!(state.advance(6), Err(CallFault::Backward));
    assert_eq!(state, before);
    assert_eq!(state.close_step(0), Ok(()));
    assert_eq!(state.close_step(0), Err(CallFault::AlreadyClosed));
}

/// Every change of one byte either is no state or can be read and called.
#[test]
fn changed_bytes_are_no_state_or_one_that_works() {
    let good = state();
    let mut passed = 0;
    for (_, _, bytes) in changes(good.as_bytes()) {
        match State::from_bytes(&bytes) {
            Ok(changed) => {
                passed += 1;
                works(changed);
            }
            Err(fault) => assert_eq!(fault, CallFault::Incoherent),
        }
    }
    // The byte as it was, at each place; and others, but not nearly all.
    assert!(passed > STATE_LEN && passed < STATE_LEN * 64, "{passed}");
}

fn works(mut state: State) {
    assert!(!format!("{state:?}").is_empty());
    assert!(!state.report(usize::MAX).is_empty());
    for number in 0..=255 {
        let _ = (
            state.fate(number),
            state.is_closed(number),
            state.is_broken(number),
            state.window(number),
            state.step(number),
            state.attributes(number),
        );
        let count = usize::from(number);
        let settled = state.settled_since(count).count();
        assert_eq!(settled, state.line_count().saturating_sub(count));
    }
    for event in 0..3 {
        let _ = state.submit(event);
        let _ = state.close_step(event);
    }
    let _ = state.finish();
    let later = state.minute().saturating_add(1);
    assert_eq!(state.advance(later), Ok(()));
    assert_eq!(State::from_bytes(state.as_bytes()), Ok(state));
}

#[test]
fn a_state_says_what_it_holds() {
    let said = "State { minute: 0, fates: [Held, Open], closed: [], broken: [], history: [], .. }";
    assert_eq!(format!("{:?}", state()), said);
}

#[test]
fn a_report_has_room_for_every_count() {
    let report = format!(
        "events 2 rules 2\nheld 1\nbroken 0\nrefused calls {}\n",
        usize::MAX
    );
    assert_eq!(state().report(usize::MAX), report.as_bytes());
}
