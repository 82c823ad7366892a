//! Windows of time and the call that moves the minute: at which minutes an event is done,
//! forced or refused, what other calls make of it, and what is turned down.

mod common;

use common::{open, Bytes, Numbers, FATE};
use sinewhopa::raw::{self, Entry};
use sinewhopa::{Call, CallFault, Fate, Preview, SheetFault, State, Window, STATE_LEN};
use std::collections::BTreeSet;

/// Where a state's bytes have the attributes of events, the minute, and windows.
const ATTRIBUTES: usize = 20;
const MINUTE: usize = 172;
const FROM: usize = 176;
const UNTIL: usize = 240;

/// A window's event and its minutes.
type Hours = (u8, u32, u32);

fn record((event, from, until): Hours) -> Vec<u8> {
    let (from, until) = (from.to_le_bytes(), until.to_le_bytes());
    [&[7, event], &from[..], &until].concat()
}

/// A sheet whose events have these attributes, each in the step of its number.
fn sheet(attributes: &[u8], rules: &[u8], windows: &[Hours]) -> Vec<u8> {
    let steps = (0..).zip(attributes);
    let events: Vec<u8> = steps.flat_map(|(step, each)| [1, step, *each]).collect();
    let windows: Vec<u8> = windows.iter().flat_map(|hours| record(*hours)).collect();
    [&events[..], rules, &windows, &[5]].concat()
}

/// Its first state, moved to a minute.
fn plan(attributes: &[u8], rules: &[u8], windows: &[Hours], minute: u32) -> State {
    let mut state = open(&sheet(attributes, rules, windows));
    assert_eq!((state.advance(minute), state.minute()), (Ok(()), minute));
    state
}

fn fates(state: &State) -> Vec<Fate> {
    state.events().map(|event| event.fate).collect()
}

/// What an event handed in at a minute comes to, where its window is from 870 until 900.
const BY_MINUTE: [(u32, Fate); 8] = [
    (0, Fate::Held),
    (869, Fate::Held),
    (870, Fate::Done),
    (871, Fate::Done),
    (899, Fate::Done),
    (900, Fate::Refused),
    (901, Fate::Refused),
    (u32::MAX, Fate::Refused),
];

#[test]
fn a_reply_is_done_in_its_window_alone() {
    for (minute, fate) in BY_MINUTE {
        let mut state = plan(&[6], &[], &[(0, 870, 900)], minute);
        assert_eq!(state.submit(0), Ok(fate), "{minute}");
        assert_eq!(plan(&[6], &[], &[], minute).submit(0), Ok(Fate::Done));
    }
}

/// The minute moves there in one go: what it jumps over does nothing.
#[test]
fn a_held_reply_is_settled_where_the_minute_gets_to() {
    for (minute, fate) in BY_MINUTE {
        let mut state = plan(&[6], &[], &[(0, 870, 900)], 0);
        assert_eq!(state.submit(0), Ok(Fate::Held));
        assert_eq!(state.advance(minute), Ok(()));
        assert_eq!(fates(&state), [fate], "{minute}");
        let settled = usize::from(fate.is_settled());
        assert_eq!(state.history().count(), settled, "{minute}");
    }
}

/// An event that is held within its window, as only a host's own bytes have it, is done by a
/// move to the minute that it is.
#[test]
fn the_same_minute_settles() {
    for (minute, fate) in BY_MINUTE {
        let mut bytes = *plan(&[6], &[], &[(0, 870, 900)], minute).as_bytes();
        bytes[FATE] = Fate::Held.number();
        let mut state = State::from_bytes(&bytes).expect("a state");
        assert_eq!(state.advance(minute), Ok(()));
        assert_eq!(fates(&state), [fate], "{minute}");
    }
}

/// An open event whose window is over stays open, lapses with its step, and is refused when
/// it is handed in. What needs it waits until then.
#[test]
fn an_open_event_is_gone_only_once_it_is_settled() {
    let mut state = plan(&[6, 6], &[3, 0, 1], &[(1, 5, 6)], 0);
    assert_eq!(state.submit(0), Ok(Fate::Held));
    assert_eq!(state.advance(6), Ok(()));
    assert_eq!(fates(&state), [Fate::Held, Fate::Open]);
    let mut closed = state.clone();
    assert_eq!(state.submit(1), Ok(Fate::Refused));
    assert_eq!(fates(&state), [Fate::Refused, Fate::Refused]);
    assert_eq!(closed.close_step(1), Ok(()));
    assert_eq!(fates(&closed), [Fate::Refused, Fate::Lapsed]);
}

/// 0 only if 1, which may be brought about from minute 5 until 7. What 0 comes to outside
/// depends on whether it can be held or refused; and where it can be neither, the rule breaks.
#[test]
fn nothing_is_forced_outside_its_window() {
    let outside = [(6, Fate::Held), (2, Fate::Refused), (0, Fate::Done)];
    for (attributes, fate) in outside {
        for minute in [0, 4, 5, 6, 7, 8] {
            let mut state = plan(&[attributes, 7], &[3, 0, 1], &[(1, 5, 7)], minute);
            let inside = [5, 6].contains(&minute);
            let (zero, one) = match inside {
                true => (Fate::Done, Fate::Forced),
                false => (fate, Fate::Open),
            };
            assert_eq!(state.submit(0), Ok(zero), "{attributes} at {minute}");
            assert_eq!(state.fate(1), Some(one), "{attributes} at {minute}");
            assert_eq!(state.is_broken(0), !inside && attributes == 0);
        }
    }
    let mut state = plan(&[6, 7], &[3, 0, 1], &[(1, 5, 7)], 4);
    assert_eq!(state.submit(0), Ok(Fate::Held));
    assert_eq!(state.advance(5), Ok(()));
    assert_eq!(fates(&state), [Fate::Done, Fate::Forced]);
}

/// If 0 and 1, then 2; 1 cannot be stopped. That 2 is forcible is enough for 0 not to wait,
/// also outside the window of 2; and there the rule breaks when 1 is reported.
#[test]
fn a_conditional_looks_ahead_by_attributes_alone() {
    for minute in [4, 5, 6] {
        let mut state = plan(&[6, 0, 7], &[4, 0, 1, 2], &[(2, 5, 6)], minute);
        assert_eq!(state.submit(0), Ok(Fate::Done));
        assert_eq!(state.submit(1), Ok(Fate::Done));
        let inside = minute == 5;
        let third = if inside { Fate::Forced } else { Fate::Open };
        assert_eq!((state.fate(2), state.is_broken(0)), (Some(third), !inside));
        let mut state = plan(&[6, 0, 6], &[4, 0, 1, 2], &[(2, 5, 6)], minute);
        assert_eq!(state.submit(0), Ok(Fate::Held));
    }
}

/// Two that need each other are done together, at a minute of both windows. Where one is over
/// it is refused, and the other with it.
#[test]
fn each_event_of_an_order_has_its_own_window() {
    for minute in 0..10 {
        let mut state = plan(&[6, 6], &[3, 0, 1, 3, 1, 0], &[(0, 2, 6), (1, 4, 8)], 0);
        assert_eq!([state.submit(0), state.submit(1)], [Ok(Fate::Held); 2]);
        assert_eq!(state.advance(minute), Ok(()));
        let fate = match minute {
            0..=3 => Fate::Held,
            4 | 5 => Fate::Done,
            _ => Fate::Refused,
        };
        assert_eq!(fates(&state), [fate; 2], "{minute}");
    }
}

/// 0 before 1, and only 0 has a window: 1 waits, and is done when 0 is done or refused.
#[test]
fn what_comes_later_waits_with_it() {
    for (minute, fate) in [(5, Fate::Done), (6, Fate::Refused)] {
        let mut state = plan(&[6, 6], &[2, 0, 1], &[(0, 5, 6)], 0);
        assert_eq!([state.submit(1), state.submit(0)], [Ok(Fate::Held); 2]);
        assert_eq!(state.advance(4), Ok(()));
        assert_eq!(state.held().count(), 2);
        assert_eq!(state.advance(minute), Ok(()));
        let lines: Vec<(u8, Fate)> = state.history().collect();
        assert_eq!(lines, [(0, fate), (1, Fate::Done)]);
    }
}

#[test]
fn winding_up_refuses_what_waits_for_its_window() {
    let mut state = plan(&[6], &[], &[(0, 5, 6)], 4);
    assert_eq!(state.submit(0), Ok(Fate::Held));
    assert_eq!(state.close_step(0), Ok(()));
    assert_eq!(fates(&state), [Fate::Held]);
    assert_eq!(state.finish(), Ok(()));
    assert_eq!(fates(&state), [Fate::Refused]);
    assert_eq!(state.minute(), 4);
}

/// Previews and batches go by the current minute. No entry and no record of a list moves it.
#[test]
fn other_calls_go_by_the_minute() {
    for (minute, fate) in BY_MINUTE {
        let mut state = plan(&[6], &[], &[(0, 870, 900)], minute);
        let counts = Preview {
            done: u8::from(fate == Fate::Done),
            refused: u8::from(fate == Fate::Refused),
            ..Preview::default()
        };
        assert_eq!(state.preview(0), Ok(counts), "{minute}");
        let answers = state.submit_all(&[Call::Submit(0)]);
        assert_eq!(answers, Ok(vec![Ok(Some(fate))]), "{minute}");
        assert_eq!(state.minute(), minute);
    }
    let (kind, mut bytes) = (19, *plan(&[6], &[], &[(0, 5, 6)], 4).as_bytes());
    let mut entries = [Entry {
        kind,
        ..Entry::default()
    }];
    assert_eq!(raw::submit_all(&mut bytes, &mut entries), 0);
    let minute = State::from_bytes(&bytes).map(|state| state.minute());
    assert_eq!((entries[0].refused, minute), (2, Ok(4)));
    let calls = [16, 0, 19, 5, 0, 0, 0, 17, 0];
    let report = "events 1 rules 0\nheld 1\nbroken 0\nrefused calls 1\n";
    assert_eq!(
        sinewhopa::run(&sheet(&[6], &[], &[(0, 5, 6)]), &calls),
        report.as_bytes()
    );
}

/// Minutes below the current one are turned down, and nothing is written; the highest is 32
/// bits of ones.
#[test]
fn no_minute_comes_again() {
    let mut state = plan(&[6], &[], &[(0, 5, 6)], 0);
    for minute in [0, 1, 255, 256, 65_536, u32::MAX - 1, u32::MAX] {
        assert_eq!(state.advance(minute), Ok(()));
        let before = state.clone();
        let lower = [0, 1, minute / 2, minute.saturating_sub(1)];
        for lower in lower.into_iter().filter(|lower| *lower < minute) {
            assert_eq!(state.advance(lower), Err(CallFault::Backward));
            assert_eq!(state, before);
        }
        assert_eq!(state.advance(minute), Ok(()));
        assert_eq!(state.as_bytes()[MINUTE..MINUTE + 4], minute.to_le_bytes());
        assert_eq!(state.minute(), minute);
    }
}

/// 12 comes before 16, and writes nothing.
#[test]
fn damaged_bytes_do_not_move() {
    let mut bytes = *plan(&[6], &[], &[(0, 5, 9)], 7).as_bytes();
    bytes[STATE_LEN - 1] = 1;
    let before: Bytes = bytes;
    for minute in [0, 6, 7, 8, u32::MAX] {
        assert_eq!(raw::advance(&mut bytes, minute), 12);
        assert_eq!(bytes, before);
    }
}

/// Windows that a sheet may not have, and the shortest, the longest and the last that it may.
#[test]
fn windows_are_turned_down() {
    let admitted = [
        (0, 0, 1),
        (0, 0, u32::MAX),
        (0, u32::MAX - 1, u32::MAX),
        (0, 1, 256),
    ];
    for (event, from, until) in admitted {
        let state = open(&sheet(&[6], &[], &[(event, from, until)]));
        assert_eq!(state.window(event), Some(Window { from, until }));
    }
    let fault = |attributes: &[u8], windows: &[Hours]| {
        State::open(&sheet(attributes, &[], windows)).expect_err("a fault")
    };
    for (from, until) in [
        (0, 0),
        (1, 1),
        (1, 0),
        (256, 1),
        (u32::MAX, 0),
        (u32::MAX, u32::MAX),
    ] {
        assert_eq!(
            fault(&[6], &[(0, from, until)]),
            SheetFault::BadWindow { at: 3 }
        );
    }
    for attributes in 0..4 {
        assert_eq!(
            fault(&[attributes], &[(0, 1, 2)]),
            SheetFault::BadWindow { at: 3 }
        );
    }
    for event in [1, 15, 16, 255] {
        assert_eq!(
            fault(&[6], &[(event, 1, 2)]),
            SheetFault::BadWindow { at: 3 }
        );
    }
    let twice = fault(&[6, 7], &[(1, 1, 2), (1, 3, 4)]);
    assert_eq!(twice, SheetFault::BadWindow { at: 16 });
}

/// The event stands above its window. A record that is cut is 1, whatever is in it.
#[test]
fn a_window_is_whole_and_below_its_event() {
    let window = record((0, 1, 2));
    let above = [&window[..], &[1, 0, 6, 5]].concat();
    assert_eq!(State::open(&above), Err(SheetFault::BadWindow { at: 0 }));
    for window in [window, record((9, 2, 1))] {
        for length in 1..window.len() {
            let cut = [&[1, 0, 6], &window[..length]].concat();
            assert_eq!(
                State::open(&cut),
                Err(SheetFault::Cut { at: 3 }),
                "{length}"
            );
        }
    }
    for kind in (0..=255).filter(|kind| !(1..=7).contains(kind)) {
        assert_eq!(State::open(&[kind]), Err(SheetFault::BadKind { at: 0 }));
    }
}

/// A state has windows that its sheet could have, in each of the sixteen places.
#[test]
fn bad_windows_are_no_state() {
    let first = plan(&[6, 2, 7, 0], &[], &[], 3);
    for place in 0..16 {
        let delayable = [0, 2].contains(&place);
        for (from, until) in [(0, 0), (0, 1), (1, 0), (3, 3), (3, 4), (256, 1), (1, 256)] {
            let mut bytes = *first.as_bytes();
            for (row, minute) in [(FROM, from), (UNTIL, until)] {
                let start = row + 4 * place;
                bytes[start..start + 4].copy_from_slice(&u32::to_le_bytes(minute));
            }
            let none = (from, until) == (0, 0);
            let so = none || (delayable && from < until);
            assert_eq!(raw::check(&bytes) == 0, so, "{place}: {from} until {until}");
            let window = (so && !none).then_some(Window { from, until });
            let read = State::from_bytes(&bytes).ok();
            assert_eq!(read.and_then(|state| state.window(place as u8)), window);
        }
    }
    let mut bytes = *plan(&[6], &[], &[(0, 1, 2)], 0).as_bytes();
    bytes[ATTRIBUTES] = 2;
    assert_eq!(raw::check(&bytes), 12);
}

/// A move writes its four bytes and nothing else where nothing is settled. What earlier
/// versions have stored is at minute 0, without windows.
#[test]
fn states_of_earlier_versions_go_on() {
    let mut state = open(common::PARTIES);
    assert!(state.as_bytes()[MINUTE..].iter().all(|byte| *byte == 0));
    assert_eq!(state.submit(2), Ok(Fate::Held));
    let mut expected = *state.as_bytes();
    assert_eq!(state.advance(0x0403_0201), Ok(()));
    expected[MINUTE..MINUTE + 4].copy_from_slice(&[1, 2, 3, 4]);
    assert_eq!(*state.as_bytes(), expected);
}

/// Random sheets and calls: a state hangs together at every minute, what is handed in is what
/// the preview has counted, and nothing is done or forced outside its window.
#[test]
fn random_lists_keep_to_their_windows() {
    let mut numbers = Numbers(7);
    let mut met = BTreeSet::new();
    for _ in 0..2000 {
        let attributes = [6, 7, 6, [0, 1, 2][usize::from(numbers.below(3))]];
        let rules = [2, 0, 1 + numbers.below(2), 3, 3, 1]; // 3 only if 1, which is forcible
        let mut hours = |event| {
            let from = u32::from(numbers.below(6));
            (event, from, from + 1 + u32::from(numbers.below(5)))
        };
        let windows = [hours(0), hours(1), hours(2)];
        let mut state = open(&sheet(&attributes, &rules, &windows));
        for _ in 0..12 {
            let before = state.line_count();
            match numbers.below(4) {
                0 => state.advance(state.minute() + 1).expect("a later minute"),
                1 => _ = state.close_step(numbers.below(4)),
                _ => hand_in(&mut state, numbers.below(4)),
            }
            for (event, fate) in state.settled_since(before) {
                let window = state.window(event).filter(|_| fate.counts_as_done());
                let minute = state.minute();
                assert!(window.is_none_or(|hours| (hours.from..hours.until).contains(&minute)));
                met.insert((event, fate.number()));
            }
        }
        assert_eq!(raw::check(state.as_bytes()), 0);
    }
    let windowed = (0..3).flat_map(|event| [2, 3, 4].map(|fate| (event, fate)));
    assert!(
        windowed.chain([(1, 5)]).all(|line| met.contains(&line)),
        "{met:?}"
    );
}

fn hand_in(state: &mut State, event: u8) {
    let (before, counted) = (state.line_count(), state.preview(event));
    assert!(state.submit(event).is_ok());
    let settled = state.settled_since(before).count();
    assert_eq!(
        counted.map(|preview| usize::from(preview.settled())),
        Ok(settled)
    );
}
