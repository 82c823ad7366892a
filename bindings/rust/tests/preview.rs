//! Previews: what handing in an event would settle, held to what handing it in settles,
//! through the raw function and through `State::preview`.

mod common;

use common::{changes, open, Bytes, Numbers, FATE, PARTIES};
use sinewhopa::raw::{self, ADDED_COUNTS, ADDED_DONE, ADDED_FORCED, ADDED_LAPSED, ADDED_REFUSED};
use sinewhopa::{Call, CallFault, Fate, Preview, State, STATE_LEN};
use std::collections::BTreeSet;

/// 0 and 2 come as they come. 1 after 0, and only if 0 and 2; 3, of 2's step, only if 2,
/// and before 0; 4 only if 2.
const SHEET: &[u8] = &[
    1, 0, 0, 1, 1, 6, 1, 2, 0, 1, 2, 6, 1, 3, 6, // events
    2, 0, 1, 3, 1, 0, 3, 1, 2, 3, 3, 2, 2, 3, 0, 3, 4, 2, // rules
    5,
];

fn preview(done: u8, refused: u8) -> Preview {
    Preview {
        done,
        refused,
        ..Preview::default()
    }
}

/// The number that handing in the event gives, and how many lines it adds to the
/// history, by fate: found by doing it on a copy. Bytes that are no state get none.
fn handed_in(bytes: &Bytes, event: u8) -> (u8, [u8; ADDED_COUNTS]) {
    let (mut after, mut added) = (*bytes, [0; ADDED_COUNTS]);
    let number = raw::submit(&mut after, event);
    let Ok(before) = State::from_bytes(bytes) else {
        return (number, added);
    };
    let after = State::from_bytes(&after).expect("a state");
    for (_, fate) in after.settled_since(before.line_count()) {
        let place = match fate {
            Fate::Done => ADDED_DONE,
            Fate::Refused => ADDED_REFUSED,
            Fate::Lapsed => ADDED_LAPSED,
            Fate::Forced => ADDED_FORCED,
            _ => panic!("a line that is {fate}"),
        };
        added[place] += 1;
    }
    (number, added)
}

/// Asks the raw function and holds it to handing in, whatever the counts were before.
/// Sees that it only reads the bytes, and that it leaves the counts where it gives
/// another number than 0.
fn asked_raw(bytes: &Bytes, event: u8) -> (u8, [u8; ADDED_COUNTS]) {
    let (number, counts) = handed_in(bytes, event);
    for before in [0, 77, 255] {
        let (kept, mut added) = (*bytes, [before; ADDED_COUNTS]);
        assert_eq!(raw::preview(&kept, event, &mut added), number, "{event}");
        assert_eq!(kept, *bytes, "{event}");
        let written = if number == 0 {
            counts
        } else {
            [before; ADDED_COUNTS]
        };
        assert_eq!(added, written, "{event}");
    }
    (number, counts)
}

/// Asks both functions and holds them to handing in; gives what the safe one answers.
fn asked(state: &State, event: u8) -> Result<Preview, CallFault> {
    let before = state.clone();
    let preview = state.preview(event);
    assert_eq!(state.as_bytes(), before.as_bytes(), "{event}");
    match asked_raw(state.as_bytes(), event) {
        (0, [done, refused, lapsed, forced]) => {
            let counted = Preview {
                done,
                refused,
                lapsed,
                forced,
            };
            assert_eq!(preview, Ok(counted), "{event}");
        }
        (number, _) => assert_eq!(preview, Err(CallFault::from_number(number)), "{event}"),
    }
    preview
}

/// Asks about all numbers that there are: events get these counts of done and refused,
/// and no other number is an event.
fn all_asked(state: &State, counts: &[(u8, u8)]) {
    for event in 0..=255 {
        let expected = match counts.get(usize::from(event)) {
            Some((done, refused)) => Ok(preview(*done, *refused)),
            None => Err(CallFault::Unknown),
        };
        assert_eq!(asked(state, event), expected, "{event} of {state:?}");
    }
}

fn make(state: &mut State, call: Call) {
    let answer = match call {
        Call::Submit(event) => state.submit(event).map(|_| ()),
        Call::CloseStep(step) => state.close_step(step),
    };
    assert_eq!(answer, Ok(()), "{call:?}");
}

/// Makes the calls; after each of them every event has the counts beside it.
fn asked_after_each(rows: &[(Call, [(u8, u8); 5])]) {
    let mut state = open(SHEET);
    all_asked(&state, &[(1, 0), (0, 0), (1, 0), (0, 0), (0, 0)]);
    for (call, counts) in rows {
        make(&mut state, *call);
        all_asked(&state, counts);
    }
}

#[test]
fn each_event_is_asked_about_after_each_call() {
    asked_after_each(&[
        (Call::Submit(1), [(1, 0), (0, 0), (1, 0), (0, 0), (0, 0)]),
        (Call::Submit(3), [(1, 1), (0, 0), (2, 0), (0, 0), (0, 0)]),
        // With 0, 3 would be refused; with 2, both 3 and 4 would be done.
        (Call::Submit(4), [(1, 1), (0, 0), (3, 0), (0, 0), (0, 0)]),
        // 3 is refused; with 2, both 1 and 4 would be done.
        (Call::Submit(0), [(0, 0), (0, 0), (3, 0), (0, 0), (0, 0)]),
        (Call::CloseStep(0), [(0, 0), (0, 0), (3, 0), (0, 0), (0, 0)]),
        (Call::Submit(2), [(0, 0); 5]),
        (Call::Submit(3), [(0, 0); 5]),
    ]);
}

/// What has lapsed is not open any more, and what needs it would be refused.
#[test]
fn lapsed_events_settle_nothing() {
    asked_after_each(&[
        (Call::CloseStep(2), [(1, 0), (0, 1), (0, 0), (0, 0), (0, 1)]),
        (Call::Submit(4), [(1, 0), (0, 1), (0, 0), (0, 0), (0, 0)]),
        (Call::CloseStep(0), [(0, 0), (0, 1), (0, 0), (0, 0), (0, 0)]),
        (Call::Submit(1), [(0, 0); 5]),
    ]);
}

/// Sixteen events with these rules: 0 comes as it comes, the others can wait, and all
/// from that number on are held.
fn sixteen(rules: impl Iterator<Item = [u8; 3]>, held: u8) -> State {
    let events = (0..16).map(|event| [1, event % 8, if event == 0 { 0 } else { 6 }]);
    let mut sheet: Vec<u8> = events.chain(rules).flatten().collect();
    sheet.push(5);
    let mut state = open(&sheet);
    for event in held..16 {
        assert_eq!(state.submit(event), Ok(Fate::Held));
    }
    state
}

#[test]
fn one_event_can_settle_all_sixteen() {
    let state = sixteen((1..16).map(|event| [3, event, 0]), 1);
    let mut counts = [(0, 0); 16];
    counts[0] = (16, 0);
    all_asked(&state, &counts);
    assert_eq!(state.preview(0).map(Preview::settled), Ok(16));
}

/// Each from 2 on needs the one before it, and 2 has to come before 0.
#[test]
fn one_event_can_have_fourteen_refused() {
    let needs = (2..16).map(|event| [3, event, event - 1]);
    let state = sixteen(needs.chain([[2, 2, 0]]), 2);
    let mut counts = [(0, 0); 16];
    (counts[0], counts[1]) = ((1, 14), (15, 0));
    all_asked(&state, &counts);
    assert_eq!(state.preview(0).map(Preview::settled), Ok(15));
}

#[test]
fn a_sheet_without_events_has_none_to_ask_about() {
    all_asked(&open(&[5]), &[]);
}

/// 0 and 1 are forcible alone, and 0 needs 1: it is brought about, and counted as forced;
/// or it has been handed in or has lapsed, and 0 is done alone. Asking records no rule as
/// broken.
#[test]
fn forced_events_are_counted_apart() {
    let mut state = open(&[1, 0, 1, 1, 1, 1, 3, 0, 1, 5]);
    let forced = Preview {
        forced: 1,
        ..preview(1, 0)
    };
    assert_eq!(asked(&state, 0), Ok(forced));
    assert_eq!(forced.settled(), 2);
    assert_eq!(asked(&state, 1), Ok(preview(1, 0)));
    let mut reported = state.clone();
    assert_eq!(reported.submit(1), Ok(Fate::Done));
    all_asked(&reported, &[(1, 0), (0, 0)]);
    assert_eq!(state.close_step(1), Ok(()));
    all_asked(&state, &[(1, 0), (0, 0)]);
    assert!(!state.is_broken(0));
}

/// Bytes from outside may have an event held that nothing stands in the way of. It is
/// settled with the next hand-in that is taken, and counted with it.
#[test]
fn what_was_left_to_settle_is_counted() {
    let mut held = *open(&[1, 0, 6, 1, 1, 6, 1, 2, 6, 3, 2, 1, 5]).as_bytes();
    held[FATE] = Fate::Held.number();
    let state = State::from_bytes(&held).expect("a state");
    // 1 would be done, and 0 with it; 2 would be held, as it needs 1, and 0 done.
    all_asked(&state, &[(0, 0), (2, 0), (1, 0)]);
}

/// Every change of one byte: 12 comes before 9, and a state that passes is asked as any.
#[test]
fn damaged_bytes_are_turned_down_first() {
    let mut state = open(SHEET);
    assert_eq!(state.submit(3), Ok(Fate::Held));
    assert_eq!(state.close_step(3), Ok(()));
    let (mut passed, mut damaged) = (0, 0);
    for (place, value, bytes) in changes(state.as_bytes()) {
        match State::from_bytes(&bytes) {
            Ok(changed) => {
                passed += 1;
                for event in 0..=16 {
                    let unknown = asked(&changed, event).is_err();
                    assert_eq!(unknown, event >= changed.event_count());
                }
            }
            Err(_) => {
                damaged += 1;
                let numbers = [0, 2, 5, 255].map(|event| asked_raw(&bytes, event).0);
                assert_eq!(numbers, [12; 4], "{value} at {place}");
            }
        }
    }
    // The byte as it was, at each place; and others, but not nearly all.
    assert!(passed > STATE_LEN && damaged > 2 * passed, "{passed}");
}

/// Lists of calls, with every event asked about before each of them.
#[test]
fn previews_are_what_handing_in_adds() {
    let mut numbers = Numbers(1);
    let mut met = BTreeSet::new();
    for round in 0..2000 {
        let mut state = open([SHEET, PARTIES][round % 2]);
        for _ in 0..12 {
            for event in 0..=state.event_count() {
                let preview = asked(&state, event);
                assert_eq!(preview.is_err(), event == state.event_count());
                met.extend(preview.map(|counts| (counts.done, counts.refused, counts.forced)));
            }
            numbers.call(&mut state);
        }
    }
    let all = [
        (0, 0, 0),
        (0, 1, 0),
        (1, 0, 0),
        (1, 0, 1),
        (1, 1, 0),
        (2, 0, 0),
        (3, 0, 0),
    ];
    assert_eq!(met, BTreeSet::from(all));
}

/// Counts that no state gives are summed up too, and do not overflow.
#[test]
fn a_sum_has_an_end() {
    let (done, refused, lapsed, forced) = (8, 4, 2, 1);
    let each = Preview {
        done,
        refused,
        lapsed,
        forced,
    };
    assert_eq!(each.settled(), 15);
    assert_eq!(preview(255, 0).settled(), 255);
    assert_eq!(preview(255, 255).settled(), 255);
}
