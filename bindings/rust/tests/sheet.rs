//! Sheets that are written out: which bytes, and into buffers of which lengths, through
//! the raw function and through those of `State`.

mod common;

use common::{changes, open, Bytes, Numbers, PARTIES};
use sinewhopa::{raw, CallFault, Event, Fate, Form, State, Window, LONGEST_SHEET, STATE_LEN};
use std::collections::BTreeSet;

/// How many bytes around a lent buffer are looked at too.
const AROUND: usize = 8;

/// The record of a rule.
fn rule_record(form: Form) -> Vec<u8> {
    match form {
        Form::Order { earlier, later } => vec![2, earlier, later],
        Form::Need { event, needs } => vec![3, event, needs],
        Form::Conditional { triggers, then } => vec![4, triggers[0], triggers[1], then],
    }
}

/// The record of an event's window; nothing where it has none.
fn window_record(event: &Event) -> Vec<u8> {
    let Some(Window { from, until }) = event.window else {
        return Vec::new();
    };
    [
        &[7, event.number],
        &from.to_le_bytes()[..],
        &until.to_le_bytes(),
    ]
    .concat()
}

/// The records of the events, rules and windows that the readers give, and the end.
fn declared(state: &State) -> Vec<u8> {
    let events: Vec<Event> = state.events().collect();
    let declared = events
        .iter()
        .flat_map(|event| [1, event.step, event.attributes.number()]);
    let rules = state.rules().flat_map(|rule| rule_record(rule.form));
    let windows = events.iter().flat_map(window_record);
    declared.chain(rules).chain(windows).chain([5]).collect()
}

/// Lends the raw function a buffer of that length, whatever it holds before. Sees that it
/// gives this number and this length, writes these bytes at the start and no others, and
/// only reads the state.
fn lent(bytes: &Bytes, room: usize, answer: (u8, usize), written: &[u8]) {
    for before in [0, 77, 255] {
        let (kept, mut all) = (*bytes, vec![before; AROUND + room + AROUND]);
        let mut expected = all.clone();
        expected[AROUND..AROUND + written.len()].copy_from_slice(written);
        let out = &mut all[AROUND..AROUND + room];
        assert_eq!(raw::write_sheet(&kept, out), answer, "room for {room}");
        assert_eq!(all, expected, "room for {room}");
        assert_eq!(kept, *bytes, "room for {room}");
    }
}

/// Has the state written through every function, with room for none of its sheet's bytes
/// up to two more than it has. Sees that it reads as the same events, rules and windows, at
/// minute 0 with every event open, and is then written as the same bytes. Gives the sheet.
fn written(state: &State) -> Vec<u8> {
    let sheet = declared(state);
    let length = sheet.len();
    for room in 0..=length + 2 {
        let mut out = vec![77; room];
        let answer = state.write_sheet(&mut out);
        if room < length {
            lent(state.as_bytes(), room, (14, length), &[]);
            assert_eq!((answer, out), (Err(CallFault::NoRoom), vec![77; room]));
        } else {
            lent(state.as_bytes(), room, (0, length), &sheet);
            let beyond = vec![77; room - length];
            assert_eq!((answer, out), (Ok(length), [&sheet[..], &beyond].concat()));
        }
    }
    assert_eq!(state.sheet_length(), Ok(length));
    assert_eq!(state.to_sheet().as_ref(), Ok(&sheet));

    let read = open(&sheet);
    assert_eq!(declared(&read), sheet);
    assert_eq!(read.to_sheet().as_ref(), Ok(&sheet));
    let all_open = read.events().all(|event| event.fate == Fate::Open);
    assert!(all_open && read.minute() == 0);
    sheet
}

/// Each kind of record; a sheet that stands as it is written stays as it is.
#[test]
fn each_kind_is_written() {
    let rows: [&[u8]; 7] = [
        &[5],
        &[1, 7, 0, 5],
        &[1, 2, 3, 1, 0, 6, 5],
        &[1, 0, 6, 1, 1, 6, 2, 0, 1, 2, 1, 0, 5],
        &[1, 0, 6, 1, 1, 1, 3, 0, 1, 5],
        &[
            1, 4, 6, 1, 5, 2, 1, 6, 7, 4, 2, 0, 1, 3, 0, 1, 4, 0, 1, 2, 5,
        ],
        &[1, 0, 6, 1, 1, 6, 2, 0, 1, 7, 1, 1, 2, 3, 4, 5, 6, 7, 255, 5],
    ];
    for sheet in rows {
        assert_eq!(written(&open(sheet)), sheet);
    }
}

#[test]
fn four_events_at_once_are_written_one_by_one() {
    let sheet = [1, 3, 7, 1, 3, 0, 1, 3, 6, 1, 3, 1, 5];
    assert_eq!(written(&open(&[6, 3, 5])), sheet);
    let again = [&sheet[..12], &[1, 0, 7, 1, 0, 0, 1, 0, 6, 1, 0, 1, 5]].concat();
    assert_eq!(written(&open(&[6, 3, 6, 0, 5])), again);
}

/// Four events at once or one by one, rules after all events or each as soon as it can
/// stand: the numbers are the same, and so is the sheet. With other numbers it is not.
#[test]
fn what_is_numbered_alike_is_written_alike() {
    let sheet = [
        1, 2, 7, 1, 2, 0, 1, 2, 6, 1, 2, 1, 1, 1, 6, 1, 0, 3, // events
        2, 0, 2, 3, 4, 2, 4, 4, 5, 3, // rules
        5,
    ];
    let alike: [&[u8]; 4] = [
        &sheet,
        &[6, 2, 1, 1, 6, 1, 0, 3, 2, 0, 2, 3, 4, 2, 4, 4, 5, 3, 5],
        &[6, 2, 2, 0, 2, 1, 1, 6, 3, 4, 2, 1, 0, 3, 4, 4, 5, 3, 5],
        &[
            1, 2, 7, 1, 2, 0, 1, 2, 6, 2, 0, 2, 1, 2, 1, 1, 1, 6, 3, 4, 2, 1, 0, 3, 4, 4, 5, 3, 5,
        ],
    ];
    for other in alike {
        assert_eq!(written(&open(other)), sheet, "{other:?}");
    }
    let rules_swapped = [6, 2, 1, 1, 6, 1, 0, 3, 3, 4, 2, 2, 0, 2, 4, 4, 5, 3, 5];
    let events_swapped = [6, 2, 1, 0, 3, 1, 1, 6, 2, 0, 2, 3, 5, 2, 4, 5, 4, 3, 5];
    for other in [rules_swapped, events_swapped] {
        assert_ne!(written(&open(&other)), sheet, "{other:?}");
    }
}

/// Windows by event, whatever sequence they are declared in, and wherever they stand.
#[test]
fn windows_are_written_by_event_after_the_rules() {
    let (low, high) = (
        [7, 0, 1, 0, 0, 0, 2, 0, 0, 0],
        [7, 2, 0, 0, 0, 9, 1, 0, 0, 9],
    );
    let events = [1, 0, 6, 1, 1, 0, 1, 2, 7];
    let rule = [2, 0, 2];
    let sheet = [&events[..], &rule, &low, &high, &[5]].concat();
    let alike = [
        [&events[..], &rule, &high, &low, &[5]].concat(),
        [&events[..], &high, &rule, &low, &[5]].concat(),
        [&events[..3], &low, &events[3..], &high, &rule, &[5]].concat(),
    ];
    assert_eq!(written(&open(&sheet)), sheet);
    for other in alike {
        assert_eq!(written(&open(&other)), sheet, "{other:?}");
    }
    let without = [&events[..], &rule, &low, &[5]].concat();
    assert_ne!(written(&open(&without)), sheet);
}

/// Also the one that comes of a sheet that is turned down.
#[test]
fn the_empty_state_is_one_byte() {
    let mut bytes = [77; STATE_LEN];
    assert_eq!(raw::open(&mut bytes, &[1, 0, 6, 9]), (2, 3));
    let state = State::from_bytes(&bytes).expect("the empty state");
    assert_eq!(written(&state), [5]);
}

/// Sixteen events, sixteen rules with three events each, and sixteen windows.
fn longest() -> State {
    let events = (0..16).flat_map(|event| [1, event % 8, 6 + event % 2]);
    let rules = (0..16).flat_map(|rule| [4, rule, (rule + 1) % 16, (rule + 2) % 16]);
    let windows = (0..16).flat_map(|event| [7, event, 0, event, 0, 7, 1, event, 0, 7]);
    let sheet: Vec<u8> = events.chain(rules).chain(windows).chain([5]).collect();
    open(&sheet)
}

#[test]
fn sixteen_of_all_make_the_longest_sheet() {
    assert_eq!(written(&longest()).len(), LONGEST_SHEET);
}

/// Also lengths whose lowest bytes are those of a buffer that is too short.
#[test]
fn long_buffers_stay_beyond_the_sheet() {
    for state in [open(&[5]), open(PARTIES), longest()] {
        let sheet = declared(&state);
        for room in [255, 256, 257, 272, 273, 65_535, 65_536, 65_537, 1 << 20] {
            let (number, written) = match room < sheet.len() {
                true => (14, &[][..]),
                false => (0, &sheet[..]),
            };
            lent(state.as_bytes(), room, (number, sheet.len()), written);
        }
    }
}

/// Every change of one byte: 12 comes before 14, and a state that passes is written as any.
#[test]
fn damaged_bytes_are_turned_down_first() {
    let mut state = open(PARTIES);
    assert_eq!(state.submit(2), Ok(Fate::Held)); // it waits for 1 and needs 6
    assert_eq!(state.close_step(6), Ok(()));
    assert_eq!(state.submit(8), Ok(Fate::Done)); // 9 has lapsed, so that a rule breaks
    let (mut passed, mut damaged) = (0, 0);
    for (_, _, bytes) in changes(state.as_bytes()) {
        match State::from_bytes(&bytes) {
            Ok(changed) => {
                passed += 1;
                written(&changed);
            }
            Err(_) => {
                damaged += 1;
                for room in [0, 1, 45, LONGEST_SHEET] {
                    lent(&bytes, room, (12, 0), &[]);
                }
            }
        }
    }
    // The byte as it was, at each place; and others, but not nearly all.
    assert!(passed > STATE_LEN && damaged > 2 * passed, "{passed}");
}

/// Random sheets, some of them full: what is written reads as the state that the sheet
/// itself reads as.
#[test]
fn what_is_written_reads_as_what_was_read() {
    let mut numbers = Numbers(1);
    let mut met = BTreeSet::new();
    let mut windows = BTreeSet::new();
    for _ in 0..1000 {
        let state = open(&numbers.sheet());
        assert_eq!(open(&written(&state)), state);
        met.insert((state.event_count(), state.rule_count()));
        windows.insert(
            state
                .events()
                .filter(|event| event.window.is_some())
                .count(),
        );
    }
    assert!(windows.contains(&0) && windows.len() > 3, "{windows:?}");
    assert!(met.contains(&(0, 0)) && met.contains(&(16, 16)), "{met:?}");
}

/// Whatever has become of the events, and whatever rules are broken.
#[test]
fn calls_leave_the_sheet_as_it_is() {
    let mut numbers = Numbers(2);
    let (mut fates, mut broken) = (BTreeSet::new(), 0);
    for round in 0..400 {
        let random = numbers.sheet();
        let mut state = open([&random, PARTIES][round % 2]);
        let sheet = written(&state);
        for _ in 0..12 {
            numbers.call(&mut state);
            let _ = state.advance(u32::from(numbers.below(256)) << 24); // taken or not
            assert_eq!(written(&state), sheet);
        }
        fates.extend(state.events().map(|event| event.fate.number()));
        broken += usize::from(state.rules().any(|rule| rule.broken));
    }
    assert_eq!(fates, BTreeSet::from([0, 1, 2, 3, 4, 5]));
    assert!(broken > 10, "{broken}");
}
