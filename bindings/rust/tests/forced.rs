//! Events that are forced: open ones that the scheduler brings about because a rule asks
//! for them. What is answered of them, what rules make of them, and how the mark is kept.

mod common;

use common::{open, Bytes, FATE, LINE_FATE};
use sinewhopa::raw::{self, Entry, HAND_IN};
use sinewhopa::{Call, CallFault, Fate, Preview, State};

/// Case D: 0 only if 1. Neither can wait or be refused, and both may be brought about.
const CASE_D: &[u8] = &[1, 0, 1, 1, 1, 1, 3, 0, 1, 5];

/// Case D with 0 handed in, which forces 1.
fn forced() -> State {
    let mut state = open(CASE_D);
    assert_eq!(state.submit(0), Ok(Fate::Done));
    state
}

fn history(state: &State) -> Vec<(u8, Fate)> {
    state.history().collect()
}

/// Opens the sheet, hands in these events with these fates, and sees that the history is
/// this one. Gives the state.
fn told(sheet: &[u8], events: &[(u8, Fate)], lines: &[(u8, Fate)]) -> State {
    let mut state = open(sheet);
    for (event, fate) in events {
        assert_eq!(state.submit(*event), Ok(*fate), "{event} of {state:?}");
    }
    assert_eq!(history(&state), lines);
    state
}

#[test]
fn an_event_that_is_needed_is_forced() {
    let state = forced();
    assert_eq!(state.fate(0), Some(Fate::Done));
    assert_eq!(state.fate(1), Some(Fate::Forced));
    assert_eq!(history(&state), [(0, Fate::Done), (1, Fate::Forced)]);
    assert_eq!(state.as_bytes()[FATE..FATE + 2], [2, 5]);
    assert_eq!(state.as_bytes()[LINE_FATE..LINE_FATE + 2], [2, 5]);
    assert!(!state.is_broken(0));
    let report = "events 2 rules 1\n0 done\n1 forced\nheld 0\nbroken 0\nrefused calls 0\n";
    assert_eq!(state.report(0), report.as_bytes());
    assert_eq!(sinewhopa::run(CASE_D, &[16, 0]), report.as_bytes());
}

#[test]
fn a_late_report_changes_nothing() {
    let mut state = forced();
    let before = *state.as_bytes();
    for _ in 0..2 {
        assert_eq!(state.submit(1), Ok(Fate::Forced));
        assert_eq!(state.as_bytes(), &before);
    }
}

#[test]
fn a_preview_counts_it_apart() {
    let preview = Preview {
        done: 1,
        forced: 1,
        ..Preview::default()
    };
    assert_eq!(open(CASE_D).preview(0), Ok(preview));
    let state = forced();
    assert_eq!(usize::from(preview.settled()), state.history().count());
    for event in 0..2 {
        assert_eq!(state.preview(event), Ok(Preview::default()));
    }
}

/// The answers to a batch that hands in these events, the same through both functions.
fn batch(events: [u8; 2]) -> [(u8, u8); 2] {
    let mut state = open(CASE_D);
    let answers = state.submit_all(&events.map(Call::Submit));
    let mut entries = events.map(|number| Entry {
        kind: HAND_IN,
        number,
        ..Entry::default()
    });
    let mut bytes = *open(CASE_D).as_bytes();
    assert_eq!(raw::submit_all(&mut bytes, &mut entries), 0);
    assert_eq!(state.as_bytes(), &bytes);
    let fates = entries.map(|entry| Ok(Some(Fate::from_number(entry.fate))));
    assert_eq!(answers, Ok(fates.to_vec()));
    entries.map(|entry| (entry.refused, entry.fate))
}

/// A report that comes in time is done, one that comes late finds the event forced.
#[test]
fn a_batch_answers_forced() {
    assert_eq!(batch([0, 1]), [(0, 2), (0, 5)]);
    assert_eq!(batch([1, 0]), [(0, 2), (0, 2)]);
}

#[test]
fn bytes_keep_the_mark() {
    let state = forced();
    let mut read = State::from_bytes(state.as_bytes()).expect("a state");
    assert_eq!(read, state);
    assert_eq!(history(&read), [(0, Fate::Done), (1, Fate::Forced)]);
    assert_eq!(read.submit(1), Ok(Fate::Forced));
}

/// The bytes of case D with 1 forced, but for its fate and its line's fate.
fn marked(fate: u8, line_fate: u8) -> Bytes {
    let mut bytes = *forced().as_bytes();
    bytes[FATE + 1] = fate;
    bytes[LINE_FATE + 1] = line_fate;
    bytes
}

/// Fate and line have to say the same, and no fate has a number above 5.
#[test]
fn other_marks_are_turned_down() {
    let differing = [(5, 2), (2, 5), (5, 4), (5, 0), (0, 5), (1, 5)];
    let unknown = (6..=255).flat_map(|number| [(number, number), (number, 5), (5, number)]);
    for (fate, line_fate) in differing.into_iter().chain(unknown) {
        let mut bytes = marked(fate, line_fate);
        assert_eq!(raw::check(&bytes), 12, "{fate} and {line_fate}");
        let incoherent = Err(CallFault::Incoherent);
        assert_eq!(State::from_bytes(&bytes), incoherent);
        assert_eq!(raw::submit(&mut bytes, 1), 12);
        assert_eq!(bytes, marked(fate, line_fate));
    }
}

/// An image of before there was this fate: what was brought about is done in it.
#[test]
fn older_images_are_read_as_before() {
    let mut state = State::from_bytes(&marked(2, 2)).expect("a state");
    assert_eq!(history(&state), [(0, Fate::Done), (1, Fate::Done)]);
    assert_eq!(state.submit(1), Ok(Fate::Done));
    assert_eq!(state.as_bytes(), &marked(2, 2));
}

/// An event that waits for one that may be brought about has it forced first; where that
/// one is held, it is done.
#[test]
fn what_is_held_is_done_and_what_is_open_is_forced() {
    // 0 before 1. Both can wait and be refused; 0 may be brought about too.
    let order = [1, 0, 7, 1, 1, 6, 2, 0, 1, 5];
    let done = (1, Fate::Done);
    told(&order, &[done], &[(0, Fate::Forced), done]);
    told(&order, &[(0, Fate::Done), done], &[(0, Fate::Done), done]);
    // The same events, and each only if the other.
    let needs = [1, 0, 7, 1, 1, 6, 3, 0, 1, 3, 1, 0, 5];
    told(&needs, &[done], &[(0, Fate::Forced), done]);
    let held = [(0, Fate::Held), done];
    told(&needs, &held, &[(0, Fate::Done), done]);
}

/// 0 only if 1, which is forced with it. A rule then takes 1 as done: a need for it is
/// met; what has to come before it is refused; and as a trigger it owes.
#[test]
fn rules_take_it_as_done() {
    let events = [1, 0, 0, 1, 1, 1, 1, 2, 6, 1, 3, 6, 3, 0, 1];
    let first = [(0, Fate::Done), (1, Fate::Forced)];
    let rows: [(&[u8], Fate); 4] = [
        (&[3, 2, 1], Fate::Done),    // need: 2 only if 1
        (&[2, 1, 2], Fate::Done),    // order: 1 before 2
        (&[2, 2, 1], Fate::Refused), // order: 2 before 1
        (&[4, 1, 2, 3], Fate::Held), // conditional: if 1 and 2, then 3
    ];
    for (rule, fate) in rows {
        let sheet = [&events[..], rule, &[5]].concat();
        let lines = match fate {
            Fate::Held => first.to_vec(),
            _ => [&first[..], &[(2, fate)]].concat(),
        };
        told(&sheet, &[first[0], (2, fate)], &lines);
    }
}

/// Closing a step may end a wait; what is needed then is forced, where its own step is
/// not the one that is closed.
#[test]
fn a_closing_forces_too() {
    // 1 after 0, and only if 2, which may be brought about.
    let sheet = [1, 0, 6, 1, 1, 6, 1, 2, 1, 2, 0, 1, 3, 1, 2, 5];
    let mut state = told(&sheet, &[(1, Fate::Held)], &[]);
    assert_eq!(state.close_step(0), Ok(()));
    let lines = [(0, Fate::Lapsed), (1, Fate::Done), (2, Fate::Forced)];
    assert_eq!(history(&state), lines);
    let mut state = told(&sheet, &[(1, Fate::Held)], &[]);
    assert_eq!(state.close_step(2), Ok(()));
    assert_eq!(history(&state), [(2, Fate::Lapsed), (1, Fate::Refused)]);
}
