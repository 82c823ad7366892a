//! Batches: what each entry is answered, and which lists are turned down whole,
//! through the raw function and through `State::submit_all`.

mod common;

use common::{changes, open, Bytes, Numbers, FATE, PARTIES};
use sinewhopa::raw::{self, Entry, CLOSE_STEP, HAND_IN};
use sinewhopa::{Answer, Call, CallFault, Fate, State, LONGEST_BATCH};
use std::collections::BTreeSet;

/// Four steps: 1 after 0, and only if 0; 2 only if 0; 4 only if 3, of the same step.
const SHEET: &[u8] = &[
    1, 0, 0, 1, 1, 6, 1, 2, 6, 1, 3, 0, 1, 3, 6, // events
    2, 0, 1, 3, 1, 0, 3, 2, 0, 3, 4, 3, // rules
    5,
];

/// An entry with an answer of before, which must not matter.
fn entry(kind: u8, number: u8) -> Entry {
    let (refused, fate) = (77, 78);
    Entry {
        kind,
        number,
        refused,
        fate,
    }
}

/// The entry's call; none where its kind is another.
fn call(entry: &Entry) -> Option<Call> {
    match entry.kind {
        HAND_IN => Some(Call::Submit(entry.number)),
        CLOSE_STEP => Some(Call::CloseStep(entry.number)),
        _ => None,
    }
}

/// What the safe function has to answer where an entry got these numbers.
fn answer(entry: &Entry) -> Answer {
    match (entry.refused, entry.kind) {
        (0, HAND_IN) => Ok(Some(Fate::from_number(entry.fate))),
        (0, _) => Ok(None),
        (number, _) => Err(CallFault::from_number(number)),
    }
}

/// The number of an event's fate.
fn fate_number(bytes: &Bytes, event: u8) -> u8 {
    let state = State::from_bytes(bytes).expect("a state");
    state.fate(event).expect("a declared event").number()
}

/// What an entry gets by a single call.
fn single(bytes: &mut Bytes, entry: &Entry) -> Entry {
    let mut entry = *entry;
    (entry.refused, entry.fate) = match entry.kind {
        HAND_IN => match raw::submit(bytes, entry.number) {
            0 => (0, fate_number(bytes, entry.number)),
            number => (number, 0),
        },
        CLOSE_STEP => (raw::close_step(bytes, entry.number), 0),
        _ => (2, 0),
    };
    entry
}

/// What a call gets by itself.
fn single_call(state: &mut State, call: &Call) -> Answer {
    match *call {
        Call::Submit(event) => state.submit(event).map(Some),
        Call::CloseStep(step) => state.close_step(step).map(|()| None),
    }
}

/// Hands the batch in through both functions and holds both to single calls; the safe
/// one without the entries of other kinds. Gives the entries after it.
fn taken(bytes: &mut Bytes, entries: &[Entry]) -> Vec<Entry> {
    let mut state = State::from_bytes(bytes).expect("a state");
    let mut alone = state.clone();
    let calls: Vec<Call> = entries.iter().filter_map(call).collect();
    let singly: Vec<Answer> = calls
        .iter()
        .map(|call| single_call(&mut alone, call))
        .collect();
    assert_eq!(state.submit_all(&calls), Ok(singly.clone()));
    assert_eq!(state, alone);

    let mut single_bytes = *bytes;
    let expected = entries.iter().map(|entry| single(&mut single_bytes, entry));
    let expected: Vec<Entry> = expected.collect();
    let mut answered = entries.to_vec();
    assert_eq!(raw::submit_all(bytes, &mut answered), 0);
    assert_eq!(answered, expected, "{entries:?}");
    assert_eq!(*bytes, single_bytes, "{entries:?}");
    assert_eq!(bytes, state.as_bytes());
    let known = answered.iter().filter(|entry| call(entry).is_some());
    assert_eq!(known.map(answer).collect::<Vec<Answer>>(), singly);
    answered
}

/// Sees that the raw function turns the list down by that number and writes nothing.
fn turned_down(bytes: &Bytes, entries: &[Entry], number: u8) {
    let (mut after, mut answered) = (*bytes, entries.to_vec());
    let length = entries.len();
    assert_eq!(
        raw::submit_all(&mut after, &mut answered),
        number,
        "{length} entries"
    );
    assert_eq!(after, *bytes, "{length} entries");
    assert_eq!(answered, entries);
}

/// Kind and number of each entry, and what it is answered: `refused` and `fate`.
const ROWS: [(u8, u8, u8, u8); 13] = [
    (HAND_IN, 1, 0, 1),     // held: it waits for 0
    (HAND_IN, 4, 0, 1),     // held: it needs 3
    (HAND_IN, 9, 9, 0),     // no such event
    (HAND_IN, 255, 9, 0),   // nor this
    (CLOSE_STEP, 3, 0, 0),  // closed: 3 lapses, 4 is refused
    (CLOSE_STEP, 7, 9, 0),  // a step without events
    (CLOSE_STEP, 99, 9, 0), // no step
    (18, 0, 2, 0),          // a batch does not wind up
    (HAND_IN, 0, 0, 2),     // done, and 1 with it
    (HAND_IN, 1, 0, 2),     // handed in again: done by now
    (HAND_IN, 3, 0, 4),     // lapsed
    (HAND_IN, 4, 0, 3),     // refused
    (CLOSE_STEP, 3, 10, 0), // closed already
];

#[test]
fn each_entry_has_its_answer() {
    let mut bytes = *open(SHEET).as_bytes();
    let entries = ROWS.map(|(kind, number, _, _)| entry(kind, number));
    let answered = taken(&mut bytes, &entries);
    let rows = answered
        .iter()
        .map(|e| (e.kind, e.number, e.refused, e.fate));
    assert_eq!(rows.collect::<Vec<_>>(), ROWS);
    let state = State::from_bytes(&bytes).expect("a state");
    let history: Vec<(u8, Fate)> = state.history().collect();
    let settled = [
        (3, Fate::Lapsed),
        (4, Fate::Refused),
        (0, Fate::Done),
        (1, Fate::Done),
    ];
    assert_eq!(history, settled);
}

/// The same in the crate's own types.
#[test]
fn each_call_has_its_answer() {
    let mut state = open(SHEET);
    let calls = [
        Call::Submit(1),
        Call::Submit(9),
        Call::CloseStep(7),
        Call::CloseStep(3),
        Call::Submit(0),
        Call::Submit(1),
        Call::CloseStep(3),
    ];
    let answers = [
        Ok(Some(Fate::Held)),
        Err(CallFault::Unknown),
        Err(CallFault::Unknown),
        Ok(None),
        Ok(Some(Fate::Done)),
        Ok(Some(Fate::Done)),
        Err(CallFault::AlreadyClosed),
    ];
    assert_eq!(state.submit_all(&calls), Ok(answers.to_vec()));
    let fates = [0, 1, 2, 3].map(|event| state.fate(event));
    let lapsed = [Fate::Done, Fate::Done, Fate::Open, Fate::Lapsed];
    assert_eq!(fates, lapsed.map(Some));
}

#[test]
fn other_kinds_are_turned_down_and_later_entries_are_not() {
    let others = (0..=255).filter(|kind| ![HAND_IN, CLOSE_STEP].contains(kind));
    for kind in others {
        for number in [0, 1, 3, 200] {
            let mut bytes = *open(SHEET).as_bytes();
            let entries = [entry(kind, number), entry(HAND_IN, 0)];
            let [first, last] = taken(&mut bytes, &entries)[..] else {
                panic!("two entries");
            };
            assert_eq!((first.refused, first.fate), (2, 0));
            assert_eq!((last.refused, last.fate), (0, 2));
        }
    }
}

/// Entries that are turned down leave the state as it was, also where settling would
/// change it.
#[test]
fn entries_turned_down_and_empty_lists_change_nothing() {
    let mut held = *open(&[1, 0, 6, 1, 1, 6, 5]).as_bytes();
    held[FATE] = Fate::Held.number(); // nothing stands in its way
    assert_eq!(raw::check(&held), 0);
    let bad = [entry(HAND_IN, 2), entry(CLOSE_STEP, 2), entry(0, 0)];
    for entries in [&bad[..0], &bad[..1], &bad] {
        let mut bytes = held;
        let answered = taken(&mut bytes, entries);
        assert_eq!(bytes, held);
        assert!(answered.iter().all(|entry| entry.refused > 0));
    }
    let mut state = State::from_bytes(&held).expect("a state");
    assert_eq!(state.submit_all(&[]), Ok(Vec::new()));
    assert_eq!(state.as_bytes(), &held);
    assert_eq!(
        state.submit_all(&[Call::Submit(1)]).map(|list| list.len()),
        Ok(1)
    );
    assert_eq!(state.fate(0), Some(Fate::Done));
}

#[test]
fn answers_of_before_do_not_matter() {
    let start = *open(SHEET).as_bytes();
    let entries = ROWS.map(|(kind, number, _, _)| entry(kind, number));
    for before in 0..=255 {
        let (mut bytes, mut filled) = (start, entries);
        for entry in &mut filled {
            (entry.refused, entry.fate) = (before, 255 - before);
        }
        assert_eq!(raw::submit_all(&mut bytes, &mut filled), 0);
        let rows = filled.map(|e| (e.kind, e.number, e.refused, e.fate));
        assert_eq!(rows, ROWS);
    }
}

/// So many entries that change nothing, but for the last, which is done.
fn list(length: usize) -> Vec<Entry> {
    let mut entries = vec![entry(HAND_IN, 200); length];
    if let Some(last) = entries.last_mut() {
        last.number = 0;
    }
    entries
}

#[test]
fn up_to_sixty_four_entries_are_taken() {
    for length in [0, 1, 2, 63, LONGEST_BATCH] {
        let mut bytes = *open(SHEET).as_bytes();
        let answered = taken(&mut bytes, &list(length));
        assert_eq!(answered.len(), length);
        let done = answered.iter().filter(|entry| entry.fate == 2).count();
        assert_eq!(done, length.min(1));
    }
}

/// Also lengths whose lowest bytes are those of a short list.
#[test]
fn more_are_turned_down_and_nothing_is_written() {
    for length in [65, 66, 255, 256, 257, 1000, 65_536, 65_537, 1 << 20] {
        let mut state = open(SHEET);
        let mut entries = list(length);
        entries[0].number = 0; // would be done
        turned_down(state.as_bytes(), &entries, 13);
        let calls: Vec<Call> = entries.iter().filter_map(call).collect();
        assert_eq!(state.submit_all(&calls), Err(CallFault::TooLong));
        assert_eq!(state, open(SHEET));
    }
}

/// Every change of one byte: 12 comes before 13, neither writes, and a state that
/// passes is called as any.
#[test]
fn damaged_bytes_are_turned_down_first() {
    let lists = [0, 1, 63, 64, 65, 1000].map(list);
    let rows = ROWS.map(|(kind, number, _, _)| entry(kind, number));
    let mut state = open(SHEET);
    assert_eq!(state.submit(1), Ok(Fate::Held));
    assert_eq!(state.close_step(3), Ok(()));
    for (_, value, mut bytes) in changes(state.as_bytes()) {
        if raw::check(&bytes) == 0 {
            turned_down(&bytes, &lists[4], 13);
            taken(&mut bytes, &rows);
        } else {
            // Every length for one value at each place, two for the others.
            let tried = if value == 255 {
                &lists[..]
            } else {
                &lists[3..5]
            };
            tried.iter().for_each(|list| turned_down(&bytes, list, 12));
        }
    }
}

impl Numbers {
    /// One more entry, of any sort.
    fn entry(&mut self) -> Entry {
        let kind = match self.below(8) {
            0 => self.below(256),
            1 | 2 => CLOSE_STEP,
            _ => HAND_IN,
        };
        let number = match self.below(8) {
            0 => self.below(256),
            _ => self.below(10),
        };
        let (refused, fate) = (self.below(256), self.below(256));
        Entry {
            kind,
            number,
            refused,
            fate,
        }
    }
}

/// Several batches on one state, with entries of every sort in them.
#[test]
fn batches_of_any_entries_are_as_single_calls() {
    let mut numbers = Numbers(1);
    let mut met = BTreeSet::new();
    for round in 0..3000 {
        let mut bytes = *open([SHEET, PARTIES][round % 2]).as_bytes();
        for _ in 0..4 {
            let length = [0, 1, 2, 3, 5, 8, 63, 64][usize::from(numbers.below(8))];
            let entries: Vec<Entry> = (0..length).map(|_| numbers.entry()).collect();
            let answered = taken(&mut bytes, &entries);
            met.extend(answered.iter().map(|entry| (entry.refused, entry.fate)));
        }
    }
    let all = [
        (0, 0),
        (0, 1),
        (0, 2),
        (0, 3),
        (0, 4),
        (0, 5),
        (2, 0),
        (9, 0),
        (10, 0),
    ];
    assert_eq!(met, BTreeSet::from(all));
}

/// A longer list is handed in by parts.
#[test]
fn parts_of_a_list_are_as_single_calls() {
    let mut numbers = Numbers(2);
    let entries: Vec<Entry> = (0..1000).map(|_| numbers.entry()).collect();
    let calls: Vec<Call> = entries.iter().filter_map(call).collect();
    let (mut state, mut alone) = (open(PARTIES), open(PARTIES));
    let mut answers = Vec::new();
    for part in calls.chunks(LONGEST_BATCH) {
        answers.extend(state.submit_all(part).expect("a batch"));
    }
    let singly = calls.iter().map(|call| single_call(&mut alone, call));
    assert_eq!(answers, singly.collect::<Vec<Answer>>());
    assert_eq!(state, alone);
}
