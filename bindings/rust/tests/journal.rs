//! Journals: what opens after a cut and after damage, what appending writes, and what is
//! turned down, through the raw functions and through those of the crate.

mod common;

use common::{open, Bytes, Numbers, PARTIES};
use sinewhopa::raw::{self, ADVANCE, CLOSE_STEP, FINISH, HAND_IN, RECORD_LEN};
use sinewhopa::{append, append_to_vec, AppendFault, CallFault, Fate, Journal};
use sinewhopa::{JournalCall, JournalFault, SheetFault, State, STATE_LEN};
use std::collections::BTreeSet;

/// Two events; 0 before 1, and 0 has a window from 870 until 900.
const CHAPEL: &[u8] = &[
    1, 0, 6, 1, 1, 6, 2, 0, 1, 7, 0, 102, 3, 0, 0, 132, 3, 0, 0, 5,
];

/// Calls that `CHAPEL` takes, one after another, with their records.
const CALLS: [(JournalCall, &[u8]); 9] = [
    (JournalCall::Advance(840), &[19, 72, 3, 0, 0]),
    (JournalCall::Submit(1), &[16, 1]), // held: it waits for 0
    (JournalCall::Submit(0), &[16, 0]), // held: too early
    (JournalCall::Advance(870), &[19, 102, 3, 0, 0]), // both are done
    (JournalCall::Submit(0), &[16, 0]), // it only gives its fate
    (JournalCall::CloseStep(1), &[17, 1]),
    (JournalCall::Advance(870), &[19, 102, 3, 0, 0]), // the same minute
    (JournalCall::CloseStep(0), &[17, 0]),
    (JournalCall::Finish, &[18]),
];

/// The journal of `CHAPEL` and its calls.
fn journal() -> Vec<u8> {
    let records = CALLS.iter().flat_map(|(_, record)| record.iter());
    CHAPEL.iter().chain(records).copied().collect()
}

/// The call of a kind and a number; none where there is no such one.
fn call_of(kind: u8, number: u32) -> Option<JournalCall> {
    match kind {
        HAND_IN => number.try_into().ok().map(JournalCall::Submit),
        CLOSE_STEP => number.try_into().ok().map(JournalCall::CloseStep),
        FINISH => Some(JournalCall::Finish),
        ADVANCE => Some(JournalCall::Advance(number)),
        _ => None,
    }
}

/// Makes the call on a state.
fn make(state: &mut State, call: JournalCall) -> Result<(), CallFault> {
    match call {
        JournalCall::Submit(event) => state.submit(event).map(|_| ()),
        JournalCall::CloseStep(step) => state.close_step(step),
        JournalCall::Finish => state.finish(),
        JournalCall::Advance(minute) => state.advance(minute),
        _ => panic!("a call without a test"),
    }
}

/// The call of the record at the start of these bytes, and its length; none where it is cut.
/// An error where its kind is no call's.
fn first_record(bytes: &[u8]) -> Result<Option<(JournalCall, usize)>, ()> {
    Ok(match *bytes {
        [HAND_IN, event, ..] => Some((JournalCall::Submit(event), 2)),
        [CLOSE_STEP, step, ..] => Some((JournalCall::CloseStep(step), 2)),
        [FINISH, ..] => Some((JournalCall::Finish, 1)),
        [ADVANCE, a, b, c, d, ..] => {
            let minute = u32::from_le_bytes([a, b, c, d]);
            Some((JournalCall::Advance(minute), 5))
        }
        [HAND_IN | CLOSE_STEP | ADVANCE, ..] => None,
        _ => return Err(()),
    })
}

/// What opening has to give, made of the calls of a state: the number, the offset, the bytes
/// left over and the state.
fn expected(journal: &[u8]) -> (u8, usize, usize, State) {
    let (mut state, mut end) = match State::open(journal) {
        Ok(state) => (state, journal.len()),
        Err(SheetFault::Extra { at }) => (open(&journal[..at]), at),
        Err(fault) => return (fault.number(), fault.offset(), 0, open(&[5])),
    };
    while end < journal.len() {
        match first_record(&journal[end..]) {
            Ok(None) => break,
            Ok(Some((call, length))) if make(&mut state, call).is_ok() => end += length,
            _ => return (17, end, 0, state),
        }
    }
    (0, end, journal.len() - end, state)
}

/// Opens the bytes through both functions and sees that they give what they have to. Gives
/// what was opened.
fn opened(journal: &[u8]) -> Result<Journal, JournalFault> {
    let (number, at, leftover, state) = expected(journal);
    for before in [0, 77, 255] {
        let mut bytes: Bytes = [before; STATE_LEN];
        let answer = raw::open_journal(&mut bytes, journal);
        assert_eq!(answer, (number, at, leftover), "{journal:?}");
        assert_eq!(bytes, *state.as_bytes(), "{journal:?}");
    }
    let given = State::open_journal(journal);
    match &given {
        Ok(opened) => {
            assert_eq!((number, &opened.state), (0, &state));
            assert_eq!((opened.end, opened.leftover), (at, leftover));
        }
        Err(fault) => {
            assert_eq!((fault.number(), fault.offset()), (number, at));
            let bad = matches!(fault, JournalFault::BadRecord { before, .. } if **before == state);
            assert_eq!(bad, number == 17, "{fault}");
        }
    }
    given
}

/// Appends to the first `len` bytes of a buffer, through both functions, and sees that only
/// the record is written, and nothing with a fault. Gives the answer of the raw function, and
/// the crate's fault where there is one.
fn appended(buffer: &[u8], len: usize, kind: u8, number: u32) -> (u8, Option<AppendFault>) {
    let mut after = buffer.to_vec();
    let (answer, new_len, at) = raw::append(&mut after, len, kind, number);
    let end = buffer.get(..len).map_or(0, |journal| expected(journal).1);
    assert_eq!(at, end, "{buffer:?}");
    let mut record = [0; RECORD_LEN];
    let length = raw::record(kind, number, &mut record);
    let mut wanted = buffer.to_vec();
    if answer == 0 {
        wanted[end..end + length].copy_from_slice(&record[..length]);
    }
    let wanted_len = if answer == 0 { end + length } else { len };
    assert_eq!((new_len, &after), (wanted_len, &wanted), "{buffer:?}");

    let Some(call) = call_of(kind, number) else {
        return (answer, None);
    };
    let mut safe = buffer.to_vec();
    let written = append(&mut safe, len, call);
    assert_eq!(safe, wanted);
    let fault = match written {
        Ok(range) => {
            assert_eq!((answer, range), (0, end..new_len));
            None
        }
        Err(fault) => {
            assert_eq!(fault.number(), answer);
            Some(fault)
        }
    };
    (answer, fault)
}

#[test]
fn every_call_has_its_record() {
    for number in 0..=255 {
        assert_eq!(JournalCall::Submit(number).record(), [16, number]);
        assert_eq!(JournalCall::CloseStep(number).record(), [17, number]);
    }
    assert_eq!(JournalCall::Finish.record(), [18]);
    for minute in [0, 1, 255, 256, 870, 0x0403_0201, u32::MAX] {
        let bytes = minute.to_le_bytes();
        let record = [&[19][..], &bytes].concat();
        assert_eq!(JournalCall::Advance(minute).record(), record);
    }
}

/// Of every kind, and of numbers that fit into a byte or not. Bytes beyond the record stay,
/// and all do where there is none.
#[test]
fn records_of_kinds_and_numbers() {
    for kind in 0..=255 {
        for number in [0, 1, 255, 256, 65_536, u32::MAX] {
            let bytes = call_of(kind, number).map_or(Vec::new(), JournalCall::record);
            let mut record = [77; RECORD_LEN];
            assert_eq!(raw::record(kind, number, &mut record), bytes.len());
            assert_eq!(record[..bytes.len()], bytes);
            assert!(record[bytes.len()..].iter().all(|byte| *byte == 77));
        }
    }
    let mut record = [0; RECORD_LEN];
    let lengths = [HAND_IN, CLOSE_STEP, FINISH, ADVANCE].map(|kind| {
        let number = u32::from(kind);
        raw::record(kind, number, &mut record)
    });
    assert_eq!(lengths, [2, 2, 1, 5]);
}

/// Wherever it is cut: in the sheet it is 1; else the state is the one after the calls of all
/// whole records, and of no others.
#[test]
fn a_journal_may_be_cut_at_each_byte() {
    let journal = journal();
    let mut state = open(CHAPEL);
    let (mut end, mut calls) = (CHAPEL.len(), CALLS.iter());
    let mut next = calls.next();
    for length in 0..CHAPEL.len() {
        let fault = opened(&journal[..length]).expect_err("a cut in the sheet");
        assert_eq!(
            fault,
            JournalFault::Sheet(State::open(&CHAPEL[..length]).expect_err("a cut"))
        );
        assert_eq!(fault.number(), 1);
    }
    for length in CHAPEL.len()..=journal.len() {
        if let Some((call, record)) = next.filter(|(_, record)| end + record.len() == length) {
            assert_eq!(make(&mut state, *call), Ok(()));
            end += record.len();
            next = calls.next();
        }
        let given = opened(&journal[..length]).expect("a whole sheet");
        assert_eq!(given.state, state, "{length}");
        assert_eq!((given.end, given.leftover), (end, length - end), "{length}");
    }
    assert_eq!((end, next), (journal.len(), None));
}

/// Each fault of a sheet but 8, whatever follows it. Bytes after the end are records.
#[test]
fn faults_of_the_sheet_come_first() {
    let rows: [(&[u8], SheetFault); 7] = [
        (&[8], SheetFault::BadKind { at: 0 }),
        (
            &[6, 0, 6, 1, 6, 2, 6, 3, 6, 4, 5],
            SheetFault::Full { at: 8 },
        ),
        (&[1, 8, 0, 5], SheetFault::BadStep { at: 0 }),
        (&[1, 0, 4, 5], SheetFault::BadAttributes { at: 0 }),
        (&[1, 0, 6, 2, 0, 1, 5], SheetFault::BadNames { at: 3 }),
        (
            &[1, 0, 1, 1, 1, 6, 3, 0, 1, 5],
            SheetFault::Unenforceable { at: 6 },
        ),
        (
            &[1, 0, 2, 7, 0, 0, 0, 0, 0, 1, 0, 0, 0, 5],
            SheetFault::BadWindow { at: 3 },
        ),
    ];
    for (sheet, fault) in rows {
        for behind in [&[][..], &[16, 0], &[99], &[16], &[5]] {
            let bytes = [sheet, behind].concat();
            assert_eq!(opened(&bytes), Err(JournalFault::Sheet(fault)));
            let given = append(&mut [&bytes[..], &[0; 8]].concat(), bytes.len(), CALLS[1].0);
            assert_eq!(given, Err(AppendFault::Journal(JournalFault::Sheet(fault))));
        }
    }
    let before = Box::new(open(&[5]));
    let bad = JournalFault::BadRecord { at: 1, before };
    assert_eq!(opened(&[5, 5]), Err(bad));
}

/// A kind that is no call's, as the last byte or before others, behind none or all of the calls.
#[test]
fn other_kinds_are_bad_records() {
    let journal = journal();
    for kind in (0..=255).filter(|kind| !(HAND_IN..=ADVANCE).contains(kind)) {
        for whole in [&journal[..], CHAPEL] {
            for behind in [&[][..], &[0], &[0, 0, 0, 0], &[16, 0]] {
                let before = Box::new(opened(whole).expect("a journal").state);
                let at = whole.len();
                let bad = JournalFault::BadRecord { at, before };
                assert_eq!(opened(&[whole, &[kind], behind].concat()), Err(bad));
            }
        }
    }
}

/// A whole record of a call that is turned down, by each number; as long as it is cut it is
/// left over, whatever stands in it.
#[test]
fn records_that_are_turned_down() {
    let rows: [(&[u8], &[u8], CallFault); 6] = [
        (&[], &[16, 2], CallFault::Unknown),
        (&[], &[17, 2], CallFault::Unknown),
        (&[17, 0], &[17, 0], CallFault::AlreadyClosed),
        (&[17, 0], &[18], CallFault::NotClosed),
        (&[19, 0, 1, 0, 0], &[19, 255, 0, 0, 0], CallFault::Backward),
        (&[17, 0, 17, 1, 18], &[16, 255], CallFault::Unknown),
    ];
    for (taken, record, why) in rows {
        let whole = [CHAPEL, taken].concat();
        let state = opened(&whole).expect("a journal").state;
        for length in 0..record.len() {
            let cut = opened(&[&whole, &record[..length]].concat()).expect("a cut record");
            assert_eq!((&cut.state, cut.leftover), (&state, length));
        }
        for behind in [&[][..], &[16, 0], &[99]] {
            let (at, before) = (whole.len(), Box::new(state.clone()));
            let bad = JournalFault::BadRecord { at, before };
            assert_eq!(opened(&[&whole, record, behind].concat()), Err(bad));
        }
        let call = first_record(record).expect("a kind").expect("whole").0;
        let mut buffer = whole.clone();
        let fault = append_to_vec(&mut buffer, call);
        assert_eq!((fault, buffer), (Err(AppendFault::Call(why)), whole));
    }
}

/// The stated length, the journal, the call, the room: each is looked at before the next.
#[test]
fn the_first_fault_is_given() {
    let damaged = [CHAPEL, &[99]].concat();
    let length = damaged.len();
    let rows = [
        (&damaged[..], length + 1, HAND_IN, 9, 14),
        (&damaged[..], usize::MAX, 99, 9, 14),
        (&damaged[..], length, 99, 0, 17),
        (&damaged[..], length, HAND_IN, 9, 17),
        (&damaged[..5], 5, HAND_IN, 9, 1),
        (CHAPEL, CHAPEL.len(), 99, 9, 2),
        (CHAPEL, CHAPEL.len(), 20, u32::MAX, 2),
        (CHAPEL, CHAPEL.len(), HAND_IN, 9, 9),
        (CHAPEL, CHAPEL.len(), HAND_IN, 256, 9),
        (CHAPEL, CHAPEL.len(), CLOSE_STEP, 256, 9),
        (CHAPEL, CHAPEL.len(), FINISH, 256, 11),
        (CHAPEL, CHAPEL.len(), HAND_IN, 0, 14),
        (CHAPEL, CHAPEL.len(), ADVANCE, 256, 14),
        (CHAPEL, CHAPEL.len() + 1, ADVANCE, 256, 14),
    ];
    for (buffer, len, kind, number, answer) in rows {
        let (given, fault) = appended(buffer, len, kind, number);
        assert_eq!(given, answer, "{len} {kind} {number}");
        let stated = len > buffer.len();
        let room = answer == 14 && !stated;
        assert_eq!(fault == Some(AppendFault::Length), stated && kind != 99);
        assert_eq!(matches!(fault, Some(AppendFault::NoRoom { .. })), room);
    }
}

/// Into buffers from none of the record's bytes up to more than all of them, behind leftover
/// bytes and without.
#[test]
fn a_record_needs_its_room() {
    for (kind, number) in [(HAND_IN, 0), (CLOSE_STEP, 1), (ADVANCE, 7)] {
        let record = call_of(kind, number).expect("a call").record();
        for leftover in [&[][..], &[16], &[19, 1], &[19, 1, 2, 3]] {
            let stored = [CHAPEL, leftover].concat();
            for beyond in 0..8 {
                let buffer = [&stored[..], &[77; 8][..beyond]].concat();
                let need = CHAPEL.len() + record.len();
                let (answer, fault) = appended(&buffer, stored.len(), kind, number);
                let short = buffer.len() < need;
                assert_eq!(answer, if short { 14 } else { 0 });
                assert_eq!(fault, short.then_some(AppendFault::NoRoom { need }));
            }
        }
    }
}

/// A new record stands over what is left over, and bytes of that which it does not reach stay
/// in the buffer, behind the journal. A journal that grows has none of them.
#[test]
fn leftover_bytes_are_written_over() {
    let stored = [CHAPEL, &[19, 1, 2, 3]].concat();
    let mut buffer = [&stored[..], &[77; 3]].concat();
    let end = CHAPEL.len();
    let written = append(&mut buffer, stored.len(), JournalCall::Submit(1));
    assert_eq!(written, Ok(end..end + 2));
    assert_eq!(buffer[end..], [16, 1, 2, 3, 77, 77, 77]);
    let given = opened(&buffer[..end + 2]).expect("a journal");
    assert_eq!(given.state.fate(1), Some(Fate::Held));

    let mut grown = stored.clone();
    let fault = append_to_vec(&mut grown, JournalCall::Finish);
    assert_eq!(fault, Err(AppendFault::Call(CallFault::NotClosed)));
    assert_eq!(grown, stored);
    assert_eq!(append_to_vec(&mut grown, JournalCall::Submit(1)), written);
    assert_eq!(grown, buffer[..end + 2]);
}

/// Call by call, in a buffer, in a journal that grows, and by the records of a host that keeps
/// the state: the journal is the same, and opens to the state after the calls.
#[test]
fn appending_equals_a_call() {
    let mut numbers = Numbers(8);
    let mut met = BTreeSet::new();
    for round in 0..600 {
        let random = numbers.sheet();
        let sheet = [&random, PARTIES, CHAPEL][round % 3];
        let (mut state, mut journal) = (open(sheet), sheet.to_vec());
        for _ in 0..12 {
            let number = u32::from(numbers.below(12));
            let minute = state.minute().saturating_add(number).saturating_sub(2);
            let kind = [HAND_IN, HAND_IN, CLOSE_STEP, FINISH, ADVANCE][numbers.below(5) as usize];
            let number = if kind == ADVANCE { minute } else { number };
            let call = call_of(kind, number).expect("a call");
            let made = make(&mut state, call);
            let cut = [&[][..], &[16], &[17], &[19, 9, 9]][numbers.below(4) as usize];
            let stored = [&journal[..], cut].concat();
            let buffer = [&stored[..], &[77; 9]].concat();
            let (answer, fault) = appended(&buffer, stored.len(), kind, number);
            met.insert(answer);
            assert_eq!(fault, made.err().map(AppendFault::Call));
            let mut grown = stored.clone();
            let written = append_to_vec(&mut grown, call);
            assert_eq!(written.is_ok(), made.is_ok());
            if made.is_ok() {
                journal.extend(call.record());
            }
            let expected = if made.is_ok() { &journal } else { &stored };
            assert_eq!(&grown, expected);
            let given = opened(&journal).expect("a journal");
            assert_eq!((&given.state, given.leftover), (&state, 0));
        }
    }
    assert_eq!(met, BTreeSet::from([0, 9, 10, 11, 16]));
}

/// Every value at every place of a journal: it opens or has its fault, and appending goes on
/// from there.
#[test]
fn damaged_bytes_are_met() {
    let journal = journal();
    let mut met = BTreeSet::new();
    for place in 0..journal.len() {
        for value in 0..=255 {
            let mut damaged = journal.clone();
            damaged[place] = value;
            met.insert(opened(&damaged).err().map_or(0, |fault| fault.number()));
            let buffer = [&damaged[..], &[77; 3]].concat();
            met.insert(appended(&buffer, damaged.len(), HAND_IN, 1).0);
            met.insert(appended(&buffer, damaged.len(), ADVANCE, 870).0);
        }
    }
    assert_eq!(met, BTreeSet::from([0, 2, 4, 5, 6, 14, 15, 16, 17]));
}

/// Random bytes behind random sheets, and random bytes alone.
#[test]
fn any_bytes_may_be_given() {
    let mut numbers = Numbers(9);
    let mut met = BTreeSet::new();
    for round in 0..4000 {
        let mut bytes = match round % 4 {
            0 => Vec::new(),
            1 => PARTIES.to_vec(),
            _ => numbers.sheet(),
        };
        for _ in 0..numbers.below(24) {
            let byte = match numbers.below(3) {
                0 => numbers.below(256),
                1 => HAND_IN + numbers.below(5),
                _ => numbers.below(10),
            };
            bytes.push(byte);
        }
        met.insert(opened(&bytes).err().map_or(0, |fault| fault.number()));
        let len = bytes.len().saturating_sub(numbers.below(4).into()) + usize::from(round % 7 == 0);
        let (kind, number) = (15 + numbers.below(6), u32::from(numbers.below(255)) + 2);
        met.insert(appended(&bytes, len, kind, number).0);
    }
    assert!(
        BTreeSet::from([0, 1, 2, 9, 14, 17]).is_subset(&met),
        "{met:?}"
    );
}

/// What a fault of appending says, and by which number.
fn said(fault: AppendFault) -> (u8, String) {
    let number = fault.number();
    let error: Box<dyn std::error::Error> = Box::new(fault);
    (number, error.to_string())
}

#[test]
fn faults_are_said() {
    let at = 6;
    let before = Box::new(open(&[5]));
    let bad = JournalFault::BadRecord { at, before };
    let full = JournalFault::Sheet(SheetFault::Full { at });
    assert_eq!((bad.number(), bad.offset()), (17, at));
    assert_eq!((full.number(), full.offset()), (3, at));
    let bad_record = "a record that is no call's, or a call that the state there turns down, \
                      at offset 6 of the journal";
    let seventeenth = "a seventeenth event or rule, at offset 6 of the sheet";
    let stated = "a stated length of the journal above the buffer's";
    let short = "a lent buffer that is too short: 25 bytes are needed";
    let rows = [
        (AppendFault::Length, 14, stated),
        (AppendFault::Journal(bad), 17, bad_record),
        (AppendFault::Journal(full), 3, seventeenth),
        (
            AppendFault::Call(CallFault::Backward),
            16,
            "a minute below the current one",
        ),
        (AppendFault::NoRoom { need: 25 }, 14, short),
    ];
    for (fault, number, words) in rows {
        if let AppendFault::Journal(fault) = &fault {
            assert_eq!(fault.to_string(), words);
        }
        assert_eq!(said(fault), (number, words.to_string()));
    }
}
