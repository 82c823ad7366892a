//! The numbers and words here are those of the C header.

use sinewhopa::raw::{self, Entry, CLOSE_STEP, HAND_IN};
use sinewhopa::{Attributes, CallFault, Fate, Form, SheetFault, State, Window, STATE_LEN};
use sinewhopa::{JournalFault, LONGEST_BATCH, LONGEST_REPORT, LONGEST_SHEET};
use std::collections::BTreeMap;
use std::mem::{offset_of, size_of};

const HEADER: &str = include_str!("../../../include/sinewhopa.h");

/// What the header's functions for words say, as a program in C has printed it.
const WORDS: &str = include_str!("../../../tests/words.txt");

/// The header's constants, each with its number.
fn constants() -> BTreeMap<&'static str, usize> {
    let defined = HEADER
        .lines()
        .filter_map(|line| line.strip_prefix("#define SINEWHOPA_"));
    let number = |line: &'static str| {
        let mut words = line.split_whitespace();
        Some((words.next()?, words.next()?.parse().ok()?))
    };
    defined.filter_map(number).collect()
}

#[test]
fn numbers_are_the_headers() {
    let constants = constants();
    let at = 3;
    let rows = [
        ("REPORT_MOST", LONGEST_REPORT),
        ("BATCH_MOST", LONGEST_BATCH),
        ("SHEET_MOST", LONGEST_SHEET),
        ("HAND_IN", HAND_IN.into()),
        ("CLOSE_STEP", CLOSE_STEP.into()),
        ("ADDED_DONE", raw::ADDED_DONE),
        ("ADDED_REFUSED", raw::ADDED_REFUSED),
        ("ADDED_LAPSED", raw::ADDED_LAPSED),
        ("ADDED_FORCED", raw::ADDED_FORCED),
        ("ADDED_COUNTS", raw::ADDED_COUNTS),
        ("OPEN", Fate::Open.number().into()),
        ("HELD", Fate::Held.number().into()),
        ("DONE", Fate::Done.number().into()),
        ("REFUSED", Fate::Refused.number().into()),
        ("LAPSED", Fate::Lapsed.number().into()),
        ("FORCED", Fate::Forced.number().into()),
        ("CUT", SheetFault::Cut { at }.number().into()),
        ("BAD_KIND", SheetFault::BadKind { at }.number().into()),
        ("FULL", SheetFault::Full { at }.number().into()),
        ("BAD_STEP", SheetFault::BadStep { at }.number().into()),
        (
            "BAD_ATTRIBUTES",
            SheetFault::BadAttributes { at }.number().into(),
        ),
        ("BAD_NAMES", SheetFault::BadNames { at }.number().into()),
        (
            "UNENFORCEABLE",
            SheetFault::Unenforceable { at }.number().into(),
        ),
        ("EXTRA", SheetFault::Extra { at }.number().into()),
        ("BAD_KIND", CallFault::BadKind.number().into()),
        ("UNKNOWN", CallFault::Unknown.number().into()),
        ("ALREADY_CLOSED", CallFault::AlreadyClosed.number().into()),
        ("NOT_CLOSED", CallFault::NotClosed.number().into()),
        ("INCOHERENT", CallFault::Incoherent.number().into()),
        ("TOO_LONG", CallFault::TooLong.number().into()),
        ("NO_ROOM", CallFault::NoRoom.number().into()),
        ("BAD_WINDOW", SheetFault::BadWindow { at }.number().into()),
        ("BACKWARD", CallFault::Backward.number().into()),
    ];
    for (name, number) in rows {
        assert_eq!(constants.get(name), Some(&number), "{name}");
    }
}

/// The fault of a journal that is not its sheet's.
fn bad_record(at: usize) -> JournalFault {
    let before = Box::new(State::open(&[5]).expect("a sheet"));
    JournalFault::BadRecord { at, before }
}

#[test]
fn numbers_of_journals_are_the_headers() {
    let constants = constants();
    let rows = [
        ("FINISH", raw::FINISH.into()),
        ("ADVANCE", raw::ADVANCE.into()),
        ("RECORD_MOST", raw::RECORD_LEN),
        ("BAD_RECORD", bad_record(3).number().into()),
    ];
    for (name, number) in rows {
        assert_eq!(constants.get(name), Some(&number), "{name}");
    }
}

/// The words of C for a fate or a number, from 0 on. The last one is for those unknown to it.
fn words(what: &str) -> Vec<(u8, &'static str)> {
    let lines = WORDS.lines().filter_map(|line| line.split_once(": "));
    let words: Vec<(u8, &str)> = lines
        .filter_map(|(of, word)| Some((of.strip_prefix(what)?.trim().parse().ok()?, word)))
        .collect();
    let numbered = (0..).zip(&words);
    let in_turn = numbered.filter(|(place, (number, _))| place == number);
    assert!(in_turn.count() == words.len() && words.len() > 1);
    words
}

#[test]
fn fates_have_the_headers_words() {
    for (number, word) in words("fate") {
        match Fate::from_number(number) {
            Fate::Other(_) => assert_eq!(word, "unknown"),
            fate => assert_eq!(fate.to_string(), word),
        }
    }
}

/// A record and an entry share number 2: the header's words for it name both.
#[test]
fn faults_have_the_headers_words() {
    for (number, word) in words("number") {
        let sheet = SheetFault::from_number(number, 9);
        let of_sheet = !matches!(sheet, SheetFault::Other { .. });
        let call = CallFault::from_number(number);
        let of_call = !matches!(call, CallFault::Other(_));
        assert_eq!(of_sheet && of_call, number == 2);
        let known = number > 0 && word != "a number that this version does not know";
        assert_eq!(of_sheet || of_call, known);
        if of_sheet {
            let word = word.replace("record or entry", "record");
            let said = format!("{word}, at offset 9 of the sheet");
            assert_eq!(sheet.to_string(), said);
        }
        if of_call {
            assert_eq!(call.to_string(), word.replace("record or entry", "entry"));
        }
    }
}

/// The header has no words of its own yet for a bad record: they are here alone.
#[test]
fn a_bad_record_has_words_of_its_own() {
    let journal = bad_record(9);
    let number = journal.number();
    let sheet = SheetFault::from_number(number, 9);
    assert!(matches!(sheet, SheetFault::Other { .. }));
    assert!(matches!(
        CallFault::from_number(number),
        CallFault::Other(_)
    ));
    let unknown = (number, "a number that this version does not know");
    assert!(words("number").contains(&unknown));
    let said = "a record that is no call's, or a call that the state there turns down";
    assert_eq!(
        journal.to_string(),
        format!("{said}, at offset 9 of the journal")
    );
}

/// The fields of a struct of the header, which has so many bytes, each with its
/// offset and length.
fn fields(of: &str, bytes: usize) -> BTreeMap<&'static str, (usize, usize)> {
    let mut end = 0;
    let mut fields = BTreeMap::new();
    let (before, _) = HEADER
        .split_once(&format!("\n}} {of};"))
        .expect("the struct");
    let (_, body) = before
        .rsplit_once("typedef struct {\n")
        .expect("its fields");
    for line in body.lines() {
        let line = line.strip_prefix("    uint8_t ").expect("bytes");
        let (field, _) = line.split_once(';').expect("a field");
        let mut parts = field.split(['[', ']']).filter(|part| !part.is_empty());
        let name = parts.next().expect("a name");
        let length = parts
            .map(|part| part.parse::<usize>().expect("a length"))
            .product();
        fields.insert(name, (end, length));
        end += length;
    }
    assert_eq!(end, bytes);
    fields
}

/// An entry has the header's fields, at the header's places.
#[test]
fn an_entry_is_the_headers() {
    let places = [
        ("kind", offset_of!(Entry, kind)),
        ("number", offset_of!(Entry, number)),
        ("refused", offset_of!(Entry, refused)),
        ("fate", offset_of!(Entry, fate)),
    ];
    let places = places.map(|(name, start)| (name, (start, 1)));
    let fields = fields("sinewhopa_entry", size_of::<Entry>());
    assert_eq!(fields, BTreeMap::from(places));
}

/// A field of the state after the calls, at the header's place.
fn field(state: &State, name: &str) -> Vec<u8> {
    let (start, length) = fields("sinewhopa_state", STATE_LEN)[name];
    state.as_bytes()[start..start + length].to_vec()
}

/// Readers read where the header says.
#[test]
fn readers_read_the_headers_fields() {
    // 0 needs 1, which lapses; 2 and 3 wait for each other.
    let sheet = [
        1, 3, 1, 1, 5, 1, 1, 6, 6, 1, 6, 6, 3, 0, 1, 2, 2, 3, 2, 3, 2, 5,
    ];
    let mut state = State::open(&sheet).expect("an admitted sheet");
    assert_eq!(state.close_step(5), Ok(()));
    assert_eq!(state.submit(0), Ok(Fate::Done));
    assert_eq!(state.submit(3), Ok(Fate::Held));
    let counts = ["version", "events", "rules", "lines"].map(|name| field(&state, name)[0]);
    assert_eq!(counts[1..], [state.event_count(), state.rule_count(), 2]);
    assert_eq!(usize::from(counts[0]), constants()["VERSION_MAJOR"]);
    assert_eq!(state.line_count(), 2);
    let version = ["VERSION_MAJOR", "VERSION_MINOR"].map(|name| constants()[name]);
    assert_eq!([sinewhopa::version().0, sinewhopa::version().1].map(usize::from), version);
    let fates = [Fate::Done, Fate::Lapsed, Fate::Open, Fate::Held];
    for (event, fate) in (0..).zip(fates) {
        assert_eq!(state.fate(event), Some(fate));
        assert_eq!(field(&state, "fate")[usize::from(event)], fate.number());
    }
    assert_eq!(field(&state, "broken")[..3], [1, 0, 0]);
    assert_eq!(
        [0, 1, 2].map(|rule| state.is_broken(rule)),
        [true, false, false]
    );
    assert_eq!(field(&state, "closed"), [0, 0, 0, 0, 0, 1, 0, 0]);
    assert!((0..=255).all(|step| state.is_closed(step) == (step == 5)));
    assert_eq!(field(&state, "line_event")[..2], [1, 0]);
    assert_eq!(field(&state, "line_fate")[..2], [4, 2]);
    let history: Vec<(u8, Fate)> = state.history().collect();
    assert_eq!(history, [(1, Fate::Lapsed), (0, Fate::Done)]);
    assert_eq!(state.held().collect::<Vec<u8>>(), [3]);
    assert_eq!(raw::check(state.as_bytes()), 0);
}

/// Steps, attributes and rules are read where the header says, and by the header's numbers.
#[test]
fn declarations_are_read_from_the_headers_fields() {
    let constants = constants();
    let number = |name: &str| constants[name] as u8;
    let [forcible, rejectable, delayable] = ["FORCIBLE", "REJECTABLE", "DELAYABLE"].map(number);
    let [order, need, conditional] = ["ORDER", "NEED", "CONDITIONAL"].map(number);
    let attributes = [forcible, rejectable, rejectable + delayable];
    let events = [3, 5, 6].into_iter().zip(attributes);
    let events: Vec<u8> = events.flat_map(|(step, each)| [1, step, each]).collect();
    let rules = [&[order, 0, 2][..], &[need, 1, 0], &[conditional, 1, 0, 2]].concat();
    let sheet = [&events[..], &rules, &[5]].concat();
    let state = State::open(&sheet).expect("an admitted sheet");
    assert_eq!(field(&state, "step")[..3], [3, 5, 6]);
    assert_eq!(
        [0, 1, 2].map(|event| state.step(event)),
        [3, 5, 6].map(Some)
    );
    assert_eq!(field(&state, "attributes")[..3], attributes);
    let read = [0, 1, 2].map(|event| state.attributes(event).expect("a declared event"));
    assert_eq!(read.map(Attributes::number), attributes);
    assert_eq!(read.map(Attributes::is_forcible), [true, false, false]);
    assert_eq!(read.map(Attributes::is_rejectable), [false, true, true]);
    assert_eq!(read.map(Attributes::is_delayable), [false, false, true]);
    let rows = ["rule_kind", "rule_a", "rule_b", "rule_c"];
    let bytes = [0, 1, 2].map(|rule| rows.map(|name| field(&state, name)[rule]));
    let written = [[order, 0, 2, 0], [need, 1, 0, 0], [conditional, 1, 0, 2]];
    assert_eq!(bytes, written);
    let (earlier, later, event, needs, triggers, then) = (0, 2, 1, 0, [1, 0], 2);
    let forms = [
        Form::Order { earlier, later },
        Form::Need { event, needs },
        Form::Conditional { triggers, then },
    ];
    assert!(state.rules().map(|rule| rule.form).eq(forms));
}

/// The minute and windows are read where the header says: a byte that is written there is
/// read, and with the weight of its place.
#[test]
fn minutes_are_read_from_the_headers_fields() {
    let fields = fields("sinewhopa_state", STATE_LEN);
    let places = ["minute", "from", "until", "spare"].map(|name| fields[name]);
    assert_eq!(places, [(172, 4), (176, 64), (240, 64), (304, 80)]);
    let [minute, from, until, _] = places.map(|(start, _)| start);
    let mut bytes = *State::open(&[6, 0, 1, 1, 6, 5])
        .expect("a sheet")
        .as_bytes();
    for (place, weight) in (0..4).zip([1, 256, 65_536, 16_777_216]) {
        bytes[minute + place] = 7;
        bytes[from + 4 * 4 + place] = 1;
        bytes[until + 4 * 4 + place] = 2;
        let state = State::from_bytes(&bytes).expect("a state");
        assert_eq!(state.minute(), 7 * weight);
        let (from_minute, until_minute) = (weight, 2 * weight);
        let window = Window {
            from: from_minute,
            until: until_minute,
        };
        assert_eq!(state.window(4), Some(window));
        assert!((0..=255).all(|event| event == 4 || state.window(event).is_none()));
        for start in [minute, from + 4 * 4, until + 4 * 4] {
            bytes[start + place] = 0;
        }
    }
}

/// A preview has its counts from the header's places.
#[test]
fn a_preview_reads_the_headers_counts() {
    // 0 and 2 come as they come; 1 only if 2, and before 0; 3 after 0. 0 only if 4, which
    // may be brought about.
    let sheet = [
        1, 0, 0, 1, 1, 6, 1, 2, 0, 1, 3, 6, 1, 4, 1, // events
        3, 1, 2, 2, 1, 0, 2, 0, 3, 3, 0, 4, // rules
        5,
    ];
    let mut state = State::open(&sheet).expect("an admitted sheet");
    assert_eq!(state.submit(1), Ok(Fate::Held));
    assert_eq!(state.submit(3), Ok(Fate::Held));
    let mut added = [77; raw::ADDED_COUNTS];
    assert_eq!(raw::preview(state.as_bytes(), 0, &mut added), 0);
    let constants = constants();
    let mut counts = vec![0; constants["ADDED_COUNTS"]];
    counts[constants["ADDED_DONE"]] = 2; // 0 and 3
    counts[constants["ADDED_REFUSED"]] = 1; // 1, for which it is too late then
    counts[constants["ADDED_FORCED"]] = 1; // 4
    assert_eq!(added[..], counts);
    let preview = state.preview(0).expect("a declared event");
    assert_eq!((preview.done, preview.refused), (2, 1));
    assert_eq!((preview.lapsed, preview.forced), (0, 1));
}
