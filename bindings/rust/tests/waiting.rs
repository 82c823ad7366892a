//! A conditional with a trigger that cannot be stopped, and a third event that cannot be
//! forced. While that trigger is open, the other one waits for the third event and goes
//! with it. What is settled when, which stored states are turned down, and what previews
//! and batches say of it.

mod common;

use common::{open, Bytes, FATE, LINE_FATE};
use sinewhopa::raw::{self, Entry, ADDED_COUNTS, CLOSE_STEP, HAND_IN};
use sinewhopa::Call::{CloseStep, Submit};
use sinewhopa::{Call, CallFault, Fate, Preview, State};

/// Where a state's bytes have how many lines there are, which rules are recorded as broken
/// and which steps are closed, and the events of lines.
const LINES: usize = 3;
const BROKEN: usize = 116;
const CLOSED: usize = 132;
const LINE_EVENT: usize = 140;

/// The parts that three events play: a family approves embalming, the transport firm
/// reports, the consent form comes in. If the first two, then the third.
const EMBALMING: u8 = 0;
const TRANSPORT: u8 = 1;
const CONSENT: u8 = 2;

/// Their attributes in the story: transport can be neither refused nor held.
const STORY: [u8; 3] = [6, 0, 6];

/// An event, or a part, and how it is settled.
type Line = (u8, Fate);

/// Which number each part has, and whether the rule names transport before embalming. Each
/// event has the step of its number.
#[derive(Clone, Copy, Debug)]
struct Cast {
    numbers: [u8; 3],
    transport_first: bool,
}

/// The cast in which each part has its own number.
const PLAIN: Cast = Cast {
    numbers: [EMBALMING, TRANSPORT, CONSENT],
    transport_first: false,
};

/// Every sequence of three numbers.
const SEQUENCES: [[u8; 3]; 6] = [
    [0, 1, 2],
    [0, 2, 1],
    [1, 0, 2],
    [1, 2, 0],
    [2, 0, 1],
    [2, 1, 0],
];

impl Cast {
    fn all() -> impl Iterator<Item = Cast> {
        let cast = |numbers, transport_first| Cast {
            numbers,
            transport_first,
        };
        let both = move |numbers| [cast(numbers, false), cast(numbers, true)];
        SEQUENCES.into_iter().flat_map(both)
    }

    fn number(&self, part: u8) -> u8 {
        self.numbers[usize::from(part)]
    }

    /// The sheet with these attributes of embalming, transport and consent.
    fn sheet(&self, attributes: [u8; 3]) -> Vec<u8> {
        let mut events = [[0; 3]; 3];
        for (number, attributes) in self.numbers.into_iter().zip(attributes) {
            events[usize::from(number)] = [1, number, attributes];
        }
        let [embalming, transport, consent] = self.numbers;
        let rule = match self.transport_first {
            true => [4, transport, embalming, consent],
            false => [4, embalming, transport, consent],
        };
        [&events.concat()[..], &rule, &[5]].concat()
    }

    /// The call on an event or a step, where this one names a part.
    fn call(&self, call: Call) -> Call {
        match call {
            Submit(part) => Submit(self.number(part)),
            CloseStep(part) => CloseStep(self.number(part)),
        }
    }

    /// The lines that one call adds: what lapses comes first, and the rest by number.
    fn lines(&self, parts: &[Line]) -> Vec<Line> {
        let numbered = parts.iter().map(|(part, fate)| (self.number(*part), *fate));
        let mut lines: Vec<Line> = numbered.collect();
        lines.sort_by_key(|(event, fate)| (*fate != Fate::Lapsed, *event));
        lines
    }
}

fn history(state: &State) -> Vec<Line> {
    state.history().collect()
}

fn make(state: &mut State, call: Call) {
    let answer = match call {
        Submit(event) => state.submit(event).map(|_| ()),
        CloseStep(step) => state.close_step(step),
    };
    assert_eq!(answer, Ok(()), "{call:?} of {state:?}");
}

/// Sees of each event that a preview counts what handing it in settles.
fn previews_are_what_happens(state: &State) {
    for event in 0..state.event_count() {
        let mut after = state.clone();
        make(&mut after, Submit(event));
        let new: Vec<Line> = after.settled_since(state.line_count()).collect();
        let count = |fate: Fate| new.iter().filter(|line| line.1 == fate).count() as u8;
        let counted = Preview {
            done: count(Fate::Done),
            refused: count(Fate::Refused),
            lapsed: count(Fate::Lapsed),
            forced: count(Fate::Forced),
        };
        assert_eq!(state.preview(event), Ok(counted), "{event} of {state:?}");
    }
}

/// Plays the calls of parts; each has to add the lines beside it. What was handed in and
/// has no line is held, nothing else is, and no rule breaks. Previews are right throughout.
fn played(cast: Cast, attributes: [u8; 3], turns: &[(Call, &[Line])]) -> State {
    let mut state = open(&cast.sheet(attributes));
    let mut lines = Vec::new();
    let mut handed_in = [false; 3];
    for (call, new) in turns {
        previews_are_what_happens(&state);
        let call = cast.call(*call);
        make(&mut state, call);
        lines.extend(cast.lines(new));
        assert_eq!(history(&state), lines, "{call:?}, {cast:?}, {attributes:?}");
        if let Submit(event) = call {
            handed_in[usize::from(event)] = true;
        }
        let settled = |event: u8| lines.iter().any(|line| line.0 == event);
        let waits = (0..3).filter(|event| handed_in[usize::from(*event)] && !settled(*event));
        assert!(state.held().eq(waits), "{call:?}, {cast:?}: {state:?}");
        assert!(!state.is_broken(0), "{call:?}, {cast:?}, {attributes:?}");
    }
    state
}

/// Plays the calls in every cast; also with transport forcible, and embalming too, which
/// both change nothing where no rule asks for them.
fn played_by_all(turns: &[(Call, &[Line])]) {
    for cast in Cast::all() {
        for attributes in [STORY, [6, 1, 6], [7, 0, 6], [7, 1, 6]] {
            played(cast, attributes, turns);
        }
    }
}

const APPROVED: (Call, &[Line]) = (Submit(EMBALMING), &[]);
const REPORTED: (Call, &[Line]) = (Submit(TRANSPORT), &[(TRANSPORT, Fate::Done)]);
const FORM_GONE: (Call, &[Line]) = (
    CloseStep(CONSENT),
    &[(CONSENT, Fate::Lapsed), (EMBALMING, Fate::Refused)],
);

#[test]
fn embalming_waits_and_is_refused_with_the_form() {
    played_by_all(&[APPROVED, FORM_GONE, REPORTED]);
    let state = played(PLAIN, STORY, &[APPROVED, FORM_GONE, REPORTED]);
    let report =
        "events 3 rules 1\n2 lapsed\n0 refused\n1 done\nheld 0\nbroken 0\nrefused calls 0\n";
    assert_eq!(state.report(0), report.as_bytes());
    let sheet = [1, 0, 6, 1, 1, 0, 1, 2, 6, 4, 0, 1, 2, 5];
    assert_eq!(PLAIN.sheet(STORY), sheet);
    let listed = sinewhopa::run(&sheet, &[16, 0, 17, 2, 16, 1]);
    assert_eq!(listed, report.as_bytes());
}

#[test]
fn embalming_is_done_with_the_form() {
    let both = [(EMBALMING, Fate::Done), (CONSENT, Fate::Done)];
    played_by_all(&[APPROVED, (Submit(CONSENT), &both), REPORTED]);
}

#[test]
fn with_the_form_there_nothing_waits() {
    let form: (Call, &[Line]) = (Submit(CONSENT), &[(CONSENT, Fate::Done)]);
    let approved: (Call, &[Line]) = (Submit(EMBALMING), &[(EMBALMING, Fate::Done)]);
    played_by_all(&[form, approved, REPORTED]);
    played_by_all(&[form, REPORTED, approved]);
}

/// The report then brings the form about, in the sequence of the numbers.
#[test]
fn a_form_that_may_be_forced_is_not_waited_for() {
    let forced = [(TRANSPORT, Fate::Done), (CONSENT, Fate::Forced)];
    for cast in Cast::all() {
        let turns: [(Call, &[Line]); 2] = [
            (Submit(EMBALMING), &[(EMBALMING, Fate::Done)]),
            (Submit(TRANSPORT), &forced),
        ];
        played(cast, [6, 0, 7], &turns);
    }
}

#[test]
fn a_report_that_can_be_refused_is_not_waited_for() {
    for cast in Cast::all() {
        let turns: [(Call, &[Line]); 3] = [
            (Submit(EMBALMING), &[(EMBALMING, Fate::Done)]),
            (CloseStep(CONSENT), &[(CONSENT, Fate::Lapsed)]),
            (Submit(TRANSPORT), &[(TRANSPORT, Fate::Refused)]),
        ];
        for transport in [2, 3, 6, 7] {
            played(cast, [6, transport, 6], &turns);
        }
    }
}

#[test]
fn after_a_report_that_has_lapsed_nothing_waits() {
    let firm: (Call, &[Line]) = (CloseStep(TRANSPORT), &[(TRANSPORT, Fate::Lapsed)]);
    let form: (Call, &[Line]) = (CloseStep(CONSENT), &[(CONSENT, Fate::Lapsed)]);
    let approved: (Call, &[Line]) = (Submit(EMBALMING), &[(EMBALMING, Fate::Done)]);
    played_by_all(&[firm, approved, form]);
    played_by_all(&[firm, form, approved]);
    played_by_all(&[form, firm, approved]);
}

/// With the report done the rule itself asks for the form, as it ever did.
#[test]
fn after_a_report_that_is_done_embalming_waits_as_ever() {
    played_by_all(&[REPORTED, APPROVED, FORM_GONE]);
    played_by_all(&[APPROVED, REPORTED, FORM_GONE]);
    let both = [(EMBALMING, Fate::Done), (CONSENT, Fate::Done)];
    played_by_all(&[APPROVED, REPORTED, (Submit(CONSENT), &both)]);
}

#[test]
fn the_wait_ends_where_the_report_lapses() {
    let ended = [(TRANSPORT, Fate::Lapsed), (EMBALMING, Fate::Done)];
    played_by_all(&[APPROVED, (CloseStep(TRANSPORT), &ended)]);
}

/// A form that has lapsed first bars embalming for as long as the report is open, though
/// it could lapse later.
#[test]
fn embalming_is_refused_at_once_where_the_form_is_gone() {
    let form: (Call, &[Line]) = (CloseStep(CONSENT), &[(CONSENT, Fate::Lapsed)]);
    let refused: (Call, &[Line]) = (Submit(EMBALMING), &[(EMBALMING, Fate::Refused)]);
    let firm: (Call, &[Line]) = (CloseStep(TRANSPORT), &[(TRANSPORT, Fate::Lapsed)]);
    played_by_all(&[form, refused, firm]);
    played_by_all(&[form, refused, REPORTED]);
}

/// What becomes of embalming, handed in first, with all attributes that a sheet may have.
#[test]
fn attributes_say_what_waits() {
    const ATTRIBUTES: [u8; 6] = [0, 1, 2, 3, 6, 7];
    let pairs = ATTRIBUTES.map(|embalming| ATTRIBUTES.map(|transport| (embalming, transport)));
    for cast in Cast::all() {
        let mut met = [0; 3];
        for (embalming, transport) in pairs.concat() {
            for consent in ATTRIBUTES {
                let attributes = [embalming, transport, consent];
                let Ok(mut state) = State::open(&cast.sheet(attributes)) else {
                    continue; // the rule could not be enforced
                };
                let ahead = transport & 6 == 0 && consent & 1 == 0;
                let (place, fate) = match embalming & 4 != 0 {
                    _ if !ahead => (0, Fate::Done),
                    true => (1, Fate::Held),
                    false => (2, Fate::Refused), // it cannot wait
                };
                met[place] += 1;
                let answer = state.submit(cast.number(EMBALMING));
                assert_eq!(answer, Ok(fate), "{attributes:?}, {cast:?}");
            }
        }
        assert_eq!(met, [180, 12, 12]);
    }
}

/// A form that is refused is gone as well, and one that is held is still waited for.
#[test]
fn a_form_may_wait_itself() {
    // If 0 and 1, then 2; and 2 only if 3.
    let sheet = [
        1, 0, 6, 1, 1, 0, 1, 2, 6, 1, 3, 6, // events
        4, 0, 1, 2, 3, 2, 3, // rules
        5,
    ];
    let mut state = open(&sheet);
    assert_eq!(state.submit(0), Ok(Fate::Held));
    assert_eq!(state.submit(2), Ok(Fate::Held));
    previews_are_what_happens(&state);
    let mut done = state.clone();
    assert_eq!(done.submit(3), Ok(Fate::Done));
    assert_eq!(history(&done), [0, 2, 3].map(|event| (event, Fate::Done)));
    make(&mut state, CloseStep(3));
    let lines = [(3, Fate::Lapsed), (2, Fate::Refused), (0, Fate::Refused)];
    assert_eq!(history(&state), lines);
    assert_eq!(state.submit(1), Ok(Fate::Done));
    assert!(!state.is_broken(0) && !state.is_broken(1));
}

/// What needs embalming waits with it, and is refused with it.
#[test]
fn others_wait_for_what_waits() {
    // If 0 and 1, then 2; and 3 only if 0.
    let sheet = [
        1, 0, 6, 1, 1, 0, 1, 2, 6, 1, 3, 6, // events
        4, 0, 1, 2, 3, 3, 0, // rules
        5,
    ];
    let mut state = open(&sheet);
    assert_eq!(state.submit(3), Ok(Fate::Held));
    assert_eq!(state.submit(0), Ok(Fate::Held));
    previews_are_what_happens(&state);
    let mut done = state.clone();
    assert_eq!(done.submit(2), Ok(Fate::Done));
    assert_eq!(history(&done), [0, 2, 3].map(|event| (event, Fate::Done)));
    make(&mut state, CloseStep(2));
    let lines = [(2, Fate::Lapsed), (0, Fate::Refused), (3, Fate::Refused)];
    assert_eq!(history(&state), lines);
}

/// Two reports that cannot be stopped, each with a rule: both have to be out of it.
#[test]
fn each_rule_makes_it_wait() {
    // If 0 and 1, then 2; and if 3 and 0, then 2.
    let sheet = [
        1, 0, 6, 1, 1, 0, 1, 2, 6, 1, 3, 0, // events
        4, 0, 1, 2, 4, 3, 0, 2, // rules
        5,
    ];
    for (first, last) in [(1, 3), (3, 1)] {
        let mut state = open(&sheet);
        assert_eq!(state.submit(0), Ok(Fate::Held));
        make(&mut state, CloseStep(first));
        assert_eq!(history(&state), [(first, Fate::Lapsed)]);
        previews_are_what_happens(&state);
        make(&mut state, CloseStep(last));
        let lines = [(first, Fate::Lapsed), (last, Fate::Lapsed), (0, Fate::Done)];
        assert_eq!(history(&state), lines);
    }
}

#[test]
fn a_preview_says_that_it_would_wait() {
    let done = |done: u8| {
        Ok(Preview {
            done,
            ..Preview::default()
        })
    };
    let mut state = open(&PLAIN.sheet(STORY));
    assert_eq!(state.preview(EMBALMING), done(0));
    assert_eq!(state.preview(TRANSPORT), done(1));
    assert_eq!(state.preview(CONSENT), done(1));
    let mut without = state.clone();
    make(&mut state, Submit(EMBALMING));
    assert_eq!(state.preview(EMBALMING), done(0));
    assert_eq!(state.preview(TRANSPORT), done(1)); // embalming would wait on
    assert_eq!(state.preview(CONSENT), done(2));
    make(&mut without, CloseStep(CONSENT));
    let refused = Preview {
        refused: 1,
        ..Preview::default()
    };
    assert_eq!(without.preview(EMBALMING), Ok(refused));
    assert_eq!(without.preview(TRANSPORT), done(1));
}

/// The answers to a batch on the story's sheet, the same through both functions; and the
/// history after it.
fn batch(calls: &[Call]) -> (Vec<(u8, u8)>, Vec<Line>) {
    let mut state = open(&PLAIN.sheet(STORY));
    let mut bytes = *state.as_bytes();
    let entry = |call: &Call| {
        let (kind, number) = match *call {
            Submit(event) => (HAND_IN, event),
            CloseStep(step) => (CLOSE_STEP, step),
        };
        Entry {
            kind,
            number,
            ..Entry::default()
        }
    };
    let mut entries: Vec<Entry> = calls.iter().map(entry).collect();
    assert_eq!(raw::submit_all(&mut bytes, &mut entries), 0);
    let fates = entries.iter().map(|entry| match entry.kind {
        HAND_IN => Ok(Some(Fate::from_number(entry.fate))),
        _ => Ok(None),
    });
    assert_eq!(state.submit_all(calls), Ok(fates.collect()));
    assert_eq!(state.as_bytes(), &bytes);
    assert!(!state.is_broken(0), "{calls:?}");
    let answers = entries.iter().map(|entry| (entry.refused, entry.fate));
    (answers.collect(), history(&state))
}

/// The three events in every sequence: what each is answered, and the events of the
/// history, which are all done.
#[test]
fn a_batch_has_the_events_in_any_sequence() {
    let (held, done) = ((0, 1), (0, 2));
    let rows = [
        ([0, 1, 2], [held, done, done], [1, 0, 2]),
        ([0, 2, 1], [held, done, done], [0, 2, 1]),
        ([1, 0, 2], [done, held, done], [1, 0, 2]),
        ([1, 2, 0], [done, done, done], [1, 2, 0]),
        ([2, 0, 1], [done, done, done], [2, 0, 1]),
        ([2, 1, 0], [done, done, done], [2, 1, 0]),
    ];
    assert_eq!(rows.map(|row| row.0), SEQUENCES);
    for (events, answers, order) in rows {
        let lines = order.map(|event| (event, Fate::Done));
        let expected = (answers.to_vec(), lines.to_vec());
        assert_eq!(batch(&events.map(Submit)), expected, "{events:?}");
    }
}

#[test]
fn a_batch_tells_the_story() {
    let (answers, lines) = batch(&[Submit(EMBALMING), CloseStep(CONSENT), Submit(TRANSPORT)]);
    assert_eq!(answers, [(0, 1), (0, 0), (0, 2)]);
    let told = [
        (CONSENT, Fate::Lapsed),
        (EMBALMING, Fate::Refused),
        (TRANSPORT, Fate::Done),
    ];
    assert_eq!(lines, told);
}

/// The bytes of a state of the sheet in which these lines were written and this part is
/// held, by whatever version.
fn stored(cast: Cast, attributes: [u8; 3], parts: &[Line], held: Option<u8>) -> Bytes {
    let mut bytes = *open(&cast.sheet(attributes)).as_bytes();
    for (line, (part, fate)) in parts.iter().enumerate() {
        let event = cast.number(*part);
        bytes[FATE + usize::from(event)] = fate.number();
        bytes[LINE_EVENT + line] = event;
        bytes[LINE_FATE + line] = fate.number();
        bytes[LINES] += 1;
        if *fate == Fate::Lapsed {
            bytes[CLOSED + usize::from(event)] = 1;
        }
    }
    if let Some(part) = held {
        bytes[FATE + usize::from(cast.number(part))] = Fate::Held.number();
    }
    bytes
}

/// Sees that every function turns the bytes down with 12 and writes nothing.
fn turned_down(bytes: &Bytes) {
    let mut after = *bytes;
    assert_eq!(raw::check(bytes), 12);
    assert_eq!(State::from_bytes(bytes), Err(CallFault::Incoherent));
    for number in 0..4 {
        assert_eq!(raw::submit(&mut after, number), 12);
        assert_eq!(raw::close_step(&mut after, number), 12);
        let mut added = [77; ADDED_COUNTS];
        assert_eq!(raw::preview(bytes, number, &mut added), 12);
        assert_eq!(added, [77; ADDED_COUNTS]);
        let (kind, refused, fate) = (HAND_IN, 77, 78);
        let entry = Entry {
            kind,
            number,
            refused,
            fate,
        };
        let mut entries = [entry; 2];
        assert_eq!(raw::submit_all(&mut after, &mut entries), 12);
        assert_eq!(entries, [entry; 2]);
    }
    assert_eq!(raw::finish(&mut after), 12);
    let mut out = [77; 400];
    assert_eq!(raw::write_sheet(bytes, &mut out), (12, 0));
    assert_eq!(raw::report(bytes, 0, &mut out), 0);
    assert_eq!(out, [77; 400]);
    assert_eq!(after, *bytes);
}

/// As versions before stored them: embalming done or forced, transport open, and the form
/// open or held.
#[test]
fn states_in_which_the_form_is_owed_are_turned_down() {
    for cast in Cast::all() {
        for transport in [0, 1] {
            for held in [None, Some(CONSENT)] {
                let done = [(EMBALMING, Fate::Done)];
                turned_down(&stored(cast, [6, transport, 6], &done, held));
                let forced = [(EMBALMING, Fate::Forced)];
                turned_down(&stored(cast, [7, transport, 6], &forced, held));
            }
        }
    }
}

/// Such a plan is opened from its sheet, and its calls are made again: embalming waits.
#[test]
fn such_a_plan_is_opened_again() {
    let bytes = stored(PLAIN, STORY, &[(EMBALMING, Fate::Done)], None);
    turned_down(&bytes);
    let mut state = open(&PLAIN.sheet(STORY));
    assert_eq!(state.submit(EMBALMING), Ok(Fate::Held));
    assert_eq!(State::from_bytes(state.as_bytes()), Ok(state));
}

/// The form is not owed where it is settled, where transport is not open, where the
/// attributes are others, or where the rule is recorded as broken.
#[test]
fn other_states_are_taken() {
    let done = (EMBALMING, Fate::Done);
    let rows: [([u8; 3], &[Line]); 9] = [
        (STORY, &[done, (CONSENT, Fate::Done)]),
        (STORY, &[(CONSENT, Fate::Done), done]),
        (STORY, &[done, (CONSENT, Fate::Lapsed)]),
        (STORY, &[done, (CONSENT, Fate::Refused)]),
        (STORY, &[(TRANSPORT, Fate::Lapsed), done]),
        (STORY, &[(EMBALMING, Fate::Refused)]),
        ([6, 0, 7], &[done]),
        ([6, 2, 6], &[done]),
        ([6, 6, 6], &[done]),
    ];
    for cast in Cast::all() {
        for (attributes, lines) in rows {
            let bytes = stored(cast, attributes, lines, None);
            let state = State::from_bytes(&bytes).expect("a state");
            previews_are_what_happens(&state);
        }
        let mut broken = stored(cast, STORY, &[done], None);
        broken[BROKEN] = 1;
        assert_eq!(raw::check(&broken), 0);
        let waits = stored(cast, STORY, &[], Some(EMBALMING));
        assert_eq!(raw::check(&waits), 0);
    }
}

/// A state of before in which the form has lapsed too is taken as ever. It is too late in
/// it: the rule breaks when the firm reports, and is kept where it does not.
#[test]
fn where_the_form_is_gone_the_rule_still_breaks() {
    for cast in Cast::all() {
        let lines = [(EMBALMING, Fate::Done), (CONSENT, Fate::Lapsed)];
        let bytes = stored(cast, STORY, &lines, None);
        let mut state = State::from_bytes(&bytes).expect("a state");
        let mut kept = state.clone();
        assert_eq!(state.submit(cast.number(TRANSPORT)), Ok(Fate::Done));
        assert!(state.is_broken(0));
        make(&mut kept, CloseStep(cast.number(TRANSPORT)));
        assert!(!kept.is_broken(0));
    }
}

/// Bytes from outside may hold embalming although the form is gone. The next call that
/// settles refuses it, though the report could still lapse.
#[test]
fn what_was_left_to_settle_is_refused() {
    for cast in Cast::all() {
        let lines = [(CONSENT, Fate::Lapsed)];
        let bytes = stored(cast, STORY, &lines, Some(EMBALMING));
        let mut state = State::from_bytes(&bytes).expect("a state");
        previews_are_what_happens(&state);
        make(&mut state, CloseStep(cast.number(EMBALMING)));
        let refused = (cast.number(EMBALMING), Fate::Refused);
        assert_eq!(history(&state).last(), Some(&refused));
    }
}

/// Calls `visit` with every sequence of the calls.
fn sequences(calls: &mut [Call; 6], fixed: usize, visit: &mut impl FnMut(&[Call; 6])) {
    if fixed == calls.len() {
        return visit(calls);
    }
    for place in fixed..calls.len() {
        calls.swap(fixed, place);
        sequences(calls, fixed + 1, visit);
        calls.swap(fixed, place);
    }
}

/// Makes the calls, each on bytes that were stored and read back, and winds up. No rule
/// breaks, nothing is left, and previews are right before every call.
fn keeps_the_rule(sheet: &[u8], calls: &[Call; 6]) {
    let mut state = open(sheet);
    for call in calls {
        previews_are_what_happens(&state);
        state = State::from_bytes(state.as_bytes()).expect("a state");
        make(&mut state, *call);
        assert!(!state.is_broken(0), "{calls:?} of {sheet:?}");
    }
    assert_eq!(state.finish(), Ok(()));
    assert_eq!(state.history().count(), 3, "{calls:?} of {sheet:?}");
}

/// Three events handed in and three steps closed, in each of the 720 sequences. Nothing
/// breaks the rule, whichever events can wait, since the form cannot be forced.
#[test]
fn no_sequence_breaks_the_rule() {
    for attributes in [STORY, [6, 1, 6], [2, 0, 6], [7, 0, 2], [3, 1, 0]] {
        for cast in Cast::all() {
            let sheet = cast.sheet(attributes);
            let mut calls = [
                Submit(0),
                Submit(1),
                Submit(2),
                CloseStep(0),
                CloseStep(1),
                CloseStep(2),
            ];
            let mut count = 0;
            sequences(&mut calls, 0, &mut |calls| {
                keeps_the_rule(&sheet, calls);
                count += 1;
            });
            assert_eq!(count, 720);
        }
    }
}
