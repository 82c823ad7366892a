//! What a state says of its events, steps and rules, and of what a call has settled: held to
//! the records of sheets, to the calls that were taken and to the fates.

mod common;

use common::{changes, open, Numbers, PARTIES};
use sinewhopa::{Call, Event, Fate, Form, Rule, State, Step, Window, STATE_LEN};
use std::collections::{BTreeMap, BTreeSet};

/// The attributes of the four events that a record of kind 6 declares.
const FOUR: [u8; 4] = [7, 0, 6, 1];

/// What the records of a sheet declare.
#[derive(Default)]
struct Declared {
    /// Step and attributes of each event.
    events: Vec<(u8, u8)>,
    rules: Vec<Form>,
    windows: BTreeMap<u8, Window>,
}

impl Declared {
    /// Takes the records of an admitted sheet, one after another.
    fn by(mut sheet: &[u8]) -> Declared {
        let mut declared = Declared::default();
        while let Some(rest) = declared.take(sheet) {
            sheet = rest;
        }
        declared
    }

    /// Takes one record and gives the rest; none after the last one.
    fn take<'a>(&mut self, sheet: &'a [u8]) -> Option<&'a [u8]> {
        let taken = match *sheet {
            [1, step, attributes, ..] => {
                self.events.push((step, attributes));
                3
            }
            [2, earlier, later, ..] => {
                self.rules.push(Form::Order { earlier, later });
                3
            }
            [3, event, needs, ..] => {
                self.rules.push(Form::Need { event, needs });
                3
            }
            [4, a, b, then, ..] => {
                let triggers = [a, b];
                self.rules.push(Form::Conditional { triggers, then });
                4
            }
            [6, step, ..] => {
                self.events
                    .extend(FOUR.map(|attributes| (step, attributes)));
                2
            }
            [7, event, ..] => {
                let minute = |at: usize| sheet[at..at + 4].try_into().map(u32::from_le_bytes);
                let from = minute(2).expect("four bytes");
                let until = minute(6).expect("four bytes");
                self.windows.insert(event, Window { from, until });
                10
            }
            _ => return None,
        };
        Some(&sheet[taken..])
    }

    fn steps(&self) -> BTreeSet<u8> {
        self.events.iter().map(|(step, _)| *step).collect()
    }

    /// Sees that the state says this of an event, whether it is declared or not.
    fn is_said_of_event(&self, state: &State, number: u8) {
        let declared = self.events.get(usize::from(number)).copied();
        let read = state.event(number);
        assert_eq!(read.is_some(), declared.is_some(), "{number}");
        assert_eq!(state.fate(number).is_some(), declared.is_some(), "{number}");
        assert_eq!(state.step(number), declared.map(|(step, _)| step));
        let attributes = state.attributes(number);
        let bits = attributes.map(|each| {
            let parts = [
                each.is_forcible(),
                each.is_rejectable(),
                each.is_delayable(),
            ];
            parts.map(u8::from)
        });
        let sum = declared.map(|(_, sum)| sum);
        assert_eq!(bits, sum.map(|sum| [sum & 1, sum >> 1 & 1, sum >> 2]));
        assert_eq!(attributes.map(|each| each.number()), sum);
        assert_eq!(state.window(number), self.windows.get(&number).copied());
        let parts = |event: Event| (event.number, event.step, Some(event.attributes));
        let expected = declared.map(|(step, _)| (number, step, attributes));
        assert_eq!(read.map(parts), expected);
        assert_eq!(read.and_then(|event| event.window), state.window(number));
        assert_eq!(read.map(|event| event.fate), state.fate(number));
    }

    /// Sees that the state says this of a rule, whether it is declared or not.
    fn is_said_of_rule(&self, state: &State, number: u8) {
        let form = self.rules.get(usize::from(number)).copied();
        let read = state.rule(number);
        let parts = |rule: Rule| (rule.number, rule.form);
        assert_eq!(read.map(parts), form.map(|form| (number, form)));
        let broken = read.is_some_and(|rule| rule.broken);
        assert_eq!(broken, state.is_broken(number), "{number}");
    }

    /// Sees that the state says this of every number that there is, and that its lists have
    /// what is declared and no more.
    fn is_said_by(&self, state: &State) {
        for number in 0..=255 {
            self.is_said_of_event(state, number);
            self.is_said_of_rule(state, number);
        }
        let events = (0..self.events.len() as u8).filter_map(|number| state.event(number));
        assert!(state.events().eq(events));
        assert_eq!(usize::from(state.event_count()), self.events.len());
        let rules = (0..self.rules.len() as u8).filter_map(|number| state.rule(number));
        assert!(state.rules().eq(rules));
        assert_eq!(usize::from(state.rule_count()), self.rules.len());
        let steps = self.steps().into_iter();
        let steps = steps.map(|step| (step, state.is_closed(step)));
        assert!(state.steps().map(step_parts).eq(steps));
    }
}

fn step_parts(step: Step) -> (u8, bool) {
    (step.number, step.closed)
}

/// A call of any kind.
#[derive(Debug)]
enum Made {
    Alone(Call),
    Batch(Vec<Call>),
    Finish,
    Advance(u32),
}

impl Numbers {
    fn any_call(&mut self) -> Call {
        match self.below(4) {
            0 => Call::CloseStep(self.below(9)),
            _ => Call::Submit(self.below(17)),
        }
    }

    fn any_made(&mut self) -> Made {
        match self.below(8) {
            0 => Made::Finish,
            1 => Made::Advance(u32::from(self.below(256)) << 24),
            2 => Made::Batch((0..self.below(6)).map(|_| self.any_call()).collect()),
            _ => Made::Alone(self.any_call()),
        }
    }
}

/// Makes a call and gives the steps that it has closed, as it is answered.
fn closed_by(state: &mut State, made: &Made) -> Vec<u8> {
    let step_of = |call: &Call| match call {
        Call::CloseStep(step) => Some(*step),
        Call::Submit(_) => None,
    };
    match made {
        Made::Alone(Call::CloseStep(step)) => {
            let taken = state.close_step(*step).is_ok();
            taken.then_some(*step).into_iter().collect()
        }
        Made::Alone(Call::Submit(event)) => {
            let _ = state.submit(*event); // taken or not
            Vec::new()
        }
        Made::Batch(calls) => {
            let answers = state.submit_all(calls).expect("a batch");
            let taken = calls.iter().zip(answers).filter(|pair| pair.1.is_ok());
            taken.filter_map(|pair| step_of(pair.0)).collect()
        }
        Made::Finish => {
            let _ = state.finish(); // taken or not
            Vec::new()
        }
        Made::Advance(minute) => {
            let _ = state.advance(*minute); // taken or not
            Vec::new()
        }
    }
}

/// Sees that what is settled since then is what the history gained: every event that was not
/// settled and is now, each once and with its fate. Gives it.
fn gained(before: &State, after: &State) -> Vec<(u8, Fate)> {
    let settled: Vec<(u8, Fate)> = after.settled_since(before.line_count()).collect();
    let history: Vec<(u8, Fate)> = before.history().chain(settled.iter().copied()).collect();
    assert!(after.history().eq(history));
    let unsettled = before.events().filter(|event| !event.fate.is_settled());
    let now = unsettled.filter_map(|event| Some((event.number, after.fate(event.number)?)));
    let now: Vec<(u8, Fate)> = now.filter(|(_, fate)| fate.is_settled()).collect();
    let mut by_event = settled.clone();
    by_event.sort_by_key(|(event, _)| *event);
    assert_eq!(by_event, now, "{before:?}, then {after:?}");
    settled
}

/// The number that the state's report has in its line of that start.
fn reported(state: &State, start: &str) -> usize {
    let report = String::from_utf8(state.report(0)).expect("text");
    let mut counts = report.lines().filter_map(|line| line.strip_prefix(start));
    let count = counts.next().expect("the line");
    count.parse().expect("a number")
}

/// Random sheets, with windows in some: after every call the state says what its sheet
/// declares, which steps are closed, and what was settled.
#[test]
fn every_state_says_what_its_sheet_declares() {
    let mut numbers = Numbers(1);
    let (mut counts, mut met) = (BTreeSet::new(), [0; 3]);
    for round in 0..600 {
        let random = numbers.sheet();
        let sheet = [&random, PARTIES][usize::from(round % 8 == 7)];
        let (declared, mut state) = (Declared::by(sheet), open(sheet));
        let mut closed = BTreeSet::new();
        for _ in 0..12 {
            declared.is_said_by(&state);
            let before = state.clone();
            let made = numbers.any_made();
            closed.extend(closed_by(&mut state, &made));
            counts.insert(gained(&before, &state).len().min(4));
            let steps = declared.steps().into_iter();
            let steps = steps.map(|step| (step, closed.contains(&step)));
            assert!(state.steps().map(step_parts).eq(steps), "{made:?}");
            let broken = state.rules().filter(|rule| rule.broken).count();
            assert_eq!(reported(&state, "broken "), broken);
        }
        met[0] += state
            .events()
            .filter(|event| event.window.is_some())
            .count();
        met[1] += state.rules().filter(|rule| rule.broken).count();
        met[2] += state.steps().filter(|step| step.closed).count();
    }
    assert_eq!(counts, BTreeSet::from([0, 1, 2, 3, 4]));
    assert!(met.iter().all(|count| *count > 50), "{met:?}");
}

/// Every change of one byte that is a state still: it says what the sheet declares that it is
/// written as, and nothing of other numbers. A step without events may be closed in it, and is
/// not among the steps.
#[test]
fn changed_bytes_are_read_as_they_are_written() {
    let windows = [7, 2, 1, 0, 0, 0, 9, 0, 0, 0, 5];
    let sheet = [&PARTIES[..PARTIES.len() - 1], &windows].concat();
    let mut state = open(&sheet);
    assert_eq!(state.close_step(6), Ok(()));
    assert_eq!(state.submit(8), Ok(Fate::Done)); // 9 has lapsed, so that a rule breaks
    let (mut passed, mut without_events) = (0, 0);
    for (_, _, bytes) in changes(state.as_bytes()) {
        let Ok(changed) = State::from_bytes(&bytes) else {
            continue;
        };
        passed += 1;
        let declared = Declared::by(&changed.to_sheet().expect("a sheet"));
        declared.is_said_by(&changed);
        let unused = (0..8).filter(|step| !declared.steps().contains(step));
        without_events += unused.filter(|step| changed.is_closed(*step)).count();
        for count in [0, changed.line_count(), 17, 255, 256, usize::MAX] {
            let settled = changed.settled_since(count).count();
            assert_eq!(settled, changed.line_count().saturating_sub(count));
        }
    }
    // The byte as it was, at each place; and others.
    assert!(passed > STATE_LEN && without_events > 0, "{passed}");
}

/// The same state after a restart, with the count that was kept beside it.
#[test]
fn a_count_holds_for_the_stored_state() {
    let mut state = open(PARTIES);
    assert_eq!(state.submit(0), Ok(Fate::Done));
    let (told, stored) = (state.line_count(), *state.as_bytes());
    let mut state = State::from_bytes(&stored).expect("a state");
    assert_eq!(state.settled_since(told).count(), 0);
    assert_eq!(state.submit(8), Ok(Fate::Done));
    let settled: Vec<(u8, Fate)> = state.settled_since(told).collect();
    assert_eq!(settled, [(8, Fate::Done), (9, Fate::Forced)]);
    let all: Vec<(u8, Fate)> = state.settled_since(0).collect();
    assert_eq!(all, state.history().collect::<Vec<(u8, Fate)>>());
}

/// What is held has no line, and what is turned down settles nothing.
#[test]
fn what_waits_is_not_settled() {
    let mut state = open(&[1, 0, 6, 1, 1, 6, 2, 0, 1, 5]); // 0 before 1
    assert_eq!(state.submit(1), Ok(Fate::Held));
    assert!(state.submit(2).is_err() && state.finish().is_err());
    assert_eq!((state.line_count(), state.settled_since(0).count()), (0, 0));
    assert_eq!(state.close_step(0), Ok(()));
    let settled: Vec<(u8, Fate)> = state.settled_since(0).collect();
    assert_eq!(settled, [(0, Fate::Lapsed), (1, Fate::Done)]);
    assert_eq!(state.settled_since(1).next(), Some((1, Fate::Done)));
}

/// A rule stays among the rules when it is broken, and others are not.
#[test]
fn a_broken_rule_is_said() {
    // 0 only if 1, which has lapsed; and 2 before 0, which comes as it comes.
    let sheet = [1, 0, 1, 1, 1, 1, 1, 2, 6, 3, 0, 1, 2, 2, 0, 5];
    let mut state = open(&sheet);
    assert!(state.rules().all(|rule| !rule.broken));
    assert_eq!(state.close_step(1), Ok(()));
    assert_eq!(state.submit(0), Ok(Fate::Done));
    let broken: Vec<(u8, bool)> = state
        .rules()
        .map(|rule| (rule.number, rule.broken))
        .collect();
    assert_eq!(broken, [(0, true), (1, false)]);
    let said: Vec<String> = state.rules().map(|rule| rule.form.to_string()).collect();
    assert_eq!(said, ["0 only if 1", "2 before 0"]);
}

/// Steps are gone through while they are closed; then the plan can be wound up.
#[test]
fn steps_can_be_closed_one_by_one() {
    let mut state = open(PARTIES);
    assert_eq!(state.close_step(5), Ok(()));
    let steps: Vec<(u8, bool)> = state.steps().map(step_parts).collect();
    assert_eq!(steps, [(0, false), (1, false), (5, true), (6, false)]);
    for step in state.steps().filter(|step| !step.closed) {
        assert_eq!(state.close_step(step.number), Ok(()));
    }
    assert!(state.steps().all(|step| step.closed));
    assert_eq!(state.finish(), Ok(()));
    assert_eq!(state.line_count(), usize::from(state.event_count()));
}

#[test]
fn a_sheet_without_events_says_nothing() {
    let state = open(&[5]);
    Declared::default().is_said_by(&state);
    let counts = [
        state.events().count(),
        state.steps().count(),
        state.rules().count(),
        state.settled_since(0).count(),
    ];
    assert_eq!((counts, state.line_count()), ([0; 4], 0));
}

/// Each form names its events and no other number.
#[test]
fn a_rule_names_its_events() {
    let rows = [
        (
            Form::Order {
                earlier: 3,
                later: 0,
            },
            vec![0, 3],
            "3 before 0",
        ),
        (
            Form::Need {
                event: 15,
                needs: 2,
            },
            vec![2, 15],
            "15 only if 2",
        ),
        (
            Form::Conditional {
                triggers: [4, 1],
                then: 9,
            },
            vec![1, 4, 9],
            "if 4 and 1, then 9",
        ),
    ];
    for (form, events, said) in rows {
        let named = (0..=255).filter(|event| form.names(*event));
        assert_eq!(named.collect::<Vec<u8>>(), events);
        assert_eq!(form.to_string(), said);
    }
}
