//! Sheets that declare the same in other records, and the longest ones.

use super::sheets::{any_rule, draft_of, finish, window_record, Draft, Made, FOUR};
use super::Random;
use crate::peer::sheet::{records, MOST_EVENTS, MOST_RULES};

/// An event as its step and its attributes.
type Event = (u8, u8);

/// Another sheet with the events, rules and windows of an admitted one, in their numbers:
/// four events stand in one record or in four, and rules and windows anywhere below the
/// events they name.
pub fn other_form(random: &mut Random, sheet: &[u8]) -> Vec<u8> {
    let (events, rules, mut windows) = declared(sheet);
    let joined = random.pick(&[0, 50, 50, 100]);
    let early = random.pick(&[0, 40, 80, 100]);
    let mut rules = rules.into_iter().peekable();
    let mut draft = Draft::default();
    while draft.events() < events.len() {
        declare_next(&mut draft, &events, random.percent(joined));
        let events = draft.events();
        let mut stands = |rule: &Vec<u8>| {
            let named = &rule[1..];
            named.iter().all(|event| usize::from(*event) < events) && random.percent(early)
        };
        while let Some(rule) = rules.next_if(&mut stands) {
            draft.add_rule(rule);
        }
    }
    rules.for_each(|rule| draft.add_rule(rule));
    random.shuffle(&mut windows);
    for window in windows {
        let least = draft.declared_by(window[1]);
        let place = random.between(least, draft.records.len());
        draft.records.insert(place, window);
    }
    draft.bytes()
}

/// An admitted sheet of as many events as may be and as many conditionals, half of the time
/// with a window on every event.
pub fn longest_sheet(random: &mut Random) -> Made {
    loop {
        let windows = random.percent(50);
        let mut draft = if windows {
            all_delayable(random)
        } else {
            draft_of(random, MOST_EVENTS, 0)
        };
        // Some events allow no conditional at all, so the tries are counted.
        for _ in 0..200 {
            let rule = any_rule(random, &draft).filter(|rule| rule[0] == 4);
            draft.add_fitting(rule.into_iter().collect(), MOST_RULES);
        }
        if windows {
            add_windows(random, &mut draft);
        }
        if draft.rules == MOST_RULES {
            return finish(random, draft, false);
        }
    }
}

/// As many events as may be, each of which may have a window.
fn all_delayable(random: &mut Random) -> Draft {
    let mut draft = Draft::default();
    while draft.events() < MOST_EVENTS {
        let step = random.below(8) as u8;
        let sum = random.pick(&[6, 6, 7]);
        draft.declare(step, sum);
    }
    draft
}

/// A window on every event, in any sequence.
fn add_windows(random: &mut Random, draft: &mut Draft) {
    let mut events: Vec<u8> = (0..draft.events() as u8).collect();
    random.shuffle(&mut events);
    for event in events {
        let from = random.pick(&[0, 1, 2, 255, 65_536, u32::MAX - 3]);
        let length = random.between(1, 3) as u32;
        draft
            .records
            .push(window_record(event, from, from + length));
    }
}

/// The next event of the list, or the next four if they are those of one record and are to
/// be joined.
fn declare_next(draft: &mut Draft, events: &[Event], joined: bool) {
    let rest = &events[draft.events()..];
    let (step, sum) = rest[0];
    if joined && rest.starts_with(&FOUR.map(|sum| (step, sum))) {
        draft.declare_four(step);
    } else {
        draft.declare(step, sum);
    }
}

/// What an admitted sheet declares: its events, and the records of its rules and of its
/// windows.
fn declared(sheet: &[u8]) -> (Vec<Event>, Vec<Vec<u8>>, Vec<Vec<u8>>) {
    let (mut events, mut rules, mut windows) = (Vec::new(), Vec::new(), Vec::new());
    for record in records(sheet) {
        match *record {
            [1, step, sum] => events.push((step, sum)),
            [6, step] => events.extend(FOUR.map(|sum| (step, sum))),
            [7, ..] => windows.push(record.to_vec()),
            _ => rules.push(record.to_vec()),
        }
    }
    (events, rules, windows)
}
