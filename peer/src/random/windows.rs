//! Sheets with windows, lists of calls that move the minute about their edges, and sheets
//! with a window that is at fault (S-7).

use super::forcible::add_waiting;
use super::lists::{any_call, any_minute};
use super::shapes::chain;
use super::sheets::{add_rule, finish, window_record, Draft, Made};
use super::Random;
use crate::peer::calls::Call;
use crate::peer::sheet::{MOST_EVENTS, MOST_RULES};

/// What the attributes of one sheet are picked from.
const PALETTES: &[&[u8]] = &[
    &[6],
    &[7],
    &[6, 7],
    &[6, 6, 7, 1],
    &[6, 7, 7, 1, 3],
    &[6, 6, 7, 0, 1, 2, 3],
    &[7, 7, 6, 2, 0],
];

/// A window and its event.
#[derive(Clone, Copy, Debug, PartialEq, Eq)]
pub struct Timed {
    pub event: u8,
    pub from: u32,
    pub until: u32,
}

impl Timed {
    pub fn record(self) -> Vec<u8> {
        window_record(self.event, self.from, self.until)
    }
}

/// A sheet with its windows.
pub struct Windowed {
    pub made: Made,
    pub windows: Vec<Timed>,
}

/// An admitted sheet with one window or more, anywhere below their events.
pub fn windowed_sheet(random: &mut Random) -> Windowed {
    let (draft, windows) = windowed_draft(random);
    let made = finish(random, draft, false);
    Windowed { made, windows }
}

fn windowed_draft(random: &mut Random) -> (Draft, Vec<Timed>) {
    loop {
        let mut draft = untimed_draft(random);
        let windows = any_windows(random, &draft);
        if windows.is_empty() {
            continue;
        }
        for window in &windows {
            let least = draft.declared_by(window.event);
            let place = random.between(least, draft.records.len());
            draft.records.insert(place, window.record());
        }
        return (draft, windows);
    }
}

/// Events, a chain or a ring of needs or orders at times, and other rules.
fn untimed_draft(random: &mut Random) -> Draft {
    let events = random.pick(&[1, 2, 2, 2, 3, 3, 3, 4, 4, 5, 5, 6, 7, 8, 10, 16, 16]);
    let palette = random.pick(PALETTES);
    let steps = random.between(1, 8);
    let fours = random.pick(&[0, 0, 20]);
    let mut draft = Draft::default();
    if (3..16).contains(&events) {
        match random.below(6) {
            0 => add_waiting(random, &mut draft),
            1 => add_beside(random, &mut draft),
            _ => {}
        }
    }
    while draft.events() < events {
        let step = random.below(steps) as u8;
        if draft.events() + 4 <= events && random.percent(fours) {
            draft.declare_four(step);
        } else {
            let sum = random.pick(palette);
            draft.declare(step, sum);
        }
    }
    if events > 1 && random.percent(40) {
        let mut row: Vec<u8> = (0..events as u8).collect();
        random.shuffle(&mut row);
        row.truncate(random.between(2, events));
        row.extend(random.percent(30).then_some(row[0]));
        let kind = random.pick(&[3, 3, 2]);
        draft.add_fitting(chain(kind, &row), MOST_RULES);
    }
    let rules = random.pick(&[0, 1, events / 2, events, events, 2 * events]);
    for _ in draft.rules..rules.min(MOST_RULES) {
        add_rule(random, &mut draft);
    }
    draft
}

/// A conditional of which nothing can stop one event (S-6); the other two may have windows.
fn add_beside(random: &mut Random, draft: &mut Draft) {
    for (step, sums) in [&[6, 7][..], &[0, 0, 1], &[7, 7, 6]]
        .into_iter()
        .enumerate()
    {
        let sum = random.pick(sums);
        draft.declare(step as u8, sum);
    }
    draft.add_rule(random.pick(&[[4, 0, 1, 2], [4, 1, 0, 2]]).to_vec());
}

/// Windows on some of the delayable events, in any sequence.
fn any_windows(random: &mut Random, draft: &Draft) -> Vec<Timed> {
    let chance = random.pick(&[30, 60, 90, 100]);
    let mut events: Vec<u8> = draft.delayable().collect();
    events.retain(|_| random.percent(chance));
    random.shuffle(&mut events);
    let sort = random.below(6);
    let shared = any_window(random, sort);
    let mut windows = Vec::new();
    for event in events {
        let [from, until] = match random.percent(25) {
            true => shared,
            false => any_window(random, sort),
        };
        windows.push(Timed { event, from, until });
    }
    windows
}

/// Short ones that follow each other, longer ones, those with minutes of several bytes, and
/// those about the last minute that there is.
fn any_window(random: &mut Random, sort: usize) -> [u32; 2] {
    let (from, length) = match sort {
        0 | 1 => (random.below(6), random.between(1, 2)),
        2 | 3 => (random.below(5), random.between(1, 6)),
        4 => (
            random.pick(&[0, 1, 200, 255, 256, 65_535, 1 << 24]),
            random.pick(&[1, 2, 60, 256, 70_000, 1 << 30]),
        ),
        _ => {
            let last = u32::MAX as usize;
            let from = random.pick(&[0, 1, last - 4, last - 2, last - 1]);
            (from, random.between(1, last - from))
        }
    };
    [from, from + length].map(|minute| minute as u32)
}

/// A list for such a sheet: hand-ins, closings and moves of the minute, at times wound up.
pub fn windowed_calls(random: &mut Random, windowed: &Windowed, mut now: u32) -> Vec<Call> {
    let made = &windowed.made;
    let length = random.pick(&[4, 6, 8, 10, 14, 20]);
    let moving = random.pick(&[20, 35, 50]);
    let mut calls = Vec::new();
    if made.events > 2 && random.percent(15) {
        calls.extend(freed(random, windowed, &mut now));
    }
    if random.percent(40) {
        let mut events: Vec<u8> = (0..made.events as u8).collect();
        random.shuffle(&mut events);
        events.truncate(random.between(1, made.events));
        calls.extend(events.into_iter().map(Call::Submit));
    }
    for _ in 0..length {
        if random.percent(moving) {
            let minute = next_minute(random, &windowed.windows, now);
            now = now.max(minute);
            calls.push(Call::Advance(minute));
        } else {
            calls.push(other_call(random, made));
        }
    }
    if random.percent(30) {
        let mut steps = made.steps.clone();
        random.shuffle(&mut steps);
        calls.extend(steps.into_iter().map(Call::CloseStep));
        calls.push(Call::Finish);
    }
    calls
}

/// The second event waits, the minute comes to a window, and the first event's step is
/// closed.
fn freed(random: &mut Random, windowed: &Windowed, now: &mut u32) -> [Call; 3] {
    *now = random.pick(&windowed.windows).from.max(*now);
    // The first record declares the first event.
    let step = windowed.made.bytes[1];
    [Call::Submit(1), Call::Advance(*now), Call::CloseStep(step)]
}

/// A hand-in most of the time.
fn other_call(random: &mut Random, made: &Made) -> Call {
    match random.below(20) {
        0..=2 => Call::CloseStep(random.pick(&made.steps)),
        3 if random.percent(50) => Call::Finish,
        3 => any_call(random),
        _ => Call::Submit(random.below(made.events) as u8),
    }
}

/// The minute to move to: most often the next at which a window opens or ends, or the one
/// before it; the same; the next; behind; far off, over whole windows.
fn next_minute(random: &mut Random, windows: &[Timed], now: u32) -> u32 {
    let edges = windows
        .iter()
        .flat_map(|window| [window.from, window.until]);
    let edges: Vec<u32> = edges
        .flat_map(|edge| [edge, edge.saturating_sub(1)])
        .collect();
    let next = edges.iter().copied().filter(|edge| *edge > now).min();
    match random.below(20) {
        0..=8 => next.unwrap_or(now),
        9 | 10 => now,
        11 | 12 => now.saturating_add(1),
        13 | 14 => random.pick(&edges).max(now),
        15 => random.pick(windows).until.max(now).saturating_add(1),
        16 => now.saturating_sub(1),
        17 => random.below(now as usize + 1) as u32,
        18 => random.pick(&edges),
        _ => any_minute(random),
    }
}

/// What is at fault in the record of a window.
#[derive(Clone, Copy, Debug, PartialEq, Eq)]
pub enum Fault {
    Undeclared,
    NotDelayable,
    Second,
    UntilEqual,
    UntilBelow,
    /// The bytes end inside the record, which may have another fault as well.
    Cut,
}

/// All of them, in the sequence of their counts, with what counts call them.
pub const FAULTS: [(Fault, &str); 6] = [
    (Fault::Undeclared, "an undeclared event"),
    (Fault::NotDelayable, "an event that is not delayable"),
    (Fault::Second, "a second window"),
    (Fault::UntilEqual, "until equal to from"),
    (Fault::UntilBelow, "until below from"),
    (Fault::Cut, "a record that is cut"),
];

/// A sheet that is right but for one record, and the offset of that.
pub struct Faulty {
    pub bytes: Vec<u8>,
    pub fault: Fault,
    pub offset: usize,
    /// Whether the record names an event that is declared below it.
    pub below: bool,
}

pub fn faulty_sheet(random: &mut Random) -> Faulty {
    loop {
        let (mut draft, windows) = windowed_draft(random);
        if draft.events() < MOST_EVENTS && random.percent(30) {
            let sum = random.pick(&[0, 1, 2, 3]);
            draft.declare(0, sum);
        }
        let fault = FAULTS[random.below(FAULTS.len())].0;
        let place = random.between(0, draft.records.len());
        let Some(record) = faulty_record(random, &draft, &windows, place, fault) else {
            continue;
        };
        let offset = draft.records[..place].concat().len();
        let below = fault == Fault::Undeclared && usize::from(record[1]) < draft.events();
        draft.records.insert(place, record);
        let mut bytes = draft.bytes();
        if fault == Fault::Cut {
            bytes.truncate(offset + random.between(1, 9));
        }
        return Faulty {
            bytes,
            fault,
            offset,
            below,
        };
    }
}

/// A record for this place with this fault; none where no event is fit for it.
fn faulty_record(
    random: &mut Random,
    draft: &Draft,
    windows: &[Timed],
    place: usize,
    fault: Fault,
) -> Option<Vec<u8>> {
    let events = fit_events(draft, place, fault);
    if events.is_empty() {
        return None;
    }
    let (event, sort) = (random.pick(&events), random.below(6));
    let [from, until] = any_window(random, sort);
    let minute = random.pick(&[0, from, until, u32::MAX]);
    let same = windows.iter().find(|window| window.event == event);
    Some(match (fault, same) {
        (Fault::Second, Some(same)) if random.percent(30) => same.record(),
        (Fault::UntilEqual, _) => window_record(event, minute, minute),
        (Fault::UntilBelow, _) => window_record(event, until, from),
        (Fault::Cut, _) => window_record(event, minute, until),
        _ => window_record(event, from, until),
    })
}

/// The events that a record with this fault may name, if it stands at this place.
fn fit_events(draft: &Draft, place: usize, fault: Fault) -> Vec<u8> {
    let above = draft.events_above(place) as u8;
    let is_timed = |event: &u8| {
        let mut records = draft.records[..place].iter();
        records.any(|record| record[0] == 7 && record[1] == *event)
    };
    let delayable: Vec<u8> = draft.delayable().filter(|event| *event < above).collect();
    let firm = (0..above).filter(|event| !delayable.contains(event));
    match fault {
        Fault::Undeclared => [above, above, above + 1, 16, 17, 128, 255]
            .into_iter()
            .filter(|event| *event >= above)
            .collect(),
        Fault::NotDelayable => firm.collect(),
        Fault::Second => delayable.into_iter().filter(is_timed).collect(),
        Fault::Cut => (0..=16).collect(),
        Fault::UntilEqual | Fault::UntilBelow => {
            let free = delayable.into_iter().filter(|event| !is_timed(event));
            free.collect()
        }
    }
}
