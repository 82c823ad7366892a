//! Journals: whole, cut and at fault, and the calls to append to them (S-8).

use super::forcible::forcible_sheet;
use super::lists::{any_minute, single_calls};
use super::sheets::{sheet, Made};
use super::windows::{windowed_calls, windowed_sheet};
use super::Random;
use crate::peer::calls::{apply, Answer, Call};
use crate::peer::journal::{self, End, Opened, ADVANCE, CLOSING, FINISH, HAND_IN};
use crate::peer::set::{has, members};
use crate::peer::{Scheduler, Sheet};

const MOST_CALLS: usize = 24;
/// Bytes that are no call's kind.
const NO_KINDS: &[u8] = &[0, 1, 5, 7, 8, 15, 20, 21, 32, 144, 255];

/// An admitted sheet and calls of which every one is accepted in its turn.
pub struct Kept {
    pub sheet: Vec<u8>,
    pub calls: Vec<Call>,
}

impl Kept {
    pub fn bytes(&self) -> Vec<u8> {
        let records = self.calls.iter().flat_map(|call| journal::record(*call));
        self.sheet.iter().copied().chain(records).collect()
    }
}

/// A buffer that is lent, with what it is stated to have and a call to append.
pub struct Append {
    pub buffer: Vec<u8>,
    pub len: usize,
    pub kind: u8,
    pub number: u32,
}

/// A journal as a host keeps it.
pub fn kept_journal(random: &mut Random) -> Kept {
    loop {
        let (made, calls) = sheet_and_calls(random);
        if let Ok(read) = Sheet::read(&made.bytes) {
            return Kept {
                calls: accepted(random, Scheduler::new(read), calls),
                sheet: made.bytes,
            };
        }
    }
}

/// What befalls the bytes of a journal.
#[derive(Clone, Copy, Debug, PartialEq, Eq)]
pub enum Spoilt {
    Nowhere,
    Cut,
    Changed,
    PutIn,
    TakenOut,
}

/// A journal with a fault more often than not: in the sheet, in a record, or in any byte.
pub fn any_journal(random: &mut Random) -> (Vec<u8>, Spoilt) {
    let (made, mut calls) = sheet_and_calls(random);
    if let Ok(read) = Sheet::read(&made.bytes) {
        calls = accepted(random, Scheduler::new(read.clone()), calls);
        if random.percent(20) {
            add_bad_call(random, Scheduler::new(read), &mut calls);
        }
    }
    let mut records: Vec<Vec<u8>> = calls.into_iter().map(journal::record).collect();
    match random.below(10) {
        0 => {
            let place = random.below(records.len() + 1);
            records.insert(place, vec![no_kind(random)]);
        }
        1 => records.push(vec![no_kind(random)]),
        2 | 3 => records.push(cut_record(random)),
        _ => {}
    }
    let mut bytes = [made.bytes, records.concat()].concat();
    let spoilt = match random.percent(25) && !bytes.is_empty() {
        true => spoil(random, &mut bytes),
        false => Spoilt::Nowhere,
    };
    (bytes, spoilt)
}

/// An append to this journal or to a part of it, with any room.
pub fn any_append(random: &mut Random, journal: &[u8]) -> Append {
    let len = match random.below(10) {
        0..=4 => journal.len(),
        5..=7 => journal.len().saturating_sub(random.between(1, 5)),
        _ => random.below(journal.len() + 1),
    };
    let opened = journal::open(&journal[..len]);
    let empty = || Scheduler::new(Sheet::default());
    let scheduler = opened
        .as_ref()
        .map_or_else(|_| empty(), |opened| opened.scheduler.clone());
    let (kind, number) = any_ask(random, &scheduler);
    let behind = match opened {
        Ok(Opened {
            at,
            end: End::Leftover(_),
            ..
        }) => at,
        _ => len,
    };
    let room = any_room(random, len, behind, record_length(kind));
    let mut buffer = journal.to_vec();
    if random.percent(50) {
        buffer.truncate(len);
    }
    buffer.truncate(room);
    buffer.resize_with(room, || random.byte());
    let len = match random.percent(2) {
        true => random.pick(&[room + 1, room + 65_536, room | 1 << 32, usize::MAX]),
        false => len,
    };
    Append {
        buffer,
        len,
        kind,
        number,
    }
}

/// A call that the state turns down, for any of the reasons that it has.
fn bad_call(random: &mut Random, scheduler: &Scheduler) -> Call {
    let (sheet, state) = (scheduler.sheet(), scheduler.state());
    let (closed, now) = (state.closed, state.minute);
    let beyond = random.pick(&[sheet.events(), 16, 255]) as u8;
    let mut bad = vec![match random.below(2) {
        0 => Call::Submit(beyond),
        _ => Call::CloseStep(random.pick(&[8, 16, 255])),
    }];
    if let Some(step) = any_of(random, members(closed).collect()) {
        bad.push(Call::CloseStep(step));
    }
    if sheet.steps.iter().any(|step| !has(closed, *step)) {
        bad.push(Call::Finish);
    }
    if now > 0 {
        let below = random.below(now as usize) as u32;
        bad.push(Call::Advance(random.pick(&[now - 1, below])));
    }
    random.pick(&bad)
}

/// A sheet, now and then at fault, with calls of all sorts.
fn sheet_and_calls(random: &mut Random) -> (Made, Vec<Call>) {
    let made = match random.below(10) {
        0..=4 => {
            let windowed = windowed_sheet(random);
            let calls = windowed_calls(random, &windowed, 0);
            return (windowed.made, calls);
        }
        5 => forcible_sheet(random),
        _ => sheet(random),
    };
    let mut calls = single_calls(random, &made);
    calls.truncate(random.between(0, MOST_CALLS));
    (made, calls)
}

/// Those of the calls that are accepted, at times with some among them that change nothing.
fn accepted(random: &mut Random, mut scheduler: Scheduler, calls: Vec<Call>) -> Vec<Call> {
    let idle = random.pick(&[0, 0, 10, 40]);
    let mut accepted = Vec::new();
    for call in calls {
        let refused = matches!(apply(&mut scheduler, call), Answer::TurnedDown(_));
        accepted.extend((!refused).then_some(call));
        if random.percent(idle) {
            accepted.push(idle_call(random, &scheduler));
        }
    }
    accepted
}

/// A call that is accepted and changes nothing.
fn idle_call(random: &mut Random, scheduler: &Scheduler) -> Call {
    let (sheet, state) = (scheduler.sheet(), scheduler.state());
    let mut idle = vec![Call::Advance(state.minute)];
    let not_open = sheet.all() & !state.open(sheet);
    if let Some(event) = any_of(random, members(not_open).collect()) {
        idle.push(Call::Submit(event));
    }
    if state.held == 0 && sheet.steps.iter().all(|step| has(state.closed, *step)) {
        idle.push(Call::Finish);
    }
    random.pick(&idle)
}

/// Puts a call in that is turned down at its place, half of the time as the last.
fn add_bad_call(random: &mut Random, mut scheduler: Scheduler, calls: &mut Vec<Call>) {
    let place = match random.percent(50) {
        true => calls.len(),
        false => random.below(calls.len() + 1),
    };
    for call in &calls[..place] {
        apply(&mut scheduler, *call);
    }
    calls.insert(place, bad_call(random, &scheduler));
}

fn no_kind(random: &mut Random) -> u8 {
    match random.byte() {
        byte @ (0..HAND_IN | 20..) if random.percent(30) => byte,
        _ => random.pick(NO_KINDS),
    }
}

/// A record without its last bytes.
fn cut_record(random: &mut Random) -> Vec<u8> {
    let [one, other] = [random.byte(), random.byte()].map(|byte| byte % 16);
    let mut record = match random.below(6) {
        0 => vec![HAND_IN],
        1 => vec![CLOSING],
        _ => vec![ADVANCE, one, other, random.byte()],
    };
    record.truncate(random.between(1, 4));
    record
}

/// Cuts the bytes, or changes, puts in or takes out one of them.
fn spoil(random: &mut Random, bytes: &mut Vec<u8>) -> Spoilt {
    let place = random.below(bytes.len());
    let byte = match random.below(4) {
        0 => random.byte(),
        1 => random.below(8) as u8,
        _ => random.between(14, 21) as u8,
    };
    let spoilt = random.pick(&[
        Spoilt::Cut,
        Spoilt::Changed,
        Spoilt::PutIn,
        Spoilt::TakenOut,
    ]);
    match spoilt {
        Spoilt::Nowhere => {}
        Spoilt::Cut => bytes.truncate(place),
        Spoilt::Changed => bytes[place] = byte,
        Spoilt::PutIn => bytes.insert(place, byte),
        Spoilt::TakenOut => drop(bytes.remove(place)),
    }
    spoilt
}

/// The kind and the number of a call to append, or what no call has. The number of a
/// winding up is any.
fn any_ask(random: &mut Random, scheduler: &Scheduler) -> (u8, u32) {
    let low = random.below(17) as u32;
    // Cut to a byte, these would fit.
    let high = random.pick(&[256, 256, 512, 65_536, 1 << 24, u32::MAX - 255]) + low;
    let call = match random.below(20) {
        0..=9 => any_fit(random, scheduler),
        10..=14 => bad_call(random, scheduler),
        15 | 16 => return (random.pick(&[HAND_IN, CLOSING]), high),
        17 | 18 => return (no_kind(random), random.pick(&[low, low, high])),
        _ => Call::Advance(any_minute(random)),
    };
    match call {
        Call::Submit(event) => (HAND_IN, event.into()),
        Call::CloseStep(step) => (CLOSING, step.into()),
        Call::Finish => (FINISH, random.pick(&[0, low, high])),
        Call::Advance(minute) => (ADVANCE, minute),
    }
}

/// A call that the state takes.
fn any_fit(random: &mut Random, scheduler: &Scheduler) -> Call {
    let (sheet, state) = (scheduler.sheet(), scheduler.state());
    let mut fit = vec![
        Call::Advance(state.minute.saturating_add(random.below(300) as u32)),
        idle_call(random, scheduler),
    ];
    if let Some(event) = any_of(random, members(sheet.all()).collect()) {
        fit.push(Call::Submit(event));
    }
    let open = |step: &u8| !has(state.closed, *step);
    match any_of(random, sheet.steps.iter().copied().filter(open).collect()) {
        Some(step) => fit.push(Call::CloseStep(step)),
        None => fit.push(Call::Finish),
    }
    random.pick(&fit)
}

/// As much room as a record needs behind the journal, one byte less, as much as the stated
/// length, less than that, and plenty. Cut to two bytes, some of that would be too little.
fn any_room(random: &mut Random, len: usize, behind: usize, need: usize) -> usize {
    match random.below(100) {
        0..=29 => behind + need,
        30..=44 => behind + need - 1,
        45..=54 => len,
        55..=64 => len.saturating_sub(random.pick(&[1, 1, 2, 3, 8])),
        65 => 65_536 + random.below(300),
        _ => behind + need + random.below(12),
    }
}

/// The bytes of a kind's record; a kind that no call has is counted as one byte.
pub fn record_length(kind: u8) -> usize {
    match kind {
        HAND_IN | CLOSING => 2,
        ADVANCE => 5,
        _ => 1,
    }
}

fn any_of(random: &mut Random, from: Vec<u8>) -> Option<u8> {
    (!from.is_empty()).then(|| random.pick(&from))
}
