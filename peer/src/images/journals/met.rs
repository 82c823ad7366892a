//! What the cases met with.

use super::outcome::{Answer, Read};
use crate::compare::missing;
use crate::peer::calls::{apply, Answer as Answered, Call};
use crate::peer::journal::{call, open, End, Opened};
use crate::peer::{Scheduler, Sheet};
use crate::random::{record_length, Append, Spoilt};
use std::collections::BTreeMap;
use std::fmt;

/// What can be at fault in an append, in the sequence of the tests.
const LENGTH: &str = "a length above the room";
const SHEET: &str = "a sheet turned down";
const NO_CALL: &str = "a record that is no call's";
const BAD_RECORD: &str = "a record turned down";
const KIND: &str = "a kind that is no call's";
const BIG: &str = "a number above 255";
const BAD_CALL: &str = "a call turned down";
const ROOM: &str = "no room";
/// A test finds one of its faults at a time.
const TESTS: [&[&str]; 4] = [
    &[LENGTH],
    &[SHEET, NO_CALL, BAD_RECORD],
    &[KIND, BIG, BAD_CALL],
    &[ROOM],
];

/// The numbers that each is turned down by.
const NUMBERS: [(&str, &[u8]); 8] = [
    (LENGTH, &[14]),
    (SHEET, &[1, 2, 3, 4, 5, 6, 7, 15]),
    (NO_CALL, &[17]),
    (BAD_RECORD, &[17]),
    (KIND, &[2]),
    (BIG, &[9]),
    (BAD_CALL, &[9, 10, 11, 16]),
    (ROOM, &[14]),
];

/// Everything else that has to be met.
const OPENINGS: [&str; 36] = [
    "journals as they were written",
    "journals that are cut",
    "journals with a byte changed",
    "journals with a byte put in",
    "journals with a byte taken out",
    "opened without a record",
    "opened with nothing left over",
    "opened with a window",
    "opened, a hand-in that only answers",
    "opened, a move to the same minute",
    "opened, wound up again",
    "opened, 1 left over",
    "opened, 2 left over",
    "opened, 3 left over",
    "opened, 4 left over",
    "opened, a hand-in cut",
    "opened, a closing cut",
    "opened, a move cut",
    "not opened, 1",
    "not opened, 2",
    "not opened, 3",
    "not opened, 4",
    "not opened, 5",
    "not opened, 6",
    "not opened, 7",
    "not opened, 15",
    "not opened, no call's byte at the end",
    "not opened, no call's byte before others",
    "not opened, no call's byte behind records",
    "not opened, turned down by 9",
    "not opened, turned down by 10",
    "not opened, turned down by 11",
    "not opened, turned down by 16",
    "not opened, turned down at the end",
    "not opened, turned down before others",
    "not opened, turned down behind records",
];
const APPENDS: [&str; 18] = [
    "appended, kind 16",
    "appended, kind 17",
    "appended, kind 18",
    "appended, kind 19",
    "appended over leftover bytes",
    "appended over some of the leftover bytes",
    "appended to a part of the journal",
    "appended with no byte to spare",
    "appended with bytes behind it",
    "appended, a winding up with a number above 255",
    "appended, nothing changes",
    "not appended, one byte too few",
    "not appended, no kind and a number above 255",
    "not appended, leftover bytes stay",
    "records of 0 bytes",
    "records of 1 bytes",
    "records of 2 bytes",
    "records of 5 bytes",
];

#[derive(Clone, Debug, Default, PartialEq, Eq)]
pub struct Tally {
    pub cases: usize,
    pub openings: usize,
    pub appends: usize,
    met: BTreeMap<String, usize>,
}

impl Tally {
    pub fn add_case(&mut self, spoilt: Spoilt) {
        self.cases += 1;
        self.meet(match spoilt {
            Spoilt::Nowhere => "journals as they were written",
            Spoilt::Cut => "journals that are cut",
            Spoilt::Changed => "journals with a byte changed",
            Spoilt::PutIn => "journals with a byte put in",
            Spoilt::TakenOut => "journals with a byte taken out",
        });
    }

    pub fn add_opening(&mut self, journal: &[u8], read: &Read) {
        self.openings += 1;
        match read {
            Err(refused) => self.meet(format!("not opened, {}", refused.number)),
            Ok(opened) => match opened.end {
                End::Leftover(bytes) => self.add_opened(journal, opened, bytes),
                End::NoCall => self.add_bad(journal, opened, 1, "no call's byte"),
                End::TurnedDown(reason) => {
                    let length = record_length(journal[opened.at]);
                    self.meet(format!("not opened, turned down by {}", reason as u8));
                    self.add_bad(journal, opened, length, "turned down");
                }
            },
        }
    }

    fn add_opened(&mut self, journal: &[u8], opened: &Opened, leftover: usize) {
        self.meet_if(opened.calls.is_empty(), "opened without a record");
        let windows = &opened.scheduler.sheet().windows;
        self.meet_if(!windows.is_empty(), "opened with a window");
        if leftover == 0 {
            self.meet("opened with nothing left over");
        } else {
            let cut = ["a hand-in", "a closing", "", "a move"];
            let cut = cut[usize::from(journal[opened.at]) - 16];
            self.meet(format!("opened, {leftover} left over"));
            self.meet(format!("opened, {cut} cut"));
        }
        for call in idle(opened) {
            self.meet(match call {
                Call::Submit(_) => "opened, a hand-in that only answers",
                Call::Finish => "opened, wound up again",
                _ => "opened, a move to the same minute",
            });
        }
    }

    fn add_bad(&mut self, journal: &[u8], opened: &Opened, length: usize, what: &str) {
        let last = opened.at + length == journal.len();
        let place = if last { "at the end" } else { "before others" };
        self.meet(format!("not opened, {what} {place}"));
        if !opened.calls.is_empty() {
            self.meet(format!("not opened, {what} behind records"));
        }
    }

    pub fn add_append(&mut self, asked: &Append, answer: Answer) {
        self.appends += 1;
        let faults = faults(asked);
        for (place, fault) in faults.iter().enumerate() {
            for later in &faults[place + 1..] {
                self.meet(both(fault, later));
            }
        }
        let (number, new_len, at) = answer;
        match faults.first() {
            None => self.add_appended(asked, new_len, at),
            Some(fault) => {
                self.meet(turned_down(number, fault));
                let short = (at + record_length(asked.kind)).wrapping_sub(asked.buffer.len());
                let one = *fault == ROOM && short == 1;
                self.meet_if(one, "not appended, one byte too few");
                let two = *fault == KIND && asked.number > 255;
                self.meet_if(two, "not appended, no kind and a number above 255");
                let stay = TESTS[2].contains(fault) && at < asked.len;
                self.meet_if(stay, "not appended, leftover bytes stay");
            }
        }
    }

    fn add_appended(&mut self, asked: &Append, new_len: usize, at: usize) {
        let kind = asked.kind;
        self.meet(format!("appended, kind {kind}"));
        self.meet_if(at < asked.len, "appended over leftover bytes");
        let some = new_len < asked.len;
        self.meet_if(some, "appended over some of the leftover bytes");
        let room = asked.buffer.len();
        self.meet_if(new_len == room, "appended with no byte to spare");
        self.meet_if(new_len < room, "appended with bytes behind it");
        let part = open(&asked.buffer).is_ok_and(|whole| whole.at > asked.len);
        self.meet_if(part, "appended to a part of the journal");
        let big = kind == 18 && asked.number > 255;
        self.meet_if(big, "appended, a winding up with a number above 255");
        let mut after = open(&asked.buffer[..asked.len]).expect("a journal that opens");
        let before = *after.scheduler.state();
        call(kind, asked.number)
            .map(|call| apply(&mut after.scheduler, call))
            .expect("a call");
        let idle = *after.scheduler.state() == before;
        self.meet_if(idle, "appended, nothing changes");
    }

    pub fn add_record(&mut self, length: usize) {
        self.meet(format!("records of {length} bytes"));
    }

    fn meet(&mut self, what: impl Into<String>) {
        *self.met.entry(what.into()).or_default() += 1;
    }

    fn meet_if(&mut self, is_met: bool, what: &str) {
        if is_met {
            self.meet(what);
        }
    }

    fn counts(&self) -> Vec<(String, usize)> {
        let named = OPENINGS.into_iter().chain(APPENDS).map(String::from);
        let wanted = named.chain(singles()).chain(pairs());
        wanted
            .map(|name| {
                let met = self.met.get(&name).copied();
                (name, met.unwrap_or(0))
            })
            .collect()
    }

    /// The first thing that was met fewer than `least` times.
    pub fn missing(&self, least: usize) -> Option<String> {
        missing(self.counts(), least)
    }
}

impl fmt::Display for Tally {
    fn fmt(&self, out: &mut fmt::Formatter) -> fmt::Result {
        let (cases, openings) = (self.cases, self.openings);
        let appends = self.appends;
        writeln!(out, "{cases} cases, {openings} openings, {appends} appends")?;
        for (name, met) in self.counts() {
            writeln!(out, "{name}: {met}")?;
        }
        Ok(())
    }
}

/// All that is at fault in an append, each test by itself. A call is tried on the state that
/// there is, and room is sought behind the last whole record, or behind a bad journal.
fn faults(asked: &Append) -> Vec<&'static str> {
    let mut faults = Vec::new();
    let stated = asked.buffer.get(..asked.len);
    faults.extend(stated.is_none().then_some(LENGTH));
    let journal = stated.unwrap_or(&asked.buffer);
    let (mut peer, mut behind) = (Scheduler::new(Sheet::default()), journal.len());
    match open(journal) {
        Err(_) => faults.push(SHEET),
        Ok(opened) => {
            peer = opened.scheduler;
            match opened.end {
                End::Leftover(_) => behind = opened.at,
                End::NoCall => faults.push(NO_CALL),
                End::TurnedDown(_) => faults.push(BAD_RECORD),
            }
        }
    }
    match call(asked.kind, asked.number).map(|call| apply(&mut peer, call)) {
        Err(2) => faults.push(KIND),
        Err(_) => faults.push(BIG),
        Ok(Answered::TurnedDown(_)) => faults.push(BAD_CALL),
        Ok(_) => {}
    }
    let end = behind + record_length(asked.kind);
    faults.extend((end > asked.buffer.len()).then_some(ROOM));
    faults
}

/// What counts call an append that a fault turns down.
fn turned_down(number: u8, fault: &str) -> String {
    format!("not appended, {number} for {fault}")
}

/// Every fault with each of its numbers.
fn singles() -> Vec<String> {
    let of_fault = |(fault, numbers): (&str, &[u8])| {
        let names = numbers.iter().map(|number| turned_down(*number, fault));
        names.collect::<Vec<String>>()
    };
    NUMBERS.into_iter().flat_map(of_fault).collect()
}

/// What counts call two faults at once.
fn both(one: &str, other: &str) -> String {
    format!("{one}, and {other}")
}

/// Every two faults of different tests.
fn pairs() -> Vec<String> {
    let mut pairs = Vec::new();
    for (place, test) in TESTS.iter().enumerate() {
        for one in *test {
            let later = TESTS[place + 1..].iter().copied().flatten();
            pairs.extend(later.map(|other| both(one, other)));
        }
    }
    pairs
}

/// The calls of a journal that change nothing, found by making them once more. A winding up
/// is among them if it is not the first.
fn idle(opened: &Opened) -> Vec<Call> {
    let mut peer = Scheduler::new(opened.scheduler.sheet().clone());
    let mut idle = Vec::new();
    for (place, call) in opened.calls.iter().enumerate() {
        let before = *peer.state();
        apply(&mut peer, *call);
        let first = *call == Call::Finish && !opened.calls[..place].contains(call);
        idle.extend((*peer.state() == before && !first).then_some(*call));
    }
    idle
}
