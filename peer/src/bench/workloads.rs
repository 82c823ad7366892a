//! Sheets with lists of calls: random ones, those that are hard to search, and
//! files of calls that change nothing.

use super::bytes::{all_held, all_settled, closings, hand_ins, ring, sheet, star, Pair};
use super::kept::{make_all, Kept};
use super::timing::Work;
use crate::compare::agree;
use crate::library::{run_into, LONGEST_REPORT};
use crate::peer as second;
use crate::peer::calls::split_call;
use crate::peer::Scheduler;
use crate::random::{admitted_sheet, hostile_sheet, mixed_list, Random};
use std::hint::black_box;

const SEED: u64 = 3;
/// As much of a file as the runner reads.
pub(super) const FILE: usize = 65_536;
/// Of a random list, per cent.
const CLOSING: u64 = 20;

pub struct Workload {
    pub name: String,
    pub pairs: Vec<Pair>,
}

pub fn list() -> Vec<Workload> {
    let mut random = Random::new(SEED);
    let mut list = vec![
        mixed(&mut random, "small sheets", 5, 2_000),
        mixed(&mut random, "random sheets", 12, 2_000),
        mixed(&mut random, "large random sheets", 16, 1_000),
    ];
    list.extend([6, 7, 12, 16].map(ring_of_needs));
    let name = "everything needs one: 15 events, then the one, handed in";
    list.push(one(name, star(), hand_ins(16)));
    list.extend(on_settled());
    list.extend(on_held());
    list.push(long(&mut random));
    list
}

/// The places in the list of those whose calls are also made one by one.
pub const KEPT: [usize; 4] = [0, 1, 2, 14];

/// Their lists, to be made one by one.
pub fn one_by_one(list: &[Workload]) -> Vec<Workload> {
    let renamed = |place: usize| Workload {
        name: format!("{}, one by one", list[place].name),
        pairs: list[place].pairs.clone(),
    };
    KEPT.map(renamed).into()
}

impl Workload {
    /// The calls of all lists.
    pub fn calls(&self) -> usize {
        self.pairs.iter().map(|(_, calls)| count_calls(calls)).sum()
    }

    /// Asks that the library's reports are the peer's.
    pub fn compare(&self, library: impl Fn(&[u8], &[u8]) -> Vec<u8>) -> Result<(), String> {
        for (number, (sheet, calls)) in self.pairs.iter().enumerate() {
            let reports = (library(sheet, calls), second::run(sheet, calls));
            let agreed = agree(number, sheet, calls, reports);
            agreed.map_err(|difference| format!("{}: {difference}", self.name))?;
        }
        Ok(())
    }

    /// A pass runs every list. Each of the two is called as it is meant to be: the
    /// library writes into a lent buffer, the peer makes its report.
    pub fn work(&self) -> Work<'_> {
        let library = || {
            let mut out = [0; LONGEST_REPORT];
            for (sheet, calls) in &self.pairs {
                black_box(run_into(black_box(sheet), black_box(calls), &mut out));
                black_box(&out);
            }
        };
        let peer = || {
            for (sheet, calls) in &self.pairs {
                black_box(second::run(black_box(sheet), black_box(calls)));
            }
        };
        Work {
            name: &self.name,
            calls: self.calls(),
            passes: [Box::new(library), Box::new(peer)],
        }
    }

    /// A pass opens a state for each list and makes the calls one by one. The library
    /// has to answer each and to report as the peer does.
    pub fn kept_work<Library: Kept>(&self) -> Result<Work<'_>, String> {
        for pair in &self.pairs {
            if outcome::<Library>(pair) != outcome::<Scheduler>(pair) {
                return Err(format!("{} differs", self.name));
            }
        }
        Ok(Work {
            name: &self.name,
            calls: self.calls(),
            passes: [
                Box::new(|| self.pass::<Library>()),
                Box::new(|| self.pass::<Scheduler>()),
            ],
        })
    }

    fn pass<S: Kept>(&self) {
        for (sheet, calls) in &self.pairs {
            let mut state = S::open(black_box(sheet));
            make_all(&mut state, black_box(calls), |number| {
                black_box(number);
            });
            black_box(&state);
        }
    }
}

/// The number of each call and the report after them.
fn outcome<S: Kept>((sheet, calls): &Pair) -> (Vec<u8>, Vec<u8>) {
    let mut state = S::open(sheet);
    let mut numbers = Vec::new();
    make_all(&mut state, calls, |number| numbers.push(number));
    (numbers, state.report())
}

fn count_calls(mut calls: &[u8]) -> usize {
    let mut count = 0;
    while let Some((_, rest)) = split_call(calls) {
        count += 1;
        calls = rest;
    }
    count
}

fn one(name: &str, sheet: Vec<u8>, calls: Vec<u8>) -> Workload {
    Workload {
        name: name.to_string(),
        pairs: vec![(sheet, calls)],
    }
}

/// Random sheets of up to `most` events, each with a list of as many calls as
/// it has events, or up to three times as many.
fn mixed(random: &mut Random, name: &str, most: usize, count: usize) -> Workload {
    let mut pairs = Vec::new();
    for _ in 0..count {
        let made = admitted_sheet(random, most);
        let length = random.between(made.events, 3 * made.events);
        let calls = mixed_list(random, &made, length, CLOSING);
        pairs.push((made.bytes, calls));
    }
    let name = format!("{name}, up to {most} events");
    Workload { name, pairs }
}

fn ring_of_needs(events: u8) -> Workload {
    let name = format!("a ring of {events} needs, handed in, closed and wound up");
    let calls = [hand_ins(events), closings(events), vec![18]].concat();
    one(&name, sheet(events, 6, ring(events, 3)), calls)
}

/// The calls, then as many of one more as a file has room for.
fn filled(name: &str, sheet: &[u8], mut calls: Vec<u8>, record: &[u8]) -> Workload {
    let room = (FILE - calls.len()) / record.len();
    calls.extend(record.repeat(room));
    one(&format!("65,536 bytes: {name}"), sheet.to_vec(), calls)
}

/// Files of calls where all sixteen events are settled.
fn on_settled() -> [Workload; 4] {
    let (sheet, calls) = all_settled();
    let closed = [calls.clone(), closings(16)].concat();
    [
        filled(
            "hand-ins of a settled event",
            &sheet,
            calls.clone(),
            &[16, 0],
        ),
        filled(
            "hand-ins of an event that is not there",
            &sheet,
            calls,
            &[16, 255],
        ),
        filled(
            "closings of a closed step",
            &sheet,
            closed.clone(),
            &[17, 3],
        ),
        filled("windings up, all settled and closed", &sheet, closed, &[18]),
    ]
}

/// Files of calls where all sixteen events are held.
fn on_held() -> [Workload; 2] {
    let (sheet, calls) = all_held();
    [
        filled(
            "windings up, steps not closed yet",
            &sheet,
            calls.clone(),
            &[18],
        ),
        filled("hand-ins of a held event", &sheet, calls, &[16, 5]),
    ]
}

/// A file of calls of all sorts on a sheet of 16 events and 16 rules.
fn long(random: &mut Random) -> Workload {
    let made = hostile_sheet(random);
    let calls = mixed_list(random, &made, FILE / 2, CLOSING);
    one("a long list: 32,768 calls of all sorts", made.bytes, calls)
}
