//! Journals to open: lists of `workloads` with the calls that are taken, and a file of moves
//! of the minute.

use super::bytes::Pair;
use super::timing::Work;
use super::workloads::{Workload, FILE};
use crate::images::journals::{agree_on_opening, Functions};
use crate::library::{raw, STATE_LEN};
use crate::peer::calls::{apply, split_call, Answer, Call};
use crate::peer::journal::{open, record};
use crate::peer::{Scheduler, Sheet};
use std::hint::black_box;

/// The places in the workloads' list of those that are opened as journals.
const OPENED: [usize; 6] = [0, 1, 2, 8, 11, 13];

pub struct Journals {
    pub name: String,
    pub journals: Vec<Vec<u8>>,
    /// The records of all journals.
    pub records: usize,
}

pub fn list(lists: &[Workload]) -> Vec<Journals> {
    let mut list: Vec<Journals> = OPENED.map(|place| taken(&lists[place])).into();
    list.push(moves());
    list
}

impl Journals {
    /// A pass opens every journal. The library has to open each as the peer does, with
    /// nothing left over.
    pub fn work(&self, library: &Functions) -> Result<Work<'_>, String> {
        for journal in &self.journals {
            let read = agree_on_opening(library, journal)?;
            if !read.is_ok_and(|opened| opened.number() == 0 && opened.at == journal.len()) {
                return Err(format!("{}: a journal that does not open", self.name));
            }
        }
        let library = || {
            let mut state = [0; STATE_LEN];
            for journal in &self.journals {
                black_box(raw::open_journal(&mut state, black_box(journal)));
                black_box(&state);
            }
        };
        let peer = || {
            for journal in &self.journals {
                black_box(open(black_box(journal)).is_ok());
            }
        };
        Ok(Work {
            name: &self.name,
            calls: self.records,
            passes: [Box::new(library), Box::new(peer)],
        })
    }
}

/// The journals of a workload's lists.
fn taken(list: &Workload) -> Journals {
    let (journals, records): (Vec<_>, Vec<_>) = list.pairs.iter().map(journal).unzip();
    Journals {
        name: format!("{}, a journal opened", list.name),
        journals,
        records: records.iter().sum(),
    }
}

/// The journal of a list, and how many records it has.
fn journal((sheet, calls): &Pair) -> (Vec<u8>, usize) {
    let mut scheduler = Scheduler::new(Sheet::read(sheet).expect("an admitted sheet"));
    let (mut journal, mut records) = (sheet.clone(), 0);
    let mut rest = &calls[..];
    while let Some((call, after)) = split_call(rest) {
        if !matches!(apply(&mut scheduler, call), Answer::TurnedDown(_)) {
            journal.extend(record(call));
            records += 1;
        }
        rest = after;
    }
    (journal, records)
}

/// As many moves as a file has room for, each to the next minute.
fn moves() -> Journals {
    let mut journal = vec![1, 0, 6, 5];
    let mut records = 0;
    while journal.len() + 5 <= FILE {
        records += 1;
        journal.extend(record(Call::Advance(records)));
    }
    Journals {
        name: "65,536 bytes: moves of the minute, a journal opened".to_string(),
        journals: vec![journal],
        records: records as usize,
    }
}
