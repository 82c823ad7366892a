//! What one batch comes to, in the library, in the peer, and as single calls.

use crate::compare::{difference, hex};
use crate::images::damaged::INCOHERENT;
use crate::images::layout::{number, put, Image, FATE};
use crate::images::runs::listed;
use crate::library::raw::{self, Entry};
use crate::peer::batch::{submit_all, Entry as Own};
use crate::peer::calls::Answer;
use crate::peer::Scheduler;
use std::fmt;

const OTHER_KIND: u8 = 2;
/// Stands before and after the entries that are lent, and could be taken.
const GUARD: Entry = Entry {
    kind: 16,
    number: 0,
    refused: 0xa5,
    fate: 0xa5,
};

/// The library's batch, or another in its place.
pub type Batch = fn(&mut Image, &mut [Entry]) -> u8;

/// What a batch comes to.
#[derive(Clone, PartialEq, Eq)]
pub struct Outcome {
    pub number: u8,
    /// Those that were lent, between two guards.
    entries: Vec<Entry>,
    pub image: Image,
}

impl Outcome {
    pub fn lent(&self) -> &[Entry] {
        &self.entries[1..self.entries.len() - 1]
    }

    fn of_library(batch: Batch, image: &Image, lent: &[Entry]) -> Outcome {
        let (mut image, mut entries) = (*image, guarded(lent));
        let number = batch(&mut image, &mut entries[1..=lent.len()]);
        Outcome {
            number,
            entries,
            image,
        }
    }

    /// Bytes that the peer has no state of are none.
    fn of_peer(peer: Option<&mut Scheduler>, image: &Image, lent: &[Entry]) -> Outcome {
        let (mut image, mut entries, mut number) = (*image, guarded(lent), INCOHERENT);
        if let Some(peer) = peer {
            let own = lent.iter().map(|entry| Own::new(entry.kind, entry.number));
            let mut own: Vec<Own> = own.collect();
            number = submit_all(peer, &mut own).err().unwrap_or(0);
            put(&mut image, peer);
            for (entry, own) in entries[1..].iter_mut().zip(own) {
                put_answer(entry, own.answer);
            }
        }
        Outcome {
            number,
            entries,
            image,
        }
    }

    /// Asks that the library's outcome is another's.
    fn same(&self, whose: &str, other: &Outcome) -> Result<(), String> {
        let entry = difference(&self.entries, &other.entries);
        let what = match (entry, difference(&self.image, &other.image)) {
            _ if self.number != other.number => "the number".to_string(),
            (Some(place), _) => format!("the entries, from {place}, a guard being 0"),
            (None, Some(place)) => format!("the bytes, from {place}"),
            (None, None) => return Ok(()),
        };
        Err(format!("{what}: library {self}\n{whose} {other}"))
    }
}

impl fmt::Display for Outcome {
    fn fmt(&self, out: &mut fmt::Formatter) -> fmt::Result {
        writeln!(out, "number {}", self.number)?;
        writeln!(out, "guarded entries {}", listed(&self.entries))?;
        write!(out, "bytes {}", hex(&self.image))
    }
}

fn guarded(lent: &[Entry]) -> Vec<Entry> {
    [&[GUARD], lent, &[GUARD]].concat()
}

/// The peer's answer in the bytes of the entry.
fn put_answer(entry: &mut Entry, answer: Option<Answer>) {
    (entry.refused, entry.fate) = match answer {
        None => return,
        Some(Answer::Fate(fate)) => (0, number(fate)),
        Some(Answer::Closed | Answer::Finished | Answer::Advanced) => (0, 0),
        Some(Answer::TurnedDown(reason)) => (reason as u8, 0),
        Some(Answer::Unreadable) => (OTHER_KIND, 0),
    };
}

/// The library's single calls, in place of a batch that is taken.
pub fn one_by_one(image: &mut Image, entries: &mut [Entry]) -> u8 {
    for entry in entries {
        entry.refused = match entry.kind {
            16 => raw::submit(image, entry.number),
            17 => raw::close_step(image, entry.number),
            _ => OTHER_KIND,
        };
        entry.fate = match (entry.kind, entry.refused) {
            (16, 0) => image[FATE + usize::from(entry.number)],
            _ => 0,
        };
    }
    0
}

/// Makes a batch on the bytes and on the peer's state of them. Asks that they come to
/// the same and, where the batch is taken, that the library's single calls do too.
pub fn agree(
    library: Batch,
    image: &Image,
    peer: Option<&mut Scheduler>,
    lent: &[Entry],
) -> Result<Outcome, String> {
    let outcome = Outcome::of_library(library, image, lent);
    outcome.same("peer", &Outcome::of_peer(peer, image, lent))?;
    if outcome.number == 0 {
        let calls = Outcome::of_library(one_by_one, image, lent);
        outcome.same("single calls", &calls)?;
    }
    Ok(outcome)
}
