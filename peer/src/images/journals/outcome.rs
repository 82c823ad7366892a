//! What opening a journal, appending to it and making a record come to, in the library and
//! in the peer.

use crate::compare::{difference, hex};
use crate::images::layout::{first, put, Image};
use crate::images::FILL;
use crate::library::raw::{self, RECORD_LEN};
use crate::library::STATE_LEN;
use crate::peer::calls::apply;
use crate::peer::journal::{append, call, open, record, End, Opened};
use crate::peer::{Refused, Scheduler};
use crate::random::Append;
use std::fmt;

/// The number, the offset and the leftover bytes of an opening; the number, the new length
/// and the offset of an append.
pub type Answer = (u8, usize, usize);

pub type Open = fn(&mut Image, &[u8]) -> Answer;
pub type Add = fn(&mut [u8], usize, u8, u32) -> Answer;
pub type Record = fn(u8, u32, &mut [u8; RECORD_LEN]) -> usize;

/// The library's functions, or others in their place.
#[derive(Clone, Copy)]
pub struct Functions {
    pub open: Open,
    pub append: Add,
    pub record: Record,
}

pub const LIBRARY: Functions = Functions {
    open: raw::open_journal,
    append: raw::append,
    record: raw::record,
};

/// Stands before and after the buffer that is lent.
const GUARD: [u8; 8] = [FILL; 8];
const EMPTY_SHEET: &[u8] = &[5];

/// The peer's reading of a journal.
pub type Read = Result<Opened, Refused>;

/// What opening comes to.
#[derive(Clone, PartialEq, Eq)]
pub struct Opening {
    answer: Answer,
    image: Image,
}

impl Opening {
    /// With the state that the peer has over a journal's sheet.
    pub fn new(answer: Answer, journal: &[u8], peer: &Scheduler) -> Opening {
        let mut image = first(journal);
        put(&mut image, peer);
        Opening { answer, image }
    }

    /// With the empty state.
    pub fn empty(number: u8, at: usize) -> Opening {
        Opening {
            answer: (number, at, 0),
            image: first(EMPTY_SHEET),
        }
    }

    pub fn of_peer(read: &Read, journal: &[u8]) -> Opening {
        match read {
            Err(refused) => Opening::empty(refused.number, refused.offset),
            Ok(opened) => {
                let leftover = match opened.end {
                    End::Leftover(bytes) => bytes,
                    _ => 0,
                };
                let answer = (opened.number(), opened.at, leftover);
                Opening::new(answer, journal, &opened.scheduler)
            }
        }
    }

    /// Asks that a library opens the journal so.
    pub fn is_of(&self, library: &Functions, journal: &[u8]) -> Result<(), String> {
        let mut image = [FILL; STATE_LEN];
        let answer = (library.open)(&mut image, journal);
        let found = Opening { answer, image };
        let what = if found.answer != self.answer {
            "the answer"
        } else if found.image != self.image {
            "the bytes"
        } else {
            return Ok(());
        };
        let journal = hex(journal);
        Err(format!(
            "{what} of opening {journal}\nlibrary {found}\npeer {self}"
        ))
    }
}

impl fmt::Display for Opening {
    fn fmt(&self, out: &mut fmt::Formatter) -> fmt::Result {
        let (number, at, leftover) = self.answer;
        write!(out, "number {number} at {at}, {leftover} left over, ")?;
        write!(out, "bytes {}", hex(&self.image))
    }
}

/// Opens a journal in both and asks that it comes to the same. Gives the peer's reading.
pub fn agree_on_opening(library: &Functions, journal: &[u8]) -> Result<Read, String> {
    let read = open(journal);
    Opening::of_peer(&read, journal).is_of(library, journal)?;
    Ok(read)
}

/// What appending comes to.
#[derive(PartialEq, Eq)]
struct Appending {
    answer: Answer,
    /// What was lent, between two guards.
    buffer: Vec<u8>,
}

impl Appending {
    fn of(asked: &Append, append: impl FnOnce(&mut [u8], usize, u8, u32) -> Answer) -> Appending {
        let mut buffer = [&GUARD, &asked.buffer[..], &GUARD].concat();
        let lent = &mut buffer[GUARD.len()..][..asked.buffer.len()];
        let answer = append(lent, asked.len, asked.kind, asked.number);
        Appending { answer, buffer }
    }

    fn same(&self, peer: &Appending) -> Result<(), String> {
        let what = if self.answer != peer.answer {
            "the answer".to_string()
        } else if let Some(place) = difference(&self.buffer, &peer.buffer) {
            format!("the buffer, from {place} with {} of guard", GUARD.len())
        } else {
            return Ok(());
        };
        Err(format!("{what}: library {self}\npeer {peer}"))
    }
}

impl fmt::Display for Appending {
    fn fmt(&self, out: &mut fmt::Formatter) -> fmt::Result {
        let (number, new_len, at) = self.answer;
        writeln!(out, "number {number} at {at}, new length {new_len}")?;
        write!(out, "guarded buffer {}", hex(&self.buffer))
    }
}

/// The peer's answer to an append.
fn append_in_peer(buffer: &mut [u8], len: usize, kind: u8, number: u32) -> Answer {
    match append(buffer, len, kind, number) {
        Ok(place) => (0, place.end, place.start),
        Err(refused) => (refused.number, len, refused.offset),
    }
}

/// Appends in both and asks that it comes to the same, and that what was appended opens to
/// the state after the call.
pub fn agree_on_append(library: &Functions, asked: &Append) -> Result<Answer, String> {
    let appending = Appending::of(asked, library.append);
    appending.same(&Appending::of(asked, append_in_peer))?;
    let (number, new_len, _) = appending.answer;
    if number == 0 {
        let before = open(&asked.buffer[..asked.len]);
        let mut peer = before.expect("a journal that opens").scheduler;
        apply(&mut peer, call(asked.kind, asked.number).expect("a call"));
        let journal = &appending.buffer[GUARD.len()..][..new_len];
        let after = Opening::new((0, new_len, 0), journal, &peer);
        after
            .is_of(library, journal)
            .map_err(|what| format!("after it, {what}"))?;
    }
    Ok(appending.answer)
}

/// Makes the record of a kind and a number in both and asks that they are the same. Gives
/// its length.
pub fn agree_on_record(library: &Functions, kind: u8, number: u32) -> Result<usize, String> {
    let made = call(kind, number).map_or_else(|_| Vec::new(), record);
    let mut expected = [FILL; RECORD_LEN];
    expected[..made.len()].copy_from_slice(&made);
    let mut found = [FILL; RECORD_LEN];
    let length = (library.record)(kind, number, &mut found);
    if (length, found) == (made.len(), expected) {
        return Ok(length);
    }
    let [found, expected] = [found, expected].map(|record| hex(&record));
    Err(format!(
        "record of {kind}, {number}: library {length}, {found}\npeer {}, {expected}",
        made.len()
    ))
}
