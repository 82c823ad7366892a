//! The journal of S-8: a sheet, and behind it a record for each call that was accepted.

use super::calls::{apply, split_call, Answer, Call};
use super::scheduler::{Reason, Scheduler};
use super::sheet::{minute, Refused, Sheet};
use std::ops::Range;

pub const HAND_IN: u8 = 16;
pub const CLOSING: u8 = 17;
pub const FINISH: u8 = 18;
pub const ADVANCE: u8 = 19;

/// A kind that no call has, as a batch gives it.
const NO_KIND: u8 = 2;
const NO_ROOM: u8 = 14;
const BAD_RECORD: u8 = 17;

/// What a journal gives whose sheet is whole and right.
#[derive(Clone, Debug)]
pub struct Opened {
    /// The state after the whole records in front of `at`.
    pub scheduler: Scheduler,
    /// The calls of those records.
    pub calls: Vec<Call>,
    /// The offset behind the last whole record, or that of the bad one.
    pub at: usize,
    pub end: End,
}

/// What stands behind the last record that counts.
#[derive(Clone, Copy, Debug, PartialEq, Eq)]
pub enum End {
    /// So many bytes of a record that is cut; most often none.
    Leftover(usize),
    /// A byte that is no call's kind.
    NoCall,
    /// A whole record of a call that the state turns down.
    TurnedDown(Reason),
}

impl Opened {
    /// 0 or 17.
    pub fn number(&self) -> u8 {
        match self.end {
            End::Leftover(_) => 0,
            End::NoCall | End::TurnedDown(_) => BAD_RECORD,
        }
    }
}

/// Reads the sheet and makes the calls of the records behind it, up to the end, a record
/// that is cut, or a bad one. A sheet that is turned down gives its own number.
pub fn open(journal: &[u8]) -> Result<Opened, Refused> {
    let (sheet, mut at) = Sheet::read_front(journal)?;
    let mut scheduler = Scheduler::new(sheet);
    let mut calls = Vec::new();
    let end = loop {
        let rest = &journal[at..];
        let Some((call, after)) = split_record(rest) else {
            break end(rest);
        };
        if let Answer::TurnedDown(reason) = apply(&mut scheduler, call) {
            break End::TurnedDown(reason);
        }
        calls.push(call);
        at = journal.len() - after.len();
    };
    Ok(Opened {
        scheduler,
        calls,
        at,
        end,
    })
}

/// Writes the record of a call behind the last whole record of the journal that the first
/// `len` bytes of a buffer are. Gives the record's place, which ends at the new length; or
/// the number and the offset of the first test that fails, with nothing written.
pub fn append(
    buffer: &mut [u8],
    len: usize,
    kind: u8,
    number: u32,
) -> Result<Range<usize>, Refused> {
    let too_long = Refused {
        number: NO_ROOM,
        offset: 0,
    };
    let mut opened = open(buffer.get(..len).ok_or(too_long)?)?;
    let offset = opened.at;
    let refuse = |number| Refused { number, offset };
    if opened.number() != 0 {
        return Err(refuse(opened.number()));
    }
    let call = call(kind, number).map_err(refuse)?;
    if let Answer::TurnedDown(reason) = apply(&mut opened.scheduler, call) {
        return Err(refuse(reason as u8));
    }
    let record = record(call);
    let place = offset..offset + record.len();
    let room = buffer.get_mut(place.clone()).ok_or(refuse(NO_ROOM))?;
    room.copy_from_slice(&record);
    Ok(place)
}

/// The call of a kind and a number, or why there is none.
pub fn call(kind: u8, number: u32) -> Result<Call, u8> {
    let byte = u8::try_from(number).map_err(|_| Reason::NoSuch as u8);
    match kind {
        HAND_IN => byte.map(Call::Submit),
        CLOSING => byte.map(Call::CloseStep),
        FINISH => Ok(Call::Finish),
        ADVANCE => Ok(Call::Advance(number)),
        _ => Err(NO_KIND),
    }
}

pub fn record(call: Call) -> Vec<u8> {
    match call {
        Call::Submit(event) => vec![HAND_IN, event],
        Call::CloseStep(step) => vec![CLOSING, step],
        Call::Finish => vec![FINISH],
        Call::Advance(minute) => [&[ADVANCE], &minute.to_le_bytes()[..]].concat(),
    }
}

/// The call of the whole record at the front, and the bytes after it.
fn split_record(rest: &[u8]) -> Option<(Call, &[u8])> {
    match rest {
        [ADVANCE, _, _, _, _, after @ ..] => Some((Call::Advance(minute(&rest[1..])), after)),
        _ => split_call(rest),
    }
}

/// What bytes are that no whole record of a call stands in front of.
fn end(rest: &[u8]) -> End {
    match rest {
        [] | [HAND_IN | CLOSING | FINISH | ADVANCE, ..] => End::Leftover(rest.len()),
        _ => End::NoCall,
    }
}
