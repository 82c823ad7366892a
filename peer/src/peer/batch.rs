//! The batch of S-1: entries that are handed in or closed together.

use super::calls::{apply, Answer, Call};
use super::scheduler::Scheduler;

/// As many entries as a list may have.
pub const MOST: usize = 64;

/// An event to hand in or a step to close, by the kind and the number of its call
/// record. Any kind may stand here.
#[derive(Clone, Copy, Debug, PartialEq, Eq)]
pub struct Entry {
    pub kind: u8,
    pub number: u8,
    /// None until its list is taken.
    pub answer: Option<Answer>,
}

impl Entry {
    pub fn new(kind: u8, number: u8) -> Entry {
        let answer = None;
        Entry {
            kind,
            number,
            answer,
        }
    }
}

/// Makes the calls of a list in its order and writes each answer into its entry. A
/// list that is too long gives 13, before anything is done.
pub fn submit_all(scheduler: &mut Scheduler, entries: &mut [Entry]) -> Result<(), u8> {
    if entries.len() > MOST {
        return Err(13);
    }
    for entry in entries {
        submit_one(scheduler, entry);
    }
    Ok(())
}

/// The call of an entry. A winding up is none, so its kind is one more that cannot
/// be read; whatever an entry comes to, it does not keep the next from its turn.
pub fn submit_one(scheduler: &mut Scheduler, entry: &mut Entry) {
    let answer = match entry.kind {
        16 => apply(scheduler, Call::Submit(entry.number)),
        17 => apply(scheduler, Call::CloseStep(entry.number)),
        _ => Answer::Unreadable,
    };
    entry.answer = Some(answer);
}
