//! What S-5 asks for, on sheets where much is forced: the mark is where it has to be, and
//! but for the mark nothing is new.
//!
//! A case has a first state or one that is brought, and a list of calls. The library makes
//! them, and once more on bytes that the mark is taken off after every call. The peer makes
//! them, and so does a peer that writes as done what it forces. After every call, in the
//! library and in the peer:
//!
//! - What is newly forced was open, is forcible and is not the event that is handed in.
//!   What is newly done was held, or is that event. What was settled stays as it was.
//! - With forced read as done, the number, the answer and all bytes are those that come of
//!   it without the mark.
//!
//! The library's number, answer and bytes are then the peer's. Every hand-in is previewed
//! before, and the whole list is made as a batch as well.

mod met;
mod outcome;

pub use met::Tally;
pub use outcome::{Make, Outcome, Ways, LIBRARY};

use super::batches::{self, unanswered};
use super::brought::{brought_over, scheduler};
use super::layout::{first, Image, STEP};
use super::previews::{self, Counts};
use super::runs::Origin;
use super::FILL;
use crate::compare::hex;
use crate::library::raw::{self, Entry};
use crate::peer::calls::Call;
use crate::peer::sheet::MOST_EVENTS;
use crate::random::{forcible_sheet, single_calls, Random};
use std::fmt;

/// The cases of the test.
pub const COUNT: usize = 25_000;
/// The cases that start with a state that is brought, and the lists that close a step
/// early, for which event 1 may have waited.
const BROUGHT_PERCENT: u64 = 30;
const EARLY_PERCENT: u64 = 15;
const MOST_CALLS: usize = 40;

/// A state and the calls to make on it.
pub struct Case {
    pub start: Image,
    pub origin: Origin,
    pub calls: Vec<Call>,
}

/// Compares a library's calls with the peer's, and both with and without the mark, on
/// `count` cases, up to the first that is wrong.
pub fn compare(seed: u64, count: usize, library: Make) -> Result<Tally, String> {
    let mut random = Random::new(seed);
    let mut tally = Tally::default();
    for number in 0..count {
        let case = Case::any(&mut random);
        let right = case.go_through(library, &mut tally);
        right.map_err(|what| format!("case {number}, {case}\n{what}"))?;
    }
    Ok(tally)
}

impl Case {
    fn any(random: &mut Random) -> Case {
        loop {
            let made = forcible_sheet(random);
            let (origin, start) = if random.percent(BROUGHT_PERCENT) {
                (Origin::Brought, brought_over(random, &made, MOST_EVENTS))
            } else {
                (Origin::List, Some(first(&made.bytes)))
            };
            if let Some(start) = start {
                let mut calls = Vec::new();
                if random.percent(EARLY_PERCENT) {
                    calls.extend([Call::Submit(1), Call::CloseStep(start[STEP])]);
                }
                calls.extend(single_calls(random, &made));
                calls.truncate(MOST_CALLS);
                return Case {
                    start,
                    origin,
                    calls,
                };
            }
        }
    }

    fn go_through(&self, library: Make, tally: &mut Tally) -> Result<(), String> {
        let mut ways = Ways::new(&self.start)?;
        for (place, call) in self.calls.iter().enumerate() {
            let at = |what| format!("call {place}, {call:?}: {what}");
            if let Call::Submit(event) = *call {
                tally.add_preview(preview(&ways, event).map_err(at)?);
            }
            let before = ways.image;
            let outcome = ways.call(library, *call).map_err(at)?;
            tally.add_call(*call, [&self.start, &before], &outcome);
        }
        tally.add_batch(&self.as_batch()?);
        tally.add_case(self.origin, &ways.peer);
        Ok(())
    }

    /// The list made at once, with what its entries are answered. A winding up is no entry
    /// and is turned down.
    fn as_batch(&self) -> Result<Vec<Entry>, String> {
        let lent = unanswered(&self.calls);
        let mut peer = scheduler(&self.start);
        let outcome = batches::agree(raw::submit_all, &self.start, peer.as_mut(), &lent)?;
        Ok(outcome.lent().to_vec())
    }
}

impl fmt::Display for Case {
    fn fmt(&self, out: &mut fmt::Formatter) -> fmt::Result {
        writeln!(out, "first bytes {}", hex(&self.start))?;
        write!(out, "calls {:?}", self.calls)
    }
}

/// The counts that the library and the peer give before a hand-in, which are those of the
/// lines that it adds; none where it is turned down.
fn preview(ways: &Ways, event: u8) -> Result<Counts, String> {
    let fill = [FILL; 4];
    let agreed = previews::agree(
        previews::LIBRARY,
        &ways.image,
        Some(&ways.peer),
        event,
        fill,
    );
    let (outcome, _) = agreed?;
    Ok(match outcome.number {
        0 => outcome.added(),
        _ => [0; 4],
    })
}
