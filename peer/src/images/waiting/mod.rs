//! What S-6 asks for, on sheets with conditionals of which nothing can stop a or b.
//!
//! A case has a first state or one that is brought, and a list of calls. After every call
//! the library's number, answer and bytes are the peer's. From an admitted sheet on, what
//! S-6 promises is read off the library's bytes after every call and after the batch.
//! Before every call the three events of each conditional are previewed. The list is made
//! as a batch as well and, from an admitted sheet on, as a whole, by its report; the sheet
//! is written out at the end.
//!
//! Whoever compares may bring a scheduler that knows nothing of S-6. Calls that it would
//! have come to otherwise are told apart then.
//!
//! `sides` reads conditionals off the bytes, `scenes` says what a call comes to round one,
//! `met` counts, and `damage` has fates that no list leads to.

pub mod damage;
mod met;
mod scenes;
mod sides;

pub use met::Tally;
pub use sides::{kept, sides, Side};

use super::batches::{self, unanswered};
use super::brought::{brought_over, scheduler};
use super::damaged;
use super::forced::{Make, Outcome};
use super::layout::{first, Image};
use super::previews;
use super::runs::Origin;
use super::sheets;
use super::FILL;
use crate::compare::hex;
use crate::library::raw;
use crate::library::{self, LONGEST_SHEET};
use crate::peer as second;
use crate::peer::calls::Call;
use crate::peer::sheet::MOST_EVENTS;
use crate::peer::Scheduler;
use crate::random::{waiting_calls, waiting_sheet, Random};
use scenes::{Otherwise, Step};
use std::fmt;

/// The cases of the test.
pub const COUNT: usize = 60_000;
/// The cases that start with a state that is brought.
const BROUGHT_PERCENT: u64 = 15;
/// The lists that end with a byte that is no call.
const CUT_PERCENT: u64 = 4;

/// The library's single calls and its whole lists, or others in their place.
#[derive(Clone, Copy)]
pub struct Functions {
    pub call: Make,
    pub run: fn(&[u8], &[u8]) -> Vec<u8>,
}

pub const LIBRARY: Functions = Functions {
    call: damaged::LIBRARY.call,
    run: library::run,
};

/// The bytes that a call leads to without S-6; none where that takes too long.
pub type Without = fn(&Image, Call) -> Option<Image>;

/// A state and the calls to make on it.
pub struct Case {
    sheet: Vec<u8>,
    start: Image,
    origin: Origin,
    calls: Vec<Call>,
    cut: bool,
}

/// Compares a library with the peer on `count` cases, up to the first that is wrong.
pub fn compare(
    seed: u64,
    count: usize,
    library: &Functions,
    without: Option<Without>,
) -> Result<Tally, String> {
    let mut random = Random::new(seed);
    let mut tally = Tally::default();
    for number in 0..count {
        let case = Case::any(&mut random);
        let right = case.go_through(library, without, &mut tally);
        right.map_err(|what| format!("case {number}, {case}\n{what}"))?;
    }
    Ok(tally)
}

impl Case {
    fn any(random: &mut Random) -> Case {
        loop {
            let waiting = waiting_sheet(random);
            let first = first(&waiting.made.bytes);
            let (origin, start) = match random.percent(BROUGHT_PERCENT) {
                false => (Origin::List, Some(first)),
                true if random.percent(50) => (Origin::Brought, damage::any_state(random, &first)),
                true => (
                    Origin::Brought,
                    brought_over(random, &waiting.made, MOST_EVENTS),
                ),
            };
            if let Some(start) = start {
                return Case {
                    start,
                    origin,
                    calls: waiting_calls(random, &waiting),
                    cut: random.percent(CUT_PERCENT),
                    sheet: waiting.made.bytes,
                };
            }
        }
    }

    fn go_through(
        &self,
        library: &Functions,
        without: Option<Without>,
        tally: &mut Tally,
    ) -> Result<(), String> {
        let mut peer = scheduler(&self.start).ok_or("no state in the peer")?;
        let mut image = self.start;
        self.is_right(&image)?;
        let mut decided = false;
        for (place, call) in self.calls.iter().enumerate() {
            let at = |what| format!("call {place}, {call:?}: {what}");
            preview_all(&image, &peer, tally).map_err(at)?;
            let outcome = Outcome::of_library(library.call, &image, *call);
            let own = Outcome::of_peer(&mut peer, &image, *call);
            outcome.same(&own).map_err(at)?;
            self.is_right(&outcome.image).map_err(at)?;
            let step = Step {
                call: *call,
                before: &image,
                after: &outcome.image,
                otherwise: otherwise(without, &image, *call),
            };
            decided |= tally.add_call(&step, &outcome);
            image = outcome.image;
        }
        tally.add_case(&self.start, self.origin, decided);
        self.as_batch(tally)?;
        self.as_list(library, tally)?;
        let fill = [FILL; LONGEST_SHEET];
        sheets::agree(sheets::LIBRARY, &image, Some(&peer), &fill)?;
        tally.sheets += 1;
        Ok(())
    }

    /// Asks that the bytes are a state and, from a sheet on, that S-6's promises are kept.
    fn is_right(&self, image: &Image) -> Result<(), String> {
        match raw::check(image) {
            0 if self.origin == Origin::List => kept(image),
            0 => Ok(()),
            number => Err(format!("number {number} for {}", hex(image))),
        }
    }

    /// The list made at once. A winding up is no entry and is turned down.
    fn as_batch(&self, tally: &mut Tally) -> Result<(), String> {
        let lent = unanswered(&self.calls);
        let mut peer = scheduler(&self.start);
        let outcome = batches::agree(raw::submit_all, &self.start, peer.as_mut(), &lent)?;
        if outcome.number == 0 {
            tally.add_batch(outcome.lent());
        }
        self.is_right(&outcome.image)
    }

    /// The list as a whole, from the sheet on.
    fn as_list(&self, library: &Functions, tally: &mut Tally) -> Result<(), String> {
        if self.origin != Origin::List {
            return Ok(());
        }
        let calls = self.bytes();
        let [library, peer] = [library.run, second::run].map(|run| run(&self.sheet, &calls));
        if library != peer {
            let [library, peer] = [library, peer].map(String::from_utf8);
            return Err(format!("the report: library {library:?}\npeer {peer:?}"));
        }
        tally.lists += 1;
        Ok(())
    }

    /// The list's bytes.
    fn bytes(&self) -> Vec<u8> {
        let mut bytes = Vec::new();
        for call in &self.calls {
            match *call {
                Call::Submit(event) => bytes.extend([16, event]),
                Call::CloseStep(step) => bytes.extend([17, step]),
                Call::Finish => bytes.push(18),
                Call::Advance(_) => unreachable!("no list has this call"),
            }
        }
        bytes.extend(self.cut.then_some(16));
        bytes
    }
}

impl fmt::Display for Case {
    fn fmt(&self, out: &mut fmt::Formatter) -> fmt::Result {
        writeln!(out, "sheet {}", hex(&self.sheet))?;
        writeln!(out, "first bytes {}", hex(&self.start))?;
        write!(out, "calls {}, {:?}", hex(&self.bytes()), self.calls)
    }
}

/// What a call comes to without S-6. Where no conditional is live, S-6 says nothing.
fn otherwise(without: Option<Without>, image: &Image, call: Call) -> Otherwise {
    let Some(without) = without else {
        return Otherwise::NotAsked;
    };
    if !sides(image).iter().any(|side| side.is_live(image)) {
        return Otherwise::Same;
    }
    match without(image, call) {
        Some(after) => Otherwise::Known(Box::new(after)),
        None => Otherwise::Unknown,
    }
}

/// Previews the events of each conditional, in the library and in the peer.
fn preview_all(image: &Image, peer: &Scheduler, tally: &mut Tally) -> Result<(), String> {
    let sides = sides(image).into_iter();
    let mut events: Vec<usize> = sides.flat_map(|side| [side.other, side.goal]).collect();
    events.sort_unstable();
    events.dedup();
    for event in events {
        let event = event as u8;
        let agreed = previews::agree(previews::LIBRARY, image, Some(peer), event, [FILL; 4]);
        let (outcome, _) = agreed.map_err(|what| format!("preview of {event}: {what}"))?;
        tally.add_preview(outcome.added());
    }
    Ok(())
}
