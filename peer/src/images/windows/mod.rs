//! What S-7 asks for, on sheets with windows.
//!
//! A case has a first state or one that is brought, at any minute, and a list of calls that
//! move the minute about the edges of the windows. After every call the library's number,
//! answer and bytes are the peer's, and what S-7 promises is read off the bytes. Before
//! every call some events are previewed. From one place of the list on it is made as a batch
//! as well, in which a move of the minute is no entry. At the end the report is compared
//! and the sheet is written out; another form of the sheet is written alike. The list is
//! run as a whole too, up to the first move of the minute, which is no record of a list.
//!
//! `moments` says what a call comes to for one window, `met` counts, `faults` has sheets
//! with a window that is turned down, and `damage` has windows that no sheet could give.

pub mod damage;
pub mod faults;
mod met;
mod moments;

pub use met::Tally;
pub use moments::{windows, Step};

use super::batches::{self, unanswered, Batch};
use super::brought::{brought_over, scheduler};
use super::damaged;
use super::forced::{Make, Outcome};
use super::layout::*;
use super::previews::{self, Preview};
use super::runs::Origin;
use super::sheets;
use super::FILL;
use crate::compare::hex;
use crate::library::{self, raw, LONGEST_REPORT, LONGEST_SHEET, STATE_LEN};
use crate::peer::calls::{Answer, Call, Run};
use crate::peer::report::report;
use crate::peer::sheet::MOST_EVENTS;
use crate::peer::{self as second, Scheduler};
use crate::random::{other_form, windowed_calls, windowed_sheet, Random, Timed};
use std::fmt;

/// The cases of the test.
pub const COUNT: usize = 40_000;
/// The cases that start with a state that is brought.
const BROUGHT_PERCENT: u64 = 20;
/// The events that are previewed before a call.
const PREVIEWS: usize = 2;

/// The library's functions, or others in their place.
#[derive(Clone, Copy)]
pub struct Functions {
    pub call: Make,
    pub preview: Preview,
    pub batch: Batch,
}

pub const LIBRARY: Functions = Functions {
    call: damaged::LIBRARY.call,
    preview: previews::LIBRARY,
    batch: raw::submit_all,
};

/// A state and the calls to make on it.
pub struct Case {
    pub sheet: Vec<u8>,
    /// Another sheet that declares the same.
    other: Vec<u8>,
    pub start: Image,
    pub origin: Origin,
    pub calls: Vec<Call>,
    /// The place from which on the calls are a batch as well.
    batch: usize,
    previewed: Vec<u8>,
}

/// Compares a library with the peer on `count` cases, up to the first that is wrong.
pub fn compare(seed: u64, count: usize, library: &Functions) -> Result<Tally, String> {
    let mut random = Random::new(seed);
    let mut tally = Tally::default();
    for number in 0..count {
        let case = Case::any(&mut random);
        let right = case.go_through(library, &mut tally);
        right.map_err(|what| format!("case {number}, {case}\n{what}"))?;
    }
    Ok(tally)
}

impl Case {
    pub fn any(random: &mut Random) -> Case {
        loop {
            let windowed = windowed_sheet(random);
            let mut start = Some(first(&windowed.made.bytes));
            let mut origin = Origin::List;
            if random.percent(BROUGHT_PERCENT) {
                origin = Origin::Brought;
                start = brought_over(random, &windowed.made, MOST_EVENTS);
                let minute = some_minute(random, &windowed.windows);
                start
                    .iter_mut()
                    .for_each(|image| put_minute(image, MINUTE, minute));
            }
            let Some(start) = start else {
                continue;
            };
            let calls = windowed_calls(random, &windowed, minute_at(&start, MINUTE));
            let events = windowed.made.events;
            let previewed = (0..PREVIEWS).map(|_| random.below(events + 1) as u8);
            return Case {
                previewed: previewed.collect(),
                other: other_form(random, &windowed.made.bytes),
                start,
                origin,
                batch: random.below(calls.len() + 1),
                calls,
                sheet: windowed.made.bytes,
            };
        }
    }

    fn go_through(&self, library: &Functions, tally: &mut Tally) -> Result<(), String> {
        let mut peer = scheduler(&self.start).ok_or("no state in the peer")?;
        let mut image = self.start;
        let mut refused = 0;
        self.opens(&image)?;
        for (place, made) in self.calls.iter().enumerate() {
            if place == self.batch {
                self.as_batch(library.batch, &image, &peer, tally)?;
            }
            let at = |what| format!("call {place}, {made:?}: {what}");
            self.preview(library.preview, &image, &peer, tally)
                .map_err(at)?;
            let before = (image, peer.clone());
            let outcome = Outcome::of_library(library.call, &image, *made);
            let own = Outcome::of_peer(&mut peer, &image, *made);
            outcome.same(&own).map_err(at)?;
            refused += usize::from(outcome.number != 0);
            image = outcome.image;
            let step = Step::new(*made, &before.0, &image, [&before.1, &peer]);
            self.is_right(&step).map_err(at)?;
            tally.add_call(&step, &outcome);
        }
        tally.add_case(&self.start, self.origin);
        same_report(&image, &peer, refused)?;
        self.as_list(tally)?;
        self.written(&image, &peer, tally)
    }

    /// Asks that the library reads the sheet as the bytes that it declares.
    fn opens(&self, start: &Image) -> Result<(), String> {
        let mut image = [FILL; STATE_LEN];
        let opened = raw::open(&mut image, &self.sheet);
        if opened != (0, 0) || image != first(&self.sheet) {
            return Err(format!("opened {opened:?} as {}", hex(&image)));
        }
        match raw::check(start) {
            0 => Ok(()),
            number => Err(format!("number {number} at the start")),
        }
    }

    /// Asks that the bytes are a state and that S-7's promises are kept.
    fn is_right(&self, step: &Step) -> Result<(), String> {
        if raw::check(step.after) != 0 {
            return Err("no state after it".to_string());
        }
        step.settled_in_time()?;
        // What is brought may wait in vain up to the first call that settles.
        let settles = step.call == Call::Advance(minute_at(step.after, MINUTE));
        if self.origin == Origin::List || settles {
            return step.none_waits_in_vain();
        }
        Ok(())
    }

    fn preview(
        &self,
        preview: Preview,
        image: &Image,
        peer: &Scheduler,
        tally: &mut Tally,
    ) -> Result<(), String> {
        for event in &self.previewed {
            let fill = [FILL; 4];
            let agreed = previews::agree(preview, image, Some(peer), *event, fill);
            let (outcome, _) = agreed.map_err(|what| format!("preview of {event}: {what}"))?;
            tally.previews += usize::from(outcome.added() != [0; 4] && outcome.number == 0);
        }
        Ok(())
    }

    /// The rest of the list at once, at the minute that it has reached.
    fn as_batch(
        &self,
        batch: Batch,
        image: &Image,
        peer: &Scheduler,
        tally: &mut Tally,
    ) -> Result<(), String> {
        let lent = unanswered(&self.calls[self.batch..]);
        let mut peer = peer.clone();
        let agreed = batches::agree(batch, image, Some(&mut peer), &lent);
        let outcome = agreed.map_err(|what| format!("the batch: {what}"))?;
        tally.add_batch(outcome.lent());
        Ok(())
    }

    /// The list as a whole, from the sheet on.
    fn as_list(&self, tally: &mut Tally) -> Result<(), String> {
        let calls = self.bytes();
        let [library, peer] = [library::run, second::run].map(|run| run(&self.sheet, &calls));
        if library != peer {
            let [library, peer] = [library, peer].map(String::from_utf8);
            return Err(format!("the list: library {library:?}\npeer {peer:?}"));
        }
        tally.lists += 1;
        Ok(())
    }

    /// The records of the calls; for a move of the minute there is none, and a byte that
    /// is no record's stands for it.
    fn bytes(&self) -> Vec<u8> {
        let record = |call: &Call| match *call {
            Call::Submit(event) => vec![16, event],
            Call::CloseStep(step) => vec![17, step],
            Call::Finish => vec![18],
            Call::Advance(_) => vec![19],
        };
        self.calls.iter().flat_map(record).collect()
    }

    fn written(&self, image: &Image, peer: &Scheduler, tally: &mut Tally) -> Result<(), String> {
        let fill = [FILL; LONGEST_SHEET];
        let outcome = sheets::agree(sheets::LIBRARY, image, Some(peer), &fill)?;
        sheets::written_alike(sheets::LIBRARY, &self.sheet, &self.other)?;
        tally.add_sheet(&self.sheet, &self.other, outcome.sheet());
        Ok(())
    }
}

impl fmt::Display for Case {
    fn fmt(&self, out: &mut fmt::Formatter) -> fmt::Result {
        writeln!(out, "sheet {}", hex(&self.sheet))?;
        writeln!(out, "first bytes {}", hex(&self.start))?;
        write!(out, "{:?}", self.calls)
    }
}

/// A minute at the edge of a window or inside it, or any.
fn some_minute(random: &mut Random, windows: &[Timed]) -> u32 {
    let window = random.pick(windows);
    random.pick(&[0, window.from, window.until - 1, window.until, u32::MAX])
}

/// Asks that the library's report of the state is the peer's.
fn same_report(image: &Image, peer: &Scheduler, refused: usize) -> Result<(), String> {
    let answers = vec![Answer::Unreadable; refused];
    let scheduler = peer.clone();
    let expected = report(&Ok(Run { scheduler, answers })).into_bytes();
    let mut out = [FILL; LONGEST_REPORT];
    let length = raw::report(image, refused, &mut out);
    if out.get(..length) == Some(&expected[..]) {
        return Ok(());
    }
    let [library, peer] = [&out[..], &expected].map(String::from_utf8_lossy);
    Err(format!("the report: library {library}\npeer {peer}"))
}
