//! What one preview comes to, in the library and in the peer, and what it has to come
//! to by the lines that really handing the event in adds.

use crate::compare::hex;
use crate::images::damaged::INCOHERENT;
use crate::images::layout::{number as number_of, Image, LINES, LINE_FATE};
use crate::library::raw;
use crate::peer::preview::preview;
use crate::peer::{Fate, Scheduler};
use std::fmt;
use std::hint::black_box;

/// Done, refused, lapsed, forced.
pub type Counts = [u8; 4];

/// Stands before and after the counts that are lent.
const GUARD: Counts = [0xa5; 4];

/// The library's preview, or another in its place. The bytes are lent so that it could
/// write them.
pub type Preview = fn(&mut Image, u8, &mut Counts) -> u8;

pub const LIBRARY: Preview = |image, event, added| raw::preview(image, event, added);

/// What a preview comes to.
#[derive(Clone, PartialEq, Eq)]
pub struct Outcome {
    pub number: u8,
    /// Those that were lent, between two guards.
    counts: [Counts; 3],
    image: Image,
}

impl Outcome {
    pub fn added(&self) -> Counts {
        self.counts[1]
    }

    /// Of a preview that writes nothing.
    fn unwritten(number: u8, image: &Image, fill: Counts) -> Outcome {
        Outcome {
            number,
            counts: [GUARD, fill, GUARD],
            image: *image,
        }
    }

    /// One that is taken writes its counts alone, one that is turned down nothing.
    fn expected(answer: Result<Counts, u8>, image: &Image, fill: Counts) -> Outcome {
        match answer {
            Ok(added) => Outcome::unwritten(0, image, added),
            Err(number) => Outcome::unwritten(number, image, fill),
        }
    }

    /// What a preview writes is seen, also where it is only to read.
    fn of_library(preview: Preview, image: &Image, event: u8, fill: Counts) -> Outcome {
        let mut outcome = Outcome::unwritten(0, image, fill);
        let number = preview(&mut outcome.image, event, &mut outcome.counts[1]);
        black_box(&mut outcome).number = number;
        outcome
    }

    /// Asks that the library's outcome is another's.
    fn same(&self, whose: &str, other: &Outcome) -> Result<(), String> {
        let what = if self.number != other.number {
            "the number"
        } else if self.counts != other.counts {
            "the counts"
        } else if self.image != other.image {
            "the bytes"
        } else {
            return Ok(());
        };
        Err(format!("{what}: library {self}\n{whose} {other}"))
    }
}

impl fmt::Display for Outcome {
    fn fmt(&self, out: &mut fmt::Formatter) -> fmt::Result {
        writeln!(out, "number {}", self.number)?;
        writeln!(out, "guarded counts {}", hex(&self.counts.concat()))?;
        write!(out, "bytes {}", hex(&self.image))
    }
}

/// The peer's answer, with the counts as a library has them. Bytes that the peer has no
/// state of are none.
pub fn of_peer(peer: Option<&Scheduler>, event: u8) -> Result<Counts, u8> {
    match preview(peer.ok_or(INCOHERENT)?, event) {
        Ok(added) => Ok(added.bytes()),
        Err(reason) => Err(reason as u8),
    }
}

/// The counts of the lines that handing in added, or its number.
fn of_hand_in(number: u8, before: &Image, after: &Image) -> Result<Counts, u8> {
    if number != 0 {
        return Err(number);
    }
    let fates = [Fate::Done, Fate::Refused, Fate::Lapsed, Fate::Forced].map(number_of);
    let lines = usize::from(before[LINES])..usize::from(after[LINES]);
    let new = &after[LINE_FATE..][lines];
    Ok(fates.map(|own| new.iter().filter(|fate| **fate == own).count() as u8))
}

/// Previews an event on the bytes and on the peer's state of them, with the counts filled
/// before, and hands it in on a copy. Asks that they come to the same, and that what is
/// added is done, refused or forced. Gives the outcome and the bytes of the copy.
pub fn agree(
    library: Preview,
    image: &Image,
    peer: Option<&Scheduler>,
    event: u8,
    fill: Counts,
) -> Result<(Outcome, Image), String> {
    let outcome = Outcome::of_library(library, image, event, fill);
    let expected = Outcome::expected(of_peer(peer, event), image, fill);
    outcome.same("peer", &expected)?;
    let mut after = *image;
    let number = raw::submit(&mut after, event);
    let expected = Outcome::expected(of_hand_in(number, image, &after), image, fill);
    outcome.same("hand-in", &expected)?;
    if let (0, [done, refused, lapsed, forced]) = (outcome.number, outcome.added()) {
        let growth = after[LINES] - image[LINES];
        if (done + refused + forced, lapsed) != (growth, 0) {
            return Err(format!("{growth} lines more, {outcome}"));
        }
    }
    Ok((outcome, after))
}
