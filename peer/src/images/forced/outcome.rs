//! What one call comes to, in the library and in the peer, with the mark and without.

use crate::compare::hex;
use crate::images::brought::scheduler;
use crate::images::damaged;
use crate::images::layout::*;
use crate::images::marks::{bare, unmarked, DONE, FORCED, FORCIBLE};
use crate::library::raw;
use crate::peer::calls::{apply, Answer, Call};
use crate::peer::Scheduler;
use std::fmt;

const OPEN: u8 = 0;

/// The library's calls, or others in their place. Gives the number.
pub type Make = fn(&mut Image, Call) -> u8;

pub const LIBRARY: Make = damaged::LIBRARY.call;

/// What a call comes to.
#[derive(Clone, PartialEq, Eq)]
pub struct Outcome {
    pub number: u8,
    /// The answer to a hand-in that is taken.
    pub fate: Option<u8>,
    pub image: Image,
}

impl Outcome {
    pub fn of_library(make: Make, image: &Image, call: Call) -> Outcome {
        let mut image = *image;
        let number = make(&mut image, call);
        let fate = match (number, call) {
            (0, Call::Submit(event)) => Some(image[FATE + usize::from(event)]),
            _ => None,
        };
        Outcome {
            number,
            fate,
            image,
        }
    }

    pub fn of_peer(peer: &mut Scheduler, image: &Image, call: Call) -> Outcome {
        let mut image = *image;
        let (number, fate) = match apply(peer, call) {
            Answer::Fate(fate) => (0, Some(number(fate))),
            Answer::TurnedDown(reason) => (reason as u8, None),
            _ => (0, None),
        };
        put(&mut image, peer);
        Outcome {
            number,
            fate,
            image,
        }
    }

    /// With forced read as done.
    fn bare(&self) -> Outcome {
        Outcome {
            number: self.number,
            fate: self.fate.map(bare),
            image: unmarked(&self.image),
        }
    }

    pub fn same(&self, other: &Outcome) -> Result<(), String> {
        let what = if self.number != other.number {
            "the number"
        } else if self.fate != other.fate {
            "the answer"
        } else if self.image != other.image {
            "the bytes"
        } else {
            return Ok(());
        };
        Err(format!("{what}: {self}\nand {other}"))
    }
}

impl fmt::Display for Outcome {
    fn fmt(&self, out: &mut fmt::Formatter) -> fmt::Result {
        write!(out, "number {}, answer {:?}, ", self.number, self.fate)?;
        write!(out, "bytes {}", hex(&self.image))
    }
}

/// A state under way, in the library and in the peer, with the mark and without.
pub struct Ways {
    pub image: Image,
    bare_image: Image,
    pub peer: Scheduler,
    bare_peer: Scheduler,
}

impl Ways {
    /// From the bytes of a state, which are one without the mark as well.
    pub fn new(image: &Image) -> Result<Ways, String> {
        let bare_image = unmarked(image);
        let state = |image| match (raw::check(image), scheduler(image)) {
            (0, Some(peer)) => Ok(peer),
            (number, peer) => Err(format!("number {number}, in the peer {}", peer.is_some())),
        };
        Ok(Ways {
            image: *image,
            bare_image,
            peer: state(image)?,
            bare_peer: state(&bare_image)?.without_mark(),
        })
    }

    /// Makes the call in all ways and gives what it comes to in the library.
    pub fn call(&mut self, library: Make, call: Call) -> Result<Outcome, String> {
        let outcome = self.in_library(library, call)?;
        let own = self.in_peer(call)?;
        let agreed = outcome.same(&own);
        agreed.map_err(|what| format!("library and peer, {what}"))?;
        self.image = outcome.image;
        self.bare_image = unmarked(&outcome.image);
        Ok(outcome)
    }

    fn in_library(&self, make: Make, call: Call) -> Result<Outcome, String> {
        let outcome = Outcome::of_library(make, &self.image, call);
        let without = Outcome::of_library(make, &self.bare_image, call);
        marked_rightly(&self.image, call, &outcome.image)
            .and_then(|()| marked_rightly(&self.bare_image, call, &without.image))
            .and_then(|()| outcome.bare().same(&without.bare()))
            .map_err(|what| format!("in the library, {what}"))?;
        match raw::check(&outcome.image) {
            0 => Ok(outcome),
            number => Err(format!("number {number} after it")),
        }
    }

    fn in_peer(&mut self, call: Call) -> Result<Outcome, String> {
        let outcome = Outcome::of_peer(&mut self.peer, &self.image, call);
        let without = Outcome::of_peer(&mut self.bare_peer, &self.bare_image, call);
        marked_rightly(&self.image, call, &outcome.image)
            .and_then(|()| outcome.bare().same(&without))
            .map_err(|what| format!("in the peer, {what}"))?;
        Ok(outcome)
    }
}

/// Asks that a call forces open events that are forcible, and not the one it hands in; that
/// else it does only that one and those that were held; and that what was settled stays.
fn marked_rightly(before: &Image, call: Call, after: &Image) -> Result<(), String> {
    let [old, all] = [before, after].map(|image| usize::from(image[LINES]));
    for line in 0..all {
        let event = usize::from(after[LINE_EVENT + line]);
        let was_open = before[FATE + event] == OPEN;
        let own = call == Call::Submit(event as u8);
        let [was, is] =
            [before, after].map(|image| [image[LINE_EVENT + line], image[LINE_FATE + line]]);
        let what = match after[LINE_FATE + line] {
            fate if fate != after[FATE + event] => "not what its line says",
            _ if line < old && was != is => "settled again",
            _ if line < old => continue,
            FORCED if own => "forced by its own hand-in",
            FORCED if !was_open => "forced, and was held",
            FORCED if after[ATTRIBUTES + event] & FORCIBLE == 0 => "forced, and not forcible",
            DONE if was_open && !own => "done, and was open",
            _ => continue,
        };
        return Err(format!("event {event} is {what}"));
    }
    Ok(())
}
