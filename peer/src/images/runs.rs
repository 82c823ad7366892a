//! A state under way: its bytes and the peer's state of them, from a first state or
//! from one that is brought, with single calls and damage.

use super::brought::{brought, scheduler};
use super::damaged::{damaged, INCOHERENT, LIBRARY};
use super::layout::{first, put, Image};
use crate::compare::hex;
use crate::library::raw::{self, Entry};
use crate::library::STATE_LEN;
use crate::peer::calls::{apply, split_call, Answer, Call};
use crate::peer::sheet::MOST_EVENTS;
use crate::peer::{Scheduler, Sheet};
use crate::random::{sheet, single_calls, Made, Random};
use std::fmt;

/// The runs that start with a state that is brought.
const BROUGHT_PERCENT: u64 = 35;
/// The calls of a run that is gone through, and those that damage comes after.
const MOST_CALLS: usize = 30;
const DAMAGE_PERCENT: u64 = 6;

/// Where a state comes from, which is also its place in a count.
#[derive(Clone, Copy, Debug, PartialEq, Eq)]
pub enum Origin {
    List,
    Brought,
    Damaged,
}

/// What counts call the origins.
pub const ORIGINS: [&str; 3] = ["led to", "brought", "damaged"];

/// What was done on a state.
pub enum Before {
    Call(Call),
    Damage(Box<Image>),
    Batch(Vec<Entry>),
}

impl Before {
    pub fn is_batch(&self) -> bool {
        matches!(self, Before::Batch(_))
    }
}

impl fmt::Display for Before {
    fn fmt(&self, out: &mut fmt::Formatter) -> fmt::Result {
        match self {
            Before::Call(call) => write!(out, "{call:?}"),
            Before::Damage(image) => write!(out, "bytes {}", hex(&image[..])),
            Before::Batch(lent) => write!(out, "batch {}", listed(lent)),
        }
    }
}

/// The bytes of the entries.
pub fn listed(entries: &[Entry]) -> String {
    let bytes = |entry: &Entry| hex(&[entry.kind, entry.number, entry.refused, entry.fate]);
    let words: Vec<String> = entries.iter().map(bytes).collect();
    words.join(", ")
}

/// The bytes of a state and the peer's state of them, with all that led there.
pub struct Run {
    pub made: Made,
    start: Image,
    /// What was done from the start on.
    pub before: Vec<Before>,
    pub image: Image,
    /// None where the bytes are no state.
    pub peer: Option<Scheduler>,
    pub origin: Origin,
}

impl Run {
    pub fn start(random: &mut Random) -> Run {
        if random.percent(BROUGHT_PERCENT) {
            let (made, image) = until(|| brought(random, MOST_EVENTS));
            return Run::new(made, image, scheduler(&image), Origin::Brought);
        }
        until(|| Run::open(sheet(random)))
    }

    /// From the first state of a sheet; none where that is turned down.
    pub fn open(made: Made) -> Option<Run> {
        let peer = Scheduler::new(Sheet::read(&made.bytes).ok()?);
        let image = first(&made.bytes);
        Some(Run::new(made, image, Some(peer), Origin::List))
    }

    fn new(made: Made, image: Image, peer: Option<Scheduler>, origin: Origin) -> Run {
        Run {
            made,
            start: image,
            before: Vec::new(),
            image,
            peer,
            origin,
        }
    }

    /// Looks at the state at the start and after every call of a list, now and then with
    /// damage after one, up to bytes that are no state. Gives how many calls were made.
    pub fn go_through(
        &mut self,
        random: &mut Random,
        mut look: impl FnMut(&Run, &mut Random) -> Result<(), String>,
    ) -> Result<usize, String> {
        look(self, random)?;
        let calls = single_calls(random, &self.made);
        let mut count = 0;
        for call in calls.into_iter().take(MOST_CALLS) {
            self.call(call)?;
            count += 1;
            if random.percent(DAMAGE_PERCENT) {
                self.damage(random);
            }
            look(self, random)?;
            if self.peer.is_none() {
                break;
            }
        }
        Ok(count)
    }

    /// Whether nothing was done from the start on.
    pub fn is_at_start(&self) -> bool {
        self.before.is_empty()
    }

    /// Makes a call in both and asks that it comes to the same.
    pub fn call(&mut self, call: Call) -> Result<(), String> {
        let (mut expected, mut number) = (self.image, INCOHERENT);
        if let Some(peer) = &mut self.peer {
            number = match apply(peer, call) {
                Answer::TurnedDown(reason) => reason as u8,
                _ => 0,
            };
            put(&mut expected, peer);
        }
        let got = (LIBRARY.call)(&mut self.image, call);
        if (got, &self.image) != (number, &expected) {
            let (library, peer) = (hex(&self.image), hex(&expected));
            return Err(format!(
                "{call:?}: library {got}, bytes {library}\npeer {number}, bytes {peer}"
            ));
        }
        self.before.push(Before::Call(call));
        Ok(())
    }

    pub fn damage(&mut self, random: &mut Random) {
        self.image = damaged(random, &self.image).0;
        self.peer = scheduler(&self.image);
        self.origin = Origin::Damaged;
        self.before.push(Before::Damage(Box::new(self.image)));
    }
}

impl fmt::Display for Run {
    fn fmt(&self, out: &mut fmt::Formatter) -> fmt::Result {
        writeln!(out, "sheet {}", hex(&self.made.bytes))?;
        writeln!(out, "first bytes {}", hex(&self.start))?;
        write!(out, "before:")?;
        for done in &self.before {
            write!(out, " {done};")?;
        }
        Ok(())
    }
}

/// The bytes that these calls lead to in the library, which has to take the sheet and
/// each of them.
pub fn led_to(sheet: &[u8], calls: &[u8]) -> Image {
    let (mut image, mut rest) = ([0; STATE_LEN], calls);
    assert_eq!(raw::open(&mut image, sheet), (0, 0), "{}", hex(sheet));
    while let Some((call, after)) = split_call(rest) {
        assert_eq!((LIBRARY.call)(&mut image, call), 0, "{call:?}");
        rest = after;
    }
    image
}

/// The first that is there.
fn until<T>(mut next: impl FnMut() -> Option<T>) -> T {
    loop {
        if let Some(found) = next() {
            return found;
        }
    }
}
