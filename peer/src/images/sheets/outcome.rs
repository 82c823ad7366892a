//! What writing a state as a sheet comes to, in the library and in the peer, and what has
//! to come of reading that sheet again.

use crate::compare::{difference, hex};
use crate::images::damaged::INCOHERENT;
use crate::images::layout::*;
use crate::library::{raw, STATE_LEN};
use crate::peer::write::{length, write, LONGEST};
use crate::peer::Scheduler;
use std::fmt;
use std::hint::black_box;

/// The library's writing, or another in its place: the number and the length. The bytes
/// are lent so that it could write them.
pub type Write = fn(&mut Image, &mut [u8]) -> (u8, usize);

pub const LIBRARY: Write = |image, out| raw::write_sheet(image, out);

/// Stands before and after the buffer that is lent.
const GUARD: [u8; 8] = [0xa5; 8];
const EMPTY_SHEET: &[u8] = &[5];

/// What a writing comes to.
#[derive(Clone, PartialEq, Eq)]
pub struct Outcome {
    pub number: u8,
    /// The length that is given.
    pub need: usize,
    /// What was lent, between two guards.
    buffer: Vec<u8>,
    image: Image,
}

impl Outcome {
    pub fn lent(&self) -> &[u8] {
        &self.buffer[GUARD.len()..self.buffer.len() - GUARD.len()]
    }

    /// The sheet, where it was written.
    pub fn sheet(&self) -> &[u8] {
        &self.lent()[..self.need]
    }

    /// Of a buffer that is lent with this content. All that is written is seen, also where
    /// it is only to read.
    fn of(
        write: impl FnOnce(&mut Image, &mut [u8]) -> (u8, usize),
        image: &Image,
        fill: &[u8],
    ) -> Outcome {
        let mut outcome = Outcome {
            number: 0,
            need: 0,
            buffer: [&GUARD, fill, &GUARD].concat(),
            image: *image,
        };
        let lent = &mut outcome.buffer[GUARD.len()..][..fill.len()];
        let answer = write(&mut outcome.image, lent);
        let seen = black_box(&mut outcome);
        (seen.number, seen.need) = answer;
        outcome
    }

    /// Asks that the library's outcome is the peer's.
    fn same(&self, peer: &Outcome) -> Result<(), String> {
        let what = if self.number != peer.number {
            "the number".to_string()
        } else if self.need != peer.need {
            "the length".to_string()
        } else if let Some(place) = difference(&self.buffer, &peer.buffer) {
            format!("the buffer, from {place} with {} of guard", GUARD.len())
        } else if self.image != peer.image {
            "the bytes".to_string()
        } else {
            return Ok(());
        };
        Err(format!("{what}: library {self}\npeer {peer}"))
    }
}

impl fmt::Display for Outcome {
    fn fmt(&self, out: &mut fmt::Formatter) -> fmt::Result {
        writeln!(out, "number {}, length {}", self.number, self.need)?;
        writeln!(out, "guarded buffer {}", hex(&self.buffer))?;
        write!(out, "bytes {}", hex(&self.image))
    }
}

/// The peer's number and length. Bytes that the peer has no state of are none.
pub fn of_peer(peer: Option<&Scheduler>, out: &mut [u8]) -> (u8, usize) {
    let Some(peer) = peer else {
        return (INCOHERENT, 0);
    };
    let number = write(peer, out).err().unwrap_or(0);
    (number, length(peer))
}

/// Writes the bytes and the peer's state of them into a buffer of this content. Asks that
/// they come to the same and, where a sheet is written, that it reads back.
pub fn agree(
    library: Write,
    image: &Image,
    peer: Option<&Scheduler>,
    fill: &[u8],
) -> Result<Outcome, String> {
    let outcome = Outcome::of(library, image, fill);
    outcome.same(&Outcome::of(|_, out| of_peer(peer, out), image, fill))?;
    if outcome.number == 0 {
        reads_back(library, image, outcome.sheet())?;
    }
    Ok(outcome)
}

/// Asks that the library reads a sheet as what the bytes declare, with nothing done, and
/// writes that as the same sheet.
pub fn reads_back(library: Write, image: &Image, sheet: &[u8]) -> Result<(), String> {
    let read = opened(sheet)?;
    let expected = untouched(image);
    if read != expected {
        let (read, expected) = (hex(&read), hex(&expected));
        return Err(format!("read back: {read}\nin place of {expected}"));
    }
    let again = written(library, &read)?;
    if again != sheet {
        let (again, sheet) = (hex(&again), hex(sheet));
        return Err(format!("written again: {again}\nin place of {sheet}"));
    }
    Ok(())
}

/// Asks that the library writes two sheets that declare the same as the same bytes.
pub fn written_alike(library: Write, one: &[u8], other: &[u8]) -> Result<(), String> {
    let from_one = written(library, &opened(one)?)?;
    let from_other = written(library, &opened(other)?)?;
    if from_one == from_other {
        return Ok(());
    }
    let [from_one, from_other] = [from_one, from_other].map(|sheet| hex(&sheet));
    let [one, other] = [one, other].map(hex);
    Err(format!(
        "forms: {one}\nwritten as {from_one}\nand {other}\nwritten as {from_other}"
    ))
}

/// The first state of a sheet, which has to be admitted.
fn opened(sheet: &[u8]) -> Result<Image, String> {
    let mut image = [GUARD[0]; STATE_LEN];
    match raw::open(&mut image, sheet) {
        (0, 0) => Ok(image),
        (number, offset) => Err(format!(
            "turned down by {number} at {offset}: {}",
            hex(sheet)
        )),
    }
}

/// The sheet that a library writes of a state, into as much room as any needs.
fn written(library: Write, image: &Image) -> Result<Vec<u8>, String> {
    let mut out = vec![GUARD[0]; LONGEST];
    match library(&mut image.clone(), &mut out) {
        (0, need @ ..=LONGEST) => {
            out.truncate(need);
            Ok(out)
        }
        (number, need) => Err(format!(
            "not written, number {number}, length {need}: {}",
            hex(image)
        )),
    }
}

/// A first state with the events, the rules and the windows of another state.
fn untouched(image: &Image) -> Image {
    let mut blank = first(EMPTY_SHEET);
    let mut copy = |row: usize, count: u8| {
        let places = row..row + usize::from(count);
        blank[places.clone()].copy_from_slice(&image[places]);
    };
    copy(EVENTS, 1);
    copy(RULES, 1);
    for row in [STEP, ATTRIBUTES] {
        copy(row, image[EVENTS]);
    }
    for row in [RULE_KIND, RULE_A, RULE_B, RULE_C] {
        copy(row, image[RULES]);
    }
    for row in [FROM, UNTIL] {
        copy(row, 4 * image[EVENTS]);
    }
    blank
}
