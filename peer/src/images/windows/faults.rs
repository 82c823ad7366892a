//! Sheets of which one record of a window is at fault: the number and the offset are known
//! from the making, and the library and the peer have to give them.

use crate::compare::{hex, missing};
use crate::images::layout::first;
use crate::images::FILL;
use crate::library::{raw, STATE_LEN};
use crate::peer::sheet::{Refused, Sheet};
use crate::random::{faulty_sheet, Fault, Faulty, Random, FAULTS};

/// The sheets of the test.
pub const COUNT: usize = 6_000;

/// The library's reader, or another in its place: the number and the offset.
pub type Open = fn(&mut [u8; STATE_LEN], &[u8]) -> (u8, usize);

/// What was met with.
#[derive(Clone, Debug, Default, PartialEq, Eq)]
pub struct Tally {
    /// Sheets by fault.
    pub faults: [usize; FAULTS.len()],
    /// Windows that stand above their event.
    pub below: usize,
    /// Faults that are not in the first record.
    pub later: usize,
}

/// Reads `count` sheets, up to the first wrong answer.
pub fn compare(seed: u64, count: usize, open: Open) -> Result<Tally, String> {
    let mut random = Random::new(seed);
    let mut tally = Tally::default();
    for _ in 0..count {
        let faulty = faulty_sheet(&mut random);
        let right = agree(&faulty, open);
        let (fault, sheet) = (faulty.fault, hex(&faulty.bytes));
        right.map_err(|what| format!("{fault:?}, sheet {sheet}: {what}"))?;
        for ((fault, _), met) in FAULTS.iter().zip(&mut tally.faults) {
            *met += usize::from(*fault == faulty.fault);
        }
        tally.below += usize::from(faulty.below);
        tally.later += usize::from(faulty.offset > 0);
    }
    Ok(tally)
}

fn agree(faulty: &Faulty, open: Open) -> Result<(), String> {
    let number = match faulty.fault {
        Fault::Cut => 1,
        _ => 15,
    };
    let offset = faulty.offset;
    let peer = Sheet::read(&faulty.bytes).err();
    if peer != Some(Refused { number, offset }) {
        return Err(format!("peer {peer:?} in place of {number} at {offset}"));
    }
    let mut image = [FILL; STATE_LEN];
    let library = open(&mut image, &faulty.bytes);
    if library != (number, offset) {
        return Err(format!(
            "library {library:?} in place of {number} at {offset}"
        ));
    }
    if image != first(&[5]) {
        return Err(format!("not the empty state: {}", hex(&image)));
    }
    Ok(())
}

pub const LIBRARY: Open = raw::open;

impl Tally {
    /// The first thing that was met fewer than `least` times.
    pub fn missing(&self, least: usize) -> Option<String> {
        let faults = FAULTS.iter().zip(self.faults);
        let mut counts: Vec<(String, usize)> = faults
            .map(|((_, name), met)| (name.to_string(), met))
            .collect();
        counts.push(("a window above its event".to_string(), self.below));
        counts.push(("a fault that is not first".to_string(), self.later));
        missing(counts, least)
    }
}
