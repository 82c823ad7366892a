//! What S-8 asks for, on journals of all sorts.
//!
//! A case has a journal: a sheet with windows most often, now and then at fault, and the
//! records of calls, whole or cut, with a fault in some. The library and the peer open it,
//! and some cuts of it: the number, the offset, the leftover bytes and all bytes of the
//! state are the same. Then calls are appended to it and to parts of it, with any room: the
//! number, the new length, the offset and every byte of the buffer are the same, and what
//! was appended opens to the state after the call.
//!
//! `outcome` has the comparisons, `met` counts, and `cuts` has journals of accepted calls
//! with every cut of them.

pub mod cuts;
mod met;
mod outcome;

pub use met::Tally;
pub use outcome::{
    agree_on_append, agree_on_opening, Add, Answer, Functions, Open, Record, LIBRARY,
};

use crate::compare::hex;
use crate::random::{any_append, any_journal, Append, Random, Spoilt};
use outcome::agree_on_record;
use std::fmt;

/// The cases of the test.
pub const COUNT: usize = 32_000;
/// The appends to a journal.
const APPENDS: usize = 4;
/// As many bytes as one of the cuts loses at most.
const LAST: usize = 12;
/// The records of the test: each kind with these numbers and some more.
const NUMBERS: [u32; 10] = [0, 1, 15, 16, 255, 256, 257, 65_536, 1 << 24, u32::MAX];
const MORE_NUMBERS: usize = 500;

/// A journal and what to do with it.
pub struct Case {
    journal: Vec<u8>,
    spoilt: Spoilt,
    cuts: [usize; 2],
    appends: Vec<Append>,
}

/// Compares a library with the peer on records of all kinds and on `count` cases, up to the
/// first that is wrong.
pub fn compare(seed: u64, count: usize, library: &Functions) -> Result<Tally, String> {
    let mut random = Random::new(seed);
    let mut tally = Tally::default();
    records(&mut random, library, &mut tally)?;
    for number in 0..count {
        let case = Case::any(&mut random);
        let right = case.go_through(library, &mut tally);
        right.map_err(|what| format!("case {number}, {case}\n{what}"))?;
    }
    Ok(tally)
}

impl Case {
    fn any(random: &mut Random) -> Case {
        let (journal, spoilt) = any_journal(random);
        let lost = [journal.len(), journal.len().min(LAST)];
        let cuts = lost.map(|most| journal.len() - random.between(0, most));
        let appends = (0..APPENDS).map(|_| any_append(random, &journal));
        Case {
            spoilt,
            cuts,
            appends: appends.collect(),
            journal,
        }
    }

    fn go_through(&self, library: &Functions, tally: &mut Tally) -> Result<(), String> {
        tally.add_case(self.spoilt);
        let cuts = self.cuts.iter().map(|cut| &self.journal[..*cut]);
        for journal in cuts.chain([&self.journal[..]]) {
            let read = agree_on_opening(library, journal)?;
            tally.add_opening(journal, &read);
        }
        for asked in &self.appends {
            let Append {
                len, kind, number, ..
            } = asked;
            let answer = agree_on_append(library, asked).map_err(|what| {
                let buffer = hex(&asked.buffer);
                format!("{kind}, {number} behind {len} bytes of {buffer}\n{what}")
            })?;
            tally.add_append(asked, answer);
        }
        Ok(())
    }
}

impl fmt::Display for Case {
    fn fmt(&self, out: &mut fmt::Formatter) -> fmt::Result {
        write!(out, "journal {}", hex(&self.journal))
    }
}

fn records(random: &mut Random, library: &Functions, tally: &mut Tally) -> Result<(), String> {
    for kind in 0..=u8::MAX {
        let more: Vec<u32> = (0..MORE_NUMBERS)
            .map(|_| random.word() as u32 >> random.below(32))
            .collect();
        for number in NUMBERS.into_iter().chain(more) {
            let length = agree_on_record(library, kind, number)?;
            tally.add_record(length);
        }
    }
    Ok(())
}
