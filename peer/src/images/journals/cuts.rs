//! Journals of accepted calls, cut at every place: what remains opens to the state after
//! exactly the calls whose records are whole, and a cut inside the sheet gives 1. The states
//! come from single calls.

use super::outcome::{Functions, Opening};
use crate::compare::{hex, missing, numbered};
use crate::peer::calls::apply;
use crate::peer::journal::record;
use crate::peer::sheet::records;
use crate::peer::{Scheduler, Sheet};
use crate::random::{kept_journal, Kept, Random};

/// The journals of the test.
pub const COUNT: usize = 600;

/// What was met with.
#[derive(Clone, Debug, Default, PartialEq, Eq)]
pub struct Tally {
    /// Cuts inside the sheet.
    pub in_sheet: usize,
    /// Cuts that leave so many bytes over; the first are behind a whole record, or behind
    /// the sheet.
    pub leftovers: [usize; 5],
    /// Calls that change nothing.
    pub idle: usize,
}

impl Tally {
    /// The first thing that was met fewer than `least` times.
    pub fn missing(&self, least: usize) -> Option<String> {
        let mut counts = numbered("cuts that leave over", &self.leftovers, 0);
        counts.push(("cuts inside the sheet".to_string(), self.in_sheet));
        counts.push(("calls that change nothing".to_string(), self.idle));
        missing(counts, least)
    }
}

/// Opens every cut of `count` journals, up to the first that is wrong.
pub fn compare(seed: u64, count: usize, library: &Functions) -> Result<Tally, String> {
    let mut random = Random::new(seed);
    let mut tally = Tally::default();
    for _ in 0..count {
        let kept = kept_journal(&mut random);
        let journal = kept.bytes();
        in_sheet(&kept.sheet, library, &mut tally)
            .and_then(|()| in_records(&kept, &journal, library, &mut tally))
            .map_err(|what| format!("journal {}: {what}", hex(&journal)))?;
    }
    Ok(tally)
}

/// A cut inside the sheet gives 1 at the record that is cut or missing.
fn in_sheet(sheet: &[u8], library: &Functions, tally: &mut Tally) -> Result<(), String> {
    let mut at = 0;
    // The end is a record of one byte.
    for length in records(sheet).into_iter().map(<[u8]>::len).chain([1]) {
        for cut in at..at + length {
            Opening::empty(1, at).is_of(library, &sheet[..cut])?;
            tally.in_sheet += 1;
        }
        at += length;
    }
    assert_eq!(at, sheet.len(), "a sheet's records and its end");
    Ok(())
}

fn in_records(
    kept: &Kept,
    journal: &[u8],
    library: &Functions,
    tally: &mut Tally,
) -> Result<(), String> {
    let mut peer = Scheduler::new(Sheet::read(&kept.sheet).expect("an admitted sheet"));
    let mut at = kept.sheet.len();
    let lengths = kept.calls.iter().map(|call| record(*call).len());
    // Behind the last record there is nothing to cut.
    for (place, length) in lengths.chain([1]).enumerate() {
        for leftover in 0..length {
            let cut = &journal[..at + leftover];
            let opening = Opening::new((0, at, leftover), cut, &peer);
            opening.is_of(library, cut)?;
            tally.leftovers[leftover] += 1;
        }
        at += length;
        if let Some(call) = kept.calls.get(place) {
            let before = *peer.state();
            apply(&mut peer, *call);
            tally.idle += usize::from(*peer.state() == before);
        }
    }
    Ok(())
}
