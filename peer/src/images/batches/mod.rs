//! Batches, compared after every one: the number, the four bytes of every entry and
//! all bytes of the state. What the library's batch comes to has to be what the
//! peer's does, and what the library's own single calls do on the same bytes.
//!
//! A run has a first state or one that is brought, and then batches, one after
//! another, with single calls and now and then damage between them.

mod met;
mod outcome;

pub use met::Tally;
pub use outcome::{agree, one_by_one, Batch, Outcome};

use super::runs::{listed, Before, Run};
use super::FILL;
use crate::library::raw::Entry;
use crate::peer::calls::Call;
use crate::random::{batch, batch_length, single_calls, Made, Random};

/// The batches of the test.
pub const COUNT: usize = 40_000;
/// The batches that single calls and that damage comes before.
const CALLS_PERCENT: u64 = 60;
const DAMAGE_PERCENT: u64 = 12;
const MOST_BATCHES: usize = 4;
const MOST_CALLS: usize = 12;

/// Compares a library's batches with the peer's, `count` of them or a few more, up to
/// the first difference.
pub fn compare(seed: u64, count: usize, library: Batch) -> Result<Tally, String> {
    let mut random = Random::new(seed);
    let mut tally = Tally::default();
    while tally.batches < count {
        let mut run = Run::start(&mut random);
        for _ in 0..random.between(1, MOST_BATCHES) {
            let right = go_on(&mut run, &mut random, library, &mut tally);
            right.map_err(|what| format!("batch {}, {run}\n{what}", tally.batches))?;
        }
    }
    Ok(tally)
}

/// A batch, with what comes before it.
fn go_on(
    run: &mut Run,
    random: &mut Random,
    library: Batch,
    tally: &mut Tally,
) -> Result<(), String> {
    if random.percent(CALLS_PERCENT) {
        let calls = single_calls(random, &run.made);
        let count = random.below(calls.len().min(MOST_CALLS) + 1);
        for call in &calls[..count] {
            run.call(*call)?;
        }
        tally.calls += count;
    }
    if random.percent(DAMAGE_PERCENT) {
        run.damage(random);
    }
    let lent = lent(random, &run.made);
    make(run, lent, library, tally)
}

fn make(run: &mut Run, lent: Vec<Entry>, library: Batch, tally: &mut Tally) -> Result<(), String> {
    let agreed = agree(library, &run.image, run.peer.as_mut(), &lent);
    let outcome = agreed.map_err(|what| format!("entries {}\n{what}", listed(&lent)))?;
    tally.add(&outcome, run);
    let later = run.before.iter().any(Before::is_batch);
    tally.later += usize::from(later && run.peer.is_some());
    run.image = outcome.image;
    run.before.push(Before::Batch(lent));
    Ok(())
}

/// The entries of a batch, with any bytes in the place of the answers.
fn lent(random: &mut Random, made: &Made) -> Vec<Entry> {
    let length = batch_length(random);
    let entries = batch(random, made, length).into_iter();
    let filled = entries.map(|[kind, number]| Entry {
        kind,
        number,
        refused: random.byte(),
        fate: random.byte(),
    });
    filled.collect()
}

/// The calls as entries that have no answer yet. A winding up and a move of the minute are
/// no entries, and are turned down.
pub fn unanswered(calls: &[Call]) -> Vec<Entry> {
    let entry = |call: &Call| {
        let (kind, number) = match *call {
            Call::Submit(event) => (16, event),
            Call::CloseStep(step) => (17, step),
            Call::Finish => (18, 0),
            Call::Advance(minute) => (19, minute as u8),
        };
        Entry {
            kind,
            number,
            refused: FILL,
            fate: FILL,
        }
    };
    calls.iter().map(entry).collect()
}
