//! Sheets written out, compared on every state of a run: the number, the length, every
//! byte of the buffer that is lent, and all bytes of the state, which stay. What the
//! library writes has to be what the peer does. The library has to read it as what the
//! state declares, with nothing done, and to write that as the same bytes.
//!
//! A run has a first state or one that is brought, and then a list of single calls, now
//! and then with damage after one. Buffers of all lengths around the sheet's are lent at
//! the start, and some of them after every call, at times with any bytes past the counts
//! of the state. The sheet of a run is also put into other forms, which have to be written
//! alike.

mod met;
mod outcome;

pub use met::Tally;
pub use outcome::{agree, of_peer, reads_back, written_alike, Outcome, Write, LIBRARY};

use super::brought::leftovers;
use super::runs::Run;
use crate::peer::write::{length, LONGEST};
use crate::random::{longest_sheet, other_form, Random};

/// The writings of the test.
pub const COUNT: usize = 500_000;
/// The runs on a sheet that is as long as any, and the writings with bytes past the counts.
const LONGEST_PERCENT: u64 = 5;
const LEFTOVERS_PERCENT: u64 = 30;
/// The forms of a run's sheet, one made of another.
const FORMS: usize = 3;
/// The buffers that are lent after a call.
const SOME: usize = 3;

/// Compares what a library writes with what the peer does, `count` times or some more, up
/// to the first difference.
pub fn compare(seed: u64, count: usize, library: Write) -> Result<Tally, String> {
    let mut random = Random::new(seed);
    let mut tally = Tally::default();
    while tally.writings < count {
        let mut run = start(&mut random);
        let right = go_through(&mut run, &mut random, library, &mut tally);
        right.map_err(|what| format!("writing {}, {run}\n{what}", tally.writings))?;
    }
    Ok(tally)
}

fn start(random: &mut Random) -> Run {
    if random.percent(LONGEST_PERCENT) {
        return Run::open(longest_sheet(random)).expect("an admitted sheet");
    }
    Run::start(random)
}

/// The forms of the sheet, then buffers at the start and after every call. Those for bytes
/// that are no state are about as long as the sheet was before.
fn go_through(
    run: &mut Run,
    random: &mut Random,
    library: Write,
    tally: &mut Tally,
) -> Result<(), String> {
    forms(&run.made.bytes, random, library, tally)?;
    let mut usual = 0;
    let calls = run.go_through(random, |run, random| {
        usual = run.peer.as_ref().map_or(usual, length);
        let mut lengths = lengths(random, usual);
        if !run.is_at_start() {
            random.shuffle(&mut lengths);
            lengths.truncate(SOME);
        }
        let mut each = lengths.into_iter();
        each.try_for_each(|length| write(run, random, length, library, tally))
    })?;
    tally.calls += calls;
    Ok(())
}

fn forms(
    sheet: &[u8],
    random: &mut Random,
    library: Write,
    tally: &mut Tally,
) -> Result<(), String> {
    tally.add_sheet(sheet);
    let mut sheet = sheet.to_vec();
    for _ in 0..FORMS {
        let other = other_form(random, &sheet);
        written_alike(library, &sheet, &other)?;
        tally.add_form(&sheet, &other);
        sheet = other;
    }
    Ok(())
}

/// The lengths of buffers for a sheet of this length: the least, all around it, enough for
/// any sheet, and more.
fn lengths(random: &mut Random, usual: usize) -> Vec<usize> {
    let mut lengths = vec![0, 1];
    lengths.extend(usual.saturating_sub(2)..=usual + 3);
    lengths.extend([LONGEST, longer(random, usual)]);
    lengths
}

/// Longer than the sheet. Cut to one byte or to two, some would be too short.
fn longer(random: &mut Random, usual: usize) -> usize {
    match random.below(40) {
        0 => 65_536,
        1..=10 => usual + random.between(4, 40),
        _ => random.pick(&[LONGEST + 1, 255, 256, 257, 300, 384, 512, 1_000]),
    }
}

/// A writing into a buffer of any bytes.
fn write(
    run: &Run,
    random: &mut Random,
    length: usize,
    library: Write,
    tally: &mut Tally,
) -> Result<(), String> {
    let mut image = run.image;
    if run.peer.is_some() && random.percent(LEFTOVERS_PERCENT) {
        image = leftovers(random, &image);
    }
    let fill: Vec<u8> = (0..length).map(|_| random.byte()).collect();
    let agreed = agree(library, &image, run.peer.as_ref(), &fill);
    let outcome = agreed.map_err(|what| format!("{length} bytes lent: {what}"))?;
    tally.add(&outcome, run, image != run.image);
    Ok(())
}
