//! Sinewhopa, a proved scheduler, for hosts in Rust.
//!
//! A host opens a [`State`] for each of its plans, hands in events as they are reported to
//! it, closes steps and winds up; it may store the state's 384 bytes after each call and go
//! on from them after a restart. It hands in an event to ask, and carries the event out only
//! once it is done; [`State::settled_since`] says which events a call has settled, as one call
//! can settle several. What the plan declares is read by [`State::events`], [`State::steps`]
//! and [`State::rules`].
//!
//! Replies that come together are handed in together, by [`State::submit_all`]. What an event
//! would settle can be asked before it is handed in, by [`State::preview`]. An event with a
//! [`Window`] is done only within its minutes; the host says what minute it is, by
//! [`State::advance`]. Events that no office has reported and that the scheduler has brought
//! about are [`Fate::Forced`]. An event may also have to wait ahead of a report that nobody
//! can stop: [`Fate::Held`] says when. The sheet that a colleague is to start from is written
//! by [`State::to_sheet`]. [`run`] makes a whole list of calls on a sheet in one go. What
//! sheets and calls are, byte by byte, and what each call does is in the repository's
//! `docs/SHEETS.md`.
//!
//! In place of the state, a host may store a journal: the sheet's bytes, and a record behind
//! them for each call. A loss of power may cut it at any byte behind the sheet:
//! [`State::open_journal`] gives the state after the calls of all whole records. [`append`]
//! makes a call on a journal; [`JournalCall::record`] gives the bytes to a host that keeps the
//! state too.
//!
//! ```
//! use sinewhopa::{Fate, State};
//!
//! let sheet = [1, 0, 6, 1, 1, 6, 2, 0, 1, 5]; // event 0 before event 1
//! let mut state = State::open(&sheet)?;
//! assert_eq!(state.submit(1)?, Fate::Held); // not yet: it waits for 0
//!
//! let stored = *state.as_bytes();
//! let mut state = State::from_bytes(&stored)?;
//! let before = state.line_count();
//! assert_eq!(state.submit(0)?, Fate::Done);
//! for (event, fate) in state.settled_since(before) {
//!     println!("{event} {fate}"); // 0 done, 1 done: both can be carried out now
//! }
//! assert_eq!(state.fate(1), Some(Fate::Done));
//! # Ok::<(), Box<dyn std::error::Error>>(())
//! ```
//!
//! Nothing here panics, whatever it is given. The library keeps nothing between
//! calls; states may be used from any thread.

#![warn(missing_docs)]
#![deny(unsafe_code)]

mod attributes;
mod batch;
mod event;
mod fate;
mod faults;
mod history;
mod journal;
mod layout;
mod preview;
#[allow(unsafe_code)]
pub mod raw;
mod rule;
mod state;
mod step;
mod window;

pub use attributes::Attributes;
pub use batch::{Answer, Call};
pub use event::Event;
pub use fate::Fate;
pub use faults::{CallFault, SheetFault};
pub use journal::{append, append_to_vec};
pub use journal::{AppendFault, Journal, JournalCall, JournalFault};
pub use preview::Preview;
pub use rule::{Form, Rule};
pub use state::State;
pub use step::Step;
pub use window::Window;

/// The bytes of a state.
pub const STATE_LEN: usize = 384;

/// No report is longer.
pub const LONGEST_REPORT: usize = 320;

/// No batch has more entries.
pub const LONGEST_BATCH: usize = 64;

/// No sheet that is written is longer.
pub const LONGEST_SHEET: usize = 273;

/// The version of the library that is linked: its major and its minor number. A later minor
/// number reads every state that an earlier one of the same major number has stored, or
/// turns it down with 12; see `docs/STORING.md` in the repository.
///
/// ```
/// assert_eq!(sinewhopa::version().0, 1);
/// ```
pub fn version() -> (u8, u8) {
    let [minor, major] = raw::version().to_le_bytes();
    (major, minor)
}

/// Runs a list of calls on a sheet and gives the report, which is what the runner
/// prints. Any bytes may be given as either.
///
/// ```
/// let sheet = [1, 0, 6, 1, 1, 6, 2, 0, 1, 3, 0, 1, 5];
/// let report = sinewhopa::run(&sheet, &[16, 0, 16, 1]);
/// let lines = "events 2 rules 2\n0 done\n1 done\nheld 0\nbroken 0\nrefused calls 0\n";
/// assert_eq!(report, lines.as_bytes());
/// assert_eq!(sinewhopa::run(&[], &[]), b"refused 1 at 0\n");
/// ```
pub fn run(sheet: &[u8], calls: &[u8]) -> Vec<u8> {
    filled(|out| raw::run(sheet, calls, out))
}

/// Runs a list of calls on a sheet, writes the report at the start of `out` and
/// gives its length. Where that is more than `out` has, `out` is left as it was;
/// [`LONGEST_REPORT`] bytes are always enough.
///
/// ```
/// let mut out = [0; sinewhopa::LONGEST_REPORT];
/// let length = sinewhopa::run_into(&[], &[], &mut out);
/// assert_eq!(&out[..length], b"refused 1 at 0\n");
/// assert_eq!(sinewhopa::run_into(&[], &[], &mut []), length);
/// ```
pub fn run_into(sheet: &[u8], calls: &[u8], out: &mut [u8]) -> usize {
    raw::run(sheet, calls, out)
}

/// What `write` writes at the start of a buffer that is as long as it asks for.
fn filled(write: impl Fn(&mut [u8]) -> usize) -> Vec<u8> {
    let mut out = vec![0; LONGEST_REPORT];
    let mut length = write(&mut out);
    if length > out.len() {
        out.resize(length, 0);
        length = write(&mut out);
    }
    out.truncate(length);
    out
}
