//! The library's functions on bytes of any content, with its own numbers.
//!
//! [`State`](crate::State) is made of these and is what a host wants. They are
//! open for whoever keeps the bytes in a place of his own (a mapped file, a
//! record of a database): any bytes may be given, and bytes that [`check`]
//! turns down are left as they are by every call, which then gives 12.
//!
//! ```
//! use sinewhopa::raw;
//!
//! let mut state = [0; sinewhopa::STATE_LEN];
//! assert_eq!(raw::submit(&mut state, 0), 12); // no state yet
//! assert_eq!(raw::open(&mut state, &[1, 0]), (1, 0)); // a sheet that is cut
//! assert_eq!(raw::open(&mut state, &[1, 0, 6, 5]), (0, 0));
//! assert_eq!(raw::submit(&mut state, 1), 9); // no such event
//! assert_eq!(raw::submit(&mut state, 0), 0);
//! assert_eq!(raw::finish(&mut state), 11); // the step is not closed yet
//! assert_eq!(raw::close_step(&mut state, 0), 0);
//! assert_eq!(raw::close_step(&mut state, 0), 10); // it is closed already
//! assert_eq!(raw::finish(&mut state), 0);
//! assert_eq!(raw::check(&state), 0);
//! assert_eq!(raw::advance(&mut state, 870), 0); // half past two
//! assert_eq!(raw::advance(&mut state, 869), 16); // no minute comes again
//!
//! let (mut one, mut other) = ([0; 100], [0; 100]);
//! let length = raw::report(&state, 3, &mut one);
//! let calls = [16, 1, 16, 0, 18, 17, 0, 17, 0, 18];
//! assert_eq!(raw::run(&[1, 0, 6, 5], &calls, &mut other), length);
//! assert_eq!(one, other);
//! ```

use crate::STATE_LEN;
use std::mem::{align_of, size_of};

/// The kind of an entry or a record that hands in an event.
pub const HAND_IN: u8 = 16;

/// The kind of an entry or a record that closes a step.
pub const CLOSE_STEP: u8 = 17;

/// The kind of a record that winds up.
pub const FINISH: u8 = 18;

/// The kind of a record that moves the minute.
pub const ADVANCE: u8 = 19;

/// How many bytes [`record`] is lent. The longest record of a call has 5.
pub const RECORD_LEN: usize = 8;

/// Where [`preview`] writes how many lines would be done.
pub const ADDED_DONE: usize = 0;

/// Where [`preview`] writes how many lines would be refused.
pub const ADDED_REFUSED: usize = 1;

/// Where [`preview`] writes how many lines would be lapsed.
pub const ADDED_LAPSED: usize = 2;

/// Where [`preview`] writes how many lines would be forced.
pub const ADDED_FORCED: usize = 3;

/// How many counts [`preview`] writes.
pub const ADDED_COUNTS: usize = 4;

/// An entry of a batch: a call, and the answer that [`submit_all`] writes beside it.
#[repr(C)]
#[derive(Clone, Copy, Debug, Default, PartialEq, Eq, Hash)]
pub struct Entry {
    /// [`HAND_IN`] or [`CLOSE_STEP`]; an entry of another kind is turned down by 2.
    pub kind: u8,
    /// The event to hand in, or the step to close.
    pub number: u8,
    /// The answer: 0, or the number by which the entry is turned down.
    pub refused: u8,
    /// Of a hand-in that is taken, the event's fate right after this entry; else 0.
    pub fate: u8,
}

// As in the header: bytes, and nothing between them.
const _: () = assert!(size_of::<Entry>() == 4 && align_of::<Entry>() == 1);

extern "C" {
    fn sinewhopa_open(state: *mut u8, sheet: *const u8, sheet_len: usize, at: *mut usize) -> u8;
    fn sinewhopa_submit(state: *mut u8, event: u8) -> u8;
    fn sinewhopa_close_step(state: *mut u8, step: u8) -> u8;
    fn sinewhopa_finish(state: *mut u8) -> u8;
    fn sinewhopa_advance(state: *mut u8, minute: u32) -> u8;
    fn sinewhopa_submit_all(state: *mut u8, entries: *mut Entry, n: usize) -> u8;
    fn sinewhopa_preview(state: *const u8, event: u8, added: *mut u8) -> u8;
    fn sinewhopa_write_sheet(
        state: *const u8,
        out: *mut u8,
        out_len: usize,
        need: *mut usize,
    ) -> u8;
    fn sinewhopa_open_journal(
        state: *mut u8,
        journal: *const u8,
        len: usize,
        at: *mut usize,
        leftover: *mut usize,
    ) -> u8;
    fn sinewhopa_append(
        journal: *mut u8,
        room: usize,
        len: usize,
        kind: u8,
        number: u32,
        new_len: *mut usize,
        at: *mut usize,
    ) -> u8;
    fn sinewhopa_record(kind: u8, number: u32, record: *mut u8) -> usize;
    fn sinewhopa_check(state: *const u8) -> u8;
    fn sinewhopa_version() -> u16;
    fn sinewhopa_report(state: *const u8, refused: usize, out: *mut u8, out_len: usize) -> usize;
    fn sinewhopa_run(
        sheet: *const u8,
        sheet_len: usize,
        calls: *const u8,
        calls_len: usize,
        out: *mut u8,
        out_len: usize,
    ) -> usize;
}

/// Reads a sheet and writes its first state. Gives 0 and 0, or the number of the
/// fault (1 to 8, or 15) and the offset of the record; the empty state is written then.
pub fn open(state: &mut [u8; STATE_LEN], sheet: &[u8]) -> (u8, usize) {
    let mut at = 0;
    // SAFETY: `state` has the bytes of a state and `sheet` its length, neither is
    // null, and `state` and `at` are borrowed mutably, so nothing overlaps them.
    let number =
        unsafe { sinewhopa_open(state.as_mut_ptr(), sheet.as_ptr(), sheet.len(), &mut at) };
    (number, at)
}

/// Hands in an event. Gives 0, 9 or 12; the state changes only with 0.
pub fn submit(state: &mut [u8; STATE_LEN], event: u8) -> u8 {
    // SAFETY: `state` has the bytes of a state and is borrowed mutably.
    unsafe { sinewhopa_submit(state.as_mut_ptr(), event) }
}

/// Closes a step. Gives 0, 9, 10 or 12; the state changes only with 0.
pub fn close_step(state: &mut [u8; STATE_LEN], step: u8) -> u8 {
    // SAFETY: `state` has the bytes of a state and is borrowed mutably.
    unsafe { sinewhopa_close_step(state.as_mut_ptr(), step) }
}

/// Winds up. Gives 0, 11 or 12; the state changes only with 0.
pub fn finish(state: &mut [u8; STATE_LEN]) -> u8 {
    // SAFETY: `state` has the bytes of a state and is borrowed mutably.
    unsafe { sinewhopa_finish(state.as_mut_ptr()) }
}

/// Moves the minute forward, or to where it stands, and settles. Gives 0; or 12; or else 16
/// where the minute is below the state's. The state changes only with 0.
///
/// ```
/// use sinewhopa::raw;
///
/// let mut state = [0; sinewhopa::STATE_LEN];
/// assert_eq!(raw::advance(&mut state, 0), 12); // no state yet
/// // One event, with a window from the minute 870 up to, but not including, 900.
/// raw::open(&mut state, &[1, 0, 6, 7, 0, 102, 3, 0, 0, 132, 3, 0, 0, 5]);
/// assert_eq!(raw::submit(&mut state, 0), 0);
/// assert_eq!((raw::advance(&mut state, 869), state[100]), (0, 1)); // still held
/// assert_eq!((raw::advance(&mut state, 870), state[100]), (0, 2)); // done
/// assert_eq!(raw::advance(&mut state, 869), 16);
/// assert_eq!(state[172..176], [102, 3, 0, 0]); // the minute is as it was
/// ```
pub fn advance(state: &mut [u8; STATE_LEN], minute: u32) -> u8 {
    // SAFETY: `state` has the bytes of a state and is borrowed mutably.
    unsafe { sinewhopa_advance(state.as_mut_ptr(), minute) }
}

/// Makes the calls of a batch in the list's order and writes its answer into each
/// entry: 0 and, of a hand-in, the event's fate right after it; or 9, 10 or 2, and the
/// later entries still go ahead. Gives 0; or 12; or else 13 where there are more than
/// [`LONGEST_BATCH`](crate::LONGEST_BATCH) entries. With 12 and 13 neither the state
/// nor any entry is written.
///
/// ```
/// use sinewhopa::raw::{self, Entry, CLOSE_STEP, HAND_IN};
///
/// let entry = |kind, number| Entry { kind, number, ..Entry::default() };
/// let mut state = [0; sinewhopa::STATE_LEN];
/// raw::open(&mut state, &[1, 0, 6, 1, 1, 6, 2, 0, 1, 5]); // event 0 before event 1
/// let calls = [(HAND_IN, 1), (HAND_IN, 7), (18, 0), (HAND_IN, 0), (CLOSE_STEP, 1)];
/// let mut batch = calls.map(|(kind, number)| entry(kind, number));
/// assert_eq!(raw::submit_all(&mut state, &mut batch), 0);
/// // Held; no such event; no such kind; done; closed.
/// let answers = batch.map(|entry| (entry.refused, entry.fate));
/// assert_eq!(answers, [(0, 1), (9, 0), (2, 0), (0, 2), (0, 0)]);
/// assert_eq!(raw::submit_all(&mut state, &mut [entry(HAND_IN, 0); 65]), 13);
/// ```
pub fn submit_all(state: &mut [u8; STATE_LEN], entries: &mut [Entry]) -> u8 {
    // SAFETY: `state` has the bytes of a state and `entries` its length in entries of
    // the header's layout; neither is null, and both are borrowed mutably, so that
    // they do not overlap. Any bytes are an entry.
    unsafe { sinewhopa_submit_all(state.as_mut_ptr(), entries.as_mut_ptr(), entries.len()) }
}

/// Counts what handing in an event would settle at the current minute: the lines that
/// [`submit`] would add to the history, by fate. Gives 0 and writes how many would be done,
/// refused, lapsed (none, of a hand-in) and forced, which are not counted as done too; all
/// are 0 for an event that is not open any more. Or gives what [`submit`] would, 12 or 9,
/// and `added` is left as it was. The state is only read.
///
/// ```
/// use sinewhopa::raw::{self, ADDED_COUNTS, ADDED_DONE};
///
/// let mut added = [7; ADDED_COUNTS];
/// let mut state = [0; sinewhopa::STATE_LEN];
/// assert_eq!((raw::preview(&state, 0, &mut added), added), (12, [7; 4])); // no state yet
/// raw::open(&mut state, &[1, 0, 6, 1, 1, 6, 2, 0, 1, 5]); // event 0 before event 1
/// assert_eq!((raw::preview(&state, 2, &mut added), added), (9, [7; 4])); // no such event
/// assert_eq!((raw::preview(&state, 1, &mut added), added), (0, [0; 4])); // it would be held
/// raw::submit(&mut state, 1);
/// assert_eq!(raw::preview(&state, 0, &mut added), 0);
/// assert_eq!(added, [2, 0, 0, 0]); // 0 would be done, and 1 with it
/// raw::submit(&mut state, 0);
/// assert_eq!(state[3], added[ADDED_DONE]); // the history has as many lines
/// ```
pub fn preview(state: &[u8; STATE_LEN], event: u8, added: &mut [u8; ADDED_COUNTS]) -> u8 {
    // SAFETY: `state` has the bytes of a state, which are only read; `added` has its
    // four bytes and is borrowed mutably, so it does not overlap them.
    unsafe { sinewhopa_preview(state.as_ptr(), event, added.as_mut_ptr()) }
}

/// Writes the sheet that declares the state's events, rules and windows at the start of
/// `out`, and gives 0 and its length. Or gives 12 and 0; or else, where the length is more
/// than `out` has, 14 and the length. With 12 and 14 `out` is left as it was, and bytes
/// beyond the sheet always are. The state is only read.
///
/// ```
/// use sinewhopa::raw;
///
/// let mut out = [9; 8];
/// let mut state = [0; sinewhopa::STATE_LEN];
/// assert_eq!((raw::write_sheet(&state, &mut out), out), ((12, 0), [9; 8])); // no state yet
/// raw::open(&mut state, &[1, 3, 6, 5]);
/// assert_eq!(raw::write_sheet(&state, &mut []), (14, 4)); // how long it is
/// assert_eq!(raw::write_sheet(&state, &mut out), (0, 4));
/// assert_eq!(out, [1, 3, 6, 5, 9, 9, 9, 9]);
/// ```
pub fn write_sheet(state: &[u8; STATE_LEN], out: &mut [u8]) -> (u8, usize) {
    let mut need = usize::MAX;
    // SAFETY: `state` has the bytes of a state, which are only read; `out` has its length
    // and is not null; `out` and `need` are borrowed mutably, so nothing overlaps them.
    let number =
        unsafe { sinewhopa_write_sheet(state.as_ptr(), out.as_mut_ptr(), out.len(), &mut need) };
    (number, need)
}

/// Opens a journal: a sheet's bytes with a record behind them for each call that was taken.
/// Writes the state after the whole records and gives 0, the offset behind the last of them
/// and the number of bytes left over. Or gives the sheet's fault (1 to 7, or 15), its offset
/// and 0, and writes the empty state; a sheet that is cut is 1, and 8 is never given. Or
/// gives 17, the offset of a record that is no call's or that is turned down there, and 0,
/// and writes the state before it.
///
/// ```
/// use sinewhopa::raw;
///
/// let mut state = [0; sinewhopa::STATE_LEN];
/// let journal = [1, 0, 6, 5, 16, 0, 19, 102, 3, 0, 0]; // a sheet, a hand-in and a minute
/// assert_eq!(raw::open_journal(&mut state, &journal), (0, 11, 0));
/// assert_eq!(raw::open_journal(&mut state, &journal[..10]), (0, 6, 4));
/// assert_eq!(state[100], 2); // the hand-in is whole, and its event done
/// assert_eq!(raw::open_journal(&mut state, &journal[..3]), (1, 3, 0)); // the sheet is cut
/// assert_eq!(raw::open_journal(&mut state, &[1, 0, 6, 5, 16, 1]), (17, 4, 0)); // no event 1
/// ```
pub fn open_journal(state: &mut [u8; STATE_LEN], journal: &[u8]) -> (u8, usize, usize) {
    let (mut at, mut leftover) = (0, 0);
    // SAFETY: `state` has the bytes of a state and `journal` its length, neither is null,
    // and `state`, `at` and `leftover` are borrowed mutably, so nothing overlaps them.
    let number = unsafe {
        sinewhopa_open_journal(
            state.as_mut_ptr(),
            journal.as_ptr(),
            journal.len(),
            &mut at,
            &mut leftover,
        )
    };
    (number, at, leftover)
}

/// Makes a call on the journal in the first `len` bytes of a buffer, which may end in
/// leftover bytes. Writes the call's record behind the last whole one, and gives 0, the
/// journal's new length and the offset of the record; every other byte stays. `number` is
/// the event, the step or the minute; with [`FINISH`] it is not looked at. Or gives the
/// first of these that is so, with `len`, and writes nothing: 14 and 0 where `len` is more
/// than the buffer has; what [`open_journal`] gives where the journal does not open, and
/// its offset; then, with the offset behind the last whole record, 2 for another kind, 9,
/// 10, 11 or 16 for a call that is turned down, or 14 where the record does not fit.
///
/// ```
/// use sinewhopa::raw::{self, FINISH, HAND_IN};
///
/// let mut buffer = [1, 0, 6, 5, 16, 77, 77]; // a sheet, a record that is cut, and room
/// assert_eq!(raw::append(&mut buffer, 5, HAND_IN, 1), (9, 5, 4)); // no event 1
/// assert_eq!(raw::append(&mut buffer, 5, HAND_IN, 0), (0, 6, 4));
/// assert_eq!(buffer, [1, 0, 6, 5, 16, 0, 77]);
/// assert_eq!(raw::append(&mut buffer, 6, FINISH, 0), (11, 6, 6)); // the step is not closed
/// assert_eq!(raw::append(&mut buffer, 6, HAND_IN, 0), (14, 6, 6)); // no room for 2 bytes
/// assert_eq!(raw::append(&mut buffer, 8, HAND_IN, 0), (14, 8, 0)); // there are not 8 bytes
/// ```
pub fn append(journal: &mut [u8], len: usize, kind: u8, number: u32) -> (u8, usize, usize) {
    let (mut new_len, mut at) = (0, 0);
    // SAFETY: `journal` has its length and is not null, a `len` above it is turned down
    // first, and it and the two numbers are borrowed mutably, so nothing overlaps them.
    let answer = unsafe {
        sinewhopa_append(
            journal.as_mut_ptr(),
            journal.len(),
            len,
            kind,
            number,
            &mut new_len,
            &mut at,
        )
    };
    (answer, new_len, at)
}

/// Writes the record of a call at the start of `record` and gives its length: 2 of a hand-in
/// and of a closing, 1 of a winding up, 5 of a move of the minute. Gives 0 and writes nothing
/// for another kind, or for an event or a step above 255. Bytes beyond the record stay.
///
/// ```
/// use sinewhopa::raw::{self, ADVANCE, HAND_IN, RECORD_LEN};
///
/// let mut record = [9; RECORD_LEN];
/// assert_eq!(raw::record(HAND_IN, 256, &mut record), 0);
/// assert_eq!(raw::record(20, 0, &mut record), 0);
/// assert_eq!(record, [9; 8]);
/// assert_eq!(raw::record(ADVANCE, 870, &mut record), 5);
/// assert_eq!(record, [19, 102, 3, 0, 0, 9, 9, 9]);
/// ```
pub fn record(kind: u8, number: u32, record: &mut [u8; RECORD_LEN]) -> usize {
    // SAFETY: `record` has its eight bytes and is borrowed mutably.
    unsafe { sinewhopa_record(kind, number, record.as_mut_ptr()) }
}

/// Gives 0 where the bytes are those of a state that hangs together, else 12. Which states
/// of earlier versions get 12 is said at
/// [`State::from_bytes`](crate::State::from_bytes).
pub fn check(state: &[u8; STATE_LEN]) -> u8 {
    // SAFETY: `state` has the bytes of a state, which are only read.
    unsafe { sinewhopa_check(state.as_ptr()) }
}

/// The version of the library that is linked, major * 256 + minor.
/// [`version`](crate::version) has the two numbers.
///
/// ```
/// let (major, minor) = sinewhopa::version();
/// assert_eq!(sinewhopa::raw::version(), u16::from(major) * 256 + u16::from(minor));
/// ```
pub fn version() -> u16 {
    // SAFETY: the function takes nothing and reads nothing.
    unsafe { sinewhopa_version() }
}

/// Writes the report of the state, with so many calls turned down, at the start
/// of `out`, and gives its length. `out` is left as it was where the length is
/// more than it has. Where [`check`] gives 12, the length is 0.
pub fn report(state: &[u8; STATE_LEN], refused: usize, out: &mut [u8]) -> usize {
    // SAFETY: `state` has the bytes of a state, which are only read; `out` has
    // its length, is not null and is borrowed mutably, so it overlaps nothing.
    unsafe { sinewhopa_report(state.as_ptr(), refused, out.as_mut_ptr(), out.len()) }
}

/// Runs a list of calls on a sheet and writes the report at the start of `out`.
/// Gives its length; `out` is left as it was where that is more than it has.
pub fn run(sheet: &[u8], calls: &[u8], out: &mut [u8]) -> usize {
    // SAFETY: the pointers and lengths are those of live slices, never null;
    // `out` is borrowed mutably, so it overlaps neither of the others.
    unsafe {
        sinewhopa_run(
            sheet.as_ptr(),
            sheet.len(),
            calls.as_ptr(),
            calls.len(),
            out.as_mut_ptr(),
            out.len(),
        )
    }
}
