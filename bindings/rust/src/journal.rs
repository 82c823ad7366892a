//! Journals: a sheet with a record for each call, which opens again after a loss of power has
//! cut it.

use crate::raw::{self, ADVANCE, CLOSE_STEP, FINISH, HAND_IN, RECORD_LEN};
use crate::{CallFault, SheetFault, State, STATE_LEN};
use std::error::Error;
use std::fmt;
use std::ops::Range;

/// A call as a journal has it.
///
/// More variants will come, as later versions of the library have further records.
///
/// ```
/// use sinewhopa::{append_to_vec, Fate, JournalCall, State};
///
/// let mut journal = vec![1, 0, 6, 1, 0, 6, 5]; // a new journal: a sheet of two events
/// append_to_vec(&mut journal, JournalCall::Advance(870))?;
/// append_to_vec(&mut journal, JournalCall::Submit(0))?;
/// append_to_vec(&mut journal, JournalCall::CloseStep(0))?;
/// append_to_vec(&mut journal, JournalCall::Finish)?;
/// let state = State::open_journal(&journal)?.state;
/// assert_eq!((state.fate(0), state.fate(1)), (Some(Fate::Done), Some(Fate::Lapsed)));
/// # Ok::<(), Box<dyn std::error::Error>>(())
/// ```
#[derive(Clone, Copy, Debug, PartialEq, Eq, Hash)]
#[non_exhaustive]
pub enum JournalCall {
    /// Hands in an event, as [`State::submit`] does.
    Submit(u8),
    /// Closes a step, as [`State::close_step`] does.
    CloseStep(u8),
    /// Winds up, as [`State::finish`] does.
    Finish,
    /// Moves the minute, as [`State::advance`] does.
    Advance(u32),
}

impl JournalCall {
    /// The bytes of its record. A host that keeps a state makes the call on it, and stores
    /// these bytes behind the last whole record once the call is taken. Its journal is the one
    /// that [`append`] makes, and it needs no replay.
    ///
    /// ```
    /// use sinewhopa::{JournalCall, State};
    ///
    /// assert_eq!(JournalCall::CloseStep(3).record(), [17, 3]);
    /// assert_eq!(JournalCall::Finish.record(), [18]);
    /// assert_eq!(JournalCall::Advance(870).record(), [19, 102, 3, 0, 0]);
    ///
    /// let mut journal = vec![1, 0, 6, 5];
    /// let mut state = State::open_journal(&journal)?.state;
    /// state.submit(0)?;
    /// journal.extend(JournalCall::Submit(0).record());
    /// assert_eq!(State::open_journal(&journal)?.state, state);
    /// # Ok::<(), Box<dyn std::error::Error>>(())
    /// ```
    pub fn record(self) -> Vec<u8> {
        let (kind, number) = self.parts();
        let mut record = [0; RECORD_LEN];
        let length = raw::record(kind, number, &mut record);
        record.into_iter().take(length).collect()
    }

    /// Its kind and number, as the library takes them.
    fn parts(self) -> (u8, u32) {
        match self {
            JournalCall::Submit(event) => (HAND_IN, event.into()),
            JournalCall::CloseStep(step) => (CLOSE_STEP, step.into()),
            JournalCall::Finish => (FINISH, 0),
            JournalCall::Advance(minute) => (ADVANCE, minute),
        }
    }
}

/// What [`State::open_journal`] gives.
///
/// More fields may come with later versions of the library.
///
/// ```
/// use sinewhopa::{Fate, State};
///
/// // A sheet of two events; each is handed in, but of the second record a byte is lost.
/// let opened = State::open_journal(&[1, 0, 6, 1, 1, 6, 5, 16, 0, 16])?;
/// assert_eq!((opened.end, opened.leftover), (9, 1));
/// assert_eq!(opened.state.fate(0), Some(Fate::Done));
/// assert_eq!(opened.state.fate(1), Some(Fate::Open));
/// # Ok::<(), sinewhopa::JournalFault>(())
/// ```
#[derive(Clone, Debug, PartialEq, Eq, Hash)]
#[non_exhaustive]
pub struct Journal {
    /// The state after the calls of all whole records, and of no others.
    pub state: State,
    /// The offset behind the last whole record, or behind the sheet where there is none. A
    /// host cuts the stored journal back to it before it stores a new record there: then
    /// whatever a loss of power takes is at the journal's end.
    pub end: usize,
    /// How many bytes come behind it: those of a record that is cut.
    pub leftover: usize,
}

impl State {
    /// Opens a journal: a sheet's bytes and, behind them, the record of each call that was
    /// taken. A new journal is a sheet alone. A loss of power may cut a journal at any byte:
    /// behind the sheet it still opens, and no call is seen half made.
    ///
    /// ```
    /// use sinewhopa::{JournalFault, SheetFault, State};
    ///
    /// let sheet = [1, 0, 6, 5];
    /// let calls = [16, 0, 17, 0, 18]; // submit 0, close step 0, finish
    /// let journal = [&sheet[..], &calls].concat();
    /// let mut state = State::open(&sheet)?;
    /// state.submit(0)?;
    /// assert_eq!(State::open_journal(&journal[..7])?.state, state); // a cut in the closing
    /// state.close_step(0)?;
    /// state.finish()?;
    /// assert_eq!(State::open_journal(&journal)?.state, state);
    ///
    /// let fault = State::open_journal(&journal[..3]).unwrap_err(); // a cut in the sheet
    /// assert_eq!(fault, JournalFault::Sheet(SheetFault::Cut { at: 3 }));
    /// # Ok::<(), Box<dyn std::error::Error>>(())
    /// ```
    pub fn open_journal(journal: &[u8]) -> Result<Journal, JournalFault> {
        let mut bytes = [0; STATE_LEN];
        let (number, at, leftover) = raw::open_journal(&mut bytes, journal);
        let state = State::written(bytes);
        match number {
            0 => Ok(Journal {
                state,
                end: at,
                leftover,
            }),
            BAD_RECORD => Err(JournalFault::BadRecord {
                at,
                before: Box::new(state),
            }),
            _ => Err(JournalFault::Sheet(SheetFault::from_number(number, at))),
        }
    }
}

/// Makes a call on the journal in the first `len` bytes of a buffer, which may end in leftover
/// bytes: writes the call's record behind the last whole one, over leftover bytes. Gives where
/// it is written; the end of that is the journal's new length. No other byte changes, and none
/// at all where there is a fault. The journal then opens to the state after the call.
///
/// A host cuts the stored journal back to the start of the range, and then stores the range's
/// bytes there. It carries out what the call has settled once they are stored.
///
/// Each time, the journal is opened for this. A host that keeps a state makes the call on it
/// and stores [`JournalCall::record`].
///
/// ```
/// use sinewhopa::{append, AppendFault, CallFault, Fate, JournalCall, State};
///
/// let mut buffer = [1, 0, 6, 5, 16, 0, 0, 0]; // a sheet, and a record that is cut
/// let none = append(&mut buffer, 5, JournalCall::Submit(1));
/// assert_eq!(none, Err(AppendFault::Call(CallFault::Unknown)));
/// assert_eq!(append(&mut buffer, 5, JournalCall::CloseStep(0))?, 4..6);
/// assert_eq!(buffer, [1, 0, 6, 5, 17, 0, 0, 0]);
/// let opened = State::open_journal(&buffer[..6])?;
/// assert_eq!((opened.state.fate(0), opened.leftover), (Some(Fate::Lapsed), 0));
///
/// let minute = append(&mut buffer, 6, JournalCall::Advance(870));
/// assert_eq!(minute, Err(AppendFault::NoRoom { need: 11 }));
/// # Ok::<(), Box<dyn std::error::Error>>(())
/// ```
pub fn append(
    buffer: &mut [u8],
    len: usize,
    call: JournalCall,
) -> Result<Range<usize>, AppendFault> {
    let (kind, number) = call.parts();
    match raw::append(buffer, len, kind, number) {
        (0, new_len, at) => Ok(at..new_len),
        (number, ..) => Err(append_fault(number, buffer.get(..len), call)),
    }
}

/// Makes a call on a journal that grows: as [`append`], with room for the record. Gives where
/// the record is written, which is the journal's end then. Leftover bytes are cut off only
/// where it is written: with a fault the journal stays as it is.
///
/// ```
/// use sinewhopa::{append_to_vec, JournalCall};
///
/// let mut journal = vec![1, 0, 6, 5, 19, 102, 3]; // a sheet, and a record that is cut
/// assert!(append_to_vec(&mut journal, JournalCall::Finish).is_err()); // step 0 is not closed
/// assert_eq!(journal, [1, 0, 6, 5, 19, 102, 3]);
/// assert_eq!(append_to_vec(&mut journal, JournalCall::Submit(0))?, 4..6);
/// assert_eq!(journal, [1, 0, 6, 5, 16, 0]);
/// # Ok::<(), sinewhopa::AppendFault>(())
/// ```
pub fn append_to_vec(
    journal: &mut Vec<u8>,
    call: JournalCall,
) -> Result<Range<usize>, AppendFault> {
    let len = journal.len();
    journal.resize(len + RECORD_LEN, 0);
    let written = append(journal, len, call);
    journal.truncate(written.as_ref().map_or(len, |record| record.end));
    written
}

/// The number of a bad record.
const BAD_RECORD: u8 = 17;

/// Why a call on a journal was turned down by this number: the journal is looked at again.
/// There is none where the stated length is more than the buffer has.
fn append_fault(number: u8, journal: Option<&[u8]>, call: JournalCall) -> AppendFault {
    let Some(journal) = journal else {
        return AppendFault::Length;
    };
    match (State::open_journal(journal), CallFault::from_number(number)) {
        (Err(fault), _) => AppendFault::Journal(fault),
        (Ok(opened), CallFault::NoRoom) => AppendFault::NoRoom {
            need: opened.end + call.record().len(),
        },
        (Ok(_), fault) => AppendFault::Call(fault),
    }
}

/// Why a journal does not open.
///
/// More variants may come with later versions of the library.
///
/// ```
/// use sinewhopa::{Fate, JournalFault, State};
///
/// // A sheet, event 0 handed in, and a kind that is no call's.
/// let fault = State::open_journal(&[1, 0, 6, 5, 16, 0, 99, 16, 0]).unwrap_err();
/// assert_eq!((fault.number(), fault.offset()), (17, 6));
/// let said = "a record that is no call's, or a call that the state there turns down, \
///             at offset 6 of the journal";
/// assert_eq!(fault.to_string(), said);
/// let JournalFault::BadRecord { before, .. } = fault else {
///     panic!("a bad record");
/// };
/// assert_eq!(before.fate(0), Some(Fate::Done));
/// ```
#[derive(Clone, Debug, PartialEq, Eq, Hash)]
#[non_exhaustive]
pub enum JournalFault {
    /// 1 to 7, or 15: the sheet's fault. One that is cut is among them, but never one that
    /// bytes follow.
    Sheet(SheetFault),
    /// 17: a kind byte that is no call's, also as the last byte, or a whole record of a call
    /// that the state there turns down. No cut leads to it.
    BadRecord {
        /// The offset of the record.
        at: usize,
        /// The state before it.
        before: Box<State>,
    },
}

impl JournalFault {
    /// The number that the C interface has for it.
    ///
    /// ```
    /// use sinewhopa::State;
    ///
    /// assert_eq!(State::open_journal(&[]).unwrap_err().number(), 1);
    /// assert_eq!(State::open_journal(&[5, 5]).unwrap_err().number(), 17);
    /// ```
    pub fn number(&self) -> u8 {
        match self {
            JournalFault::Sheet(fault) => fault.number(),
            JournalFault::BadRecord { .. } => BAD_RECORD,
        }
    }

    /// The offset of the record in the journal, whose sheet begins at 0.
    ///
    /// ```
    /// use sinewhopa::State;
    ///
    /// assert_eq!(State::open_journal(&[1, 0, 6]).unwrap_err().offset(), 3);
    /// assert_eq!(State::open_journal(&[5, 5]).unwrap_err().offset(), 1);
    /// ```
    pub fn offset(&self) -> usize {
        match self {
            JournalFault::Sheet(fault) => fault.offset(),
            JournalFault::BadRecord { at, .. } => *at,
        }
    }
}

impl fmt::Display for JournalFault {
    fn fmt(&self, out: &mut fmt::Formatter<'_>) -> fmt::Result {
        match self {
            JournalFault::Sheet(fault) => fault.fmt(out),
            JournalFault::BadRecord { at, .. } => write!(
                out,
                "a record that is no call's, or a call that the state there turns down, \
                 at offset {at} of the journal"
            ),
        }
    }
}

impl Error for JournalFault {}

/// Why [`append`] does not write a record. Every byte is as it was before. Where more than one
/// would apply, it is the first of them here.
///
/// More variants may come with later versions of the library.
///
/// ```
/// use sinewhopa::{append, AppendFault, CallFault, JournalCall};
///
/// let fault = |len, call| append(&mut [1, 0, 6, 5], len, call).unwrap_err();
/// assert_eq!(fault(5, JournalCall::Submit(0)), AppendFault::Length);
/// assert_eq!(fault(3, JournalCall::Submit(0)).number(), 1); // a cut in the sheet
/// let unknown = fault(4, JournalCall::Submit(1));
/// assert_eq!(unknown, AppendFault::Call(CallFault::Unknown));
/// assert_eq!(unknown.to_string(), "no such event, or a step without events");
/// assert_eq!(fault(4, JournalCall::Submit(0)), AppendFault::NoRoom { need: 6 });
/// ```
#[derive(Clone, Debug, PartialEq, Eq, Hash)]
#[non_exhaustive]
pub enum AppendFault {
    /// 14: the stated length of the journal is more than the buffer has.
    Length,
    /// The journal does not open.
    Journal(JournalFault),
    /// The state after the journal turns the call down.
    Call(CallFault),
    /// 14: the record does not fit into the buffer, behind the last whole one.
    NoRoom {
        /// How many bytes the buffer has to have for it.
        need: usize,
    },
}

impl AppendFault {
    /// The number that the C interface has for it. [`AppendFault::Length`] and
    /// [`AppendFault::NoRoom`] share theirs.
    ///
    /// ```
    /// use sinewhopa::{AppendFault, CallFault};
    ///
    /// assert_eq!(AppendFault::Length.number(), 14);
    /// assert_eq!(AppendFault::NoRoom { need: 6 }.number(), 14);
    /// assert_eq!(AppendFault::Call(CallFault::Backward).number(), 16);
    /// ```
    pub fn number(&self) -> u8 {
        match self {
            AppendFault::Journal(fault) => fault.number(),
            AppendFault::Call(fault) => fault.number(),
            AppendFault::Length | AppendFault::NoRoom { .. } => CallFault::NoRoom.number(),
        }
    }
}

impl fmt::Display for AppendFault {
    fn fmt(&self, out: &mut fmt::Formatter<'_>) -> fmt::Result {
        match self {
            AppendFault::Length => {
                out.write_str("a stated length of the journal above the buffer's")
            }
            AppendFault::Journal(fault) => fault.fmt(out),
            AppendFault::Call(fault) => fault.fmt(out),
            AppendFault::NoRoom { need } => {
                write!(
                    out,
                    "a lent buffer that is too short: {need} bytes are needed"
                )
            }
        }
    }
}

impl Error for AppendFault {}
