//! Why a sheet or a call is turned down.

use std::error::Error;
use std::fmt;

/// Why a sheet is turned down, with the offset of the record at fault.
///
/// More variants may come with later versions of the library.
///
/// ```
/// use sinewhopa::{SheetFault, State};
///
/// // Event 0 is forcible alone, so that "0 only if 1" cannot be enforced.
/// let fault = State::open(&[1, 0, 1, 1, 1, 6, 3, 0, 1, 5]).unwrap_err();
/// assert_eq!(fault, SheetFault::Unenforceable { at: 6 });
/// assert_eq!((fault.number(), fault.offset()), (7, 6));
/// assert_eq!(fault.to_string(), "a rule that cannot be enforced, at offset 6 of the sheet");
/// ```
#[derive(Clone, Copy, Debug, PartialEq, Eq, Hash)]
#[non_exhaustive]
pub enum SheetFault {
    /// 1: the bytes run out before the end record is whole.
    Cut {
        /// The offset of the record that is cut.
        at: usize,
    },
    /// 2: a kind of record that there is not.
    BadKind {
        /// The offset of the record.
        at: usize,
    },
    /// 3: a seventeenth event or rule.
    Full {
        /// The offset of the record that declares it.
        at: usize,
    },
    /// 4: a step above 7.
    BadStep {
        /// The offset of the event's record.
        at: usize,
    },
    /// 5: attributes above 7, or delayable without rejectable.
    BadAttributes {
        /// The offset of the event's record.
        at: usize,
    },
    /// 6: a rule with an event that no record before it declares, or with one twice.
    BadNames {
        /// The offset of the rule's record.
        at: usize,
    },
    /// 7: a rule that cannot be enforced.
    Unenforceable {
        /// The offset of the rule's record.
        at: usize,
    },
    /// 8: bytes after the end record.
    Extra {
        /// The offset of the first of them.
        at: usize,
    },
    /// 15: a window of an event that no record before it declares, that is not delayable or
    /// that has one already; or a window with no minute in it.
    BadWindow {
        /// The offset of the window's record.
        at: usize,
    },
    /// A number that this crate has no name for yet.
    Other {
        /// The number.
        number: u8,
        /// The offset of the record.
        at: usize,
    },
}

impl SheetFault {
    /// The fault of a number, at an offset.
    ///
    /// ```
    /// use sinewhopa::SheetFault;
    ///
    /// assert_eq!(SheetFault::from_number(1, 3), SheetFault::Cut { at: 3 });
    /// assert_eq!(SheetFault::from_number(77, 3), SheetFault::Other { number: 77, at: 3 });
    /// ```
    pub fn from_number(number: u8, at: usize) -> SheetFault {
        match number {
            1 => SheetFault::Cut { at },
            2 => SheetFault::BadKind { at },
            3 => SheetFault::Full { at },
            4 => SheetFault::BadStep { at },
            5 => SheetFault::BadAttributes { at },
            6 => SheetFault::BadNames { at },
            7 => SheetFault::Unenforceable { at },
            8 => SheetFault::Extra { at },
            15 => SheetFault::BadWindow { at },
            _ => SheetFault::Other { number, at },
        }
    }

    /// The number that the report and the C interface have for it.
    pub fn number(self) -> u8 {
        self.parts().0
    }

    /// The offset of the record in the sheet.
    pub fn offset(self) -> usize {
        self.parts().1
    }

    fn parts(self) -> (u8, usize) {
        match self {
            SheetFault::Cut { at } => (1, at),
            SheetFault::BadKind { at } => (2, at),
            SheetFault::Full { at } => (3, at),
            SheetFault::BadStep { at } => (4, at),
            SheetFault::BadAttributes { at } => (5, at),
            SheetFault::BadNames { at } => (6, at),
            SheetFault::Unenforceable { at } => (7, at),
            SheetFault::Extra { at } => (8, at),
            SheetFault::BadWindow { at } => (15, at),
            SheetFault::Other { number, at } => (number, at),
        }
    }
}

impl fmt::Display for SheetFault {
    fn fmt(&self, out: &mut fmt::Formatter<'_>) -> fmt::Result {
        let why = match self {
            SheetFault::Cut { .. } => "the bytes run out before the end record is whole",
            SheetFault::BadKind { .. } => "a kind of record that there is not",
            SheetFault::Full { .. } => "a seventeenth event or rule",
            SheetFault::BadStep { .. } => "a step above 7",
            SheetFault::BadAttributes { .. } => {
                "attributes above 7, or delayable without rejectable"
            }
            SheetFault::BadNames { .. } => {
                "a rule with an event that is not declared, or with one twice"
            }
            SheetFault::Unenforceable { .. } => "a rule that cannot be enforced",
            SheetFault::Extra { .. } => "bytes after the end record",
            SheetFault::BadWindow { .. } => {
                "a window that is empty, or that its event may not have"
            }
            SheetFault::Other { number, .. } => return other(out, *number, self.offset()),
        };
        write!(out, "{why}, at offset {} of the sheet", self.offset())
    }
}

fn other(out: &mut fmt::Formatter<'_>, number: u8, at: usize) -> fmt::Result {
    write!(
        out,
        "turned down by number {number}, at offset {at} of the sheet"
    )
}

impl Error for SheetFault {}

/// Why a call, a whole batch or a buffer that is lent for a sheet is turned down. The
/// state is as it was before it.
///
/// More variants will come, as later versions of the library have further
/// numbers. Until this crate names one, it is [`CallFault::Other`].
///
/// ```
/// use sinewhopa::{CallFault, State};
///
/// let mut state = State::open(&[1, 0, 6, 5])?;
/// assert_eq!(state.finish(), Err(CallFault::NotClosed));
/// assert_eq!(CallFault::NotClosed.number(), 11);
/// assert_eq!(CallFault::NotClosed.to_string(), "a step with events is not closed yet");
/// # Ok::<(), Box<dyn std::error::Error>>(())
/// ```
#[derive(Clone, Copy, Debug, PartialEq, Eq, Hash)]
#[non_exhaustive]
pub enum CallFault {
    /// 2: an entry of a kind that there is not; a [`Call`](crate::Call) never is one. Also a
    /// call on a journal, of such a kind; a [`JournalCall`](crate::JournalCall) never is one.
    BadKind,
    /// 9: there is no such event, or the step to close has no event.
    Unknown,
    /// 10: the step is closed already.
    AlreadyClosed,
    /// 11: a step with events is not closed yet, so that nothing can be wound up.
    NotClosed,
    /// 12: the bytes are not those of a state that hangs together. Some that an earlier version
    /// of the library has stored are among them: see
    /// [`State::from_bytes`](crate::State::from_bytes).
    Incoherent,
    /// 13: more entries than a batch may have.
    TooLong,
    /// 14: a lent buffer that is too short. It is as it was before.
    NoRoom,
    /// 16: a minute below the current one.
    Backward,
    /// A number that this crate has no name for yet.
    Other(u8),
}

impl CallFault {
    /// The fault of a number.
    ///
    /// ```
    /// use sinewhopa::CallFault;
    ///
    /// assert_eq!(CallFault::from_number(10), CallFault::AlreadyClosed);
    /// assert_eq!(CallFault::from_number(77), CallFault::Other(77));
    /// ```
    pub fn from_number(number: u8) -> CallFault {
        match number {
            2 => CallFault::BadKind,
            9 => CallFault::Unknown,
            10 => CallFault::AlreadyClosed,
            11 => CallFault::NotClosed,
            12 => CallFault::Incoherent,
            13 => CallFault::TooLong,
            14 => CallFault::NoRoom,
            16 => CallFault::Backward,
            _ => CallFault::Other(number),
        }
    }

    /// The number that the C interface has for it.
    pub fn number(self) -> u8 {
        match self {
            CallFault::BadKind => 2,
            CallFault::Unknown => 9,
            CallFault::AlreadyClosed => 10,
            CallFault::NotClosed => 11,
            CallFault::Incoherent => 12,
            CallFault::TooLong => 13,
            CallFault::NoRoom => 14,
            CallFault::Backward => 16,
            CallFault::Other(number) => number,
        }
    }
}

impl fmt::Display for CallFault {
    fn fmt(&self, out: &mut fmt::Formatter<'_>) -> fmt::Result {
        match self {
            CallFault::BadKind => out.write_str("a kind of entry that there is not"),
            CallFault::Unknown => out.write_str("no such event, or a step without events"),
            CallFault::AlreadyClosed => out.write_str("the step is closed already"),
            CallFault::NotClosed => out.write_str("a step with events is not closed yet"),
            CallFault::Incoherent => {
                out.write_str("the bytes are not those of a state that hangs together")
            }
            CallFault::TooLong => out.write_str("more entries than a batch may have"),
            CallFault::NoRoom => out.write_str("a lent buffer that is too short"),
            CallFault::Backward => out.write_str("a minute below the current one"),
            CallFault::Other(number) => write!(out, "turned down by number {number}"),
        }
    }
}

impl Error for CallFault {}
