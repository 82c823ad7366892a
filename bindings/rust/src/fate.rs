//! What has become of an event.

use std::fmt;

/// What has become of an event.
///
/// More variants may come with later versions of the library. Until this crate names
/// one, it is [`Fate::Other`].
///
/// ```
/// use sinewhopa::Fate;
///
/// assert_eq!(Fate::Held.number(), 1);
/// assert_eq!(Fate::Refused.to_string(), "refused");
/// assert!(Fate::Lapsed.is_settled() && !Fate::Held.is_settled());
/// ```
#[derive(Clone, Copy, Debug, PartialEq, Eq, Hash)]
#[non_exhaustive]
pub enum Fate {
    /// It has not been handed in.
    Open,
    /// It has been handed in and waits. The answer is "not yet": the host does not carry it
    /// out, and a later call does it or refuses it. [`State::held`](crate::State::held) lists
    /// these events.
    ///
    /// It waits for another event that a rule has before it or asks for with it, or for its
    /// [`Window`](crate::Window). A conditional also asks ahead. Where one of its triggers can
    /// be neither refused nor held, and its third event cannot be forced, the other trigger
    /// waits for the third event while that one is open, and is refused once the third is
    /// refused or has lapsed.
    ///
    /// ```
    /// use sinewhopa::{Fate, State};
    ///
    /// // If 0 and 1, then 2; 1 can be neither refused nor held.
    /// let mut state = State::open(&[1, 0, 6, 1, 1, 0, 1, 2, 6, 4, 0, 1, 2, 5])?;
    /// assert_eq!(state.submit(0)?, Fate::Held); // 1 may come at any time
    /// let mut without = state.clone();
    /// assert_eq!(state.submit(2)?, Fate::Done);
    /// assert_eq!(state.fate(0), Some(Fate::Done)); // done with it
    ///
    /// without.close_step(2)?; // 2 will not come any more
    /// assert_eq!(without.fate(0), Some(Fate::Refused));
    /// assert_eq!(without.submit(1)?, Fate::Done);
    /// assert!(!without.is_broken(0));
    /// # Ok::<(), Box<dyn std::error::Error>>(())
    /// ```
    Held,
    /// It is done: the host carries it out.
    Done,
    /// It is refused.
    Refused,
    /// It was open when its step was closed.
    Lapsed,
    /// It was open, a rule asked for it, and the scheduler brought it about: no office had
    /// reported it. It counts as done for every rule. Handed in later, it stays forced.
    ///
    /// ```
    /// use sinewhopa::{Fate, State};
    ///
    /// // 0 only if 1, which may be brought about.
    /// let mut state = State::open(&[1, 0, 1, 1, 1, 1, 3, 0, 1, 5])?;
    /// assert_eq!(state.submit(0)?, Fate::Done);
    /// assert_eq!(state.fate(1), Some(Fate::Forced));
    /// assert_eq!(state.submit(1)?, Fate::Forced); // the report comes too late
    /// # Ok::<(), Box<dyn std::error::Error>>(())
    /// ```
    Forced,
    /// A fate that this crate has no name for yet, by its number.
    Other(u8),
}

impl Fate {
    /// The fate of a number.
    ///
    /// ```
    /// use sinewhopa::Fate;
    ///
    /// assert_eq!(Fate::from_number(2), Fate::Done);
    /// assert_eq!(Fate::from_number(200), Fate::Other(200));
    /// ```
    pub fn from_number(number: u8) -> Fate {
        match number {
            0 => Fate::Open,
            1 => Fate::Held,
            2 => Fate::Done,
            3 => Fate::Refused,
            4 => Fate::Lapsed,
            5 => Fate::Forced,
            _ => Fate::Other(number),
        }
    }

    /// The number that stands for it in a state's bytes.
    pub fn number(self) -> u8 {
        match self {
            Fate::Open => 0,
            Fate::Held => 1,
            Fate::Done => 2,
            Fate::Refused => 3,
            Fate::Lapsed => 4,
            Fate::Forced => 5,
            Fate::Other(number) => number,
        }
    }

    /// Neither open nor held: the event has its line in the history, and its fate
    /// never changes again.
    pub fn is_settled(self) -> bool {
        self.number() > Fate::Held.number()
    }

    /// Done or forced: the event has come about, whether an office has reported it or
    /// not. Rules make no difference between the two.
    ///
    /// ```
    /// use sinewhopa::{Fate, State};
    ///
    /// let mut state = State::open(&[1, 0, 1, 1, 1, 1, 3, 0, 1, 5])?; // 0 only if 1
    /// state.submit(0)?;
    /// assert!(state.history().all(|(_, fate)| fate.counts_as_done()));
    /// assert!(!Fate::Held.counts_as_done() && !Fate::Lapsed.counts_as_done());
    /// # Ok::<(), Box<dyn std::error::Error>>(())
    /// ```
    pub fn counts_as_done(self) -> bool {
        matches!(self, Fate::Done | Fate::Forced)
    }
}

/// The word that reports have for it.
impl fmt::Display for Fate {
    fn fmt(&self, out: &mut fmt::Formatter<'_>) -> fmt::Result {
        match self {
            Fate::Open => out.pad("open"),
            Fate::Held => out.pad("held"),
            Fate::Done => out.pad("done"),
            Fate::Refused => out.pad("refused"),
            Fate::Lapsed => out.pad("lapsed"),
            Fate::Forced => out.pad("forced"),
            Fate::Other(number) => write!(out, "fate {number}"),
        }
    }
}
