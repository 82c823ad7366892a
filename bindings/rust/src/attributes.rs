//! The attributes of an event.

const FORCIBLE: u8 = 1;
const REJECTABLE: u8 = 2;
const DELAYABLE: u8 = 4;

/// What the scheduler may do with an event, as the sheet declares it. An event that is
/// delayable is always rejectable too. One that is neither is done whenever it is handed in:
/// nothing can stop it.
///
/// ```
/// use sinewhopa::State;
///
/// let state = State::open(&[1, 0, 6, 1, 0, 1, 5])?; // attributes 6 = 2 + 4, and 1
/// let attributes = state.attributes(0).ok_or("no such event")?;
/// assert!(attributes.is_rejectable() && attributes.is_delayable());
/// assert!(!attributes.is_forcible());
/// assert_eq!(attributes.number(), 6);
/// assert!(state.attributes(1).is_some_and(|of_1| of_1.is_forcible()));
/// # Ok::<(), Box<dyn std::error::Error>>(())
/// ```
#[derive(Clone, Copy, Debug, PartialEq, Eq, Hash)]
pub struct Attributes {
    forcible: bool,
    rejectable: bool,
    delayable: bool,
}

impl Attributes {
    /// Whether the scheduler may bring the event about by itself, where a rule asks for it
    /// and no office has reported it ([`Fate::Forced`](crate::Fate::Forced)).
    ///
    /// ```
    /// use sinewhopa::{Fate, State};
    ///
    /// let mut state = State::open(&[1, 0, 1, 1, 1, 1, 3, 0, 1, 5])?; // 0 only if 1
    /// assert!(state.attributes(1).is_some_and(|of_1| of_1.is_forcible()));
    /// state.submit(0)?;
    /// assert_eq!(state.fate(1), Some(Fate::Forced));
    /// # Ok::<(), Box<dyn std::error::Error>>(())
    /// ```
    pub fn is_forcible(self) -> bool {
        self.forcible
    }

    /// Whether the scheduler may refuse the event ([`Fate::Refused`](crate::Fate::Refused)).
    ///
    /// ```
    /// use sinewhopa::{Fate, State};
    ///
    /// // 0 before 1, which cannot wait; once 1 is done it is too late for 0.
    /// let mut state = State::open(&[1, 0, 2, 1, 1, 0, 2, 0, 1, 5])?;
    /// assert!(state.attributes(0).is_some_and(|of_0| of_0.is_rejectable()));
    /// assert_eq!(state.submit(1)?, Fate::Done);
    /// assert_eq!(state.submit(0)?, Fate::Refused);
    /// # Ok::<(), Box<dyn std::error::Error>>(())
    /// ```
    pub fn is_rejectable(self) -> bool {
        self.rejectable
    }

    /// Whether the scheduler may let the event wait ([`Fate::Held`](crate::Fate::Held)).
    ///
    /// ```
    /// use sinewhopa::{Fate, State};
    ///
    /// let mut state = State::open(&[1, 0, 6, 1, 1, 6, 2, 0, 1, 5])?; // 0 before 1
    /// assert!(state.attributes(1).is_some_and(|of_1| of_1.is_delayable()));
    /// assert_eq!(state.submit(1)?, Fate::Held);
    /// # Ok::<(), Box<dyn std::error::Error>>(())
    /// ```
    pub fn is_delayable(self) -> bool {
        self.delayable
    }

    /// The number that a sheet has for them: the sum of 1 for forcible, 2 for rejectable and
    /// 4 for delayable.
    ///
    /// ```
    /// use sinewhopa::State;
    ///
    /// let state = State::open(&[6, 0, 5])?; // start, prepare, commit and abort
    /// let numbers: Vec<u8> = state.events().map(|event| event.attributes.number()).collect();
    /// assert_eq!(numbers, [7, 0, 6, 1]);
    /// # Ok::<(), sinewhopa::SheetFault>(())
    /// ```
    pub fn number(self) -> u8 {
        let parts = [
            (self.forcible, FORCIBLE),
            (self.rejectable, REJECTABLE),
            (self.delayable, DELAYABLE),
        ];
        let values = parts.map(|(has, value)| if has { value } else { 0 });
        values.into_iter().sum()
    }

    /// The attributes of a state's byte, which is at most 7.
    pub(crate) fn from_number(number: u8) -> Attributes {
        let has = |value: u8| number & value != 0;
        Attributes {
            forcible: has(FORCIBLE),
            rejectable: has(REJECTABLE),
            delayable: has(DELAYABLE),
        }
    }
}
