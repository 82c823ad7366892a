//! What handing in an event would settle.

use crate::raw::{ADDED_COUNTS, ADDED_DONE, ADDED_FORCED, ADDED_LAPSED, ADDED_REFUSED};

/// What handing in an event would settle, as [`State::preview`](crate::State::preview)
/// gives it: how many lines the history would get, by fate. The event itself is counted,
/// where it would not be held, and so are the held ones that would be settled with it and
/// the open ones that would be forced.
///
/// ```
/// use sinewhopa::{Preview, State};
///
/// // 1 only if 2, and 1 before 0, which comes as it comes.
/// let mut state = State::open(&[1, 0, 0, 1, 1, 6, 1, 2, 0, 3, 1, 2, 2, 1, 0, 5])?;
/// state.submit(1)?; // held, as it needs 2
/// let (done, refused) = (1, 1); // 0 itself; and 1, for which it is too late then
/// assert_eq!(state.preview(0)?, Preview { done, refused, ..Preview::default() });
/// assert_eq!(state.preview(2)?, Preview { done: 2, ..Preview::default() });
/// # Ok::<(), Box<dyn std::error::Error>>(())
/// ```
#[derive(Clone, Copy, Debug, Default, PartialEq, Eq, Hash)]
pub struct Preview {
    /// How many events would be done; those that would be forced are not among them.
    pub done: u8,
    /// How many events would be refused.
    pub refused: u8,
    /// How many events would lapse: 0, as only closing a step lets events lapse.
    pub lapsed: u8,
    /// How many events would be forced: open ones, which no office has reported and which
    /// would be brought about. The event that is handed in is never one of them.
    ///
    /// ```
    /// use sinewhopa::{Preview, State};
    ///
    /// // 0 only if 1, which may be brought about.
    /// let mut state = State::open(&[1, 0, 1, 1, 1, 1, 3, 0, 1, 5])?;
    /// let (done, forced) = (1, 1); // 0, and 1 with it
    /// assert_eq!(state.preview(0)?, Preview { done, forced, ..Preview::default() });
    /// state.submit(1)?; // reported in time
    /// assert_eq!(state.preview(0)?, Preview { done, ..Preview::default() });
    /// # Ok::<(), Box<dyn std::error::Error>>(())
    /// ```
    pub forced: u8,
}

impl Preview {
    /// The preview of the library's counts.
    pub(crate) fn from_counts(added: [u8; ADDED_COUNTS]) -> Preview {
        Preview {
            done: added[ADDED_DONE],
            refused: added[ADDED_REFUSED],
            lapsed: added[ADDED_LAPSED],
            forced: added[ADDED_FORCED],
        }
    }

    /// How many events would be settled, whatever their fates: the sum of the counts,
    /// or 255 where it is more, which it never is of a state.
    ///
    /// ```
    /// use sinewhopa::{Preview, State};
    ///
    /// let mut state = State::open(&[1, 0, 6, 1, 1, 6, 3, 0, 1, 5])?; // 0 only if 1
    /// assert_eq!(state.preview(0)?.settled(), 0); // it would be held
    /// state.submit(0)?;
    /// assert_eq!(state.preview(1)?.settled(), 2);
    /// assert_eq!(Preview { done: 3, refused: 2, ..Preview::default() }.settled(), 5);
    /// # Ok::<(), Box<dyn std::error::Error>>(())
    /// ```
    pub fn settled(self) -> u8 {
        let counts = [self.done, self.refused, self.lapsed, self.forced];
        counts.into_iter().fold(0, u8::saturating_add)
    }
}
