//! The history, and what a call has added to it.

use crate::layout::{self, row};
use crate::{Fate, State};

impl State {
    /// The settled events and how each was settled, the oldest first. It only ever
    /// grows at its end.
    ///
    /// ```
    /// use sinewhopa::{Fate, State};
    ///
    /// let mut state = State::open(&[1, 0, 6, 1, 1, 6, 5])?;
    /// state.close_step(1)?;
    /// state.submit(0)?;
    /// let history: Vec<(u8, Fate)> = state.history().collect();
    /// assert_eq!(history, [(1, Fate::Lapsed), (0, Fate::Done)]);
    /// # Ok::<(), Box<dyn std::error::Error>>(())
    /// ```
    pub fn history(&self) -> impl Iterator<Item = (u8, Fate)> + '_ {
        let lines = self.as_bytes()[layout::LINES];
        let events = row(self.as_bytes(), layout::LINE_EVENT, lines).iter();
        let fates = row(self.as_bytes(), layout::LINE_FATE, lines).iter();
        let lines = events.zip(fates);
        lines.map(|(event, fate)| (*event, Fate::from_number(*fate)))
    }

    /// What has been settled since the history had so many lines, the oldest first: what the
    /// calls in between have settled. A host asks for [`State::line_count`] before a call and
    /// for this after it. The event that it has handed in may be held, and so not among them;
    /// events that were held before may be.
    ///
    /// The count may be stored beside the state and used after a restart, as no line is ever
    /// changed or taken away. For a count that is higher than the history's own, nothing has
    /// been settled since.
    ///
    /// ```
    /// use sinewhopa::{Fate, State};
    ///
    /// let mut state = State::open(&[1, 0, 6, 1, 1, 6, 2, 0, 1, 5])?; // 0 before 1
    /// let before = state.line_count();
    /// assert_eq!(state.submit(1)?, Fate::Held); // not yet: it waits for 0
    /// assert_eq!(state.settled_since(before).count(), 0);
    ///
    /// let before = state.line_count();
    /// state.submit(0)?;
    /// let settled: Vec<(u8, Fate)> = state.settled_since(before).collect();
    /// assert_eq!(settled, [(0, Fate::Done), (1, Fate::Done)]); // 0, and 1 with it
    /// # Ok::<(), Box<dyn std::error::Error>>(())
    /// ```
    pub fn settled_since(&self, line_count: usize) -> impl Iterator<Item = (u8, Fate)> + '_ {
        self.history().skip(line_count)
    }

    /// How many lines the history has, at most 16: one for each settled event.
    ///
    /// ```
    /// use sinewhopa::State;
    ///
    /// let mut state = State::open(&[1, 0, 6, 5])?;
    /// assert_eq!(state.line_count(), 0);
    /// state.submit(0)?;
    /// assert_eq!(state.line_count(), 1);
    /// # Ok::<(), Box<dyn std::error::Error>>(())
    /// ```
    pub fn line_count(&self) -> usize {
        usize::from(self.as_bytes()[layout::LINES])
    }
}
