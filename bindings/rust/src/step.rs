//! Steps: which there are, and which of them are closed.

use crate::layout::{self, marked, row, STEPS};
use crate::State;

/// A step that has an event, and whether it is closed. [`State::steps`] gives them all.
///
/// More fields may come with later versions of the library.
///
/// ```
/// use sinewhopa::State;
///
/// let state = State::open(&[1, 3, 6, 5])?; // event 0, of step 3
/// let step = state.steps().next().ok_or("no step")?;
/// assert_eq!((step.number, step.closed), (3, false));
/// # Ok::<(), Box<dyn std::error::Error>>(())
/// ```
#[derive(Clone, Copy, Debug, PartialEq, Eq, Hash)]
#[non_exhaustive]
pub struct Step {
    /// Its number, from 0 to 7, as [`State::close_step`] takes it.
    pub number: u8,
    /// Whether it is closed.
    pub closed: bool,
}

impl State {
    /// The steps that have an event, the lowest first, each once and with whether it is
    /// closed. These are the ones that [`State::close_step`] takes, and that have to be closed
    /// before [`State::finish`]. They are given as they are now, so that calls may be made
    /// while they are gone through.
    ///
    /// ```
    /// use sinewhopa::State;
    ///
    /// let mut state = State::open(&[1, 5, 6, 1, 3, 6, 1, 5, 6, 5])?; // of steps 5, 3 and 5
    /// state.close_step(5)?;
    /// let steps: Vec<(u8, bool)> = state.steps().map(|step| (step.number, step.closed)).collect();
    /// assert_eq!(steps, [(3, false), (5, true)]);
    ///
    /// for step in state.steps().filter(|step| !step.closed) {
    ///     state.close_step(step.number)?;
    /// }
    /// state.finish()?;
    /// # Ok::<(), Box<dyn std::error::Error>>(())
    /// ```
    pub fn steps(&self) -> impl Iterator<Item = Step> {
        let of_events = row(self.as_bytes(), layout::STEP, self.event_count());
        let numbers = (0..STEPS).filter(|number| of_events.contains(number));
        let step = |number| Step {
            number,
            closed: self.is_closed(number),
        };
        numbers.map(step).collect::<Vec<Step>>().into_iter()
    }

    /// Whether the step is closed; no step above 7 is.
    ///
    /// ```
    /// # use sinewhopa::State;
    /// let mut state = State::open(&[1, 3, 6, 5])?;
    /// assert!(!state.is_closed(3));
    /// state.close_step(3)?;
    /// assert!(state.is_closed(3) && !state.is_closed(200));
    /// # Ok::<(), Box<dyn std::error::Error>>(())
    /// ```
    pub fn is_closed(&self, step: u8) -> bool {
        marked(row(self.as_bytes(), layout::CLOSED, STEPS), step)
    }
}
