//! Events: what the sheet declares of each, and what has become of it.

use crate::layout::{self, row};
use crate::{Attributes, Fate, State, Window};

/// An event: what the sheet declares of it, and what has become of it. [`State::events`]
/// gives them all.
///
/// More fields may come with later versions of the library.
///
/// ```
/// use sinewhopa::{Fate, State};
///
/// let mut state = State::open(&[1, 3, 6, 1, 5, 0, 5])?; // events 0 and 1, of steps 3 and 5
/// state.submit(1)?;
/// let event = state.event(1).ok_or("no such event")?;
/// assert_eq!((event.number, event.step), (1, 5));
/// assert_eq!(event.attributes.number(), 0);
/// assert_eq!((event.window, event.fate), (None, Fate::Done));
/// # Ok::<(), Box<dyn std::error::Error>>(())
/// ```
#[derive(Clone, Copy, Debug, PartialEq, Eq, Hash)]
#[non_exhaustive]
pub struct Event {
    /// Its number, as [`State::submit`] takes it. Events are numbered from 0, in the
    /// sequence in which the sheet declares them.
    pub number: u8,
    /// The step that it belongs to, from 0 to 7.
    pub step: u8,
    /// What the scheduler may do with it.
    pub attributes: Attributes,
    /// The minutes within which it may be done; none where it may be done at any minute.
    pub window: Option<Window>,
    /// What has become of it.
    pub fate: Fate,
}

impl State {
    /// The events, by number.
    ///
    /// ```
    /// use sinewhopa::{Fate, State};
    ///
    /// // 0 only if 1, which may be brought about.
    /// let mut state = State::open(&[1, 0, 1, 1, 1, 1, 3, 0, 1, 5])?;
    /// state.submit(0)?;
    /// let forced = state.events().filter(|event| event.fate == Fate::Forced);
    /// let to_chase_up: Vec<u8> = forced.map(|event| event.number).collect();
    /// assert_eq!(to_chase_up, [1]);
    /// # Ok::<(), Box<dyn std::error::Error>>(())
    /// ```
    pub fn events(&self) -> impl Iterator<Item = Event> + '_ {
        (0..self.event_count()).filter_map(|number| self.event(number))
    }

    /// An event by its number; none where it is not declared.
    ///
    /// ```
    /// use sinewhopa::State;
    ///
    /// let state = State::open(&[1, 3, 6, 5])?;
    /// assert_eq!(state.event(0).map(|event| event.step), Some(3));
    /// assert_eq!(state.event(1), None);
    /// # Ok::<(), sinewhopa::SheetFault>(())
    /// ```
    pub fn event(&self, number: u8) -> Option<Event> {
        Some(Event {
            number,
            step: self.step(number)?,
            attributes: self.attributes(number)?,
            window: self.window(number),
            fate: self.fate(number)?,
        })
    }

    /// How many events the sheet declares, at most 16.
    ///
    /// ```
    /// # use sinewhopa::State;
    /// assert_eq!(State::open(&[6, 0, 5])?.event_count(), 4);
    /// # Ok::<(), sinewhopa::SheetFault>(())
    /// ```
    pub fn event_count(&self) -> u8 {
        self.as_bytes()[layout::EVENTS]
    }

    /// The step that an event belongs to; none where the event is not declared. The steps
    /// themselves are in [`State::steps`].
    ///
    /// ```
    /// use sinewhopa::State;
    ///
    /// let state = State::open(&[1, 3, 6, 1, 5, 6, 5])?;
    /// assert_eq!([0, 1, 2].map(|event| state.step(event)), [Some(3), Some(5), None]);
    /// # Ok::<(), sinewhopa::SheetFault>(())
    /// ```
    pub fn step(&self, event: u8) -> Option<u8> {
        self.byte_of(layout::STEP, event)
    }

    /// The attributes of an event; none where it is not declared.
    ///
    /// ```
    /// use sinewhopa::State;
    ///
    /// let state = State::open(&[1, 0, 6, 5])?;
    /// assert!(state.attributes(0).is_some_and(|of_0| of_0.is_delayable()));
    /// assert_eq!(state.attributes(1), None);
    /// # Ok::<(), sinewhopa::SheetFault>(())
    /// ```
    pub fn attributes(&self, event: u8) -> Option<Attributes> {
        let number = self.byte_of(layout::ATTRIBUTES, event)?;
        Some(Attributes::from_number(number))
    }

    /// The window of an event; none where the event is not declared or has none.
    ///
    /// ```
    /// use sinewhopa::{State, Window};
    ///
    /// // Two events, and a window of event 1.
    /// let state = State::open(&[1, 0, 6, 1, 1, 6, 7, 1, 102, 3, 0, 0, 132, 3, 0, 0, 5])?;
    /// let (from, until) = (14 * 60 + 30, 15 * 60);
    /// assert_eq!(state.window(1), Some(Window { from, until }));
    /// assert_eq!((state.window(0), state.window(2)), (None, None));
    /// # Ok::<(), sinewhopa::SheetFault>(())
    /// ```
    pub fn window(&self, event: u8) -> Option<Window> {
        let at = |row| layout::number(self.as_bytes(), row + 4 * usize::from(event));
        let declared = event < self.event_count();
        let window = declared.then(|| Window {
            from: at(layout::FROM),
            until: at(layout::UNTIL),
        });
        // Where there is none, both are 0; where there is one, it ends above 0.
        window.filter(|window| window.until > 0)
    }

    /// What has become of an event; none where it is not declared.
    ///
    /// ```
    /// use sinewhopa::{Fate, State};
    ///
    /// let state = State::open(&[1, 0, 6, 5])?;
    /// assert_eq!(state.fate(0), Some(Fate::Open));
    /// assert_eq!(state.fate(1), None);
    /// # Ok::<(), sinewhopa::SheetFault>(())
    /// ```
    pub fn fate(&self, event: u8) -> Option<Fate> {
        self.byte_of(layout::FATE, event).map(Fate::from_number)
    }

    /// The events that wait, the lowest first. [`Fate::Held`] says for what; which rule it
    /// is can be read from [`State::rules`], the attributes and the fates, as the crate's
    /// `examples/waiting.rs` does. Whether it is the event's own window, [`State::window`]
    /// and [`State::minute`] say.
    ///
    /// ```
    /// use sinewhopa::State;
    ///
    /// let mut state = State::open(&[1, 0, 6, 1, 1, 6, 2, 0, 1, 5])?;
    /// state.submit(1)?; // it waits for 0
    /// assert_eq!(state.held().collect::<Vec<u8>>(), [1]);
    /// # Ok::<(), Box<dyn std::error::Error>>(())
    /// ```
    pub fn held(&self) -> impl Iterator<Item = u8> + '_ {
        let events = 0..self.event_count();
        events.filter(|event| self.fate(*event) == Some(Fate::Held))
    }

    /// An event's byte in a row of events; none where the event is not declared.
    fn byte_of(&self, start: usize, event: u8) -> Option<u8> {
        let declared = row(self.as_bytes(), start, self.event_count());
        declared.get(usize::from(event)).copied()
    }
}
