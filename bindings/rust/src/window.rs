//! The minutes within which an event may be done.

/// The minutes within which an event may be done or forced, as a record of kind 7 declares
/// them. Only a delayable event has one. Before it, the event waits ([`Fate::Held`] once it
/// is handed in) and is not forced. From `until` on it is refused: at once where it is held,
/// else when it is handed in; one that is open stays so, and is not forced any more.
///
/// Which minute it is, the host says, by [`State::advance`].
///
/// ```
/// use sinewhopa::{Fate, State, Window};
///
/// let window = Window { from: 14 * 60 + 30, until: 15 * 60 }; // half past two until three
/// let (from, until) = (window.from.to_le_bytes(), window.until.to_le_bytes());
/// let sheet = [&[1, 0, 6, 7, 0], &from[..], &until, &[5]].concat();
/// for (minute, fate) in [
///     (869, Fate::Held),
///     (870, Fate::Done),
///     (899, Fate::Done),
///     (900, Fate::Refused),
/// ] {
///     let mut state = State::open(&sheet)?;
///     assert_eq!(state.window(0), Some(window));
///     state.advance(minute)?;
///     assert_eq!(state.submit(0)?, fate);
/// }
/// # Ok::<(), Box<dyn std::error::Error>>(())
/// ```
///
/// [`Fate::Held`]: crate::Fate::Held
/// [`State::advance`]: crate::State::advance
#[derive(Clone, Copy, Debug, PartialEq, Eq, Hash)]
pub struct Window {
    /// The first minute at which the event may be done.
    pub from: u32,
    /// The first minute at which it is too late.
    pub until: u32,
}
