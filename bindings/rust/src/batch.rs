//! Calls as data, for a batch, and what each of them is answered.

use crate::raw::{Entry, CLOSE_STEP, HAND_IN};
use crate::state::taken;
use crate::{CallFault, Fate};

/// A call of a batch, as [`State::submit_all`](crate::State::submit_all) takes it.
#[derive(Clone, Copy, Debug, PartialEq, Eq, Hash)]
pub enum Call {
    /// Hands in an event, as [`State::submit`](crate::State::submit) does.
    Submit(u8),
    /// Closes a step, as [`State::close_step`](crate::State::close_step) does.
    CloseStep(u8),
}

/// What a call of a batch is answered: a hand-in has the event's fate right after
/// it, a closing has none; or why the call is turned down.
///
/// ```
/// use sinewhopa::{Answer, Call, CallFault, Fate, State};
///
/// let mut state = State::open(&[1, 0, 6, 5])?;
/// let calls = [Call::Submit(0), Call::CloseStep(0), Call::Submit(1)];
/// let answers: Vec<Answer> = state.submit_all(&calls)?;
/// assert_eq!(answers, [Ok(Some(Fate::Done)), Ok(None), Err(CallFault::Unknown)]);
/// # Ok::<(), Box<dyn std::error::Error>>(())
/// ```
pub type Answer = Result<Option<Fate>, CallFault>;

impl Call {
    /// The entry of this call, not answered yet.
    pub(crate) fn entry(self) -> Entry {
        let (kind, number) = match self {
            Call::Submit(event) => (HAND_IN, event),
            Call::CloseStep(step) => (CLOSE_STEP, step),
        };
        Entry {
            kind,
            number,
            ..Entry::default()
        }
    }

    /// What the entry of this call says, once it is answered.
    pub(crate) fn answer(self, entry: Entry) -> Answer {
        taken(entry.refused)?;
        match self {
            Call::Submit(_) => Ok(Some(Fate::from_number(entry.fate))),
            Call::CloseStep(_) => Ok(None),
        }
    }
}
