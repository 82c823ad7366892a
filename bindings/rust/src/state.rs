//! A state that a host keeps: how it is made, the calls, and how it is stored and passed on.
//! What can be read from it is in `event`, `step`, `rule` and `history`.

use crate::layout;
use crate::{filled, raw, Answer, Call, CallFault, Fate, Preview, SheetFault};
use crate::{LONGEST_BATCH, LONGEST_SHEET, STATE_LEN};
use std::fmt;

/// The state of one plan: what its sheet declares, what has become of each event,
/// the history and the current minute. It is 384 bytes in a layout that is fixed for ever,
/// made by [`State::open`] and changed by calls alone; it can be stored and sent as
/// [`State::as_bytes`] and comes back by [`State::from_bytes`]. All that it says can be
/// read by its methods, so that a host needs to know nothing of the layout. A `State`
/// always passes number 12, whatever calls are made on it.
///
/// ```
/// use sinewhopa::{Fate, State};
///
/// // Events 0 and 1, both may wait or be refused: 0 before 1, and 0 only if 1.
/// let sheet = [1, 0, 6, 1, 1, 6, 2, 0, 1, 3, 0, 1, 5];
/// let mut state = State::open(&sheet)?;
/// assert_eq!(state.submit(0)?, Fate::Held); // it needs 1
/// assert_eq!(state.submit(1)?, Fate::Done);
/// let history: Vec<(u8, Fate)> = state.history().collect();
/// assert_eq!(history, [(0, Fate::Done), (1, Fate::Done)]);
/// # Ok::<(), Box<dyn std::error::Error>>(())
/// ```
#[derive(Clone, PartialEq, Eq, Hash)]
pub struct State {
    bytes: [u8; STATE_LEN],
}

impl State {
    /// The state of bytes that the library itself has written.
    pub(crate) fn written(bytes: [u8; STATE_LEN]) -> State {
        State { bytes }
    }

    /// Reads a sheet and gives its first state.
    ///
    /// ```
    /// use sinewhopa::{SheetFault, State};
    ///
    /// assert_eq!(State::open(&[1, 0, 6, 5])?.event_count(), 1);
    /// assert_eq!(State::open(&[]), Err(SheetFault::Cut { at: 0 }));
    /// # Ok::<(), SheetFault>(())
    /// ```
    pub fn open(sheet: &[u8]) -> Result<State, SheetFault> {
        let mut bytes = [0; STATE_LEN];
        match raw::open(&mut bytes, sheet) {
            (0, _) => Ok(State { bytes }),
            (number, at) => Err(SheetFault::from_number(number, at)),
        }
    }

    /// Hands in an event, at the current minute, and gives its fate: done, held or refused.
    /// A host hands in an event to ask, and carries it out only once it is done. Held is "not
    /// yet": a later call does the event or refuses it. Further events may be settled with
    /// the one that is handed in; [`State::settled_since`] gives them all, and those that
    /// were open are forced. An event that is not open any more keeps its fate, which is
    /// given again; so one that was forced before it was reported gives [`Fate::Forced`].
    ///
    /// ```
    /// use sinewhopa::{CallFault, Fate, State};
    ///
    /// let mut state = State::open(&[1, 0, 6, 5])?;
    /// assert_eq!(state.submit(0), Ok(Fate::Done));
    /// assert_eq!(state.submit(0), Ok(Fate::Done));
    /// assert_eq!(state.submit(1), Err(CallFault::Unknown));
    /// # Ok::<(), sinewhopa::SheetFault>(())
    /// ```
    pub fn submit(&mut self, event: u8) -> Result<Fate, CallFault> {
        taken(raw::submit(&mut self.bytes, event))?;
        // A call that is taken names a declared event.
        self.fate(event).ok_or(CallFault::Unknown)
    }

    /// Closes a step: nothing more will come of it, and its open events lapse.
    ///
    /// ```
    /// use sinewhopa::{CallFault, Fate, State};
    ///
    /// let mut state = State::open(&[1, 0, 6, 5])?;
    /// assert_eq!(state.close_step(0), Ok(()));
    /// assert_eq!(state.fate(0), Some(Fate::Lapsed));
    /// assert_eq!(state.close_step(0), Err(CallFault::AlreadyClosed));
    /// assert_eq!(state.close_step(1), Err(CallFault::Unknown));
    /// # Ok::<(), sinewhopa::SheetFault>(())
    /// ```
    pub fn close_step(&mut self, step: u8) -> Result<(), CallFault> {
        taken(raw::close_step(&mut self.bytes, step))
    }

    /// Winds up, once every step that has an event is closed: what is still held is
    /// refused, the lowest first, also what waits for its [`Window`](crate::Window).
    ///
    /// ```
    /// use sinewhopa::{Fate, State};
    ///
    /// // Each of two events has to come before the other.
    /// let mut state = State::open(&[1, 0, 6, 1, 0, 6, 2, 0, 1, 2, 1, 0, 5])?;
    /// state.submit(0)?;
    /// state.submit(1)?;
    /// state.close_step(0)?;
    /// assert_eq!(state.held().count(), 2);
    /// state.finish()?;
    /// let history: Vec<(u8, Fate)> = state.history().collect();
    /// assert_eq!(history, [(0, Fate::Refused), (1, Fate::Done)]);
    /// # Ok::<(), Box<dyn std::error::Error>>(())
    /// ```
    pub fn finish(&mut self) -> Result<(), CallFault> {
        taken(raw::finish(&mut self.bytes))
    }

    /// Moves the minute forward, or to where it stands, and settles: a held event whose
    /// window has come is done, where nothing else keeps it; one whose window is over is
    /// refused. Minutes that are jumped over do nothing. What a minute counts from is the
    /// host's choice, as the library has no clock. A host calls this whenever its clock
    /// moves, and before it hands in a reply.
    ///
    /// ```
    /// use sinewhopa::{CallFault, Fate, State};
    ///
    /// // One event, with a window from half past two, up to but not including three.
    /// let sheet = [1, 0, 6, 7, 0, 102, 3, 0, 0, 132, 3, 0, 0, 5];
    /// let mut state = State::open(&sheet)?;
    /// state.advance(14 * 60)?;
    /// assert_eq!(state.submit(0)?, Fate::Held); // too early
    /// let mut slept = state.clone();
    /// state.advance(14 * 60 + 30)?;
    /// assert_eq!(state.fate(0), Some(Fate::Done));
    /// assert_eq!(state.advance(14 * 60), Err(CallFault::Backward));
    ///
    /// slept.advance(15 * 60)?; // from two to three in one go: too late
    /// assert_eq!(slept.fate(0), Some(Fate::Refused));
    /// # Ok::<(), Box<dyn std::error::Error>>(())
    /// ```
    pub fn advance(&mut self, minute: u32) -> Result<(), CallFault> {
        taken(raw::advance(&mut self.bytes, minute))
    }

    /// Makes the calls of a batch, one after another in the list's order, and gives
    /// each one's answer: what the single calls would give. One that is turned down
    /// changes nothing, and the later ones still go ahead. More calls than
    /// [`LONGEST_BATCH`] are turned down together, and none of them is made; a longer
    /// list can be handed in by parts.
    ///
    /// ```
    /// use sinewhopa::{Call, CallFault, Fate, State};
    ///
    /// let mut state = State::open(&[1, 0, 6, 1, 1, 6, 2, 0, 1, 5])?; // 0 before 1
    /// let calls = [Call::Submit(1), Call::Submit(7), Call::Submit(0), Call::CloseStep(1)];
    /// let answers = state.submit_all(&calls)?;
    /// assert_eq!(answers[0], Ok(Some(Fate::Held))); // it waits for 0 ..
    /// assert_eq!(answers[1], Err(CallFault::Unknown));
    /// assert_eq!(answers[2], Ok(Some(Fate::Done)));
    /// assert_eq!(answers[3], Ok(None));
    /// assert_eq!(state.fate(1), Some(Fate::Done)); // .. and was done with it
    /// assert_eq!(state.submit_all(&[Call::Submit(0); 65]), Err(CallFault::TooLong));
    /// # Ok::<(), Box<dyn std::error::Error>>(())
    /// ```
    pub fn submit_all(&mut self, calls: &[Call]) -> Result<Vec<Answer>, CallFault> {
        // As the library has it; asked here so that no long list is copied.
        if calls.len() > LONGEST_BATCH {
            return Err(CallFault::TooLong);
        }
        let mut entries: Vec<raw::Entry> = calls.iter().map(|call| call.entry()).collect();
        taken(raw::submit_all(&mut self.bytes, &mut entries))?;
        let answered = calls.iter().zip(entries);
        Ok(answered.map(|(call, entry)| call.answer(entry)).collect())
    }

    /// What [`State::submit`] would settle with this event: how many lines it would add to
    /// the history, by fate, at the current minute. The state stays as it is. Nothing would
    /// be settled by an event that is not open any more. Where `submit` would turn the event
    /// down, so does this, with the same fault.
    ///
    /// ```
    /// use sinewhopa::{CallFault, Preview, State};
    ///
    /// let mut state = State::open(&[1, 0, 6, 1, 1, 6, 2, 0, 1, 5])?; // 0 before 1
    /// assert_eq!(state.preview(1)?, Preview::default()); // it would be held
    /// state.submit(1)?;
    /// let preview = state.preview(0)?;
    /// assert_eq!(preview, Preview { done: 2, ..Preview::default() }); // 0, and 1 with it
    ///
    /// let before = state.line_count();
    /// state.submit(0)?;
    /// assert_eq!(state.settled_since(before).count(), usize::from(preview.settled()));
    /// assert_eq!(state.preview(0)?, Preview::default()); // not open any more
    /// assert_eq!(state.preview(2), Err(CallFault::Unknown));
    /// # Ok::<(), Box<dyn std::error::Error>>(())
    /// ```
    pub fn preview(&self, event: u8) -> Result<Preview, CallFault> {
        let mut added = [0; raw::ADDED_COUNTS];
        taken(raw::preview(&self.bytes, event, &mut added))?;
        Ok(Preview::from_counts(added))
    }

    /// The current minute: 0 at first, and then the last one that [`State::advance`] has
    /// taken.
    ///
    /// ```
    /// # use sinewhopa::State;
    /// let mut state = State::open(&[1, 0, 6, 5])?;
    /// assert_eq!(state.minute(), 0);
    /// state.advance(14 * 60 + 30)?;
    /// assert_eq!(State::from_bytes(state.as_bytes())?.minute(), 870);
    /// # Ok::<(), Box<dyn std::error::Error>>(())
    /// ```
    pub fn minute(&self) -> u32 {
        layout::number(&self.bytes, layout::MINUTE)
    }

    /// The bytes, to be stored or sent.
    ///
    /// ```
    /// # use sinewhopa::{State, STATE_LEN};
    /// let mut state = State::open(&[1, 0, 6, 5])?;
    /// state.submit(0)?;
    /// let stored: [u8; STATE_LEN] = *state.as_bytes();
    /// assert_eq!(State::from_bytes(&stored)?, state);
    /// # Ok::<(), Box<dyn std::error::Error>>(())
    /// ```
    pub fn as_bytes(&self) -> &[u8; STATE_LEN] {
        &self.bytes
    }

    /// The state of these bytes. They may come from anywhere: what is not a state
    /// that hangs together is turned down with [`CallFault::Incoherent`].
    ///
    /// ```
    /// use sinewhopa::{CallFault, State};
    ///
    /// let state = State::open(&[1, 0, 6, 5])?;
    /// let stored: Vec<u8> = state.as_bytes().to_vec();
    /// let bytes = stored.as_slice().try_into()?;
    /// assert_eq!(State::from_bytes(bytes)?, state);
    /// assert_eq!(State::from_bytes(&[0; 384]), Err(CallFault::Incoherent));
    /// # Ok::<(), Box<dyn std::error::Error>>(())
    /// ```
    ///
    /// What an earlier version of the library has stored is a state still, at minute 0 and
    /// without windows, but for this: versions before did not make a trigger of a
    /// conditional wait ahead of one that cannot be stopped ([`Fate::Held`]). Where they
    /// have done or forced such a trigger, with the other one open and the third event open
    /// or held, the bytes are turned down now. A host opens that plan again, from its sheet,
    /// and makes its calls again. Where the third event was refused or has lapsed since, the
    /// bytes are taken; the rule then breaks should the other trigger be handed in. The
    /// crate's `examples/waiting.rs` meets both.
    ///
    /// ```
    /// use sinewhopa::{Fate, State};
    ///
    /// // If 0 and 1, then 2; 1 can be neither refused nor held.
    /// let sheet = [1, 0, 6, 1, 1, 0, 1, 2, 6, 4, 0, 1, 2, 5];
    /// let mut state = State::open(&sheet)?;
    /// assert_eq!(state.submit(0)?, Fate::Held); // versions before have done it at once
    /// # Ok::<(), Box<dyn std::error::Error>>(())
    /// ```
    pub fn from_bytes(bytes: &[u8; STATE_LEN]) -> Result<State, CallFault> {
        taken(raw::check(bytes))?;
        Ok(State { bytes: *bytes })
    }

    /// The report of the state, as the runner prints it after a list in which
    /// `refused` calls were turned down.
    ///
    /// ```
    /// # use sinewhopa::State;
    /// let mut state = State::open(&[1, 0, 6, 5])?;
    /// state.submit(0)?;
    /// let report = "events 1 rules 0\n0 done\nheld 0\nbroken 0\nrefused calls 2\n";
    /// assert_eq!(state.report(2), report.as_bytes());
    /// # Ok::<(), Box<dyn std::error::Error>>(())
    /// ```
    pub fn report(&self, refused: usize) -> Vec<u8> {
        filled(|out| raw::report(&self.bytes, refused, out))
    }

    /// The state written out as a sheet, to be passed on: its events, then its rules, then
    /// its windows by event, whatever calls have been made. [`State::open`] reads it as the
    /// first state with the same events, rules and windows, at minute 0. Sheets that declare
    /// these, numbered alike, are all written as the same bytes.
    ///
    /// ```
    /// use sinewhopa::State;
    ///
    /// // Four events at once, and a rule before the last event.
    /// let sheet = [6, 0, 2, 0, 2, 1, 1, 6, 5];
    /// let mut state = State::open(&sheet)?;
    /// state.submit(4)?;
    /// let passed_on = state.to_sheet()?;
    /// let events = [1, 0, 7, 1, 0, 0, 1, 0, 6, 1, 0, 1, 1, 1, 6];
    /// assert_eq!(passed_on, [&events[..], &[2, 0, 2], &[5]].concat());
    ///
    /// let colleague = State::open(&passed_on)?;
    /// assert_eq!(colleague, State::open(&sheet)?);
    /// assert_eq!(colleague.to_sheet()?, passed_on);
    /// # Ok::<(), Box<dyn std::error::Error>>(())
    /// ```
    pub fn to_sheet(&self) -> Result<Vec<u8>, CallFault> {
        let mut out = vec![0; LONGEST_SHEET];
        let length = self.write_sheet(&mut out)?;
        out.truncate(length);
        Ok(out)
    }

    /// Writes what [`State::to_sheet`] gives at the start of `out`, and gives its length.
    /// Bytes of `out` beyond it stay as they were. All of them do where `out` is too
    /// short, with [`CallFault::NoRoom`]: [`State::sheet_length`] says how many bytes it
    /// has to have, and [`LONGEST_SHEET`] are always enough.
    ///
    /// ```
    /// use sinewhopa::{CallFault, State};
    ///
    /// let state = State::open(&[1, 3, 6, 5])?;
    /// let mut out = [9; 6];
    /// assert_eq!(state.write_sheet(&mut out[..3]), Err(CallFault::NoRoom));
    /// assert_eq!(out, [9; 6]);
    /// assert_eq!(state.write_sheet(&mut out), Ok(4));
    /// assert_eq!(out, [1, 3, 6, 5, 9, 9]);
    /// # Ok::<(), sinewhopa::SheetFault>(())
    /// ```
    pub fn write_sheet(&self, out: &mut [u8]) -> Result<usize, CallFault> {
        let (number, length) = raw::write_sheet(&self.bytes, out);
        taken(number)?;
        Ok(length)
    }

    /// How many bytes [`State::write_sheet`] writes, without writing them: from 1, of a
    /// state without events, to [`LONGEST_SHEET`].
    ///
    /// ```
    /// use sinewhopa::State;
    ///
    /// assert_eq!(State::open(&[5])?.sheet_length()?, 1);
    /// assert_eq!(State::open(&[6, 0, 5])?.sheet_length()?, 13); // four events, and the end
    /// # Ok::<(), Box<dyn std::error::Error>>(())
    /// ```
    pub fn sheet_length(&self) -> Result<usize, CallFault> {
        match raw::write_sheet(&self.bytes, &mut []) {
            // No sheet is empty, so that this is the answer to an empty buffer.
            (number, length) if number == CallFault::NoRoom.number() => Ok(length),
            (number, length) => taken(number).map(|()| length),
        }
    }
}

/// What the state says, in place of 384 numbers.
impl fmt::Debug for State {
    fn fmt(&self, out: &mut fmt::Formatter<'_>) -> fmt::Result {
        let fates = self.events().map(|event| event.fate);
        let closed = (0..layout::STEPS).filter(|step| self.is_closed(*step));
        let broken = (0..self.rule_count()).filter(|rule| self.is_broken(*rule));
        out.debug_struct("State")
            .field("minute", &self.minute())
            .field("fates", &fates.collect::<Vec<Fate>>())
            .field("closed", &closed.collect::<Vec<u8>>())
            .field("broken", &broken.collect::<Vec<u8>>())
            .field("history", &self.history().collect::<Vec<(u8, Fate)>>())
            .finish_non_exhaustive()
    }
}

pub(crate) fn taken(number: u8) -> Result<(), CallFault> {
    match number {
        0 => Ok(()),
        _ => Err(CallFault::from_number(number)),
    }
}
