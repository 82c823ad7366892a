//! States that their owner keeps between calls: the library's and the peer's.

use crate::images::previews::{self, Counts};
use crate::images::sheets;
use crate::library::{raw, State};
use crate::peer::calls::{apply, split_call, Answer, Call, Run};
use crate::peer::report::report;
use crate::peer::{Scheduler, Sheet};

pub trait Kept: Clone {
    /// The first state of an admitted sheet.
    fn open(sheet: &[u8]) -> Self;
    /// Makes the call. Gives 0, or the number of the reason to turn it down.
    fn call(&mut self, call: Call) -> u8;
    /// What handing in an event would settle, by fate; or the number that turns it down.
    fn preview(&self, event: u8) -> Result<Counts, u8>;
    /// Writes the state's sheet into a lent buffer. Gives the number and the length.
    fn write_sheet(&self, out: &mut [u8]) -> (u8, usize);
    /// The state's report, with no call turned down.
    fn report(&self) -> Vec<u8>;
    /// Whether the two are the same state.
    fn is(&self, other: &Self) -> bool;
}

impl Kept for State {
    fn open(sheet: &[u8]) -> State {
        State::open(sheet).expect("an admitted sheet")
    }

    fn call(&mut self, call: Call) -> u8 {
        let answer = match call {
            Call::Submit(event) => self.submit(event).map(|_| ()),
            Call::CloseStep(step) => self.close_step(step),
            Call::Finish => self.finish(),
            Call::Advance(minute) => self.advance(minute),
        };
        answer.map_or_else(|fault| fault.number(), |()| 0)
    }

    fn preview(&self, event: u8) -> Result<Counts, u8> {
        let mut added = [0; 4];
        match raw::preview(self.as_bytes(), event, &mut added) {
            0 => Ok(added),
            number => Err(number),
        }
    }

    fn write_sheet(&self, out: &mut [u8]) -> (u8, usize) {
        raw::write_sheet(self.as_bytes(), out)
    }

    fn report(&self) -> Vec<u8> {
        State::report(self, 0)
    }

    fn is(&self, other: &State) -> bool {
        self == other
    }
}

impl Kept for Scheduler {
    fn open(sheet: &[u8]) -> Scheduler {
        Scheduler::new(Sheet::read(sheet).expect("an admitted sheet"))
    }

    fn call(&mut self, call: Call) -> u8 {
        match apply(self, call) {
            Answer::TurnedDown(reason) => reason as u8,
            _ => 0,
        }
    }

    fn preview(&self, event: u8) -> Result<Counts, u8> {
        previews::of_peer(Some(self), event)
    }

    fn write_sheet(&self, out: &mut [u8]) -> (u8, usize) {
        sheets::of_peer(Some(self), out)
    }

    fn report(&self) -> Vec<u8> {
        let (scheduler, answers) = (self.clone(), Vec::new());
        report(&Ok(Run { scheduler, answers })).into_bytes()
    }

    fn is(&self, other: &Scheduler) -> bool {
        self.state() == other.state() && self.history() == other.history()
    }
}

/// Makes the calls of a list one by one, up to the first that is not readable, and
/// shows each number.
pub fn make_all(state: &mut impl Kept, calls: &[u8], mut show: impl FnMut(u8)) {
    let mut rest = calls;
    while let Some((call, after)) = split_call(rest) {
        show(state.call(call));
        rest = after;
    }
}
