//! Call records, and running a list of them.

use super::scheduler::{Fate, Reason, Scheduler};
use super::sheet::{Refused, Sheet};

#[derive(Clone, Copy, Debug, PartialEq, Eq)]
pub enum Call {
    Submit(u8),
    CloseStep(u8),
    Finish,
    /// Moves the minute. A journal has a record of this call, a list has none.
    Advance(u32),
}

/// What one call record came to.
#[derive(Clone, Copy, Debug, PartialEq, Eq)]
pub enum Answer {
    Fate(Fate),
    Closed,
    Finished,
    Advanced,
    TurnedDown(Reason),
    /// Another kind or a cut record. The reading of a list ends there; a batch goes
    /// on after it.
    Unreadable,
}

/// A finished run on an admitted sheet.
#[derive(Clone, Debug)]
pub struct Run {
    pub scheduler: Scheduler,
    pub answers: Vec<Answer>,
}

impl Run {
    /// The calls turned down, with the unreadable one.
    pub fn turned_down(&self) -> usize {
        let refused =
            |answer: &&Answer| matches!(answer, Answer::TurnedDown(_) | Answer::Unreadable);
        self.answers.iter().filter(refused).count()
    }
}

/// The call at the front and the bytes after it.
pub fn split_call(bytes: &[u8]) -> Option<(Call, &[u8])> {
    match *bytes {
        [16, event, ref rest @ ..] => Some((Call::Submit(event), rest)),
        [17, step, ref rest @ ..] => Some((Call::CloseStep(step), rest)),
        [18, ref rest @ ..] => Some((Call::Finish, rest)),
        _ => None,
    }
}

pub fn apply(scheduler: &mut Scheduler, call: Call) -> Answer {
    let answer = match call {
        Call::Submit(event) => scheduler.submit(event).map(Answer::Fate),
        Call::CloseStep(step) => scheduler.close_step(step).map(|()| Answer::Closed),
        Call::Finish => scheduler.finish().map(|()| Answer::Finished),
        Call::Advance(minute) => scheduler.advance(minute).map(|()| Answer::Advanced),
    };
    answer.unwrap_or_else(Answer::TurnedDown)
}

/// Reads the sheet and runs the calls on it.
pub fn trace(sheet: &[u8], mut calls: &[u8]) -> Result<Run, Refused> {
    let mut scheduler = Scheduler::new(Sheet::read(sheet)?);
    let mut answers = Vec::new();
    while !calls.is_empty() {
        let Some((call, rest)) = split_call(calls) else {
            answers.push(Answer::Unreadable);
            break;
        };
        answers.push(apply(&mut scheduler, call));
        calls = rest;
    }
    Ok(Run { scheduler, answers })
}
