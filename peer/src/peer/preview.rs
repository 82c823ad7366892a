//! The preview of S-2: what handing in an event would settle.

use super::scheduler::{Fate, Line, Reason, Scheduler};

/// How many settlements a hand-in would add, by fate.
#[derive(Clone, Copy, Debug, Default, PartialEq, Eq)]
pub struct Settlements {
    pub done: u8,
    pub refused: u8,
    pub lapsed: u8,
    /// Not among those done.
    pub forced: u8,
}

impl Settlements {
    /// The four counts that a library gives.
    pub fn bytes(self) -> [u8; 4] {
        [self.done, self.refused, self.lapsed, self.forced]
    }

    fn add(&mut self, line: &Line) {
        match line.fate {
            Fate::Done => self.done += 1,
            Fate::Refused => self.refused += 1,
            Fate::Lapsed => self.lapsed += 1,
            Fate::Forced => self.forced += 1,
            Fate::Open | Fate::Held => unreachable!("not a settlement"),
        }
    }
}

/// Hands the event in on a copy and counts the lines that this adds to the history.
pub fn preview(scheduler: &Scheduler, event: u8) -> Result<Settlements, Reason> {
    let mut copy = scheduler.clone();
    copy.submit(event)?;
    let mut added = Settlements::default();
    for line in &copy.history()[scheduler.history().len()..] {
        added.add(line);
    }
    Ok(added)
}
