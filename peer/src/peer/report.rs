//! The runner's report.

use super::calls::{trace, Run};
use super::scheduler::Fate;
use super::sheet::Refused;
use std::fmt::Write;

/// The report of the calls on the sheet. Slices may have any length; only the
/// runner program cuts its files.
pub fn run(sheet: &[u8], calls: &[u8]) -> Vec<u8> {
    report(&trace(sheet, calls)).into_bytes()
}

pub fn report(outcome: &Result<Run, Refused>) -> String {
    match outcome {
        Ok(run) => lines(run).expect("a string takes all that is written"),
        Err(refused) => format!("refused {} at {}\n", refused.number, refused.offset),
    }
}

fn lines(run: &Run) -> Result<String, std::fmt::Error> {
    let (sheet, state) = (run.scheduler.sheet(), run.scheduler.state());
    let mut out = String::new();
    writeln!(out, "events {} rules {}", sheet.events(), sheet.rules.len())?;
    for line in run.scheduler.history() {
        writeln!(out, "{} {}", line.event, word(line.fate))?;
    }
    writeln!(out, "held {}", state.held.count_ones())?;
    writeln!(out, "broken {}", state.broken.count_ones())?;
    writeln!(out, "refused calls {}", run.turned_down())?;
    Ok(out)
}

fn word(fate: Fate) -> &'static str {
    match fate {
        Fate::Open => "open",
        Fate::Held => "held",
        Fate::Done => "done",
        Fate::Refused => "refused",
        Fate::Lapsed => "lapsed",
        Fate::Forced => "forced",
    }
}
