//! The writing of S-3: a state's declarations as a sheet, whatever has become of its
//! events.

use super::rules::Rule;
use super::scheduler::Scheduler;
use super::set::{lowest, one};
use super::sheet::{END, MOST_EVENTS, MOST_RULES, WINDOW};
use std::io::Write;

/// As long as a sheet can be written: every rule a conditional, every event with a window.
pub const LONGEST: usize = MOST_EVENTS * (3 + WINDOW_LENGTH) + MOST_RULES * 4 + 1;
/// Kind, event and two minutes.
const WINDOW_LENGTH: usize = 10;

/// How long the sheet is, without writing it.
pub fn length(scheduler: &Scheduler) -> usize {
    let sheet = scheduler.sheet();
    let of_rule = |rule: &Rule| match rule {
        Rule::Follow { triggers, .. } if triggers.count_ones() > 1 => 4,
        _ => 3,
    };
    let rules: usize = sheet.rules.iter().map(of_rule).sum();
    sheet.events() * 3 + rules + sheet.windows.len() * WINDOW_LENGTH + 1
}

/// Writes the sheet at the front of a lent buffer, first the events one by one, then the
/// rules, then the windows by event. A buffer that it is too long for gives 14, before
/// anything is written.
pub fn write(scheduler: &Scheduler, out: &mut [u8]) -> Result<(), u8> {
    let mut rest = out.get_mut(..length(scheduler)).ok_or(14)?;
    put(&mut rest, scheduler).expect("room for all records");
    assert!(rest.is_empty(), "a sheet shorter than its length");
    Ok(())
}

fn put(out: &mut impl Write, scheduler: &Scheduler) -> std::io::Result<()> {
    let sheet = scheduler.sheet();
    for (event, step) in sheet.steps.iter().enumerate() {
        out.write_all(&[1, *step, sheet.attributes(event as u8)])?;
    }
    for rule in &sheet.rules {
        put_rule(out, rule)?;
    }
    for (event, window) in &sheet.windows {
        out.write_all(&[WINDOW, *event])?;
        out.write_all(&window.from.to_le_bytes())?;
        out.write_all(&window.until.to_le_bytes())?;
    }
    out.write_all(&[END])
}

/// Events stand in a rule's record as the sheet that was read names them.
fn put_rule(out: &mut impl Write, rule: &Rule) -> std::io::Result<()> {
    match *rule {
        Rule::Order { first, second, .. } => out.write_all(&[2, first, second]),
        Rule::Follow {
            triggers,
            goal,
            named_first,
            ..
        } => match lowest(triggers & !one(named_first)) {
            None => out.write_all(&[3, named_first, goal]),
            Some(other) => out.write_all(&[4, named_first, other, goal]),
        },
    }
}
