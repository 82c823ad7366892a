//! A chapel that confirms only within hours: from 14:30 up to, but not including, 15:00. A
//! reply that comes too early waits until the clock is there; one that comes too late is
//! refused. The notice goes out after the chapel has confirmed, and only if it has. The
//! host moves the state's minute whenever its clock moves, and before it hands in a reply.
//! It fails where anything is not so. It prints what `examples/chapel` of the repository
//! does in C.
//!
//!     cargo run --release --offline --example chapel

use sinewhopa::{CallFault, Fate, State, Window};
use std::error::Error;
use std::fs;
use std::io::{self, Write};

type Result<T> = std::result::Result<T, Box<dyn Error>>;

const CHAPEL: u8 = 0;
const NOTICE: u8 = 1;

/// The chapel's window.
const WINDOW: Window = Window {
    from: at(14, 30),
    until: at(15, 0),
};

/// A time of the day as a minute: 14:30 is 14 * 60 + 30 = 870. Here minutes count from the
/// plan's first midnight, so that a time of the next day has 24 hours more. Any start will
/// do that the whole plan keeps to.
const fn at(hours: u32, minutes: u32) -> u32 {
    hours * 60 + minutes
}

/// As `State::to_sheet` writes it.
fn sheet() -> Vec<u8> {
    let before_window = [
        1, 0, 6, // event 0, the chapel confirms: step 0; may wait or be refused
        1, 1, 6, // event 1, the notice goes out: step 1; may wait or be refused
        2, 0, 1, // rule 0, order: the chapel before the notice
        3, 1, 0, // rule 1, need: the notice only if the chapel
        7, 0, // a window of the chapel; its two minutes follow
    ];
    let (from, until) = (WINDOW.from.to_le_bytes(), WINDOW.until.to_le_bytes());
    [&before_window[..], &from, &until, &[5]].concat()
}

/// A minute as a time of the day.
fn time(minute: u32) -> String {
    format!("{:02}:{:02}", minute / 60, minute % 60)
}

fn name(event: u8) -> &'static str {
    if event == CHAPEL {
        "chapel"
    } else {
        "notice"
    }
}

/// An error where it is not so.
fn expect(so: bool) -> Result<()> {
    if so {
        Ok(())
    } else {
        Err("something is not as it has to be".into())
    }
}

fn open_plan(name: &str, out: &mut impl Write) -> Result<State> {
    writeln!(out, "{name}:")?;
    let state = State::open(&sheet())?;
    expect(state.window(CHAPEL) == Some(WINDOW) && state.window(NOTICE).is_none())?;
    Ok(state)
}

/// What a host does whenever its clock moves. It is an error where the history has then
/// not so many new lines.
fn clock_moves(state: &mut State, minute: u32, settles: usize, out: &mut impl Write) -> Result<()> {
    let before = state.line_count();
    state.advance(minute)?;
    let lines: Vec<String> = state
        .settled_since(before)
        .map(|(event, fate)| format!("{} {fate}", name(event)))
        .collect();
    let told = match lines.is_empty() {
        true => "nothing settled".to_string(),
        false => lines.join(", "),
    };
    writeln!(out, "{} {told}", time(minute))?;
    expect(lines.len() == settles && state.minute() == minute)
}

/// A reply comes in: first the minute, then the event. It is an error where its fate is
/// another.
fn reply(
    state: &mut State,
    minute: u32,
    event: u8,
    fate: Fate,
    out: &mut impl Write,
) -> Result<()> {
    state.advance(minute)?;
    let answer = state.submit(event)?;
    writeln!(out, "{} {} handed in: {answer}", time(minute), name(event))?;
    expect(answer == fate)
}

/// Saves the state and reads it back. It is an error where the minute is another.
fn save_and_load(state: &State, out: &mut impl Write) -> Result<State> {
    let path = std::env::temp_dir().join(format!("sinewhopa-chapel-{}", std::process::id()));
    fs::write(&path, state.as_bytes())?;
    let stored = fs::read(&path)?;
    fs::remove_file(&path)?;
    let loaded = State::from_bytes(stored.as_slice().try_into()?)?;
    writeln!(out, "{} saved and read back", time(loaded.minute()))?;
    expect(loaded.minute() == state.minute())?;
    Ok(loaded)
}

/// No minute comes again: an earlier one is turned down, and nothing is written.
fn try_backward(state: &mut State, minute: u32, out: &mut impl Write) -> Result<()> {
    let before = state.clone();
    let fault = state.advance(minute).err();
    let number = fault.map_or(0, CallFault::number);
    writeln!(out, "{} turned down, {number}", time(minute))?;
    expect(fault == Some(CallFault::Backward) && *state == before)
}

/// The sheet is written with its window, whatever the minute is.
fn write_out(state: &State, out: &mut impl Write) -> Result<()> {
    let written = state.to_sheet()?;
    let bytes: Vec<String> = written.iter().map(|byte| format!("{byte:02x}")).collect();
    writeln!(out, "sheet {}", bytes.join(" "))?;
    expect(written == sheet())
}

/// The reply waits, and the notice with it. Both are done when the window opens, on the
/// state that was read back.
fn too_early(out: &mut impl Write) -> Result<()> {
    let mut state = open_plan("too early", out)?;
    reply(&mut state, at(14, 0), NOTICE, Fate::Held, out)?;
    reply(&mut state, at(14, 10), CHAPEL, Fate::Held, out)?;
    clock_moves(&mut state, at(14, 29), 0, out)?;
    let mut state = save_and_load(&state, out)?;
    clock_moves(&mut state, at(14, 30), 2, out)?;
    expect(state.fate(NOTICE) == Some(Fate::Done))?;
    clock_moves(&mut state, at(14, 30), 0, out)?;
    try_backward(&mut state, at(14, 29), out)?;
    write_out(&state, out)
}

/// At 15:00 it is over. An open event stays open, but is refused when it is handed in, and
/// the notice with it.
fn too_late(out: &mut impl Write) -> Result<()> {
    let mut state = open_plan("too late", out)?;
    reply(&mut state, at(14, 59), NOTICE, Fate::Held, out)?;
    clock_moves(&mut state, at(15, 0), 0, out)?;
    expect(state.fate(CHAPEL) == Some(Fate::Open))?;
    reply(&mut state, at(15, 0), CHAPEL, Fate::Refused, out)?;
    expect(state.fate(NOTICE) == Some(Fate::Refused))
}

/// The clock leaps over the whole window: the reply that waits is refused. So a host moves
/// the minute often.
fn slept(out: &mut impl Write) -> Result<()> {
    let mut state = open_plan("slept", out)?;
    reply(&mut state, at(14, 29), CHAPEL, Fate::Held, out)?;
    clock_moves(&mut state, at(15, 0), 1, out)?;
    expect(state.fate(CHAPEL) == Some(Fate::Refused))
}

/// The plans, told to `out`.
pub fn run(mut out: impl Write) -> Result<()> {
    too_early(&mut out)?;
    too_late(&mut out)?;
    slept(&mut out)?;
    let mut state = open_plan("first minute", &mut out)?;
    reply(&mut state, at(14, 30), CHAPEL, Fate::Done, &mut out)?;
    let mut state = open_plan("last minute", &mut out)?;
    reply(&mut state, at(14, 59), CHAPEL, Fate::Done, &mut out)
}

fn main() -> Result<()> {
    run(io::stdout().lock())
}
