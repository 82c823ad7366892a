//! An office that passes a sheet on: it opens one, makes calls, asks how long its state
//! is as a sheet, and writes it out. A colleague opens what was written, has the same
//! events and rules with every event open, and writes the same bytes. It fails where
//! anything is not so. It prints what `examples/sheet` of the repository does in C.
//!
//!     cargo run --release --offline --example sheet

use sinewhopa::{raw, CallFault, State, LONGEST_SHEET, STATE_LEN};
use std::error::Error;
use std::io::{self, Write};

const SHEET: [u8; 22] = [
    6, 0, // events 0 to 3, the chapel's booking: begun, ready, confirmed, called off; step 0
    1, 1, 6, // event 4, the notice is printed: step 1; may be refused and can wait
    3, 4, 2, // rule 0, need: the notice only if the booking is confirmed
    1, 2, 0, // event 5, the crematorium takes the coffin: step 2; comes as it comes
    2, 5, 4, // rule 1, order: the crematorium before the notice
    1, 3, 6, // event 6, the cars are sent: step 3; may be refused and can wait
    4, 4, 5, 6, // rule 2, conditional: if the notice and the crematorium, then the cars
    5, // the end
];

const UNWRITTEN: u8 = 99;

fn state_line(whose: &str, state: &State) -> String {
    let fates: Vec<String> = state.events().map(|event| event.fate.to_string()).collect();
    let (events, rules) = (state.event_count(), state.rule_count());
    let fates = fates.join(" ");
    format!("{whose}: {events} events, {rules} rules: {fates}")
}

fn bytes_line(bytes: &[u8]) -> String {
    let bytes: Vec<String> = bytes.iter().map(|byte| format!("{byte:02x}")).collect();
    bytes.join(" ")
}

/// Tells what was answered to a lent buffer; `length` is the one that was asked for. It is
/// an error where a byte is written that is none of the sheet's.
fn tell(
    whose: &str,
    lent: &[u8],
    answer: Result<usize, CallFault>,
    length: usize,
    out: &mut impl Write,
) -> Result<(), Box<dyn Error>> {
    let said = match answer {
        Ok(written) => format!("written, length {written}, nothing beyond"),
        Err(fault) => {
            let number = fault.number();
            format!("turned down, {number}, length {length}, nothing written")
        }
    };
    let mut beyond = lent.iter().skip(answer.unwrap_or(0));
    if !beyond.all(|byte| *byte == UNWRITTEN) {
        return Err("a byte is written that is none of the sheet's".into());
    }
    writeln!(out, "{whose}, room for {}: {said}", lent.len())?;
    Ok(())
}

/// The calls that the office has made by now.
fn make_calls(state: &mut State) -> Result<(), CallFault> {
    state.submit(5)?; // the crematorium: done
    state.submit(4)?; // the notice: held, as the chapel has not confirmed
    state.submit(2)?; // confirmed: done; the notice still waits for the cars
    state.close_step(0) // nothing more of the booking: what is open of it lapses
}

/// Asks for the length, tries buffers that are too short, and writes the sheet.
fn write_out(state: &State, out: &mut impl Write) -> Result<Vec<u8>, Box<dyn Error>> {
    let length = state.sheet_length()?;
    for room in [0, length.saturating_sub(1)] {
        let mut lent = vec![UNWRITTEN; room];
        let answer = state.write_sheet(&mut lent);
        tell("office", &lent, answer, length, out)?;
        if answer != Err(CallFault::NoRoom) {
            return Err("a buffer that is too short is taken".into());
        }
    }
    let mut lent = vec![UNWRITTEN; LONGEST_SHEET];
    let answer = state.write_sheet(&mut lent);
    tell("office", &lent, answer, length, out)?;
    lent.truncate(answer?);
    writeln!(out, "{}", bytes_line(&lent))?;
    if lent.len() != length {
        return Err("the sheet has another length than was said".into());
    }
    Ok(lent)
}

/// The colleague opens what was written, has the office's first state, and writes the
/// same bytes.
fn pass_on(written: &[u8], first: &State, out: &mut impl Write) -> Result<(), Box<dyn Error>> {
    let state = State::open(written)?;
    writeln!(out, "{}", state_line("colleague, opened", &state))?;
    if state != *first {
        return Err("not the office's first state".into());
    }
    writeln!(out, "colleague: the office's first state")?;
    let mut again = vec![UNWRITTEN; written.len()];
    let answer = state.write_sheet(&mut again);
    tell("colleague", &again, answer, state.sheet_length()?, out)?;
    if again != written || state.to_sheet()? != written {
        return Err("other bytes than were passed on".into());
    }
    writeln!(out, "colleague: the same bytes")?;
    Ok(())
}

/// Bytes that are no state have no sheet; they never are a `State`.
fn try_no_state(out: &mut impl Write) -> Result<(), Box<dyn Error>> {
    let mut lent = vec![UNWRITTEN; LONGEST_SHEET];
    let (number, length) = raw::write_sheet(&[0; STATE_LEN], &mut lent);
    let fault = CallFault::from_number(number);
    if fault != CallFault::Incoherent {
        return Err("bytes that are no state are taken".into());
    }
    tell("no state", &lent, Err(fault), length, out)
}

/// What the office and the colleague do, told to `out`.
pub fn run(mut out: impl Write) -> Result<(), Box<dyn Error>> {
    let first = State::open(&SHEET)?;
    writeln!(out, "{}", state_line("office, opened", &first))?;
    let mut state = first.clone();
    make_calls(&mut state)?;
    writeln!(out, "{}", state_line("office, later", &state))?;
    let written = write_out(&state, &mut out)?;
    pass_on(&written, &first, &mut out)?;
    try_no_state(&mut out)
}

fn main() -> Result<(), Box<dyn Error>> {
    run(io::stdout().lock())
}
