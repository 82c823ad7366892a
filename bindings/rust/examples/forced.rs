//! A director who sees what no office has reported. Before an event is handed in, a
//! preview says how many others it would force; after it, the history says which. These
//! are listed, to be chased up, also from a state that was saved and read back. A report
//! that comes in late finds its event forced. It fails where anything is not so. It prints
//! what `examples/forced` of the repository does in C.
//!
//!     cargo run --release --offline --example forced

use sinewhopa::{Call, CallFault, Fate, Preview, State};
use std::error::Error;
use std::fs;
use std::io::{self, Write};

const SHEET: [u8; 22] = [
    1, 0, 0, // event 0, the cremation is confirmed: step 0; comes as it comes
    1, 1, 1, // event 1, the certificate is fetched: step 1; we may bring it about
    1, 2, 6, // event 2, the notice is printed: step 2; may be refused and can wait
    1, 3, 7, // event 3, the cars are ordered: step 3; the same, and we may bring it about
    3, 0, 1, // rule 0, need: the cremation only if the certificate
    3, 2, 0, // rule 1, need: the notice only if the cremation
    2, 3, 2, // rule 2, order: the cars before the notice
    5, // the end
];

const NAMES: [&str; 4] = ["cremation", "certificate", "notice", "cars"];

const CREMATION: u8 = 0;
const CERTIFICATE: u8 = 1;
const NOTICE: u8 = 2;

fn name(event: u8) -> &'static str {
    let name = NAMES.get(usize::from(event));
    name.copied().unwrap_or("no such event")
}

fn line((event, fate): (u8, Fate)) -> String {
    format!("{} {fate}", name(event))
}

/// Asks about an event, then hands it in. It is an error where the two differ.
fn ask_and_hand_in(
    state: &mut State,
    event: u8,
    out: &mut impl Write,
) -> Result<(), Box<dyn Error>> {
    let before = state.line_count();
    let asked = state.preview(event)?;
    let answer = state.submit(event)?;
    let new: Vec<(u8, Fate)> = state.settled_since(before).collect();
    let (settled, done, forced) = (asked.settled(), asked.done, asked.forced);
    let event = name(event);
    writeln!(
        out,
        "{event}: would settle {settled} ({done} done, {forced} forced)"
    )?;
    let lines: Vec<String> = new.iter().copied().map(line).collect();
    writeln!(out, "{event}: {answer}, settled {}", lines.join(", "))?;
    if asked != counted(&new) {
        return Err("the preview and the hand-in differ".into());
    }
    Ok(())
}

/// The history's new lines, which are done or forced, counted as a preview counts them.
fn counted(new: &[(u8, Fate)]) -> Preview {
    let count = |fate: Fate| new.iter().filter(|line| line.1 == fate).count() as u8;
    Preview {
        done: count(Fate::Done),
        forced: count(Fate::Forced),
        ..Preview::default()
    }
}

/// What is to be chased up: the events that have come about without an office's report.
fn show_forced(state: &State, out: &mut impl Write) -> io::Result<()> {
    for event in state.events().filter(|event| event.fate == Fate::Forced) {
        let event = name(event.number);
        writeln!(out, "chase up {event}: forced, no office has reported it")?;
    }
    Ok(())
}

/// Saves the state to a file and gives what is read back.
fn save_and_load(state: &State, out: &mut impl Write) -> Result<State, Box<dyn Error>> {
    let path = std::env::temp_dir().join(format!("sinewhopa-forced-{}", std::process::id()));
    fs::write(&path, state.as_bytes())?;
    let stored = fs::read(&path)?;
    fs::remove_file(&path)?;
    writeln!(out, "saved and read back: {} bytes", stored.len())?;
    Ok(State::from_bytes(stored.as_slice().try_into()?)?)
}

/// The office's report of an event that was forced meanwhile. It is an error where it does
/// not stay forced, or where anything changes.
fn report_late(state: &mut State, event: u8, out: &mut impl Write) -> Result<(), Box<dyn Error>> {
    let before = state.clone();
    let answer = state.submit(event)?;
    if answer != Fate::Forced || *state != before {
        return Err("a late report changes something".into());
    }
    let event = name(event);
    writeln!(out, "{event}, reported late: {answer}, nothing changed")?;
    Ok(())
}

/// Two reports in one batch, on the sheet's first state. It is an error where the first is
/// not done, or where the second answers another fate.
fn try_batch(
    first: u8,
    second: u8,
    expected: Fate,
    out: &mut impl Write,
) -> Result<(), Box<dyn Error>> {
    let mut state = State::open(&SHEET)?;
    let answers = state.submit_all(&[Call::Submit(first), Call::Submit(second)])?;
    if answers != [Ok(Some(Fate::Done)), Ok(Some(expected))] {
        return Err("a batch is answered otherwise".into());
    }
    let (first, second) = (line((first, Fate::Done)), line((second, expected)));
    writeln!(out, "one batch: {first}, {second}")?;
    Ok(())
}

/// What is answered to the state's bytes where one of them, which says forced, is made to say
/// done: each such byte in turn.
fn hidden(state: &State) -> Vec<Result<State, CallFault>> {
    let stored = state.as_bytes();
    let places = (0..stored.len()).filter(|place| stored[*place] == Fate::Forced.number());
    let changed = places.map(|place| {
        let mut bytes = *stored;
        bytes[place] = Fate::Done.number();
        State::from_bytes(&bytes)
    });
    changed.collect()
}

/// Somebody hides that the event was forced, and tries its line and every other byte that says
/// so. It is an error where the event was not forced, where these bytes are not a fate and a
/// line of each forced event, or where one of the answers is a state.
fn try_hiding(state: &State, event: u8, out: &mut impl Write) -> Result<(), Box<dyn Error>> {
    let answers = hidden(state);
    let forced = state.events().filter(|event| event.fate == Fate::Forced);
    let both = answers.len() == 2 * forced.count();
    let turned_down = Err(CallFault::Incoherent);
    let all = answers.into_iter().all(|answer| answer == turned_down);
    if state.fate(event) != Some(Fate::Forced) || !both || !all {
        return Err("bytes that hide what was forced are taken".into());
    }
    let (event, number) = (name(event), CallFault::Incoherent.number());
    writeln!(out, "{event}, its line made done: turned down, {number}")?;
    Ok(())
}

/// The whole plan, told to `out`.
pub fn run(mut out: impl Write) -> Result<(), Box<dyn Error>> {
    let mut state = State::open(&SHEET)?;
    ask_and_hand_in(&mut state, CREMATION, &mut out)?;
    show_forced(&state, &mut out)?;
    ask_and_hand_in(&mut state, NOTICE, &mut out)?;
    let mut state = save_and_load(&state, &mut out)?;
    show_forced(&state, &mut out)?;
    report_late(&mut state, CERTIFICATE, &mut out)?;
    try_batch(CREMATION, CERTIFICATE, Fate::Forced, &mut out)?;
    try_batch(CERTIFICATE, CREMATION, Fate::Done, &mut out)?;
    try_hiding(&state, CERTIFICATE, &mut out)?;
    out.write_all(&state.report(0))?;
    Ok(())
}

fn main() -> Result<(), Box<dyn Error>> {
    run(io::stdout().lock())
}
