//! A host that asks before it hands in: first what an event would settle, then what it
//! has settled, on a sheet with five events of four steps. It fails where the two
//! differ. It prints what `examples/preview` of the repository does in C.
//!
//!     cargo run --release --offline --example preview

use sinewhopa::{CallFault, Fate, Preview, State};
use std::error::Error;
use std::io::{self, Write};

const SHEET: [u8; 34] = [
    1, 0, 0, // event 0, the crematorium takes the coffin: step 0; comes as it comes
    1, 1, 6, // event 1, the notice is printed: step 1; may be refused and can wait
    1, 2, 0, // event 2, the chapel confirms: step 2; comes as it comes
    1, 2, 6, // event 3, the viewing takes place: step 2; may be refused and can wait
    1, 3, 6, // event 4, the flowers are sent: step 3; the same
    2, 0, 1, // rule 0, order: the crematorium before the notice
    3, 1, 0, // rule 1, need: the notice only if the crematorium
    3, 1, 2, // rule 2, need: the notice only if the chapel
    3, 3, 2, // rule 3, need: the viewing only if the chapel
    2, 3, 0, // rule 4, order: the viewing before the crematorium
    3, 4, 2, // rule 5, need: the flowers only if the chapel
    5, // the end
];

const NAMES: [&str; 5] = ["crematorium", "notice", "chapel", "viewing", "flowers"];

const REPLIES: [u8; 7] = [
    1, // the newspaper: would be held, as neither the crematorium nor the chapel has replied
    3, // the viewing: would be held, as the chapel has not confirmed
    4, // the flowers: the same
    0, // the crematorium: would be done, and the viewing, for which it is too late then, refused
    2, // the chapel: would be done, and the notice and the flowers with it
    7, // a slip: there is no event 7
    0, // the crematorium once more: settled already, so that nothing would be
];

fn name(event: u8) -> &'static str {
    let name = NAMES.get(usize::from(event));
    name.copied().unwrap_or("no such event")
}

/// What the preview was answered.
fn preview_line(event: u8, asked: Result<Preview, CallFault>, as_it_was: bool) -> String {
    let would = match asked {
        Ok(preview) => format!(
            "settle {} ({} done, {} refused, {} lapsed, {} forced)",
            preview.settled(),
            preview.done,
            preview.refused,
            preview.lapsed,
            preview.forced
        ),
        Err(fault) if as_it_was => format!("be turned down, {}, nothing written", fault.number()),
        Err(fault) => format!("be turned down, {}, WRITTEN", fault.number()),
    };
    format!("{}: would {would}", name(event))
}

/// What the hand-in was answered, and what it has settled: the history's new lines.
fn settled_line(event: u8, answer: Result<Fate, CallFault>, new: &[(u8, Fate)]) -> String {
    let told = |(event, fate): &(u8, Fate)| format!("{} {fate}", name(*event));
    let lines: Vec<String> = new.iter().map(told).collect();
    let said = match answer {
        Ok(fate) if new.is_empty() => format!("{fate}, settled 0"),
        Ok(fate) => format!("{fate}, settled {} ({})", new.len(), lines.join(", ")),
        Err(fault) => format!("turned down, {}", fault.number()),
    };
    format!("{}: {said}", name(event))
}

/// The history's new lines, counted as a preview counts them.
fn counted(new: &[(u8, Fate)]) -> Preview {
    let count = |fate: Fate| new.iter().filter(|line| line.1 == fate).count() as u8;
    Preview {
        done: count(Fate::Done),
        refused: count(Fate::Refused),
        lapsed: count(Fate::Lapsed),
        forced: count(Fate::Forced),
    }
}

/// Asks about an event, then hands it in. It is an error where the preview writes the
/// state, or where the two differ.
fn ask_and_hand_in(
    state: &mut State,
    event: u8,
    out: &mut impl Write,
) -> Result<(), Box<dyn Error>> {
    let before = state.clone();
    let asked = state.preview(event);
    let as_it_was = *state == before;
    writeln!(out, "{}", preview_line(event, asked, as_it_was))?;
    let answer = state.submit(event);
    let new: Vec<(u8, Fate)> = state.settled_since(before.line_count()).collect();
    writeln!(out, "{}", settled_line(event, answer, &new))?;
    if !as_it_was || asked != answer.map(|_| counted(&new)) {
        return Err("the preview and the hand-in differ".into());
    }
    Ok(())
}

/// All replies, told to `out`.
pub fn run(mut out: impl Write) -> Result<(), Box<dyn Error>> {
    let mut state = State::open(&SHEET)?;
    for event in REPLIES {
        ask_and_hand_in(&mut state, event, &mut out)?;
    }
    Ok(())
}

fn main() -> Result<(), Box<dyn Error>> {
    run(io::stdout().lock())
}
