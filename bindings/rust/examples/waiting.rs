//! A director whose family approves embalming before the consent form has come in. The
//! transport firm may report at any time and cannot be turned away, so that embalming
//! waits for the form: until it comes in, or until the firm is out of it. The host asks
//! before it hands in, reads from the state on what an event waits, saves a state that
//! waits and goes on from it, and meets states that an earlier version of the library has
//! stored. It fails where anything is not so. It prints what `examples/waiting` of the
//! repository does in C.
//!
//!     cargo run --release --offline --example waiting

use sinewhopa::{raw, Call, Fate, Form, Preview, Rule, State, STATE_LEN};
use std::error::Error;
use std::fs;
use std::io::{self, Write};

type Result<T> = std::result::Result<T, Box<dyn Error>>;

const NAMES: [&str; 3] = ["embalming", "transport", "consent"];

/// The events; each has the step of its number.
const EMBALMING: u8 = 0;
const TRANSPORT: u8 = 1;
const CONSENT: u8 = 2;

/// Why a conditional holds one of its triggers back until its third event is settled.
#[derive(Clone, Copy, PartialEq)]
enum Reason {
    /// The other trigger may still come; it could not be stopped then, nor the third event
    /// be forced.
    Ahead,
    /// The other trigger is done.
    Due,
}

/// A call, by event or step; how many lines the history gets; and why embalming is held
/// then, if it is.
type Turn = (Call, usize, Option<Reason>);

const APPROVAL: Turn = (Call::Submit(EMBALMING), 0, Some(Reason::Ahead));
const NO_FORM: Turn = (Call::CloseStep(CONSENT), 2, None);
const REPORT: Turn = (Call::Submit(TRANSPORT), 1, None);

/// A plan with other attributes of two events, or other calls, than the story has; and
/// the history that it ends with.
struct Neighbour {
    name: &'static str,
    transport: u8,
    consent: u8,
    turns: &'static [Turn],
    lines: &'static [(u8, Fate)],
}

const NEIGHBOURS: [Neighbour; 7] = [
    Neighbour {
        name: "the consent form comes in",
        transport: 0,
        consent: 6,
        turns: &[APPROVAL, (Call::Submit(CONSENT), 2, None), REPORT],
        lines: &[
            (EMBALMING, Fate::Done),
            (CONSENT, Fate::Done),
            (TRANSPORT, Fate::Done),
        ],
    },
    Neighbour {
        name: "the consent form may be brought about",
        transport: 0,
        consent: 7,
        turns: &[
            (Call::Submit(EMBALMING), 1, None),
            (Call::Submit(TRANSPORT), 2, None),
        ],
        lines: &[
            (EMBALMING, Fate::Done),
            (TRANSPORT, Fate::Done),
            (CONSENT, Fate::Forced),
        ],
    },
    Neighbour {
        name: "the transport firm can be turned away",
        transport: 2,
        consent: 6,
        turns: &[
            (Call::Submit(EMBALMING), 1, None),
            (Call::CloseStep(CONSENT), 1, None),
            REPORT,
        ],
        lines: &[
            (EMBALMING, Fate::Done),
            (CONSENT, Fate::Lapsed),
            (TRANSPORT, Fate::Refused),
        ],
    },
    Neighbour {
        name: "the transport firm is out of it first",
        transport: 0,
        consent: 6,
        turns: &[
            (Call::CloseStep(TRANSPORT), 1, None),
            (Call::Submit(EMBALMING), 1, None),
        ],
        lines: &[(TRANSPORT, Fate::Lapsed), (EMBALMING, Fate::Done)],
    },
    Neighbour {
        name: "the transport firm reports first",
        transport: 0,
        consent: 6,
        turns: &[
            REPORT,
            (Call::Submit(EMBALMING), 0, Some(Reason::Due)),
            NO_FORM,
        ],
        lines: &[
            (TRANSPORT, Fate::Done),
            (CONSENT, Fate::Lapsed),
            (EMBALMING, Fate::Refused),
        ],
    },
    Neighbour {
        name: "the transport firm and the consent form are out of it first",
        transport: 0,
        consent: 6,
        turns: &[
            (Call::CloseStep(TRANSPORT), 1, None),
            (Call::CloseStep(CONSENT), 1, None),
            (Call::Submit(EMBALMING), 1, None),
        ],
        lines: &[
            (TRANSPORT, Fate::Lapsed),
            (CONSENT, Fate::Lapsed),
            (EMBALMING, Fate::Done),
        ],
    },
    Neighbour {
        name: "the transport firm is out of it while embalming waits",
        transport: 0,
        consent: 6,
        turns: &[APPROVAL, (Call::CloseStep(TRANSPORT), 2, None)],
        lines: &[(TRANSPORT, Fate::Lapsed), (EMBALMING, Fate::Done)],
    },
];

fn name(event: u8) -> &'static str {
    let name = NAMES.get(usize::from(event));
    name.copied().unwrap_or("no such event")
}

/// Opens a plan from its sheet. The story has 0 as transport's attributes (it comes as it
/// comes) and 6 as consent's.
fn open_plan(transport: u8, consent: u8) -> Result<State> {
    let sheet = [
        1, 0, 6, // event 0, the family approves embalming: step 0; may wait or be refused
        1, 1, transport, // event 1, the transport firm reports: step 1
        1, 2, consent, // event 2, the consent form comes in: step 2
        4, 0, 1, 2, // rule 0, conditional: if embalming and transport, then consent
        5, // the end
    ];
    Ok(State::open(&sheet)?)
}

/// Why this rule holds the event back, read from the rule, the attributes and the fates
/// alone; with the other trigger and the third event.
fn reason_by(state: &State, rule: Rule, event: u8) -> Option<(Reason, u8, u8)> {
    let Form::Conditional { triggers, then } = rule.form else {
        return None;
    };
    let [a, b] = triggers;
    let other = state.event(if event == a { b } else { a })?;
    let third = state.event(then)?;
    if rule.broken || third.fate.is_settled() || !triggers.contains(&event) {
        return None;
    }
    let stoppable = other.attributes.is_rejectable() || other.attributes.is_delayable();
    let forcible = third.attributes.is_forcible();
    match other.fate {
        fate if fate.counts_as_done() => Some((Reason::Due, other.number, then)),
        Fate::Open if !stoppable && !forcible => Some((Reason::Ahead, other.number, then)),
        _ => None,
    }
}

/// An event that is held, and on what it waits; and the reason.
fn wait_of(state: &State, event: u8) -> (String, Option<Reason>) {
    let reason = state.rules().find_map(|rule| reason_by(state, rule, event));
    let Some((reason, other, third)) = reason else {
        return (name(event).to_string(), None);
    };
    let why = match reason {
        Reason::Ahead => "may still come, and cannot be turned away",
        Reason::Due => "is done",
    };
    let (event, other, third) = (name(event), name(other), name(third));
    let told = format!("{event}, which waits for {third}: {other} {why}");
    (told, Some(reason))
}

/// What is held. It is an error where it is anything but embalming, for this reason; or
/// nothing, where there is none.
fn held(state: &State, expected: Option<Reason>) -> Result<String> {
    let waits: Vec<(String, Option<Reason>)> =
        state.held().map(|event| wait_of(state, event)).collect();
    let alone = state.held().eq(expected.map(|_| EMBALMING));
    if !alone || waits.iter().any(|(_, reason)| *reason != expected) {
        return Err("something else is held, or for another reason".into());
    }
    let told: Vec<String> = waits.into_iter().map(|(told, _)| told).collect();
    Ok(if told.is_empty() {
        "none".to_string()
    } else {
        told.join(" ")
    })
}

/// The history's new lines, as they are told.
fn settled(new: &[(u8, Fate)]) -> String {
    let line = |(event, fate): &(u8, Fate)| format!("{} {fate}", name(*event));
    let lines: Vec<String> = new.iter().map(line).collect();
    if lines.is_empty() {
        "nothing settled".to_string()
    } else {
        lines.join(", ")
    }
}

/// The history's new lines, counted as a preview counts them.
fn counted(new: &[(u8, Fate)]) -> Preview {
    let count = |fate: Fate| new.iter().filter(|line| line.1 == fate).count() as u8;
    Preview {
        done: count(Fate::Done),
        refused: count(Fate::Refused),
        lapsed: count(Fate::Lapsed),
        forced: count(Fate::Forced),
    }
}

/// Asks what an event would settle, and tells it. It is an error where it is anything but
/// so many done.
fn ask(state: &State, event: u8, done: u8, out: &mut impl Write) -> Result<()> {
    let asked = state.preview(event)?;
    writeln!(
        out,
        "{}: would settle {} ({} done, {} refused, {} lapsed, {} forced)",
        name(event),
        asked.settled(),
        asked.done,
        asked.refused,
        asked.lapsed,
        asked.forced
    )?;
    if asked
        != (Preview {
            done,
            ..Preview::default()
        })
    {
        return Err("something else would be settled".into());
    }
    Ok(())
}

/// Makes a call and gives the history's new lines. It is an error where a hand-in settles
/// something else than a preview has counted.
fn answer(state: &mut State, call: Call) -> Result<Vec<(u8, Fate)>> {
    let before = state.clone();
    match call {
        Call::Submit(event) => state.submit(event).map(|_| ())?,
        Call::CloseStep(step) => state.close_step(step)?,
    }
    let new: Vec<(u8, Fate)> = state.settled_since(before.line_count()).collect();
    match call {
        Call::Submit(event) if before.preview(event)? != counted(&new) => {
            Err("the preview and the hand-in differ".into())
        }
        _ => Ok(new),
    }
}

/// Makes a call, and tells what it has settled and what is held then. It is an error where
/// that is not what has to come of it.
fn make(state: &mut State, (call, lines, reason): Turn, out: &mut impl Write) -> Result<()> {
    let new = answer(state, call)?;
    let (event, made) = match call {
        Call::Submit(event) => (event, "handed in"),
        Call::CloseStep(step) => (step, "closed"),
    };
    let (event, settled, held) = (name(event), settled(&new), held(state, reason)?);
    writeln!(out, "{event} {made}: {settled}; held {held}")?;
    if new.len() != lines {
        return Err("more is settled, or less".into());
    }
    Ok(())
}

/// Saves the state to a file and gives what is read back.
fn save_and_load(state: &State, out: &mut impl Write) -> Result<State> {
    let path = std::env::temp_dir().join(format!("sinewhopa-waiting-{}", std::process::id()));
    fs::write(&path, state.as_bytes())?;
    let stored = fs::read(&path)?;
    fs::remove_file(&path)?;
    writeln!(out, "saved and read back: {} bytes", stored.len())?;
    Ok(State::from_bytes(stored.as_slice().try_into()?)?)
}

/// The story, on a state that is saved while embalming waits. The calls after that are
/// made on the kept one too, untold.
fn tell_story(out: &mut impl Write) -> Result<()> {
    let mut kept = open_plan(0, 6)?;
    ask(&kept, EMBALMING, 0, out)?;
    make(&mut kept, APPROVAL, out)?;
    ask(&kept, CONSENT, 2, out)?;
    let mut loaded = save_and_load(&kept, out)?;
    for turn in [NO_FORM, REPORT] {
        make(&mut loaded, turn, out)?;
        answer(&mut kept, turn.0)?;
    }
    if kept != loaded || loaded.is_broken(0) {
        return Err("what was saved goes on otherwise, or the rule is broken".into());
    }
    writeln!(out, "kept, with the same calls: the same bytes")?;
    out.write_all(&loaded.report(0))?;
    Ok(())
}

/// Plays a neighbour of the story. It is an error where its history is another, or where
/// the rule is broken.
fn play(neighbour: &Neighbour, out: &mut impl Write) -> Result<()> {
    writeln!(out, "{}:", neighbour.name)?;
    let mut state = open_plan(neighbour.transport, neighbour.consent)?;
    for turn in neighbour.turns {
        make(&mut state, *turn, out)?;
    }
    let as_expected = state.history().eq(neighbour.lines.iter().copied());
    if !as_expected || state.is_broken(0) {
        return Err("a neighbour of the story ends otherwise".into());
    }
    Ok(())
}

/// What an earlier version has stored of the story's plan after these calls. It did embalming
/// at once, as this version does where the consent form may be brought about. So the calls are
/// made on such a plan; where the two plans' first bytes differ, the story's are taken.
fn stored_earlier(calls: &[Call]) -> Result<[u8; STATE_LEN]> {
    let (story, other) = (open_plan(0, 6)?, open_plan(0, 7)?);
    let mut after = other.clone();
    let answers = after.submit_all(calls)?;
    answers
        .into_iter()
        .collect::<std::result::Result<Vec<_>, _>>()?;
    let (own, others, mut bytes) = (story.as_bytes(), other.as_bytes(), *after.as_bytes());
    for place in (0..STATE_LEN).filter(|place| own[*place] != others[*place]) {
        bytes[place] = own[place];
    }
    Ok(bytes)
}

/// Bytes of an earlier version, where embalming was done at once. It is an error where a
/// call does not turn them down, or where a byte changes.
fn try_earlier(out: &mut impl Write) -> Result<()> {
    let stored = stored_earlier(&[Call::Submit(EMBALMING)])?;
    let mut bytes = stored;
    let checked = State::from_bytes(&bytes)
        .err()
        .map_or(0, |fault| fault.number());
    let submitted = raw::submit(&mut bytes, CONSENT);
    let closed = raw::close_step(&mut bytes, TRANSPORT);
    let previewed = raw::preview(&bytes, CONSENT, &mut [0; raw::ADDED_COUNTS]);
    let told = "stored by an earlier version, embalming done, transport and consent open:";
    writeln!(out, "{told}")?;
    if [checked, submitted, closed, previewed] != [12; 4] || bytes != stored {
        return Err("a state that an earlier version has stored is taken, or written".into());
    }
    let calls = format!("submit {submitted}, close step {closed}, preview {previewed}");
    writeln!(out, "check {checked}, {calls}, left as it was")?;
    Ok(())
}

/// The way out: the plan's own sheet, and the calls that were made on it.
fn open_again(out: &mut impl Write) -> Result<()> {
    writeln!(out, "opened again from its sheet, with its list of calls:")?;
    make(&mut open_plan(0, 6)?, APPROVAL, out)
}

/// Bytes of an earlier version in which consent has lapsed too. Nothing is owed any more:
/// they are taken, and the rule breaks.
fn try_too_late(out: &mut impl Write) -> Result<()> {
    let bytes = stored_earlier(&[Call::Submit(EMBALMING), Call::CloseStep(CONSENT)])?;
    let told = "stored by an earlier version, embalming done, consent lapsed, transport open:";
    writeln!(out, "{told}")?;
    let mut state = State::from_bytes(&bytes)?;
    writeln!(out, "check 0")?;
    make(&mut state, REPORT, out)?;
    if !state.is_broken(0) {
        return Err("the rule is kept, although consent has lapsed".into());
    }
    writeln!(out, "rule 0: broken")?;
    Ok(())
}

/// The story, its neighbours and what was stored before, told to `out`.
pub fn run(mut out: impl Write) -> Result<()> {
    tell_story(&mut out)?;
    for neighbour in &NEIGHBOURS {
        play(neighbour, &mut out)?;
    }
    try_earlier(&mut out)?;
    open_again(&mut out)?;
    try_too_late(&mut out)
}

fn main() -> Result<()> {
    run(io::stdout().lock())
}
