//! A morning's replies, handed in together: one batch on a sheet with four steps. A
//! call that is turned down does not stop the later ones; a list of more than 64 is
//! turned down whole. It prints what `examples/batch` of the repository does in C.
//!
//!     cargo run --release --offline --example batch

use sinewhopa::{Answer, Call, Fate, State, LONGEST_BATCH};
use std::error::Error;
use std::io::{self, Write};

const SHEET: [u8; 28] = [
    1, 0, 0, // event 0, the crematorium confirms: step 0; comes as it comes
    1, 1, 6, // event 1, the notice is printed: step 1; may be refused and can wait
    1, 2, 6, // event 2, the cars are sent: step 2; the same
    1, 3, 0, // event 3, the organist agrees: step 3; comes as it comes
    1, 3, 6, // event 4, the choir is booked: step 3; may be refused and can wait
    2, 0, 1, // rule 0, order: the crematorium before the notice
    3, 1, 0, // rule 1, need: the notice only if the crematorium
    3, 2, 0, // rule 2, need: the cars only if the crematorium
    3, 4, 3, // rule 3, need: the choir only if the organist
    5, // the end
];

const REPLIES: [Call; 7] = [
    Call::Submit(1),    // the newspaper: held, as the crematorium has not confirmed
    Call::Submit(4),    // the choir: held, as the organist has not agreed
    Call::Submit(9),    // a slip: there is no event 9; the later calls go ahead
    Call::CloseStep(3), // no more music: the organist lapses, so the choir is refused
    Call::Submit(0),    // the crematorium: done, and the notice with it
    Call::Submit(1),    // the newspaper once more: done by now
    Call::CloseStep(3), // closed already
];

/// What a call was answered.
fn line(call: Call, answer: Answer) -> String {
    let said = match answer {
        Ok(Some(fate)) => fate.to_string(),
        Ok(None) => "closed".to_string(),
        Err(fault) => format!("turned down, {}", fault.number()),
    };
    match call {
        Call::Submit(event) => format!("hand in {event}: {said}"),
        Call::CloseStep(step) => format!("close step {step}: {said}"),
    }
}

/// The whole morning, told to `out`.
pub fn run(mut out: impl Write) -> Result<(), Box<dyn Error>> {
    let mut state = State::open(&SHEET)?;
    let before = state.line_count();
    let answers = state.submit_all(&REPLIES)?;
    for (call, answer) in REPLIES.into_iter().zip(answers) {
        writeln!(out, "{}", line(call, answer))?;
    }
    let told = |(event, fate): (u8, Fate)| format!("{event} {fate}");
    let settled: Vec<String> = state.settled_since(before).map(told).collect();
    writeln!(out, "settled: {}", settled.join(", "))?;

    let many = [Call::Submit(2); LONGEST_BATCH + 1];
    let kept = state.clone();
    if let Err(fault) = state.submit_all(&many) {
        let (length, number) = (many.len(), fault.number());
        let written = if state == kept {
            "nothing written"
        } else {
            "WRITTEN"
        };
        writeln!(out, "{length} entries: turned down, {number}, {written}")?;
    }
    Ok(())
}

fn main() -> Result<(), Box<dyn Error>> {
    run(io::stdout().lock())
}
