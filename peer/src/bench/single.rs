//! Single calls, a preview and a sheet written out, on a state that its owner keeps, where
//! the state is as full as it can be: 16 events, 16 rules, and a full history or sixteen
//! events held (in the last call and the preview, 15 rules and fifteen held).
//!
//! The library tests number 12 in each, as any bytes could be given to it; the peer never
//! does.

use super::bytes::{all_early, all_held, all_settled, closings, hand_ins, star, Pair};
use super::kept::{make_all, Kept};
use super::timing::Work;
use crate::peer::calls::Call;
use crate::peer::write::LONGEST;
use crate::peer::Scheduler;
use std::cell::RefCell;
use std::hint::black_box;

/// The calls of a pass.
const PASS: usize = 100;
/// The event that fifteen wait for.
const WAITED_FOR: u8 = 15;

/// A call and the state to make it on, as a sheet and the calls before.
pub struct Single {
    pub name: &'static str,
    pub before: Pair,
    pub call: Call,
}

pub fn list() -> Vec<Single> {
    let (settled, held) = (on_settled().into_iter(), on_held());
    settled.chain(held).chain(on_early()).collect()
}

/// Where all sixteen events are settled.
fn on_settled() -> [Single; 5] {
    let (settled, closed) = (all_settled(), closed(all_settled()));
    [
        single("a hand-in of a settled event", &settled, Call::Submit(0)),
        single(
            "a hand-in of an event that is not there",
            &settled,
            Call::Submit(255),
        ),
        single(
            "a closing, all settled (on a copy)",
            &settled,
            Call::CloseStep(3),
        ),
        single("a closing of a closed step", &closed, Call::CloseStep(3)),
        single(
            "a winding up, all settled and closed",
            &closed,
            Call::Finish,
        ),
    ]
}

/// Where sixteen events are held, or fifteen for want of the last.
fn on_held() -> [Single; 5] {
    let (held, closed) = (all_held(), closed(all_held()));
    [
        single("a winding up, steps not closed yet", &held, Call::Finish),
        single("a hand-in of a held event", &held, Call::Submit(5)),
        single(
            "a closing, sixteen held (on a copy)",
            &held,
            Call::CloseStep(3),
        ),
        single(
            "a winding up of sixteen held events (on a copy)",
            &closed,
            Call::Finish,
        ),
        single(
            "a hand-in that fifteen wait for (on a copy)",
            &waiting(),
            Call::Submit(WAITED_FOR),
        ),
    ]
}

/// Where sixteen events are held until their windows open.
fn on_early() -> [Single; 2] {
    let early = all_early();
    [
        single(
            "a move to the same minute, sixteen held",
            &early,
            Call::Advance(0),
        ),
        single(
            "a move that sixteen held events are done at (on a copy)",
            &early,
            Call::Advance(1),
        ),
    ]
}

fn single(name: &'static str, before: &Pair, call: Call) -> Single {
    let before = before.clone();
    Single { name, before, call }
}

/// Fifteen held, for want of one that is open.
fn waiting() -> Pair {
    (star(), hand_ins(WAITED_FOR))
}

/// The state with every step closed.
fn closed((sheet, calls): Pair) -> Pair {
    (sheet, [calls, closings(16)].concat())
}

impl Single {
    /// The state that the call is made on.
    pub fn state<S: Kept>(&self) -> S {
        let (sheet, calls) = &self.before;
        let mut state = S::open(sheet);
        make_all(&mut state, calls, |_| {});
        state
    }

    /// What the call answers and the report after it.
    pub fn outcome<S: Kept>(&self) -> (u8, Vec<u8>) {
        let mut state = self.state::<S>();
        (state.call(self.call), state.report())
    }

    /// Whether the call leaves the state as it is.
    pub fn is_idle<S: Kept>(&self) -> bool {
        let before = self.state::<S>();
        let mut after = before.clone();
        after.call(self.call);
        after.is(&before)
    }

    /// A pass makes the call many times. The library has to answer and to report as
    /// the peer does.
    pub fn work<Library: Kept + 'static>(&self) -> Result<Work<'_>, String> {
        let idle = self.is_idle::<Scheduler>();
        let same = self.outcome::<Library>() == self.outcome::<Scheduler>();
        if !same || self.is_idle::<Library>() != idle {
            return Err(format!("{} differs", self.name));
        }
        let passes = [self.pass::<Library>(idle), self.pass::<Scheduler>(idle)];
        Ok(Work {
            name: self.name,
            calls: PASS,
            passes,
        })
    }

    /// A call that leaves the state as it is is made on the one state again and
    /// again. Any other is made on a copy each time: the copying is part of the time,
    /// and has a row of its own.
    fn pass<S: Kept + 'static>(&self, idle: bool) -> Box<dyn Fn()> {
        let (call, state) = (self.call, RefCell::new(self.state::<S>()));
        if idle {
            return Box::new(move || call_again(&mut *state.borrow_mut(), call));
        }
        Box::new(move || call_copies(&*state.borrow(), call))
    }
}

fn call_again(state: &mut impl Kept, call: Call) {
    for _ in 0..PASS {
        black_box(state.call(black_box(call)));
        black_box(&state);
    }
}

fn call_copies(state: &impl Kept, call: Call) {
    for _ in 0..PASS {
        let mut copy = black_box(state).clone();
        black_box(copy.call(black_box(call)));
        black_box(&copy);
    }
}

/// Previews of the hand-in that fifteen wait for. The state stays as it is; the peer
/// copies it, which is part of the time. The library has to count as the peer does.
pub fn previews<Library: Kept + 'static>() -> Result<Work<'static>, String> {
    let hand_in = Call::Submit(WAITED_FOR);
    let single = single(
        "a preview of a hand-in that fifteen wait for",
        &waiting(),
        hand_in,
    );
    let (library, peer) = (single.state::<Library>(), single.state::<Scheduler>());
    if library.preview(WAITED_FOR) != peer.preview(WAITED_FOR) {
        return Err(format!("{} differs", single.name));
    }
    Ok(Work {
        name: single.name,
        calls: PASS,
        passes: [
            Box::new(move || preview(&library, WAITED_FOR)),
            Box::new(move || preview(&peer, WAITED_FOR)),
        ],
    })
}

fn preview(state: &impl Kept, event: u8) {
    for _ in 0..PASS {
        let added = black_box(state).preview(black_box(event));
        black_box(&added);
    }
}

/// Writings of the fullest state's sheet into one buffer. The library has to write as the
/// peer does.
pub fn writings<Library: Kept + 'static>() -> Result<Work<'static>, String> {
    let name = "a sheet of 16 events and 16 rules, written out";
    let full = single(name, &all_settled(), Call::Finish);
    let (library, peer) = (full.state::<Library>(), full.state::<Scheduler>());
    if written(&library) != written(&peer) {
        return Err(format!("{name} differs"));
    }
    Ok(Work {
        name,
        calls: PASS,
        passes: [
            Box::new(move || write(&library)),
            Box::new(move || write(&peer)),
        ],
    })
}

/// The number, the length, and the buffer after a writing.
pub fn written(state: &impl Kept) -> (u8, usize, [u8; LONGEST]) {
    let mut out = [0; LONGEST];
    let (number, length) = state.write_sheet(&mut out);
    (number, length, out)
}

fn write(state: &impl Kept) {
    let mut out = [0; LONGEST];
    for _ in 0..PASS {
        black_box(black_box(state).write_sheet(&mut out));
        black_box(&mut out);
    }
}

/// Copies of the fullest state, without a call. The peer's allocate.
pub fn copies<Library: Kept + 'static>() -> Work<'static> {
    let full = single("", &all_settled(), Call::Finish);
    let (library, peer) = (full.state::<Library>(), full.state::<Scheduler>());
    Work {
        name: "a copy of the state alone",
        calls: PASS,
        passes: [
            Box::new(move || copy(&library)),
            Box::new(move || copy(&peer)),
        ],
    }
}

fn copy(state: &impl Kept) {
    for _ in 0..PASS {
        black_box(black_box(state).clone());
    }
}
