//! Single calls, compared after every one: the answer, all bytes of the state,
//! and what its readers show. What S-6 promises is read off the bytes as well.

use super::layout::{self, number, Image, BEYOND};
use super::waiting::kept;
use crate::compare::{hex, missing, numbered};
use crate::library::{raw, Fate, State};
use crate::peer::calls::{apply, Call};
use crate::peer::report::report;
use crate::peer::set::{has, members};
use crate::peer::{Answer, Fate as Own, Line, Reason, Run, Scheduler, Sheet};
use crate::random::{sheet, single_calls, Random};
use std::fmt::Debug;

/// The pairs of the test.
pub const COUNT: usize = 25_000;

/// A state that a host keeps, as the comparison drives it.
pub trait Host: Sized {
    /// The first state of a sheet, or the number and the offset of its fault.
    fn open(sheet: &[u8]) -> Result<Self, (u8, usize)>;
    /// Makes the call: 0 or the number, and the fate of a hand-in that is taken.
    fn call(&mut self, call: Call) -> (u8, Option<u8>);
    fn image(&self) -> &Image;
    fn shown(&self) -> Shown;
    fn report(&self, refused: usize) -> Vec<u8>;
}

/// What the readers of a state show.
#[derive(Debug, PartialEq, Eq)]
pub struct Shown {
    pub counts: (u8, u8),
    /// Of events 0 to 16.
    pub fates: Vec<Option<u8>>,
    pub held: Vec<u8>,
    /// Of steps 0 to 16.
    pub closed: Vec<bool>,
    /// Of rules 0 to 16.
    pub broken: Vec<bool>,
    pub history: Vec<(u8, u8)>,
    pub minute: u32,
    /// Of events 0 to 16, from and until.
    pub windows: Vec<Option<[u32; 2]>>,
}

impl Host for State {
    fn open(sheet: &[u8]) -> Result<State, (u8, usize)> {
        State::open(sheet).map_err(|fault| (fault.number(), fault.offset()))
    }

    fn call(&mut self, call: Call) -> (u8, Option<u8>) {
        let answer = match call {
            Call::Submit(event) => self.submit(event).map(|fate| Some(fate.number())),
            Call::CloseStep(step) => self.close_step(step).map(|()| None),
            Call::Finish => self.finish().map(|()| None),
            Call::Advance(minute) => self.advance(minute).map(|()| None),
        };
        match answer {
            Ok(fate) => (0, fate),
            Err(fault) => (fault.number(), None),
        }
    }

    fn image(&self) -> &Image {
        self.as_bytes()
    }

    fn shown(&self) -> Shown {
        Shown {
            counts: (self.event_count(), self.rule_count()),
            fates: row(|event| self.fate(event).map(Fate::number)),
            held: self.held().collect(),
            closed: row(|step| self.is_closed(step)),
            broken: row(|rule| self.is_broken(rule)),
            history: self
                .history()
                .map(|(event, fate)| (event, fate.number()))
                .collect(),
            minute: self.minute(),
            windows: row(|event| self.window(event).map(|window| [window.from, window.until])),
        }
    }

    fn report(&self, refused: usize) -> Vec<u8> {
        State::report(self, refused)
    }
}

fn row<T>(of: impl Fn(u8) -> T) -> Vec<T> {
    (0..=BEYOND).map(of).collect()
}

/// What the readers have to show, by the peer's state.
fn peer_shows(peer: &Scheduler) -> Shown {
    let (events, rules) = (peer.sheet().events() as u8, peer.sheet().rules.len() as u8);
    let state = peer.state();
    Shown {
        counts: (events, rules),
        fates: row(|event| (event < events).then(|| number(state.fate(event)))),
        held: members(state.held).collect(),
        closed: row(|step| step < 8 && has(state.closed, step)),
        broken: row(|rule| rule < rules && has(state.broken, rule)),
        history: peer
            .history()
            .iter()
            .map(|line| (line.event, number(line.fate)))
            .collect(),
        minute: state.minute,
        windows: row(|event| {
            let window = peer.sheet().windows.get(&event);
            window.map(|window| [window.from, window.until])
        }),
    }
}

fn same<T: PartialEq + Debug>(what: &str, library: T, peer: T) -> Result<(), String> {
    if library == peer {
        return Ok(());
    }
    Err(format!("{what}: library {library:02x?}, peer {peer:02x?}"))
}

/// Compares a library's host with the peer on `count` sheets with their calls, up
/// to the first difference.
pub fn compare<H: Host>(seed: u64, count: usize) -> Result<Tally, String> {
    let mut random = Random::new(seed);
    let mut tally = Tally::default();
    for pair in 0..count {
        let made = sheet(&mut random);
        let calls = single_calls(&mut random, &made);
        let agreed = agree::<H>(&made.bytes, &calls, &mut tally);
        let place = |what| format!("pair {pair}, sheet {}, {calls:?}: {what}", hex(&made.bytes));
        agreed.map_err(place)?;
    }
    Ok(tally)
}

fn agree<H: Host>(sheet: &[u8], calls: &[Call], tally: &mut Tally) -> Result<(), String> {
    tally.pairs += 1;
    let (library, peer) = match (H::open(sheet), Sheet::read(sheet)) {
        (Ok(library), Ok(peer)) => (library, Scheduler::new(peer)),
        (Err(library), Err(peer)) => {
            tally.sheets_refused[usize::from(peer.number)] += 1;
            return same("the sheet", library, (peer.number, peer.offset));
        }
        (library, peer) => return same("admitted", library.is_ok(), peer.is_ok()),
    };
    let image = layout::first(sheet);
    let mut both = Both {
        library,
        peer,
        image,
    };
    both.same_state()?;
    let mut answers = Vec::new();
    for (place, call) in calls.iter().enumerate() {
        let answer = both.make(*call, tally);
        answers.push(answer.map_err(|what| format!("call {place}: {what}"))?);
    }
    both.same_report(answers, tally)
}

/// The library's state and the peer's.
struct Both<H> {
    library: H,
    peer: Scheduler,
    /// The bytes that the library's has to have.
    image: Image,
}

impl<H: Host> Both<H> {
    fn make(&mut self, call: Call, tally: &mut Tally) -> Result<Answer, String> {
        let lines = self.peer.history().len();
        let answer = apply(&mut self.peer, call);
        let expected = match answer {
            Answer::Fate(fate) => (0, Some(number(fate))),
            Answer::TurnedDown(reason) => (reason as u8, None),
            _ => (0, None),
        };
        same("the answer", self.library.call(call), expected)?;
        self.same_state()?;
        tally.add(call, answer, &self.peer.history()[lines..]);
        Ok(answer)
    }

    fn same_state(&mut self) -> Result<(), String> {
        layout::put(&mut self.image, &self.peer);
        same("the bytes", self.library.image(), &self.image)?;
        same(
            "what it shows",
            self.library.shown(),
            peer_shows(&self.peer),
        )?;
        same("number 12", raw::check(self.library.image()), 0)?;
        kept(self.library.image())
    }

    fn same_report(self, answers: Vec<Answer>, tally: &mut Tally) -> Result<(), String> {
        let (scheduler, state) = (self.peer, self.library);
        tally.broken += usize::from(scheduler.state().broken != 0);
        tally.held_at_end += usize::from(scheduler.state().held != 0);
        let run = Run { scheduler, answers };
        let library = state.report(run.turned_down());
        same("the report", library, report(&Ok(run)).into_bytes())
    }
}

/// What was met with.
#[derive(Clone, Debug, Default, PartialEq, Eq)]
pub struct Tally {
    pub pairs: usize,
    pub calls: usize,
    /// Sheets turned down; the place is the number.
    pub sheets_refused: [usize; 16],
    /// Hand-ins and closings turned down by 9, and calls by 10 and by 11.
    pub no_such_event: usize,
    pub no_such_step: usize,
    pub closed_already: usize,
    pub step_not_closed: usize,
    /// Hand-ins that were taken; the place is the fate's number, never 0.
    pub answered: [usize; 6],
    /// Hand-ins after which several events are settled.
    pub several: usize,
    /// Lines that say forced.
    pub forced: usize,
    /// Closings and windings up that were taken.
    pub closed: usize,
    pub finished: usize,
    /// Moves of the minute that were taken, and those that 16 met.
    pub advanced: usize,
    pub backward: usize,
    /// Lists with a rule recorded as broken, and with an event held at the end.
    pub broken: usize,
    pub held_at_end: usize,
}

impl Tally {
    /// A call, with the lines that it adds.
    fn add(&mut self, call: Call, answer: Answer, added: &[Line]) {
        let forced = added.iter().filter(|line| line.fate == Own::Forced);
        self.calls += 1;
        self.forced += forced.count();
        match (answer, call) {
            (Answer::TurnedDown(Reason::NoSuch), Call::Submit(_)) => self.no_such_event += 1,
            (Answer::TurnedDown(Reason::NoSuch), _) => self.no_such_step += 1,
            (Answer::TurnedDown(Reason::ClosedAlready), _) => self.closed_already += 1,
            (Answer::TurnedDown(Reason::StepNotClosed), _) => self.step_not_closed += 1,
            (Answer::Fate(fate), _) => {
                self.answered[usize::from(number(fate))] += 1;
                self.several += usize::from(added.len() > 1);
            }
            (Answer::Closed, _) => self.closed += 1,
            (Answer::Finished, _) => self.finished += 1,
            (Answer::Advanced, _) => self.advanced += 1,
            (Answer::TurnedDown(Reason::Backward), _) => self.backward += 1,
            (Answer::Unreadable, _) => {}
        }
    }

    /// The first thing that was met fewer than `least` times.
    pub fn missing(&self, least: usize) -> Option<String> {
        let named = [
            ("hand-ins turned down by 9", self.no_such_event),
            ("closings turned down by 9", self.no_such_step),
            ("closings turned down by 10", self.closed_already),
            ("windings up turned down by 11", self.step_not_closed),
            ("hand-ins that settle several", self.several),
            ("lines that say forced", self.forced),
            ("closings", self.closed),
            ("windings up", self.finished),
            ("moves of the minute", self.advanced),
            ("moves turned down by 16", self.backward),
            ("lists with a broken rule", self.broken),
            ("lists with an event held to the end", self.held_at_end),
        ];
        let mut counts: Vec<(String, usize)> = Vec::new();
        counts.extend(named.map(|(name, met)| (name.to_string(), met)));
        counts.extend(numbered(
            "sheets turned down by",
            &self.sheets_refused[..9],
            1,
        ));
        counts.extend(numbered("sheets turned down by", &self.sheets_refused, 15));
        counts.extend(numbered("hand-ins answered with fate", &self.answered, 1));
        missing(counts, least)
    }
}
