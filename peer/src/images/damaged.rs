//! Damaged bytes: those that `check` turns down stay as they are, whatever is
//! called, and get number 12; those that it passes are a state like any other,
//! and stay one.

use super::brought::scheduler;
use super::layout::*;
use super::marks::{at_odds, has_forced, marked_otherwise, DONE, FORCED};
use super::sound::is_sound;
use super::FILL;
use crate::compare::{hex, missing, numbered};
use crate::library::{raw, State, LONGEST_REPORT, STATE_LEN};
use crate::peer::calls::{Answer, Call, Run};
use crate::peer::report::report;
use crate::random::{any_call, any_minute, sheet, single_calls, Made, Random};

/// The states of the test, and the damaged copies of each.
pub const STATES: usize = 6_000;
const COPIES: usize = 6;
/// The calls that are made on each copy.
const CALLS: usize = 6;
/// The copies with another mark and nothing else, and the changed bytes that are a fate.
const MARK_PERCENT: u64 = 10;
const FATE_PERCENT: u64 = 12;
/// The changed bytes that are of the minute or of a window.
const TIME_PERCENT: u64 = 8;
/// Calls turned down, for a report.
const REFUSED: usize = 7;
/// The least number that is no fate.
const NO_FATE: u8 = 6;
pub const INCOHERENT: u8 = 12;

/// What is called on the bytes.
pub struct Functions {
    pub call: fn(&mut Image, Call) -> u8,
    pub check: fn(&Image) -> u8,
    pub report: fn(&Image, usize, &mut [u8]) -> usize,
}

pub const LIBRARY: Functions = Functions {
    call: make,
    check: raw::check,
    report: raw::report,
};

fn make(image: &mut Image, call: Call) -> u8 {
    match call {
        Call::Submit(event) => raw::submit(image, event),
        Call::CloseStep(step) => raw::close_step(image, step),
        Call::Finish => raw::finish(image),
        Call::Advance(minute) => raw::advance(image, minute),
    }
}

/// Damages states of random sheets and calls the functions on what comes of it,
/// up to the first wrong answer.
pub fn compare(seed: u64, states: usize, library: &Functions) -> Result<Tally, String> {
    let mut random = Random::new(seed);
    let mut tally = Tally::default();
    while tally.states < states {
        let made = sheet(&mut random);
        let Some(state) = any_state(&mut random, &made) else {
            continue;
        };
        tally.states += 1;
        for _ in 0..COPIES {
            let (image, places) = damaged(&mut random, state.as_bytes());
            let right = library.treat(&mut random, &image, &places, &mut tally);
            right.map_err(|what| format!("{what}, bytes {}", hex(&image)))?;
        }
    }
    Ok(tally)
}

/// A state on the way of a random list; none where the sheet is turned down.
fn any_state(random: &mut Random, made: &Made) -> Option<State> {
    let mut state = State::open(&made.bytes).ok()?;
    let calls = single_calls(random, made);
    let made_calls = random.below(calls.len() + 1);
    for call in &calls[..made_calls] {
        super::single::Host::call(&mut state, *call);
    }
    Some(state)
}

/// A copy with one byte changed, or a few, and their places.
pub fn damaged(random: &mut Random, image: &Image) -> (Image, Vec<usize>) {
    if random.percent(MARK_PERCENT) {
        if let Some(marked) = marked_otherwise(random, image) {
            return marked;
        }
    }
    let mut copy = *image;
    let count = random.pick(&[1, 1, 1, 1, 2, 2, 3, 6]);
    let mut places = Vec::new();
    while places.len() < count {
        let (place, value) = any_change(random, image);
        if value != image[place] && !places.contains(&place) {
            copy[place] = value;
            places.push(place);
        }
    }
    (copy, places)
}

/// A place and a value for it, which may be the one that it has.
fn any_change(random: &mut Random, image: &Image) -> (usize, u8) {
    if random.percent(FATE_PERCENT) {
        let row = random.pick(&[FATE, LINE_FATE]);
        let fate = random.pick(&[DONE, FORCED, FORCED, NO_FATE]);
        return (row + random.below(16), fate);
    }
    let place = any_place(random);
    let value = match random.below(10) {
        0..=2 => random.byte(),
        3..=6 => random.below(17) as u8,
        7 | 8 => random.below(2) as u8,
        _ => image[place].wrapping_sub(1),
    };
    (place, value)
}

/// Often in the counts, and seldom in the spare bytes.
fn any_place(random: &mut Random) -> usize {
    if random.percent(TIME_PERCENT) {
        let row = random.pick(&[MINUTE, FROM, UNTIL, UNTIL]);
        return match row {
            MINUTE => row + random.below(FROM - MINUTE),
            row => row + random.below(SPARE - UNTIL),
        };
    }
    let end = random.pick(&[
        STEP, STEP, MINUTE, MINUTE, MINUTE, MINUTE, MINUTE, STATE_LEN,
    ]);
    random.below(end)
}

impl Functions {
    /// Asks that bytes with these places changed are treated as number 12 has it.
    pub fn treat(
        &self,
        random: &mut Random,
        image: &Image,
        places: &[usize],
        tally: &mut Tally,
    ) -> Result<(), String> {
        let sound = is_sound(image);
        expect(
            "check",
            (self.check)(image),
            if sound { 0 } else { INCOHERENT },
        )?;
        expect("from_bytes", State::from_bytes(image).is_ok(), sound)?;
        tally.add_image(image, sound, places);
        self.reports(image, sound)?;
        let mut state = *image;
        for _ in 0..CALLS {
            let call = fitting_call(random);
            self.calls(&mut state, call, sound, tally)
                .map_err(|what| format!("{call:?}: {what}"))?;
        }
        Ok(())
    }

    /// The report is the peer's; of bytes that are no state there is none, and nothing
    /// is written.
    fn reports(&self, image: &Image, sound: bool) -> Result<(), String> {
        let mut out = [FILL; LONGEST_REPORT];
        let length = (self.report)(image, REFUSED, &mut out);
        if sound {
            let report = String::from_utf8_lossy(&out[..length]);
            expect("its report", report.as_ref(), &peer_report(image))?;
        } else {
            expect("length of its report", length, 0)?;
        }
        let beyond = out[length..].iter().all(|byte| *byte == FILL);
        expect("bytes beyond its report", beyond, true)
    }

    fn calls(
        &self,
        state: &mut Image,
        call: Call,
        sound: bool,
        tally: &mut Tally,
    ) -> Result<(), String> {
        let before = *state;
        let number = (self.call)(state, call);
        if !sound {
            expect("number", number, INCOHERENT)?;
            return expect("left as they were", *state == before, true);
        }
        expect("number", number, number_on(&before, call))?;
        tally.numbers[usize::from(number)] += 1;
        if number != 0 {
            return expect("left as they were", *state == before, true);
        }
        tally.changed += usize::from(*state != before);
        expect("check after it", (self.check)(state), 0)?;
        expect("still a state", is_sound(state), true)?;
        expect("only what calls change", same_plan(&before, state), true)?;
        expect(
            "the minute",
            minute_at(state, MINUTE),
            minute_after(&before, call),
        )?;
        expect("its history goes on", goes_on(&before, state), true)
    }
}

/// The peer's report of a state.
fn peer_report(image: &Image) -> String {
    let scheduler = scheduler(image).expect("a state");
    let answers = vec![Answer::Unreadable; REFUSED];
    report(&Ok(Run { scheduler, answers }))
}

fn expect<T: PartialEq + std::fmt::Debug>(what: &str, got: T, expected: T) -> Result<(), String> {
    if got == expected {
        return Ok(());
    }
    Err(format!("{what}: {got:?} in place of {expected:?}"))
}

/// A call that is about the sheet most of the time.
fn fitting_call(random: &mut Random) -> Call {
    match random.below(10) {
        0..=4 => Call::Submit(random.below(16) as u8),
        5..=7 => Call::CloseStep(random.below(8) as u8),
        8 => random.pick(&[Call::Finish, Call::Advance(0)]),
        9 if random.percent(50) => Call::Advance(any_minute(random)),
        _ => any_call(random),
    }
}

/// The number that a call on a state gets (10.2 of the specification).
fn number_on(image: &Image, call: Call) -> u8 {
    let steps = &image[STEP..][..usize::from(image[EVENTS])];
    let is_closed = |step: &u8| image[CLOSED + usize::from(*step)] == 1;
    match call {
        Call::Submit(event) if event >= image[EVENTS] => 9,
        Call::CloseStep(step) if !steps.contains(&step) => 9,
        Call::CloseStep(step) if is_closed(&step) => 10,
        Call::Finish if !steps.iter().all(is_closed) => 11,
        Call::Advance(minute) if minute < minute_at(image, MINUTE) => 16,
        _ => 0,
    }
}

/// The minute after a call that is taken.
fn minute_after(before: &Image, call: Call) -> u32 {
    match call {
        Call::Advance(minute) => minute,
        _ => minute_at(before, MINUTE),
    }
}

/// All but the fates, marks and lines, and the minute.
fn same_plan(before: &Image, after: &Image) -> bool {
    before[..LINES] == after[..LINES]
        && before[STEP..FATE] == after[STEP..FATE]
        && before[FROM..] == after[FROM..]
}

fn goes_on(before: &Image, after: &Image) -> bool {
    let lines = usize::from(before[LINES]);
    [LINE_EVENT, LINE_FATE]
        .iter()
        .all(|row| before[*row..][..lines] == after[*row..][..lines])
}

/// The parts of a state, by where the next begins.
const PARTS: [(&str, usize); 8] = [
    ("the counts", STEP),
    ("events", RULE_KIND),
    ("rules", FATE),
    ("fates and marks", LINE_EVENT),
    ("the history", MINUTE),
    ("the minute", FROM),
    ("windows", SPARE),
    ("the spare bytes", STATE_LEN),
];

/// What was met with.
#[derive(Clone, Debug, Default, PartialEq, Eq)]
pub struct Tally {
    pub states: usize,
    pub images: usize,
    /// Bytes turned down and bytes passed, with one byte changed and with several.
    pub turned_down: [usize; 2],
    pub passed: [usize; 2],
    /// Bytes turned down for one byte, and bytes passed with one byte changed, by
    /// the part that the byte is of.
    pub turned_down_for: [usize; 8],
    pub passed_with: [usize; 8],
    /// Bytes with a fate changed to forced, of an event and of a line, turned down and
    /// passed; those with one changed to 6, which is no fate.
    pub changed_to_forced: [[usize; 2]; 2],
    pub changed_to_none: [[usize; 2]; 2],
    /// Bytes turned down for a mark alone: a line says done of a forced event, or forced
    /// of one that is done.
    pub done_line: usize,
    pub forced_line: usize,
    /// Bytes passed with a forced event, and with one that is not forcible.
    pub forced: usize,
    pub unforcible: usize,
    /// Numbers of calls on bytes that pass; calls that changed them.
    pub numbers: [usize; 17],
    pub changed: usize,
}

impl Tally {
    fn add_image(&mut self, image: &Image, sound: bool, places: &[usize]) {
        self.images += 1;
        self.add_fates(image, sound, places);
        let (of_all, of_one) = if sound {
            (&mut self.passed, &mut self.passed_with)
        } else {
            (&mut self.turned_down, &mut self.turned_down_for)
        };
        of_all[usize::from(places.len() > 1)] += 1;
        if let [place] = places {
            let part = PARTS.iter().position(|(_, end)| place < end);
            of_one[part.unwrap_or_default()] += 1;
        }
    }

    fn add_fates(&mut self, image: &Image, sound: bool, places: &[usize]) {
        for (of, row) in [FATE..BROKEN, LINE_FATE..MINUTE].iter().enumerate() {
            let changed = places.iter().filter(|place| row.contains(place));
            let to: Vec<u8> = changed.map(|place| image[*place]).collect();
            let to = |fate| usize::from(to.contains(&fate));
            self.changed_to_forced[of][usize::from(sound)] += to(FORCED);
            self.changed_to_none[of][usize::from(sound)] += to(NO_FATE);
        }
        if sound {
            let [forced, unforcible] = has_forced(image);
            self.forced += usize::from(forced);
            self.unforcible += usize::from(unforcible);
        } else if let Some([done_line, forced_line]) = at_odds(image) {
            self.done_line += usize::from(done_line);
            self.forced_line += usize::from(forced_line);
        }
    }

    /// The first thing that was met fewer than `least` times. A changed spare byte never
    /// passes, and one of the minute always does.
    pub fn missing(&self, least: usize) -> Option<String> {
        let [one_down, several_down] = self.turned_down;
        let [one_passed, several_passed] = self.passed;
        let [forced_event, forced_line] = self.changed_to_forced;
        let named = [
            ("turned down, one byte changed", one_down),
            ("turned down, several changed", several_down),
            ("passed, one byte changed", one_passed),
            ("passed, several changed", several_passed),
            ("calls taken", self.numbers[0]),
            ("calls that changed bytes", self.changed),
            ("turned down, an event changed to forced", forced_event[0]),
            ("passed, an event changed to forced", forced_event[1]),
            ("turned down, a line changed to forced", forced_line[0]),
            ("passed, a line changed to forced", forced_line[1]),
            ("events changed to 6", self.changed_to_none[0][0]),
            ("lines changed to 6", self.changed_to_none[1][0]),
            ("12 for a line done, the event forced", self.done_line),
            ("12 for a line forced, the event done", self.forced_line),
            ("passed with a forced event", self.forced),
            ("passed with one that is not forcible", self.unforcible),
        ];
        let mut counts: Vec<(String, usize)> = Vec::new();
        counts.extend(named.map(|(name, met)| (name.to_string(), met)));
        counts.extend(numbered("calls turned down by", &self.numbers[..12], 9));
        counts.extend(numbered("calls turned down by", &self.numbers, 16));
        for (part, (name, _)) in PARTS.iter().enumerate() {
            if *name != "the minute" {
                let down = self.turned_down_for[part];
                counts.push((format!("turned down for {name}"), down));
            }
            if *name != "the spare bytes" {
                counts.push((
                    format!("passed with another byte in {name}"),
                    self.passed_with[part],
                ));
            }
        }
        missing(counts, least)
    }
}
