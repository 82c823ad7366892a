//! The library's reports against the peer's on random sheets and lists.

use crate::peer::report::report;
use crate::peer::rules::Rule;
use crate::peer::scheduler::Met;
use crate::peer::set::members;
use crate::peer::{trace, Answer, Cause, Fate, Reason, Refused, Run, Sheet};
use crate::random::{calls, sheet, Random};
use std::fmt;

/// The seed of the test.
pub const SEED: u64 = 20_260_101;
/// The pairs of the test.
pub const COUNT: usize = 40_000;

/// The seed that `COMPARE_SEED` in the environment gives, or else the test's own.
pub fn seed() -> u64 {
    match std::env::var("COMPARE_SEED") {
        Ok(text) => text.parse().expect("COMPARE_SEED is a number"),
        Err(_) => SEED,
    }
}

/// What the pairs met with, so that agreement is not agreement on nothing.
#[derive(Clone, Debug, Default, PartialEq, Eq)]
pub struct Tally {
    pub pairs: usize,
    pub calls: usize,
    /// Sheets turned down; the place is the number.
    pub sheets_refused: [usize; 16],
    /// Calls turned down by 9, 10 and 11, and by not being readable.
    pub no_such: usize,
    pub closed_already: usize,
    pub step_not_closed: usize,
    pub unreadable: usize,
    /// Windings up that were accepted.
    pub finished: usize,
    /// Hand-ins answered with held, and with forced.
    pub answered_held: usize,
    pub answered_forced: usize,
    /// History lines by cause.
    pub ordered: usize,
    pub forced: usize,
    pub alone: usize,
    pub barred: usize,
    pub no_order: usize,
    pub wind_up: usize,
    pub lapsed: usize,
    /// History lines that say forced.
    pub forced_lines: usize,
    /// Orders of held events alone that were done, orders with a forced event,
    /// and orders of either sort where more than seven events could have stood
    /// in one; the place is the length. The second has nothing at length 1: an
    /// order is only sought for an event that was handed in.
    pub held_orders: [usize; 7],
    pub forced_orders: [usize; 7],
    pub wide_orders: [usize; 7],
    /// Admitted sheets: of at most four events; of 16 events and 16 rules; with
    /// more than seven events that are delayable or forcible, so that an order
    /// could contain them; with sixteen such events.
    pub small: usize,
    pub full: usize,
    pub wide: usize,
    pub widest: usize,
    /// Lists with a search among more than seven events and among sixteen, and
    /// with one among more than seven that found nothing.
    pub wide_searches: usize,
    pub widest_searches: usize,
    pub wide_in_vain: usize,
    /// Rules recorded as broken, by form. An order is never among them: only
    /// its first event could break it, done alone and so not rejectable, and
    /// then the second is delayable and has waited for it.
    pub broken_orders: usize,
    pub broken_needs: usize,
    pub broken_conditionals: usize,
    /// Lists with a rule recorded as broken.
    pub broken: usize,
    /// Lists with an event held at the end.
    pub held_at_end: usize,
    /// Lists after which every event is settled.
    pub all_settled: usize,
}

impl Tally {
    pub fn add(&mut self, outcome: &Result<Run, Refused>) {
        self.pairs += 1;
        match outcome {
            Err(refused) => self.sheets_refused[usize::from(refused.number)] += 1,
            Ok(run) => self.add_run(run),
        }
    }

    fn add_run(&mut self, run: &Run) {
        self.calls += run.answers.len();
        for answer in &run.answers {
            match answer {
                Answer::TurnedDown(Reason::NoSuch) => self.no_such += 1,
                Answer::TurnedDown(Reason::ClosedAlready) => self.closed_already += 1,
                Answer::TurnedDown(Reason::StepNotClosed) => self.step_not_closed += 1,
                Answer::TurnedDown(Reason::Backward) | Answer::Advanced => {
                    unreachable!("a list has no such call")
                }
                Answer::Unreadable => self.unreadable += 1,
                Answer::Finished => self.finished += 1,
                Answer::Fate(Fate::Held) => self.answered_held += 1,
                Answer::Fate(Fate::Forced) => self.answered_forced += 1,
                Answer::Fate(_) | Answer::Closed => {}
            }
        }
        for line in run.scheduler.history() {
            *self.of_cause(line.cause) += 1;
            self.forced_lines += usize::from(line.fate == Fate::Forced);
        }
        self.add_sheet(run.scheduler.sheet());
        self.add_met(run.scheduler.met());
        let (sheet, state) = (run.scheduler.sheet(), run.scheduler.state());
        for number in members(state.broken) {
            *self.of_form(&sheet.rules[usize::from(number)]) += 1;
        }
        self.broken += usize::from(state.broken != 0);
        self.held_at_end += usize::from(state.held != 0);
        let settled = run.scheduler.history().len() == sheet.events();
        self.all_settled += usize::from(settled);
    }

    fn add_sheet(&mut self, sheet: &Sheet) {
        let (events, rules) = (sheet.events(), sheet.rules.len());
        let usable = (sheet.delayable | sheet.forcible).count_ones();
        self.small += usize::from(events <= 4);
        self.full += usize::from(events == 16 && rules == 16);
        self.wide += usize::from(usable > 7);
        self.widest += usize::from(usable == 16);
    }

    fn add_met(&mut self, met: &Met) {
        for length in 1..=6 {
            self.held_orders[length] += met.held_orders[length];
            self.forced_orders[length] += met.forced_orders[length];
            self.wide_orders[length] += met.wide_orders[length];
        }
        self.wide_searches += usize::from(met.widest > 7);
        self.widest_searches += usize::from(met.widest == 16);
        self.wide_in_vain += usize::from(met.widest_in_vain > 7);
    }

    fn of_cause(&mut self, cause: Cause) -> &mut usize {
        match cause {
            Cause::Ordered => &mut self.ordered,
            Cause::Forced => &mut self.forced,
            Cause::Alone => &mut self.alone,
            Cause::Barred => &mut self.barred,
            Cause::Late => unreachable!("a list stays at the first minute"),
            Cause::NoOrder => &mut self.no_order,
            Cause::WindUp => &mut self.wind_up,
            Cause::Closing => &mut self.lapsed,
            Cause::Brought => unreachable!("a list starts with nothing settled"),
        }
    }

    fn of_form(&mut self, rule: &Rule) -> &mut usize {
        match rule {
            Rule::Order { .. } => &mut self.broken_orders,
            Rule::Follow { triggers, .. } if triggers.count_ones() == 1 => &mut self.broken_needs,
            Rule::Follow { .. } => &mut self.broken_conditionals,
        }
    }

    /// Everything that has to be met, with how often it was.
    fn counts(&self) -> Vec<(String, usize)> {
        let named = [
            ("calls turned down by 9", self.no_such),
            ("calls turned down by 10", self.closed_already),
            ("calls turned down by 11", self.step_not_closed),
            ("unreadable calls", self.unreadable),
            ("windings up", self.finished),
            ("answers held", self.answered_held),
            ("answers forced", self.answered_forced),
            ("events done in an order", self.ordered),
            ("forced events", self.forced),
            ("events done alone", self.alone),
            ("barred refusals", self.barred),
            ("refusals for want of an order", self.no_order),
            ("refusals by winding up", self.wind_up),
            ("lapses", self.lapsed),
            ("lines that say forced", self.forced_lines),
            ("needs broken", self.broken_needs),
            ("conditionals broken", self.broken_conditionals),
            ("lists with a broken rule", self.broken),
            ("lists with an event held to the end", self.held_at_end),
            ("lists with every event settled", self.all_settled),
            ("small sheets", self.small),
            ("sheets of 16 events and 16 rules", self.full),
            ("sheets with more than 7 usable events", self.wide),
            ("sheets with 16 usable events", self.widest),
            ("searches among more than 7 events", self.wide_searches),
            ("searches among 16 events", self.widest_searches),
            ("searches among more than 7 in vain", self.wide_in_vain),
        ];
        let mut counts: Vec<(String, usize)> = Vec::new();
        counts.extend(named.map(|(name, met)| (name.to_string(), met)));
        counts.extend(numbered("sheets refused by", &self.sheets_refused[..9], 1));
        counts.extend(numbered("sheets refused by", &self.sheets_refused, 15));
        counts.extend(numbered("held orders of length", &self.held_orders, 1));
        counts.extend(numbered("forced orders of length", &self.forced_orders, 2));
        counts.extend(numbered("wide orders of length", &self.wide_orders, 1));
        counts
    }

    /// The first thing that was met fewer than `least` times.
    pub fn missing(&self, least: usize) -> Option<String> {
        missing(self.counts(), least)
    }
}

/// The first of the counts that is below `least`.
pub fn missing(counts: Vec<(String, usize)>, least: usize) -> Option<String> {
    let few = counts.into_iter().find(|(_, met)| *met < least);
    few.map(|(name, met)| format!("{name}: {met}, fewer than {least}"))
}

/// The counts of a list from the place `from` on, each with its place as name.
pub fn numbered(name: &str, list: &[usize], from: usize) -> Vec<(String, usize)> {
    let list = list.iter().enumerate().skip(from);
    let named = list.map(|(number, met)| (format!("{name} {number}"), *met));
    named.collect()
}

/// A pair on which the two differ.
pub struct Difference {
    pub number: usize,
    pub sheet: Vec<u8>,
    pub calls: Vec<u8>,
    pub library: Vec<u8>,
    pub peer: Vec<u8>,
}

impl fmt::Display for Difference {
    fn fmt(&self, out: &mut fmt::Formatter) -> fmt::Result {
        writeln!(out, "pair {} differs", self.number)?;
        writeln!(out, "sheet {}", hex(&self.sheet))?;
        writeln!(out, "calls {}", hex(&self.calls))?;
        writeln!(out, "library:\n{}", String::from_utf8_lossy(&self.library))?;
        write!(out, "peer:\n{}", String::from_utf8_lossy(&self.peer))
    }
}

impl fmt::Debug for Difference {
    fn fmt(&self, out: &mut fmt::Formatter) -> fmt::Result {
        fmt::Display::fmt(self, out)
    }
}

/// The first place where the two differ.
pub fn difference<T: PartialEq>(one: &[T], other: &[T]) -> Option<usize> {
    one.iter().zip(other).position(|(one, other)| one != other)
}

pub fn hex(bytes: &[u8]) -> String {
    let words: Vec<String> = bytes.iter().map(|byte| format!("{byte:02x}")).collect();
    words.join(" ")
}

/// Asks that the library's report and the peer's are the same.
pub fn agree(
    number: usize,
    sheet: &[u8],
    calls: &[u8],
    (library, peer): (Vec<u8>, Vec<u8>),
) -> Result<(), Box<Difference>> {
    if library == peer {
        return Ok(());
    }
    Err(Box::new(Difference {
        number,
        sheet: sheet.to_vec(),
        calls: calls.to_vec(),
        library,
        peer,
    }))
}

/// A random pair.
pub fn pair(random: &mut Random) -> (Vec<u8>, Vec<u8>) {
    let made = sheet(random);
    let list = calls(random, &made);
    (made.bytes, list)
}

/// Compares `library` with the peer on `count` pairs, up to the first
/// difference.
pub fn compare(
    seed: u64,
    count: usize,
    library: impl Fn(&[u8], &[u8]) -> Vec<u8>,
) -> Result<Tally, Box<Difference>> {
    let mut random = Random::new(seed);
    let mut tally = Tally::default();
    for number in 0..count {
        let (sheet, calls) = pair(&mut random);
        let outcome = trace(&sheet, &calls);
        let reports = (library(&sheet, &calls), report(&outcome).into_bytes());
        agree(number, &sheet, &calls, reports)?;
        tally.add(&outcome);
    }
    Ok(tally)
}
