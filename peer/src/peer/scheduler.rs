//! The state of a sheet under way and the four calls.

use super::rules::{Rule, Standing};
use super::search::{Order, Search};
use super::set::{has, lowest, members, one, Set};
use super::sheet::Sheet;

#[derive(Clone, Copy, Debug, PartialEq, Eq)]
pub enum Fate {
    Open,
    Held,
    Done,
    Refused,
    Lapsed,
    /// Done in an order while open: no one had handed it in.
    Forced,
}

/// Why an event was settled. Reports show no more of it than the fate does; the
/// comparison counts it.
#[derive(Clone, Copy, Debug, PartialEq, Eq)]
pub enum Cause {
    /// Done in a chosen order, after being handed in.
    Ordered,
    /// Done in a chosen order without being handed in.
    Forced,
    /// Done alone.
    Alone,
    /// Refused while held, because barred.
    Barred,
    /// Refused while held, because its window is over.
    Late,
    /// Refused when handed in: rejectable, not delayable, no viable order.
    NoOrder,
    /// Refused while winding up.
    WindUp,
    /// Lapsed.
    Closing,
    /// Settled in the state that was brought.
    Brought,
}

#[derive(Clone, Copy, Debug, PartialEq, Eq)]
pub struct Line {
    pub event: u8,
    pub fate: Fate,
    pub cause: Cause,
}

/// Why a call is turned down. Number 12 cannot arise here: states only come
/// from admitted sheets and calls, or are brought where they hang together.
#[derive(Clone, Copy, Debug, PartialEq, Eq)]
pub enum Reason {
    /// 9: the event or the step is not on the sheet.
    NoSuch = 9,
    /// 10: step already closed.
    ClosedAlready = 10,
    /// 11: wound up too early, with a step of the sheet still open.
    StepNotClosed = 11,
    /// 16: a minute below the current one.
    Backward = 16,
}

/// The fates as sets; an event in none of them is open.
#[derive(Clone, Copy, Debug, Default, PartialEq, Eq)]
pub struct State {
    pub held: Set,
    /// Also the forced ones: rules, barring and orders tell no difference.
    pub done: Set,
    /// Those of the done ones that were forced.
    pub forced: Set,
    pub refused: Set,
    pub lapsed: Set,
    /// Rules recorded as broken.
    pub broken: Set,
    /// Closed steps, one bit for each.
    pub closed: Set,
    /// The current minute.
    pub minute: u32,
}

impl State {
    /// Settled and not done.
    pub fn failed(&self) -> Set {
        self.refused | self.lapsed
    }

    pub fn open(&self, sheet: &Sheet) -> Set {
        sheet.all() & !(self.held | self.done | self.failed())
    }

    pub fn standing(&self, sheet: &Sheet) -> Standing {
        Standing {
            open: self.open(sheet),
            done: self.done,
            failed: self.failed(),
        }
    }

    pub fn fate(&self, event: u8) -> Fate {
        if has(self.held, event) {
            Fate::Held
        } else if has(self.forced, event) {
            Fate::Forced
        } else if has(self.done, event) {
            Fate::Done
        } else if has(self.refused, event) {
            Fate::Refused
        } else if has(self.lapsed, event) {
            Fate::Lapsed
        } else {
            Fate::Open
        }
    }
}

/// What the searches met with, for the comparison's counts. A search is wide
/// when an order could contain more than seven events.
#[derive(Clone, Copy, Debug, Default, PartialEq, Eq)]
pub struct Met {
    /// Orders of held events alone; the place is the length.
    pub held_orders: [usize; 7],
    /// Orders with a forced event; the place is the length.
    pub forced_orders: [usize; 7],
    /// Orders of either sort that a wide search found; the place is the length.
    pub wide_orders: [usize; 7],
    /// The most events that an order could contain in one search.
    pub widest: u32,
    /// The same, of the searches that found no order.
    pub widest_in_vain: u32,
}

impl Met {
    fn add(&mut self, usable: Set, order: Option<Order>) {
        let width = usable.count_ones();
        self.widest = self.widest.max(width);
        let Some(order) = order else {
            self.widest_in_vain = self.widest_in_vain.max(width);
            return;
        };
        let length = order.events().count();
        let forced = order.forced() != 0;
        self.held_orders[length] += usize::from(!forced);
        self.forced_orders[length] += usize::from(forced);
        self.wide_orders[length] += usize::from(width > 7);
    }
}

#[derive(Clone, Debug)]
pub struct Scheduler {
    sheet: Sheet,
    state: State,
    history: Vec<Line>,
    search: Search,
    met: Met,
    /// What an event that an order forces is written as.
    forced_as: Fate,
}

impl Scheduler {
    pub fn new(sheet: Sheet) -> Scheduler {
        Scheduler {
            sheet,
            state: State::default(),
            history: Vec::new(),
            search: Search::default(),
            met: Met::default(),
            forced_as: Fate::Forced,
        }
    }

    /// A state that hangs together and was not led to by calls, with the settled
    /// events in the order of its history.
    pub fn bring(sheet: Sheet, state: State, settled: &[u8]) -> Scheduler {
        let line = |event: &u8| Line {
            event: *event,
            fate: state.fate(*event),
            cause: Cause::Brought,
        };
        Scheduler {
            state,
            history: settled.iter().map(line).collect(),
            ..Scheduler::new(sheet)
        }
    }

    /// From now on what an order forces is written as done, as it was before S-5.
    pub fn without_mark(self) -> Scheduler {
        Scheduler {
            forced_as: Fate::Done,
            ..self
        }
    }

    pub fn sheet(&self) -> &Sheet {
        &self.sheet
    }

    pub fn state(&self) -> &State {
        &self.state
    }

    pub fn history(&self) -> &[Line] {
        &self.history
    }

    pub fn met(&self) -> &Met {
        &self.met
    }

    /// Whether settling would do nothing. It is so after any list; a state that is
    /// brought may have something to settle.
    pub fn is_at_rest(&self) -> bool {
        let mut after = self.clone();
        after.settle();
        after.state == self.state
    }

    /// Hands in an event and gives its fate. One that is not open is accepted:
    /// the answer says its fate and the state stays as it is.
    pub fn submit(&mut self, event: u8) -> Result<Fate, Reason> {
        if usize::from(event) >= self.sheet.events() {
            return Err(Reason::NoSuch);
        }
        if has(self.state.open(&self.sheet), event) {
            self.state.held |= one(event);
            if !has(self.sheet.delayable, event) {
                self.decide(event);
            }
            self.settle();
        }
        Ok(self.state.fate(event))
    }

    pub fn close_step(&mut self, step: u8) -> Result<(), Reason> {
        let of_step = self.sheet.of_step(step);
        if of_step == 0 {
            return Err(Reason::NoSuch);
        }
        if has(self.state.closed, step) {
            return Err(Reason::ClosedAlready);
        }
        self.state.closed |= one(step);
        for event in members(of_step & self.state.open(&self.sheet)) {
            self.enter(event, Fate::Lapsed, Cause::Closing);
        }
        self.settle();
        Ok(())
    }

    /// Winds up. A sheet with no event has no step to close, so it winds up at
    /// any time.
    pub fn finish(&mut self) -> Result<(), Reason> {
        let closed = self.state.closed;
        if !self.sheet.steps.iter().all(|step| has(closed, *step)) {
            return Err(Reason::StepNotClosed);
        }
        self.settle();
        while let Some(event) = lowest(self.state.held) {
            self.enter(event, Fate::Refused, Cause::WindUp);
            self.settle();
        }
        Ok(())
    }

    /// Moves the minute forward and settles there. What a minute in between would have
    /// let through does not count.
    pub fn advance(&mut self, minute: u32) -> Result<(), Reason> {
        if minute < self.state.minute {
            return Err(Reason::Backward);
        }
        self.state.minute = minute;
        self.settle();
        Ok(())
    }

    /// The branches for an event that is not delayable. Nothing is settled
    /// before them.
    fn decide(&mut self, event: u8) {
        if let Some(order) = self.chosen(one(event)) {
            self.perform(order);
        } else if has(self.sheet.rejectable, event) {
            self.enter(event, Fate::Refused, Cause::NoOrder);
        } else {
            self.do_alone(event);
        }
    }

    fn settle(&mut self) {
        while self.state.held != 0 {
            if let Some((event, cause)) = self.lowest_barred() {
                self.enter(event, Fate::Refused, cause);
                continue;
            }
            match self.chosen(self.state.held) {
                Some(order) => self.perform(order),
                None => return,
            }
        }
    }

    /// The chosen order of the lowest of these held events that has one.
    fn chosen(&mut self, wanted: Set) -> Option<Order> {
        let order = self.search.chosen(&self.sheet, &self.state, wanted);
        let forcible = self.state.open(&self.sheet) & self.sheet.forcible;
        self.met.add(self.state.held | forcible, order);
        order
    }

    /// The lowest held event that a rule bars or whose window is over, and which it is.
    fn lowest_barred(&self) -> Option<(u8, Cause)> {
        let standing = self.state.standing(&self.sheet);
        let late = self.sheet.late(self.state.minute);
        members(self.state.held).find_map(|event| {
            if has(late, event) {
                return Some((event, Cause::Late));
            }
            let barred = self.rules_that(|rule| rule.bars(event, standing)) != 0;
            barred.then_some((event, Cause::Barred))
        })
    }

    /// Does an order and writes its events as it says that they were. The event that
    /// is being handed in is held by then.
    fn perform(&mut self, order: Order) {
        for event in order.events() {
            if has(order.forced(), event) {
                self.enter(event, self.forced_as, Cause::Forced);
            } else {
                self.enter(event, Fate::Done, Cause::Ordered);
            }
        }
    }

    /// Records each rule that forbids the event now or owes right after it,
    /// before anything else is settled.
    fn do_alone(&mut self, event: u8) {
        let before = self.state.standing(&self.sheet);
        let forbid = self.rules_that(|rule| rule.forbids(event, before));
        self.enter(event, Fate::Done, Cause::Alone);
        let after = self.state.standing(&self.sheet);
        let owe = self.rules_that(|rule| rule.owes(after));
        self.state.broken |= forbid | owe;
    }

    /// The unbroken rules for which `says` is true.
    fn rules_that(&self, says: impl Fn(&Rule) -> bool) -> Set {
        let mut found = 0;
        for (number, rule) in self.sheet.rules.iter().enumerate() {
            if !has(self.state.broken, number as u8) && says(rule) {
                found |= one(number as u8);
            }
        }
        found
    }

    /// Settles an event.
    fn enter(&mut self, event: u8, fate: Fate, cause: Cause) {
        self.state.held &= !one(event);
        match fate {
            Fate::Done => self.state.done |= one(event),
            Fate::Forced => {
                self.state.done |= one(event);
                self.state.forced |= one(event);
            }
            Fate::Refused => self.state.refused |= one(event),
            Fate::Lapsed => self.state.lapsed |= one(event),
            Fate::Open | Fate::Held => unreachable!("not a settlement"),
        }
        self.history.push(Line { event, fate, cause });
    }
}
