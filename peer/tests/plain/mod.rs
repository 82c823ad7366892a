//! The words of document 01 and of S-5 to S-7 taken one by one, with no regard to speed:
//! fates in an array, and a search that tries every order in turn. The peer's own search
//! is checked against it, and the library's calls on states that a caller brings. S-6 and
//! S-7 can be left out of it, or read wrongly, to see what that changes.

/// In the sequence of the C header's numbers.
#[derive(Clone, Copy, PartialEq, Eq, Debug)]
pub enum Fate {
    Open,
    Held,
    Done,
    Refused,
    Lapsed,
    Forced,
}
use Fate::{Done, Forced, Held, Lapsed, Open, Refused};

impl Fate {
    /// For rules a forced event is as good as one that is done.
    fn counts_as_done(self) -> bool {
        matches!(self, Done | Forced)
    }
}

/// What a conditional is taken to say of one of its events while the other of a and b
/// is open. All but the first are wrong since S-6.
#[derive(Clone, Copy, PartialEq, Eq, Debug, Default)]
pub enum Beside {
    #[default]
    AsAsked,
    /// Nothing, as in document 01 alone.
    Nothing,
    /// The same once the other has lapsed.
    LapsedToo,
    /// The same where c is forcible.
    ForcibleToo,
    /// The same where the other is rejectable.
    RejectableToo,
    /// It may be done alone while c is unsettled.
    NothingOwed,
    /// It may be done once c is refused or lapsed.
    NothingBarred,
    /// Nothing where the other is a, and where it is b.
    NotForA,
    NotForB,
}

/// How windows and moves of the minute are read. All but the first are wrong.
#[derive(Clone, Copy, PartialEq, Eq, Debug, Default)]
pub enum Timing {
    #[default]
    AsAsked,
    /// Windows say nothing.
    Nothing,
    /// The minute `until` is still inside, and `from` not yet.
    UntilToo,
    AfterFrom,
    /// An open event may be forced at any minute, before its window, and after it.
    ForcedAnyTime,
    ForcedEarly,
    ForcedLate,
    /// An event past its window waits on, as one before it does.
    LateWaits,
    /// An event before its window is refused.
    EarlyBarred,
    /// A move of the minute does not settle, or is turned down at the same minute, or is
    /// taken backward.
    NoSettling,
    NotTheSame,
    BackwardToo,
    /// A move settles at each minute on its way.
    EachMinute,
    /// An open event past its window counts as refused for the rules.
    LateIsGone,
    /// An open event past its window counts as settled for what waits for it.
    LateIsSettled,
    /// An event counts as forcible for S-6 only inside its window.
    ForcibleInTime,
    /// Only the event that an order is for has to be inside its window.
    OneOfOrder,
}

#[derive(Clone, Default)]
pub struct Plain {
    attributes: Vec<u8>,
    steps: Vec<u8>,
    /// Kind and named events.
    rules: Vec<Vec<u8>>,
    pub fates: Vec<Fate>,
    pub history: Vec<(u8, Fate)>,
    pub broken: Vec<bool>,
    pub closed: [bool; 8],
    pub refused_calls: usize,
    /// Whether what is done by force is written as done, as it was before S-5.
    pub without_mark: bool,
    pub beside: Beside,
    /// Of each event, from and until.
    windows: Vec<Option<[u32; 2]>>,
    pub minute: u32,
    pub timing: Timing,
}

impl Plain {
    /// Reads a sheet that is known to be admitted.
    pub fn read(sheet: &[u8]) -> Plain {
        let mut plain = Plain::default();
        let mut rest = sheet;
        while rest[0] != 5 {
            let length = [0, 3, 3, 3, 4, 1, 2, 10][usize::from(rest[0])];
            let (record, after) = rest.split_at(length);
            match record[0] {
                1 => plain.declare(record[1], &record[2..]),
                6 => plain.declare(record[1], &[7, 0, 6, 1]),
                7 => plain.add_window(record),
                _ => plain.rules.push(record.to_vec()),
            }
            rest = after;
        }
        plain.broken = vec![false; plain.rules.len()];
        plain
    }

    /// Puts a state that no list may have led to; it has no history.
    pub fn put(&mut self, fates: &[Fate], broken: &[bool]) {
        self.fates = fates.to_vec();
        self.broken = broken.to_vec();
    }

    fn declare(&mut self, step: u8, attributes: &[u8]) {
        for sum in attributes {
            self.attributes.push(*sum);
            self.steps.push(step);
            self.fates.push(Open);
            self.windows.push(None);
        }
    }

    fn add_window(&mut self, record: &[u8]) {
        let digit = |place: usize| u32::from(record[place]) << (8 * ((place - 2) % 4));
        let [from, until] = [2, 6].map(|first| (first..first + 4).map(digit).sum());
        self.windows[usize::from(record[1])] = Some([from, until]);
    }

    /// Whether the event's window is still to come, and whether it is over.
    fn outside(&self, event: u8) -> (bool, bool) {
        let Some([from, until]) = self.windows[usize::from(event)] else {
            return (false, false);
        };
        match self.timing {
            Timing::Nothing => (false, false),
            Timing::UntilToo => (self.minute < from, self.minute > until),
            Timing::AfterFrom => (self.minute <= from, self.minute >= until),
            _ => (self.minute < from, self.minute >= until),
        }
    }

    /// Whether the event may be done or forced at this minute, in an order for another.
    fn in_time(&self, event: u8, wanted: u8) -> bool {
        let (early, late) = self.outside(event);
        let open = self.fate(event) == Open;
        match self.timing {
            Timing::ForcedAnyTime if open => true,
            Timing::ForcedEarly if open => !late,
            Timing::ForcedLate if open => !early,
            Timing::OneOfOrder if event != wanted => true,
            _ => !early && !late,
        }
    }

    /// Whether the minute alone bars the event for good.
    fn is_over(&self, event: u8) -> bool {
        let (early, late) = self.outside(event);
        match self.timing {
            Timing::LateWaits => false,
            Timing::EarlyBarred => early || late,
            _ => late,
        }
    }

    fn fate(&self, event: u8) -> Fate {
        self.fates[usize::from(event)]
    }

    fn is(&self, event: u8, attribute: u8) -> bool {
        self.attributes[usize::from(event)] & attribute != 0
    }

    fn unsettled(&self, event: u8) -> bool {
        let lost = self.timing == Timing::LateIsSettled
            && self.fate(event) == Open
            && self.outside(event).1;
        !lost && matches!(self.fate(event), Open | Held)
    }

    fn gone(&self, event: u8) -> bool {
        let lost =
            self.timing == Timing::LateIsGone && self.fate(event) == Open && self.outside(event).1;
        lost || matches!(self.fate(event), Refused | Lapsed)
    }

    fn done(&self, event: u8) -> bool {
        self.fate(event).counts_as_done()
    }

    /// Forbids for good, forbids for now.
    fn forbids(&self, rule: usize, e: u8) -> (bool, bool) {
        if self.broken[rule] {
            return (false, false);
        }
        match *self.rules[rule] {
            [2, a, b] => {
                let waits = e == b && self.is(b, 4) && self.unsettled(a);
                (e == a && self.done(b), waits)
            }
            [3, a, b] => (e == a && self.gone(b), false),
            [4, a, b, c] if self.gone(c) && (e == a || e == b) => {
                let other = if e == a { b } else { a };
                let beside = self.beside != Beside::NothingBarred && self.is_left(other, a, c);
                (self.done(other) || beside, false)
            }
            [4, ..] => (false, false),
            _ => unreachable!(),
        }
    }

    /// Whether a conditional that begins with a and ends with c is a need for c of one
    /// event as the other is open: that can neither be refused nor wait, and c can't be
    /// forced.
    fn is_left(&self, other: u8, a: u8, c: u8) -> bool {
        let lapsed = self.beside == Beside::LapsedToo && self.fate(other) == Lapsed;
        let unstoppable = !self.is(other, 2) && !self.is(other, 4);
        let wrong = if other == a {
            Beside::NotForA
        } else {
            Beside::NotForB
        };
        (self.fate(other) == Open || lapsed)
            && (unstoppable || self.beside == Beside::RejectableToo)
            && (!self.can_be_forced(c) || self.beside == Beside::ForcibleToo)
            && ![Beside::Nothing, wrong].contains(&self.beside)
    }

    /// By the attribute alone: no window counts here.
    fn can_be_forced(&self, c: u8) -> bool {
        let shut = self.timing == Timing::ForcibleInTime && self.outside(c) != (false, false);
        self.is(c, 1) && !shut
    }

    fn owes(&self, rule: usize) -> bool {
        if self.broken[rule] {
            return false;
        }
        match *self.rules[rule] {
            [3, a, b] => self.done(a) && self.unsettled(b),
            [4, a, b, c] if self.unsettled(c) => {
                let other = match (self.done(a), self.done(b)) {
                    (true, true) => return true,
                    (true, false) => b,
                    (false, true) => a,
                    (false, false) => return false,
                };
                self.beside != Beside::NothingOwed && self.is_left(other, a, c)
            }
            _ => false,
        }
    }

    /// Whether the rule holds of the history, by the places in it.
    fn holds(&self, rule: usize) -> bool {
        let place = |event: u8| {
            let mut lines = self.history.iter();
            lines.position(|line| line.0 == event && line.1.counts_as_done())
        };
        match *self.rules[rule] {
            [2, a, b] => match (place(a), place(b)) {
                (Some(first), Some(second)) => first < second,
                _ => true,
            },
            [3, a, b] => place(a).is_none() || place(b).is_some(),
            [4, a, b, c] => place(a).is_none() || place(b).is_none() || place(c).is_some(),
            _ => unreachable!(),
        }
    }

    /// Whether the event may stand at the next place of an order for `wanted`.
    fn may_be_next(&self, event: u8, wanted: u8) -> bool {
        let fate = self.fate(event);
        let usable = fate == Held || (fate == Open && self.is(event, 1));
        let forbidden = |rule| self.forbids(rule, event).0 || self.forbids(rule, event).1;
        usable && self.in_time(event, wanted) && !(0..self.rules.len()).any(forbidden)
    }

    /// The first order of exactly `length` events that contains `wanted` (or
    /// has it behind it) and is viable, by trying all of them.
    fn order(&mut self, wanted: u8, length: usize) -> Option<Vec<u8>> {
        if length == 0 {
            let owing = (0..self.rules.len()).any(|rule| self.owes(rule));
            return (self.done(wanted) && !owing).then(Vec::new);
        }
        for event in 0..self.fates.len() as u8 {
            if !self.may_be_next(event, wanted) {
                continue;
            }
            let before = std::mem::replace(&mut self.fates[usize::from(event)], Done);
            let rest = self.order(wanted, length - 1);
            self.fates[usize::from(event)] = before;
            if let Some(rest) = rest {
                return Some([vec![event], rest].concat());
            }
        }
        None
    }

    /// Document 01's chosen order. Held and open events are looked at alike.
    pub fn chosen(&mut self, event: u8) -> Option<Vec<u8>> {
        (1..=6).find_map(|length| self.order(event, length))
    }

    /// Every viable order of exactly `length` events.
    pub fn orders(&mut self, wanted: u8, length: usize) -> Vec<Vec<u8>> {
        if length == 0 {
            return self.order(wanted, 0).into_iter().collect();
        }
        let mut found = Vec::new();
        for event in 0..self.fates.len() as u8 {
            if !self.may_be_next(event, wanted) {
                continue;
            }
            let before = std::mem::replace(&mut self.fates[usize::from(event)], Done);
            for rest in self.orders(wanted, length - 1) {
                found.push([vec![event], rest].concat());
            }
            self.fates[usize::from(event)] = before;
        }
        found
    }

    fn enter(&mut self, event: u8, fate: Fate) {
        self.fates[usize::from(event)] = fate;
        self.history.push((event, fate));
    }

    /// An event that is open when its turn comes is done by force.
    fn perform(&mut self, order: Vec<u8>) {
        for event in order {
            let by_force = self.fate(event) == Open && !self.without_mark;
            self.enter(event, if by_force { Forced } else { Done });
        }
    }

    fn held(&self) -> Vec<u8> {
        let all = 0..self.fates.len() as u8;
        all.filter(|event| self.fate(*event) == Held).collect()
    }

    fn settle(&mut self) {
        loop {
            let rules = 0..self.rules.len();
            let barred = |event: &u8| {
                self.is_over(*event) || rules.clone().any(|rule| self.forbids(rule, *event).0)
            };
            if let Some(event) = self.held().into_iter().find(barred) {
                self.enter(event, Refused);
                continue;
            }
            let held = self.held();
            match held.into_iter().find_map(|event| self.chosen(event)) {
                Some(order) => self.perform(order),
                None => return,
            }
        }
    }

    pub fn submit(&mut self, event: u8) {
        if usize::from(event) >= self.fates.len() {
            self.refused_calls += 1;
            return;
        }
        if self.fate(event) != Open {
            return;
        }
        self.fates[usize::from(event)] = Held;
        if !self.is(event, 4) {
            if let Some(order) = self.chosen(event) {
                self.perform(order);
            } else if self.is(event, 2) {
                self.enter(event, Refused);
            } else {
                self.do_alone(event);
            }
        }
        self.settle();
    }

    fn do_alone(&mut self, event: u8) {
        let rules = 0..self.rules.len();
        let forbid: Vec<(bool, bool)> = rules.map(|rule| self.forbids(rule, event)).collect();
        self.enter(event, Done);
        for (rule, ground) in forbid.into_iter().enumerate() {
            if self.owes(rule) || ground.0 || ground.1 {
                self.broken[rule] = true;
            }
        }
    }

    pub fn close_step(&mut self, step: u8) {
        if !self.steps.contains(&step) || self.closed[usize::from(step)] {
            self.refused_calls += 1;
            return;
        }
        self.closed[usize::from(step)] = true;
        for event in 0..self.fates.len() {
            if self.steps[event] == step && self.fates[event] == Open {
                self.enter(event as u8, Lapsed);
            }
        }
        self.settle();
    }

    pub fn finish(&mut self) {
        if self
            .steps
            .iter()
            .any(|step| !self.closed[usize::from(*step)])
        {
            self.refused_calls += 1;
            return;
        }
        self.settle();
        while let Some(event) = self.held().first() {
            self.enter(*event, Refused);
            self.settle();
        }
    }

    /// Moves the minute and settles at the new one, and at no other.
    pub fn advance(&mut self, minute: u32) {
        let backward = match self.timing {
            Timing::NotTheSame => minute <= self.minute,
            Timing::BackwardToo => false,
            _ => minute < self.minute,
        };
        if backward {
            self.refused_calls += 1;
            return;
        }
        if self.timing == Timing::EachMinute && minute - self.minute < 100 {
            for between in self.minute..minute {
                self.minute = between;
                self.settle();
            }
        }
        self.minute = minute;
        if self.timing != Timing::NoSettling {
            self.settle();
        }
    }

    /// Runs the calls; after each one the state hangs together.
    pub fn run(&mut self, mut calls: &[u8]) {
        while let Some(kind) = calls.first() {
            match (kind, calls.get(1)) {
                (16, Some(event)) => self.submit(*event),
                (17, Some(step)) => self.close_step(*step),
                (18, _) => self.finish(),
                _ => {
                    self.refused_calls += 1;
                    return;
                }
            }
            calls = &calls[if *kind == 18 { 1 } else { 2 }..];
            self.check();
        }
    }

    /// The conditions of number 12 that a list could break, and that only what is
    /// rejectable is refused and only what is forcible is forced.
    fn check(&self) {
        for event in 0..self.fates.len() as u8 {
            let closed = self.closed[usize::from(self.steps[usize::from(event)])];
            assert!(self.fate(event) != Held || self.is(event, 4));
            assert!(self.fate(event) != Open || !closed);
            let lines = self.history.iter().filter(|line| line.0 == event);
            let fates: Vec<Fate> = lines.map(|line| line.1).collect();
            match self.fate(event) {
                Open | Held => assert!(fates.is_empty()),
                fate => assert_eq!(fates, [fate]),
            }
            assert!(self.fate(event) != Refused || self.is(event, 2));
            assert!(self.fate(event) != Forced || self.is(event, 1));
        }
        for rule in 0..self.rules.len() {
            assert!(self.broken[rule] || (!self.owes(rule) && self.holds(rule)));
        }
    }

    pub fn report(&self) -> String {
        let head = format!("events {} rules {}\n", self.fates.len(), self.rules.len());
        let line = |(event, fate): &(u8, Fate)| format!("{event} {fate:?}\n").to_lowercase();
        let lines: String = self.history.iter().map(line).collect();
        let broken = self.broken.iter().filter(|broken| **broken).count();
        let (held, refused) = (self.held().len(), self.refused_calls);
        format!("{head}{lines}held {held}\nbroken {broken}\nrefused calls {refused}\n")
    }
}
