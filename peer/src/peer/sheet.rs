//! Reading a sheet.

use super::rules::Rule;
use super::set::{has, one, Set};
use std::collections::BTreeMap;

pub const MOST_EVENTS: usize = 16;
pub const MOST_RULES: usize = 16;
pub const STEPS: u8 = 8;

const FORCIBLE: u8 = 1;
const REJECTABLE: u8 = 2;
const DELAYABLE: u8 = 4;

/// Body lengths of kinds 1 to 7; kind 0 does not exist.
const BODY: [usize; 7] = [2, 2, 2, 3, 0, 1, 9];
pub(super) const WINDOW: u8 = 7;
pub(super) const END: u8 = 5;
/// st, pr, cm, ab.
const FOUR: [u8; 4] = [7, 0, 6, 1];

/// Why and where a sheet is turned down.
#[derive(Clone, Copy, Debug, PartialEq, Eq)]
pub struct Refused {
    pub number: u8,
    pub offset: usize,
}

/// When an event may be done or forced: from one minute on, and before another.
#[derive(Clone, Copy, Debug, PartialEq, Eq)]
pub struct Window {
    pub from: u32,
    pub until: u32,
}

#[derive(Clone, Debug, Default, PartialEq, Eq)]
pub struct Sheet {
    /// The step of each event.
    pub steps: Vec<u8>,
    pub forcible: Set,
    pub rejectable: Set,
    pub delayable: Set,
    pub rules: Vec<Rule>,
    /// By event; events without one may be done at any minute.
    pub windows: BTreeMap<u8, Window>,
}

impl Sheet {
    pub fn read(bytes: &[u8]) -> Result<Sheet, Refused> {
        let (sheet, offset) = Sheet::read_front(bytes)?;
        if offset < bytes.len() {
            return Err(Refused { number: 8, offset });
        }
        Ok(sheet)
    }

    /// The sheet at the front and its length, whatever stands behind it.
    pub fn read_front(bytes: &[u8]) -> Result<(Sheet, usize), Refused> {
        let mut sheet = Sheet::default();
        let mut offset = 0;
        loop {
            let refuse = |number| Refused { number, offset };
            let (kind, body) = split_record(&bytes[offset..]).map_err(refuse)?;
            if kind == END {
                return Ok((sheet, offset + 1));
            }
            sheet.add(kind, body).map_err(refuse)?;
            offset += 1 + body.len();
        }
    }

    pub fn events(&self) -> usize {
        self.steps.len()
    }

    /// All declared events.
    pub fn all(&self) -> Set {
        ((1u32 << self.events()) - 1) as Set
    }

    /// The attributes of an event, as a sum.
    pub fn attributes(&self, event: u8) -> u8 {
        let sum = |set, attribute| if has(set, event) { attribute } else { 0 };
        sum(self.forcible, FORCIBLE)
            + sum(self.rejectable, REJECTABLE)
            + sum(self.delayable, DELAYABLE)
    }

    /// The events of a step. A step above 7 has none.
    pub fn of_step(&self, step: u8) -> Set {
        let mut found = 0;
        for (event, own) in self.steps.iter().enumerate() {
            if *own == step {
                found |= one(event as u8);
            }
        }
        found
    }

    /// The events that may not be done yet at this minute.
    pub fn early(&self, minute: u32) -> Set {
        self.windowed(|window| minute < window.from)
    }

    /// Those that may never be done again from this minute on.
    pub fn late(&self, minute: u32) -> Set {
        self.windowed(|window| minute >= window.until)
    }

    fn windowed(&self, fits: impl Fn(&Window) -> bool) -> Set {
        let fitting = self.windows.iter().filter(|(_, window)| fits(window));
        fitting.fold(0, |set, (event, _)| set | one(*event))
    }

    fn add(&mut self, kind: u8, body: &[u8]) -> Result<(), u8> {
        match kind {
            1 => self.declare(body[0], &body[1..]),
            6 => self.declare(body[0], &FOUR),
            WINDOW => self.add_window(body),
            _ => self.add_rule(kind, body),
        }
    }

    fn declare(&mut self, step: u8, attributes: &[u8]) -> Result<(), u8> {
        if self.events() + attributes.len() > MOST_EVENTS {
            return Err(3);
        }
        if step >= STEPS {
            return Err(4);
        }
        for &sum in attributes {
            let stuck = sum & DELAYABLE != 0 && sum & REJECTABLE == 0;
            if sum > 7 || stuck {
                return Err(5);
            }
            let event = one(self.events() as u8);
            self.forcible |= if sum & FORCIBLE != 0 { event } else { 0 };
            self.rejectable |= if sum & REJECTABLE != 0 { event } else { 0 };
            self.delayable |= if sum & DELAYABLE != 0 { event } else { 0 };
            self.steps.push(step);
        }
        Ok(())
    }

    fn add_rule(&mut self, kind: u8, named: &[u8]) -> Result<(), u8> {
        if self.rules.len() >= MOST_RULES {
            return Err(3);
        }
        let mut seen: Set = 0;
        for &event in named {
            if usize::from(event) >= self.events() || has(seen, event) {
                return Err(6);
            }
            seen |= one(event);
        }
        let rule = match *named {
            [first, second] if kind == 2 => Rule::Order {
                first,
                second,
                waits: has(self.delayable, second),
            },
            [named_first, .., goal] => Rule::Follow {
                triggers: seen & !one(goal),
                goal,
                unstoppable: self.unstoppable(seen & !one(goal), goal),
                named_first,
            },
            _ => unreachable!("rules name two events or more"),
        };
        if !self.enforceable(&rule) {
            return Err(7);
        }
        self.rules.push(rule);
        Ok(())
    }

    fn add_window(&mut self, body: &[u8]) -> Result<(), u8> {
        let event = body[0];
        let [from, until] = [1, 5].map(|place| minute(&body[place..]));
        // A set can be asked of declared events alone.
        let declared = usize::from(event) < self.events();
        if !declared || !has(self.delayable, event) || until <= from {
            return Err(15);
        }
        match self.windows.insert(event, Window { from, until }) {
            None => Ok(()),
            Some(_) => Err(15),
        }
    }

    /// The triggers that nothing can stop, where the goal can't be forced.
    fn unstoppable(&self, triggers: Set, goal: u8) -> Set {
        if has(self.forcible, goal) {
            return 0;
        }
        triggers & !(self.rejectable | self.delayable)
    }

    fn enforceable(&self, rule: &Rule) -> bool {
        match *rule {
            Rule::Order { first, waits, .. } => waits || has(self.rejectable, first),
            Rule::Follow { triggers, goal, .. } => {
                triggers & self.rejectable != 0 || has(self.forcible, goal)
            }
        }
    }
}

/// The records of an admitted sheet, without its end.
pub fn records(sheet: &[u8]) -> Vec<&[u8]> {
    let mut rest = sheet;
    let mut found = Vec::new();
    while let Ok((kind, body)) = split_record(rest) {
        if kind == END {
            break;
        }
        let (record, after) = rest.split_at(1 + body.len());
        found.push(record);
        rest = after;
    }
    found
}

/// The kind and body of the record at the front: the kind is checked before the
/// length.
fn split_record(rest: &[u8]) -> Result<(u8, &[u8]), u8> {
    let (&kind, rest) = rest.split_first().ok_or(1)?;
    let length = BODY.get(usize::from(kind).wrapping_sub(1)).ok_or(2)?;
    let body = rest.get(..*length).ok_or(1)?;
    Ok((kind, body))
}

/// The minute at the front of these bytes, lowest byte first.
pub(super) fn minute(bytes: &[u8]) -> u32 {
    let digits = bytes[..4].iter().rev();
    digits.fold(0, |sum, byte| sum << 8 | u32::from(*byte))
}
