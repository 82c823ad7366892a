//! Rules: what each says, and which of them are recorded as broken.

use crate::layout::{self, marked, row};
use crate::State;
use std::fmt;

const ORDER: u8 = 2;
const NEED: u8 = 3;

/// A rule: what it says, and whether it is recorded as broken. [`State::rules`] gives them
/// all.
///
/// More fields may come with later versions of the library.
///
/// ```
/// use sinewhopa::{Form, State};
///
/// let state = State::open(&[1, 0, 6, 1, 1, 6, 2, 0, 1, 5])?; // event 0 before event 1
/// let rule = state.rule(0).ok_or("no such rule")?;
/// assert_eq!((rule.number, rule.broken), (0, false));
/// assert_eq!(rule.form, Form::Order { earlier: 0, later: 1 });
/// # Ok::<(), Box<dyn std::error::Error>>(())
/// ```
#[derive(Clone, Copy, Debug, PartialEq, Eq, Hash)]
#[non_exhaustive]
pub struct Rule {
    /// Its number. Rules are numbered from 0, in the sequence in which the sheet declares
    /// them, all forms together.
    pub number: u8,
    /// What it says, of which events.
    pub form: Form,
    /// Whether it is recorded as broken. Such a rule asks for nothing any more.
    pub broken: bool,
}

/// What a rule says, with the numbers of its events. There are these three forms; what is
/// forced counts as done.
///
/// ```
/// use sinewhopa::{Form, State};
///
/// let sheet = [1, 0, 6, 1, 1, 6, 1, 2, 6, 2, 0, 1, 3, 1, 2, 4, 0, 1, 2, 5];
/// let state = State::open(&sheet)?;
/// let said: Vec<String> = state.rules().map(|rule| rule.form.to_string()).collect();
/// assert_eq!(said, ["0 before 1", "1 only if 2", "if 0 and 1, then 2"]);
///
/// let needs = |form| match form {
///     Form::Need { event, needs } => Some((event, needs)),
///     Form::Order { .. } | Form::Conditional { .. } => None,
/// };
/// let needs: Vec<(u8, u8)> = state.rules().filter_map(|rule| needs(rule.form)).collect();
/// assert_eq!(needs, [(1, 2)]);
/// # Ok::<(), sinewhopa::SheetFault>(())
/// ```
#[derive(Clone, Copy, Debug, PartialEq, Eq, Hash)]
pub enum Form {
    /// Where both events are done, the earlier one is done before the later one.
    Order {
        /// The event that is done before the other.
        earlier: u8,
        /// The event that is done after it.
        later: u8,
    },
    /// The event is done only if the one that it needs is done too, before it or with it.
    Need {
        /// The event that has the need: the trigger.
        event: u8,
        /// The event that it needs.
        needs: u8,
    },
    /// Where both triggers are done, the third event is done too.
    Conditional {
        /// The two triggers, in the sequence in which the sheet names them.
        triggers: [u8; 2],
        /// The third event.
        then: u8,
    },
}

impl Form {
    /// Whether the rule names the event.
    ///
    /// ```
    /// use sinewhopa::State;
    ///
    /// let sheet = [1, 0, 6, 1, 1, 6, 1, 2, 6, 2, 0, 1, 3, 1, 2, 5]; // 0 before 1; 1 only if 2
    /// let state = State::open(&sheet)?;
    /// let of_2: Vec<u8> = state
    ///     .rules()
    ///     .filter(|rule| rule.form.names(2))
    ///     .map(|rule| rule.number)
    ///     .collect();
    /// assert_eq!(of_2, [1]);
    /// # Ok::<(), sinewhopa::SheetFault>(())
    /// ```
    pub fn names(self, event: u8) -> bool {
        match self {
            Form::Order { earlier, later } => [earlier, later].contains(&event),
            Form::Need { event: a, needs } => [a, needs].contains(&event),
            Form::Conditional { triggers, then } => triggers.contains(&event) || then == event,
        }
    }

    /// The form of a state's bytes: a rule's kind, which is 2, 3 or 4, and its events.
    fn from_numbers(kind: u8, [a, b, c]: [u8; 3]) -> Form {
        match kind {
            ORDER => Form::Order {
                earlier: a,
                later: b,
            },
            NEED => Form::Need { event: a, needs: b },
            _ => Form::Conditional {
                triggers: [a, b],
                then: c,
            },
        }
    }
}

/// The rule in words: `0 before 1`, `0 only if 1`, `if 0 and 1, then 2`.
impl fmt::Display for Form {
    fn fmt(&self, out: &mut fmt::Formatter<'_>) -> fmt::Result {
        match self {
            Form::Order { earlier, later } => write!(out, "{earlier} before {later}"),
            Form::Need { event, needs } => write!(out, "{event} only if {needs}"),
            Form::Conditional {
                triggers: [a, b],
                then,
            } => write!(out, "if {a} and {b}, then {then}"),
        }
    }
}

impl State {
    /// The rules, by number.
    ///
    /// ```
    /// use sinewhopa::State;
    ///
    /// // Events 0 and 1 are forcible alone, and 0 needs 1, which has lapsed.
    /// let mut state = State::open(&[1, 0, 1, 1, 1, 1, 3, 0, 1, 5])?;
    /// state.close_step(1)?;
    /// state.submit(0)?;
    /// for rule in state.rules().filter(|rule| rule.broken) {
    ///     assert_eq!(format!("rule {}: {}", rule.number, rule.form), "rule 0: 0 only if 1");
    /// }
    /// assert_eq!(state.rules().filter(|rule| rule.broken).count(), 1);
    /// # Ok::<(), Box<dyn std::error::Error>>(())
    /// ```
    pub fn rules(&self) -> impl Iterator<Item = Rule> + '_ {
        (0..self.rule_count()).filter_map(|number| self.rule(number))
    }

    /// A rule by its number; none where it is not declared.
    ///
    /// ```
    /// use sinewhopa::{Form, State};
    ///
    /// let state = State::open(&[1, 0, 6, 1, 1, 6, 3, 1, 0, 5])?;
    /// assert_eq!(state.rule(0).map(|rule| rule.form), Some(Form::Need { event: 1, needs: 0 }));
    /// assert_eq!(state.rule(1), None);
    /// # Ok::<(), sinewhopa::SheetFault>(())
    /// ```
    pub fn rule(&self, number: u8) -> Option<Rule> {
        let byte_at = |start| {
            let declared = row(self.as_bytes(), start, self.rule_count());
            declared.get(usize::from(number)).copied()
        };
        let [a, b, c] = layout::RULE_EVENTS.map(byte_at);
        Some(Rule {
            number,
            form: Form::from_numbers(byte_at(layout::RULE_KIND)?, [a?, b?, c?]),
            broken: self.is_broken(number),
        })
    }

    /// How many rules the sheet declares, at most 16.
    ///
    /// ```
    /// # use sinewhopa::State;
    /// assert_eq!(State::open(&[6, 0, 2, 0, 2, 5])?.rule_count(), 1);
    /// # Ok::<(), sinewhopa::SheetFault>(())
    /// ```
    pub fn rule_count(&self) -> u8 {
        self.as_bytes()[layout::RULES]
    }

    /// Whether the rule is recorded as broken; a rule that is not declared never is.
    /// Only an event that may be neither held nor refused breaks a rule. From the first
    /// state on, a conditional breaks only where its third event is forcible: where it is
    /// not, the other trigger waits for it ([`Fate::Held`](crate::Fate::Held)).
    ///
    /// ```
    /// # use sinewhopa::State;
    /// // Events 0 and 1 are forcible alone, and 0 needs 1, which has lapsed.
    /// let mut state = State::open(&[1, 0, 1, 1, 1, 1, 3, 0, 1, 5])?;
    /// state.close_step(1)?;
    /// state.submit(0)?;
    /// assert!(state.is_broken(0) && !state.is_broken(1));
    /// # Ok::<(), Box<dyn std::error::Error>>(())
    /// ```
    pub fn is_broken(&self, rule: u8) -> bool {
        marked(
            row(self.as_bytes(), layout::BROKEN, self.rule_count()),
            rule,
        )
    }
}
