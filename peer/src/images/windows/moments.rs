//! What a call comes to for one window, read off the bytes before it and after it.

use crate::images::brought::scheduler;
use crate::images::layout::*;
use crate::images::marks::{bare, DONE, FORCED, FORCIBLE};
use crate::peer::calls::{apply, Call};
use crate::peer::sheet::MOST_EVENTS;
use crate::peer::{Fate, Scheduler};

const OPEN: u8 = 0;
const HELD: u8 = 1;
const REFUSED: u8 = 3;

/// An event with its window.
#[derive(Clone, Copy, Debug)]
pub struct Window {
    pub event: usize,
    pub from: u32,
    pub until: u32,
}

impl Window {
    fn has(&self, minute: u32) -> bool {
        (self.from..self.until).contains(&minute)
    }
}

/// The windows of a state, by event. The bytes of no state may count anything.
pub fn windows(image: &Image) -> Vec<Window> {
    let events = 0..usize::from(image[EVENTS]).min(MOST_EVENTS);
    let window = |event| {
        let [from, until] = window_of(image, event)?;
        Some(Window { event, from, until })
    };
    events.filter_map(window).collect()
}

/// A call, with the bytes before it and after it, and the peer's orders in it.
pub struct Step<'a> {
    pub call: Call,
    pub before: &'a Image,
    pub after: &'a Image,
    /// The minutes before and after.
    minutes: [u32; 2],
    /// The lengths of the orders that were done in it.
    orders: Vec<usize>,
}

/// What a call can come to for one window.
#[derive(Clone, Copy, Debug, PartialEq, Eq)]
pub enum Moment {
    /// The event was held before its window and is done as the minute comes to it: at the
    /// first minute, at a later one, and at the last.
    DoneAtFrom,
    DoneInside,
    DoneAtLast,
    /// It was held and is refused as the minute comes to `until`, or passes it.
    RefusedAtUntil,
    RefusedAfter,
    /// It was held before its window, or open, and the minute jumps over all of it.
    HeldJumped,
    OpenJumped,
    /// It is handed in: before its window and held; inside and done; after it and refused.
    HandedInEarly,
    HandedInInside,
    HandedInLate,
    /// It is forced in its window; it would have been forced but for the minute, which is
    /// before its window, or after it.
    ForcedInside,
    NotForcedEarly,
    NotForcedLate,
    /// It is done or forced in an order of several events, in a hand-in, a closing, and a
    /// move of the minute.
    InOrderOfHandIn,
    InOrderOfClosing,
    InOrderOfMove,
    /// It is open at the end of its window and stays so, with its rules as they were.
    OpenAtUntil,
    /// It was held at the same minute before and stays held.
    HeldAtSame,
}
use Moment::*;

/// What counts call the moments.
pub const MOMENTS: [(Moment, &str); 18] = [
    (DoneAtFrom, "held and done at from"),
    (DoneInside, "held and done after from"),
    (DoneAtLast, "held and done at the last minute"),
    (RefusedAtUntil, "held and refused at until"),
    (RefusedAfter, "held and refused after until"),
    (HeldJumped, "a window jumped over, the event held"),
    (OpenJumped, "a window jumped over, the event open"),
    (HandedInEarly, "handed in early and held"),
    (HandedInInside, "handed in and done in time"),
    (HandedInLate, "handed in late and refused"),
    (ForcedInside, "forced in time"),
    (NotForcedEarly, "not forced, the window not open"),
    (NotForcedLate, "not forced, the window over"),
    (InOrderOfHandIn, "in an order of several, handed in"),
    (InOrderOfClosing, "in an order of several, a closing"),
    (InOrderOfMove, "in an order of several, a move"),
    (OpenAtUntil, "open at until, and open still"),
    (HeldAtSame, "held at the same minute"),
];

impl<'a> Step<'a> {
    /// A call with the peer before it and after it.
    pub fn new(
        call: Call,
        before: &'a Image,
        after: &'a Image,
        peers: [&Scheduler; 2],
    ) -> Step<'a> {
        let [was, is] = peers.map(|peer| peer.met());
        let mut orders = Vec::new();
        for length in 1..=6 {
            let count = |met: &crate::peer::scheduler::Met| {
                met.held_orders[length] + met.forced_orders[length]
            };
            orders.extend((count(was)..count(is)).map(|_| length));
        }
        Step {
            call,
            before,
            after,
            minutes: [before, after].map(|image| minute_at(image, MINUTE)),
            orders,
        }
    }

    /// The lines that the call adds.
    fn added(&self) -> impl Iterator<Item = (usize, u8)> + '_ {
        let lines = usize::from(self.before[LINES])..usize::from(self.after[LINES]);
        lines.map(|line| {
            let event = usize::from(self.after[LINE_EVENT + line]);
            (event, self.after[LINE_FATE + line])
        })
    }

    /// Asks that what the call does or forces is inside its window, which is at the minute
    /// after the call: it has settled at no other.
    pub fn settled_in_time(&self) -> Result<(), String> {
        for (event, fate) in self.added() {
            let window = windows(self.after)
                .into_iter()
                .find(|own| own.event == event);
            let outside = window.is_some_and(|window| !window.has(self.minutes[1]));
            if bare(fate) == DONE && outside {
                return Err(format!("event {event} is settled outside its window"));
            }
        }
        Ok(())
    }

    /// Asks that no event is held whose window is over.
    pub fn none_waits_in_vain(&self) -> Result<(), String> {
        for window in windows(self.after) {
            let held = self.after[FATE + window.event] == HELD;
            if held && self.minutes[1] >= window.until {
                return Err(format!("event {} is held for ever", window.event));
            }
        }
        Ok(())
    }

    fn fates(&self, window: &Window) -> [u8; 2] {
        [self.before, self.after].map(|image| image[FATE + window.event])
    }

    pub fn is(&self, moment: Moment, window: &Window) -> bool {
        let [was, is] = self.fates(window);
        match moment {
            DoneAtFrom | DoneInside | DoneAtLast | RefusedAtUntil | RefusedAfter | HeldJumped
            | OpenJumped | OpenAtUntil | HeldAtSame => self.moves(moment, window),
            HandedInEarly | HandedInInside | HandedInLate => {
                let own = self.call == Call::Submit(window.event as u8) && was == OPEN;
                own && self.hands_in(moment, window)
            }
            ForcedInside => was == OPEN && is == FORCED,
            NotForcedEarly => self.minutes[1] < window.from && self.keeps_from_forcing(window),
            NotForcedLate => self.minutes[1] >= window.until && self.keeps_from_forcing(window),
            InOrderOfHandIn => matches!(self.call, Call::Submit(_)) && self.in_order(window),
            InOrderOfClosing => matches!(self.call, Call::CloseStep(_)) && self.in_order(window),
            InOrderOfMove => matches!(self.call, Call::Advance(_)) && self.in_order(window),
        }
    }

    /// What comes of a move of the minute that is taken.
    fn moves(&self, moment: Moment, window: &Window) -> bool {
        let ([was, is], [old, new]) = (self.fates(window), self.minutes);
        let moved = self.call == Call::Advance(new);
        let waited = was == HELD && old < window.from;
        let done = waited && is == DONE;
        let jumped = old < window.from && new >= window.until;
        let met = match moment {
            DoneAtFrom => done && new == window.from,
            DoneInside => done && new > window.from,
            DoneAtLast => done && new == window.until - 1,
            RefusedAtUntil => was == HELD && is == REFUSED && new == window.until,
            RefusedAfter => was == HELD && is == REFUSED && new > window.until,
            HeldJumped => was == HELD && is == REFUSED && jumped,
            OpenJumped => was == OPEN && is == OPEN && jumped,
            OpenAtUntil => was == OPEN && is == OPEN && new == window.until && old < new,
            HeldAtSame => was == HELD && is == HELD && old == new,
            _ => false,
        };
        moved && met
    }

    fn hands_in(&self, moment: Moment, window: &Window) -> bool {
        let ([_, is], [_, now]) = (self.fates(window), self.minutes);
        match moment {
            HandedInEarly => is == HELD && now < window.from,
            HandedInInside => is == DONE && window.has(now),
            HandedInLate => is == REFUSED && now >= window.until,
            _ => false,
        }
    }

    /// Whether the event is done in the call's one order, and that has several events.
    fn in_order(&self, window: &Window) -> bool {
        let done = |(event, fate): (usize, u8)| event == window.event && bare(fate) == DONE;
        matches!(self.orders[..], [2..=6]) && self.added().any(done)
    }

    /// Whether an open event would have been forced if it had no window.
    fn keeps_from_forcing(&self, window: &Window) -> bool {
        let forcible = self.before[ATTRIBUTES + window.event] & FORCIBLE != 0;
        if !forcible || self.fates(window) != [OPEN, OPEN] {
            return false;
        }
        let mut without = *self.before;
        for row in [FROM, UNTIL] {
            put_minute(&mut without, row + 4 * window.event, 0);
        }
        let Some(mut peer) = scheduler(&without) else {
            return false;
        };
        apply(&mut peer, self.call);
        peer.state().fate(window.event as u8) == Fate::Forced
    }
}
