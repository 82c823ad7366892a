//! Which bytes are those of a state that hangs together: the layout's own
//! conditions, and those of number 12 (10.4 of the specification).

use super::layout::*;

const OPEN: u8 = 0;
const HELD: u8 = 1;
const DONE: u8 = 2;
const FORCED: u8 = 5;
const FORCIBLE: u8 = 1;
const REJECTABLE: u8 = 2;
const DELAYABLE: u8 = 4;

pub fn is_sound(image: &Image) -> bool {
    is_image(image) && counts_fit(image) && is_coherent(image) && windows_fit(image)
}

/// The bytes that a state can be written with. Places beyond the counts are
/// looked at like the others, in the rows that have but a few values.
fn is_image(image: &Image) -> bool {
    let all = |row: std::ops::Range<usize>, fits: fn(u8) -> bool| {
        image[row].iter().all(|byte| fits(*byte))
    };
    let mut rules = 0..16;
    image[VERSION] == 1
        && all(RULE_KIND..RULE_A, |kind| (2..=4).contains(&kind))
        && rules.all(|rule| image[RULE_KIND + rule] == 4 || image[RULE_C + rule] == 0)
        && all(FATE..BROKEN, |fate| fate <= FORCED)
        && all(BROKEN..LINE_EVENT, |mark| mark <= 1)
        && all(LINE_FATE..MINUTE, |fate| fate <= FORCED)
        && all(SPARE..image.len(), |spare| spare == 0)
}

fn counts_fit(image: &Image) -> bool {
    image[EVENTS..=LINES].iter().all(|count| *count <= 16)
}

fn is_coherent(image: &Image) -> bool {
    let (events, rules) = (usize::from(image[EVENTS]), usize::from(image[RULES]));
    let lines_fit = lines(image).all(|(event, _)| usize::from(event) < events);
    lines_fit
        && (0..events).all(|event| event_fits(image, event))
        && (0..rules).all(|rule| rule_fits(image, rule))
}

fn lines(image: &Image) -> impl Iterator<Item = (u8, u8)> + '_ {
    let lines = 0..usize::from(image[LINES]);
    lines.map(|line| (image[LINE_EVENT + line], image[LINE_FATE + line]))
}

/// Step, attributes and fate of an event, and its lines. A line has the very fate of
/// its event; any event may be forced.
fn event_fits(image: &Image, event: usize) -> bool {
    let (step, sum, fate) = (
        image[STEP + event],
        image[ATTRIBUTES + event],
        image[FATE + event],
    );
    let own: Vec<u8> = lines(image)
        .filter(|line| usize::from(line.0) == event)
        .map(|line| line.1)
        .collect();
    let declared = step <= 7 && sum <= 7 && (sum & DELAYABLE == 0 || sum & REJECTABLE != 0);
    declared
        && match fate {
            OPEN => own.is_empty() && image[CLOSED + usize::from(step)] == 0,
            HELD => own.is_empty() && sum & DELAYABLE != 0,
            _ => own == [fate],
        }
}

/// A window is one that a sheet could give its event. There is none past the events.
fn windows_fit(image: &Image) -> bool {
    (0..16).all(|event| match window_of(image, event) {
        None => true,
        Some([from, until]) => {
            let delayable = image[ATTRIBUTES + event] & DELAYABLE != 0;
            event < usize::from(image[EVENTS]) && delayable && from < until
        }
    })
}

/// The triggers of a rule and its goal; of an order both events, and no goal.
fn parts(image: &Image, rule: usize) -> (Vec<u8>, Option<u8>) {
    let (a, b, c) = (
        image[RULE_A + rule],
        image[RULE_B + rule],
        image[RULE_C + rule],
    );
    match image[RULE_KIND + rule] {
        3 => (vec![a], Some(b)),
        4 => (vec![a, b], Some(c)),
        _ => (vec![a, b], None),
    }
}

fn rule_fits(image: &Image, rule: usize) -> bool {
    let (triggers, goal) = parts(image, rule);
    let named: Vec<u8> = triggers.iter().copied().chain(goal).collect();
    let declared = named.iter().all(|event| *event < image[EVENTS]);
    let twice = (1..named.len()).any(|place| named[..place].contains(&named[place]));
    let is = |event: u8, attribute| image[ATTRIBUTES + usize::from(event)] & attribute != 0;
    declared
        && !twice
        && match goal {
            None => is(triggers[1], DELAYABLE) || is(triggers[0], REJECTABLE),
            Some(goal) => is(goal, FORCIBLE) || triggers.iter().any(|event| is(*event, REJECTABLE)),
        }
        && (image[BROKEN + rule] == 1
            || (is_kept(image, &triggers, goal) && !is_waiting(image, &triggers, goal)))
}

fn is_done(fate: u8) -> bool {
    [DONE, FORCED].contains(&fate)
}

/// Whether a rule that stands holds of the history and owes nothing but what a
/// conditional owes beside an open event. Forced counts as done.
fn is_kept(image: &Image, triggers: &[u8], goal: Option<u8>) -> bool {
    let place = |event| lines(image).position(|line| line.0 == event && is_done(line.1));
    match goal {
        None => match (place(triggers[0]), place(triggers[1])) {
            (Some(first), Some(second)) => first < second,
            _ => true,
        },
        Some(goal) => triggers.iter().any(|event| place(*event).is_none()) || place(goal).is_some(),
    }
}

/// Whether a conditional owes its third event for one of the others that is done, as the
/// one left is open and nothing can stop it, nor force the third (S-6).
fn is_waiting(image: &Image, triggers: &[u8], goal: Option<u8>) -> bool {
    let ([a, b], Some(goal)) = (triggers, goal) else {
        return false;
    };
    let fate = |event: u8| image[FATE + usize::from(event)];
    let sum = |event: u8| image[ATTRIBUTES + usize::from(event)];
    let beside = |other: u8, left: u8| {
        let unstoppable = sum(left) & (REJECTABLE | DELAYABLE) == 0;
        is_done(fate(other)) && fate(left) == OPEN && unstoppable
    };
    let unsettled = [OPEN, HELD].contains(&fate(goal));
    unsettled && sum(goal) & FORCIBLE == 0 && (beside(*a, *b) || beside(*b, *a))
}
