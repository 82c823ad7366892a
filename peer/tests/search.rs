//! The peer against a plain reading of document 01 and of S-5 to S-7 that tries every order.
//! No library is needed for it.

#[allow(dead_code)]
mod plain;

use peer::compare::{pair, SEED};
use peer::peer::report::report;
use peer::peer::search::Search;
use peer::peer::set::{has, members, one, Set};
use peer::peer::sheet::Window;
use peer::peer::{trace, Sheet, State};
use peer::random::{waiting_sheet, windowed_sheet, Random};
use plain::{Fate, Plain};

const PAIRS: usize = 20_000;
const STATES: usize = 30_000;
const WIDE_STATES: usize = 120;
/// Trying every order takes too long among more events than these, in lists
/// and states, and in the wide states.
const MOST: u32 = 7;
const MOST_WIDE: u32 = 11;

fn agree_on_list(sheet: &[u8], calls: &[u8]) {
    let mut plain = Plain::read(sheet);
    plain.run(calls);
    let peer = report(&trace(sheet, calls));
    assert_eq!(
        peer,
        plain.report(),
        "sheet {sheet:02x?} calls {calls:02x?}"
    );
}

#[test]
fn peer_agrees_with_every_order_tried() {
    let mut random = Random::new(SEED ^ 0x5ea7c4);
    let mut compared = 0;
    for _ in 0..PAIRS {
        let (bytes, calls) = pair(&mut random);
        match Sheet::read(&bytes) {
            Ok(sheet) if (sheet.forcible | sheet.delayable).count_ones() <= MOST => {
                agree_on_list(&bytes, &calls);
                compared += 1;
            }
            _ => {}
        }
    }
    assert!(compared > PAIRS / 3, "{compared} compared");
}

/// Fates of any sort, with at most `most` events that an order could contain.
fn any_fates(random: &mut Random, sheet: &Sheet, most: u32) -> Vec<Fate> {
    let settled = random.pick(&[0, 10, 30, 60]);
    let mut events: Vec<u8> = (0..sheet.events() as u8).collect();
    random.shuffle(&mut events);
    let mut fates = vec![Fate::Open; events.len()];
    let mut usable = 0;
    for event in events {
        let mut fate = random.pick(&[Fate::Held, Fate::Held, Fate::Open]);
        let counts = fate == Fate::Held || has(sheet.forcible, event);
        if random.percent(settled) || (counts && usable == most) {
            fate = random.pick(&[Fate::Done, Fate::Forced, Fate::Refused, Fate::Lapsed]);
        } else {
            usable += u32::from(counts);
        }
        fates[usize::from(event)] = fate;
    }
    fates
}

fn events_with(fates: &[Fate], fate: Fate) -> Set {
    let numbered = fates.iter().enumerate();
    let fitting = numbered.filter(|(_, own)| **own == fate);
    fitting.fold(0, |set, (event, _)| set | one(event as u8))
}

/// A state that a list may or may not lead to, both ways.
struct Both {
    bytes: Vec<u8>,
    sheet: Sheet,
    state: State,
    plain: Plain,
}

/// What the states are of.
type Sheets = fn(&mut Random) -> Vec<u8>;
const ANY: Sheets = |random| pair(random).0;
const WAITING: Sheets = |random| waiting_sheet(random).made.bytes;
const TIMED: Sheets = |random| windowed_sheet(random).made.bytes;

/// A minute at which one of the windows opens, is open or is over; the first where there is
/// none.
fn any_minute(random: &mut Random, sheet: &Sheet) -> u32 {
    let windows: Vec<Window> = sheet.windows.values().copied().collect();
    if windows.is_empty() {
        return 0;
    }
    let window = random.pick(&windows);
    random.pick(&[0, window.from, window.from, window.until - 1, window.until])
}

/// A random state of a random sheet, if that is admitted.
fn any_state(random: &mut Random, sheets: Sheets, most: u32) -> Option<Both> {
    let bytes = sheets(random);
    let sheet = Sheet::read(&bytes).ok()?;
    let fates = any_fates(random, &sheet, most);
    let rules = 0..sheet.rules.len();
    let chance = random.pick(&[0, 0, 10]);
    let broken: Vec<bool> = rules.map(|_| random.percent(chance)).collect();
    let mut plain = Plain::read(&bytes);
    plain.put(&fates, &broken);
    plain.minute = any_minute(random, &sheet);
    let forced = events_with(&fates, Fate::Forced);
    let mut state = State {
        held: events_with(&fates, Fate::Held),
        done: events_with(&fates, Fate::Done) | forced,
        forced,
        refused: events_with(&fates, Fate::Refused),
        lapsed: events_with(&fates, Fate::Lapsed),
        minute: plain.minute,
        ..State::default()
    };
    for (rule, is_broken) in broken.into_iter().enumerate() {
        state.broken |= if is_broken { one(rule as u8) } else { 0 };
    }
    Some(Both {
        bytes,
        sheet,
        state,
        plain,
    })
}

/// How many orders of held events and how many with an open one were chosen;
/// the place is the length.
type Met = [[usize; 7]; 2];

/// The events of an order, each with whether it is open and to be forced.
type Told = Vec<(u8, bool)>;

/// The chosen order of each held event, and that of the lowest that has one.
fn agree_on_state(both: &mut Both, search: &mut Search, met: &mut Met) {
    let (sheet, state) = (&both.sheet, &both.state);
    let mut chosen = |wanted| -> Option<Told> {
        let order = search.chosen(sheet, state, wanted)?;
        let told = order
            .events()
            .map(|event| (event, has(order.forced(), event)));
        Some(told.collect())
    };
    let mut first = None;
    for event in members(state.held) {
        let order = both.plain.chosen(event).map(|order| {
            let is_open = |event: u8| both.plain.fates[usize::from(event)] == Fate::Open;
            let told = order.into_iter().map(|event| (event, is_open(event)));
            told.collect::<Told>()
        });
        let place = format!("{event} in {:02x?} {state:x?}", both.bytes);
        assert_eq!(chosen(one(event)), order, "{place}");
        if let Some(order) = &order {
            let forced = order.iter().any(|(_, forced)| *forced);
            met[usize::from(forced)][order.len()] += 1;
        }
        first = first.or(order);
    }
    assert_eq!(chosen(state.held), first, "{:02x?} {state:x?}", both.bytes);
}

fn agree_on_states(seed: u64, sheets: Sheets, count: usize, least: u32, most: u32) -> Met {
    let mut random = Random::new(seed);
    let mut search = Search::default();
    let mut met = Met::default();
    let mut compared = 0;
    while compared < count {
        let Some(mut both) = any_state(&mut random, sheets, most) else {
            continue;
        };
        let forcible = both.state.open(&both.sheet) & both.sheet.forcible;
        if (both.state.held | forcible).count_ones() >= least {
            agree_on_state(&mut both, &mut search, &mut met);
            compared += 1;
        }
    }
    met
}

#[test]
fn search_finds_the_first_order_of_any_state() {
    let met = agree_on_states(SEED ^ 0x57a7e, ANY, STATES, 0, MOST);
    println!("{met:?}");
    assert!(met[0][1..].iter().all(|count| *count > 100), "{met:?}");
    assert!(met[1][2..].iter().all(|count| *count > 100), "{met:?}");
}

#[test]
fn search_finds_the_first_order_of_wide_states() {
    let met = agree_on_states(SEED ^ 0x31de, ANY, WIDE_STATES, MOST + 1, MOST_WIDE);
    println!("{met:?}");
}

/// Where nothing can stop a conditional's a or b; most orders are short then.
#[test]
fn search_finds_the_first_order_beside_open_events() {
    let met = agree_on_states(SEED ^ 0x3a17, WAITING, STATES, 0, MOST - 2);
    println!("{met:?}");
    assert!(met[0][1..4].iter().all(|count| *count > 100), "{met:?}");
    assert!(met[1][2..4].iter().all(|count| *count > 100), "{met:?}");
}

/// Where events have windows; orders are rarer and shorter for that.
#[test]
fn search_finds_the_first_order_at_a_minute() {
    let met = agree_on_states(SEED ^ 0x717e, TIMED, STATES, 0, MOST - 1);
    println!("{met:?}");
    assert!(met[0][1..5].iter().all(|count| *count > 100), "{met:?}");
    assert!(met[1][2..5].iter().all(|count| *count > 100), "{met:?}");
}

/// What S-4 rests on, tried out: the shortest viable orders for an event are
/// made of the same events.
#[test]
fn shortest_orders_have_the_same_events() {
    let mut random = Random::new(SEED ^ 0x5a3e);
    let mut several = 0;
    for _ in 0..STATES {
        let sheets = random.pick(&[ANY, ANY, WAITING, TIMED]);
        let Some(mut both) = any_state(&mut random, sheets, MOST - 1) else {
            continue;
        };
        for event in members(both.state.held) {
            let lengths = 1..=6;
            let mut orders = lengths.map(|length| both.plain.orders(event, length));
            let Some(shortest) = orders.find(|orders| !orders.is_empty()) else {
                continue;
            };
            several += usize::from(shortest.len() > 1);
            let set = |order: &Vec<u8>| order.iter().fold(0, |set, event| set | one(*event));
            let same = shortest.iter().all(|order| set(order) == set(&shortest[0]));
            assert!(same, "{event} in {:02x?} {:x?}", both.bytes, both.state);
        }
    }
    assert!(several > 1_000, "{several} with several orders");
}
