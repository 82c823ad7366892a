//! Conditionals of which nothing can stop a or b, on states that a host keeps: against the
//! peer, and against what they come to without S-6. `COMPARE_SEED` in the environment gives
//! another seed.

mod on_images;
#[allow(dead_code)]
mod plain;

use on_images::{make, plain_of, put};
use peer::cases::sheet_of;
use peer::compare::{hex, seed, SEED};
use peer::images::brought::{as_sheet, scheduler};
use peer::images::damaged;
use peer::images::forced::{Make, Outcome};
use peer::images::layout::*;
use peer::images::marks::{DONE, FORCED};
use peer::images::sound::is_sound;
use peer::images::waiting::damage::{self, put_fate};
use peer::images::waiting::{compare, kept, sides, Functions, COUNT, LIBRARY};
use peer::images::{batches, previews, sheets, FILL};
use peer::library::raw::{self, Entry};
use peer::library::{self, LONGEST_REPORT, LONGEST_SHEET};
use peer::peer::calls::Call;
use peer::peer::report::report;
use peer::peer::{self as second, trace, Scheduler, Sheet};
use peer::random::{waiting_calls, waiting_sheet, Random};
use plain::{Beside, Plain};
use Call::{Advance, CloseStep, Finish, Submit};

/// Everything that the comparison is about has to be met this often, and this many cases
/// decided by S-6.
const LEAST: usize = 200;
const LEAST_DECIDED: usize = 12_000;
/// Trying every order takes too long among more events than these.
const MOST: usize = 6;

const OPEN: u8 = 0;
const HELD: u8 = 1;
const REFUSED: u8 = 3;
const LAPSED: u8 = 4;

/// The unsettled events that an order could contain, now or later.
fn usable(image: &Image) -> usize {
    let events = 0..usize::from(image[EVENTS]);
    let usable = |event: &usize| image[FATE + event] <= HELD && image[ATTRIBUTES + event] & 5 != 0;
    events.filter(usable).count()
}

/// A call on the bytes of a state by the plain reading, with S-6 read in some way; none
/// where the call is turned down, or too much has to be tried.
fn plain_call(beside: Beside, image: &Image, call: Call) -> Option<Image> {
    if usable(image) > MOST {
        return None;
    }
    let mut plain = plain_of(&as_sheet(image), image);
    plain.beside = beside;
    make(&mut plain, call);
    let mut after = *image;
    put(&plain, &mut after);
    (plain.refused_calls == 0).then_some(after)
}

/// What a call comes to in document 01 alone. One that is turned down changes nothing.
fn without(image: &Image, call: Call) -> Option<Image> {
    if usable(image) > MOST {
        return None;
    }
    Some(plain_call(Beside::Nothing, image, call).unwrap_or(*image))
}

#[test]
fn every_case_agrees_with_peer() {
    let seed = seed();
    match compare(seed, COUNT, &LIBRARY, Some(without)) {
        Ok(tally) => {
            println!("{tally}");
            assert_eq!(tally.cases, COUNT);
            assert_eq!(tally.missing(LEAST), None);
            assert!(tally.decided_cases >= LEAST_DECIDED);
            assert!(tally.unknown < tally.calls / 10);
            assert_eq!(tally.answered[0], 0);
        }
        Err(wrong) => panic!("seed {seed}, {wrong}"),
    }
}

/// A library that reads S-6 in some way, where every order can be tried.
fn call_by(beside: Beside, image: &mut Image, call: Call) -> u8 {
    match plain_call(beside, image, call) {
        Some(after) => {
            *image = after;
            0
        }
        None => (LIBRARY.call)(image, call),
    }
}

/// The wrong readings, each as a library.
const WRONG: [(Beside, Make); 8] = [
    (Beside::Nothing, |image, call| {
        call_by(Beside::Nothing, image, call)
    }),
    (Beside::LapsedToo, |image, call| {
        call_by(Beside::LapsedToo, image, call)
    }),
    (Beside::ForcibleToo, |image, call| {
        call_by(Beside::ForcibleToo, image, call)
    }),
    (Beside::RejectableToo, |image, call| {
        call_by(Beside::RejectableToo, image, call)
    }),
    (Beside::NothingOwed, |image, call| {
        call_by(Beside::NothingOwed, image, call)
    }),
    (Beside::NothingBarred, |image, call| {
        call_by(Beside::NothingBarred, image, call)
    }),
    (Beside::NotForA, |image, call| {
        call_by(Beside::NotForA, image, call)
    }),
    (Beside::NotForB, |image, call| {
        call_by(Beside::NotForB, image, call)
    }),
];

fn plain_run(beside: Beside, sheet: &[u8], calls: &[u8]) -> Vec<u8> {
    if usable(&first(sheet)) > MOST {
        return library::run(sheet, calls);
    }
    let mut plain = Plain::read(sheet);
    plain.beside = beside;
    plain.run(calls);
    plain.report().into_bytes()
}

/// Each wrong reading is found out, in single calls and in whole lists; the right one is
/// not; and too few cases are noticed.
#[test]
fn the_comparison_of_waiting_events_can_fail() {
    for (beside, call) in WRONG {
        let wrong = Functions { call, ..LIBRARY };
        let found = compare(SEED, COUNT, &wrong, None).expect_err("something wrong");
        println!("{beside:?}: {:?}", found.split(',').next());
        assert!(found.contains("the bytes") || found.contains("the answer"));
    }
    let lists = Functions {
        run: |sheet, calls| plain_run(Beside::Nothing, sheet, calls),
        ..LIBRARY
    };
    let found = compare(SEED, COUNT, &lists, None);
    assert!(found.is_err_and(|found| found.contains("the report")));
    let right = Functions {
        call: |image, call| call_by(Beside::AsAsked, image, call),
        run: |sheet, calls| plain_run(Beside::AsAsked, sheet, calls),
    };
    compare(SEED ^ 1, 3_000, &right, None).expect("nothing wrong");
    let few = compare(SEED, 100, &LIBRARY, None).expect("nothing wrong");
    assert!(few.missing(LEAST).is_some());
}

/// The plain reading and the peer, by whole lists and without any library: they agree, and
/// each wrong reading differs from the peer in some of the lists.
#[test]
fn peer_agrees_with_the_plain_reading_alone() {
    let mut random = Random::new(SEED ^ 0x3a17);
    let mut differ = [0; WRONG.len()];
    for _ in 0..6_000 {
        let waiting = waiting_sheet(&mut random);
        let calls = bytes(&waiting_calls(&mut random, &waiting));
        let sheet = &waiting.made.bytes;
        if usable(&first(sheet)) > MOST {
            continue;
        }
        let peer = report(&trace(sheet, &calls)).into_bytes();
        let place = format!("sheet {}, calls {}", hex(sheet), hex(&calls));
        assert_eq!(peer, plain_run(Beside::AsAsked, sheet, &calls), "{place}");
        for ((beside, _), differ) in WRONG.iter().zip(&mut differ) {
            *differ += usize::from(plain_run(*beside, sheet, &calls) != peer);
        }
    }
    println!("{differ:?}");
    assert!(differ.iter().all(|differ| *differ >= LEAST), "{differ:?}");
}

/// The bytes of a list.
fn bytes(calls: &[Call]) -> Vec<u8> {
    let bytes = calls.iter().map(|call| match *call {
        Submit(event) => vec![16, event],
        CloseStep(step) => vec![17, step],
        Finish => vec![18],
        Advance(_) => unreachable!("no list has this call"),
    });
    bytes.collect::<Vec<Vec<u8>>>().concat()
}

#[test]
fn damaged_fates_agree_with_number_12() {
    let seed = seed() ^ 0xda_4a6e;
    match damage::compare(seed, damage::COUNT, &damaged::LIBRARY) {
        Ok(tally) => {
            println!("{tally:#?}");
            assert_eq!(tally.missing(LEAST), None);
            assert_eq!(tally.passed[..2], [0, 0]);
        }
        Err(wrong) => panic!("seed {seed}, {wrong}"),
    }
}

/// The bytes with each conditional that S-6 is about marked as broken, where its third
/// event has this fate.
fn waived(image: &Image, fates: &[u8]) -> Image {
    let mut copy = *image;
    for side in sides(image) {
        let [other, trigger, goal] = side.fates(image);
        let beside = [DONE, FORCED].contains(&other) && trigger == OPEN;
        if side.is_meant(image) && beside && fates.contains(&goal) {
            copy[BROKEN + side.rule] = 1;
        }
    }
    copy
}

/// Checks that know nothing of S-6, that let what is held do, and that turn down what is
/// refused or lapsed as well.
#[test]
fn the_comparison_of_damaged_fates_can_fail() {
    let lax: fn(&Image) -> u8 = |image| raw::check(&waived(image, &[OPEN, HELD]));
    let half: fn(&Image) -> u8 = |image| raw::check(&waived(image, &[HELD]));
    let strict: fn(&Image) -> u8 = |image| match waived(image, &[REFUSED, LAPSED]) {
        waived if waived == *image => raw::check(image),
        _ => 12,
    };
    for check in [lax, half, strict] {
        let wrong = damaged::Functions {
            check,
            ..damaged::LIBRARY
        };
        let found = damage::compare(SEED, damage::COUNT, &wrong);
        assert!(found.is_err_and(|found| found.contains("check")));
    }
    let few = damage::compare(SEED, 100, &damaged::LIBRARY).expect("nothing wrong");
    assert!(few.missing(LEAST).is_some());
}

/// A sheet like that of the case, with these attributes and the trigger as b or as a.
fn sheet(trigger: u8, goal: u8, as_a: bool) -> Vec<u8> {
    let [a, b] = if as_a { [1, 0] } else { [0, 1] };
    vec![1, 0, 6, 1, 1, trigger, 1, 2, goal, 4, a, b, 2, 5]
}

/// A row of the table: the attributes of the trigger and of the goal, the calls and the
/// lines after them, and how many are held then.
type Row = (u8, u8, &'static [Call], &'static [&'static str], u8);

/// Neighbours of the case, each worked out by hand.
const NEIGHBOURS: [Row; 9] = [
    // The goal is handed in: all three are done.
    (
        0,
        6,
        &[Submit(0), Submit(2), Submit(1)],
        &["0 done", "2 done", "1 done"],
        0,
    ),
    // The goal is forcible, and is forced with the trigger.
    (
        0,
        7,
        &[Submit(0), Submit(1)],
        &["0 done", "1 done", "2 forced"],
        0,
    ),
    // The trigger is rejectable, and is refused.
    (
        2,
        6,
        &[Submit(0), CloseStep(2), Submit(1)],
        &["0 done", "2 lapsed", "1 refused"],
        0,
    ),
    // The trigger has lapsed before.
    (
        0,
        6,
        &[CloseStep(1), Submit(0), CloseStep(2)],
        &["1 lapsed", "0 done", "2 lapsed"],
        0,
    ),
    // The trigger is done before; then it is document 01 that refuses.
    (
        0,
        6,
        &[Submit(1), Submit(0), CloseStep(2)],
        &["1 done", "2 lapsed", "0 refused"],
        0,
    ),
    // The other two have lapsed.
    (
        0,
        6,
        &[CloseStep(1), CloseStep(2), Submit(0)],
        &["1 lapsed", "2 lapsed", "0 done"],
        0,
    ),
    // It waits, and the trigger's lapse frees it.
    (0, 6, &[Submit(0), CloseStep(1)], &["1 lapsed", "0 done"], 0),
    // It waits on once the trigger is done.
    (0, 6, &[Submit(0), Submit(1)], &["1 done"], 1),
    // A trigger that could be forced is not, for nothing asks for it.
    (1, 6, &[Submit(0)], &[], 1),
];

#[test]
fn neighbours_of_the_case() {
    for (trigger, goal, calls, lines, held) in NEIGHBOURS {
        for as_a in [false, true] {
            let sheet = sheet(trigger, goal, as_a);
            let lines: String = lines.iter().map(|line| format!("{line}\n")).collect();
            let expected =
                format!("events 3 rules 1\n{lines}held {held}\nbroken 0\nrefused calls 0\n");
            for run in [library::run, second::run] {
                let report = String::from_utf8(run(&sheet, &bytes(calls)));
                assert_eq!(report.as_ref(), Ok(&expected), "{}", hex(&sheet));
            }
            let mut image = first(&sheet);
            for call in calls {
                image = agreed(&image, *call).image;
                assert_eq!(kept(&image), Ok(()));
            }
        }
    }
}

/// Every sheet of three events and one conditional, in any steps, and on it every sequence
/// of the hand-ins and closings.
#[test]
fn every_sequence_on_every_small_sheet() {
    let sums = [0, 1, 2, 3, 6, 7];
    let mut made = 0;
    for steps in [[0, 1, 2], [0, 1, 1], [0, 1, 0], [0, 0, 1], [0, 0, 0]] {
        let mut calls = vec![Submit(0), Submit(1), Submit(2)];
        calls.extend((0..=2).filter(|step| steps.contains(step)).map(CloseStep));
        for place in 0..sums.len().pow(3) {
            let sum = |of: u32| sums[place / sums.len().pow(of) % sums.len()];
            let mut sheet = Vec::new();
            for (event, step) in (0..).zip(steps) {
                sheet.extend([1, step, sum(event)]);
            }
            sheet.extend([4, 0, 1, 2, 5]);
            if let Ok(read) = Sheet::read(&sheet) {
                made += every_sequence(&first(&sheet), &Scheduler::new(read), &calls);
            }
        }
    }
    println!("{made} calls");
    assert!(made > 800_000, "{made} calls");
}

/// Makes each of the calls, and after it the others in every sequence, then winds up. The
/// library agrees with the peer and keeps what S-6 promises. Gives how many were made.
fn every_sequence(image: &Image, peer: &Scheduler, calls: &[Call]) -> usize {
    let next = if calls.is_empty() { &[Finish] } else { calls };
    let mut made = 0;
    for call in next {
        let mut peer = peer.clone();
        let outcome = Outcome::of_library(LIBRARY.call, image, *call);
        let own = Outcome::of_peer(&mut peer, image, *call);
        let right = outcome.same(&own).and_then(|()| kept(&outcome.image));
        assert_eq!(right, Ok(()), "{call:?} on {}", hex(image));
        let rest = calls.iter().copied().filter(|other| other != call);
        let rest: Vec<Call> = rest.collect();
        made += 1;
        if *call != Finish {
            made += every_sequence(&outcome.image, &peer, &rest);
        }
    }
    made
}

/// Sheets with more about them, each with its calls and the lines after them.
const FURTHER: [(&[u8], &[Call], &str); 7] = [
    // The goal is itself one that waits, for 3: the three are done in one order.
    (
        &[
            1, 0, 6, 1, 1, 0, 1, 2, 6, 1, 3, 6, 4, 0, 1, 2, 4, 1, 2, 3, 5,
        ],
        &[Submit(0), Submit(2), Submit(3)],
        "0 done 2 done 3 done",
    ),
    // Without 3 the goal is refused, and so are both.
    (
        &[
            1, 0, 6, 1, 1, 0, 1, 2, 6, 1, 3, 6, 4, 0, 1, 2, 4, 1, 2, 3, 5,
        ],
        &[Submit(0), Submit(2), CloseStep(3), Submit(1)],
        "3 lapsed 2 refused 0 refused 1 done",
    ),
    // It needs the trigger, which is forced once the goal is there.
    (
        &[1, 0, 6, 1, 1, 1, 1, 2, 6, 4, 0, 1, 2, 3, 0, 1, 5],
        &[Submit(0), Submit(2)],
        "0 done 1 forced 2 done",
    ),
    // It can't wait, so it is refused; with the goal done before it need not.
    (
        &[1, 0, 2, 1, 1, 0, 1, 2, 6, 4, 1, 0, 2, 5],
        &[Submit(0), Submit(2), Submit(1)],
        "0 refused 2 done 1 done",
    ),
    (
        &[1, 0, 2, 1, 1, 0, 1, 2, 6, 4, 1, 0, 2, 5],
        &[Submit(2), Submit(0), Submit(1)],
        "2 done 0 done 1 done",
    ),
    // One closing takes the trigger and the goal.
    (
        &[1, 0, 6, 1, 1, 0, 1, 1, 6, 4, 0, 1, 2, 5],
        &[Submit(0), CloseStep(1)],
        "1 lapsed 2 lapsed 0 done",
    ),
    // Two triggers: the lapse of one does not free it.
    (
        &[
            1, 0, 6, 1, 1, 0, 1, 2, 0, 1, 3, 6, 4, 0, 1, 3, 4, 2, 0, 3, 5,
        ],
        &[Submit(0), CloseStep(1), CloseStep(3), CloseStep(2)],
        "1 lapsed 3 lapsed 0 refused 2 lapsed",
    ),
];

#[test]
fn further_sheets_by_hand() {
    for (sheet, calls, lines) in FURTHER {
        let mut image = first(sheet);
        for call in calls {
            image = agreed(&image, *call).image;
            assert_eq!(kept(&image), Ok(()));
        }
        for run in [library::run, second::run] {
            let report = String::from_utf8(run(sheet, &bytes(calls))).expect("plain text");
            let shown: Vec<&str> = report.split_whitespace().skip(4).collect();
            let ending = ["held", "0", "broken", "0", "refused", "calls", "0"];
            let expected: Vec<&str> = lines.split(' ').chain(ending).collect();
            assert_eq!(shown, expected, "{}", hex(sheet));
        }
    }
}

/// Makes a call in the library and in the peer, which have to agree.
fn agreed(image: &Image, call: Call) -> Outcome {
    let mut peer = scheduler(image).expect("a state");
    let outcome = Outcome::of_library(LIBRARY.call, image, call);
    let own = Outcome::of_peer(&mut peer, image, call);
    if let Err(what) = outcome.same(&own) {
        panic!("{call:?} on {}: {what}", hex(image));
    }
    outcome
}

/// The fates that the calls of the case are answered with, and its other place for the
/// trigger.
#[test]
fn the_case_call_by_call() {
    for as_a in [false, true] {
        let sheet = sheet(0, 6, as_a);
        assert!(as_a || sheet == sheet_of("consent"));
        let held = agreed(&first(&sheet), Submit(0));
        assert_eq!(held.fate, Some(HELD));
        let refused = agreed(&held.image, CloseStep(2));
        assert_eq!(refused.image[FATE..FATE + 3], [REFUSED, OPEN, LAPSED]);
        let done = agreed(&refused.image, Submit(1));
        assert_eq!(done.fate, Some(DONE));
        assert_eq!(done.image[BROKEN], 0);
    }
}

/// Event 0 done, event 1 open, and event 2 with this fate.
fn beside(fate: u8, as_a: bool) -> Image {
    let mut image = first(&sheet(0, 6, as_a));
    put_fate(&mut image, 2, fate);
    put_fate(&mut image, 0, DONE);
    image
}

/// Number 12 meets the state whose third event is unsettled, in every function, and nothing
/// is written.
#[test]
fn a_state_that_owes_is_none() {
    for fate in [OPEN, HELD] {
        for as_a in [false, true] {
            let image = beside(fate, as_a);
            assert!(!is_sound(&image));
            turned_down(&image);
            // Recorded as broken it owes nothing.
            let mut broken = image;
            broken[BROKEN] = 1;
            assert_eq!(raw::check(&broken), 0);
            // Nor where the trigger has lapsed.
            let mut lapsed = image;
            put_fate(&mut lapsed, 1, LAPSED);
            assert_eq!(raw::check(&lapsed), 0);
            agreed(&broken, Submit(1));
            agreed(&lapsed, Submit(2));
        }
    }
}

fn turned_down(image: &Image) {
    let calls = [
        Submit(0),
        Submit(1),
        Submit(2),
        CloseStep(1),
        CloseStep(9),
        Finish,
    ];
    for call in calls {
        let mut copy = *image;
        assert_eq!((LIBRARY.call)(&mut copy, call), 12, "{call:?}");
        assert_eq!(copy, *image);
    }
    let entry = Entry {
        kind: 16,
        number: 1,
        refused: FILL,
        fate: FILL,
    };
    let (mut copy, mut entries) = (*image, [entry; 65]);
    assert_eq!(raw::submit_all(&mut copy, &mut entries), 12);
    assert_eq!((copy, entries), (*image, [entry; 65]));
    assert_eq!(raw::check(image), 12);
    let mut added = [FILL; 4];
    assert_eq!(raw::preview(image, 1, &mut added), 12);
    assert_eq!(added, [FILL; 4]);
    let mut out = [FILL; LONGEST_SHEET];
    assert_eq!(raw::write_sheet(image, &mut out), (12, 0));
    assert_eq!(out, [FILL; LONGEST_SHEET]);
    let mut out = [FILL; LONGEST_REPORT];
    assert_eq!(raw::report(image, 0, &mut out), 0);
    assert_eq!(out, [FILL; LONGEST_REPORT]);
}

/// The third event is done or forced, refused or lapsed: these are states. The trigger is
/// done when it is handed in, and where the third event is gone the rule is then recorded.
/// No list leads there.
#[test]
fn a_rule_may_break_as_brought() {
    for as_a in [false, true] {
        for fate in [DONE, FORCED] {
            let image = beside(fate, as_a);
            assert_eq!((raw::check(&image), kept(&image)), (0, Ok(())));
            let outcome = agreed(&image, Submit(1));
            assert_eq!((outcome.fate, outcome.image[BROKEN]), (Some(DONE), 0));
        }
        for fate in [REFUSED, LAPSED] {
            let image = beside(fate, as_a);
            assert_eq!(raw::check(&image), 0);
            assert!(kept(&image).is_err());
            let outcome = agreed(&image, Submit(1));
            assert_eq!((outcome.fate, outcome.image[BROKEN]), (Some(DONE), 1));
            let outcome = agreed(&image, CloseStep(1));
            assert_eq!(outcome.image[BROKEN], 0);
        }
    }
}

/// What is read off the bytes can be found wanting: a broken conditional is right only with
/// a forcible goal and a trigger, or another, that is not rejectable.
#[test]
fn the_promises_can_be_broken() {
    for (trigger, goal, right) in [(0, 6, false), (0, 7, true), (2, 7, false), (1, 3, true)] {
        for as_a in [false, true] {
            let mut image = first(&sheet(trigger, goal, as_a));
            assert_eq!(kept(&image), Ok(()));
            image[BROKEN] = 1;
            assert_eq!(kept(&image).is_ok(), right, "{}", hex(&image));
        }
    }
    for (fate, right) in [
        (OPEN, false),
        (HELD, false),
        (REFUSED, false),
        (LAPSED, false),
        (DONE, true),
        (FORCED, true),
    ] {
        assert_eq!(kept(&beside(fate, false)).is_ok(), right);
        assert_eq!(kept(&beside(fate, true)).is_ok(), right);
    }
}

/// The preview, the batch and the writing of the case.
#[test]
fn the_case_in_other_functions() {
    let image = first(sheet_of("consent"));
    let held = agreed(&image, Submit(0)).image;
    for (image, event, added) in [
        (image, 0, [0; 4]),       // it would be held
        (image, 1, [1, 0, 0, 0]), // the trigger would be done
        (held, 1, [1, 0, 0, 0]),  // and nothing with it
        (held, 2, [2, 0, 0, 0]),  // the two would be done in one order
    ] {
        let peer = scheduler(&image);
        let agreed = previews::agree(previews::LIBRARY, &image, peer.as_ref(), event, [FILL; 4]);
        let (outcome, _) = agreed.unwrap_or_else(|difference| panic!("{difference}"));
        assert_eq!((outcome.number, outcome.added()), (0, added), "{event}");
    }
    let lent = [(16, 0), (17, 2), (16, 0), (16, 1)].map(|(kind, number)| Entry {
        kind,
        number,
        refused: FILL,
        fate: FILL,
    });
    let agreed = batches::agree(raw::submit_all, &image, scheduler(&image).as_mut(), &lent);
    let outcome = agreed.unwrap_or_else(|difference| panic!("{difference}"));
    let fates: Vec<u8> = outcome.lent().iter().map(|entry| entry.fate).collect();
    assert_eq!(fates, [HELD, 0, REFUSED, DONE]);
    let fill = [FILL; LONGEST_SHEET];
    let written = sheets::agree(sheets::LIBRARY, &held, scheduler(&held).as_ref(), &fill);
    let written = written.unwrap_or_else(|difference| panic!("{difference}"));
    assert_eq!(written.sheet(), sheet_of("consent"));
}
