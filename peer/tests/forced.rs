//! Forced events on states that a host keeps: against the peer, and with the mark against
//! without it. `COMPARE_SEED` in the environment gives another seed.

#[allow(dead_code)]
mod plain;

use peer::cases::sheet_of;
use peer::compare::{hex, seed, SEED};
use peer::images::brought::scheduler;
use peer::images::forced::{compare, Make, Ways, COUNT, LIBRARY};
use peer::images::layout::*;
use peer::images::marks::{unmarked, DONE, FORCED, FORCIBLE};
use peer::images::runs::led_to;
use peer::images::{batches, previews, FILL};
use peer::library::raw::{self, Entry};
use peer::library::{self, State};
use peer::peer::calls::Call;
use peer::peer::{trace, Answer, Fate};
use peer::random::{calls, forcible_sheet, Random};
use plain::Plain;
use Call::{CloseStep, Submit};

/// Everything that the comparison is about has to be met this often.
const LEAST: usize = 150;

#[test]
fn forced_events_are_shown_and_nothing_else_is_new() {
    let seed = seed();
    match compare(seed, COUNT, LIBRARY) {
        Ok(tally) => {
            println!("{tally:#?}");
            assert_eq!(tally.cases, COUNT);
            assert_eq!(tally.missing(LEAST), None);
            assert!(tally.forcing_cases > COUNT / 4);
            assert_eq!((tally.answered[0], tally.forcing[2]), (0, 0));
        }
        Err(wrong) => panic!("seed {seed}, {wrong}"),
    }
}

/// Gives the event this fate, in its line as well.
fn put_fate(image: &mut Image, event: usize, fate: u8) {
    image[FATE + event] = fate;
    for line in 0..usize::from(image[LINES]) {
        if usize::from(image[LINE_EVENT + line]) == event {
            image[LINE_FATE + line] = fate;
        }
    }
}

/// The lines that a call has added, as the event and the fate of each.
fn added(before: &Image, after: &Image) -> Vec<(usize, u8)> {
    let lines = usize::from(before[LINES])..usize::from(after[LINES]);
    let line = |line| {
        (
            usize::from(after[LINE_EVENT + line]),
            after[LINE_FATE + line],
        )
    };
    lines.map(line).collect()
}

fn shows_done(image: &mut Image, call: Call) -> u8 {
    let number = LIBRARY(image, call);
    *image = unmarked(image);
    number
}

/// Shows as forced whatever is forcible and done.
fn minds_attributes(image: &mut Image, call: Call) -> u8 {
    let before = *image;
    let number = LIBRARY(image, call);
    for (event, fate) in added(&before, image) {
        if fate == DONE && image[ATTRIBUTES + event] & FORCIBLE != 0 {
            put_fate(image, event, FORCED);
        }
    }
    number
}

/// Shows as forced all that is done with a forced event, but for the one handed in.
fn marks_whole_orders(image: &mut Image, call: Call) -> u8 {
    let before = *image;
    let number = LIBRARY(image, call);
    let added = added(&before, image);
    if added.iter().any(|(_, fate)| *fate == FORCED) {
        for (event, fate) in added {
            if fate == DONE && call != Call::Submit(event as u8) {
                put_fate(image, event, FORCED);
            }
        }
    }
    number
}

fn marks_the_event_alone(image: &mut Image, call: Call) -> u8 {
    let number = LIBRARY(image, call);
    let bare = unmarked(image);
    image[LINE_FATE..MINUTE].copy_from_slice(&bare[LINE_FATE..MINUTE]);
    number
}

fn marks_the_line_alone(image: &mut Image, call: Call) -> u8 {
    let number = LIBRARY(image, call);
    let bare = unmarked(image);
    image[FATE..BROKEN].copy_from_slice(&bare[FATE..BROKEN]);
    number
}

/// Takes a hand-in for the report that was wanting.
fn is_done_when_reported(image: &mut Image, call: Call) -> u8 {
    let number = LIBRARY(image, call);
    if let (0, Call::Submit(event)) = (number, call) {
        let event = usize::from(event);
        if image[FATE + event] == FORCED {
            put_fate(image, event, DONE);
        }
    }
    number
}

/// Has no regard to a rule with a forced event.
fn waives_rules(image: &mut Image, call: Call) -> u8 {
    let before = *image;
    for rule in 0..usize::from(image[RULES]) {
        let named = [RULE_A, RULE_B, RULE_C].map(|row| usize::from(before[row + rule]));
        let named = &named[..if before[RULE_KIND + rule] == 4 { 3 } else { 2 }];
        if named.iter().any(|event| before[FATE + event] == FORCED) {
            image[BROKEN + rule] = 1;
        }
    }
    let waived = *image;
    let number = LIBRARY(image, call);
    for rule in BROKEN..CLOSED {
        if waived[rule] == image[rule] {
            image[rule] = before[rule];
        }
    }
    number
}

/// Turns down the hand-in of a forced event.
fn knows_no_forced(image: &mut Image, call: Call) -> u8 {
    match call {
        Call::Submit(event @ 0..=15) if image[FATE + usize::from(event)] == FORCED => 9,
        _ => LIBRARY(image, call),
    }
}

/// Shows a sixteenth event as done.
fn loses_the_last(image: &mut Image, call: Call) -> u8 {
    let number = LIBRARY(image, call);
    if image[FATE + 15] == FORCED {
        put_fate(image, 15, DONE);
    }
    number
}

/// Each wrong library is found out by what is wrong in it, and too few cases are noticed.
#[test]
fn the_comparison_of_forced_events_can_fail() {
    let wrong: [(Make, &str); 9] = [
        (shows_done, "done, and was open"),
        (minds_attributes, "forced by its own hand-in"),
        (marks_whole_orders, "forced, and was held"),
        (marks_the_event_alone, "not what its line says"),
        (marks_the_line_alone, "not what its line says"),
        (is_done_when_reported, "settled again"),
        (waives_rules, "in the library, the"),
        (knows_no_forced, "in the library, the number"),
        (loses_the_last, "done, and was open"),
    ];
    for (place, (make, what)) in wrong.into_iter().enumerate() {
        let found = compare(SEED, COUNT, make).expect_err("something wrong");
        println!("{place}: {:?}", found.split(',').next());
        assert!(found.contains(what), "wrong library {place}: {found}");
    }
    let few = compare(SEED, 100, LIBRARY).expect("nothing wrong");
    assert!(few.missing(LEAST).is_some());
}

/// The plain reading says so too, by itself and of the peer: lists where every order is
/// tried, with the mark and without.
#[test]
fn without_the_mark_it_is_document_01() {
    let mut random = Random::new(SEED ^ 0xf04ced);
    let mut forced = 0;
    for _ in 0..4_000 {
        let made = forcible_sheet(&mut random);
        let list = calls(&mut random, &made);
        let mut plain = Plain::read(&made.bytes);
        if made.events > 6 {
            continue;
        }
        let mut without = plain.clone();
        without.without_mark = true;
        plain.run(&list);
        without.run(&list);
        let place = format!("sheet {}, calls {}", hex(&made.bytes), hex(&list));
        let report = plain.report();
        let read_as_done = report.replace("forced", "done");
        assert_eq!(read_as_done, without.report(), "{place}");
        let peer = trace(&made.bytes, &list).expect("an admitted sheet");
        let lines = peer.scheduler.history().iter();
        let shown: Vec<bool> = lines.map(|line| line.fate == Fate::Forced).collect();
        let expected = plain
            .history
            .iter()
            .map(|line| line.1 == plain::Fate::Forced);
        assert_eq!(shown, expected.collect::<Vec<bool>>(), "{place}");
        forced += shown.into_iter().filter(|forced| *forced).count();
    }
    assert!(forced > 1_000, "{forced} forced");
}

/// Makes the calls in all ways, the last of them answered as it is worked out by hand: a
/// fate for a hand-in. Gives the history.
fn history(image: &Image, calls: &[Call], answer: Option<u8>) -> Vec<(u8, u8)> {
    let mut ways = Ways::new(image).expect("a state");
    let mut last = None;
    for call in calls {
        let outcome = ways.call(LIBRARY, *call);
        let outcome = outcome.unwrap_or_else(|wrong| panic!("{call:?}: {wrong}"));
        assert_eq!(outcome.number, 0, "{call:?}");
        last = outcome.fate;
    }
    assert_eq!(last, answer, "{calls:?}");
    let lines = 0..usize::from(ways.image[LINES]);
    let line = |line| (ways.image[LINE_EVENT + line], ways.image[LINE_FATE + line]);
    lines.map(line).collect()
}

/// Case D, as the library reports it, as it stands in the bytes, and as the peer has it.
#[test]
fn case_d_shows_what_was_forced() {
    let report = "events 2 rules 1\n0 done\n1 forced\nheld 0\nbroken 0\nrefused calls 0\n";
    assert_eq!(library::run(sheet_of("D"), &[16, 0]), report.as_bytes());
    let first = first(sheet_of("D"));
    let lines = [(0, DONE), (1, FORCED)];
    assert_eq!(history(&first, &[Submit(0)], Some(DONE)), lines);
    let mut state = State::open(sheet_of("D")).expect("an admitted sheet");
    assert_eq!(state.submit(0), Ok(library::Fate::Done));
    let lines = state
        .history()
        .map(|(event, fate)| format!("{event} {fate}"));
    assert_eq!(lines.collect::<Vec<String>>(), ["0 done", "1 forced"]);
    let run = trace(sheet_of("D"), &[16, 0]).expect("an admitted sheet");
    let lines = run.scheduler.history().iter();
    let lines: Vec<(u8, Fate)> = lines.map(|line| (line.event, line.fate)).collect();
    assert_eq!(lines, [(0, Fate::Done), (1, Fate::Forced)]);
}

/// Event 1 of case D is answered with its fate, again and again.
#[test]
fn a_forced_event_that_is_handed_in_is_answered_forced() {
    let image = led_to(sheet_of("D"), &[16, 0]);
    let mut state = State::from_bytes(&image).expect("a state");
    for _ in 0..3 {
        assert_eq!(state.submit(1).map(library::Fate::number), Ok(FORCED));
        assert_eq!(state.as_bytes(), &image);
    }
    let lines = [(0, DONE), (1, FORCED)];
    assert_eq!(history(&image, &[Submit(1)], Some(FORCED)), lines);
    let run = trace(sheet_of("D"), &[16, 0, 16, 1]).expect("an admitted sheet");
    assert_eq!(run.answers[1], Answer::Fate(Fate::Forced));
    assert_eq!(run.scheduler.history().len(), 2);
}

/// Of case D, and of case E, where nothing is open that could be forced.
#[test]
fn previews_count_forced_events_apart() {
    let first = first(sheet_of("D"));
    let after = led_to(sheet_of("D"), &[16, 0]);
    let alone = led_to(sheet_of("E"), &[17, 1]);
    for (image, event, added) in [
        (first, 0, [1, 0, 0, 1]),
        (first, 1, [1, 0, 0, 0]),
        (after, 1, [0; 4]),
        (alone, 0, [1, 0, 0, 0]),
    ] {
        let peer = scheduler(&image);
        let agreed = previews::agree(previews::LIBRARY, &image, peer.as_ref(), event, [FILL; 4]);
        let (outcome, _) = agreed.unwrap_or_else(|difference| panic!("{difference}"));
        assert_eq!((outcome.number, outcome.added()), (0, added), "{event}");
    }
    let state = State::open(sheet_of("D")).expect("an admitted sheet");
    let preview = state.preview(0).expect("an event of the sheet");
    assert_eq!((preview.done, preview.forced), (1, 1));
}

#[test]
fn a_batch_answers_forced() {
    let image = first(sheet_of("D"));
    let entry = |number| Entry {
        kind: 16,
        number,
        refused: FILL,
        fate: FILL,
    };
    let lent = [entry(0), entry(1), entry(0)];
    let mut peer = scheduler(&image);
    let agreed = batches::agree(raw::submit_all, &image, peer.as_mut(), &lent);
    let outcome = agreed.unwrap_or_else(|difference| panic!("{difference}"));
    let answers = outcome
        .lent()
        .iter()
        .map(|entry| (entry.refused, entry.fate));
    let answers: Vec<(u8, u8)> = answers.collect();
    assert_eq!(answers, [(0, DONE), (0, FORCED), (0, DONE)]);
}

/// The event that is handed in is done, whether it could have been forced or not: ahead of
/// the forced one, behind it, and alone.
#[test]
fn the_event_handed_in_is_done() {
    // 1 only if 0, which stands first among the orders.
    let image = first(&[1, 0, 1, 1, 1, 1, 3, 1, 0, 5]);
    let lines = [(0, FORCED), (1, DONE)];
    assert_eq!(history(&image, &[Submit(1)], Some(DONE)), lines);
    let image = first(sheet_of("E"));
    let lines = [(1, 4), (0, DONE)];
    assert_eq!(
        history(&image, &[CloseStep(1), Submit(0)], Some(DONE)),
        lines
    );
    // 0 before 1, which may wait, and does not: 0 is forced.
    let image = first(&[1, 0, 1, 1, 1, 6, 2, 0, 1, 5]);
    let lines = [(0, FORCED), (1, DONE)];
    assert_eq!(history(&image, &[Submit(1)], Some(DONE)), lines);
}

/// What waited and is done with a forced event was handed in: 0 needs 1 and comes behind 2,
/// which lapses.
#[test]
fn a_closing_forces() {
    let sheet = [
        1, 0, 6, 1, 1, 1, 1, 2, 6, // events
        3, 0, 1, 2, 2, 0, // rules
        5,
    ];
    let calls = [Submit(0), CloseStep(2)];
    let lines = [(2, 4), (0, DONE), (1, FORCED)];
    assert_eq!(history(&first(&sheet), &calls, None), lines);
}

/// 0 before 1, which 2 needs. Once 1 is forced, 0 comes too late.
#[test]
fn a_forced_event_bars() {
    let sheet = [
        1, 0, 6, 1, 1, 1, 1, 2, 1, // events
        2, 0, 1, 3, 2, 1, // rules
        5,
    ];
    let calls = [Submit(2), Submit(0)];
    let lines = [(1, FORCED), (2, DONE), (0, 3)];
    assert_eq!(history(&first(&sheet), &calls, Some(3)), lines);
}

/// The state of a sheet with these lines as its history, and nothing else settled or held.
fn brought(sheet: &[u8], lines: &[(u8, u8)]) -> Image {
    let mut image = first(sheet);
    for (line, (event, fate)) in lines.iter().enumerate() {
        image[FATE + usize::from(*event)] = *fate;
        image[LINE_EVENT + line] = *event;
        image[LINE_FATE + line] = *fate;
    }
    image[LINES] = lines.len() as u8;
    image
}

/// Number 12, in the library and by the peer's reading of it.
fn is_state(image: &Image) -> bool {
    let number = raw::check(image);
    assert_eq!(scheduler(image).is_some(), number == 0, "{}", hex(image));
    assert!([0, 12].contains(&number));
    number == 0
}

/// A need owes nothing and holds where what it asks for is forced, be it forcible or not.
/// Where its first event is forced it asks for the second as if that were done.
#[test]
fn a_need_counts_forced_as_done() {
    // Both can be forced; none can, and both can be refused.
    for sheet in [sheet_of("D"), &[1, 0, 6, 1, 1, 6, 3, 0, 1, 5]] {
        for first in [DONE, FORCED] {
            for second in [DONE, FORCED] {
                assert!(is_state(&brought(sheet, &[(0, first), (1, second)])));
                assert!(is_state(&brought(sheet, &[(1, second), (0, first)])));
                assert!(is_state(&brought(sheet, &[(1, second)])));
            }
            // Open, refused, lapsed.
            assert!(!is_state(&brought(sheet, &[(0, first)])));
            assert!(!is_state(&brought(sheet, &[(0, first), (1, 3)])));
            assert!(!is_state(&brought(sheet, &[(1, 4), (0, first)])));
        }
    }
    // And it forbids nothing: 0 is done though 1 was not handed in.
    let image = brought(sheet_of("D"), &[(1, FORCED)]);
    let lines = [(1, FORCED), (0, DONE)];
    assert_eq!(history(&image, &[Submit(0)], Some(DONE)), lines);
}

/// An order, and a conditional.
#[test]
fn other_rules_count_forced_as_done() {
    for (one, other) in [(DONE, FORCED), (FORCED, DONE), (FORCED, FORCED)] {
        assert!(is_state(&brought(sheet_of("C"), &[(0, one), (1, other)])));
        assert!(!is_state(&brought(sheet_of("C"), &[(1, one), (0, other)])));
        let two = [(0, one), (1, other)];
        assert!(!is_state(&brought(sheet_of("L"), &two)));
        for third in [DONE, FORCED] {
            let three = [two[0], two[1], (2, third)];
            assert!(is_state(&brought(sheet_of("L"), &three)));
        }
        assert!(!is_state(&brought(
            sheet_of("L"),
            &[two[0], two[1], (2, 4)]
        )));
    }
    // A second trigger is barred by a forced first once the goal has lapsed.
    let image = brought(sheet_of("L"), &[(0, FORCED)]);
    let calls = [CloseStep(2), Submit(1)];
    let lines = [(0, FORCED), (2, 4), (1, 3)];
    assert_eq!(history(&image, &calls, Some(3)), lines);
}

/// A line has its event's own fate; neither does for the other, and 6 is none.
#[test]
fn a_line_says_forced_of_a_forced_event_only() {
    let image = led_to(sheet_of("D"), &[16, 0]);
    for event in [DONE, FORCED, 6] {
        for line in [DONE, FORCED, 6] {
            let mut image = image;
            image[FATE + 1] = event;
            image[LINE_FATE + 1] = line;
            assert_eq!(is_state(&image), event == line && event != 6);
        }
    }
    // Past the counts any fate will do.
    for place in [FATE + 2, BROKEN - 1, LINE_FATE + 2, MINUTE - 1] {
        for (fate, passes) in [(FORCED, true), (6, false)] {
            let mut image = image;
            image[place] = fate;
            assert_eq!(is_state(&image), passes);
        }
    }
}
