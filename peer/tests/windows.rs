//! Windows of time, on states that a host keeps: against the peer, and against a plain
//! reading that tries every order. `COMPARE_SEED` in the environment gives another seed.

mod on_images;
#[allow(dead_code)]
mod plain;

use on_images::{make, plain_of, put};
use peer::compare::{hex, seed, SEED};
use peer::images::batches::Batch;
use peer::images::brought::{as_sheet, scheduler};
use peer::images::damaged;
use peer::images::forced::{Make, Outcome};
use peer::images::layout::*;
use peer::images::previews::Preview;
use peer::images::windows::{
    compare, damage, faults, windows, Case, Functions, Step, COUNT, LIBRARY,
};
use peer::library::raw;
use peer::library::STATE_LEN;
use peer::peer::calls::Call;
use peer::peer::sheet::records;
use peer::peer::{Scheduler, Sheet};
use peer::random::{sheet, single_calls, window_record, Random};
use plain::Timing;
use Call::{Advance, CloseStep, Finish, Submit};

/// Everything that the comparison is about has to be met this often.
const LEAST: usize = 200;
/// Trying every order takes too long among more events than these.
const MOST: usize = 5;
const HELD: u8 = 1;

/// The unsettled events that an order could contain, now or later.
fn usable(image: &Image) -> usize {
    let events = 0..usize::from(image[EVENTS]);
    let usable = |event: &usize| image[FATE + event] <= HELD && image[ATTRIBUTES + event] & 5 != 0;
    events.filter(usable).count()
}

/// A call on the bytes of a state by the plain reading, with S-7 read in some way; none
/// where too much has to be tried. One that is turned down changes nothing.
fn plain_call(timing: Timing, image: &Image, call: Call) -> Option<(bool, Image)> {
    if usable(image) > MOST {
        return None;
    }
    let mut plain = plain_of(&as_sheet(image), image);
    plain.timing = timing;
    make(&mut plain, call);
    let mut after = *image;
    put(&plain, &mut after);
    Some((plain.refused_calls == 0, after))
}

#[test]
fn every_case_agrees_with_peer() {
    let seed = seed();
    match compare(seed, COUNT, &LIBRARY) {
        Ok(tally) => {
            println!("{tally}");
            assert_eq!(tally.cases, COUNT);
            assert_eq!(tally.missing(LEAST), None);
            assert_eq!((tally.sheets, tally.lists), (COUNT, COUNT));
            assert_eq!(tally.answered[0], 0);
        }
        Err(wrong) => panic!("seed {seed}, {wrong}"),
    }
}

/// A library that reads S-7 in some way, where every order can be tried.
fn call_by(timing: Timing, image: &mut Image, call: Call) -> u8 {
    match plain_call(timing, image, call) {
        Some((true, after)) => {
            *image = after;
            0
        }
        Some((false, _)) if matches!(call, Advance(_)) => 16,
        _ => (LIBRARY.call)(image, call),
    }
}

/// The wrong readings, each as a library.
const WRONG: [(Timing, Make); 16] = [
    (Timing::Nothing, |image, call| {
        call_by(Timing::Nothing, image, call)
    }),
    (Timing::UntilToo, |image, call| {
        call_by(Timing::UntilToo, image, call)
    }),
    (Timing::AfterFrom, |image, call| {
        call_by(Timing::AfterFrom, image, call)
    }),
    (Timing::ForcedAnyTime, |image, call| {
        call_by(Timing::ForcedAnyTime, image, call)
    }),
    (Timing::ForcedEarly, |image, call| {
        call_by(Timing::ForcedEarly, image, call)
    }),
    (Timing::ForcedLate, |image, call| {
        call_by(Timing::ForcedLate, image, call)
    }),
    (Timing::LateWaits, |image, call| {
        call_by(Timing::LateWaits, image, call)
    }),
    (Timing::EarlyBarred, |image, call| {
        call_by(Timing::EarlyBarred, image, call)
    }),
    (Timing::NoSettling, |image, call| {
        call_by(Timing::NoSettling, image, call)
    }),
    (Timing::NotTheSame, |image, call| {
        call_by(Timing::NotTheSame, image, call)
    }),
    (Timing::BackwardToo, |image, call| {
        call_by(Timing::BackwardToo, image, call)
    }),
    (Timing::EachMinute, |image, call| {
        call_by(Timing::EachMinute, image, call)
    }),
    (Timing::LateIsGone, |image, call| {
        call_by(Timing::LateIsGone, image, call)
    }),
    (Timing::LateIsSettled, |image, call| {
        call_by(Timing::LateIsSettled, image, call)
    }),
    (Timing::ForcibleInTime, |image, call| {
        call_by(Timing::ForcibleInTime, image, call)
    }),
    (Timing::OneOfOrder, |image, call| {
        call_by(Timing::OneOfOrder, image, call)
    }),
];

/// The bytes with the first minute in place of their own.
fn at_first_minute(image: &Image) -> Image {
    let mut copy = *image;
    put_minute(&mut copy, MINUTE, 0);
    copy
}

/// Each wrong reading is found out, and so are previews and batches at the first minute; the
/// right reading is not; and too few cases are noticed.
#[test]
fn the_comparison_of_windows_can_fail() {
    for (timing, call) in WRONG {
        let wrong = Functions { call, ..LIBRARY };
        let found = compare(SEED, COUNT, &wrong).expect_err("something wrong");
        println!("{timing:?}: {:?}", found.split(',').next());
        let turned_down = matches!(timing, Timing::NotTheSame | Timing::BackwardToo);
        let what = if turned_down {
            "the number"
        } else {
            "the bytes"
        };
        assert!(
            found.contains(what) || found.contains("the answer"),
            "{found}"
        );
    }
    let preview: Preview =
        |image, event, added| raw::preview(&at_first_minute(image), event, added);
    let batch: Batch = |image, entries| {
        let minute = minute_at(image, MINUTE);
        *image = at_first_minute(image);
        let number = raw::submit_all(image, entries);
        put_minute(image, MINUTE, minute);
        number
    };
    let early = [
        (Functions { preview, ..LIBRARY }, "preview of"),
        (Functions { batch, ..LIBRARY }, "the batch"),
    ];
    for (wrong, what) in early {
        let found = compare(SEED, COUNT, &wrong);
        assert!(found.is_err_and(|found| found.contains(what)), "{what}");
    }
    let right = Functions {
        call: |image, call| call_by(Timing::AsAsked, image, call),
        ..LIBRARY
    };
    compare(SEED ^ 1, 2_000, &right).expect("nothing wrong");
    let few = compare(SEED, 100, &LIBRARY).expect("nothing wrong");
    assert!(few.missing(LEAST).is_some());
}

/// The bytes after the calls, by the plain reading.
fn plain_list(timing: Timing, start: &Image, calls: &[Call]) -> (usize, Image) {
    let mut plain = plain_of(&as_sheet(start), start);
    plain.timing = timing;
    calls.iter().for_each(|call| make(&mut plain, *call));
    let mut after = *start;
    put(&plain, &mut after);
    (plain.refused_calls, after)
}

/// The same by the peer.
fn peer_list(start: &Image, calls: &[Call]) -> (usize, Image) {
    let mut peer = scheduler(start).expect("a state");
    let (mut image, mut refused) = (*start, 0);
    for call in calls {
        let outcome = Outcome::of_peer(&mut peer, &image, *call);
        refused += usize::from(outcome.number != 0);
        image = outcome.image;
    }
    (refused, image)
}

/// The plain reading and the peer, by whole lists and without any library: they agree, and
/// each wrong reading differs from the peer in some of the lists.
#[test]
fn peer_agrees_with_the_plain_reading_alone() {
    let mut random = Random::new(SEED ^ 0x717e);
    let mut differ = [0; WRONG.len()];
    let mut lists = 0;
    while lists < 20_000 {
        let case = Case::any(&mut random);
        if usable(&case.start) > MOST {
            continue;
        }
        lists += 1;
        let peer = peer_list(&case.start, &case.calls);
        let plain = plain_list(Timing::AsAsked, &case.start, &case.calls);
        assert_eq!(peer, plain, "{case}");
        for ((timing, _), differ) in WRONG.iter().zip(&mut differ) {
            let wrong = plain_list(*timing, &case.start, &case.calls);
            *differ += usize::from(wrong != peer);
        }
    }
    println!("{differ:?}");
    assert!(differ.iter().all(|differ| *differ >= 100), "{differ:?}");
}

#[test]
fn bad_records_of_windows_are_turned_down() {
    let tally = faults::compare(seed() ^ 15, faults::COUNT, faults::LIBRARY);
    let tally = tally.unwrap_or_else(|wrong| panic!("{wrong}"));
    println!("{tally:?}");
    assert_eq!(tally.missing(LEAST), None);
}

/// The attributes of the events that these records declare.
fn attributes(records: &[&[u8]]) -> Vec<u8> {
    let declared = |record: &&[u8]| match **record {
        [1, _, sum] => vec![sum],
        [6, _] => vec![7, 0, 6, 1],
        _ => Vec::new(),
    };
    records.iter().flat_map(declared).collect()
}

/// Gives another answer for a record of a window that is at fault in this way.
fn misread(
    image: &mut Image,
    sheet: &[u8],
    wrong: (u8, usize),
    is_meant: fn(&[u8], &[&[u8]]) -> bool,
) -> (u8, usize) {
    match raw::open(image, sheet) {
        (15, at) if is_meant(&sheet[at..][..10], &records(&sheet[..at])) => wrong,
        answer => answer,
    }
}

/// Readers that give 6 for an undeclared event and 5 for one that is not delayable, and that
/// take a second window, one that is empty, and one that ends before it begins.
const LAX_READERS: [faults::Open; 5] = [
    |image, sheet| {
        misread(image, sheet, (6, 0), |record, above| {
            usize::from(record[1]) >= attributes(above).len()
        })
    },
    |image, sheet| {
        misread(image, sheet, (5, 0), |record, above| {
            let sum = attributes(above).get(usize::from(record[1])).copied();
            sum.is_some_and(|sum| sum & 4 == 0)
        })
    },
    |image, sheet| {
        misread(image, sheet, (0, 0), |record, above| {
            above.iter().any(|other| other[..2] == record[..2])
        })
    },
    |image, sheet| {
        misread(image, sheet, (0, 0), |record, _| {
            record[2..6] == record[6..10]
        })
    },
    |image, sheet| {
        misread(image, sheet, (0, 0), |record, _| {
            let minute = |place: usize| record[place..place + 4].iter().rev();
            minute(6).lt(minute(2))
        })
    },
];

/// Lax readers are found out, and so are those that give 15 for a record that is cut, that
/// are off by a byte, and that write no empty state.
#[test]
fn the_comparison_of_bad_records_can_fail() {
    let cut: faults::Open = |image, sheet| match raw::open(image, sheet) {
        (1, at) => (15, at),
        answer => answer,
    };
    let body: faults::Open = |image, sheet| match raw::open(image, sheet) {
        (15, at) => (15, at + 1),
        answer => answer,
    };
    let leaves: faults::Open = |image, sheet| {
        let before = *image;
        let answer = raw::open(image, sheet);
        *image = if answer.0 == 15 { before } else { *image };
        answer
    };
    let others = [
        (cut, "library"),
        (body, "library"),
        (leaves, "not the empty"),
    ];
    let lax = LAX_READERS.map(|open| (open, "library"));
    for (place, (open, what)) in lax.into_iter().chain(others).enumerate() {
        let found = faults::compare(SEED, faults::COUNT, open);
        assert!(found.is_err_and(|found| found.contains(what)), "{place}");
    }
    let few = faults::compare(SEED, 100, faults::LIBRARY).expect("nothing wrong");
    assert!(few.missing(LEAST).is_some());
}

#[test]
fn bad_windows_in_bytes_agree_with_number_12() {
    let seed = seed() ^ 12;
    let tally = damage::compare(seed, damage::COUNT, &damaged::LIBRARY);
    let tally = tally.unwrap_or_else(|wrong| panic!("seed {seed}, {wrong}"));
    println!("{tally:?}");
    assert_eq!(tally.missing(LEAST), None);
    assert_eq!(tally.wrong(), 0);
}

/// The bytes with the bad windows of some sort cleared.
fn cleared(image: &Image, is_bad: fn(&Image, usize, [u32; 2]) -> bool) -> Image {
    let mut copy = *image;
    for event in 0..16 {
        let window = window_of(image, event);
        if window.is_some_and(|window| is_bad(image, event, window)) {
            put_minute(&mut copy, FROM + 4 * event, 0);
            put_minute(&mut copy, UNTIL + 4 * event, 0);
        }
    }
    copy
}

/// Checks that let one sort of bad window pass, each in place of the library's.
const LAX: [fn(&Image) -> u8; 5] = [
    |image| {
        raw::check(&cleared(image, |image, event, _| {
            event >= usize::from(image[EVENTS])
        }))
    },
    |image| {
        raw::check(&cleared(image, |image, event, _| {
            image[ATTRIBUTES + event] & 4 == 0
        }))
    },
    |image| raw::check(&cleared(image, |_, _, [from, until]| until < from)),
    |image| raw::check(&cleared(image, |_, _, [from, until]| until == from)),
    |image| raw::check(&cleared(image, |_, _, [_, until]| until == 0)),
];

/// Lax checks are found out, and so is one that minds an event held past its window.
#[test]
fn the_comparison_of_bad_windows_can_fail() {
    let strict: fn(&Image) -> u8 = |image| {
        let minute = minute_at(image, MINUTE);
        let windows = windows(image).into_iter();
        let mut past = windows.filter(|window| minute >= window.until);
        match past.any(|window| image[FATE + window.event] == HELD) {
            true => 12,
            false => raw::check(image),
        }
    };
    for check in LAX.into_iter().chain([strict]) {
        let wrong = damaged::Functions {
            check,
            ..damaged::LIBRARY
        };
        let found = damage::compare(SEED, damage::COUNT, &wrong);
        assert!(found.is_err_and(|found| found.contains("check")));
    }
}

/// Where no event has a window, moves of the minute change nothing but the minute.
#[test]
fn sheets_without_windows_behave_as_ever() {
    let mut random = Random::new(seed() ^ 0x77);
    let (mut lists, mut moves) = (0, 0);
    while lists < 4_000 {
        let made = sheet(&mut random);
        let mut image = [0; STATE_LEN];
        if raw::open(&mut image, &made.bytes).0 != 0 || !windows(&image).is_empty() {
            continue;
        }
        let mut unmoved = image;
        for call in single_calls(&mut random, &made) {
            let number = (LIBRARY.call)(&mut image, call);
            match call {
                Advance(_) => moves += usize::from(number == 0),
                _ => assert_eq!((LIBRARY.call)(&mut unmoved, call), number),
            }
            assert_eq!(
                at_first_minute(&image),
                unmoved,
                "{call:?}, sheet {}",
                hex(&made.bytes)
            );
        }
        lists += 1;
    }
    assert!(moves > 2_000, "{moves}");
}

/// Two events, at most one rule, and windows among the first minutes.
fn tiny_sheets() -> Vec<Vec<u8>> {
    let attributes = [[6, 6], [7, 6], [6, 7], [7, 1], [0, 7], [2, 7]];
    let rules: [&[u8]; 5] = [&[], &[2, 0, 1], &[2, 1, 0], &[3, 0, 1], &[3, 1, 0]];
    let spans = [None, Some([0, 1]), Some([1, 2]), Some([0, 2]), Some([1, 3])];
    let mut sheets = Vec::new();
    for [a, b] in attributes {
        for rule in rules {
            for one in spans {
                for other in spans {
                    let mut sheet = [&[1, 0, a, 1, 1, b], rule].concat();
                    for (event, span) in [(0, one), (1, other)] {
                        if let Some([from, until]) = span {
                            sheet.extend(window_record(event, from, until));
                        }
                    }
                    sheet.push(5);
                    sheets.push(sheet);
                }
            }
        }
    }
    sheets.retain(|sheet| Sheet::read(sheet).is_ok_and(|sheet| !sheet.windows.is_empty()));
    sheets
}

/// Makes each of the calls, and after each one every list of so many more. The library
/// agrees with the peer and with the plain reading. Gives how many were made.
fn every_list(image: &Image, peer: &Scheduler, calls: &[Call], more: usize) -> usize {
    let mut made = 0;
    for call in calls {
        let mut peer = peer.clone();
        let outcome = Outcome::of_library(LIBRARY.call, image, *call);
        let own = Outcome::of_peer(&mut peer, image, *call);
        assert_eq!(outcome.same(&own), Ok(()), "{call:?} on {}", hex(image));
        let plain = plain_call(Timing::AsAsked, image, *call).expect("two events");
        let taken = outcome.number == 0;
        assert_eq!(plain, (taken, outcome.image), "{call:?} on {}", hex(image));
        made += 1;
        // A call that changes nothing leads to lists that are gone through anyway.
        if more > 0 && outcome.image != *image {
            made += every_list(&outcome.image, &peer, calls, more - 1);
        }
    }
    made
}

#[test]
fn every_list_on_tiny_sheets() {
    let moves = (0..4).map(Advance);
    let calls: Vec<Call> = [Submit(0), Submit(1), CloseStep(0), CloseStep(1), Finish]
        .into_iter()
        .chain(moves)
        .collect();
    let mut made = 0;
    for sheet in tiny_sheets() {
        let read = Sheet::read(&sheet).expect("an admitted sheet");
        made += every_list(&first(&sheet), &Scheduler::new(read), &calls, 4);
    }
    println!("{made} calls");
    assert!(made > 500_000, "{made} calls");
}

/// A sheet with its calls, and the fates and the minute after them.
type Row = (&'static [u8], &'static [Call], &'static [u8], u32);

/// Worked out by hand from the request's words.
const ROWS: [Row; 8] = [
    // Held before the window, done at its first minute.
    (ONE, &[Submit(0), Advance(4), Advance(5)], &[2], 5),
    // Held until the last minute before, and refused at `until` if it is jumped to.
    (ONE, &[Submit(0), Advance(4), Advance(8)], &[3], 8),
    // Inside up to the last minute.
    (ONE, &[Advance(7), Submit(0)], &[2], 7),
    // After the window: open, and refused as it is handed in.
    (ONE, &[Advance(8)], &[0], 8),
    (ONE, &[Advance(8), Submit(0)], &[3], 8),
    // A move back is turned down, one to the same minute is not.
    (ONE, &[Submit(0), Advance(5), Advance(4)], &[2], 5),
    // 0 needs 1, which is forced from minute 5 on.
    (FORCES, &[Submit(0), Advance(4), Advance(5)], &[2, 5], 5),
    // Past its window it can't be forced; 0 waits until step 1 is closed.
    (
        FORCES,
        &[Submit(0), Advance(8), CloseStep(0), CloseStep(1)],
        &[3, 4],
        8,
    ),
];

/// An event that may be done from minute 5 up to minute 7.
const ONE: &[u8] = &[1, 0, 6, 7, 0, 5, 0, 0, 0, 8, 0, 0, 0, 5];
/// One that needs such an event, which can be forced.
const FORCES: &[u8] = &[1, 0, 6, 1, 1, 7, 3, 0, 1, 7, 1, 5, 0, 0, 0, 8, 0, 0, 0, 5];

#[test]
fn rows_worked_out_by_hand() {
    for (sheet, calls, fates, minute) in ROWS {
        let peer = peer_list(&first(sheet), calls).1;
        let plain = plain_list(Timing::AsAsked, &first(sheet), calls).1;
        let mut image = [0; STATE_LEN];
        assert_eq!(raw::open(&mut image, sheet), (0, 0));
        for call in calls {
            (LIBRARY.call)(&mut image, *call);
        }
        for image in [image, peer, plain] {
            assert_eq!(&image[FATE..][..fates.len()], fates, "{calls:?}");
            assert_eq!(minute_at(&image, MINUTE), minute, "{calls:?}");
        }
    }
}

/// What is read off the bytes after every call: an event done before its window, at its end
/// and after it, and one that waits for ever, are found out.
#[test]
fn the_promises_can_be_broken() {
    let peer = Scheduler::new(Sheet::read(ONE).expect("an admitted sheet"));
    for (minute, in_time) in [(4, false), (5, true), (7, true), (8, false), (9, false)] {
        let before = first(ONE);
        let mut done = before;
        put_minute(&mut done, MINUTE, minute);
        let mut held = done;
        held[FATE] = HELD;
        for fate in [2, 5] {
            done[LINES] = 1;
            done[LINE_FATE] = fate;
            done[FATE] = fate;
            let step = Step::new(Advance(minute), &before, &done, [&peer, &peer]);
            assert_eq!(step.settled_in_time().is_ok(), in_time, "{minute}");
            assert_eq!(step.none_waits_in_vain(), Ok(()));
        }
        let step = Step::new(Advance(minute), &before, &held, [&peer, &peer]);
        assert_eq!(step.none_waits_in_vain().is_ok(), minute < 8, "{minute}");
        assert_eq!(step.settled_in_time(), Ok(()));
    }
}
