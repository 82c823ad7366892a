//! Wrong readings of S-8, each as a library made of the right one.

use peer::images::journals::{Add, Answer, Functions, Open, Record, LIBRARY};
use peer::images::layout::{first, put_minute, Image, MINUTE};
use peer::library::raw::{self, RECORD_LEN};
use peer::library::STATE_LEN;
use peer::peer::Sheet;
use peer::random::record_length;

const ADVANCE: u8 = 19;

/// What is read wrongly when a journal is opened.
pub const OPENINGS: [(&str, Open); 19] = [
    (
        "a cut record is 17",
        |image, journal| match raw::open_journal(image, journal) {
            (0, at, 1..) => (17, at, 0),
            answer => answer,
        },
    ),
    ("the last whole record is lost", |image, journal| {
        last_lost(image, journal, 0)
    }),
    ("a cut loses a whole record too", |image, journal| {
        last_lost(image, journal, 1)
    }),
    ("a cut record is filled up", |image, journal| {
        let answer = raw::open_journal(image, journal);
        if answer.0 == 0 && answer.2 > 0 {
            raw::open_journal(image, &[journal, &[0; 4]].concat());
        }
        answer
    }),
    (
        "a cut record is not counted",
        |image, journal| match raw::open_journal(image, journal) {
            (0, at, 1..) => (0, at, 0),
            answer => answer,
        },
    ),
    (
        "all bytes are counted as read",
        |image, journal| match raw::open_journal(image, journal) {
            (0, _, leftover) => (0, journal.len(), leftover),
            answer => answer,
        },
    ),
    (
        "an unknown last byte is left over",
        |image, journal| match raw::open_journal(image, journal) {
            (17, at, _) if at + 1 == journal.len() && !is_call(journal[at]) => (0, at, 1),
            answer => answer,
        },
    ),
    (
        "an unknown byte ends the journal",
        |image, journal| match raw::open_journal(image, journal) {
            (17, at, _) if !is_call(journal[at]) => (0, at, journal.len() - at),
            answer => answer,
        },
    ),
    (
        "17 behind its record",
        |image, journal| match raw::open_journal(image, journal) {
            (17, at, _) => (17, at + record_length(journal[at]), 0),
            answer => answer,
        },
    ),
    (
        "17 with bytes left over",
        |image, journal| match raw::open_journal(image, journal) {
            (17, at, _) => (17, at, journal.len() - at),
            answer => answer,
        },
    ),
    ("17 with the empty state", |image, journal| {
        let answer = raw::open_journal(image, journal);
        if answer.0 == 17 {
            *image = first(&[5]);
        }
        answer
    }),
    ("the state after a bad record", |image, journal| {
        let answer = raw::open_journal(image, journal);
        if let (17, [ADVANCE, a, b, c, d, ..]) = (answer.0, &journal[answer.1..]) {
            put_minute(image, MINUTE, u32::from_le_bytes([*a, *b, *c, *d]));
        }
        answer
    }),
    ("the records behind a bad one count", |image, journal| {
        let answer = raw::open_journal(image, journal);
        skip_bad(image, journal);
        answer
    }),
    ("a record turned down is skipped", skip_bad),
    (
        "8 for bytes behind the sheet",
        |image, journal| match raw::open(image, journal) {
            (8, at) => (8, at, 0),
            _ => raw::open_journal(image, journal),
        },
    ),
    (
        "a cut sheet with bytes left over",
        |image, journal| match raw::open_journal(image, journal) {
            (1, at, _) => (1, at, journal.len() - at),
            answer => answer,
        },
    ),
    ("minutes highest byte first", |image, journal| {
        let mut turned = journal.to_vec();
        for at in record_places(journal) {
            if journal[at] == ADVANCE {
                turned[at + 1..at + 5].reverse();
            }
        }
        raw::open_journal(image, &turned)
    }),
    ("no kind 19, as in a list", |image, journal| {
        let mut moves = record_places(journal).into_iter();
        match moves.find(|at| journal[*at] == ADVANCE) {
            Some(at) => bad_at(image, journal, at),
            None => raw::open_journal(image, journal),
        }
    }),
    ("a record that changes nothing is 17", |image, journal| {
        let mut places = record_places(journal).into_iter();
        let idle = |at: &usize| {
            let end = at + record_length(journal[*at]);
            state(&journal[..*at]) == state(&journal[..end])
        };
        match places.find(idle) {
            Some(at) => bad_at(image, journal, at),
            None => raw::open_journal(image, journal),
        }
    }),
];

/// What is read wrongly when a call is appended.
pub const APPENDS: [(&str, Add); 20] = [
    (
        "a cut record is 17",
        |buffer, len, kind, number| match buffer.get(..len).map(opened) {
            Some((0, at, 1..)) => (17, len, at),
            _ => raw::append(buffer, len, kind, number),
        },
    ),
    (
        "leftover bytes stay in front",
        |buffer, len, kind, number| {
            let answer = raw::append(&mut buffer.to_vec(), len, kind, number);
            let record = record(kind, number);
            match (
                answer,
                buffer.get_mut(len..len.saturating_add(record.len())),
            ) {
                ((0, ..), Some(place)) => {
                    place.copy_from_slice(&record);
                    (0, len + record.len(), len)
                }
                _ => raw::append(buffer, len, kind, number),
            }
        },
    ),
    (
        "other leftover bytes are cleared",
        |buffer, len, kind, number| {
            let answer = raw::append(buffer, len, kind, number);
            if answer.0 == 0 && answer.1 < len {
                buffer[answer.1..len].fill(0);
            }
            answer
        },
    ),
    (
        "a byte behind the record changes",
        |buffer, len, kind, number| {
            let answer = raw::append(buffer, len, kind, number);
            match buffer.get_mut(answer.1) {
                Some(byte) if answer.0 == 0 => *byte ^= 1,
                _ => {}
            }
            answer
        },
    ),
    (
        "a call turned down is written",
        |buffer, len, kind, number| {
            let answer = raw::append(buffer, len, kind, number);
            if !is_calls(answer.0) {
                return answer;
            }
            match write(buffer, answer.2, kind, number) {
                Some(new_len) => (0, new_len, answer.2),
                None => answer,
            }
        },
    ),
    (
        "written, and its number given",
        |buffer, len, kind, number| {
            let answer = raw::append(buffer, len, kind, number);
            if is_calls(answer.0) {
                write(buffer, answer.2, kind, number);
            }
            answer
        },
    ),
    (
        "room before the call",
        |buffer, len, kind, number| match raw::append(buffer, len, kind, number) {
            (refused, _, at) if is_calls(refused) && at + record_length(kind) > buffer.len() => {
                (14, len, at)
            }
            answer => answer,
        },
    ),
    (
        "room before the journal",
        |buffer, len, kind, number| match raw::append(buffer, len, kind, number) {
            (1..=7 | 15 | 17, _, at) if len + record_length(kind) > buffer.len() => (14, len, at),
            answer => answer,
        },
    ),
    (
        "the call before the journal",
        |buffer, len, kind, number| match raw::append(buffer, len, kind, number) {
            (1 | 3..=7 | 15 | 17, _, at) if record(kind, number).is_empty() => {
                (if is_call(kind) { 9 } else { 2 }, len, at)
            }
            answer => answer,
        },
    ),
    (
        "the state's answer before 17",
        |buffer, len, kind, number| match raw::append(buffer, len, kind, number) {
            (17, _, at) => match raw::append(&mut buffer[..at].to_vec(), at, kind, number) {
                (refused, ..) if is_calls(refused) => (refused, len, at),
                _ => (17, len, at),
            },
            answer => answer,
        },
    ),
    ("the length last", |buffer, len, kind, number| {
        if len <= buffer.len() {
            return raw::append(buffer, len, kind, number);
        }
        match raw::append(&mut buffer.to_vec(), buffer.len(), kind, number) {
            (0 | 14, ..) => (14, len, 0),
            (refused, _, at) => (refused, len, at),
        }
    }),
    (
        "a length that is the room is refused",
        |buffer, len, kind, number| {
            if len == buffer.len() {
                return (14, len, 0);
            }
            raw::append(buffer, len, kind, number)
        },
    ),
    (
        "room that fits exactly is refused",
        |buffer, len, kind, number| match raw::append(&mut buffer.to_vec(), len, kind, number) {
            (0, new_len, at) if new_len == buffer.len() => (14, len, at),
            _ => raw::append(buffer, len, kind, number),
        },
    ),
    ("minutes highest byte first", |buffer, len, kind, number| {
        let answer = raw::append(buffer, len, kind, number);
        if (answer.0, kind) == (0, ADVANCE) {
            buffer[answer.2 + 1..answer.1].reverse();
        }
        answer
    }),
    ("a number cut to a byte", |buffer, len, kind, number| {
        let cut = if kind == ADVANCE {
            number
        } else {
            number & 255
        };
        raw::append(buffer, len, kind, cut)
    }),
    (
        "a winding up's number counts",
        |buffer, len, kind, number| match raw::append(&mut buffer.to_vec(), len, kind, number) {
            (0, _, at) if kind == 18 && number > 255 => (9, len, at),
            _ => raw::append(buffer, len, kind, number),
        },
    ),
    (
        "17 for a kind that is no call's",
        |buffer, len, kind, number| match raw::append(buffer, len, kind, number) {
            (2, new_len, at) if !is_call(kind) => (17, new_len, at),
            answer => answer,
        },
    ),
    (
        "no record where nothing changes",
        |buffer, len, kind, number| {
            let mut copy = buffer.to_vec();
            match raw::append(&mut copy, len, kind, number) {
                (0, new_len, at) if state(&copy[..new_len]) == state(&copy[..at]) => (0, len, at),
                answer => {
                    buffer.copy_from_slice(&copy);
                    answer
                }
            }
        },
    ),
    (
        "leftover bytes dropped anyway",
        |buffer, len, kind, number| match raw::append(buffer, len, kind, number) {
            (refused, _, at) if is_calls(refused) => (refused, at, at),
            answer => answer,
        },
    ),
    (
        "no room, and the leftover bytes cleared",
        |buffer, len, kind, number| {
            let answer = raw::append(buffer, len, kind, number);
            if answer.0 == 14 && len <= buffer.len() {
                buffer[answer.2..].fill(0);
            }
            answer
        },
    ),
];

/// What is wrong in the record of a call.
pub const RECORDS: [(&str, Record); 4] = [
    ("minutes highest byte first", |kind, number, record| {
        let minute = if kind == ADVANCE {
            number.swap_bytes()
        } else {
            number
        };
        raw::record(kind, minute, record)
    }),
    ("a number cut to a byte", |kind, number, record| {
        let cut = if kind == ADVANCE {
            number
        } else {
            number & 255
        };
        raw::record(kind, cut, record)
    }),
    ("the bytes behind it cleared", |kind, number, record| {
        let length = raw::record(kind, number, record);
        record[length..].fill(0);
        length
    }),
    (
        "a record of a kind that is no call's",
        |kind, number, record| match raw::record(kind, number, record) {
            0 if !is_call(kind) => {
                record[0] = kind;
                1
            }
            length => length,
        },
    ),
];

/// All of them, with what the comparison says of such a difference.
pub fn libraries() -> Vec<(&'static str, Functions, &'static str)> {
    let openings =
        OPENINGS.map(|(name, open)| (name, Functions { open, ..LIBRARY }, " of opening "));
    let appends = APPENDS.map(|(name, append)| (name, Functions { append, ..LIBRARY }, " behind "));
    let records =
        RECORDS.map(|(name, record)| (name, Functions { record, ..LIBRARY }, "record of "));
    openings.into_iter().chain(appends).chain(records).collect()
}

fn is_call(kind: u8) -> bool {
    (16..=19).contains(&kind)
}

/// Whether a number is a call's own.
fn is_calls(number: u8) -> bool {
    matches!(number, 9 | 10 | 11 | 16)
}

fn opened(journal: &[u8]) -> Answer {
    raw::open_journal(&mut [0; STATE_LEN], journal)
}

fn state(journal: &[u8]) -> Image {
    let mut image = [0; STATE_LEN];
    raw::open_journal(&mut image, journal);
    image
}

fn record(kind: u8, number: u32) -> Vec<u8> {
    let mut record = [0; RECORD_LEN];
    let length = raw::record(kind, number, &mut record);
    record[..length].to_vec()
}

/// Writes a record where there is room for it, and gives its end.
fn write(buffer: &mut [u8], at: usize, kind: u8, number: u32) -> Option<usize> {
    let record = record(kind, number);
    let end = at + record.len();
    buffer.get_mut(at..end)?.copy_from_slice(&record);
    (end > at).then_some(end)
}

/// Opens a journal without its last whole record, if so many bytes are left over.
fn last_lost(image: &mut Image, journal: &[u8], least: usize) -> Answer {
    let answer = raw::open_journal(image, journal);
    let (0, at, leftover) = answer else {
        return answer;
    };
    match opened(&journal[..at - 1]) {
        (0, before, _) if leftover >= least => {
            raw::open_journal(image, &journal[..before]);
            (0, before, journal.len() - before)
        }
        _ => answer,
    }
}

/// Opens a journal as if the records that are turned down were not there.
fn skip_bad(image: &mut Image, journal: &[u8]) -> Answer {
    let mut rest = journal.to_vec();
    loop {
        match raw::open_journal(image, &rest) {
            (17, at, _) if is_call(rest[at]) => {
                rest.drain(at..at + record_length(rest[at]));
            }
            (0, _, leftover) => return (0, journal.len() - leftover, leftover),
            answer => return answer,
        }
    }
}

/// 17 at this place of a journal, which opens up to there.
fn bad_at(image: &mut Image, journal: &[u8], at: usize) -> Answer {
    raw::open_journal(image, &journal[..at]);
    (17, at, 0)
}

/// The places of the whole records that a journal opens with.
fn record_places(journal: &[u8]) -> Vec<usize> {
    let Ok((_, mut at)) = Sheet::read_front(journal) else {
        return Vec::new();
    };
    let end = opened(journal).1;
    let mut places = Vec::new();
    while at < end {
        places.push(at);
        at += record_length(journal[at]);
    }
    places
}
