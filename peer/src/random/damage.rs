//! Sheets with a fault.

use super::sheets::{add_rule, any_rule, window_record, Draft};
use super::{random_bytes, Random};

/// The bytes of the draft with one fault, now and then with two.
pub fn damage(random: &mut Random, mut draft: Draft) -> Vec<u8> {
    match random.below(13) {
        0 => return random_bytes(random),
        1 => return cut(random, draft.bytes()),
        2 => return flip(random, draft.bytes()),
        3 => {
            let mut bytes = draft.bytes();
            bytes.extend(random_bytes(random));
            bytes.push(random.pick(&[5, 0, 1, 255]));
            return bytes;
        }
        4 => bad_kind(random, &mut draft),
        5 => too_many_events(random, &mut draft),
        6 => too_many_rules(random, &mut draft),
        7 => bad_step(random, &mut draft),
        8 => bad_attributes(random, &mut draft),
        9 => bad_name(random, &mut draft),
        10 => not_enforceable(random, &mut draft),
        11 => bad_window(random, &mut draft),
        _ => return draft.records.concat(),
    }
    let bytes = draft.bytes();
    match random.below(10) {
        0 => flip(random, bytes),
        1 => cut(random, bytes),
        _ => bytes,
    }
}

fn cut(random: &mut Random, mut bytes: Vec<u8>) -> Vec<u8> {
    let kept = random.below(bytes.len());
    bytes.truncate(kept);
    bytes
}

fn flip(random: &mut Random, mut bytes: Vec<u8>) -> Vec<u8> {
    let place = random.below(bytes.len());
    bytes[place] = if random.percent(50) {
        random.byte()
    } else {
        random.below(9) as u8
    };
    bytes
}

fn bad_kind(random: &mut Random, draft: &mut Draft) {
    let place = random.below(draft.records.len() + 1);
    let kind = random.pick(&[0, 8, 9, 16, 254, 255]);
    draft.records.insert(place, vec![kind]);
}

/// Past 16 events; the record too many may be at fault in other ways as well.
fn too_many_events(random: &mut Random, draft: &mut Draft) {
    while draft.events() < 13 || (draft.events() < 16 && random.percent(60)) {
        let step = random.below(8) as u8;
        draft.declare(step, 2);
    }
    let step = random.pick(&[0, 7, 8, 255]);
    if random.percent(50) {
        draft.declare_four(step);
    } else {
        while draft.events() < 16 {
            draft.declare(0, 0);
        }
        let sum = random.pick(&[0, 4, 6, 8]);
        draft.declare(step, sum);
    }
}

fn too_many_rules(random: &mut Random, draft: &mut Draft) {
    while draft.events() < 3 {
        draft.declare(0, 7);
    }
    // Some events allow no enforceable rule at all, so the tries are counted.
    for _ in 0..40 {
        if draft.rules < 16 {
            add_rule(random, draft);
        }
    }
    // The one too many may be at fault in other ways as well.
    let last = random.below(20) as u8;
    let kind = random.pick(&[2, 3]);
    draft.add_rule(vec![kind, 0, last]);
}

/// The place of a random record of one of the kinds.
fn place_of(random: &mut Random, draft: &Draft, kinds: &[u8]) -> Option<usize> {
    let fits = |place: &usize| kinds.contains(&draft.records[*place][0]);
    let places: Vec<usize> = (0..draft.records.len()).filter(fits).collect();
    (!places.is_empty()).then(|| random.pick(&places))
}

fn bad_step(random: &mut Random, draft: &mut Draft) {
    if let Some(place) = place_of(random, draft, &[1, 6]) {
        draft.records[place][1] = random.pick(&[8, 9, 128, 255]);
        if random.percent(20) && draft.records[place][0] == 1 {
            draft.records[place][2] = 4;
        }
    }
}

fn bad_attributes(random: &mut Random, draft: &mut Draft) {
    if let Some(place) = place_of(random, draft, &[1]) {
        draft.records[place][2] = random.pick(&[4, 5, 8, 10, 14, 128, 255]);
    }
}

fn bad_name(random: &mut Random, draft: &mut Draft) {
    if let Some(place) = place_of(random, draft, &[2, 3, 4]) {
        let events = draft.events();
        let rule = &mut draft.records[place];
        let (one, other) = (random.between(1, 2), random.between(1, rule.len() - 1));
        if one != other && random.percent(50) {
            rule[one] = rule[other];
        } else {
            rule[one] = random.pick(&[events as u8, events as u8 + 1, 16, 17, 128, 255]);
        }
    }
}

fn not_enforceable(random: &mut Random, draft: &mut Draft) {
    if draft.events() < 14 && random.percent(50) {
        for sum in [0, 1, 6] {
            let step = random.below(8) as u8;
            draft.declare(step, sum);
        }
    }
    for _ in 0..100 {
        match any_rule(random, draft) {
            Some(rule) if !draft.enforceable(&rule) => return draft.add_rule(rule),
            _ => {}
        }
    }
}

/// A window on any event, declared or not, or one that never opens, or a second one.
fn bad_window(random: &mut Random, draft: &mut Draft) {
    let place = random.below(draft.records.len() + 1);
    let most = random.between(0, draft.events()).min(255);
    let [from, until] = [random.below(3), random.below(3)].map(|minute| minute as u32);
    let record = window_record(random.below(most + 1) as u8, from, until);
    draft.records.insert(place, record.clone());
    if random.percent(30) {
        draft.records.push(record);
    }
}
