//! The plain reading on the bytes of a state.

use crate::plain::{Fate, Plain};
use peer::images::layout::*;
use peer::peer::calls::Call;

const FATES: [Fate; 6] = [
    Fate::Open,
    Fate::Held,
    Fate::Done,
    Fate::Refused,
    Fate::Lapsed,
    Fate::Forced,
];

/// The state of the bytes, which hang together and have this sheet.
pub fn plain_of(sheet: &[u8], image: &Image) -> Plain {
    let mut plain = Plain::read(sheet);
    let fate = |number: u8| FATES[usize::from(number)];
    for (event, own) in plain.fates.iter_mut().enumerate() {
        *own = fate(image[FATE + event]);
    }
    for (rule, mark) in plain.broken.iter_mut().enumerate() {
        *mark = image[BROKEN + rule] == 1;
    }
    plain.closed = std::array::from_fn(|step| image[CLOSED + step] == 1);
    let lines = 0..usize::from(image[LINES]);
    plain.history = lines
        .map(|line| (image[LINE_EVENT + line], fate(image[LINE_FATE + line])))
        .collect();
    plain.minute = minute_at(image, MINUTE);
    plain
}

/// The bytes after a call, over those before it.
pub fn put(plain: &Plain, image: &mut Image) {
    for (event, fate) in plain.fates.iter().enumerate() {
        image[FATE + event] = *fate as u8;
    }
    for (rule, mark) in plain.broken.iter().enumerate() {
        image[BROKEN + rule] = u8::from(*mark);
    }
    for (step, mark) in plain.closed.iter().enumerate() {
        image[CLOSED + step] = u8::from(*mark);
    }
    put_minute(image, MINUTE, plain.minute);
    image[LINES] = plain.history.len() as u8;
    for (line, (event, fate)) in plain.history.iter().enumerate() {
        image[LINE_EVENT + line] = *event;
        image[LINE_FATE + line] = *fate as u8;
    }
}

pub fn make(plain: &mut Plain, call: Call) {
    match call {
        Call::Submit(event) => plain.submit(event),
        Call::CloseStep(step) => plain.close_step(step),
        Call::Finish => plain.finish(),
        Call::Advance(minute) => plain.advance(minute),
    }
}
