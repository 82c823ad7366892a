//! What tests share: a state's bytes and every change of one of them, a sheet, and
//! numbers for random lists.

#![allow(dead_code)] // not every test needs all of it

use sinewhopa::{State, STATE_LEN};

pub type Bytes = [u8; STATE_LEN];

/// Where a state's bytes have the fates of events, and those of lines: for tests that write
/// bytes themselves.
pub const FATE: usize = 100;
pub const LINE_FATE: usize = 156;

/// Two parties that commit only together, each after it has prepared; and an event
/// that cannot be stopped and needs one that may be brought about.
pub const PARTIES: &[u8] = &[
    6, 0, 6, 1, 1, 5, 0, 1, 6, 1, // events
    3, 2, 6, 3, 6, 2, 2, 1, 2, 2, 5, 6, 3, 8, 9, // rules
    5,
];

pub fn open(sheet: &[u8]) -> State {
    State::open(sheet).expect("a sheet")
}

/// The bytes with every value at every place: the place, the value and all the bytes.
pub fn changes(bytes: &Bytes) -> impl Iterator<Item = (usize, u8, Bytes)> + '_ {
    let places = (0..STATE_LEN).flat_map(|place| (0..=255).map(move |value| (place, value)));
    places.map(|(place, value)| {
        let mut changed = *bytes;
        changed[place] = value;
        (place, value, changed)
    })
}

/// Numbers that look like any, the same in every run.
pub struct Numbers(pub u64);

impl Numbers {
    pub fn below(&mut self, end: u64) -> u8 {
        let stepped = self.0.wrapping_mul(6_364_136_223_846_793_005);
        self.0 = stepped.wrapping_add(1_442_695_040_888_963_407);
        ((self.0 >> 33) % end) as u8
    }

    /// A sheet of any records: each is kept where the sheet is admitted with it.
    pub fn sheet(&mut self) -> Vec<u8> {
        let mut sheet = vec![5];
        for _ in 0..self.below(100) {
            let kind = [1, 1, 2, 3, 4, 6, 7][usize::from(self.below(7))];
            let (length, end) = match kind {
                1 => (2, 8),
                6 => (1, 8),
                7 => (1, 16), // an event; the minutes of its window follow
                4 => (3, 16),
                _ => (2, 16),
            };
            let mut record = vec![kind];
            record.extend((0..length).map(|_| self.below(end)));
            if kind == 7 {
                record.extend((0..8).map(|_| self.below(256)));
            }
            let longer = [&sheet[..sheet.len() - 1], &record, &[5]].concat();
            if State::open(&longer).is_ok() {
                sheet = longer;
            }
        }
        sheet
    }

    /// One more call, turned down or not.
    pub fn call(&mut self, state: &mut State) {
        let _ = match self.below(8) {
            0 => state.close_step(self.below(4)),
            1 => state.finish(),
            _ => state.submit(self.below(11)).map(|_| ()),
        };
    }
}
