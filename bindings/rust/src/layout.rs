//! Where a state's parts stand in its bytes, as `include/sinewhopa.h` has them.
//! Only what is read here.

use crate::STATE_LEN;

/// How many events, rules and lines of history there are.
pub const EVENTS: usize = 1;
pub const RULES: usize = 2;
pub const LINES: usize = 3;
/// Rows, with a byte for each event, rule, step or line. A rule names up to three events.
pub const STEP: usize = 4;
pub const ATTRIBUTES: usize = 20;
pub const RULE_KIND: usize = 36;
pub const RULE_EVENTS: [usize; 3] = [52, 68, 84];
pub const FATE: usize = 100;
pub const BROKEN: usize = 116;
pub const CLOSED: usize = 132;
pub const LINE_EVENT: usize = 140;
pub const LINE_FATE: usize = 156;
/// The minute, and rows with a number of four bytes for each event.
pub const MINUTE: usize = 172;
pub const FROM: usize = 176;
pub const UNTIL: usize = 240;

pub const STEPS: u8 = 8;

/// The first `count` bytes of a row; none where the state has not as many.
pub fn row(bytes: &[u8; STATE_LEN], start: usize, count: u8) -> &[u8] {
    bytes
        .get(start..start + usize::from(count))
        .unwrap_or_default()
}

/// Whether the mark at a place of a row is set; beyond the row it is not.
pub fn marked(marks: &[u8], place: u8) -> bool {
    marks.get(usize::from(place)) == Some(&1)
}

/// The four-byte number at a place, the lowest byte first.
pub fn number(bytes: &[u8; STATE_LEN], start: usize) -> u32 {
    let highest_first = row(bytes, start, 4).iter().rev();
    highest_first.fold(0, |number, byte| number << 8 | u32::from(*byte))
}
