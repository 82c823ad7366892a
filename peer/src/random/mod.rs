//! Random sheets, lists of calls, batches and journals.

mod batches;
mod damage;
mod forcible;
mod forms;
mod journals;
mod lists;
mod shapes;
mod sheets;
mod waiting;
mod windows;

pub use batches::{batch, batch_length, replies};
pub use forcible::forcible_sheet;
pub use forms::{longest_sheet, other_form};
pub use journals::{any_append, any_journal, kept_journal, record_length, Append, Kept, Spoilt};
pub use lists::{any_call, any_minute, calls, hostile_list, mixed_list, single_calls};
pub use shapes::hostile_sheet;
pub use sheets::{admitted_sheet, sheet, window_record, Made};
pub use waiting::{waiting_calls, waiting_sheet, Three, Waiting};
pub use windows::{
    faulty_sheet, windowed_calls, windowed_sheet, Fault, Faulty, Timed, Windowed, FAULTS,
};

/// Splitmix64.
pub struct Random(u64);

impl Random {
    pub fn new(seed: u64) -> Random {
        Random(seed)
    }

    pub fn word(&mut self) -> u64 {
        self.0 = self.0.wrapping_add(0x9e37_79b9_7f4a_7c15);
        let mut mixed = self.0;
        mixed = (mixed ^ (mixed >> 30)).wrapping_mul(0xbf58_476d_1ce4_e5b9);
        mixed = (mixed ^ (mixed >> 27)).wrapping_mul(0x94d0_49bb_1331_11eb);
        mixed ^ (mixed >> 31)
    }

    /// Below `limit`, which is not 0.
    pub fn below(&mut self, limit: usize) -> usize {
        (self.word() % limit as u64) as usize
    }

    pub fn between(&mut self, least: usize, most: usize) -> usize {
        least + self.below(most - least + 1)
    }

    pub fn byte(&mut self) -> u8 {
        self.word() as u8
    }

    pub fn percent(&mut self, chance: u64) -> bool {
        self.word() % 100 < chance
    }

    pub fn pick<T: Copy>(&mut self, from: &[T]) -> T {
        from[self.below(from.len())]
    }

    pub fn shuffle<T>(&mut self, list: &mut [T]) {
        for last in (1..list.len()).rev() {
            list.swap(last, self.below(last + 1));
        }
    }
}

/// Short and of any value.
fn random_bytes(random: &mut Random) -> Vec<u8> {
    let length = random.below(24);
    let most = random.pick(&[6, 8, 16, 255]);
    (0..length).map(|_| random.between(0, most) as u8).collect()
}
