//! Least times of passes that the library and the peer make over the same work.
//!
//! Rounds are short and many, and every round goes through all work: a machine
//! that others use is slow for seconds on end, which would spoil all rounds of
//! a piece of work that was timed in one go. Every round also stands elsewhere on
//! the stack: in a few places of a hundred some lists take nearly twice as long,
//! and a process would else keep to one place. So the times are those of a good
//! place, for the library and the peer alike.

use super::table::Row;
use std::hint::black_box;
use std::time::{Duration, Instant};

/// At least; up to twice as long, or one pass.
const ROUND: Duration = Duration::from_millis(5);
const ROUNDS: usize = 100;

/// Work that both do.
pub struct Work<'a> {
    pub name: &'a str,
    /// The calls of one pass.
    pub calls: usize,
    /// A pass of the library and one of the peer.
    pub passes: [Box<dyn Fn() + 'a>; 2],
}

/// The rows of all work, each with the least times of its rounds.
pub fn measure(works: &[Work]) -> Vec<Row> {
    let mut timed: Vec<Timed> = works.iter().map(Timed::new).collect();
    for round in 0..ROUNDS {
        for one in &mut timed {
            one.round(round);
        }
    }
    let row = |one: &Timed| Row::new(one.work.name, one.work.calls, one.least);
    timed.iter().map(row).collect()
}

struct Timed<'a> {
    work: &'a Work<'a>,
    /// How often each pass is made in a round.
    repeats: [usize; 2],
    /// The least time of each pass, in nanoseconds.
    least: [f64; 2],
}

impl<'a> Timed<'a> {
    fn new(work: &'a Work<'a>) -> Timed<'a> {
        Timed {
            work,
            repeats: [0, 1].map(|which| repeats(&work.passes[which])),
            least: [f64::INFINITY; 2],
        }
    }

    /// A round of both. Each goes first in every other round.
    fn round(&mut self, round: usize) {
        let first = round % 2;
        for which in [first, 1 - first] {
            let time = || time(&self.work.passes[which], self.repeats[which]);
            self.least[which] = self.least[which].min(deeper(round, &time));
        }
    }
}

/// The time, with that many more frames on the stack.
#[inline(never)]
fn deeper(frames: usize, time: &dyn Fn() -> f64) -> f64 {
    let frame = black_box([0u8; 16]);
    let time = match frames {
        0 => time(),
        _ => deeper(frames - 1, time),
    };
    black_box(&frame);
    time
}

/// How often the pass has to be made for a round: found by doubling.
fn repeats(pass: &dyn Fn()) -> usize {
    let mut count = 1;
    while time(pass, count) * (count as f64) < ROUND.as_nanos() as f64 {
        count *= 2;
    }
    count
}

/// The time of one pass, in nanoseconds, when it is made `count` times.
fn time(pass: &dyn Fn(), count: usize) -> f64 {
    let start = Instant::now();
    for _ in 0..count {
        pass();
    }
    start.elapsed().as_nanos() as f64 / count as f64
}
