//! `dearest [COUNT [SEED]]`: looks for the library's dearest single call, and
//! for its dearest list, over hostile sheets of 16 events and 16 rules.
//!
//! A call costs the least time of the list up to it, less the least time of the
//! list up to the call before it. At first each list is timed whole. The worst
//! are then timed call by call, along with changed copies of the worst of them,
//! and what comes out on top is timed again and again, until the top ones have
//! been timed so often that no disturbance is left in their least times. Ends
//! with status 1 when the dearest call is above the limit.
//!
//! `dearest again SHEET CALLS`, both in hex as printed, times one list.

use peer::peer::calls::split_call;
use peer::peer::Sheet;
use peer::random::{hostile_list, hostile_sheet, Random};
use peer::{library, peer as second};
use std::hint::black_box;
use std::process::ExitCode;
use std::time::Instant;

const COUNT: usize = 20_000;
const SEED: u64 = 4;
/// Microseconds.
const LIMIT: f64 = 100.0;
/// The lists that are timed call by call, those whose copies are changed, and
/// those that are then timed with care.
const SHORTLIST: usize = 1_000;
const PARENTS: usize = 50;
const COPIES: usize = 20;
const WORST: usize = 200;
/// How often each beginning of a list is timed.
const SWEEP: usize = 3;
const ROUGH: usize = 3;
const CAREFUL: usize = 30;
const FINAL: usize = 500;

/// A list with the least times of its beginnings.
#[derive(Clone)]
struct Timed {
    sheet: Vec<u8>,
    calls: Vec<u8>,
    /// Where the beginning with as many calls as the place says ends.
    ends: Vec<usize>,
    /// Its least time so far, in microseconds.
    least: Vec<f64>,
    runs: usize,
}

impl Timed {
    fn new(sheet: Vec<u8>, calls: Vec<u8>) -> Timed {
        let mut ends = vec![0];
        let mut rest = calls.as_slice();
        while let Some((_, after)) = split_call(rest) {
            ends.push(calls.len() - after.len());
            rest = after;
        }
        let least = vec![f64::INFINITY; ends.len()];
        Timed {
            sheet,
            calls,
            ends,
            least,
            runs: 0,
        }
    }

    /// Times the beginning with `count` calls.
    fn time(&mut self, count: usize) {
        let mut out = [0; library::LONGEST_REPORT];
        let calls = &self.calls[..self.ends[count]];
        let start = Instant::now();
        library::run_into(black_box(&self.sheet), black_box(calls), &mut out);
        let time = start.elapsed().as_nanos() as f64 / 1000.0;
        black_box(out);
        self.least[count] = self.least[count].min(time);
    }

    /// Times every beginning until that was done `runs` times in all.
    fn measure(&mut self, runs: usize) {
        while self.runs < runs {
            for count in 0..self.ends.len() {
                self.time(count);
            }
            self.runs += 1;
        }
    }

    fn whole(&self) -> f64 {
        self.least[self.least.len() - 1]
    }

    /// The bytes of a call, counted from 1.
    fn call(&self, call: usize) -> &[u8] {
        &self.calls[self.ends[call - 1]..self.ends[call]]
    }

    fn cost(&self, call: usize) -> f64 {
        self.least[call] - self.least[call - 1]
    }

    /// The dearest call.
    fn dearest(&self) -> usize {
        let calls = 1..self.ends.len();
        let dearest = calls.max_by(|one, other| self.cost(*one).total_cmp(&self.cost(*other)));
        dearest.expect("a list with a call")
    }

    fn dearest_cost(&self) -> f64 {
        self.cost(self.dearest())
    }

    fn hex(&self) -> String {
        format!("sheet {}, calls {}", hex(&self.sheet), hex(&self.calls))
    }
}

fn hex(bytes: &[u8]) -> String {
    bytes.iter().map(|byte| format!("{byte:02x}")).collect()
}

fn unhex(text: &str) -> Option<Vec<u8>> {
    let digits = text.as_bytes().chunks(2);
    let byte = |two: &[u8]| u8::from_str_radix(std::str::from_utf8(two).ok()?, 16).ok();
    digits.map(byte).collect()
}

/// Every sheet's list, timed whole a few times.
fn sweep(count: usize, random: &mut Random) -> Vec<Timed> {
    let mut lists = Vec::new();
    for _ in 0..count {
        let made = hostile_sheet(random);
        let calls = hostile_list(random, &made);
        let mut timed = Timed::new(made.bytes, calls);
        for _ in 0..SWEEP {
            timed.time(timed.ends.len() - 1);
        }
        lists.push(timed);
    }
    lists
}

/// Leaves the `count` largest by `key`, the largest in front, and gives the
/// largest that was left out.
fn keep_worst(lists: &mut Vec<Timed>, count: usize, key: fn(&Timed) -> f64) -> f64 {
    lists.sort_by(|one, other| key(other).total_cmp(&key(one)));
    let next = lists.get(count).map_or(0.0, key);
    lists.truncate(count);
    next
}

/// A copy with a byte of the sheet changed or two calls exchanged; none if the
/// sheet is then not one of 16 events and 16 rules.
fn changed(random: &mut Random, timed: &Timed) -> Option<Timed> {
    let mut sheet = timed.sheet.clone();
    let mut calls: Vec<&[u8]> = (1..timed.ends.len()).map(|call| timed.call(call)).collect();
    if random.percent(60) {
        let place = random.below(sheet.len());
        sheet[place] = random.below(16) as u8;
    } else {
        let (one, other) = (random.below(calls.len()), random.below(calls.len()));
        calls.swap(one, other);
    }
    let read = Sheet::read(&sheet).ok()?;
    let full = read.events() == 16 && read.rules.len() == 16;
    full.then(|| Timed::new(sheet, calls.concat()))
}

/// Changed copies of the worst lists; a copy that is worse is changed further.
fn climb(random: &mut Random, lists: &[Timed]) -> Vec<Timed> {
    let mut found = Vec::new();
    for parent in &lists[..lists.len().min(PARENTS)] {
        let mut best = parent.clone();
        for _ in 0..COPIES {
            if let Some(mut copy) = changed(random, &best) {
                copy.measure(ROUGH);
                if copy.dearest_cost() > best.dearest_cost() {
                    best = copy;
                }
            }
        }
        found.push(best);
    }
    found
}

/// The largest by `key`, once it has been timed often enough to be sure.
fn confirmed(lists: &mut [Timed], key: fn(&Timed) -> f64) -> Timed {
    loop {
        let worst = lists.iter_mut();
        let worst = worst.max_by(|one, other| key(one).total_cmp(&key(other)));
        let worst = worst.expect("a list");
        if worst.runs >= FINAL {
            return worst.clone();
        }
        worst.measure(FINAL);
    }
}

/// The worst lists, timed with care.
fn worst_lists(count: usize, random: &mut Random) -> Vec<Timed> {
    let mut lists = sweep(count, random);
    let other = keep_worst(&mut lists, SHORTLIST, Timed::whole);
    let timed = lists.len();
    println!("{timed} lists timed call by call; the others took at most {other:.1} us as a whole");
    for timed in &mut lists {
        timed.measure(ROUGH);
    }
    let mut dear = lists.clone();
    keep_worst(&mut dear, WORST, Timed::dearest_cost);
    dear.extend(climb(random, &dear));
    // The longest as well: they are still in front.
    lists.truncate(PARENTS);
    lists.extend(dear);
    for timed in &mut lists {
        timed.measure(CAREFUL);
        let report = library::run(&timed.sheet, &timed.calls);
        let peer = second::run(&timed.sheet, &timed.calls);
        assert!(report == peer, "the peer differs: {}", timed.hex());
    }
    lists
}

fn search(count: usize, seed: u64) -> ExitCode {
    println!("{count} sheets of 16 events and 16 rules, seed {seed}");
    let mut lists = worst_lists(count, &mut Random::new(seed));
    let list = confirmed(&mut lists, Timed::whole);
    let (time, calls) = (list.whole(), list.ends.len() - 1);
    println!(
        "dearest list: {time:.1} us for {calls} calls ({})",
        list.hex()
    );
    verdict(&confirmed(&mut lists, Timed::dearest_cost))
}

/// Prints the dearest call of the list and holds it to the limit.
fn verdict(timed: &Timed) -> ExitCode {
    let call = timed.dearest();
    let cost = timed.cost(call);
    let bytes = hex(timed.call(call));
    let of = timed.ends.len() - 1;
    println!(
        "dearest call: {cost:.1} us (call {call} of {of}, {bytes}; {})",
        timed.hex()
    );
    if cost > LIMIT {
        println!("above the limit of {LIMIT} us");
        return ExitCode::FAILURE;
    }
    ExitCode::SUCCESS
}

/// Times one list and prints what each call costs.
fn again(mut timed: Timed) -> ExitCode {
    if timed.ends.len() == 1 {
        eprintln!("no call to time");
        return ExitCode::FAILURE;
    }
    timed.measure(FINAL);
    for call in 1..timed.ends.len() {
        let (bytes, cost) = (hex(timed.call(call)), timed.cost(call));
        println!("call {call}, {bytes}: {cost:.2} us");
    }
    println!("whole list: {:.1} us", timed.whole());
    verdict(&timed)
}

fn main() -> ExitCode {
    let arguments: Vec<String> = std::env::args().skip(1).collect();
    let words: Vec<&str> = arguments.iter().map(String::as_str).collect();
    if let ["again", sheet, calls] = words[..] {
        if let (Some(sheet), Some(calls)) = (unhex(sheet), unhex(calls)) {
            return again(Timed::new(sheet, calls));
        }
    }
    let numbers: Option<Vec<u64>> = words.iter().map(|word| word.parse().ok()).collect();
    match numbers.as_deref() {
        Some([]) => search(COUNT, SEED),
        Some(&[count]) if count > 0 => search(count as usize, SEED),
        Some(&[count, seed]) if count > 0 => search(count as usize, seed),
        _ => {
            eprintln!("usage: dearest [COUNT [SEED]], or dearest again SHEET CALLS");
            ExitCode::FAILURE
        }
    }
}
