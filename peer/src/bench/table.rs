//! The table, in markdown.

use std::fmt;

const HEAD: &str = "| workload | library | peer | ratio |\n|---|---|---|---|";
const RATES: &str = "| millions of calls a second | library | peer |\n|---|---|---|";

/// A workload with the times of one call, in nanoseconds.
pub struct Row {
    pub name: String,
    pub library: f64,
    pub peer: f64,
}

pub fn print(rows: &[Row]) {
    println!("{HEAD}");
    for row in rows {
        println!("{row}");
    }
}

/// How many calls a second the rows are, in millions.
pub fn print_rates<'a>(rows: impl Iterator<Item = &'a Row>) {
    println!("{RATES}");
    for row in rows {
        println!("{}", row.rates());
    }
}

impl Row {
    /// From the times of a pass of the library and one of the peer, and the
    /// calls that either makes.
    pub fn new(name: &str, calls: usize, [library, peer]: [f64; 2]) -> Row {
        Row {
            name: name.to_string(),
            library: library / calls as f64,
            peer: peer / calls as f64,
        }
    }

    pub fn rates(&self) -> String {
        let [library, peer] = [self.library, self.peer].map(|time| figures(1000.0 / time, 3));
        format!("| {} | {library} | {peer} |", self.name)
    }
}

impl fmt::Display for Row {
    fn fmt(&self, out: &mut fmt::Formatter) -> fmt::Result {
        let (library, peer) = (duration(self.library), duration(self.peer));
        let ratio = figures(self.library / self.peer, 2);
        write!(out, "| {} | {library} | {peer} | {ratio} |", self.name)
    }
}

fn duration(nanoseconds: f64) -> String {
    if nanoseconds < 999.5 {
        format!("{} ns", figures(nanoseconds, 3))
    } else {
        format!("{} µs", figures(nanoseconds / 1000.0, 3))
    }
}

/// The number with as many significant figures, and all those before its point.
/// They are counted after rounding: 0.9996 is 1.00.
fn figures(number: f64, count: usize) -> String {
    let rounded = format!("{number:.*e}", count - 1);
    let rounded: f64 = rounded.parse().expect("a number");
    let before = rounded.log10().floor() as i32 + 1;
    let places = (count as i32 - before).max(0) as usize;
    format!("{number:.places$}")
}
