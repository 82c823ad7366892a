//! `compare SEED COUNT`: the library against the peer on random pairs, as lists and
//! as single calls on a kept state; then damaged copies of as many states; then as many
//! batches, as many previews, as many sheets written out, as many lists with and without
//! the mark of a forced event, and as many lists and damaged states with conditionals of
//! which nothing can stop a or b.

use peer::compare::{compare, COUNT, SEED};
use peer::images::{batches, damaged, forced, previews, sheets, single, waiting};
use peer::library::{self, raw, State};
use std::process::ExitCode;

/// Prints what was met with.
fn run(seed: u64, count: usize) -> Result<(), String> {
    let lists = compare(seed, count, library::run).map_err(|found| found.to_string())?;
    println!("lists: {lists:#?}");
    let calls = single::compare::<State>(seed, count)?;
    println!("single calls: {calls:#?}");
    let damage = damaged::compare(seed, count, &damaged::LIBRARY)?;
    println!("damaged states: {damage:#?}");
    let batches = batches::compare(seed, count, raw::submit_all)?;
    println!("batches: {batches:#?}");
    let previews = previews::compare(seed, count, previews::LIBRARY)?;
    println!("previews: {previews:#?}");
    let sheets = sheets::compare(seed, count, sheets::LIBRARY)?;
    println!("sheets written out: {sheets:#?}");
    let forced = forced::compare(seed, count, forced::LIBRARY)?;
    println!("forced events: {forced:#?}");
    let lists = waiting::compare(seed, count, &waiting::LIBRARY, None)?;
    println!("events that wait: {lists}");
    let damage = waiting::damage::compare(seed, count, &damaged::LIBRARY)?;
    println!("damaged states of events that wait: {damage:#?}");
    println!("{count} pairs, 0 differences");
    Ok(())
}

fn main() -> ExitCode {
    let mut arguments = std::env::args().skip(1).map(|text| text.parse::<u64>());
    let (seed, count) = match (arguments.next(), arguments.next()) {
        (None, None) => (SEED, COUNT as u64),
        (Some(Ok(seed)), None) => (seed, COUNT as u64),
        (Some(Ok(seed)), Some(Ok(count))) => (seed, count),
        _ => {
            eprintln!("usage: compare [SEED [COUNT]]");
            return ExitCode::FAILURE;
        }
    };
    if let Err(difference) = run(seed, count as usize) {
        println!("{difference}");
        return ExitCode::FAILURE;
    }
    ExitCode::SUCCESS
}
