//! Times the library beside the peer and prints two tables in markdown. The first
//! has a row for each workload: the time of one call, its list's reading of the
//! sheet and report included (of a list made one by one, the reading alone), and the
//! library's time over the peer's; then single calls, a preview and a sheet written out,
//! on full states; then batches, by the time of one entry, beside the same calls made one
//! by one; then journals that are opened, by the time of one record. The second says how
//! many calls a second the lists are that are run and made one by one. All answers,
//! sheets and reports are compared first; a difference ends the run with status 1.

use peer::bench::{batches, journals, single, table, timing, workloads};
use peer::images::journals::LIBRARY;
use peer::library::{self, raw, State};
use std::process::ExitCode;

fn run() -> Result<(), String> {
    let lists = workloads::list();
    let (kept, singles) = (workloads::one_by_one(&lists), single::list());
    let (batches, journals) = (batches::list(), journals::list(&lists));
    let mut works = Vec::new();
    for list in &lists {
        list.compare(library::run)?;
        works.push(list.work());
    }
    for list in &kept {
        works.push(list.kept_work::<State>()?);
    }
    for single in &singles {
        works.push(single.work::<State>()?);
    }
    works.push(single::previews::<State>()?);
    works.push(single::writings::<State>()?);
    works.push(single::copies::<State>());
    for posts in &batches {
        works.extend(posts.works(raw::submit_all)?);
    }
    for opened in &journals {
        works.push(opened.work(&LIBRARY)?);
    }
    let rows = timing::measure(&works);
    table::print(&rows);
    println!();
    let both = workloads::KEPT
        .into_iter()
        .chain(lists.len()..lists.len() + kept.len());
    table::print_rates(both.map(|place| &rows[place]));
    Ok(())
}

fn main() -> ExitCode {
    if let Err(difference) = run() {
        eprintln!("{difference}");
        return ExitCode::FAILURE;
    }
    ExitCode::SUCCESS
}
