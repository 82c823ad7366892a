//! The benchmark's workloads are what their names say, and a library that
//! differs is found out before anything is timed.

use peer::bench::batches;
use peer::bench::journals;
use peer::bench::kept::Kept;
use peer::bench::single::{self, Single};
use peer::bench::table::Row;
use peer::bench::timing::{measure, Work};
use peer::bench::workloads::{self, Workload};
use peer::images::batches::{agree, Batch};
use peer::images::brought::scheduler;
use peer::images::journals::{Functions, LIBRARY};
use peer::images::previews::Counts;
use peer::library::raw::{self, Entry};
use peer::library::State;
use peer::peer::calls::Call;
use peer::peer::{trace, Run, Scheduler};
use peer::{library, peer as second};
use std::hint::black_box;

fn named(part: &str) -> Workload {
    let mut found = workloads::list()
        .into_iter()
        .filter(|work| work.name.contains(part));
    let work = found.next().expect("a workload of that name");
    assert!(found.next().is_none(), "two workloads of that name");
    work
}

/// The run of a workload that has one list.
fn run(part: &str) -> Run {
    let work = named(part);
    assert_eq!(work.pairs.len(), 1, "{part}");
    let (sheet, calls) = &work.pairs[0];
    let run = trace(sheet, calls).expect("an admitted sheet");
    assert_eq!(run.answers.len(), work.calls(), "{part}");
    run
}

fn held(scheduler: &Scheduler) -> usize {
    scheduler.state().held.count_ones() as usize
}

#[test]
fn library_agrees_on_every_workload() {
    for work in workloads::list() {
        assert_eq!(work.compare(library::run), Ok(()));
    }
}

#[test]
fn a_wrong_report_is_found() {
    for work in workloads::list() {
        let (sheet, calls) = work.pairs.last().expect("a pair").clone();
        let wrong = |of: &[u8], list: &[u8]| {
            let mut report = second::run(of, list);
            if of == sheet && list == calls {
                report.pop();
            }
            report
        };
        assert!(work.compare(wrong).is_err(), "{}", work.name);
    }
}

/// As large as they say, admitted, and with one to three calls for each event.
#[test]
fn random_sheets_are_of_every_size() {
    for (name, most) in [("small", 5), ("random sheets, up to 12", 12), ("large", 16)] {
        let mut sizes = vec![0; most + 1];
        for (sheet, calls) in named(name).pairs {
            let run = trace(&sheet, &calls).expect("an admitted sheet");
            let (events, calls) = (run.scheduler.sheet().events(), run.answers.len());
            assert!((events..=3 * events).contains(&calls), "{events} {calls}");
            sizes[events] += 1;
        }
        assert!(sizes[1..].iter().all(|count| *count > 0), "{sizes:?}");
    }
}

/// Six events can be done together, more cannot.
#[test]
fn rings_and_the_star_are_settled() {
    for (name, events, done) in [
        ("of 6 ", 6, 6),
        ("of 7 ", 7, 0),
        ("of 12 ", 12, 0),
        ("of 16 ", 16, 0),
        ("needs one", 16, 16),
    ] {
        let run = run(name);
        assert_eq!(run.scheduler.history().len(), events, "{name}");
        assert_eq!(run.scheduler.state().done.count_ones(), done, "{name}");
        assert_eq!(run.turned_down(), 0, "{name}");
    }
}

/// Each file is full. Its repeated calls are all taken or all turned down.
#[test]
fn files_repeat_one_call() {
    let rows = [
        ("hand-ins of a settled event", true, None),
        ("hand-ins of an event that is not there", true, Some(16)),
        ("closings of a closed step", true, Some(24)),
        ("windings up, all settled and closed", true, None),
        ("windings up, steps not closed yet", false, Some(16)),
        ("hand-ins of a held event", false, None),
    ];
    for (name, settled, first_turned_down) in rows {
        let run = run(name);
        assert_eq!(named(name).pairs[0].1.len(), 65_536, "{name}");
        let (history, held) = (run.scheduler.history().len(), held(&run.scheduler));
        assert_eq!(
            (history, held),
            if settled { (16, 0) } else { (0, 16) },
            "{name}"
        );
        let turned_down = first_turned_down.map_or(0, |first| run.answers.len() - first);
        assert_eq!(run.turned_down(), turned_down, "{name}");
    }
}

/// Fifteen needs with the star, and else sixteen rules; every event settled or
/// held but the one that is handed in.
#[test]
fn single_calls_are_made_on_full_states() {
    for single in single::list() {
        let state: Scheduler = single.state();
        let (rules, reached) = (
            state.sheet().rules.len(),
            state.history().len() + held(&state),
        );
        let star = single.name.contains("fifteen");
        let full = if star { (15, 15) } else { (16, 16) };
        assert_eq!((rules, reached), full, "{}", single.name);
    }
}

/// A state that answers calls of a kind without doing anything, or previews without
/// counting anything, or gives the length of its sheet without writing it.
#[derive(Clone)]
struct Ignores<const KIND: u8>(Scheduler);

const PREVIEWS: u8 = 0;
const WRITINGS: u8 = 1;
const CLOSINGS: u8 = 17;
const WINDINGS_UP: u8 = 18;
const MOVES: u8 = 19;

impl<const KIND: u8> Kept for Ignores<KIND> {
    fn open(sheet: &[u8]) -> Ignores<KIND> {
        Ignores(Scheduler::open(sheet))
    }

    fn call(&mut self, call: Call) -> u8 {
        let mut state = self.0.clone();
        let number = state.call(call);
        let ignored = match call {
            Call::Submit(_) => false,
            Call::CloseStep(_) => KIND == CLOSINGS,
            Call::Finish => KIND == WINDINGS_UP,
            Call::Advance(_) => KIND == MOVES,
        };
        if !ignored {
            self.0 = state;
        }
        number
    }

    fn preview(&self, event: u8) -> Result<Counts, u8> {
        let added = self.0.preview(event)?;
        Ok(if KIND == PREVIEWS { [0; 4] } else { added })
    }

    fn write_sheet(&self, out: &mut [u8]) -> (u8, usize) {
        let mut unwritten = out.to_vec();
        let kept = KIND == WRITINGS;
        let lent = if kept { &mut unwritten[..] } else { out };
        self.0.write_sheet(lent)
    }

    fn report(&self) -> Vec<u8> {
        Kept::report(&self.0)
    }

    fn is(&self, other: &Ignores<KIND>) -> bool {
        self.0.is(&other.0)
    }
}

type Idle = Ignores<WINDINGS_UP>;
type Stopped = Ignores<MOVES>;

/// The single calls that come to something else with another state.
fn found_in<S: Kept>() -> Vec<Single> {
    let differs = |single: &Single| single.outcome::<S>() != single.outcome::<Scheduler>();
    single::list().into_iter().filter(differs).collect()
}

/// Only the move that has something to do tells.
#[test]
fn a_state_that_stays_at_its_minute_is_found() {
    let found = found_in::<Stopped>();
    let names: Vec<&str> = found.iter().map(|single| single.name).collect();
    let expected = "a move that sixteen held events are done at (on a copy)";
    assert_eq!(names, [expected]);
    assert!(found[0].work::<Stopped>().is_err());
    assert!(found[0].work::<Scheduler>().is_ok());
}

/// Only the winding up that has something to do tells.
#[test]
fn a_wrong_state_is_found() {
    let found = found_in::<Idle>();
    let names: Vec<&str> = found.iter().map(|single| single.name).collect();
    assert_eq!(names, ["a winding up of sixteen held events (on a copy)"]);
    assert!(found[0].work::<Idle>().is_err());
    assert!(found[0].work::<Scheduler>().is_ok());
}

/// Names tell which calls are made on copies, since they change the state.
#[test]
fn library_agrees_on_every_single_call() {
    for single in single::list() {
        assert!(single.work::<State>().is_ok(), "{}", single.name);
        let copied = single.name.ends_with("(on a copy)");
        assert_eq!(single.is_idle::<State>(), !copied, "{}", single.name);
    }
}

/// The hand-in that is previewed settles all sixteen events. A state that counts nothing
/// is found out.
#[test]
fn library_agrees_on_the_preview() {
    let waited_for = "fifteen wait for";
    let mut list = single::list().into_iter();
    let hand_in = list.find(|single| single.name.contains(waited_for));
    let state: Scheduler = hand_in.expect("a call of that name").state();
    assert_eq!(state.preview(15), Ok([16, 0, 0, 0]));
    let right = single::previews::<State>();
    assert!(right.is_ok_and(|work| work.name.contains(waited_for)));
    assert!(single::previews::<Ignores<PREVIEWS>>().is_err());
}

/// The sheet that is written is that of sixteen events done under sixteen orders. A state
/// that does not write it is found out.
#[test]
fn library_agrees_on_the_sheet_written_out() {
    let mut list = single::list().into_iter();
    let hand_in = list.find(|single| single.name == "a hand-in of a settled event");
    let (sheet, _) = hand_in.expect("a call of that name").before;
    let state: State = Kept::open(&sheet);
    let (number, length, out) = single::written(&state);
    assert_eq!((number, &out[..length]), (0, sheet.as_slice()));
    assert_eq!(length, 16 * 3 + 16 * 3 + 1);
    assert!(single::writings::<State>().is_ok());
    assert!(single::writings::<Ignores<WRITINGS>>().is_err());
}

/// Those of random sheets and the long one. A state that ignores closings is found
/// out in each.
#[test]
fn library_agrees_on_lists_made_one_by_one() {
    let lists = workloads::list();
    let kept = workloads::one_by_one(&lists);
    for (list, place) in kept.iter().zip(workloads::KEPT) {
        assert_eq!(list.pairs, lists[place].pairs);
        assert_eq!(list.name, format!("{}, one by one", lists[place].name));
        assert!(list.kept_work::<State>().is_ok(), "{}", list.name);
        let wrong = list.kept_work::<Ignores<CLOSINGS>>();
        assert!(wrong.is_err(), "{}", list.name);
    }
    assert!(kept[2].name.starts_with("large random sheets"));
    assert_eq!(
        kept[3].name,
        "a long list: 32,768 calls of all sorts, one by one"
    );
    assert_eq!(kept[3].calls(), 32_768);
}

/// As long as may be, on full states, and on copies where they change these.
#[test]
fn batches_are_made_on_full_states() {
    for posts in batches::list() {
        for (image, records) in &posts.posts {
            let mut peer = scheduler(image).expect("a state");
            let (events, rules) = (peer.sheet().events(), peer.sheet().rules.len());
            assert_eq!((events, rules, records.len()), (16, 16, 64));
            let settled = peer.history().len() == 16;
            let lent: Vec<Entry> = records.iter().map(batches::entry).collect();
            let outcome = agree(raw::submit_all, image, Some(&mut peer), &lent);
            let outcome = outcome.unwrap_or_else(|difference| panic!("{difference}"));
            let changed = outcome.image != *image;
            assert_eq!((settled, changed), (!posts.on_copies, posts.on_copies));
        }
        let copied = posts.names.map(|name| name.ends_with("(on a copy)"));
        assert_eq!(copied, [posts.on_copies; 2]);
    }
}

/// A batch that stops before its last entry is found out in each.
#[test]
fn a_wrong_batch_is_found() {
    let wrong: Batch = |image, entries| {
        let last = entries.len() - 1;
        raw::submit_all(image, &mut entries[..last])
    };
    for posts in batches::list() {
        assert!(posts.works(raw::submit_all).is_ok());
        assert!(posts.works(wrong).is_err());
    }
}

/// The files are full. A library that loses the last record is found out.
#[test]
fn library_agrees_on_every_journal() {
    let wrong = Functions {
        open: |image, journal| raw::open_journal(image, &journal[..journal.len() - 1]),
        ..LIBRARY
    };
    for list in journals::list(&workloads::list()) {
        assert!(list.work(&LIBRARY).is_ok(), "{}", list.name);
        assert!(list.work(&wrong).is_err(), "{}", list.name);
        let longest = list.journals.iter().map(Vec::len).max();
        let file = list.name.starts_with("65,536 bytes");
        assert_eq!(longest > Some(65_500), file, "{}", list.name);
    }
}

fn spin(count: u32) {
    for number in 0..count {
        black_box(number);
    }
}

/// The library's pass and the peer's are told apart, and a time is for a call.
#[test]
fn dearer_work_takes_longer() {
    let spin = |count: u32| Box::new(move || spin(count));
    let work = |name, calls, passes| Work {
        name,
        calls,
        passes,
    };
    let works = [
        work("one", 1, [spin(2_000), spin(20_000)]),
        work("ten", 10, [spin(20_000), spin(2_000)]),
    ];
    let rows = measure(&works);
    assert_eq!([&rows[0].name, &rows[1].name], ["one", "ten"]);
    assert!(rows[0].peer > 3.0 * rows[0].library);
    assert!(rows[1].library > 3.0 * rows[1].peer);
    assert!(rows[0].peer > 3.0 * rows[1].library);
}

#[test]
fn rows_are_markdown() {
    let row = |times| Row::new("a", 10, times).to_string();
    assert_eq!(row([160.4, 91.0]), "| a | 16.0 ns | 9.10 ns | 1.8 |");
    let rates = Row::new("a", 10, [160.4, 10_000.0]).rates();
    assert_eq!(rates, "| a | 62.3 | 1.00 |");
    assert_eq!(row([9_994.0, 9_996.0]), "| a | 999 ns | 1.00 µs | 1.0 |");
    assert_eq!(
        row([4_512.0, 131_234.0]),
        "| a | 451 ns | 13.1 µs | 0.034 |"
    );
    assert_eq!(
        row([50_000.0, 12_345_678.0]),
        "| a | 5.00 µs | 1235 µs | 0.0041 |"
    );
}
