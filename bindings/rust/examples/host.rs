//! A host that keeps many plans by name. Replies come in one at a time; after each
//! it says what was settled and what is held, and stores the plan's state. Half
//! way it is restarted: it forgets everything and loads what it stored.
//!
//!     cargo run --release --offline --example host [PLANS]

use sinewhopa::{Fate, State};
use std::collections::BTreeMap;
use std::error::Error;
use std::fs;
use std::io::{self, Write};
use std::path::{Path, PathBuf};

type Result<T> = std::result::Result<T, Box<dyn Error>>;

const PLANS: usize = 300;

/// What plans are made from: a name, and a sheet.
const SHEETS: [(&str, &[u8]); 3] = [
    // 1 after 0, and only if 0 is done; 2 can neither wait nor be refused, and needs
    // 0, which may be brought about.
    (
        "chapel",
        &[
            1, 0, 7, 1, 1, 6, 1, 2, 0, // events
            2, 0, 1, 3, 1, 0, 3, 2, 0, // rules
            5,
        ],
    ),
    // Two orders against each other on 0 and 1; 2 only if 3; if 1 and 3, then 4.
    (
        "notice",
        &[
            1, 0, 6, 1, 1, 6, 1, 2, 6, 1, 3, 2, 1, 3, 6, // events
            2, 0, 1, 2, 1, 0, 3, 2, 3, 4, 1, 3, 4, // rules
            5,
        ],
    ),
    // Two steps of start, prepare, commit and abort (0 to 3 and 4 to 7): each commits
    // only if the other does, and after it has prepared.
    (
        "transport",
        &[
            6, 0, 6, 1, // events
            3, 2, 6, 3, 6, 2, 2, 1, 2, 2, 5, 6, // rules
            5,
        ],
    ),
];

/// What is reported to the host.
#[derive(Clone, Copy)]
enum Reply {
    Event(u8),
    /// Nothing more will come of the step.
    StepOver(u8),
}

/// A plan that the host keeps, with how much of its history was told.
struct Plan {
    state: State,
    told: usize,
}

/// The plans, and the folder where the state of each is stored.
struct Host<'a, W> {
    plans: BTreeMap<String, Plan>,
    folder: &'a Path,
    out: W,
    turned_down: usize,
}

impl<'a, W: Write> Host<'a, W> {
    /// Starts with the plans that are in the folder.
    fn start(folder: &'a Path, out: W) -> Result<Host<'a, W>> {
        let mut plans = BTreeMap::new();
        for entry in fs::read_dir(folder)? {
            let path = entry?.path();
            if path.extension() != Some("state".as_ref()) {
                continue; // half written when the host was stopped
            }
            let name = path.file_stem().unwrap_or_default().to_string_lossy();
            let stored = fs::read(&path)?;
            // Bytes from outside: another length and any damage are errors here.
            let state = State::from_bytes(stored.as_slice().try_into()?)?;
            let told = state.line_count();
            plans.insert(name.into_owned(), Plan { state, told });
        }
        Ok(Host {
            plans,
            folder,
            out,
            turned_down: 0,
        })
    }

    fn add(&mut self, name: String, sheet: &[u8]) -> Result<()> {
        let state = State::open(sheet)?;
        self.store(&name, &state)?;
        self.plans.insert(name, Plan { state, told: 0 });
        Ok(())
    }

    /// Stores the state so that either the old bytes or the new ones are there.
    fn store(&self, name: &str, state: &State) -> Result<()> {
        let new = self.folder.join(format!("{name}.new"));
        fs::write(&new, state.as_bytes())?;
        fs::rename(new, self.folder.join(format!("{name}.state")))?;
        Ok(())
    }

    fn take(&mut self, name: &str, reply: Reply) -> Result<()> {
        let state = &mut self.plans.get_mut(name).ok_or("no such plan")?.state;
        let (call, answer) = match reply {
            Reply::Event(event) => {
                let fate = state.submit(event).map(|fate| fate.to_string());
                (format!("event {event}"), fate)
            }
            Reply::StepOver(step) => {
                let closed = state.close_step(step).map(|()| "closed".to_string());
                (format!("step {step}"), closed)
            }
        };
        self.turned_down += usize::from(answer.is_err());
        let answer = answer.unwrap_or_else(|fault| format!("turned down, {fault}"));
        write!(self.out, "{name}, {call}: {answer}")?;
        self.tell(name)
    }

    /// Says what has been settled since it was last told, and what is held; then the
    /// state is stored.
    fn tell(&mut self, name: &str) -> Result<()> {
        let plan = self.plans.get_mut(name).ok_or("no such plan")?;
        let new: Vec<String> = plan.state.settled_since(plan.told).map(line).collect();
        let held: Vec<String> = plan.state.held().map(|event| event.to_string()).collect();
        plan.told = plan.state.line_count();
        let (new, held) = (or_nothing(new), or_nothing(held));
        writeln!(self.out, "; settled {new}; held {held}")?;
        self.store(name, &self.plans[name].state)
    }

    /// Closes what is left to close of every plan and winds it up.
    fn wind_up(&mut self) -> Result<()> {
        let names: Vec<String> = self.plans.keys().cloned().collect();
        for name in &names {
            self.close_rest(name)?;
            let plan = self.plans.get_mut(name).ok_or("no such plan")?;
            plan.state.finish()?;
            write!(self.out, "{name}, wound up")?;
            self.tell(name)?;
        }
        Ok(())
    }

    /// Closes the steps of a plan that are not closed yet.
    fn close_rest(&mut self, name: &str) -> Result<()> {
        let steps = self.plans.get(name).ok_or("no such plan")?.state.steps();
        for step in steps.filter(|step| !step.closed) {
            let plan = self.plans.get_mut(name).ok_or("no such plan")?;
            plan.state.close_step(step.number)?;
            write!(self.out, "{name}, step {}: closed", step.number)?;
            self.tell(name)?;
        }
        Ok(())
    }

    /// How many events of all plans have a fate.
    fn count(&self, fate: Fate) -> usize {
        let events = self.plans.values().flat_map(|plan| plan.state.events());
        events.filter(|event| event.fate == fate).count()
    }

    fn broken(&self) -> usize {
        let rules = self.plans.values().flat_map(|plan| plan.state.rules());
        rules.filter(|rule| rule.broken).count()
    }

    fn summary(&mut self) -> Result<()> {
        writeln!(self.out, "plans {}", self.plans.len())?;
        for fate in [
            Fate::Open,
            Fate::Held,
            Fate::Done,
            Fate::Refused,
            Fate::Lapsed,
            Fate::Forced,
        ] {
            let count = self.count(fate);
            writeln!(self.out, "{fate} {count}")?;
        }
        let (broken, turned_down) = (self.broken(), self.turned_down);
        writeln!(
            self.out,
            "broken rules {broken}\ncalls turned down {turned_down}"
        )?;
        Ok(())
    }
}

fn line((event, fate): (u8, Fate)) -> String {
    format!("{event} {fate}")
}

fn or_nothing(list: Vec<String>) -> String {
    if list.is_empty() {
        return "nothing".to_string();
    }
    list.join(", ")
}

/// Plan number `number` is made from the next sheet in turn.
fn plan(number: usize) -> (String, &'static [u8]) {
    let (name, sheet) = SHEETS[number % SHEETS.len()];
    (format!("{name}-{number}"), sheet)
}

/// The replies for so many plans in a sequence that looks like any: each event of a
/// plan but one, now and then one that is not its own, and the end of two steps.
fn replies(plans: usize) -> Vec<(String, Reply)> {
    let mut all = Vec::new();
    for number in 0..plans {
        let (name, sheet) = plan(number);
        let events = State::open(sheet).map_or(0, |state| state.event_count());
        let left_out = number / SHEETS.len() % (usize::from(events) + 1);
        for event in 0..events {
            if usize::from(event) != left_out {
                all.push((name.clone(), Reply::Event(event)));
            }
        }
        if number % 10 == 4 {
            all.push((name.clone(), Reply::Event(200)));
        }
        all.push((name.clone(), Reply::StepOver((number % 4) as u8)));
        all.push((name, Reply::StepOver((number / 2 % 4) as u8)));
    }
    mix(&mut all);
    all
}

/// The same sequence in every run: places exchanged by a linear congruence.
fn mix<T>(list: &mut [T]) {
    let mut number: u64 = 17;
    for last in (1..list.len()).rev() {
        number = number
            .wrapping_mul(6_364_136_223_846_793_005)
            .wrapping_add(1);
        list.swap(last, (number >> 33) as usize % (last + 1));
    }
}

/// The whole story, told to `out`; states are stored in the folder.
pub fn run(plans: usize, folder: &Path, mut out: impl Write) -> Result<()> {
    let replies = replies(plans);
    let (first, second) = replies.split_at(replies.len() / 2);
    let mut host = Host::start(folder, &mut out)?;
    for number in 0..plans {
        let (name, sheet) = plan(number);
        host.add(name, sheet)?;
    }
    for (name, reply) in first {
        host.take(name, *reply)?;
    }
    host.summary()?;
    // All that was kept in memory is gone with the first host.
    let mut host = Host::start(folder, &mut out)?;
    writeln!(host.out, "restarted with {} plans", host.plans.len())?;
    for (name, reply) in second {
        host.take(name, *reply)?;
    }
    host.wind_up()?;
    host.summary()
}

/// An empty folder that is removed at the end.
pub struct Folder(pub PathBuf);

impl Folder {
    pub fn new(name: &str) -> io::Result<Folder> {
        let path = std::env::temp_dir().join(format!("{name}-{}", std::process::id()));
        fs::create_dir(&path)?;
        Ok(Folder(path))
    }
}

impl Drop for Folder {
    fn drop(&mut self) {
        // What is left behind in a folder for such things does no harm.
        let _ = fs::remove_dir_all(&self.0);
    }
}

fn main() -> Result<()> {
    let plans = match std::env::args().nth(1) {
        Some(text) => text.parse()?,
        None => PLANS,
    };
    let folder = Folder::new("sinewhopa-host")?;
    let mut out = io::BufWriter::new(io::stdout().lock());
    run(plans, &folder.0, &mut out)?;
    out.flush()?;
    Ok(())
}
