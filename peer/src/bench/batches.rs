//! Batches as long as may be, on states that their owner keeps, beside the same calls
//! made one by one, each of which tests number 12 in the library.

use super::bytes::{all_settled, hand_ins};
use super::kept::{make_all, Kept};
use super::timing::Work;
use crate::images::batches::{agree, one_by_one, Batch};
use crate::images::brought::scheduler;
use crate::images::layout::{first, Image};
use crate::library::raw::{self, Entry};
use crate::library::State;
use crate::peer::batch::{submit_all, submit_one, Entry as Own, MOST};
use crate::peer::Scheduler;
use crate::random::{hostile_sheet, replies, Random};
use std::cell::RefCell;
use std::hint::black_box;

const SEED: u64 = 5;
/// Sheets that have a morning's replies.
const SHEETS: usize = 200;
/// Of the replies, per cent.
const CLOSING: u64 = 15;

/// A state and the entries of a batch, as the kind and the number of each.
pub type Post = (Image, Vec<[u8; 2]>);

pub struct Posts {
    /// Of the calls made one by one, and of the batch.
    pub names: [&'static str; 2],
    pub posts: Vec<Post>,
    /// Whether a pass makes them on copies, since they change the state.
    pub on_copies: bool,
}

pub fn list() -> [Posts; 2] {
    [settled(), morning()]
}

/// Every event of sixteen that are done, again and again.
fn settled() -> Posts {
    let (sheet, calls) = all_settled();
    let mut state = <State as Kept>::open(&sheet);
    make_all(&mut state, &calls, |_| {});
    let records = hand_ins(16).repeat(MOST / 16);
    let entries = records.chunks_exact(2).map(|call| [call[0], call[1]]);
    Posts {
        names: [
            "64 hand-ins of settled events, one by one",
            "64 hand-ins of settled events, in one batch",
        ],
        posts: vec![(*state.as_bytes(), entries.collect())],
        on_copies: false,
    }
}

/// Hand-ins and closings from the first state on, on sheets of 16 events and 16 rules.
fn morning() -> Posts {
    let mut random = Random::new(SEED);
    let mut posts = Vec::new();
    for _ in 0..SHEETS {
        let made = hostile_sheet(&mut random);
        let entries = replies(&mut random, &made, MOST, CLOSING);
        posts.push((first(&made.bytes), entries));
    }
    Posts {
        names: [
            "a morning's 64 replies on a full sheet, one by one (on a copy)",
            "a morning's 64 replies on a full sheet, in one batch (on a copy)",
        ],
        posts,
        on_copies: true,
    }
}

/// A state that batches are made on, the library's or the peer's.
trait Host: Clone + 'static {
    type Entry: 'static;
    fn of(image: &Image) -> Self;
    fn entry(record: &[u8; 2]) -> Self::Entry;
    fn one_by_one(&mut self, entries: &mut [Self::Entry]);
    fn at_once(&mut self, entries: &mut [Self::Entry]);
}

/// The library's entry of a record.
pub fn entry(&[kind, number]: &[u8; 2]) -> Entry {
    Entry {
        kind,
        number,
        ..Entry::default()
    }
}

impl Host for Image {
    type Entry = Entry;

    fn of(image: &Image) -> Image {
        *image
    }

    fn entry(record: &[u8; 2]) -> Entry {
        entry(record)
    }

    fn one_by_one(&mut self, entries: &mut [Entry]) {
        one_by_one(self, entries);
    }

    fn at_once(&mut self, entries: &mut [Entry]) {
        raw::submit_all(self, entries);
    }
}

impl Host for Scheduler {
    type Entry = Own;

    fn of(image: &Image) -> Scheduler {
        scheduler(image).expect("a state that hangs together")
    }

    fn entry(&[kind, number]: &[u8; 2]) -> Own {
        Own::new(kind, number)
    }

    fn one_by_one(&mut self, entries: &mut [Own]) {
        for entry in entries {
            submit_one(self, black_box(entry));
        }
    }

    fn at_once(&mut self, entries: &mut [Own]) {
        submit_all(self, entries).expect("a list that is not too long");
    }
}

impl Posts {
    /// A pass makes every batch, one by one and at once. A library's batch has to come
    /// to what its single calls and the peer's batch do.
    pub fn works(&self, library: Batch) -> Result<[Work<'_>; 2], String> {
        for (image, records) in &self.posts {
            let lent: Vec<Entry> = records.iter().map(entry).collect();
            let agreed = agree(library, image, scheduler(image).as_mut(), &lent);
            agreed.map_err(|what| format!("{}: {what}", self.names[1]))?;
        }
        let [one_by_one, at_once] = self.names;
        Ok([
            self.work(one_by_one, Host::one_by_one, Host::one_by_one),
            self.work(at_once, Host::at_once, Host::at_once),
        ])
    }

    fn work<'a>(
        &self,
        name: &'a str,
        library: fn(&mut Image, &mut [Entry]),
        peer: fn(&mut Scheduler, &mut [Own]),
    ) -> Work<'a> {
        Work {
            name,
            calls: self.posts.iter().map(|(_, records)| records.len()).sum(),
            passes: [self.pass(library), self.pass(peer)],
        }
    }

    fn pass<S: Host>(&self, make: fn(&mut S, &mut [S::Entry])) -> Box<dyn Fn()> {
        let host = |(image, records): &Post| {
            let entries: Vec<S::Entry> = records.iter().map(S::entry).collect();
            (S::of(image), entries)
        };
        let hosts = RefCell::new(self.posts.iter().map(host).collect::<Vec<_>>());
        let on_copies = self.on_copies;
        Box::new(move || {
            for (state, entries) in hosts.borrow_mut().iter_mut() {
                if on_copies {
                    make(black_box(&mut state.clone()), black_box(entries));
                } else {
                    make(black_box(state), black_box(entries));
                }
                black_box(&entries);
            }
        })
    }
}
