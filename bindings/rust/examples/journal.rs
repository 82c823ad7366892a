//! An office that keeps a journal: a sheet, and a record behind it for each call. The machine
//! loses power in the middle of a record. The journal then opens to the state before that
//! call, the chapel's reply is taken again, and nothing is carried out twice. A buffer stands
//! for the disk. The office carries out what a call has settled only once the record is
//! stored, and writes down how many lines of the history it has carried out. It fails where
//! anything is not so. It prints what `examples/journal` of the repository does in C.
//!
//!     cargo run --release --offline --example journal

use sinewhopa::{append, AppendFault, CallFault, JournalCall, JournalFault, State};
use std::error::Error;
use std::io::{self, Write};

type Result<T> = std::result::Result<T, Box<dyn Error>>;

const CHAPEL: u8 = 0;
const NOTICE: u8 = 1;
const NAMES: [&str; 2] = ["chapel", "notice"];

/// Both events may wait or be refused. The chapel before the notice, the notice only if the
/// chapel; and the chapel confirms from 14:30 up to, but not including, 15:00.
const SHEET: [u8; 23] = [
    1, 0, 6, 1, 1, 6, 2, 0, 1, 3, 1, 0, 7, 0, 102, 3, 0, 0, 132, 3, 0, 0, 5,
];

/// What outlasts a loss of power.
struct Office {
    /// The disk, of which the first `len` bytes are the journal.
    disk: [u8; 64],
    len: usize,
    /// How many lines of the history were carried out.
    carried_out: usize,
}

/// A time of the day as a minute.
const fn at(hours: u32, minutes: u32) -> u32 {
    hours * 60 + minutes
}

/// A minute as a time of the day.
fn time(minute: u32) -> String {
    format!("{:02}:{:02}", minute / 60, minute % 60)
}

/// A call in words.
fn words(call: JournalCall) -> String {
    match call {
        JournalCall::Submit(event) => format!("{} handed in", NAMES[usize::from(event)]),
        _ => "advance".to_string(),
    }
}

/// An error where it is not so.
fn expect(so: bool) -> Result<()> {
    if so {
        Ok(())
    } else {
        Err("something is not as it has to be".into())
    }
}

/// Both fates of a state.
fn tell_fates(state: &State, out: &mut impl Write) -> Result<()> {
    let fates = state.events().map(|event| event.fate);
    let fates = NAMES.iter().zip(fates);
    let fates: Vec<String> = fates.map(|(name, fate)| format!("{name} {fate}")).collect();
    Ok(writeln!(out, "  {}", fates.join(", "))?)
}

impl Office {
    fn new(out: &mut impl Write) -> Result<Office> {
        let mut disk = [0; 64];
        let len = SHEET.len();
        disk[..len].copy_from_slice(&SHEET);
        writeln!(out, "a new journal: the sheet, {len} bytes")?;
        Ok(Office {
            disk,
            len,
            carried_out: 0,
        })
    }

    fn journal(&self) -> &[u8] {
        &self.disk[..self.len]
    }

    /// Makes a call at a minute: its record is stored behind the last whole one.
    fn store(&mut self, minute: u32, call: JournalCall, out: &mut impl Write) -> Result<()> {
        let written = append(&mut self.disk, self.len, call)?;
        self.len = written.end;
        let (start, bytes) = (written.start, written.len());
        let (time, call, len) = (time(minute), words(call), self.len);
        Ok(writeln!(
            out,
            "{time} {call}: {bytes} bytes at {start}, journal {len}"
        )?)
    }

    /// Makes a call on a state that the office keeps, but of its record only the first byte
    /// gets onto the disk. All else is lost with the power.
    fn lose_power(&mut self, minute: u32, event: u8, out: &mut impl Write) -> Result<()> {
        let call = JournalCall::Submit(event);
        State::open_journal(self.journal())?.state.submit(event)?;
        let record = call.record();
        self.disk[self.len] = record[0];
        self.len += 1;
        let (time, call, bytes) = (time(minute), words(call), record.len());
        Ok(writeln!(
            out,
            "{time} {call}: the power goes after 1 of {bytes} bytes"
        )?)
    }

    /// The machine starts again. It is an error where not so many bytes are left over.
    fn open_again(&mut self, leftover: usize, out: &mut impl Write) -> Result<()> {
        let opened = State::open_journal(self.journal())?;
        let (len, end, over) = (self.len, opened.end, opened.leftover);
        writeln!(
            out,
            "opened again: {len} bytes, whole up to {end}, leftover {over}"
        )?;
        expect(over == leftover && opened.state.minute() == at(14, 30))?;
        self.go_on(out)?;
        if over > 0 {
            self.len = end; // before a record is stored: only the end can be lost then
            writeln!(out, "cut back to {end}")?;
        }
        Ok(())
    }

    /// Carries out what is settled, and was not carried out before.
    fn go_on(&mut self, out: &mut impl Write) -> Result<()> {
        let state = State::open_journal(self.journal())?.state;
        tell_fates(&state, out)?;
        let new = state
            .settled_since(self.carried_out)
            .filter(|(_, fate)| fate.counts_as_done());
        let names: Vec<&str> = new.map(|(event, _)| NAMES[usize::from(event)]).collect();
        self.carried_out = state.line_count();
        let told = match names.is_empty() {
            true => "nothing".to_string(),
            false => names.join(", "),
        };
        Ok(writeln!(out, "  carried out: {told}")?)
    }

    /// An earlier minute is turned down, and no byte is written.
    fn try_backward(&mut self, minute: u32, out: &mut impl Write) -> Result<()> {
        let before = self.disk;
        let fault = append(&mut self.disk, self.len, JournalCall::Advance(minute)).err();
        let number = fault.as_ref().map_or(0, AppendFault::number);
        let (time, len) = (time(minute), self.len);
        writeln!(out, "{time} advance: turned down, {number}, journal {len}")?;
        let backward = Some(AppendFault::Call(CallFault::Backward));
        expect(fault == backward && self.disk == before)
    }

    /// A byte that was changed is no cut. The state before it is given.
    fn damage(&self, place: usize, kind: u8, out: &mut impl Write) -> Result<()> {
        let mut damaged = self.journal().to_vec();
        damaged[place] = kind;
        let Err(fault) = State::open_journal(&damaged) else {
            return expect(false);
        };
        let (number, offset) = (fault.number(), fault.offset());
        writeln!(
            out,
            "kind {kind} at {place}: turned down, {number} at {offset}"
        )?;
        let JournalFault::BadRecord { before, .. } = fault else {
            return expect(false);
        };
        tell_fates(&before, out)
    }

    /// Wherever the journal is cut, the state is the one after the whole records.
    fn cut_everywhere(&self, out: &mut impl Write) -> Result<()> {
        let (mut sheet, mut record, mut behind) = (0, 0, 0);
        for length in 0..=self.len {
            let Ok(opened) = State::open_journal(&self.disk[..length]) else {
                sheet += 1;
                continue;
            };
            let whole = State::open_journal(&self.disk[..opened.end])?;
            expect(whole.state == opened.state && whole.leftover == 0)?;
            match opened.leftover {
                0 => behind += 1,
                _ => record += 1,
            }
        }
        writeln!(
            out,
            "cut at every byte: {sheet} in the sheet, {record} in a record, {behind} behind one"
        )?;
        expect(sheet == SHEET.len())
    }
}

/// The story, told to `out`.
pub fn run(mut out: impl Write) -> Result<()> {
    let out = &mut out;
    let mut office = Office::new(out)?;
    office.store(at(14, 0), JournalCall::Advance(at(14, 0)), out)?;
    office.store(at(14, 0), JournalCall::Submit(NOTICE), out)?;
    tell_fates(&State::open_journal(office.journal())?.state, out)?;
    office.store(at(14, 30), JournalCall::Advance(at(14, 30)), out)?;
    office.lose_power(at(14, 30), CHAPEL, out)?;
    office.open_again(1, out)?;
    office.store(at(14, 30), JournalCall::Submit(CHAPEL), out)?;
    office.go_on(out)?;
    office.open_again(0, out)?;
    office.store(at(14, 30), JournalCall::Submit(CHAPEL), out)?; // the reply comes twice
    office.go_on(out)?;
    office.try_backward(at(14, 29), out)?;
    office.damage(30, 20, out)?;
    office.cut_everywhere(out)
}

fn main() -> Result<()> {
    run(io::stdout().lock())
}
