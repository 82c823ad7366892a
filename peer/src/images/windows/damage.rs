//! Windows that no sheet could give, in bytes that are else a state: number 12 meets them,
//! every function gives it and writes nothing. Windows that a sheet could give, and any
//! minute, pass, whatever has become of their events. Bytes of states with windows are also
//! damaged anywhere.

use crate::compare::{hex, missing};
use crate::images::damaged::{self, damaged, Functions};
use crate::images::layout::*;
use crate::images::sound::is_sound;
use crate::images::waiting::damage::{others, same_calls};
use crate::random::{any_minute, windowed_calls, windowed_sheet, Random};

/// The damaged states of the test.
pub const COUNT: usize = 24_000;
const DELAYABLE: u8 = 4;
/// The states that are damaged anywhere.
const ANYWHERE_PERCENT: u64 = 25;

/// What is put into a place of the windows.
#[derive(Clone, Copy, Debug, PartialEq, Eq)]
pub enum Put {
    /// A window where no event is, and on an event that is not delayable.
    Undeclared,
    NotDelayable,
    /// On a delayable event: until below from, equal to it, and from without until.
    Below,
    Equal,
    NoUntil,
    /// A window as a sheet could give it, with a from and without; none.
    Window,
    NoFrom,
    None,
}

/// What counts call them; those up to `NoUntil` are bad.
pub const PUTS: [(Put, &str); 8] = [
    (Put::Undeclared, "no event there"),
    (Put::NotDelayable, "an event that is not delayable"),
    (Put::Below, "until below from"),
    (Put::Equal, "until equal to from"),
    (Put::NoUntil, "from without until"),
    (Put::Window, "another window"),
    (Put::NoFrom, "until without from"),
    (Put::None, "no window"),
];
const BAD: usize = 5;

/// Damages states of random lists and calls all functions on what comes of it, up to the
/// first wrong answer.
pub fn compare(seed: u64, count: usize, library: &Functions) -> Result<Tally, String> {
    let mut random = Random::new(seed);
    let mut tally = Tally::default();
    let mut treated = damaged::Tally::default();
    while tally.images < count {
        let windowed = windowed_sheet(&mut random);
        let mut image = first(&windowed.made.bytes);
        let calls = windowed_calls(&mut random, &windowed, 0);
        let made = random.below(calls.len() + 1);
        for call in &calls[..made] {
            (library.call)(&mut image, *call);
        }
        let Some((image, places)) = any_damage(&mut random, image, &mut tally) else {
            continue;
        };
        library
            .treat(&mut random, &image, &places, &mut treated)
            .and_then(|()| others(&image, &calls))
            .and_then(|()| same_calls(library, &image, &calls))
            .map_err(|what| format!("{what}, bytes {}", hex(&image)))?;
    }
    Ok(tally)
}

/// The damaged bytes and the places of the damage; none where no event is fit for it.
fn any_damage(
    random: &mut Random,
    mut image: Image,
    tally: &mut Tally,
) -> Option<(Image, Vec<usize>)> {
    if random.percent(ANYWHERE_PERCENT) {
        let (image, places) = damaged(random, &image);
        tally.images += 1;
        tally.anywhere[usize::from(is_sound(&image))] += 1;
        return Some((image, places));
    }
    let put = PUTS[random.below(PUTS.len())].0;
    let place = put_window(random, &mut image, put)?;
    tally.add(put, &image);
    Some((image, vec![place]))
}

/// Puts a window, and now and then another minute; gives the place of the event. None where
/// no event is fit for it.
fn put_window(random: &mut Random, image: &mut Image, put: Put) -> Option<usize> {
    let declared = usize::from(image[EVENTS]);
    let delayable = |event: &usize| image[ATTRIBUTES + event] & DELAYABLE != 0;
    let fits = |event: &usize| match put {
        Put::Undeclared => *event >= declared,
        Put::NotDelayable => *event < declared && !delayable(event),
        _ => *event < declared && delayable(event),
    };
    let fitting: Vec<usize> = (0..16).filter(fits).collect();
    if fitting.is_empty() {
        return None;
    }
    let event = random.pick(&fitting);
    let low = random.pick(&[0, 1, 255, 256, 65_536, u32::MAX - 300]);
    let high = low + random.pick(&[1, 2, 256, 300]);
    let [from, until] = match put {
        Put::Below => [high, low],
        Put::Equal => [high, high],
        Put::NoUntil => [high, 0],
        Put::NoFrom => [0, high],
        Put::None => [0, 0],
        _ => [low, high],
    };
    put_minute(image, FROM + 4 * event, from);
    put_minute(image, UNTIL + 4 * event, until);
    if random.percent(30) {
        put_minute(image, MINUTE, any_minute(random));
    }
    if put == Put::Undeclared && random.percent(50) {
        // Attributes past the counts are no event's, whatever they say.
        image[ATTRIBUTES + event] = 6;
    }
    Some(FROM + 4 * event)
}

/// What was met with.
#[derive(Clone, Debug, Default, PartialEq, Eq)]
pub struct Tally {
    pub images: usize,
    /// Turned down and passed, by what was put.
    pub puts: [[usize; 2]; PUTS.len()],
    /// Passed with a done event outside its window, and with a held one past it.
    pub done_outside: usize,
    pub held_past: usize,
    /// Damaged anywhere: turned down and passed.
    pub anywhere: [usize; 2],
}

impl Tally {
    fn add(&mut self, put: Put, image: &Image) {
        self.images += 1;
        let sound = is_sound(image);
        for ((own, _), met) in PUTS.iter().zip(&mut self.puts) {
            met[usize::from(sound)] += usize::from(*own == put);
        }
        if !sound {
            return;
        }
        let minute = minute_at(image, MINUTE);
        let fate = |event: usize| image[FATE + event];
        let windows = super::windows(image);
        let outside = windows
            .iter()
            .filter(|own| !(own.from..own.until).contains(&minute));
        let past = windows.iter().filter(|own| minute >= own.until);
        self.done_outside += usize::from(outside.into_iter().any(|own| fate(own.event) == 2));
        self.held_past += usize::from(past.into_iter().any(|own| fate(own.event) == 1));
    }

    /// The first thing that was met fewer than `least` times.
    pub fn missing(&self, least: usize) -> Option<String> {
        let mut counts = vec![
            ("passed, done outside".to_string(), self.done_outside),
            ("passed, held past its window".to_string(), self.held_past),
            ("turned down, any damage".to_string(), self.anywhere[0]),
            ("passed, any damage".to_string(), self.anywhere[1]),
        ];
        for (place, ((_, name), [down, passed])) in PUTS.iter().zip(self.puts).enumerate() {
            let met = if place < BAD { down } else { passed };
            counts.push((name.to_string(), met));
        }
        missing(counts, least)
    }

    /// Bad windows that passed, and good ones that did not.
    pub fn wrong(&self) -> usize {
        let [bad, good] = [&self.puts[..BAD], &self.puts[BAD..]];
        let passed: usize = bad.iter().map(|[_, passed]| passed).sum();
        passed + good.iter().map(|[down, _]| down).sum::<usize>()
    }
}
