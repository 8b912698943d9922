//! The maker of log cases. The marked cases of document 01 come first, the same
//! bytes for each seed. After them comes the catalogue, each entry once, in an
//! order that follows the seed; after that a random mix of the same kinds.

use crate::listing::list;
use crate::log_cases::{write_case, Case, MOST_ROOM};
use crate::log_catalogue::{catalogue, mixed};
use crate::log_parts::{random_bytes, Parts};
use crate::log_runs::{host_log, marked_logs};
use crate::random::Random;
use std::io::{self, Write};

/// A case that was made.
#[derive(Clone, Debug, PartialEq, Eq)]
pub struct Made {
    pub bytes: Vec<u8>,
    pub room: usize,
}

/// The room for the listing.
#[derive(Clone, Copy, Debug, PartialEq, Eq)]
pub enum Room {
    Exact,
    OneShort,
    OneMore,
    Zero,
    Full,
    /// Any of those that are enough.
    Enough,
    /// Any.
    Any,
}

/// Makes one case after the other.
pub struct Maker {
    pub random: Random,
    pub made: Vec<Made>,
}

impl Maker {
    pub fn new(seed: u64) -> Maker {
        Maker { random: Random::new(seed), made: Vec::new() }
    }

    pub fn add(&mut self, bytes: Vec<u8>, room: Room) {
        // The listing's length; there is none for bytes that are no log.
        let length = list(&bytes).ok().map(|text| text.len());
        let room = self.room(length, room);
        self.made.push(Made { bytes, room });
    }

    fn room(&mut self, length: Option<usize>, room: Room) -> usize {
        let random = &mut self.random;
        let Some(length) = length else {
            let any = random.below(MOST_ROOM + 1);
            return match room {
                Room::Zero => 0,
                Room::Full => MOST_ROOM,
                _ => random.pick(&[MOST_ROOM, MOST_ROOM, MOST_ROOM, any, 0, 57]),
            };
        };
        let more = random.between(length as u64, MOST_ROOM as u64) as usize;
        let one_more = (length + 1).min(MOST_ROOM);
        match room {
            Room::Exact => length,
            Room::OneShort => length - 1,
            Room::OneMore => one_more,
            Room::Zero => 0,
            Room::Full => MOST_ROOM,
            Room::Enough => random.pick(&[length, one_more, more, MOST_ROOM, MOST_ROOM]),
            Room::Any => match random.below(16) {
                0 => length - 1,
                1 => random.below(length),
                2 => random.pick(&[0, 1, length / 2, length - 1]),
                3..=6 => length,
                7 | 8 => one_more,
                9 | 10 => more,
                _ => MOST_ROOM,
            },
        }
    }

    // Logs to begin with.

    /// A small log, most often of a few records and a few notes.
    pub fn small(&mut self) -> Parts {
        let random = &mut self.random;
        let most = match random.below(12) {
            0 => 0,
            1 => 1,
            2..=5 => random.between(2, 8),
            _ => random.between(9, 30),
        };
        let notes = self.few_notes();
        host_log(&mut self.random, most as usize).with_notes(notes)
    }

    /// A log of so many records at least, and not many more.
    pub fn small_of(&mut self, least: usize) -> Parts {
        loop {
            let most = self.random.between(2, 12) as usize + least;
            let notes = self.few_notes();
            let parts = host_log(&mut self.random, most).with_notes(notes);
            if parts.records.len() >= least {
                return parts;
            }
        }
    }

    /// Half of the logs have no notes, the others most often a few.
    fn few_notes(&mut self) -> Vec<u8> {
        let length = match self.random.below(16) {
            0..=7 => 0,
            8..=14 => self.random.between(1, 40),
            _ => self.random.between(41, 300),
        };
        random_bytes(&mut self.random, length as usize)
    }

    /// The place of a record: the first, the last, or any.
    pub fn record_of(&mut self, parts: &Parts) -> usize {
        let count = parts.records.len();
        match self.random.below(4) {
            0 => 0,
            1 => count - 1,
            _ => self.random.below(count),
        }
    }
}

/// The marked cases, each with room for its listing exactly, with one byte
/// less, with none and with all there can be.
fn marked_cases() -> Vec<Made> {
    let mut maker = Maker::new(0);
    for parts in marked_logs() {
        for room in [Room::Exact, Room::OneShort, Room::Zero, Room::Full] {
            maker.add(parts.bytes(), room);
        }
    }
    maker.made
}

/// The catalogue of a seed, in an order of its own.
fn shuffled_catalogue(maker: &mut Maker) -> Vec<Made> {
    catalogue(maker);
    let mut made = std::mem::take(&mut maker.made);
    for end in (1..made.len()).rev() {
        made.swap(end, maker.random.below(end + 1));
    }
    made
}

/// How many cases come before the random mix.
#[cfg(test)]
pub fn fixed_count(seed: u64) -> usize {
    marked_cases().len() + shuffled_catalogue(&mut Maker::new(seed)).len()
}

/// Writes so many cases for a seed.
pub fn write_all(seed: u64, count: u64, out: &mut impl Write) -> io::Result<()> {
    let mut maker = Maker::new(seed);
    let mut fixed = marked_cases();
    fixed.extend(shuffled_catalogue(&mut maker));
    let mut fixed = fixed.into_iter();
    for _ in 0..count {
        let Made { bytes, room } = match fixed.next() {
            Some(made) => made,
            None => mixed(&mut maker),
        };
        write_case(&Case { bytes: &bytes, room }, out)?;
    }
    Ok(())
}
