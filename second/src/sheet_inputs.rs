//! The maker of sheet cases. Examples come first, the same bytes for each seed.
//! After them comes the catalogue, in an order that follows the seed; after that
//! one batch of the same kinds after the other.

use crate::random::Random;
use crate::sheet_cases::{settings_of, write_case, Case};
use crate::sheet_catalogue::{batch, catalogue};
use crate::sheet_parts::{any_values, sheet_of, Parts, Values, DEFAULTS, LINES};
use crate::sheet_shapes::random_order;
use crate::sheet_writes::{right_with_rooms, Writing};
use std::io::{self, Write};

/// A case that was made.
#[derive(Clone, Debug, PartialEq, Eq)]
pub enum Made {
    Read(Vec<u8>),
    Write(Writing),
}

/// Makes one case after the other.
pub struct Maker {
    pub random: Random,
    pub made: Vec<Made>,
    /// How many sheets have had every place changed.
    pub bases: usize,
}

impl Maker {
    pub fn new(seed: u64) -> Maker {
        Maker { random: Random::new(seed), made: Vec::new(), bases: 0 }
    }

    pub fn read(&mut self, bytes: Vec<u8>) {
        self.made.push(Made::Read(bytes));
    }

    pub fn read_all(&mut self, all: Vec<Vec<u8>>) {
        self.made.extend(all.into_iter().map(Made::Read));
    }

    pub fn write(&mut self, writing: Writing) {
        self.made.push(Made::Write(writing));
    }

    pub fn write_all(&mut self, all: Vec<Writing>) {
        self.made.extend(all.into_iter().map(Made::Write));
    }

    /// Any right sheet.
    pub fn parts(&mut self) -> Parts {
        Parts::of(&any_values(&mut self.random))
    }

    /// Any right sheet with another value in one line.
    pub fn parts_with(&mut self, line: usize, value: &[u8]) -> Parts {
        let mut parts = self.parts();
        parts.lines[line].value = value.to_vec();
        parts
    }

    /// What was made, in an order of its own.
    fn shuffled(&mut self) -> Vec<Made> {
        random_order(&mut self.random, &mut self.made);
        std::mem::take(&mut self.made)
    }
}

/// The settings of the example in docs/SHEET_CASES.md: the defaults with the
/// fault level that P1 stores.
const EXAMPLE: Values = {
    let mut values = DEFAULTS;
    values[LINES - 1] = 250;
    values
};

/// The example read and written, nothing at all, the example cut off after its
/// second line feed and before its last, and with something after.
fn examples() -> Vec<Made> {
    let mut maker = Maker::new(0);
    let bytes = sheet_of(&EXAMPLE);
    maker.read(bytes.clone());
    maker.write_all(right_with_rooms(&EXAMPLE));
    maker.read(Vec::new());
    maker.read(bytes[..24].to_vec());
    maker.read(bytes[..bytes.len() - 1].to_vec());
    maker.read([&bytes[..], b"\n"].concat());
    maker.made
}

/// How many cases come before the batches.
#[cfg(test)]
pub fn fixed_count(seed: u64) -> usize {
    let mut maker = Maker::new(seed);
    catalogue(&mut maker);
    examples().len() + maker.made.len()
}

/// Writes so many cases for a seed.
pub fn write_all(seed: u64, count: u64, out: &mut impl Write) -> io::Result<()> {
    let mut maker = Maker::new(seed);
    let mut ready = examples().into_iter();
    for _ in 0..count {
        let made = match ready.next() {
            Some(made) => made,
            None => {
                if maker.bases == 0 {
                    catalogue(&mut maker);
                } else {
                    batch(&mut maker);
                }
                ready = maker.shuffled().into_iter();
                ready.next().expect("no batch is empty")
            }
        };
        match made {
            Made::Read(bytes) => write_case(&Case::Read { bytes: &bytes }, out)?,
            Made::Write((values, room)) => {
                write_case(&Case::Write { settings: settings_of(values), room }, out)?;
            }
        }
    }
    Ok(())
}
