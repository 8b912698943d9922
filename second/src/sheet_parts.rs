//! Sheets in the making: their lines in four pieces each, which can be spoilt one
//! by one before they are put together; and right values to begin with.

use crate::codec::{DEVICE_IDENTIFIER, HIGHEST_EXTENDED, HOST_IDENTIFIER};
use crate::monitor::{HIGHEST_LEVEL, SPEED_250, SPEED_500};
use crate::random::Random;
use crate::sheet::HIGHEST_VOLTAGE;

/// The six settings in the order of the lines.
pub type Values = [u32; 6];

pub const NAMES: [&str; 6] = ["rx", "tx", "speed", "voltage", "warning", "fault"];
pub const LINES: usize = 6;
pub const SPEED: usize = 2;
pub const VOLTAGE: usize = 3;

/// The defaults of document 01.
pub const DEFAULTS: Values = [HOST_IDENTIFIER, DEVICE_IDENTIFIER, SPEED_500, 0, 500, 100];

/// A line of a sheet: the name, one space, the value, a line feed.
#[derive(Clone, Debug, PartialEq, Eq)]
pub struct Line {
    pub name: Vec<u8>,
    pub gap: Vec<u8>,
    pub value: Vec<u8>,
    pub end: Vec<u8>,
}

impl Line {
    pub fn new(name: &str, value: &str) -> Line {
        Line {
            name: name.as_bytes().to_vec(),
            gap: b" ".to_vec(),
            value: value.as_bytes().to_vec(),
            end: b"\n".to_vec(),
        }
    }

    pub fn bytes(&self) -> Vec<u8> {
        [&self.name[..], &self.gap, &self.value, &self.end].concat()
    }
}

/// The lines of a sheet.
#[derive(Clone, Debug, PartialEq, Eq)]
pub struct Parts {
    pub lines: Vec<Line>,
}

impl Parts {
    /// The lines for right values.
    pub fn of(values: &Values) -> Parts {
        let line = |i: usize| Line::new(NAMES[i], &value_text(i, values[i]));
        Parts { lines: (0..LINES).map(line).collect() }
    }

    pub fn bytes(&self) -> Vec<u8> {
        self.lines.iter().flat_map(Line::bytes).collect()
    }
}

/// The bytes of the sheet for right values.
pub fn sheet_of(values: &Values) -> Vec<u8> {
    Parts::of(values).bytes()
}

fn value_text(line: usize, value: u32) -> String {
    match line {
        0 | 1 => format!("{value:08X}"),
        SPEED if value == SPEED_250 => "250".to_string(),
        SPEED => "500".to_string(),
        _ => value.to_string(),
    }
}

/// The lowest and the highest right value of a line; of the speed's they are all.
pub fn ends(line: usize) -> [u32; 2] {
    match line {
        0 | 1 => [0, HIGHEST_EXTENDED],
        SPEED => [SPEED_250, SPEED_500],
        VOLTAGE => [0, HIGHEST_VOLTAGE],
        _ => [1, HIGHEST_LEVEL],
    }
}

/// The powers of ten, or of sixteen for an identifier, and their neighbours, as
/// far as they are right; and the ends with the neighbours within.
pub fn round_values(line: usize) -> Vec<u32> {
    let [low, high] = ends(line);
    if line == SPEED {
        return vec![low, high];
    }
    let base: u64 = if line < SPEED { 16 } else { 10 };
    let mut values = vec![low, low + 1, high - 1, high];
    let mut power = 1;
    while power <= u64::from(high) + 1 {
        let near = [power - 1, power, power + 1].map(|value| value as u32);
        values.extend(near.into_iter().filter(|value| (low..=high).contains(value)));
        power *= base;
    }
    values
}

/// A right value of a line: an end, a power of ten or near it, or any. Short
/// decimals are more frequent than long ones.
pub fn any_value(random: &mut Random, line: usize) -> u32 {
    let [low, high] = ends(line);
    if line == SPEED {
        return random.pick(&[low, high]);
    }
    match random.below(8) {
        0 => random.pick(&[low, high]),
        1 => random.pick(&round_values(line)),
        _ if line < SPEED => any_identifier(random),
        _ => {
            let most = high.ilog10() as usize + 1;
            let digits = 1 + random.below(most);
            let digits = 1 + random.below(digits);
            let top = 10_u64.pow(digits as u32) - 1;
            random.between(u64::from(low), top.min(u64::from(high))) as u32
        }
    }
}

/// Most identifiers have some letters.
fn any_identifier(random: &mut Random) -> u32 {
    match random.below(6) {
        0 => DEFAULTS[random.below(2)],
        1 => 1 << random.below(29),
        2 => (random.word() | 0xABCD_EFAB) & HIGHEST_EXTENDED,
        _ => random.word() & HIGHEST_EXTENDED,
    }
}

/// Right values for all lines.
pub fn any_values(random: &mut Random) -> Values {
    let mut values = DEFAULTS;
    for (line, value) in values.iter_mut().enumerate() {
        *value = any_value(random, line);
    }
    values
}
