//! Settings to be written: right ones with rooms on both sides of the text's
//! length, and ones that no sheet can hold.

use crate::random::Random;
use crate::sheet_cases::MOST;
use crate::sheet_parts::{any_values, ends, round_values, sheet_of, Values, LINES, SPEED, VOLTAGE};

/// A case to be written: the values and the room.
pub type Writing = (Values, usize);

/// The longest sheet has so many bytes.
const LONGEST: usize = 84;

/// Values on the wrong side of the limits of a line.
pub fn wrong_values(line: usize) -> &'static [u32] {
    match line {
        0 | 1 => &[0x2000_0000, 0x2000_0001, 0x3FFF_FFFF, 0x8000_0000, 0x8A10_0101, 0xFFFF_FFFF],
        SPEED => &[
            0,
            250,
            500,
            0x250,
            0x500,
            0x00CA_024F,
            0x00CA_0251,
            0x00CA_04FF,
            0x00CA_0501,
            0x00CA_0000,
            0x00CB_0250,
            0x01CA_0250,
            0x80CA_0500,
            0xCA02_5000,
            0x0000_0250,
            0xFFFF_FFFF,
        ],
        VOLTAGE => &[65_535, 65_536, 65_537, 131_070, 0x7FFF_FFFF, 0x8000_0000, 0xFFFF_FFFF],
        _ => &[0, 0x8000_0000, 0x8000_0001, 0xFFFF_FFFE, 0xFFFF_FFFF],
    }
}

/// Right values, each with these rooms: the exact one, one byte less, one more,
/// none, and those around the longest text.
pub fn right_with_rooms(values: &Values) -> Vec<Writing> {
    let exact = sheet_of(values).len();
    let rooms = [exact, exact - 1, exact + 1, 0, LONGEST, LONGEST - 1, LONGEST + 1];
    rooms.map(|room| (*values, room)).to_vec()
}

/// Each end and each round value of each line, with a room that is exact or one
/// byte short.
pub fn round_writings(random: &mut Random) -> Vec<Writing> {
    let mut all = Vec::new();
    for line in 0..LINES {
        for value in round_values(line) {
            let mut values = any_values(random);
            values[line] = value;
            let exact = sheet_of(&values).len();
            all.push((values, exact - usize::from(random.one_in(3))));
        }
    }
    all
}

/// All lines at their lowest or highest, in all ways.
pub fn end_writings() -> Vec<Writing> {
    let way = |way: usize| {
        let mut values = [0; LINES];
        for (line, value) in values.iter_mut().enumerate() {
            *value = ends(line)[way >> line & 1];
        }
        (values, sheet_of(&values).len())
    };
    (0..1 << LINES).map(way).collect()
}

/// Each wrong value alone, with enough room, with a short one and with none: 11
/// goes before 12.
pub fn wrong_writings(random: &mut Random) -> Vec<Writing> {
    let mut all = Vec::new();
    for line in 0..LINES {
        for &value in wrong_values(line) {
            let mut values = any_values(random);
            values[line] = value;
            let (enough, short) = (random.between(84, 90), random.between(1, 61));
            all.extend([enough as usize, short as usize, 0].map(|room| (values, room)));
        }
    }
    all
}

/// A few wrong values at once; now and then all of them are any numbers.
pub fn several_wrong(random: &mut Random) -> Writing {
    let mut values = any_values(random);
    if random.one_in(6) {
        values = values.map(|_| random.word());
    } else {
        for _ in 0..random.between(2, 6) {
            let line = random.below(LINES);
            values[line] = random.pick(wrong_values(line));
        }
    }
    (values, any_room(random, 70))
}

/// Right values with any room.
pub fn any_right(random: &mut Random) -> Writing {
    let values = any_values(random);
    let exact = sheet_of(&values).len();
    (values, any_room(random, exact))
}

fn any_room(random: &mut Random, exact: usize) -> usize {
    match random.below(16) {
        0..=3 => exact,
        4..=6 => exact - 1,
        7 | 8 => exact + 1,
        9 => 0,
        10 => random.between(LONGEST as u64 - 1, LONGEST as u64 + 1) as usize,
        11 => random.below(exact),
        12 => random.between(1, 30) as usize,
        _ => random.between(60, 100) as usize,
    }
}

/// Rooms far larger than any text.
pub fn large_rooms(random: &mut Random) -> Vec<Writing> {
    let rooms = [128, 200, 255, 256, 257, 300, 512, 1_000, MOST];
    rooms.map(|room| (any_values(random), room)).to_vec()
}
