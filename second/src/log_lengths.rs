//! Logs whose parts do not fill the file, or do so only for sums that wrap, and
//! bytes that are no log at all.

use crate::codec::Frame;
use crate::history::Event;
use crate::log::{BLOCK, MAGIC, RECORD, TRAILER};
use crate::log_parts::{put, random_bytes, trailer, Numbers, Parts};
use crate::monitor::Stamp;
use crate::random::Random;

/// Where bytes are taken out or put in.
#[derive(Clone, Copy, Debug, PartialEq, Eq)]
pub enum Where {
    Front,
    Middle,
    End,
}

pub const PLACES: [Where; 3] = [Where::Front, Where::Middle, Where::End];

/// What the trailer tells of it.
#[derive(Clone, Copy, Debug, PartialEq, Eq)]
pub enum Telling {
    Nothing,
    Length,
    LengthAndOffset,
    /// As far as it is a matter of whole records.
    LengthAndCount,
}

pub const TELLINGS: [Telling; 4] =
    [Telling::Nothing, Telling::Length, Telling::LengthAndOffset, Telling::LengthAndCount];

/// A change of the length.
#[derive(Clone, Copy, Debug, PartialEq, Eq)]
pub struct Stretch {
    pub place: Where,
    pub cut: bool,
    pub amount: usize,
    pub telling: Telling,
}

/// The log with bytes taken out or put in.
pub fn stretched(random: &mut Random, parts: &Parts, stretch: Stretch) -> Vec<u8> {
    let mut bytes = parts.bytes();
    let amount = if stretch.cut { stretch.amount.min(bytes.len()) } else { stretch.amount };
    let at = place(random, parts, stretch.place, if stretch.cut { amount } else { 0 });
    if stretch.cut {
        bytes.drain(at..at + amount);
    } else {
        let put_in = stuffing(random, &bytes, at, amount);
        bytes.splice(at..at, put_in);
    }
    let length = bytes.len();
    let records = (amount / RECORD) as u32;
    let change = |number: u32, by: u32| match stretch.cut {
        true => number.wrapping_sub(by),
        false => number.wrapping_add(by),
    };
    let [offset, count, _] = parts.numbers();
    let told = match stretch.telling {
        Telling::Nothing => return bytes,
        Telling::Length => [offset, count],
        Telling::LengthAndOffset => [change(offset, amount as u32), count],
        Telling::LengthAndCount => [offset, change(count, records)],
    };
    if let Some(trailer) = length.checked_sub(TRAILER) {
        put(&mut bytes, trailer, told[0]);
        put(&mut bytes, trailer + 4, told[1]);
        put(&mut bytes, trailer + 8, length as u32);
    }
    bytes
}

/// Where so many bytes can be taken out. In the middle it is most often where a
/// part or a record begins or ends.
fn place(random: &mut Random, parts: &Parts, place: Where, taken: usize) -> usize {
    let last = parts.length() - taken;
    let records = parts.notes.len() + BLOCK;
    let record = records + RECORD * random.below(parts.records.len() + 1);
    let end = parts.length() - TRAILER;
    let any = random.below(last + 1);
    let middle = random.pick(&[parts.notes.len(), records, record, record, end, any]);
    match place {
        Where::Front => 0,
        Where::Middle => middle.min(last),
        Where::End => last,
    }
}

/// What is put in: zeros, any bytes, or what stands there already.
fn stuffing(random: &mut Random, bytes: &[u8], at: usize, amount: usize) -> Vec<u8> {
    match random.below(3) {
        0 => vec![0; amount],
        1 => random_bytes(random, amount),
        _ => bytes[at..].iter().chain(bytes).cycle().take(amount).copied().collect(),
    }
}

/// Numbers for the trailer that are nearly right: each differs from the right one
/// by so much, without regard to 32 bits.
pub fn near_numbers() -> Vec<Numbers> {
    let minus = |n: u32| n.wrapping_neg();
    let record = RECORD as u32;
    vec![
        [0, 1, 0],
        [0, minus(1), 0],
        [0, 1, record],
        [0, minus(1), minus(record)],
        [1, 0, 0],
        [minus(1), 0, 0],
        [1, 0, 1],
        [minus(1), 0, minus(1)],
        [0, 0, 1],
        [0, 0, minus(1)],
        [0, 0, minus(TRAILER as u32)],
        // The parts fill the file, but the block is not where it was.
        [record, minus(1), 0],
        [minus(record), 1, 0],
        [2 * record, minus(2), 0],
    ]
}

/// Numbers that fit if sums wrap: at 2^32, at 2^31 and at 2^16, and numbers of
/// which only the low half is right. `c` times 20 is a multiple of 2^32 for
/// each multiple of 2^30, of 2^31 for 2^29, of 2^16 for 2^14.
pub fn wrapping_numbers() -> Vec<Numbers> {
    let minus = |n: u32| n.wrapping_neg();
    vec![
        [0, 1 << 30, 0],
        [0, 1 << 31, 0],
        [0, 3 << 30, 0],
        [0, 1 << 29, 0],
        [0, 1 << 14, 0],
        [0, 1 << 16, 0],
        [1 << 16, 0, 0],
        [1 << 31, 0, 0],
        [0, 0, 1 << 16],
        [0, 0, 1 << 31],
        [1 << 31, 1 << 29, 0],
        [1 << 31, 0, 1 << 31],
        [1 << 16, 1 << 14, 1 << 16],
        // An offset far below zero, with a count that is in its limits or not.
        [minus(60_000), 3_000, 0],
        [minus(20_000), 1_000, 0],
        [minus(20 << 20), 1 << 20, 0],
        // A count far below zero.
        [200, minus(10), 0],
        [4_000, minus(200), 0],
    ]
}

/// The log with a trailer whose numbers differ by so much from the right ones.
pub fn telling_by(parts: &Parts, by: Numbers) -> Vec<u8> {
    let right = parts.numbers();
    let [offset, count, told] = [0, 1, 2].map(|i| right[i].wrapping_add(by[i]));
    parts.bytes_telling([offset, count, told])
}

/// A log with an offset in its limits and the count that makes the parts fill
/// the file modulo 2^32, but not exactly.
pub fn wrapping_count(random: &mut Random, parts: &Parts) -> Vec<u8> {
    // 5 times this is 1 modulo 2^32.
    const FIFTH: u32 = 0xCCCC_CCCD;
    let [offset, count, told] = parts.numbers();
    // Not a multiple of 20: else the count would be a small one.
    let up = 4 * random.pick(&[1, 2, 3, 4, 6, 7]);
    let quarter = (20 * count).wrapping_sub(up) / 4;
    let wraps = quarter.wrapping_mul(FIFTH) & 0x3FFF_FFFF;
    let top = random.below(4) as u32;
    parts.bytes_telling([offset + up, wraps | top << 30, told])
}

/// Any bytes with a trailer that tells where a block is and how many records
/// there are, all filled. With a right block it is the records that are wrong.
pub fn any_with_trailer(random: &mut Random, block: Option<[u8; BLOCK]>) -> Vec<u8> {
    let (notes, count) = (random.below(60), random.below(6));
    let mut bytes = random_bytes(random, notes + BLOCK + RECORD * count);
    if let Some(block) = block {
        bytes[notes..notes + BLOCK].copy_from_slice(&block);
    }
    let length = bytes.len() + TRAILER;
    bytes.extend(trailer([notes, count, length].map(|number| number as u32)));
    bytes
}

/// Any bytes that end as a log does.
pub fn any_with_magic(random: &mut Random, length: usize) -> Vec<u8> {
    let mut bytes = random_bytes(random, length);
    bytes[length - MAGIC.len()..].copy_from_slice(&MAGIC);
    bytes
}

/// A log that lost its trailer, whose last record looks like one and tells
/// numbers that fit: a standard frame of length 8 with storage working, so that
/// its bytes 4 to 7 are an offset of 2,048.
pub fn record_for_trailer(random: &mut Random, parts: &Parts) -> Vec<u8> {
    let count = parts.records.len();
    let mut parts = parts.clone().with_notes(random_bytes(random, 2_044));
    let length = parts.length() + RECORD - TRAILER;
    let mut bytes = [0; 8];
    put(&mut bytes, 0, length as u32);
    bytes[4..].copy_from_slice(&MAGIC);
    let frame = Frame { extended: false, length: 8, identifier: count as u32, bytes };
    let stamp = Stamp(u64::from(parts.stamp_before(count)));
    let last = Event::Frame { stamp, storage_works: true, frame };
    parts.records.push(crate::log_parts::record(&last));
    let mut bytes = parts.bytes();
    bytes.truncate(length);
    bytes
}
