//! Damage to one part of a log at a time: a byte of the trailer, a value of the
//! block, a record, a stamp. Values at the limit that are still right are among
//! them.

use crate::codec::{Frame, HIGHEST_EXTENDED, HIGHEST_STANDARD, HOST_IDENTIFIER};
use crate::log::{RECORD, TRAILER};
use crate::log_parts::{
    put, put_frame, stamp_of, Parts, FAULT_AT, RECEIVE_AT, SPEED_AT, TRANSMIT_AT, VOLTAGE_AT,
    WARNING_AT, ZEROS_AT,
};
use crate::monitor::{HIGHEST_LEVEL, SPEED_250, SPEED_500};
use crate::random::Random;

/// What becomes of a byte.
#[derive(Clone, Copy, Debug, PartialEq, Eq)]
pub enum Change {
    PlusOne,
    MinusOne,
    Zero,
    Ones,
    Random,
}

pub const CHANGES: [Change; 5] =
    [Change::PlusOne, Change::MinusOne, Change::Zero, Change::Ones, Change::Random];

/// Changes a byte. Where the change would leave it as it is, one bit is changed.
pub fn change(random: &mut Random, byte: &mut u8, change: Change) {
    let before = *byte;
    *byte = match change {
        Change::PlusOne => before.wrapping_add(1),
        Change::MinusOne => before.wrapping_sub(1),
        Change::Zero => 0x00,
        Change::Ones => 0xFF,
        Change::Random => random.byte(),
    };
    if *byte == before {
        *byte ^= 1 << random.below(8);
    }
}

/// A log with one byte of its trailer changed.
pub fn spoilt_trailer(random: &mut Random, parts: &Parts, at: usize, how: Change) -> Vec<u8> {
    let mut bytes = parts.bytes();
    let from = bytes.len() - TRAILER;
    change(random, &mut bytes[from + at], how);
    bytes
}

/// A value for a field of the block, and the rating with it where that matters.
#[derive(Clone, Copy, Debug, PartialEq, Eq)]
pub enum BlockValue {
    Field { at: usize, value: u32 },
    Voltage { rating: u16, voltage: u32 },
    Zeros([u8; 2]),
}

/// Values on both sides of every limit.
pub fn block_values() -> Vec<BlockValue> {
    let mut values = Vec::new();
    let mut fields = |at: &[usize], tried: &[u32]| {
        for at in at {
            values.extend(tried.iter().map(|&value| BlockValue::Field { at: *at, value }));
        }
    };
    let over = HIGHEST_EXTENDED + 1;
    fields(&[RECEIVE_AT, TRANSMIT_AT], &[0, HIGHEST_EXTENDED, over, 0x8A10_0101, 0xFFFF_FFFF]);
    fields(&[SPEED_AT], &[SPEED_250, SPEED_500, 250, 500, SPEED_250 + 1, SPEED_500 - 1]);
    fields(&[SPEED_AT], &[0x01CA_0250, 0x80CA_0500, 0x00CB_0250, 0x00CA_0000]);
    let levels = [0, 1, HIGHEST_LEVEL, HIGHEST_LEVEL + 1, 0xFFFF_FFFF];
    fields(&[WARNING_AT, FAULT_AT], &levels);
    for (rating, voltage) in [
        (1_000, 0),
        (1_000, 999),
        (1_000, 1_000),
        (1_000, 1_001),
        (65_535, 65_534),
        (65_535, 65_535),
        (65_535, 0x0001_0000),
        (65_535, 0x8000_0000),
        (65_535, 0xFFFF_0001),
        (1, 0),
        (1, 1),
        (256, 255),
        (256, 256),
        (0, 0),
    ] {
        values.push(BlockValue::Voltage { rating, voltage });
    }
    let zeros = [[0, 1], [1, 0], [0, 0x80], [0x80, 0], [0xFF, 0xFF]];
    values.extend(zeros.map(BlockValue::Zeros));
    values
}

pub fn with_block_value(parts: Parts, value: BlockValue) -> Parts {
    match value {
        BlockValue::Field { at, value } => parts.with_block_value(at, value),
        BlockValue::Voltage { rating, voltage } => {
            parts.with_rating(rating).with_block_value(VOLTAGE_AT, voltage)
        }
        BlockValue::Zeros(zeros) => {
            let mut parts = parts;
            parts.block[ZEROS_AT..].copy_from_slice(&zeros);
            parts
        }
    }
}

/// What is wrong with a record.
#[derive(Clone, Copy, Debug, PartialEq, Eq)]
pub enum Flaw {
    Kind(u8),
    /// A kind that is none, with zeros after it as in a reset.
    EmptyKind(u8),
    Extended(u8),
    Length(u8),
    Spare(u8),
    Standard(u32),
    ExtendedIdentifier(u32),
    /// A byte of the data, counted from 0, that is not zero past this length.
    PastLength {
        length: u8,
        position: usize,
    },
    /// A byte of a reset's record that is not zero.
    Reset(usize),
}

pub fn flaws() -> Vec<Flaw> {
    let mut flaws = Vec::new();
    flaws.extend([3, 4, 0x80, 0x82, 0xFF].map(Flaw::Kind));
    flaws.extend([3, 0xFF].map(Flaw::EmptyKind));
    flaws.extend([2, 3, 0x81, 0xFF].map(Flaw::Extended));
    flaws.extend([9, 16, 0x88, 0xFF].map(Flaw::Length));
    flaws.extend([1, 0x80, 0xFF].map(Flaw::Spare));
    let standard = HIGHEST_STANDARD + 1;
    flaws.extend([standard, 0x0001_0000, 0x0100_0001, HOST_IDENTIFIER].map(Flaw::Standard));
    let extended = HIGHEST_EXTENDED + 1;
    flaws.extend([extended, 0x8A10_0101, 0xFFFF_FFFF].map(Flaw::ExtendedIdentifier));
    // The first byte past each length, and others.
    flaws.extend((0..8).map(|length| past(length, usize::from(length))));
    flaws.extend([past(0, 7), past(3, 7), past(1, 4), past(5, 6)]);
    flaws.extend((5..RECORD).map(Flaw::Reset));
    flaws
}

fn past(length: u8, position: usize) -> Flaw {
    Flaw::PastLength { length, position }
}

/// Records at the limits that are still right.
pub fn limits() -> Vec<Flaw> {
    let mut limits = vec![Flaw::Standard(0), Flaw::Standard(HIGHEST_STANDARD)];
    limits.extend([0, HIGHEST_EXTENDED].map(Flaw::ExtendedIdentifier));
    limits.push(Flaw::Length(8));
    limits
}

/// Gives a record this flaw, and but for it and the stamp makes it a right one.
pub fn spoil(random: &mut Random, record: &mut [u8; RECORD], flaw: Flaw) {
    let any = random.byte().max(1);
    let not_zero = random.pick(&[1, 0x80, 0xFF, any]);
    let mut frame = any_frame(random);
    match flaw {
        Flaw::Length(_) => frame.length = 8,
        Flaw::PastLength { length, .. } => frame.length = length,
        Flaw::Standard(_) => frame.extended = false,
        Flaw::ExtendedIdentifier(_) => frame.extended = true,
        _ => {}
    }
    record[4] = u8::from(random.one_in(4));
    put_frame(record, &frame);
    match flaw {
        Flaw::Kind(kind) => record[4] = kind,
        Flaw::EmptyKind(kind) => empty(record, kind),
        Flaw::Extended(extended) => record[5] = extended,
        Flaw::Length(length) => record[6] = length,
        Flaw::Spare(spare) => record[7] = spare,
        Flaw::Standard(identifier) | Flaw::ExtendedIdentifier(identifier) => {
            put(record, 8, identifier);
        }
        Flaw::PastLength { position, .. } => record[12 + position] = not_zero,
        Flaw::Reset(at) => {
            empty(record, 2);
            record[at] = not_zero;
        }
    }
}

/// Leaves nothing but the stamp and this kind.
fn empty(record: &mut [u8; RECORD], kind: u8) {
    record[4..].fill(0);
    record[4] = kind;
}

/// Any right frame. Its identifier fits a standard frame too.
fn any_frame(random: &mut Random) -> Frame {
    Frame {
        extended: random.one_in(2),
        length: random.below(9) as u8,
        identifier: random.word() & HIGHEST_STANDARD,
        bytes: random.bytes(),
    }
}

/// How a stamp stands to the one before.
#[derive(Clone, Copy, Debug, PartialEq, Eq)]
pub enum Early {
    Equal,
    /// Earlier by so much, or zero if there is not so much.
    By(u32),
    /// Zero.
    Zero,
}

pub const EARLY: [Early; 7] = [
    Early::Equal,
    Early::By(1),
    Early::By(0x100),
    Early::By(0x0001_0000),
    Early::By(0x0100_0000),
    Early::By(0x8000_0000),
    Early::Zero,
];

/// Gives record `i` such a stamp.
pub fn make_early(parts: &mut Parts, i: usize, early: Early) {
    let before = parts.stamp_before(i);
    let stamp = match early {
        Early::Equal => before,
        Early::By(much) => before.saturating_sub(much),
        Early::Zero => 0,
    };
    parts.set_stamp(i, stamp);
}

/// Moves all stamps so that the last is one of the highest, and so nothing is
/// early for want of room.
pub fn move_to_the_end(random: &mut Random, parts: &mut Parts) {
    let count = parts.records.len();
    let left = u32::MAX - parts.stamp_before(count);
    let by = left.saturating_sub(random.below(1_000) as u32);
    let by = if random.one_in(4) { by } else { by / 2 };
    let power_on = parts.stamp_before(0).saturating_add(by);
    put(&mut parts.block, 0, power_on);
    for i in 0..count {
        let stamp = stamp_of(&parts.records[i]);
        parts.set_stamp(i, stamp.saturating_add(by));
    }
}
