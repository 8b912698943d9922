//! The catalogue of log cases: every kind of damage and every limit, and the
//! random mix of the same kinds.

use crate::log_damage::{
    block_values, change, flaws, limits, make_early, move_to_the_end, spoil, spoilt_trailer,
    with_block_value, BlockValue, Change, Early, Flaw, CHANGES, EARLY,
};
use crate::log_inputs::{Made, Maker, Room};
use crate::log_lengths::{
    any_with_magic, any_with_trailer, near_numbers, record_for_trailer, stretched, telling_by,
    wrapping_count, wrapping_numbers, Stretch, Telling, Where, PLACES, TELLINGS,
};
use crate::log_parts::{put, random_bytes, stamp_of, Parts, POWER_ON_AT, SERIAL_AT, WARNING_AT};
use crate::log_runs::host_log;
use crate::log_shapes::{long_logs, notes_like, shapes};

/// Every entry once.
pub fn catalogue(maker: &mut Maker) {
    shapes(maker);
    long_logs(maker);
    trailers(maker);
    blocks(maker);
    serials_and_power_ons(maker);
    records(maker);
    stamps(maker);
    orders_of_records(maker);
    orders_of_parts(maker);
    lengths(maker);
    numbers(maker);
    no_logs(maker);
}

/// Each byte of the trailer one up, one down, and one of the other changes.
fn trailers(maker: &mut Maker) {
    for at in 0..16 {
        let third = maker.random.pick(&[Change::Zero, Change::Ones, Change::Random]);
        for how in [Change::PlusOne, Change::MinusOne, third] {
            let parts = maker.small();
            let bytes = spoilt_trailer(&mut maker.random, &parts, at, how);
            maker.add(bytes, Room::Any);
        }
    }
}

/// Each value of the block at a limit, with records or without: "The block is
/// judged even with no records."
fn blocks(maker: &mut Maker) {
    for value in block_values() {
        let mut parts = maker.small();
        if maker.random.one_in(4) {
            parts.records.clear();
        }
        maker.add(with_block_value(parts, value).bytes(), Room::Enough);
    }
}

/// Other bytes of the serial, which change what is listed, and power-on stamps
/// that are too late for the first record, or just not.
fn serials_and_power_ons(maker: &mut Maker) {
    for word in 0..4 {
        let mut parts = maker.small_of(1);
        let at = SERIAL_AT + 4 * word + maker.random.below(4);
        let how = maker.random.pick(&CHANGES);
        change(&mut maker.random, &mut parts.block[at], how);
        maker.add(parts.bytes(), Room::Enough);
    }
    for later in [0, 1, 0x100, 0x0001_0000, 0x0100_0000] {
        let mut parts = maker.small_of(1);
        let first = stamp_of(&parts.records[0]);
        put(&mut parts.block, POWER_ON_AT, first.saturating_add(later));
        maker.add(parts.bytes(), Room::Enough);
    }
}

/// Each flaw of a record, and each limit that is none.
fn records(maker: &mut Maker) {
    for flaw in flaws().into_iter().chain(limits()) {
        let mut parts = maker.small_of(2);
        let i = maker.record_of(&parts);
        spoil(&mut maker.random, &mut parts.records[i], flaw);
        maker.add(parts.bytes(), Room::Enough);
    }
}

/// Stamps that are early, in each kind of place and in resets too.
fn stamps(maker: &mut Maker) {
    for early in EARLY {
        for first in [true, false] {
            let mut parts = maker.small_of(3);
            move_to_the_end(&mut maker.random, &mut parts);
            let i = if first { 0 } else { 1 + maker.random.below(parts.records.len() - 1) };
            make_early(&mut parts, i, early);
            maker.add(parts.bytes(), Room::Enough);
        }
    }
    // Around 2^31, the last one after the highest stamp.
    for (before, after) in [
        (0x7FFF_FFFF, 0x8000_0000),
        (0x8000_0000, 0x7FFF_FFFF),
        (0xFFFF_FFFF, 0xFFFF_FFFF),
        (0xFFFF_FFFF, 0),
    ] {
        let mut parts = maker.small_of(2);
        parts.records.truncate(2);
        put(&mut parts.block, POWER_ON_AT, before);
        parts.set_stamp(0, before);
        parts.set_stamp(1, after);
        maker.add(parts.bytes(), Room::Enough);
    }
    let mut parts = maker.small_of(3);
    move_to_the_end(&mut maker.random, &mut parts);
    parts.records[1][4..].fill(0);
    parts.records[1][4] = 2;
    make_early(&mut parts, 1, Early::By(1));
    maker.add(parts.bytes(), Room::Enough);
}

/// "The first bad record in file order decides [...]. In one record 10 goes
/// before 7."
fn orders_of_records(maker: &mut Maker) {
    let in_one_record = [
        Flaw::Kind(3),
        Flaw::Extended(2),
        Flaw::Length(9),
        Flaw::Spare(1),
        Flaw::Standard(0x800),
        Flaw::ExtendedIdentifier(0x2000_0000),
        Flaw::PastLength { length: 2, position: 2 },
        Flaw::Reset(19),
    ];
    for flaw in in_one_record {
        two_flaws(maker, 0, flaw);
    }
    for _ in 0..3 {
        let flaw = any_flaw(maker);
        two_flaws(maker, 1, flaw);
        let flaw = any_flaw(maker);
        two_flaws(maker, -1, flaw);
    }
}

fn any_flaw(maker: &mut Maker) -> Flaw {
    maker.random.pick(&flaws())
}

/// A record that is early, and a flaw so many records after it.
fn two_flaws(maker: &mut Maker, after: isize, flaw: Flaw) {
    let mut parts = maker.small_of(4);
    move_to_the_end(&mut maker.random, &mut parts);
    let early = 1 + maker.random.below(2);
    let wrong = early.checked_add_signed(after).expect("early is at least 1");
    spoil(&mut maker.random, &mut parts.records[wrong], flaw);
    make_early(&mut parts, early, Early::By(1));
    maker.add(parts.bytes(), Room::Enough);
}

/// Flaws of several parts: "Checks: 9, then 8, then records in order". A room
/// that is too short for any listing changes nothing of that.
fn orders_of_parts(maker: &mut Maker) {
    let bad_level = BlockValue::Field { at: WARNING_AT, value: 0 };
    let bad_block = [bad_level, BlockValue::Zeros([0, 1])];
    for block in bad_block {
        for early in [false, true] {
            let parts = bad_records(maker, early);
            maker.add(with_block_value(parts, block).bytes(), Room::Enough);
        }
    }
    for (i, block) in [bad_block, bad_block].concat().into_iter().enumerate() {
        let parts = if i < 2 { maker.small() } else { bad_records(maker, i == 2) };
        let parts = with_block_value(parts, block);
        let at = [3, 7, 11, 15][i];
        let bytes = spoilt_trailer(&mut maker.random, &parts, at, Change::PlusOne);
        maker.add(bytes, Room::Any);
    }
    for early in [false, true] {
        let parts = bad_records(maker, early);
        let at = maker.random.below(16);
        let bytes = spoilt_trailer(&mut maker.random, &parts, at, Change::MinusOne);
        maker.add(bytes, Room::Any);
        let parts = bad_records(maker, early);
        maker.add(parts.bytes(), Room::Zero);
    }
    let parts = maker.small();
    maker.add(with_block_value(parts, bad_level).bytes(), Room::Zero);
    let parts = maker.small();
    let bytes = spoilt_trailer(&mut maker.random, &parts, 15, Change::MinusOne);
    maker.add(bytes, Room::Zero);
}

/// A log with a record that is early, or wrong.
fn bad_records(maker: &mut Maker, early: bool) -> Parts {
    let mut parts = maker.small_of(2);
    move_to_the_end(&mut maker.random, &mut parts);
    let i = maker.record_of(&parts);
    if early {
        make_early(&mut parts, i, Early::By(1));
    } else {
        let flaw = any_flaw(maker);
        spoil(&mut maker.random, &mut parts.records[i], flaw);
    }
    parts
}

/// Bytes taken out and put in, in every small number.
fn lengths(maker: &mut Maker) {
    let larger = [32, 40, 48, 60, 63, 64, 65, 72, 79, 80];
    for (i, amount) in (1..=24).chain(larger).enumerate() {
        let place = PLACES[i % 3];
        let cut = maker.random.one_in(2);
        let telling = maker.random.pick(&TELLINGS);
        let parts = maker.small_of(3);
        let stretch = Stretch { place, cut, amount, telling };
        let bytes = stretched(&mut maker.random, &parts, stretch);
        maker.add(bytes, Room::Any);
    }
    // Notes that the trailer knows of, and ones that are gone for it; a record
    // that is gone, and one that is there twice.
    for (place, telling) in
        [(Where::Front, Telling::LengthAndOffset), (Where::Middle, Telling::LengthAndCount)]
    {
        for cut in [false, true] {
            let notes = random_bytes(&mut maker.random, 20);
            let parts = maker.small_of(3).with_notes(notes);
            let stretch = Stretch { place, cut, amount: 20, telling };
            let bytes = stretched(&mut maker.random, &parts, stretch);
            maker.add(bytes, Room::Enough);
        }
    }
}

/// Trailers with numbers that are nearly right, or right if sums wrap.
fn numbers(maker: &mut Maker) {
    for by in near_numbers() {
        let notes = random_bytes(&mut maker.random, 45);
        let parts = maker.small_of(3).with_notes(notes);
        maker.add(telling_by(&parts, by), Room::Any);
    }
    for by in wrapping_numbers() {
        let mut parts = maker.small_of(2).with_notes(Vec::new());
        let fewest = if by[1] == 3_000 { 0 } else { 2 };
        parts.records.truncate(fewest);
        maker.add(telling_by(&parts, by), Room::Any);
    }
    // An offset of -1, if it were one.
    let mut parts = maker.small_of(1);
    parts.notes = random_bytes(&mut maker.random, 19);
    maker.add(telling_by(&parts, [20_u32.wrapping_neg(), 1, 0]), Room::Full);
    for _ in 0..3 {
        let parts = maker.small();
        let bytes = wrapping_count(&mut maker.random, &parts);
        maker.add(bytes, Room::Any);
    }
    let parts = maker.small_of(3);
    let bytes = record_for_trailer(&mut maker.random, &parts);
    maker.add(bytes, Room::Full);
}

/// Bytes that are no log.
fn no_logs(maker: &mut Maker) {
    for length in [0, 1, 16, 17, 48, 63, 64, 65, 84, 1_000] {
        let bytes = random_bytes(&mut maker.random, length);
        maker.add(bytes, Room::Any);
    }
    for length in [63, 64, 84] {
        maker.add(vec![0x00; length], Room::Any);
        maker.add(vec![0xFF; length], Room::Any);
    }
    for length in [4, 16, 63, 64, 84] {
        let bytes = any_with_magic(&mut maker.random, length);
        maker.add(bytes, Room::Any);
    }
    for with_block in [false, false, true, true, true] {
        let block = with_block.then_some(maker.small().block);
        let bytes = any_with_trailer(&mut maker.random, block);
        maker.add(bytes, Room::Any);
    }
}

// The mix.

/// One case of the random mix: near half of them are right, the others have
/// damage of one kind, sometimes of two.
pub fn mixed(maker: &mut Maker) -> Made {
    let (bytes, room) = match maker.random.below(100) {
        0..=44 => (right(maker).bytes(), Room::Any),
        45..=79 => {
            let parts = damaged(maker);
            (parts.bytes(), Room::Any)
        }
        80..=96 => (damaged_file(maker), Room::Any),
        97 => {
            let length = maker.random.below(400);
            (random_bytes(&mut maker.random, length), Room::Any)
        }
        _ => {
            let block = maker.small().block;
            (any_with_trailer(&mut maker.random, Some(block)), Room::Any)
        }
    };
    maker.add(bytes, room);
    maker.made.pop().expect("a case was added")
}

/// A log that is right, now and then a longer one.
fn right(maker: &mut Maker) -> Parts {
    match maker.random.below(60) {
        0 | 59 => {
            let most = maker.random.between(100, 300) as usize;
            host_log(&mut maker.random, most)
        }
        1..=8 => {
            let parts = maker.small();
            notes_like(&mut maker.random, parts)
        }
        _ => maker.small(),
    }
}

/// A log with damage to the block or to its records.
fn damaged(maker: &mut Maker) -> Parts {
    let mut parts = maker.small_of(1);
    if maker.random.one_in(2) {
        move_to_the_end(&mut maker.random, &mut parts);
    }
    let times = if maker.random.one_in(6) { 2 } else { 1 };
    for _ in 0..times {
        let i = maker.record_of(&parts);
        match maker.random.below(8) {
            0 => {
                let value = maker.random.pick(&block_values());
                parts = with_block_value(parts, value);
            }
            1 => {
                let (at, how) = (maker.random.below(48), maker.random.pick(&CHANGES));
                change(&mut maker.random, &mut parts.block[at], how);
            }
            2 | 3 => {
                let flaw = any_flaw(maker);
                spoil(&mut maker.random, &mut parts.records[i], flaw);
            }
            4 | 5 => {
                let (at, how) = (maker.random.below(20), maker.random.pick(&CHANGES));
                change(&mut maker.random, &mut parts.records[i][at], how);
            }
            _ => {
                let early = maker.random.pick(&EARLY);
                make_early(&mut parts, i, early);
            }
        }
    }
    parts
}

/// A log with damage to its trailer or its length.
fn damaged_file(maker: &mut Maker) -> Vec<u8> {
    let parts = if maker.random.one_in(4) { damaged(maker) } else { maker.small() };
    match maker.random.below(10) {
        0..=3 => {
            let (at, how) = (maker.random.below(16), maker.random.pick(&CHANGES));
            spoilt_trailer(&mut maker.random, &parts, at, how)
        }
        4..=7 => {
            let stretch = Stretch {
                place: maker.random.pick(&PLACES),
                cut: maker.random.one_in(2),
                amount: maker.random.between(1, 80) as usize,
                telling: maker.random.pick(&TELLINGS),
            };
            stretched(&mut maker.random, &parts, stretch)
        }
        8 => {
            let by = maker.random.pick(&[near_numbers(), wrapping_numbers()].concat());
            telling_by(&parts, by)
        }
        _ => wrapping_count(&mut maker.random, &parts),
    }
}
