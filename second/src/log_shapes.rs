//! Logs of every shape that are right, and the long ones, right and wrong.

use crate::codec::HIGHEST_EXTENDED;
use crate::history::Event;
use crate::log::{MAGIC, MOST_NOTES, MOST_RECORDS, RECORD, TRAILER};
use crate::log_damage::{make_early, spoil, Early, Flaw};
use crate::log_inputs::{Maker, Room};
use crate::log_lengths::any_with_magic;
use crate::log_parts::{put, random_bytes, trailer, Parts};
use crate::log_runs::{host_log, host_log_at};
use crate::log_scripts::{scripts, Script};
use crate::monitor::{Settings, Stamp, Unit, CODES, HIGHEST_LEVEL, SPEED_500, UNLOCK};
use crate::monitor_host::{write, LAST_STAMP};
use crate::monitor_inputs::{any_unit, MARKED_UNIT};
use crate::random::Random;

/// "stored lines with the widest numbers": no listing has longer lines.
const WIDEST_UNIT: Unit = Unit {
    serial: [0xFF; 16],
    rating: 65_535,
    settings: Settings {
        receive: HIGHEST_EXTENDED,
        transmit: HIGHEST_EXTENDED,
        speed: SPEED_500,
        voltage: 65_534,
        warning: HIGHEST_LEVEL,
        fault: HIGHEST_LEVEL,
    },
};

/// Logs that are right.
pub fn shapes(maker: &mut Maker) {
    for parts in scripts(&mut maker.random) {
        maker.add(parts.bytes(), Room::Enough);
    }
    few_records(maker);
    notes(maker);
    rooms(maker);
}

/// No record at all, and one of each kind, at stamps from the lowest to the
/// highest.
fn few_records(maker: &mut Maker) {
    for stamp in [0, 1, LAST_STAMP - 1, LAST_STAMP] {
        let unit = any_unit(&mut maker.random);
        maker.add(Parts::new(stamp, &unit, &[]).bytes(), Room::Enough);
        let mut script = Script::new(stamp, unit);
        script.send(0, &UNLOCK);
        maker.add(script.parts().bytes(), Room::Enough);
    }
    maker.add(Parts::new(0, &WIDEST_UNIT, &[]).bytes(), Room::Exact);
    maker.add(Parts::new(0, &WIDEST_UNIT, &[]).bytes(), Room::OneShort);
    let reset = Event::Reset { stamp: Stamp(LAST_STAMP) };
    maker.add(Parts::new(0, &MARKED_UNIT, &[reset]).bytes(), Room::Enough);
    let mut script = Script::new(5, MARKED_UNIT);
    script.send(10_000, &UNLOCK);
    script.let_storage_fail();
    maker.add(script.parts().bytes(), Room::Enough);
}

/// Notes of each length worth trying, up to the longest and one longer, and
/// notes that look like other parts.
fn notes(maker: &mut Maker) {
    let longest = [MOST_NOTES - 1, MOST_NOTES, MOST_NOTES + 1];
    for length in [1, 2, 3, 4, 15, 16, 20, 47, 48, 64, 255, 256].into_iter().chain(longest) {
        let notes = random_bytes(&mut maker.random, length);
        let parts = maker.small().with_notes(notes);
        maker.add(parts.bytes(), Room::Enough);
    }
    for like in 0..LIKENESSES {
        let parts = maker.small();
        let notes = likeness(&mut maker.random, &parts, like);
        maker.add(parts.with_notes(notes).bytes(), Room::Enough);
    }
}

const LIKENESSES: usize = 8;

/// Notes that look like another part of a log.
fn likeness(random: &mut Random, parts: &Parts, like: usize) -> Vec<u8> {
    let whole = parts.clone().with_notes(Vec::new());
    match like {
        0 => parts.block.to_vec(),
        1 => trailer(whole.numbers()).to_vec(),
        2 => MAGIC.to_vec(),
        3 => MAGIC.repeat(8),
        4 => whole.bytes(),
        5 => Parts::new(0, &any_unit(random), &[]).bytes(),
        6 => vec![random.pick(&[0x00, 0xFF]); RECORD * 3],
        _ => whole.records.iter().take(4).flatten().copied().collect(),
    }
}

/// The log with notes that look like another part, or with longer ones.
pub fn notes_like(random: &mut Random, parts: Parts) -> Parts {
    let like = random.below(LIKENESSES + 1);
    let length = random.between(300, 700) as usize;
    let notes = match like {
        LIKENESSES => random_bytes(random, length),
        _ => likeness(random, &parts, like),
    };
    parts.with_notes(notes)
}

/// Right logs with rooms around the length of their listing.
fn rooms(maker: &mut Maker) {
    for room in [Room::Exact, Room::OneShort, Room::OneMore, Room::Zero, Room::Full] {
        for _ in 0..2 {
            let parts = maker.small_of(1);
            maker.add(parts.bytes(), room);
        }
    }
}

/// Logs of 3,000 records and about, and of the greatest length and about.
pub fn long_logs(maker: &mut Maker) {
    let widest = widest().bytes();
    maker.add(widest.clone(), Room::Exact);
    maker.add(widest, Room::OneShort);
    for (stamp, most) in [(0, MOST_RECORDS), (3_000_000_000, 1_500)] {
        let parts = lively(&mut maker.random, stamp, most);
        maker.add(parts.bytes(), Room::Enough);
    }
    for most in [100, 150, 200, 300] {
        let parts = host_log(&mut maker.random, most);
        maker.add(parts.bytes(), Room::Any);
    }
    let parts = quiet(&mut maker.random, MOST_RECORDS, MOST_NOTES);
    maker.add(parts.bytes(), Room::Exact);
    // One byte too long, told as it is: a stray one before the trailer.
    let mut bytes = parts.bytes();
    bytes.insert(bytes.len() - TRAILER, 0);
    let [told, at] = [bytes.len(), bytes.len() - 8];
    put(&mut bytes, at, told as u32);
    maker.add(bytes, Room::Full);
    let parts = quiet(&mut maker.random, MOST_RECORDS + 1, 0);
    maker.add(parts.bytes(), Room::Full);
    let [offset, count, told] = parts.numbers();
    maker.add(parts.bytes_telling([offset, count - 1, told]), Room::Full);
    let bytes = any_with_magic(&mut maker.random, 65_535);
    maker.add(bytes, Room::Full);
    let parts = chatter(&mut maker.random);
    maker.add(parts.bytes(), Room::Exact);
    let notes = random_bytes(&mut maker.random, MOST_NOTES);
    maker.add(parts.with_notes(notes).bytes(), Room::OneShort);
    // Counts around the first that needs two bytes.
    for records in [255, 256, 257] {
        let parts = quiet(&mut maker.random, records, 0);
        maker.add(parts.bytes(), Room::Enough);
    }
    wrong_at_the_end(maker);
}

/// Long logs in which only the last record is wrong, after many replies.
fn wrong_at_the_end(maker: &mut Maker) {
    let last = MOST_RECORDS - 1;
    let mut parts = chatter(&mut maker.random);
    make_early(&mut parts, last, Early::By(1));
    maker.add(parts.bytes(), Room::Full);
    let mut parts = chatter(&mut maker.random);
    spoil(&mut maker.random, &mut parts.records[last], Flaw::PastLength { length: 7, position: 7 });
    maker.add(parts.bytes(), Room::Full);
}

/// The longest listing there is: 3,000 challenges at stamps of ten digits.
fn widest() -> Parts {
    let mut script = Script::new(LAST_STAMP - 9_000, WIDEST_UNIT);
    for i in 0..MOST_RECORDS as u64 {
        script.send(i % 4, &UNLOCK);
    }
    script.parts()
}

/// So many records of scenes and random steps, with replies of every length.
fn lively(random: &mut Random, stamp: u64, records: usize) -> Parts {
    let mut parts = host_log_at(random, stamp, 2 * records);
    parts.records.truncate(records);
    parts
}

/// 3,000 records with a reply each, of lengths 3, 5 and 8, at stamps of ten
/// digits: sessions of a challenge, an answer, reads, writes and a commit.
fn chatter(random: &mut Random) -> Parts {
    let mut script = Script::new(LAST_STAMP - 3_000_000, WIDEST_UNIT);
    for session in 0..MOST_RECORDS as u32 / 10 {
        script.open(random.between(0, 2_000));
        for _ in 0..3 {
            let code = random.pick(&CODES);
            script.send(random.between(0, 2_000), &[code]);
            script.send(0, &write(random.pick(&[0x18, 0x19, 0x20]), random.word() >> 8));
        }
        script.send(1, &write(0x20, HIGHEST_LEVEL - session));
        script.commit(random.between(0, 200), true);
    }
    script.parts()
}

/// So many resets and frames that no one hears, and so many notes.
fn quiet(random: &mut Random, records: usize, notes: usize) -> Parts {
    let mut script = Script::new(1, any_unit(random));
    let unheard = script.receive ^ 1;
    for _ in 0..records {
        match random.below(3) {
            0 => script.reset(random.between(0, 5)),
            1 => script.send_on(1, false, random.word() & 0x7FF, &random.bytes()),
            _ => script.send_on(random.between(0, 3_000), true, unheard, &UNLOCK),
        }
    }
    script.parts().with_notes(random_bytes(random, notes))
}
