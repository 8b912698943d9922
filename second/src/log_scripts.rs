//! Logs of right form whose events are written step by step, so that each lists
//! what one rule of the monitor makes of them.

use crate::codec::{Frame, HIGHEST_EXTENDED};
use crate::history::Event;
use crate::log_parts::Parts;
use crate::log_runs::power_on_stamp;
use crate::monitor::{
    right_answer, Stamp, Unit, CODES, COMMIT, HIGHEST_LEVEL, SPEED_250, SPEED_500, UNLOCK,
};
use crate::monitor_host::{write, LAST_STAMP};
use crate::monitor_inputs::any_unit;
use crate::random::Random;

/// A log that is written step by step. Each step tells how many milliseconds it
/// comes after the one before.
pub struct Script {
    power_on: u64,
    unit: Unit,
    now: u64,
    /// The identifier on which the host sends.
    pub receive: u32,
    events: Vec<Event>,
}

impl Script {
    pub fn new(power_on: u64, unit: Unit) -> Script {
        let receive = unit.settings.receive;
        Script { power_on, unit, now: power_on, receive, events: Vec::new() }
    }

    pub fn frame(&mut self, after: u64, storage_works: bool, frame: Frame) {
        self.now = (self.now + after).min(LAST_STAMP);
        self.events.push(Event::Frame { stamp: Stamp(self.now), storage_works, frame });
    }

    /// A frame on any identifier.
    pub fn send_on(&mut self, after: u64, extended: bool, identifier: u32, content: &[u8]) {
        let mut bytes = [0; 8];
        bytes[..content.len()].copy_from_slice(content);
        let length = content.len() as u8;
        self.frame(after, true, Frame { extended, length, identifier, bytes });
    }

    pub fn send(&mut self, after: u64, content: &[u8]) {
        self.send_on(after, true, self.receive, content);
    }

    pub fn reset(&mut self, after: u64) {
        self.now = (self.now + after).min(LAST_STAMP);
        self.events.push(Event::Reset { stamp: Stamp(self.now) });
    }

    /// The right answer to the unit's challenge.
    pub fn right_answer(&self) -> [u8; 8] {
        let mut challenge = [0; 7];
        challenge.copy_from_slice(&self.unit.serial[..7]);
        let [a, b, c, d, e, f, g] = right_answer(challenge);
        [0x14, a, b, c, d, e, f, g]
    }

    pub fn answer(&mut self, after: u64) {
        let answer = self.right_answer();
        self.send(after, &answer);
    }

    /// An unlock and the right answer.
    pub fn open(&mut self, after: u64) {
        self.send(after, &UNLOCK);
        self.answer(after);
    }

    pub fn commit(&mut self, after: u64, storage_works: bool) {
        self.send(after, &COMMIT);
        if let Some(Event::Frame { storage_works: noted, .. }) = self.events.last_mut() {
            *noted = storage_works;
        }
    }

    /// The reads of all six codes.
    pub fn read_all(&mut self, after: u64) {
        CODES.iter().for_each(|code| self.send(after, &[*code]));
    }

    /// Lets storage fail at every frame.
    pub fn let_storage_fail(&mut self) {
        for event in &mut self.events {
            if let Event::Frame { storage_works, .. } = event {
                *storage_works = false;
            }
        }
    }

    pub fn parts(&self) -> Parts {
        Parts::new(self.power_on, &self.unit, &self.events)
    }
}

/// A script for any unit, with a rating that leaves voltages to be written.
fn script(random: &mut Random) -> Script {
    let mut unit = any_unit(random);
    unit.rating = unit.rating.max(2);
    let stamp = random.between(0, LAST_STAMP - 100_000);
    Script::new(random.pick(&[0, stamp, LAST_STAMP - 100_000]), unit)
}

/// The legal values worth storing.
fn legal(code: u8, rating: u16) -> Vec<u32> {
    match code {
        0x15 | 0x16 => vec![0, 0x7FF, HIGHEST_EXTENDED],
        0x17 => vec![SPEED_250, SPEED_500],
        0x18 => vec![1, u32::from(rating) - 1],
        _ => vec![1, HIGHEST_LEVEL],
    }
}

/// The values just past the limits, and others.
fn illegal(code: u8, rating: u16) -> Vec<u32> {
    match code {
        0x15 | 0x16 => vec![HIGHEST_EXTENDED + 1, 0x8A10_0101, 0xFFFF_FFFF],
        0x17 => vec![0, 250, 500, SPEED_250 + 1, SPEED_500 | 0x8000_0000],
        0x18 => vec![0, u32::from(rating), 0x0001_0001, 0x8000_0001],
        _ => vec![0, HIGHEST_LEVEL + 1, 0xFFFF_FFFF],
    }
}

/// A session that stores legal values of one code, and one with illegal ones.
fn writes(random: &mut Random, code: u8, are_legal: bool) -> Parts {
    let mut script = script(random);
    let rating = script.unit.rating;
    let values = if are_legal { legal(code, rating) } else { illegal(code, rating) };
    script.open(100);
    for value in values {
        script.send(10, &write(code, value));
        script.send(0, &[code]);
    }
    script.commit(5, true);
    if are_legal && code == 0x15 {
        script.receive = HIGHEST_EXTENDED;
    }
    script.open(50);
    script.send(1, &[code]);
    script.parts()
}

/// New identifiers, then traffic on the old receive identifier and the new.
fn moves(random: &mut Random, receive: Option<u32>, transmit: Option<u32>) -> Parts {
    let mut script = script(random);
    script.open(300);
    for (code, identifier) in [(0x15, receive), (0x16, transmit)] {
        if let Some(identifier) = identifier {
            script.send(20, &write(code, identifier));
        }
    }
    script.send(0, &[0x15]);
    script.commit(20, true);
    let old = script.receive;
    for new in [receive.unwrap_or(old), old] {
        script.receive = new;
        script.send(100, &[0x0B]);
        script.open(100);
        script.send(30, &[0x16]);
        script.commit(30, true);
    }
    script.parts()
}

/// A gap between two heard messages of a session, with an unheard frame in it.
fn silence(random: &mut Random, gap: u64, unheard: bool) -> Parts {
    let mut script = script(random);
    script.open(0);
    script.send(10, &write(0x20, 250));
    if unheard {
        script.send_on(gap / 2, true, script.receive ^ 1, &[0x20]);
        script.send(gap - gap / 2, &[0x20]);
    } else {
        script.send(gap, &[0x20]);
    }
    script.commit(2_000, true);
    script.open(10_000);
    script.parts()
}

/// Unlocks so long after each kind of start, then an answer at its limit.
fn window(random: &mut Random, gap: u64, answer: u64) -> Parts {
    let mut script = script(random);
    script.send(gap, &UNLOCK);
    script.answer(answer);
    script.reset(1);
    script.send(gap, &UNLOCK);
    script.answer(answer);
    script.commit(0, false);
    script.send(gap, &UNLOCK);
    script.answer(answer);
    script.read_all(1);
    script.parts()
}

/// Answers with one byte wrong, each to its own challenge.
fn wrong_answers(random: &mut Random) -> Parts {
    let mut script = script(random);
    for byte in 1..8 {
        script.send(10, &UNLOCK);
        let mut answer = script.right_answer();
        answer[byte] ^= 1 << random.below(8);
        script.send(10, &answer);
        script.answer(0);
    }
    script.open(1);
    script.parts()
}

/// Requests for the serial words and their neighbours, outside a session and in
/// one.
fn requests(random: &mut Random) -> Parts {
    let mut script = script(random);
    for round in 0..2 {
        for number in 0x07..=0x0C {
            script.send(1, &[number]);
            script.send(0, &[number, random.byte(), random.byte()]);
            script.send(0, &[number, 0]);
        }
        if round == 0 {
            script.open(1);
        }
    }
    script.parts()
}

/// Frames of each length with this first byte, outside a session and in one.
fn lengths(random: &mut Random, first: u8) -> Parts {
    let mut script = script(random);
    for round in 0..2 {
        for length in 0..=8 {
            let mut content = random.bytes();
            content[0] = first;
            script.send(3, &content[..length]);
        }
        if round == 0 {
            script.open(1);
        }
    }
    script.parts()
}

/// Frames that are accepted but not heard; the receive identifier fits a
/// standard frame.
fn unheard(random: &mut Random) -> Parts {
    let mut unit = any_unit(random);
    unit.settings.receive = random.pick(&[0, 1, 0x7FE, 0x7FF]);
    let receive = unit.settings.receive;
    let mut script = Script::new(power_on_stamp(random), unit);
    script.send_on(0, false, receive, &UNLOCK);
    script.send_on(0, true, receive ^ 1, &UNLOCK);
    script.send_on(1, true, receive | 0x1000_0000, &UNLOCK);
    script.send_on(0, false, 0x7FF, &[]);
    script.send_on(0, true, HIGHEST_EXTENDED, &random.bytes());
    for length in 0..=8 {
        script.send_on(0, false, random.word() & 0x7FF, &random.bytes()[..length]);
    }
    script.send(0, &UNLOCK);
    script.send_on(0, false, receive, &script.right_answer());
    script.answer(0);
    script.parts()
}

/// A whole session and a second one, all at one stamp.
fn at_one_stamp(random: &mut Random, stamp: u64) -> Parts {
    let mut script = Script::new(stamp, any_unit(random));
    for level in [7, 8] {
        script.open(0);
        script.send(0, &write(0x19, level));
        script.commit(0, level == 7);
        script.reset(0);
    }
    script.parts()
}

fn failing(random: &mut Random, all: bool) -> Parts {
    let mut script = script(random);
    script.open(4);
    script.send(4, &write(0x19, 77));
    if all {
        script.let_storage_fail();
    }
    script.commit(4, all);
    script.open(4);
    script.read_all(0);
    script.parts()
}

/// All scripts, each once.
pub fn scripts(random: &mut Random) -> Vec<Parts> {
    let mut all = Vec::new();
    for code in CODES {
        all.push(writes(random, code, true));
        all.push(writes(random, code, false));
    }
    let free = random.word() & HIGHEST_EXTENDED;
    for (receive, transmit) in [
        (Some(free), None),
        (None, Some(free)),
        (Some(HIGHEST_EXTENDED), Some(HIGHEST_EXTENDED)),
        (Some(0x0A10_0100), Some(0x0A10_0101)),
    ] {
        all.push(moves(random, receive, transmit));
    }
    for gap in [2_000, 2_001] {
        all.extend([silence(random, gap, false), silence(random, gap, true)]);
    }
    for (gap, answer) in [(9_999, 1_999), (10_000, 2_000), (10_001, 0), (10_000, 2_001)] {
        all.push(window(random, gap, answer));
    }
    for first in [0x14, 0x20, random.byte()] {
        all.push(lengths(random, first));
    }
    for stamp in [0, 1 << 31, LAST_STAMP] {
        all.push(at_one_stamp(random, stamp));
    }
    all.extend([failing(random, true), failing(random, false)]);
    all.extend([wrong_answers(random), requests(random), unheard(random), unheard(random)]);
    all
}
