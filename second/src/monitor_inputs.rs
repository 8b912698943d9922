//! The maker of monitor cases. The marked cases of document 01 come first, the
//! same bytes for each seed. After them come runs of scenes, each led to a limit
//! of one rule, with random steps between them.

use crate::codec::{Frame, DEVICE_IDENTIFIER, HIGHEST_EXTENDED, HOST_IDENTIFIER};
use crate::monitor::{
    Settings, Stamp, Unit, COMMIT, CONSTANTS, HIGHEST_LEVEL, SPEED_250, SPEED_500, UNLOCK,
};
use crate::monitor_cases::Record;
use crate::monitor_host::{Host, LAST_STAMP};
use crate::monitor_scenes::{self as scenes, Scene, AROUND_10000, AROUND_2000};
use crate::monitor_wander::wander;
use crate::random::Random;
use std::io::{self, Write};

/// A run has at most 200 events and questions after its power-on. The fewest
/// are so many, but for runs at the end of time, so that most runs have about a
/// hundred.
const FEWEST: u64 = 45;
const MOST: u64 = 200;

/// A run at the end of time goes on for so many records there.
const AT_THE_END: usize = 25;

// The marked cases.

/// "power-on at 0, serial 00 01 .. 0F, rating 1000, defaults (0A100101,
/// 0A100100, 500, 0, 500, 100)"
pub const MARKED_UNIT: Unit = Unit {
    serial: [0, 1, 2, 3, 4, 5, 6, 7, 8, 9, 10, 11, 12, 13, 14, 15],
    rating: 1_000,
    settings: Settings {
        receive: HOST_IDENTIFIER,
        transmit: DEVICE_IDENTIFIER,
        speed: SPEED_500,
        voltage: 0,
        warning: 500,
        fault: 100,
    },
};

/// "answer 14 53 4F 46 50 4D 48 44"
const MARKED_ANSWER: [u8; 8] = [0x14, 0x53, 0x4F, 0x46, 0x50, 0x4D, 0x48, 0x44];
/// "write 20 00 00 00 FA"
const MARKED_WRITE: [u8; 5] = [0x20, 0x00, 0x00, 0x00, 0xFA];
/// "write 18 equal to the rating", and "one below".
const WRITE_RATING: [u8; 5] = [0x18, 0x00, 0x00, 0x03, 0xE8];
const WRITE_ONE_BELOW: [u8; 5] = [0x18, 0x00, 0x00, 0x03, 0xE7];
/// "challenge 01 23 45 67 89 AB CD"
const MARKED_CHALLENGE: [u8; 7] = [0x01, 0x23, 0x45, 0x67, 0x89, 0xAB, 0xCD];

/// A frame of a marked case, heard by its monitor, with zeros past its length.
fn marked_frame(stamp: u64, storage_works: bool, content: &[u8]) -> Record {
    let mut bytes = [0; 8];
    bytes[..content.len()].copy_from_slice(content);
    let length = content.len() as u8;
    let frame = Frame { extended: true, length, identifier: HOST_IDENTIFIER, bytes };
    Record::Frame { stamp: Stamp(stamp), storage_works, frame }
}

/// The session of P1: "1000 unlock; 1500 answer [...]; 3500 write 20 00 00 00
/// FA; 4000 commit", with another stamp of the write for P2 and failing storage
/// for P8.
fn marked_session(write_stamp: u64, storage_works: bool) -> Vec<Record> {
    vec![
        marked_frame(1_000, true, &UNLOCK),
        marked_frame(1_500, true, &MARKED_ANSWER),
        marked_frame(write_stamp, true, &MARKED_WRITE),
        marked_frame(4_000, storage_works, &COMMIT),
    ]
}

/// An unlock and one more frame, the answer or, after it, a write.
fn marked_start(then: &[Record]) -> Vec<Record> {
    let mut records = vec![marked_frame(1_000, true, &UNLOCK)];
    records.extend(then);
    records
}

/// What follows the power-on in the runs of P1 to P10.
pub fn marked_runs() -> [Vec<Record>; 10] {
    let answered = marked_frame(1_500, true, &MARKED_ANSWER);
    [
        marked_session(3_500, true),
        marked_session(3_501, true),
        vec![marked_frame(10_000, true, &UNLOCK)],
        vec![marked_frame(10_001, true, &UNLOCK)],
        marked_start(&[marked_frame(3_000, true, &MARKED_ANSWER)]),
        marked_start(&[marked_frame(3_001, true, &MARKED_ANSWER)]),
        vec![Record::Challenge(MARKED_CHALLENGE)],
        marked_session(3_500, false),
        marked_start(&[answered, marked_frame(2_000, true, &WRITE_RATING)]),
        marked_start(&[answered, marked_frame(2_000, true, &WRITE_ONE_BELOW)]),
    ]
}

// Power-ons.

/// What is special about an accepted power-on.
#[derive(Clone, Copy, Debug, PartialEq, Eq)]
enum Special {
    Nothing,
    Defaults,
    RatingOne,
    RatingTwo,
    RatingHighest,
    VoltageZero,
    VoltageHighest,
    ReceiveHighest,
    TransmitHighest,
    ReceiveZero,
    TransmitZero,
    ReceiveSmall,
    EqualIdentifiers,
    LevelsLowest,
    LevelsHighest,
    SerialOfConstants,
}

const SPECIALS: [Special; 18] = [
    Special::Nothing,
    Special::Nothing,
    Special::Defaults,
    Special::RatingOne,
    Special::RatingTwo,
    Special::RatingHighest,
    Special::VoltageZero,
    Special::VoltageHighest,
    Special::ReceiveHighest,
    Special::TransmitHighest,
    Special::ReceiveZero,
    Special::TransmitZero,
    Special::ReceiveSmall,
    Special::ReceiveSmall,
    Special::EqualIdentifiers,
    Special::LevelsLowest,
    Special::LevelsHighest,
    Special::SerialOfConstants,
];

/// What is wrong with a refused power-on: a setting and its value, or the
/// rating, or the voltage measured by the rating.
#[derive(Clone, Copy, Debug, PartialEq, Eq)]
enum Flaw {
    RatingZero,
    Receive(u32),
    Transmit(u32),
    Speed(u32),
    VoltageRating,
    VoltageAboveRating,
    Voltage(u32),
    Warning(u32),
    FaultLevel(u32),
}

const FLAWS: [Flaw; 26] = [
    Flaw::RatingZero,
    Flaw::Receive(HIGHEST_EXTENDED + 1),
    Flaw::Receive(0xFFFF_FFFF),
    Flaw::Receive(0x8A10_0101),
    Flaw::Transmit(HIGHEST_EXTENDED + 1),
    Flaw::Transmit(0xFFFF_FFFF),
    Flaw::Transmit(0x4A10_0100),
    Flaw::Speed(0),
    Flaw::Speed(250),
    Flaw::Speed(500),
    Flaw::Speed(SPEED_250 - 1),
    Flaw::Speed(SPEED_250 + 1),
    Flaw::Speed(SPEED_500 - 1),
    Flaw::Speed(SPEED_500 + 1),
    Flaw::Speed(0x8000_0000 | SPEED_500),
    Flaw::VoltageRating,
    Flaw::VoltageAboveRating,
    Flaw::Voltage(65_536),
    Flaw::Voltage(0x8000_0000),
    Flaw::Voltage(0xFFFF_FFFF),
    Flaw::Warning(0),
    Flaw::Warning(HIGHEST_LEVEL + 1),
    Flaw::Warning(0xFFFF_FFFF),
    Flaw::FaultLevel(0),
    Flaw::FaultLevel(HIGHEST_LEVEL + 1),
    Flaw::FaultLevel(0xFFFF_FFFF),
];

/// What a run begins with after an accepted power-on.
#[derive(Clone, Copy, Debug, PartialEq, Eq)]
enum Opening {
    /// An unlock so long after the power-on.
    Window(u64),
    /// Events and questions before the power-on's stamp and at it.
    AroundPowerOn,
    Nothing,
    /// Near the highest stamp: at that stamp comes an unlock so long after the
    /// power-on, an answer so long after the challenge, an event so long after
    /// the last heard message, or an unlock so long after a commit.
    LateWindow(u64),
    LateAnswer(u64),
    LateSilence(u64),
    LateCommit(u64),
    /// Near the highest stamp, nothing special.
    Late,
}

fn openings() -> Vec<Opening> {
    let mut openings = vec![Opening::Nothing, Opening::AroundPowerOn, Opening::Late, Opening::Late];
    for gap in AROUND_10000 {
        openings.extend([Opening::Window(gap); 12]);
        openings.extend([Opening::LateWindow(gap), Opening::LateCommit(gap)]);
    }
    for gap in AROUND_2000 {
        openings.extend([Opening::LateAnswer(gap), Opening::LateSilence(gap)]);
    }
    openings.extend([Opening::AroundPowerOn; 4]);
    openings.extend([Opening::Nothing; 4]);
    openings
}

/// Items dealt in a random order; when all are dealt, they are dealt again.
struct Deck<T> {
    all: Vec<T>,
    left: Vec<T>,
}

impl<T: Copy> Deck<T> {
    fn new(all: Vec<T>) -> Deck<T> {
        Deck { all, left: Vec::new() }
    }

    fn deal(&mut self, random: &mut Random) -> T {
        if self.left.is_empty() {
            self.left.clone_from(&self.all);
            for end in (1..self.left.len()).rev() {
                self.left.swap(end, random.below(end + 1));
            }
        }
        self.left.pop().expect("a deck has items")
    }

    /// Puts an item back to be dealt next.
    fn put_back(&mut self, item: T) {
        self.left.push(item);
    }
}

/// Makes one run after the other.
struct Maker {
    host: Host,
    runs: u64,
    /// How many of the runs have a power-on that is refused.
    refused: u64,
    scenes: Deck<Scene>,
    specials: Deck<Special>,
    flaws: Deck<Flaw>,
    openings: Deck<Opening>,
}

impl Maker {
    fn new(seed: u64) -> Maker {
        Maker {
            host: Host::new(seed),
            runs: 0,
            refused: 0,
            scenes: Deck::new(scenes::all()),
            specials: Deck::new(SPECIALS.to_vec()),
            flaws: Deck::new(FLAWS.to_vec()),
            openings: Deck::new(openings()),
        }
    }

    /// The bytes of the next run.
    fn run(&mut self) -> Vec<u8> {
        let number = self.runs;
        self.runs += 1;
        match marked_runs().get(number as usize) {
            Some(records) => self.marked_run(records),
            // Three in ten go on with the monitor before.
            None if 10 * self.refused < 3 * number && self.time_left() > 1_000_000 => {
                self.refused += 1;
                self.refused_run();
            }
            None => self.accepted_run(),
        }
        self.host.take_written()
    }

    fn marked_run(&mut self, records: &[Record]) {
        let power_on = Record::PowerOn { stamp: Stamp(0), unit: MARKED_UNIT };
        self.host.begin_run(power_on, records.len());
        records.iter().for_each(|record| self.host.push(*record));
    }

    fn time_left(&self) -> u64 {
        LAST_STAMP - self.host.now()
    }

    fn room(&mut self) -> usize {
        self.host.random.between(FEWEST, MOST) as usize
    }

    /// A run whose power-on is refused, at any stamp: its events are for the
    /// monitor before, in whatever state the run before has left it.
    fn refused_run(&mut self) {
        let flaw = self.flaws.deal(&mut self.host.random);
        let mut unit = self.unit();
        spoil(&mut unit, flaw);
        if self.host.random.one_in(5) {
            let second = self.host.random.pick(&FLAWS);
            spoil(&mut unit, second);
        }
        let now = self.host.now();
        let random = &mut self.host.random;
        let any = u64::from(random.word());
        let stamp = random.pick(&[now, now + 1, now + 3_000, now.saturating_sub(1), 0, any]);
        let room = self.room();
        self.host.begin_run(Record::PowerOn { stamp: Stamp(stamp), unit }, room);
        self.fill();
    }

    fn accepted_run(&mut self) {
        let opening = self.openings.deal(&mut self.host.random);
        let stamp = self.power_on_stamp(opening);
        let unit = self.unit();
        let room = self.room();
        self.host.begin_run(Record::PowerOn { stamp: Stamp(stamp), unit }, room);
        self.open(opening);
        self.fill();
    }

    fn unit(&mut self) -> Unit {
        let special = self.specials.deal(&mut self.host.random);
        unit(&mut self.host.random, special)
    }

    fn power_on_stamp(&mut self, opening: Opening) -> u64 {
        let random = &mut self.host.random;
        match opening {
            Opening::LateWindow(gap) => LAST_STAMP - gap,
            Opening::LateAnswer(gap) => LAST_STAMP - gap - random.between(0, 3_000),
            Opening::LateSilence(gap) | Opening::LateCommit(gap) => {
                LAST_STAMP - gap - random.between(1_000, 3_000)
            }
            Opening::Late => {
                let far = random.between(0, 60_000);
                LAST_STAMP - random.pick(&[0, 1, 2_000, 10_000, 12_001, far])
            }
            _ => match random.below(8) {
                0 | 1 => 0,
                2 => random.between(1, 100_000),
                3 => (1 << 31) - random.between(0, 30_000),
                _ => random.between(0, LAST_STAMP / 16 * 15),
            },
        }
    }

    fn open(&mut self, opening: Opening) {
        let host = &mut self.host;
        match opening {
            Opening::Window(gap) | Opening::LateWindow(gap) => scenes::window(host, gap),
            Opening::AroundPowerOn => around_power_on(host),
            Opening::LateAnswer(gap) => {
                host.send_at(LAST_STAMP - gap, &UNLOCK);
                let answer = host.right_answer();
                host.send_at(LAST_STAMP, &answer);
                host.ask_at(LAST_STAMP);
            }
            Opening::LateSilence(gap) => {
                host.open_session();
                let content = host.legal_write();
                host.send_at(LAST_STAMP - gap, &content);
                host.ask_at(LAST_STAMP);
                scenes::any_event(host, LAST_STAMP);
                host.probe();
            }
            Opening::LateCommit(gap) => {
                host.open_session();
                let storage_works = host.random.one_in(2);
                host.commit_at(LAST_STAMP - gap, storage_works);
                scenes::window(host, gap);
            }
            Opening::Nothing | Opening::Late => {}
        }
    }

    /// Plays a scene; if the run cuts it off, it is played again in the next.
    fn scene(&mut self) {
        let scene = self.scenes.deal(&mut self.host.random);
        scenes::play(&mut self.host, scene);
        if self.host.is_full() {
            self.scenes.put_back(scene);
        }
    }

    /// Fills the rest of the run: one in eight with random steps alone, the others
    /// with scenes and some random steps between them.
    fn fill(&mut self) {
        let random_run = self.runs % 8 == 7;
        let mut ended = false;
        while !self.host.is_full() {
            if !random_run {
                self.scene();
            }
            if random_run || self.host.random.one_in(4) {
                let steps = self.host.random.between(1, 12);
                wander(&mut self.host, steps);
            }
            if self.time_left() == 0 && !ended {
                ended = true;
                self.host.shorten(AT_THE_END);
            }
        }
    }
}

/// Events and questions just before the power-on's stamp, and at it.
fn around_power_on(host: &mut Host) {
    let start = host.now();
    if start > 0 {
        host.ask_at(start - 1);
        host.early_at(start - 1);
        let far = host.early_stamp();
        host.early_at(far);
    }
    host.ask_at(start);
    host.send_at(start, &UNLOCK);
}

/// A unit whose power-on is accepted, with anything special about it.
pub fn any_unit(random: &mut Random) -> Unit {
    let special = random.pick(&SPECIALS);
    unit(random, special)
}

/// A unit whose power-on is accepted.
fn unit(random: &mut Random, special: Special) -> Unit {
    let free = random.between(1, 65_535) as u16;
    let rating = match special {
        Special::Defaults => 1_000,
        Special::RatingOne => 1,
        Special::RatingTwo => 2,
        Special::RatingHighest => 65_535,
        _ => random.pick(&[1_000, 65_535, free, free]),
    };
    let mut unit = Unit { serial: serial(random), rating, settings: settings(random, rating) };
    let settings = &mut unit.settings;
    match special {
        Special::Defaults => unit.settings = MARKED_UNIT.settings,
        Special::VoltageZero => settings.voltage = 0,
        Special::VoltageHighest => settings.voltage = u32::from(rating) - 1,
        Special::ReceiveHighest => settings.receive = HIGHEST_EXTENDED,
        Special::TransmitHighest => settings.transmit = HIGHEST_EXTENDED,
        Special::ReceiveZero => settings.receive = 0,
        Special::TransmitZero => settings.transmit = 0,
        Special::ReceiveSmall => settings.receive &= 0x7FF,
        Special::EqualIdentifiers => settings.transmit = settings.receive,
        Special::LevelsLowest => (settings.warning, settings.fault) = (1, 1),
        Special::LevelsHighest => {
            (settings.warning, settings.fault) = (HIGHEST_LEVEL, HIGHEST_LEVEL);
        }
        Special::SerialOfConstants => unit.serial[..7].copy_from_slice(&CONSTANTS),
        Special::Nothing | Special::RatingOne | Special::RatingTwo | Special::RatingHighest => {}
    }
    unit
}

fn serial(random: &mut Random) -> [u8; 16] {
    let mut serial = [0; 16];
    serial[..8].copy_from_slice(&random.bytes());
    serial[8..].copy_from_slice(&random.bytes());
    match random.below(8) {
        0 => MARKED_UNIT.serial,
        1 => [random.pick(&[0x00, 0xFF, 0x14]); 16],
        _ => serial,
    }
}

/// Legal settings, half of them near the defaults.
fn settings(random: &mut Random, rating: u16) -> Settings {
    let voltage = random.between(0, u64::from(rating) - 1) as u32;
    let level = |random: &mut Random| (random.word() & HIGHEST_LEVEL).max(1);
    if random.one_in(2) {
        return Settings { voltage, ..MARKED_UNIT.settings };
    }
    Settings {
        receive: random.word() & HIGHEST_EXTENDED,
        transmit: random.word() & HIGHEST_EXTENDED,
        speed: random.pick(&[SPEED_250, SPEED_500]),
        voltage,
        warning: level(random),
        fault: level(random),
    }
}

/// Makes a unit one whose power-on is refused.
fn spoil(unit: &mut Unit, flaw: Flaw) {
    let rating = u32::from(unit.rating);
    let settings = &mut unit.settings;
    match flaw {
        Flaw::RatingZero => (unit.rating, settings.voltage) = (0, 0),
        Flaw::Receive(identifier) => settings.receive = identifier,
        Flaw::Transmit(identifier) => settings.transmit = identifier,
        Flaw::Speed(speed) => settings.speed = speed,
        Flaw::VoltageRating => settings.voltage = rating,
        Flaw::VoltageAboveRating => settings.voltage = rating + 1,
        Flaw::Voltage(voltage) => settings.voltage = voltage,
        Flaw::Warning(level) => settings.warning = level,
        Flaw::FaultLevel(level) => settings.fault = level,
    }
}

/// Writes so many runs for a seed.
pub fn write_all(seed: u64, runs: u64, out: &mut impl Write) -> io::Result<()> {
    let mut maker = Maker::new(seed);
    for _ in 0..runs {
        out.write_all(&maker.run())?;
    }
    Ok(())
}

#[cfg(test)]
mod tests {
    use super::*;
    use crate::monitor_cases::{answer_all, decode, encode, POWER_ON_RECORD, RECORD};

    fn inputs(seed: u64, runs: u64) -> Vec<u8> {
        let mut out = Vec::new();
        write_all(seed, runs, &mut out).unwrap();
        out
    }

    fn records(cases: &[u8]) -> Vec<Record> {
        let mut records = Vec::new();
        let mut rest = cases;
        while let Some((record, size)) = decode(rest) {
            records.push(record);
            rest = &rest[size..];
        }
        assert!(rest.is_empty(), "a record that ends the answers");
        records
    }

    #[test]
    fn the_same_seed_gives_the_same_bytes() {
        assert_eq!(inputs(1, 220), inputs(1, 220));
        assert_ne!(inputs(1, 220), inputs(2, 220));
    }

    /// The bytes of seed 1 are known by their FNV-1a sum, so that a machine
    /// that makes others is found out. A change of the maker changes the sum.
    #[test]
    fn the_bytes_of_seed_1_are_known() {
        let sum = inputs(1, 220).iter().fold(0xCBF2_9CE4_8422_2325, |sum: u64, &byte| {
            (sum ^ u64::from(byte)).wrapping_mul(0x0100_0000_01B3)
        });
        assert_eq!(sum, 0xE502_6305_476C_FF5B, "{sum:#X}");
    }

    #[test]
    fn fewer_runs_give_the_start_of_the_same_bytes() {
        let all = inputs(3, 220);
        for runs in [0, 1, 10, 11, 57, 219] {
            let start = inputs(3, runs);
            assert!(start.len() < all.len());
            assert_eq!(start, all[..start.len()]);
        }
    }

    /// The marked cases are the first ten runs, whatever the seed.
    #[test]
    fn the_marked_cases_come_first() {
        let on = "on stored 0A100101 0A100100 500 0 500 100";
        let stored = "stored 0A100101 0A100100 500 0 500 100";
        let challenge = "0A100100 8 14 00 01 02 03 04 05 06";
        let ack = "0A100100 3 41 43 4B 00 00 00 00 00";
        let nak = "0A100100 3 4E 41 4B 00 00 00 00 00";
        let lines = format!(
            "{on}\n{challenge} {stored}\n{ack} {stored}\n{ack} {stored}\n\
             {ack} stored 0A100101 0A100100 500 0 500 250\n\
             {on}\n{challenge} {stored}\n{ack} {stored}\nno reply {stored}\nno reply {stored}\n\
             {on}\n{challenge} {stored}\n\
             {on}\n{nak} {stored}\n\
             {on}\n{challenge} {stored}\n{ack} {stored}\n\
             {on}\n{challenge} {stored}\n{nak} {stored}\n\
             {on}\nanswer 52 6D 01 34 C0 E6 8F\n\
             {on}\n{challenge} {stored}\n{ack} {stored}\n{ack} {stored}\n{nak} {stored}\n\
             {on}\n{challenge} {stored}\n{ack} {stored}\n{nak} {stored}\n\
             {on}\n{challenge} {stored}\n{ack} {stored}\n{ack} {stored}\n"
        );
        let marked = inputs(1, 10);
        let mut out = Vec::new();
        answer_all(&marked, &mut out).unwrap();
        assert_eq!(String::from_utf8(out).unwrap(), lines);
        for seed in [2, u64::MAX] {
            assert_eq!(inputs(seed, 12)[..marked.len()], marked);
        }
    }

    /// Each run is a power-on and at most 200 more; every record is one of the
    /// format, with zeros where it has nothing.
    #[test]
    fn every_run_keeps_the_format() {
        for seed in [1, 4] {
            let all = inputs(seed, 220);
            let records = records(&all);
            let bytes: Vec<u8> = records.iter().flat_map(encode).collect();
            assert_eq!(bytes, all);
            let is_power_on = |record: &Record| matches!(record, Record::PowerOn { .. });
            assert!(is_power_on(&records[0]));
            let runs: Vec<&[Record]> = records[1..].split(is_power_on).collect();
            assert_eq!(runs.len(), 220);
            assert!(runs.iter().all(|run| run.len() <= 200));
            assert_eq!(all.len(), 220 * POWER_ON_RECORD + (records.len() - 220) * RECORD);
        }
    }

    #[test]
    fn the_files_of_seed_1_have_the_wanted_size() {
        let all = inputs(1, 220);
        let mut out = Vec::new();
        answer_all(&all, &mut out).unwrap();
        let lines = out.iter().filter(|&&byte| byte == b'\n').count();
        assert_eq!(lines, records(&all).len());
        assert!((22_000..24_000).contains(&lines), "{lines}");
        assert!(all.len() < 600_000, "{}", all.len());
        assert!(out.len() < 1_900_000, "{}", out.len());
    }
}
