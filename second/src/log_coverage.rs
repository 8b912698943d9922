//! Counts what the made-up log cases meet. It looks at the bytes alone: whether
//! a case has damage at some byte is seen by mending that byte.

use crate::listing::{answer, list};
use crate::log::{block, event, places, read, BLOCK, LONGEST, MAGIC, RECORD, TRAILER};
use crate::log_cases::{answer_all, Case, Cases, MOST_ROOM};
use crate::log_inputs::{fixed_count, write_all};
use crate::refusal::Refusal;
use std::collections::BTreeMap;
use std::sync::OnceLock;

/// The counts.
#[derive(Default)]
struct Tally {
    counts: BTreeMap<String, usize>,
}

impl Tally {
    fn count(&mut self, what: impl Into<String>) {
        *self.counts.entry(what.into()).or_default() += 1;
    }

    fn get(&self, what: &str) -> usize {
        self.counts.get(what).copied().unwrap_or(0)
    }

    #[track_caller]
    fn at_least(&self, least: usize, what: &str) {
        assert!(self.get(what) >= least, "{what}: {}", self.get(what));
    }

    fn of(seed: u64, count: u64) -> Tally {
        let cases = inputs(seed, count);
        let mut tally = Tally::default();
        let mut read = Cases { rest: &cases };
        for case in read.by_ref() {
            tally.take(&case);
        }
        assert!(read.rest.is_empty(), "a case that ends the answers");
        tally
    }

    fn take(&mut self, case: &Case) {
        self.count("cases");
        let text = answer(case.bytes, case.room);
        let last = text.lines().last().expect("each answer has a line");
        self.count(if last.starts_with("stored") { "listed" } else { last });
        self.room(case);
        match read(case.bytes) {
            Ok(_) => self.right(case.bytes),
            Err(Refusal::LogTrailer) => self.wrong_trailer(case.bytes),
            Err(Refusal::NotLegal) => self.wrong_block(case.bytes),
            Err(_) => self.wrong_record(case.bytes),
        }
    }

    fn room(&mut self, case: &Case) {
        let Ok(text) = list(case.bytes) else {
            if case.room < 57 {
                self.count("a short room for bytes that are refused anyway");
            }
            return;
        };
        match case.room {
            room if room == text.len() => self.count("room: exact"),
            room if room + 1 == text.len() => self.count("room: one short"),
            room if room == text.len() + 1 => self.count("room: one more"),
            0 => self.count("room: zero"),
            MOST_ROOM => self.count("room: full"),
            room if room < text.len() => self.count("room: other, short"),
            _ => self.count("room: other, enough"),
        }
        if text.len() == MOST_ROOM {
            self.count("the longest listing");
        }
    }

    fn right(&mut self, bytes: &[u8]) {
        let places = places(bytes).unwrap();
        let count = (places.trailer - places.records) / RECORD;
        self.count(format!("notes {}", places.block));
        self.count(format!("records {count}"));
        self.count(format!("right, length {}", bytes.len()));
        if bytes[..places.block].windows(4).any(|four| four == MAGIC) {
            self.count("notes with the end of a trailer");
        }
        self.right_block(&bytes[places.block..places.records]);
        let mut before = number(bytes, places.block);
        for record in bytes[places.records..places.trailer].chunks(RECORD) {
            self.right_record(record, before);
            before = number(record, 0);
        }
        self.replies(&list(bytes).unwrap());
    }

    /// Values that are just right.
    fn right_block(&mut self, block: &[u8]) {
        let rating = u32::from(block[20]) << 8 | u32::from(block[21]);
        for (at, name) in FIELDS {
            let value = number(block, at);
            if at == 34 && value + 1 == rating {
                self.count("right voltage rating - 1");
            }
            self.count(format!("right {name} {value:X}"));
        }
        self.count(format!("right rating {rating}"));
        self.count(format!("right power-on {:X}", number(block, 0)));
    }

    fn right_record(&mut self, record: &[u8], before: u32) {
        let extended = if record[5] == 1 { "extended" } else { "standard" };
        match record[4] {
            2 => self.count("right reset"),
            kind => {
                self.count(format!("right kind {kind} {extended} length {}", record[6]));
                self.count(format!("right {extended} {:X}", number(record, 8)));
            }
        }
        if number(record, 0) == before {
            self.count("right equal stamp");
        }
        if number(record, 0) == u32::MAX {
            self.count("right highest stamp");
        }
    }

    fn replies(&mut self, text: &str) {
        let stored = text.lines().last().unwrap();
        if stored.ends_with(" 65534 2147483647 2147483647") {
            self.count("the widest stored line");
        }
        for line in text.lines().filter(|line| !line.starts_with("stored")) {
            let parts: Vec<&str> = line.split(' ').collect();
            self.count(format!("reply of length {}", parts[2]));
            if parts[0].len() == 10 {
                self.count("reply at a stamp of ten digits");
            }
        }
    }

    /// Mends one byte of the trailer, or the magic, after the other.
    fn wrong_trailer(&mut self, bytes: &[u8]) {
        let length = bytes.len();
        if length < TRAILER + BLOCK || length > LONGEST {
            self.count(if length > LONGEST { "9: too long" } else { "9: too short" });
            return;
        }
        let trailer = length - TRAILER;
        let mut mended = bytes.to_vec();
        for at in 0..TRAILER {
            for value in 0..=255 {
                mended[trailer + at] = value;
                if places(&mended).is_ok() {
                    self.count(format!("9: trailer byte {at}"));
                    let then = read(&mended).err();
                    self.count(format!("9: trailer, then {then:?}"));
                }
            }
            mended[trailer + at] = bytes[trailer + at];
        }
        let [offset, count, told] = [0, 4, 8].map(|at| number(bytes, trailer + at));
        let filled = u64::from(offset) + 64 + 20 * u64::from(count);
        self.sums(length as u64, filled, u64::from(told));
        if bytes[trailer + 12..] == MAGIC && filled == length as u64 && told as usize == length {
            self.count(format!("9: all fits, offset {offset}, count {count}"));
        }
    }

    /// Sums and told lengths that are right but for the high bits.
    fn sums(&mut self, length: u64, filled: u64, told: u64) {
        for bits in [16, 31, 32] {
            let low = (1_u64 << bits) - 1;
            if filled != length && filled & low == length & low {
                self.count(format!("9: right modulo 2^{bits}"));
            }
            if told != length && told & low == length & low {
                self.count(format!("9: told right modulo 2^{bits}"));
            }
        }
    }

    /// Puts a right value into one field of the block after the other.
    fn wrong_block(&mut self, bytes: &[u8]) {
        let places = places(bytes).unwrap();
        let wrong = &bytes[places.block..places.records];
        let records = &bytes[places.records..places.trailer];
        self.count(if records.is_empty() { "8 without records" } else { "8 with records" });
        if records.chunks(RECORD).any(|record| event(record).is_err()) {
            self.count("8 before 10");
        }
        for (at, name) in FIELDS.into_iter().chain([(20, "rating"), (46, "zeros")]) {
            let right: &[u8] = match name {
                "receive" | "transmit" | "voltage" => &[0, 0, 0, 0],
                "speed" => &[0x00, 0xCA, 0x05, 0x00],
                "zeros" => &[0, 0],
                "rating" => &[0xFF, 0xFF],
                _ => &[0, 0, 0, 1],
            };
            let mut mended = wrong.to_vec();
            mended[at..at + right.len()].copy_from_slice(right);
            if block(&mended).is_ok() {
                self.count(format!("8: {name}"));
                for byte in at..at + right.len() {
                    if wrong[byte] != mended[byte] {
                        self.count(format!("8: other byte {byte}"));
                    }
                }
            }
        }
    }

    /// Mends one byte after the other of the first record that is wrong.
    fn wrong_record(&mut self, bytes: &[u8]) {
        let places = places(bytes).unwrap();
        let mut before = number(bytes, places.block);
        let records: Vec<&[u8]> = bytes[places.records..places.trailer].chunks(RECORD).collect();
        for (i, record) in records.iter().enumerate() {
            let early = number(record, 0) < before;
            match (event(record), early) {
                (Ok(_), false) => before = number(record, 0),
                (Ok(_), true) => return self.early_record(record, before, i, records.get(i + 1)),
                (Err(_), early) => {
                    if early {
                        self.count("10 and 7 in one record");
                    }
                    let next = records.get(i + 1);
                    if next.is_some_and(|next| number(next, 0) < number(record, 0)) {
                        self.count("10 before 7 in the next record");
                    }
                    return self.bad_record(record);
                }
            }
        }
    }

    fn early_record(&mut self, record: &[u8], before: u32, i: usize, next: Option<&&[u8]>) {
        let place = if i == 0 { "first" } else { "later" };
        self.count(format!("7: {place} record"));
        if number(record, 0) + 1 == before {
            self.count(format!("7: {place} record, by one"));
        }
        if record[4] == 2 {
            self.count("7: reset");
        }
        if next.is_some_and(|next| event(next).is_err()) {
            self.count("7 before 10 in the next record");
        }
        for at in 0..4 {
            let mut mended = record.to_vec();
            mended[at] = 0xFF;
            if number(&mended, 0) >= before {
                self.count(format!("7: stamp byte {at}"));
            }
        }
    }

    fn bad_record(&mut self, record: &[u8]) {
        let kind = match record[4] {
            0 | 1 => "frame",
            2 => "reset",
            _ => "other",
        };
        self.count(format!("10: {kind}"));
        if kind == "other" && record[5..].iter().all(|&byte| byte == 0) {
            self.count("10: other kind, all zeros");
        }
        for at in 4..RECORD {
            let mut mended = record.to_vec();
            let mends = (0..=255).any(|value| {
                mended[at] = value;
                event(&mended).is_ok()
            });
            if mends {
                self.count(format!("10: {kind} byte {at}"));
            }
        }
        let past = usize::from(record[6].min(8));
        if kind == "frame" && record[12 + past..].iter().any(|&byte| byte != 0) {
            self.count(format!("10: not zero past length {past}"));
        }
    }
}

/// The six settings in the block.
const FIELDS: [(usize, &str); 6] = [
    (22, "receive"),
    (26, "transmit"),
    (30, "speed"),
    (34, "voltage"),
    (38, "warning"),
    (42, "fault"),
];

fn number(bytes: &[u8], at: usize) -> u32 {
    u32::from_be_bytes([bytes[at], bytes[at + 1], bytes[at + 2], bytes[at + 3]])
}

fn inputs(seed: u64, count: u64) -> Vec<u8> {
    let mut out = Vec::new();
    write_all(seed, count, &mut out).unwrap();
    out
}

// What has to be there.

const COUNT: u64 = 600;

/// The counts for the seeds 1 and 2, made once.
fn tallies() -> &'static [Tally; 2] {
    static TALLIES: OnceLock<[Tally; 2]> = OnceLock::new();
    TALLIES.get_or_init(|| [Tally::of(1, COUNT), Tally::of(2, COUNT)])
}

#[test]
fn every_answer_is_met_often() {
    for tally in tallies() {
        assert_eq!(tally.get("cases"), 600);
        tally.at_least(180, "listed");
        for number in [7, 8, 9, 10, 12] {
            tally.at_least(30, &format!("refused {number}"));
        }
        for room in ["exact", "one short", "one more", "zero", "full"] {
            tally.at_least(10, &format!("room: {room}"));
        }
        tally.at_least(5, "room: other, short");
        tally.at_least(5, "room: other, enough");
        tally.at_least(10, "a short room for bytes that are refused anyway");
    }
}

#[test]
fn right_logs_of_every_shape_are_met() {
    let [tally, _] = tallies();
    for records in [0, 1, 2, 3] {
        tally.at_least(10, &format!("records {records}"));
    }
    for records in [255, 256, 257] {
        tally.at_least(1, &format!("records {records}"));
    }
    tally.at_least(4, "records 3000");
    for notes in [0, 1, 2, 3, 4, 15, 16, 20, 47, 48, 64, 255, 256, 4_095] {
        tally.at_least(1, &format!("notes {notes}"));
    }
    tally.at_least(2, "notes 4096");
    tally.at_least(1, "right, length 64160");
    tally.at_least(5, "notes with the end of a trailer");
    tally.at_least(2, "the longest listing");
    tally.at_least(2, "the widest stored line");
    for length in [3, 5, 8] {
        tally.at_least(2_000, &format!("reply of length {length}"));
    }
    tally.at_least(6_000, "reply at a stamp of ten digits");
    tally.at_least(10, "right reset");
    tally.at_least(10, "right equal stamp");
    tally.at_least(5, "right highest stamp");
    for length in 0..=8 {
        tally.at_least(2, &format!("right kind 0 standard length {length}"));
        tally.at_least(5, &format!("right kind 0 extended length {length}"));
        tally.at_least(2, &format!("right kind 1 extended length {length}"));
    }
}

/// Values on the right side of every limit.
#[test]
fn right_values_at_the_limits_are_met() {
    let [tally, _] = tallies();
    for what in [
        "receive 0",
        "receive 1FFFFFFF",
        "transmit 0",
        "transmit 1FFFFFFF",
        "speed CA0250",
        "speed CA0500",
        "voltage 0",
        "voltage rating - 1",
        "warning 1",
        "warning 7FFFFFFF",
        "fault 1",
        "fault 7FFFFFFF",
        "rating 1",
        "rating 65535",
        "power-on 0",
        "power-on FFFFFFFF",
        "standard 0",
        "standard 7FF",
        "extended 0",
        "extended 1FFFFFFF",
    ] {
        tally.at_least(1, &format!("right {what}"));
    }
}

/// Each byte of the trailer is wrong alone, each limit is passed alone, and sums
/// are right only if they wrap.
#[test]
fn every_flaw_of_the_trailer_is_met() {
    for tally in tallies() {
        for at in 0..TRAILER {
            tally.at_least(3, &format!("9: trailer byte {at}"));
        }
        tally.at_least(1, "9: all fits, offset 0, count 3001");
        let offset = tally.counts.keys().any(|key| key.starts_with("9: all fits, offset 4097,"));
        assert!(offset, "notes of 4,097 bytes");
        for bits in [16, 31, 32] {
            tally.at_least(5, &format!("9: right modulo 2^{bits}"));
        }
        for bits in [16, 31] {
            tally.at_least(1, &format!("9: told right modulo 2^{bits}"));
        }
        tally.at_least(2, "9: too long");
        tally.at_least(5, "9: too short");
        tally.at_least(4, "9: trailer, then Some(NotLegal)");
    }
}

/// Each field of the block is wrong alone, and each byte of the settings, the
/// rating and the two zeros has a part in it.
#[test]
fn every_flaw_of_the_block_is_met() {
    for tally in tallies() {
        for (_, name) in FIELDS {
            tally.at_least(3, &format!("8: {name}"));
        }
        tally.at_least(1, "8: rating");
        tally.at_least(5, "8: zeros");
        for at in 20..BLOCK {
            tally.at_least(1, &format!("8: other byte {at}"));
        }
        tally.at_least(3, "8 without records");
        tally.at_least(10, "8 with records");
        tally.at_least(2, "8 before 10");
    }
}

/// Each byte of a record is wrong alone: those of a stamp by 7, those of a frame
/// and of a reset by 10.
#[test]
fn every_flaw_of_a_record_is_met() {
    for tally in tallies() {
        for at in 0..4 {
            tally.at_least(3, &format!("7: stamp byte {at}"));
        }
        for at in 5..RECORD {
            // The lowest byte of an identifier is never wrong alone: FF is right.
            tally.at_least(usize::from(at != 11), &format!("10: frame byte {at}"));
            tally.at_least(1, &format!("10: reset byte {at}"));
        }
        tally.at_least(3, "10: other byte 4");
        tally.at_least(2, "10: other kind, all zeros");
        for length in 0..8 {
            tally.at_least(1, &format!("10: not zero past length {length}"));
        }
        for place in ["first", "later"] {
            tally.at_least(2, &format!("7: {place} record, by one"));
        }
        tally.at_least(1, "7: reset");
        tally.at_least(5, "10 and 7 in one record");
        tally.at_least(2, "7 before 10 in the next record");
        tally.at_least(2, "10 before 7 in the next record");
    }
}

// The file as a whole.

#[test]
fn the_same_seed_gives_the_same_bytes() {
    assert_eq!(inputs(1, COUNT), inputs(1, COUNT));
    assert_ne!(inputs(1, COUNT), inputs(2, COUNT));
}

/// The bytes of seed 1 are known by their FNV-1a sum, so that a machine that
/// makes others is found out. A change of the maker changes the sum.
#[test]
fn the_bytes_of_seed_1_are_known() {
    let sum = inputs(1, COUNT).iter().fold(0xCBF2_9CE4_8422_2325, |sum: u64, &byte| {
        (sum ^ u64::from(byte)).wrapping_mul(0x0100_0000_01B3)
    });
    assert_eq!(sum, 0x824B_D8E6_B216_74A9, "{sum:#X}");
}

#[test]
fn fewer_cases_give_the_start_of_the_same_bytes() {
    let all = inputs(3, COUNT);
    for count in [0, 37, 599] {
        let start = inputs(3, count);
        assert!(start.len() < all.len());
        assert_eq!(start, all[..start.len()]);
        assert_eq!(Cases { rest: &start }.count() as u64, count);
    }
}

/// The marked cases and the catalogue leave a quarter of the cases to the mix;
/// inputs and answers together are not too large a file to keep.
#[test]
fn the_files_have_the_wanted_size() {
    for seed in [1, 2] {
        assert!((400..=450).contains(&fixed_count(seed)), "{}", fixed_count(seed));
        let all = inputs(seed, COUNT);
        let mut out = Vec::new();
        answer_all(&all, &mut out).unwrap();
        assert!(all.len() + out.len() < 2_800_000, "{} and {}", all.len(), out.len());
        let ends = String::from_utf8(out).unwrap();
        let ends = ends.lines().filter(|line| !line.as_bytes()[0].is_ascii_digit()).count();
        assert_eq!(ends as u64, COUNT);
    }
}
