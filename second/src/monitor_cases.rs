//! The monitor cases file: records of events and questions, and the text line
//! for each. The quoted sentences are those of docs/MONITOR_CASES.md. "Numbers
//! of several bytes are most significant byte first."

use crate::codec::Frame;
use crate::monitor::{right_answer, Monitor, Settings, Stamp, Ticks, Unit, SPEED_250};
use crate::refusal::Refusal;
use std::fmt::Write as _;
use std::io::{self, Write};

/// "A record has 20 bytes, a power-on 48."
pub const RECORD: usize = 20;
pub const POWER_ON_RECORD: usize = 48;

/// One record.
#[derive(Clone, Copy, Debug, PartialEq, Eq)]
pub enum Record {
    /// Kind 0, or kind 1 if storage fails.
    Frame { stamp: Stamp, storage_works: bool, frame: Frame },
    /// Kind 2.
    Reset { stamp: Stamp },
    /// Kind 3.
    Uptime { stamp: Stamp },
    /// Kind 4.
    PowerOn { stamp: Stamp, unit: Unit },
    /// Kind 5: "the seven challenge bytes".
    Challenge([u8; 7]),
}

fn number_at(record: &[u8], at: usize) -> u32 {
    u32::from_be_bytes([record[at], record[at + 1], record[at + 2], record[at + 3]])
}

/// The record at the start of the bytes and its size, or none for "a record
/// cut off at the end of the input, a kind that is not listed, or (kinds 0 and
/// 1) a byte 5 over 1".
pub fn decode(bytes: &[u8]) -> Option<(Record, usize)> {
    let size = match *bytes.get(4)? {
        4 => POWER_ON_RECORD,
        _ => RECORD,
    };
    let bytes = bytes.get(..size)?;
    let stamp = Stamp(u64::from(number_at(bytes, 0)));
    let record = match bytes[4] {
        0 => decode_frame(stamp, true, bytes)?,
        1 => decode_frame(stamp, false, bytes)?,
        2 => Record::Reset { stamp },
        3 => Record::Uptime { stamp },
        4 => Record::PowerOn { stamp, unit: decode_unit(bytes) },
        5 => Record::Challenge(bytes[13..20].try_into().expect("seven bytes")),
        _ => return None,
    };
    Some((record, size))
}

fn decode_frame(stamp: Stamp, storage_works: bool, record: &[u8]) -> Option<Record> {
    // "0 standard, 1 extended"
    let extended = match record[5] {
        0 => false,
        1 => true,
        _ => return None,
    };
    let bytes = record[12..20].try_into().expect("eight bytes");
    let frame = Frame { extended, length: record[6], identifier: number_at(record, 8), bytes };
    Some(Record::Frame { stamp, storage_works, frame })
}

fn decode_unit(record: &[u8]) -> Unit {
    Unit {
        serial: record[32..48].try_into().expect("sixteen bytes"),
        rating: u16::from_be_bytes([record[6], record[7]]),
        settings: Settings {
            receive: number_at(record, 8),
            transmit: number_at(record, 12),
            speed: number_at(record, 16),
            voltage: number_at(record, 20),
            warning: number_at(record, 24),
            fault: number_at(record, 28),
        },
    }
}

/// The bytes of a record.
pub fn encode(record: &Record) -> Vec<u8> {
    match record {
        Record::Frame { stamp, storage_works, frame } => {
            encode_frame(*stamp, *storage_works, frame)
        }
        Record::Reset { stamp } => head(*stamp, 2, RECORD),
        Record::Uptime { stamp } => head(*stamp, 3, RECORD),
        Record::PowerOn { stamp, unit } => encode_power_on(*stamp, unit),
        Record::Challenge(challenge) => {
            let mut bytes = head(Stamp(0), 5, RECORD);
            bytes[13..20].copy_from_slice(challenge);
            bytes
        }
    }
}

/// A record of zeros but for the stamp and the kind.
fn head(stamp: Stamp, kind: u8, size: usize) -> Vec<u8> {
    let mut bytes = vec![0; size];
    let stamp = u32::try_from(stamp.0).expect("a stamp of a record has 32 bits");
    bytes[..4].copy_from_slice(&stamp.to_be_bytes());
    bytes[4] = kind;
    bytes
}

fn encode_frame(stamp: Stamp, storage_works: bool, frame: &Frame) -> Vec<u8> {
    let mut bytes = head(stamp, u8::from(!storage_works), RECORD);
    bytes[5] = u8::from(frame.extended);
    bytes[6] = frame.length;
    bytes[8..12].copy_from_slice(&frame.identifier.to_be_bytes());
    bytes[12..20].copy_from_slice(&frame.bytes);
    bytes
}

fn encode_power_on(stamp: Stamp, unit: &Unit) -> Vec<u8> {
    let mut bytes = head(stamp, 4, POWER_ON_RECORD);
    bytes[6..8].copy_from_slice(&unit.rating.to_be_bytes());
    let Settings { receive, transmit, speed, voltage, warning, fault } = unit.settings;
    for (i, value) in [receive, transmit, speed, voltage, warning, fault].into_iter().enumerate() {
        bytes[8 + 4 * i..12 + 4 * i].copy_from_slice(&value.to_be_bytes());
    }
    bytes[32..48].copy_from_slice(&unit.serial);
    bytes
}

/// The bench on which the records are taken one after the other. "Before the
/// first accepted power-on there is no monitor."
#[derive(Clone, Debug, Default)]
pub struct Bench {
    pub monitor: Option<Monitor>,
}

impl Bench {
    /// Takes a record and gives its line, without its line feed.
    pub fn take(&mut self, record: &Record) -> String {
        if let Record::Challenge(challenge) = record {
            return challenge_line(*challenge);
        }
        let mut line = match record {
            Record::PowerOn { stamp, unit } => self.power_on(*stamp, unit),
            _ => match &mut self.monitor {
                Some(monitor) => first_part(monitor, record),
                None => "no monitor".to_string(),
            },
        };
        // "Second part of these lines"; "Where there is no monitor (nor has
        // this record begun one) [...] there is no second part."
        if let Some(monitor) = &self.monitor {
            line.push_str(&stored_part(monitor.stored()));
        }
        line
    }

    /// "A power-on that is accepted begins a new monitor, which takes the place
    /// of the one before. A power-on that is refused leaves the one before as
    /// it was."
    fn power_on(&mut self, stamp: Stamp, unit: &Unit) -> String {
        match Monitor::power_on(stamp, unit) {
            Ok(monitor) => {
                self.monitor = Some(monitor);
                "on".to_string()
            }
            Err(refusal) => refusal.to_string(),
        }
    }
}

/// The first part of the line of an event or an uptime question.
fn first_part(monitor: &mut Monitor, record: &Record) -> String {
    let answer = match record {
        Record::Frame { stamp, storage_works, frame } => {
            monitor.frame(*stamp, *storage_works, frame).map(reply_part)
        }
        Record::Reset { stamp } => monitor.reset(*stamp).map(|()| reply_part(None)),
        Record::Uptime { stamp } => monitor.uptime(*stamp).map(|Ticks(n)| format!("ticks {n}")),
        Record::PowerOn { .. } | Record::Challenge(_) => unreachable!("no event or question"),
    };
    answer.unwrap_or_else(|refusal: Refusal| refusal.to_string())
}

/// "`no reply`; or the reply frame"
pub fn reply_part(reply: Option<Frame>) -> String {
    reply.map_or("no reply".to_string(), |frame| frame.to_string())
}

/// "`stored` and the six settings that are stored after it, each after one
/// space", with the space that comes before.
pub fn stored_part(settings: &Settings) -> String {
    let Settings { receive, transmit, voltage, warning, fault, .. } = settings;
    // Only the two speeds are ever stored.
    let speed = if settings.speed == SPEED_250 { 250 } else { 500 };
    format!(" stored {receive:08X} {transmit:08X} {speed} {voltage} {warning} {fault}")
}

/// "`answer` and seven bytes in two digits each"
fn challenge_line(challenge: [u8; 7]) -> String {
    right_answer(challenge).iter().fold("answer".to_string(), |mut line, byte| {
        write!(line, " {byte:02X}").expect("a string takes all that is written");
        line
    })
}

/// Answers the records of a cases file, "one line for each record, in order",
/// up to the first that cannot be one. "Every line ends with one line feed, the
/// last too."
pub fn answer_all(cases: &[u8], out: &mut impl Write) -> io::Result<()> {
    let mut bench = Bench::default();
    let mut rest = cases;
    while let Some((record, size)) = decode(rest) {
        writeln!(out, "{}", bench.take(&record))?;
        rest = &rest[size..];
    }
    Ok(())
}
