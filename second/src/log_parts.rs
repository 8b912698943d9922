//! Logs in the making: their parts as bytes, which can be spoilt one by one
//! before they are put together.

use crate::codec::Frame;
use crate::history::Event;
use crate::log::{BLOCK, MAGIC, RECORD, TRAILER};
use crate::monitor::{Settings, Unit};
use crate::random::Random;

/// The parts before the trailer.
#[derive(Clone, Debug, PartialEq, Eq)]
pub struct Parts {
    pub notes: Vec<u8>,
    pub block: [u8; BLOCK],
    pub records: Vec<[u8; RECORD]>,
}

/// The three numbers of a trailer: block offset, record count, file length.
pub type Numbers = [u32; 3];

/// Where the block has its fields.
pub const POWER_ON_AT: usize = 0;
pub const SERIAL_AT: usize = 4;
pub const RATING_AT: usize = 20;
pub const RECEIVE_AT: usize = 22;
pub const TRANSMIT_AT: usize = 26;
pub const SPEED_AT: usize = 30;
pub const VOLTAGE_AT: usize = 34;
pub const WARNING_AT: usize = 38;
pub const FAULT_AT: usize = 42;
pub const ZEROS_AT: usize = 46;

/// Puts a number of 32 bits into bytes.
pub fn put(bytes: &mut [u8], at: usize, value: u32) {
    bytes[at..at + 4].copy_from_slice(&value.to_be_bytes());
}

/// A stamp of a log has 32 bits.
fn stamp_number(stamp: u64) -> u32 {
    u32::try_from(stamp).expect("a stamp of a log has 32 bits")
}

fn block(power_on: u64, unit: &Unit) -> [u8; BLOCK] {
    let mut block = [0; BLOCK];
    put(&mut block, POWER_ON_AT, stamp_number(power_on));
    block[SERIAL_AT..RATING_AT].copy_from_slice(&unit.serial);
    block[RATING_AT..RECEIVE_AT].copy_from_slice(&unit.rating.to_be_bytes());
    let Settings { receive, transmit, speed, voltage, warning, fault } = unit.settings;
    for (i, value) in [receive, transmit, speed, voltage, warning, fault].into_iter().enumerate() {
        put(&mut block, RECEIVE_AT + 4 * i, value);
    }
    block
}

/// The record of an event, with zeros past the length.
pub fn record(event: &Event) -> [u8; RECORD] {
    let mut record = [0; RECORD];
    put(&mut record, 0, stamp_number(event.stamp().0));
    match event {
        Event::Reset { .. } => record[4] = 2,
        Event::Frame { storage_works, frame, .. } => {
            record[4] = u8::from(!storage_works);
            put_frame(&mut record, frame);
        }
    }
    record
}

/// Puts a frame into a record, with zeros past its length.
pub fn put_frame(record: &mut [u8; RECORD], frame: &Frame) {
    record[5] = u8::from(frame.extended);
    record[6] = frame.length;
    record[7] = 0;
    put(record, 8, frame.identifier);
    let length = usize::from(frame.length);
    record[12..].fill(0);
    record[12..12 + length].copy_from_slice(&frame.bytes[..length]);
}

/// The stamp of a record.
pub fn stamp_of(record: &[u8]) -> u32 {
    u32::from_be_bytes([record[0], record[1], record[2], record[3]])
}

/// Any bytes.
pub fn random_bytes(random: &mut Random, length: usize) -> Vec<u8> {
    (0..length).map(|_| random.byte()).collect()
}

impl Parts {
    /// The parts of a log without notes.
    pub fn new(power_on: u64, unit: &Unit, events: &[Event]) -> Parts {
        let records = events.iter().map(record).collect();
        Parts { notes: Vec::new(), block: block(power_on, unit), records }
    }

    pub fn with_notes(mut self, notes: Vec<u8>) -> Parts {
        self.notes = notes;
        self
    }

    pub fn with_block_value(mut self, at: usize, value: u32) -> Parts {
        put(&mut self.block, at, value);
        self
    }

    pub fn with_rating(mut self, rating: u16) -> Parts {
        self.block[RATING_AT..RECEIVE_AT].copy_from_slice(&rating.to_be_bytes());
        self
    }

    /// The length of the file.
    pub fn length(&self) -> usize {
        self.notes.len() + BLOCK + RECORD * self.records.len() + TRAILER
    }

    /// What the trailer has to tell.
    pub fn numbers(&self) -> Numbers {
        [self.notes.len(), self.records.len(), self.length()].map(|number| number as u32)
    }

    /// The file with a trailer that tells what is so.
    pub fn bytes(&self) -> Vec<u8> {
        self.bytes_telling(self.numbers())
    }

    /// The file with a trailer that tells these numbers.
    pub fn bytes_telling(&self, numbers: Numbers) -> Vec<u8> {
        let mut bytes = self.notes.clone();
        bytes.extend(self.block);
        bytes.extend(self.records.iter().flatten());
        bytes.extend(trailer(numbers));
        bytes
    }

    /// The stamp that record `i` is compared with.
    pub fn stamp_before(&self, i: usize) -> u32 {
        match i {
            0 => stamp_of(&self.block),
            _ => stamp_of(&self.records[i - 1]),
        }
    }

    pub fn set_stamp(&mut self, i: usize, stamp: u32) {
        put(&mut self.records[i], 0, stamp);
    }
}

pub fn trailer(numbers: Numbers) -> [u8; TRAILER] {
    let mut trailer = [0; TRAILER];
    for (i, number) in numbers.into_iter().enumerate() {
        put(&mut trailer, 4 * i, number);
    }
    trailer[12..].copy_from_slice(&MAGIC);
    trailer
}
