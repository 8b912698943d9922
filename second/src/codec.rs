//! Reading and building SIM100 and SIM101 frames, and the text line of what
//! was read or built. The quoted sentences are those of document 01; the
//! table at the heart of this module is its table of reports.

use crate::refusal::Refusal;
use std::fmt;

/// "the device on 0x0A100100, unless set otherwise"
pub const DEVICE_IDENTIFIER: u32 = 0x0A10_0100;
/// "The host sends on extended 0x0A100101 [...] unless set otherwise"
pub const HOST_IDENTIFIER: u32 = 0x0A10_0101;

/// Limits of refusal 1.
const LONGEST: u8 = 8;
pub const HIGHEST_EXTENDED: u32 = 0x1FFF_FFFF;
pub const HIGHEST_STANDARD: u32 = 0x7FF;

/// The two device kinds.
#[derive(Clone, Copy, Debug, PartialEq, Eq)]
pub enum Kind {
    Sim100,
    Sim101,
}

/// The two directions: the device reports, the host requests.
#[derive(Clone, Copy, Debug, PartialEq, Eq)]
pub enum What {
    Report,
    Request,
}

/// A CAN frame as it was met. Only the first `length` bytes are part of it:
/// "Bytes past the length are ignored on reading and zero when built".
#[derive(Clone, Copy, Debug, PartialEq, Eq)]
pub struct Frame {
    pub extended: bool,
    pub length: u8,
    pub identifier: u32,
    pub bytes: [u8; 8],
}

/// A report or request without its identifier: the multiplexer and every
/// value, in the order of document 01's table.
#[derive(Clone, Debug, PartialEq, Eq)]
pub struct Message {
    pub multiplexer: u8,
    pub values: Vec<i64>,
}

/// The rows of document 01's table.
#[derive(Clone, Copy, Debug, PartialEq, Eq)]
pub enum Which {
    IsolationState,
    Resistances,
    Capacitances,
    Voltages,
    BatteryVoltage,
    ErrorFlags,
    Word,
    Temperature,
    WorkingVoltage,
}

/// All rows, in the order of the table.
pub const ALL_WHICH: [Which; 9] = [
    Which::IsolationState,
    Which::Resistances,
    Which::Capacitances,
    Which::Voltages,
    Which::BatteryVoltage,
    Which::ErrorFlags,
    Which::Word,
    Which::Temperature,
    Which::WorkingVoltage,
];

/// One value in a frame: its first byte, its number of bytes, its sign.
#[derive(Clone, Copy)]
struct Field {
    at: usize,
    size: usize,
    signed: bool,
}

/// What a frame of one multiplexer holds, and its length.
#[derive(Clone, Copy)]
struct Shape {
    length: u8,
    fields: &'static [Field],
}

/// A row of the table: the multiplexers it stands for, and the shape of the
/// report for each kind, or none where the row is not listed for the kind.
struct Row {
    first: u8,
    last: u8,
    sim100: Option<Shape>,
    sim101: Option<Shape>,
}

const fn unsigned(at: usize, size: usize) -> Field {
    Field { at, size, signed: false }
}

const fn signed(at: usize, size: usize) -> Field {
    Field { at, size, signed: true }
}

const fn shape(length: u8, fields: &'static [Field]) -> Option<Shape> {
    Some(Shape { length, fields })
}

/// "A SIM101 status byte is carried whole"; that of a SIM100 too, once it is
/// past the rule of 5.
const STATUS: Field = unsigned(1, 1);
/// "Uncertainties are bytes 0 to 255, carried unchanged": bytes 4 and 7.
const UNCERTAINTY_1: Field = unsigned(4, 1);
const UNCERTAINTY_2: Field = unsigned(7, 1);

/// "status, isolation Ohm/V (2-3), its uncertainty (4), energy mJ (5-6), its
/// uncertainty (7)"; and E1 to E4 "same places". "For SIM100 all 16-bit values
/// are unsigned."
const UNSIGNED_PAIR: &[Field] =
    &[STATUS, unsigned(2, 2), UNCERTAINTY_1, unsigned(5, 2), UNCERTAINTY_2];
/// "For SIM101, Vp, Vn and Vb are signed, two's complement"
const SIGNED_PAIR: &[Field] = &[STATUS, signed(2, 2), UNCERTAINTY_1, signed(5, 2), UNCERTAINTY_2];
/// Vb is signed as above, Vb max is not: "the others are unsigned".
const SIGNED_THEN_UNSIGNED: &[Field] =
    &[STATUS, signed(2, 2), UNCERTAINTY_1, unsigned(5, 2), UNCERTAINTY_2];
/// "error flags: SIM100 byte 2, SIM101 bytes 2-3". "SIM100 E5 bytes 3-7 are
/// undefined: ignored on reading, zero when built": they are no field.
const FLAGS_100: &[Field] = &[STATUS, unsigned(2, 1)];
const FLAGS_101: &[Field] = &[STATUS, unsigned(2, 2)];
/// "one 32-bit word (part name, version, serial)"
const WORD: &[Field] = &[unsigned(1, 4)];
/// "temperature in thousandths of a degree, signed 32 bits"
const TEMPERATURE: &[Field] = &[signed(1, 4)];
/// "working voltage, request and report alike"
const WORKING_VOLTAGE: &[Field] = &[unsigned(1, 2)];

/// Document 01's table, in the order of [`ALL_WHICH`].
#[rustfmt::skip]
const TABLE: [Row; 9] = [
    Row { first: 0xE0, last: 0xE0, sim100: shape(8, UNSIGNED_PAIR), sim101: shape(8, UNSIGNED_PAIR) },
    Row { first: 0xE1, last: 0xE1, sim100: shape(8, UNSIGNED_PAIR), sim101: shape(8, UNSIGNED_PAIR) },
    Row { first: 0xE2, last: 0xE2, sim100: shape(8, UNSIGNED_PAIR), sim101: shape(8, UNSIGNED_PAIR) },
    Row { first: 0xE3, last: 0xE3, sim100: shape(8, UNSIGNED_PAIR), sim101: shape(8, SIGNED_PAIR) },
    Row { first: 0xE4, last: 0xE4, sim100: shape(8, UNSIGNED_PAIR), sim101: shape(8, SIGNED_THEN_UNSIGNED) },
    Row { first: 0xE5, last: 0xE5, sim100: shape(8, FLAGS_100), sim101: shape(4, FLAGS_101) },
    Row { first: 0x01, last: 0x0B, sim100: shape(5, WORD), sim101: shape(5, WORD) },
    Row { first: 0x80, last: 0x80, sim100: None, sim101: shape(5, TEMPERATURE) },
    Row { first: 0xF0, last: 0xF0, sim100: shape(3, WORKING_VOLTAGE), sim101: None },
];

/// "A SIM100 read request has length 1."
const SIM100_READ_REQUEST: Shape = Shape { length: 1, fields: &[] };
/// "A SIM101 request has length 3, bytes 1 and 2 zero when we build it and
/// ignored when we read it."
const SIM101_REQUEST: Shape = Shape { length: 3, fields: &[] };

impl Row {
    fn holds(&self, multiplexer: u8) -> bool {
        (self.first..=self.last).contains(&multiplexer)
    }

    /// The shape of a report or request of this row, if the kind has it.
    fn shape(&self, what: What, kind: Kind) -> Option<Shape> {
        let report = match kind {
            Kind::Sim100 => self.sim100,
            Kind::Sim101 => self.sim101,
        }?;
        Some(match (what, kind) {
            (What::Report, _) => report,
            // "SIM100 only: working voltage, request and report alike"
            (What::Request, Kind::Sim100) if self.holds(0xF0) => report,
            (What::Request, Kind::Sim100) => SIM100_READ_REQUEST,
            (What::Request, Kind::Sim101) => SIM101_REQUEST,
        })
    }
}

impl Field {
    /// The lowest and the highest number that fit the field.
    fn range(&self) -> (i64, i64) {
        let bits = 8 * self.size as u32;
        if self.signed {
            (-(1i64 << (bits - 1)), (1i64 << (bits - 1)) - 1)
        } else {
            (0, (1i64 << bits) - 1)
        }
    }

    fn fits(&self, value: i64) -> bool {
        let (lowest, highest) = self.range();
        lowest <= value && value <= highest
    }

    /// "All numbers are most significant byte first." A signed number is
    /// "two's complement, so FF 9C is minus 100": past the highest number of
    /// the field the count goes on from the lowest.
    fn get(&self, bytes: &[u8; 8]) -> i64 {
        let plain = bytes[self.at..self.at + self.size]
            .iter()
            .fold(0i64, |number, &byte| number * 256 + i64::from(byte));
        if self.fits(plain) {
            plain
        } else {
            plain - (1i64 << (8 * self.size))
        }
    }

    /// Puts a value that fits.
    fn put(&self, bytes: &mut [u8; 8], value: i64) {
        let mut rest = value;
        for place in (self.at..self.at + self.size).rev() {
            bytes[place] = rest.rem_euclid(256) as u8;
            rest = rest.div_euclid(256);
        }
    }
}

/// The shape listed for a multiplexer, if there is one for that device kind.
fn listed(what: What, kind: Kind, multiplexer: u8) -> Option<Shape> {
    TABLE.iter().find(|row| row.holds(multiplexer)).and_then(|row| row.shape(what, kind))
}

/// The length listed for a multiplexer, if there is one for that device kind.
pub fn listed_length(what: What, kind: Kind, multiplexer: u8) -> Option<u8> {
    listed(what, kind, multiplexer).map(|shape| shape.length)
}

/// Refusal 1: "a frame's length is over 8, or its identifier over 0x1FFFFFFF
/// (extended) or 0x7FF (standard)".
pub fn over_limits(frame: &Frame) -> bool {
    let highest = if frame.extended { HIGHEST_EXTENDED } else { HIGHEST_STANDARD };
    frame.length > LONGEST || frame.identifier > highest
}

/// The rule of 5: "SIM100 report E0 to E5 with status bit 4 set, or status
/// bits 1-0 equal to 01".
fn breaks_rule_of_5(kind: Kind, multiplexer: u8, status: i64) -> bool {
    let bit_4 = (status >> 4) & 1;
    let bits_1_0 = status & 3;
    kind == Kind::Sim100 && (0xE0..=0xE5).contains(&multiplexer) && (bit_4 == 1 || bits_1_0 == 1)
}

/// Reads a report or request. "Reading a report: 1, 2, 3, 4, 5. Reading a
/// request: 1, 2, 3, 4."
pub fn read(what: What, kind: Kind, expected: u32, frame: &Frame) -> Result<Message, Refusal> {
    if over_limits(frame) {
        return Err(Refusal::OverLimits);
    }
    if !frame.extended || frame.identifier != expected {
        return Err(Refusal::NotExpected);
    }
    if frame.length == 0 {
        return Err(Refusal::NotListed);
    }
    // "Byte 0 is the multiplexer"
    let multiplexer = frame.bytes[0];
    let shape = listed(what, kind, multiplexer).ok_or(Refusal::NotListed)?;
    if frame.length != shape.length {
        return Err(Refusal::WrongLength);
    }
    if what == What::Report && breaks_rule_of_5(kind, multiplexer, STATUS.get(&frame.bytes)) {
        return Err(Refusal::BadStatus);
    }
    let values = shape.fields.iter().map(|field| field.get(&frame.bytes)).collect();
    Ok(Message { multiplexer, values })
}

/// Builds a report or request as row `which`. "Building a frame: 1
/// (identifier), 3, 6." Built frames are extended. The message has as many
/// values as the row has fields; another number of them is a fault of the
/// caller, not a refusal.
pub fn build(
    what: What,
    kind: Kind,
    identifier: u32,
    which: Which,
    message: &Message,
) -> Result<Frame, Refusal> {
    if identifier > HIGHEST_EXTENDED {
        return Err(Refusal::OverLimits);
    }
    // A multiplexer of another row is not listed as one of this row: a word
    // numbered E0 is no word.
    let row = &TABLE[which as usize];
    if !row.holds(message.multiplexer) {
        return Err(Refusal::NotListed);
    }
    let shape = row.shape(what, kind).ok_or(Refusal::NotListed)?;
    assert_eq!(message.values.len(), shape.fields.len(), "one value for each field");
    let pairs = || shape.fields.iter().zip(&message.values);
    if pairs().any(|(field, &value)| !field.fits(value)) {
        return Err(Refusal::DoesNotFit);
    }
    // "Bytes past the length are [...] zero when built"
    let mut bytes = [0; 8];
    bytes[0] = message.multiplexer;
    for (field, &value) in pairs() {
        field.put(&mut bytes, value);
    }
    if what == What::Report && breaks_rule_of_5(kind, bytes[0], STATUS.get(&bytes)) {
        return Err(Refusal::DoesNotFit);
    }
    Ok(Frame { extended: true, length: shape.length, identifier, bytes })
}

impl Which {
    /// The first multiplexer of the row; the only one, but for words.
    pub fn multiplexer(self) -> u8 {
        TABLE[self as usize].first
    }
}

impl fmt::Display for Message {
    fn fmt(&self, f: &mut fmt::Formatter) -> fmt::Result {
        write!(f, "{:02X}", self.multiplexer)?;
        self.values.iter().try_for_each(|value| write!(f, " {value}"))
    }
}

impl fmt::Display for Frame {
    fn fmt(&self, f: &mut fmt::Formatter) -> fmt::Result {
        let digits = if self.extended { 8 } else { 3 };
        write!(f, "{:0digits$X} {}", self.identifier, self.length)?;
        self.bytes.iter().try_for_each(|byte| write!(f, " {byte:02X}"))
    }
}

#[cfg(test)]
mod tests {
    use super::*;

    const BOTH_KINDS: [Kind; 2] = [Kind::Sim100, Kind::Sim101];

    fn frame(length: u8, identifier: u32, bytes: &[u8]) -> Frame {
        let mut all = [0xAA; 8];
        all[..bytes.len()].copy_from_slice(bytes);
        Frame { extended: true, length, identifier, bytes: all }
    }

    fn report(kind: Kind, bytes: &[u8]) -> Result<Message, Refusal> {
        read(
            What::Report,
            kind,
            DEVICE_IDENTIFIER,
            &frame(bytes.len() as u8, DEVICE_IDENTIFIER, bytes),
        )
    }

    fn request(kind: Kind, bytes: &[u8]) -> Result<Message, Refusal> {
        read(
            What::Request,
            kind,
            HOST_IDENTIFIER,
            &frame(bytes.len() as u8, HOST_IDENTIFIER, bytes),
        )
    }

    fn line(answer: Result<Message, Refusal>) -> String {
        match answer {
            Ok(message) => message.to_string(),
            Err(refusal) => refusal.to_string(),
        }
    }

    fn built(what: What, kind: Kind, which: Which, multiplexer: u8, values: &[i64]) -> String {
        let message = Message { multiplexer, values: values.to_vec() };
        match build(what, kind, DEVICE_IDENTIFIER, which, &message) {
            Ok(frame) => frame.to_string(),
            Err(refusal) => refusal.to_string(),
        }
    }

    #[test]
    fn isolation_state_of_the_worked_example() {
        for kind in BOTH_KINDS {
            let bytes = [0xE0, 0x00, 0x02, 0x26, 0x02, 0x00, 0x50, 0x04];
            assert_eq!(report(kind, &bytes).unwrap().values, [0, 550, 2, 80, 4]);
            assert_eq!(line(report(kind, &bytes)), "E0 0 550 2 80 4");
        }
    }

    #[test]
    fn working_voltage_of_the_worked_example() {
        let bytes = [0xF0, 0x02, 0x58];
        assert_eq!(line(report(Kind::Sim100, &bytes)), "F0 600");
        assert_eq!(line(request(Kind::Sim100, &bytes)), "F0 600");
        assert_eq!(line(report(Kind::Sim101, &bytes)), "refused 3");
        assert_eq!(line(request(Kind::Sim101, &bytes)), "refused 3");
        assert_eq!(line(request(Kind::Sim100, &bytes[..1])), "refused 4");
    }

    #[test]
    fn ff_9c_is_minus_100_for_sim101_alone() {
        let voltages = [0xE3, 0x00, 0xFF, 0x9C, 0xFF, 0xFF, 0x9C, 0x80];
        assert_eq!(line(report(Kind::Sim101, &voltages)), "E3 0 -100 255 -100 128");
        assert_eq!(line(report(Kind::Sim100, &voltages)), "E3 0 65436 255 65436 128");
        let battery = [0xE4, 0x00, 0xFF, 0x9C, 0x01, 0xFF, 0x9C, 0x02];
        assert_eq!(line(report(Kind::Sim101, &battery)), "E4 0 -100 1 65436 2");
        assert_eq!(line(report(Kind::Sim100, &battery)), "E4 0 65436 1 65436 2");
    }

    #[test]
    fn error_flags_have_one_byte_or_two() {
        assert_eq!(line(report(Kind::Sim101, &[0xE5, 0x80, 0x12, 0x34])), "E5 128 4660");
        assert_eq!(line(report(Kind::Sim100, &[0xE5, 0x80, 0x12, 0x34])), "refused 4");
        let eight = [0xE5, 0x80, 0x12, 0x34, 5, 6, 7, 8];
        assert_eq!(line(report(Kind::Sim100, &eight)), "E5 128 18");
        assert_eq!(line(report(Kind::Sim101, &eight)), "refused 4");
    }

    #[test]
    fn words_and_temperatures() {
        for kind in BOTH_KINDS {
            assert_eq!(line(report(kind, &[0x08, 0x12, 0x34, 0x56, 0x78])), "08 305419896");
            assert_eq!(line(report(kind, &[0x0B, 0xFF, 0xFF, 0xFF, 0xFF])), "0B 4294967295");
            assert_eq!(line(report(kind, &[0x0C, 0, 0, 0, 0])), "refused 3");
            assert_eq!(line(report(kind, &[0x00, 0, 0, 0, 0])), "refused 3");
        }
        assert_eq!(line(report(Kind::Sim101, &[0x80, 0xFF, 0xFF, 0x63, 0xC0])), "80 -40000");
        assert_eq!(line(report(Kind::Sim101, &[0x80, 0x80, 0, 0, 0])), "80 -2147483648");
        assert_eq!(line(report(Kind::Sim100, &[0x80, 0, 0, 0, 0])), "refused 3");
    }

    #[test]
    fn requests_have_the_length_of_their_kind() {
        assert_eq!(line(request(Kind::Sim100, &[0xE1])), "E1");
        assert_eq!(line(request(Kind::Sim100, &[0xE1, 0, 0])), "refused 4");
        assert_eq!(line(request(Kind::Sim101, &[0x0A, 0x11, 0x10])), "0A");
        assert_eq!(line(request(Kind::Sim101, &[0xE0, 0x11, 0x10])), "E0");
        assert_eq!(line(request(Kind::Sim101, &[0x0A])), "refused 4");
    }

    #[test]
    fn rule_of_5_for_each_status() {
        for status in 0..=255u8 {
            let bytes = [0xE2, status, 0, 1, 2, 0, 3, 4];
            let whole = format!("E2 {status} 1 2 3 4");
            assert_eq!(line(report(Kind::Sim101, &bytes)), whole);
            let bad = status & 0b0001_0000 != 0 || status & 0b11 == 0b01;
            let expected = if bad { "refused 5" } else { whole.as_str() };
            assert_eq!(line(report(Kind::Sim100, &bytes)), expected);
        }
    }

    #[test]
    fn the_smaller_number_comes_first() {
        let id = DEVICE_IDENTIFIER;
        let bad = [0xE0, 0x10, 0, 0, 0, 0, 0, 0];
        let ask = |expected, frame: Frame| {
            read(What::Report, Kind::Sim100, expected, &frame).unwrap_err() as u8
        };
        assert_eq!(ask(id + 1, frame(9, id, &bad)), 1);
        assert_eq!(ask(id, frame(255, id, &[0])), 1);
        assert_eq!(ask(0x2000_0000, frame(0, 0x2000_0000, &bad)), 1);
        assert_eq!(ask(id, Frame { extended: false, ..frame(8, 0x800, &bad) }), 1);
        assert_eq!(ask(0x7FF, Frame { extended: false, ..frame(8, 0x7FF, &bad) }), 2);
        assert_eq!(ask(id + 1, frame(0, id, &bad)), 2);
        assert_eq!(ask(0x2000_0000, frame(8, id, &bad)), 2);
        assert_eq!(ask(id | 0x2000_0000, frame(8, id, &bad)), 2);
        assert_eq!(ask(id ^ 0x0001_0000, frame(8, id, &bad)), 2);
        assert_eq!(ask(id, frame(0, id, &bad)), 3);
        assert_eq!(ask(id, frame(7, id, &[0xE6, 0x10])), 3);
        assert_eq!(ask(id, frame(7, id, &bad)), 4);
        assert_eq!(ask(id, frame(8, id, &bad)), 5);
    }

    #[test]
    fn frames_that_are_built() {
        assert_eq!(
            built(What::Report, Kind::Sim101, Which::Word, 0x08, &[0x1234_5678]),
            "0A100100 5 08 12 34 56 78 00 00 00"
        );
        assert_eq!(
            built(What::Report, Kind::Sim100, Which::ErrorFlags, 0xE5, &[128, 255]),
            "0A100100 8 E5 80 FF 00 00 00 00 00"
        );
        assert_eq!(
            built(What::Report, Kind::Sim101, Which::Voltages, 0xE3, &[0x11, -100, 1, 25, 2]),
            "0A100100 8 E3 11 FF 9C 01 00 19 02"
        );
        assert_eq!(
            built(What::Request, Kind::Sim101, Which::ErrorFlags, 0xE5, &[]),
            "0A100100 3 E5 00 00 00 00 00 00 00"
        );
        assert_eq!(
            built(What::Request, Kind::Sim100, Which::WorkingVoltage, 0xF0, &[600]),
            "0A100100 3 F0 02 58 00 00 00 00 00"
        );
    }

    #[test]
    fn builds_that_are_refused() {
        let flags = |kind, status, flags| {
            built(What::Report, kind, Which::ErrorFlags, 0xE5, &[status, flags])
        };
        assert_eq!(flags(Kind::Sim100, 0, 256), "refused 6");
        assert_eq!(flags(Kind::Sim100, 0x10, 0), "refused 6");
        assert_eq!(flags(Kind::Sim100, 0x05, 0), "refused 6");
        assert_eq!(flags(Kind::Sim101, 0x15, 256), "0A100100 4 E5 15 01 00 00 00 00 00");
        let battery = |kind, vb, vb_max| {
            built(What::Report, kind, Which::BatteryVoltage, 0xE4, &[0, vb, 0, vb_max, 0])
        };
        assert_eq!(battery(Kind::Sim100, -1, 0), "refused 6");
        assert_eq!(battery(Kind::Sim100, 65_536, 0), "refused 6");
        assert_eq!(battery(Kind::Sim101, 32_768, 0), "refused 6");
        assert_eq!(battery(Kind::Sim101, -32_769, 0), "refused 6");
        assert_eq!(battery(Kind::Sim101, -32_768, 65_535), "0A100100 8 E4 00 80 00 00 FF FF 00");
        let voltages =
            |kind, vp, vn| built(What::Report, kind, Which::Voltages, 0xE3, &[0, vp, 0, vn, 0]);
        assert_eq!(voltages(Kind::Sim100, 0, -1), "refused 6");
        assert_eq!(voltages(Kind::Sim100, 0, 65_536), "refused 6");
        assert_eq!(voltages(Kind::Sim101, 0, 32_768), "refused 6");
        assert_eq!(voltages(Kind::Sim101, 0, -32_769), "refused 6");
        assert_eq!(voltages(Kind::Sim100, 32_768, 65_535), "0A100100 8 E3 00 80 00 00 FF FF 00");
        for number in [0x00, 0x0C, 0xE0, 0xF0, 0x80] {
            assert_eq!(built(What::Report, Kind::Sim100, Which::Word, number, &[0]), "refused 3");
            assert_eq!(built(What::Request, Kind::Sim101, Which::Word, number, &[]), "refused 3");
        }
        assert_eq!(built(What::Report, Kind::Sim100, Which::Temperature, 0x80, &[-1]), "refused 3");
        assert_eq!(
            built(What::Request, Kind::Sim101, Which::WorkingVoltage, 0xF0, &[]),
            "refused 3"
        );
        let over = Message { multiplexer: 0x0C, values: vec![0] };
        let answer = build(What::Report, Kind::Sim100, 0x2000_0000, Which::Word, &over);
        assert_eq!(answer, Err(Refusal::OverLimits));
    }

    #[test]
    fn a_standard_frame_has_three_digits() {
        let frame = Frame {
            extended: false,
            length: 1,
            identifier: 0x7A,
            bytes: [0xE0, 0, 0, 0, 0, 0, 0, 0],
        };
        assert_eq!(frame.to_string(), "07A 1 E0 00 00 00 00 00 00 00");
    }

    /// "Built frames read back as the same values."
    #[test]
    fn built_then_read_is_the_same() {
        let samples: [(Which, u8, &[i64]); 12] = [
            (Which::IsolationState, 0xE0, &[0xEE, 0x1234, 0x56, 0x789A, 0xBC]),
            (Which::Resistances, 0xE1, &[0, 65_535, 255, 0, 1]),
            (Which::Capacitances, 0xE2, &[2, 1, 0, 32_768, 128]),
            (Which::Voltages, 0xE3, &[3, 32_767, 1, 258, 2]),
            (Which::Voltages, 0xE3, &[3, -32_768, 1, -1, 2]),
            (Which::BatteryVoltage, 0xE4, &[0x8C, 5, 6, 65_535, 7]),
            (Which::BatteryVoltage, 0xE4, &[0x8C, -5, 6, 32_768, 7]),
            (Which::ErrorFlags, 0xE5, &[0x80, 0xFC]),
            (Which::ErrorFlags, 0xE5, &[0x91, 0x1234]),
            (Which::Word, 0x0B, &[0xFEDC_BA98]),
            (Which::Temperature, 0x80, &[-2_147_483_648]),
            (Which::WorkingVoltage, 0xF0, &[65_535]),
        ];
        let mut read_back = 0;
        for kind in BOTH_KINDS {
            for (which, multiplexer, values) in samples {
                let message = Message { multiplexer, values: values.to_vec() };
                if let Ok(frame) = build(What::Report, kind, 0x1FFF_FFFF, which, &message) {
                    assert_eq!(read(What::Report, kind, 0x1FFF_FFFF, &frame), Ok(message));
                    read_back += 1;
                }
            }
        }
        // SIM100: all but the two negative ones, the wide flags and the
        // temperature. SIM101: all but the working voltage.
        assert_eq!(read_back, 8 + 11);
    }

    /// "A read frame builds back the same frame, except that SIM100 E5 gets
    /// zeros in 3-7 and a SIM101 request in 1-2."
    #[test]
    fn read_then_built_is_the_same() {
        for kind in BOTH_KINDS {
            for which in ALL_WHICH {
                let multiplexer = which.multiplexer();
                for what in [What::Report, What::Request] {
                    let Some(length) = listed_length(what, kind, multiplexer) else {
                        continue;
                    };
                    let start =
                        frame(length, 7, &[multiplexer, 0xCE, 0x83, 0x45, 0x67, 0x89, 0xAB, 0xCD]);
                    let message = read(what, kind, 7, &start).unwrap();
                    let mut same = start;
                    let kept = match (what, kind, which) {
                        (What::Report, Kind::Sim100, Which::ErrorFlags) => 3,
                        (What::Request, Kind::Sim101, _) => 1,
                        _ => length as usize,
                    };
                    same.bytes[kept..].fill(0);
                    assert_eq!(build(what, kind, 7, which, &message), Ok(same));
                }
            }
        }
    }

    #[test]
    fn the_list_of_multiplexers() {
        for kind in BOTH_KINDS {
            let only = if kind == Kind::Sim100 { 0xF0 } else { 0x80 };
            for multiplexer in 0..=255u8 {
                let expected =
                    matches!(multiplexer, 0x01..=0x0B | 0xE0..=0xE5) || multiplexer == only;
                for what in [What::Report, What::Request] {
                    assert_eq!(listed_length(what, kind, multiplexer).is_some(), expected);
                }
            }
        }
    }
}
