//! The maker of codec cases. The marked cases come first, the same bytes for
//! each seed. They begin the systematic questions, the rest of which are the
//! same kinds for each seed, only their free bytes follow the seed. After them
//! come random ones, most of them nearly right.

use crate::codec::{
    listed_length, Frame, Kind, What, Which, ALL_WHICH, DEVICE_IDENTIFIER, HOST_IDENTIFIER,
};
use crate::codec_cases::{encode, first_is_16_bits, second_is_16_bits, Question, Task, Values};
use crate::random::Random;
use std::io::{self, Write};

const WHATS: [What; 2] = [What::Report, What::Request];
const KINDS: [Kind; 2] = [Kind::Sim100, Kind::Sim101];

/// Multiplexers worth every length: the ends of each listed range and their
/// neighbours, those of the other kind, those the pages have but the list
/// leaves out (0C, 60, C1, E6, E7), and values of one bit or of all.
const INTERESTING: [u8; 25] = [
    0x00, 0x01, 0x05, 0x07, 0x08, 0x0B, 0x0C, 0x60, 0x7F, 0x80, 0x81, 0xC1, 0xDF, //
    0xE0, 0xE1, 0xE2, 0xE3, 0xE4, 0xE5, 0xE6, 0xE7, 0xEF, 0xF0, 0xF1, 0xFF,
];

/// Lengths for extended frames with an interesting multiplexer.
const LENGTHS: [u8; 15] = [0, 1, 2, 3, 4, 5, 6, 7, 8, 9, 10, 16, 127, 128, 255];
/// Fewer for standard frames, which are never accepted.
const STANDARD_LENGTHS: [u8; 5] = [0, 2, 8, 9, 255];

/// Identifiers at and around each limit and each default.
const IDENTIFIERS: [u32; 14] = [
    0,
    0x100,
    0x7FE,
    0x7FF,
    0x800,
    0x0A10_00FF,
    0x0A10_0100,
    0x0A10_0101,
    0x0A10_0102,
    0x1FFF_FFFE,
    0x1FFF_FFFF,
    0x2000_0000,
    0x8000_0000,
    0xFFFF_FFFF,
];

/// Identifiers of frames to build.
const BUILD_IDENTIFIERS: [u32; 16] = [
    0,
    1,
    0x7FF,
    0x800,
    0x0A10_0100,
    0x0A10_0101,
    0x1234_5678,
    0x1FFF_FFFE,
    0x1FFF_FFFF,
    0x2000_0000,
    0x2A10_0100,
    0x7FFF_FFFF,
    0x8000_0000,
    0x8A10_0101,
    0xFFFF_FFFE,
    0xFFFF_FFFF,
];

/// Identifiers that no frame may have.
const OVER_IDENTIFIERS: [u32; 4] = [0x2000_0000, 0x4A10_0100, 0x8A10_0101, 0xFFFF_FFFF];

/// Status bytes for the rows that do not get all 256.
const STATUSES: [u8; 24] = [
    0x00, 0x01, 0x02, 0x03, 0x04, 0x05, 0x08, 0x09, 0x0D, 0x0F, 0x10, 0x11, //
    0x12, 0x13, 0x20, 0x21, 0x41, 0x80, 0x81, 0xED, 0xEE, 0xEF, 0xF0, 0xFF,
];

/// Values of fields of 16 bits.
const NUMBERS_16: [u16; 13] =
    [0, 1, 0x7F, 0x80, 0xFF, 0x100, 0x1234, 0x7FFF, 0x8000, 0x8001, 0xFF9C, 0xFFFE, 0xFFFF];

/// Values of fields of 32 bits, temperatures among them.
const NUMBERS_32: [u32; 14] = [
    0,
    1,
    0x7FFF,
    0x8000,
    0xFFFF,
    0x1_0000,
    0x00FF_00FF,
    0x1234_5678,
    0x7FFF_FFFF,
    0x8000_0000,
    0x8000_0001,
    0xFFFF_63C0,
    0xFFFF_FFFE,
    0xFFFF_FFFF,
];

/// Voltages at and just past the limits of either kind; -65436 has the low 16
/// bits of 100, so that a cut shows.
const VOLTAGES: [i32; 15] = [
    i32::MIN,
    -65_536,
    -65_436,
    -32_769,
    -32_768,
    -100,
    -1,
    0,
    1,
    32_767,
    32_768,
    65_535,
    65_536,
    65_636,
    i32::MAX,
];

/// Vb max: always 16 bits.
const VB_MAXES: [u32; 6] = [0, 1, 32_767, 32_768, 65_436, 65_535];

const UNCERTAINTIES: [u8; 5] = [0, 1, 127, 128, 255];

const ERROR_FLAGS: [u32; 14] =
    [0, 1, 127, 128, 252, 255, 256, 257, 0x1234, 0x7FFF, 0x8000, 0xFF00, 0xFF80, 0xFFFF];

/// P11 of document 01, and the sample transaction of document 000: "E0 00 02
/// 26 02 00 50 04 reads 550, 2, 80, 4".
const P11_BYTES: [u8; 8] = [0xE0, 0x00, 0x02, 0x26, 0x02, 0x00, 0x50, 0x04];
const P11_VALUES: Values = Values {
    which: Which::IsolationState,
    status_or_number: 0,
    first: 550,
    first_uncertainty: 2,
    second: 80,
    second_uncertainty: 4,
};

/// P12 of document 01: "F0 02 58 reads 600".
const P12_BYTES: [u8; 8] = [0xF0, 0x02, 0x58, 0, 0, 0, 0, 0];
const P12_VALUES: Values = Values {
    which: Which::WorkingVoltage,
    status_or_number: 0,
    first: 600,
    first_uncertainty: 0,
    second: 0,
    second_uncertainty: 0,
};

/// "FF 9C is minus 100", as Vp of a SIM101. A SIM100 has no sign there.
const MINUS_100_BYTES: [u8; 8] = [0xE3, 0x00, 0xFF, 0x9C, 0x01, 0x00, 0x64, 0x02];
const MINUS_100_VALUES: Values = Values {
    which: Which::Voltages,
    status_or_number: 0,
    first: -100_i32 as u32,
    first_uncertainty: 1,
    second: 100,
    second_uncertainty: 2,
};

/// The marked cases of document 01 that concern frames, and its example of a
/// sign: each is read, and then each is built.
const MARKED: [(What, Kind, u8, [u8; 8], Values); 6] = [
    (What::Report, Kind::Sim100, 8, P11_BYTES, P11_VALUES),
    (What::Report, Kind::Sim101, 8, P11_BYTES, P11_VALUES),
    (What::Report, Kind::Sim100, 3, P12_BYTES, P12_VALUES),
    (What::Request, Kind::Sim100, 3, P12_BYTES, P12_VALUES),
    (What::Report, Kind::Sim101, 8, MINUS_100_BYTES, MINUS_100_VALUES),
    (What::Report, Kind::Sim100, 8, MINUS_100_BYTES, MINUS_100_VALUES),
];

/// The identifier a report or request has unless set otherwise.
fn default_identifier(what: What) -> u32 {
    match what {
        What::Report => DEVICE_IDENTIFIER,
        What::Request => HOST_IDENTIFIER,
    }
}

/// The multiplexers listed for a kind.
fn listed(kind: Kind) -> Vec<u8> {
    (0..=255).filter(|&m| listed_length(What::Report, kind, m).is_some()).collect()
}

fn has_status(multiplexer: u8) -> bool {
    (0xE0..=0xE5).contains(&multiplexer)
}

/// The nearest status that no kind refuses: bit 4 cleared, 01 made 11.
fn mended_status(status: u8) -> u8 {
    let without_bit_4 = status & 0xEF;
    if without_bit_4 & 3 == 1 {
        without_bit_4 | 2
    } else {
        without_bit_4
    }
}

fn other(kind: Kind) -> Kind {
    match kind {
        Kind::Sim100 => Kind::Sim101,
        Kind::Sim101 => Kind::Sim100,
    }
}

fn opposite(what: What) -> What {
    match what {
        What::Report => What::Request,
        What::Request => What::Report,
    }
}

/// Whether a row of values is listed for a kind.
fn is_listed(which: Which, kind: Kind) -> bool {
    listed_length(What::Report, kind, which.multiplexer()).is_some()
}

/// A frame that reads well if its multiplexer is listed. All eight bytes are
/// random, those past the length too; a status is one that no kind refuses.
fn good_frame(random: &mut Random, what: What, kind: Kind, multiplexer: u8) -> Frame {
    let mut bytes = random.bytes();
    bytes[0] = multiplexer;
    if has_status(multiplexer) {
        bytes[1] = mended_status(bytes[1]);
    }
    let unlisted: &[u8] = match (what, kind) {
        (What::Report, _) => &[8, 5, 3, 4],
        (What::Request, Kind::Sim100) => &[1, 1, 1, 3],
        (What::Request, Kind::Sim101) => &[3, 3, 3, 1],
    };
    let length = listed_length(what, kind, multiplexer).unwrap_or_else(|| random.pick(unlisted));
    Frame { extended: true, length, identifier: default_identifier(what), bytes }
}

/// Values that build well for a kind that lists the row.
fn good_values(random: &mut Random, kind: Kind, which: Which) -> Values {
    let byte = random.byte();
    let mut values = Values {
        which,
        status_or_number: match which {
            Which::Word => 1 + byte % 11,
            _ => mended_status(byte),
        },
        first: random.word(),
        first_uncertainty: random.byte(),
        second: random.word(),
        second_uncertainty: random.byte(),
    };
    values.first = match which {
        Which::Word | Which::Temperature => values.first,
        Which::ErrorFlags if kind == Kind::Sim100 => values.first & 0xFF,
        Which::Voltages | Which::BatteryVoltage => fitting_voltage(kind, values.first),
        _ => values.first & 0xFFFF,
    };
    values.second = match which {
        Which::Voltages => fitting_voltage(kind, values.second),
        _ => values.second & 0xFFFF,
    };
    values
}

/// A voltage that fits: unsigned 16 bits for SIM100, signed for SIM101.
fn fitting_voltage(kind: Kind, random: u32) -> u32 {
    match kind {
        Kind::Sim100 => random & 0xFFFF,
        Kind::Sim101 => i32::from(random as i16) as u32,
    }
}

/// The systematic questions as they are gathered.
struct Maker {
    random: Random,
    questions: Vec<Question>,
}

impl Maker {
    fn read(&mut self, what: What, kind: Kind, expected: u32, frame: Frame) {
        self.questions.push(Question { what, kind, identifier: expected, task: Task::Read(frame) });
    }

    /// A frame on the identifier that is expected.
    fn read_expected(&mut self, what: What, kind: Kind, frame: Frame) {
        self.read(what, kind, frame.identifier, frame);
    }

    fn build(&mut self, what: What, kind: Kind, identifier: u32, values: Values) {
        self.questions.push(Question { what, kind, identifier, task: Task::Build(values) });
    }

    /// A report on the device's identifier.
    fn build_report(&mut self, kind: Kind, values: Values) {
        self.build(What::Report, kind, DEVICE_IDENTIFIER, values);
    }

    fn frame(&mut self, what: What, kind: Kind, multiplexer: u8) -> Frame {
        good_frame(&mut self.random, what, kind, multiplexer)
    }

    fn values(&mut self, kind: Kind, which: Which) -> Values {
        good_values(&mut self.random, kind, which)
    }

    /// The marked cases, read and built. No byte of them is random.
    fn marked_cases(&mut self) {
        for (what, kind, length, bytes, _) in MARKED {
            let identifier = default_identifier(what);
            self.read_expected(what, kind, Frame { extended: true, length, identifier, bytes });
        }
        for (what, kind, _, _, values) in MARKED {
            self.build(what, kind, default_identifier(what), values);
        }
    }

    // Reading.

    /// Every multiplexer for both kinds, extended and standard.
    fn every_multiplexer(&mut self) {
        for what in WHATS {
            for kind in KINDS {
                for multiplexer in 0..=255 {
                    let frame = self.frame(what, kind, multiplexer);
                    self.read_expected(what, kind, frame);
                    let identifier = frame.identifier & 0x7FF;
                    let standard = Frame { extended: false, identifier, ..frame };
                    self.read_expected(what, kind, standard);
                }
            }
        }
    }

    /// Interesting multiplexers with every length, extended and standard.
    fn every_length(&mut self) {
        for what in WHATS {
            for kind in KINDS {
                for multiplexer in INTERESTING {
                    for length in LENGTHS {
                        let frame = self.frame(what, kind, multiplexer);
                        self.read_expected(what, kind, Frame { length, ..frame });
                    }
                    for length in STANDARD_LENGTHS {
                        let frame = self.frame(what, kind, multiplexer);
                        let identifier = frame.identifier & 0x7FF;
                        let standard = Frame { extended: false, length, identifier, ..frame };
                        self.read_expected(what, kind, standard);
                    }
                }
            }
        }
    }

    /// Each edge identifier where each is expected.
    fn every_identifier(&mut self) {
        for what in WHATS {
            for kind in KINDS {
                let multiplexers = listed(kind);
                for expected in IDENTIFIERS {
                    for identifier in IDENTIFIERS {
                        for extended in [false, true] {
                            let multiplexer = self.random.pick(&multiplexers);
                            let frame = self.frame(what, kind, multiplexer);
                            self.read(
                                what,
                                kind,
                                expected,
                                Frame { extended, identifier, ..frame },
                            );
                        }
                    }
                }
            }
        }
    }

    /// Identifiers one bit or one count off the expected one, on either side.
    fn nearly_expected(&mut self) {
        for what in WHATS {
            let free = self.random.word() & 0x1FFF_FFFF;
            for (round, base) in
                [default_identifier(what), 0, 0x1FFF_FFFF, free].into_iter().enumerate()
            {
                let kind = KINDS[round % 2];
                let multiplexers = listed(kind);
                let flips = (0..32).map(|bit| base ^ (1 << bit));
                let steps = [base.wrapping_sub(1), base.wrapping_add(1), base];
                for near in flips.chain(steps) {
                    let multiplexer = self.random.pick(&multiplexers);
                    let frame = self.frame(what, kind, multiplexer);
                    self.read(what, kind, base, Frame { identifier: near, ..frame });
                    self.read(what, kind, near, Frame { identifier: base, ..frame });
                }
            }
            // A standard frame one bit off a small identifier.
            for bit in 0..32 {
                let kind = KINDS[bit % 2];
                let frame = self.frame(what, kind, 0xE0);
                let near = Frame { extended: false, identifier: 0x101 ^ (1 << bit), ..frame };
                self.read(what, kind, 0x101, near);
            }
        }
    }

    /// All faults of all refusals with one another, so that a wrong order
    /// shows: each of the five steps chooses a fault for one number, or none.
    fn faults_together(&mut self) {
        let mut round = 0;
        for what in WHATS {
            for kind in KINDS {
                for fault_1 in 0..5 {
                    for fault_2 in 0..4 {
                        for fault_3 in 0..3 {
                            for fault_4 in 0..3 {
                                for fault_5 in 0..3 {
                                    let faults = [fault_1, fault_2, fault_3, fault_4, fault_5];
                                    self.faulty_frame(what, kind, faults, round);
                                    round += 1;
                                }
                            }
                        }
                    }
                }
            }
        }
    }

    fn faulty_frame(&mut self, what: What, kind: Kind, faults: [u8; 5], round: usize) {
        let multiplexers = listed(kind);
        // Without a fault for 5 any row will do; with one it has a status.
        let multiplexer = match faults[4] {
            0 => multiplexers[round % multiplexers.len()],
            _ => 0xE0 + (round % 6) as u8,
        };
        let mut frame = self.frame(what, kind, multiplexer);
        let mut expected = frame.identifier;
        match faults[4] {
            0 => {}
            1 => frame.bytes[1] |= 0x10,
            _ => frame.bytes[1] = (frame.bytes[1] & 0xEC) | 1,
        }
        match faults[3] {
            0 => {}
            1 => frame.length -= 1,
            _ => frame.length += 1,
        }
        match faults[2] {
            0 => {}
            1 => frame.length = 0,
            _ => {
                let strange = if kind == Kind::Sim100 { 0x80 } else { 0xF0 };
                frame.bytes[0] = [0xE6, strange, 0xE7, 0x0C, 0x00, 0xDF, 0xFF][round % 7];
            }
        }
        match faults[1] {
            0 => {}
            1 => {
                frame.extended = false;
                frame.identifier &= 0x7FF;
                expected = frame.identifier;
            }
            2 => frame.identifier ^= 1 << (round % 29),
            _ => expected |= 0x2000_0000,
        }
        match faults[0] {
            0 => {}
            1 => frame.length = 9,
            2 => frame.length = 255,
            3 => {
                // Over the limit, and still the expected one if it was.
                let over = 0x2000_0000 << (round % 3);
                frame.identifier |= over;
                expected |= over;
            }
            _ => {
                let over = if frame.extended { 0x8000_0000 } else { 0x800 };
                frame.identifier |= over;
            }
        }
        self.read(what, kind, expected, frame);
    }

    /// 4 with 5 for each length, also where the status is past the length.
    fn bad_status_and_length(&mut self) {
        for kind in KINDS {
            for multiplexer in 0xE0..=0xE5 {
                for length in 1..=7 {
                    for status in [0x01, 0x10] {
                        let mut frame = self.frame(What::Report, kind, multiplexer);
                        frame.bytes[1] = status;
                        self.read_expected(What::Report, kind, Frame { length, ..frame });
                    }
                }
            }
        }
    }

    /// Status bytes in reports; and where they stand in requests, which have
    /// no rule of 5.
    fn statuses_to_read(&mut self) {
        for kind in KINDS {
            for multiplexer in 0xE0..=0xE5 {
                let all: Vec<u8> = (0..=255).collect();
                let some = matches!(multiplexer, 0xE1..=0xE4);
                for &status in if some { &STATUSES[..] } else { &all[..] } {
                    let mut frame = self.frame(What::Report, kind, multiplexer);
                    frame.bytes[1] = status;
                    self.read_expected(What::Report, kind, frame);
                }
            }
            for multiplexer in [0xE0, 0xE5] {
                for status in STATUSES {
                    let mut frame = self.frame(What::Request, kind, multiplexer);
                    frame.bytes[1] = status;
                    self.read_expected(What::Request, kind, frame);
                }
            }
            // No rule of 5 for words, temperature and working voltage.
            for multiplexer in [0x01, 0x08, 0x0B, 0x80, 0xF0] {
                for status in [0x01, 0x10, 0x11, 0xFF] {
                    let mut frame = self.frame(What::Report, kind, multiplexer);
                    frame.bytes[1] = status;
                    self.read_expected(What::Report, kind, frame);
                }
            }
        }
    }

    /// Whole frames of zeros, of ones, of rising, falling and random bytes,
    /// with the status as it comes and with one that is not refused.
    fn patterns(&mut self) {
        for what in WHATS {
            for kind in KINDS {
                for multiplexer in listed(kind) {
                    let random = self.random.bytes();
                    for pattern in [
                        [0x00; 8],
                        [0xFF; 8],
                        [0x01, 0x12, 0x23, 0x34, 0x45, 0x56, 0x67, 0x78],
                        [0xFE, 0xEC, 0xDB, 0xCA, 0xB9, 0xA8, 0x97, 0x86],
                        random,
                    ] {
                        let mut frame = self.frame(what, kind, multiplexer);
                        frame.bytes[1..].copy_from_slice(&pattern[1..]);
                        self.read_expected(what, kind, frame);
                        if has_status(multiplexer) {
                            frame.bytes[1] = mended_status(frame.bytes[1]);
                            self.read_expected(what, kind, frame);
                        }
                    }
                }
            }
        }
    }

    /// One byte alone is not zero, inside the length and past it.
    fn single_bytes(&mut self) {
        for what in WHATS {
            for kind in KINDS {
                for multiplexer in [0x01, 0x0B, 0xE0, 0xE1, 0xE2, 0xE3, 0xE4, 0xE5, 0x80, 0xF0] {
                    for place in 1..8 {
                        let frame = self.frame(what, kind, multiplexer);
                        let mut bytes = [0; 8];
                        bytes[0] = multiplexer;
                        bytes[place] = if what == What::Report { 0x82 } else { 0x11 };
                        self.read_expected(what, kind, Frame { bytes, ..frame });
                    }
                }
            }
        }
    }

    /// Fields of 16 bits at their limits: the first, the second, both.
    fn numbers_to_read(&mut self) {
        for kind in KINDS {
            for multiplexer in 0xE0..=0xE5 {
                for number in NUMBERS_16 {
                    let bytes = number.to_be_bytes();
                    for (in_first, in_second) in [(true, false), (false, true), (true, true)] {
                        let mut frame = self.frame(What::Report, kind, multiplexer);
                        if in_first {
                            frame.bytes[2..4].copy_from_slice(&bytes);
                        }
                        if in_second {
                            frame.bytes[5..7].copy_from_slice(&bytes);
                        }
                        self.read_expected(What::Report, kind, frame);
                    }
                }
            }
            for what in WHATS {
                for number in NUMBERS_16 {
                    let mut frame = self.frame(what, kind, 0xF0);
                    frame.bytes[1..3].copy_from_slice(&number.to_be_bytes());
                    frame.length = 3;
                    self.read_expected(what, kind, frame);
                }
            }
        }
    }

    /// Words and temperatures at their limits.
    fn words_to_read(&mut self) {
        for kind in KINDS {
            for multiplexer in (0x01..=0x0B).chain([0x80]) {
                for number in NUMBERS_32 {
                    let mut frame = self.frame(What::Report, kind, multiplexer);
                    frame.bytes[1..5].copy_from_slice(&number.to_be_bytes());
                    frame.length = 5;
                    self.read_expected(What::Report, kind, frame);
                }
            }
        }
    }

    fn uncertainties_to_read(&mut self) {
        for kind in KINDS {
            for multiplexer in 0xE0..=0xE4 {
                for uncertainty in UNCERTAINTIES {
                    for place in [4, 7] {
                        let mut frame = self.frame(What::Report, kind, multiplexer);
                        frame.bytes[place] = uncertainty;
                        self.read_expected(What::Report, kind, frame);
                    }
                }
            }
        }
    }

    // Building.

    /// Every row for both kinds with each edge identifier.
    fn rows_to_build(&mut self) {
        for what in WHATS {
            for kind in KINDS {
                for which in ALL_WHICH {
                    for identifier in BUILD_IDENTIFIERS {
                        let values = self.values(kind, which);
                        self.build(what, kind, identifier, values);
                    }
                }
            }
        }
    }

    /// Each field with a value of its own, so that a swap shows.
    fn distinct_values(&mut self) {
        for kind in KINDS {
            for which in ALL_WHICH {
                let values = Values {
                    which,
                    status_or_number: if which == Which::Word { 0x0A } else { 0xAE },
                    first: match which {
                        Which::Word | Which::Temperature => 0x1234_5678,
                        Which::ErrorFlags => 0x91,
                        _ => 0x1234,
                    },
                    first_uncertainty: 0x9A,
                    second: 0x56BC,
                    second_uncertainty: 0xDF,
                };
                self.build_report(kind, values);
                self.build_report(kind, Values { second: 0x5678, ..values });
            }
        }
    }

    fn statuses_to_build(&mut self) {
        for kind in KINDS {
            for which in ALL_WHICH.into_iter().filter(|which| has_status(which.multiplexer())) {
                let all: Vec<u8> = (0..=255).collect();
                let every = matches!(which, Which::IsolationState | Which::ErrorFlags);
                for &status in if every { &all[..] } else { &STATUSES[..] } {
                    let values = self.values(kind, which);
                    self.build_report(kind, Values { status_or_number: status, ..values });
                }
            }
        }
    }

    /// Voltages at and past every limit, in the first, the second and both.
    fn voltages_to_build(&mut self) {
        for kind in KINDS {
            for first in VOLTAGES {
                for second in VOLTAGES {
                    let values = self.values(kind, Which::Voltages);
                    let pair = Values { first: first as u32, second: second as u32, ..values };
                    self.build_report(kind, pair);
                }
                for second in VB_MAXES {
                    let values = self.values(kind, Which::BatteryVoltage);
                    self.build_report(kind, Values { first: first as u32, second, ..values });
                }
            }
        }
    }

    /// Values of 16 bits at their limits: the first, the second, both.
    fn numbers_to_build(&mut self) {
        for kind in KINDS {
            for which in [Which::IsolationState, Which::Resistances, Which::Capacitances] {
                for number in NUMBERS_16.map(u32::from) {
                    let values = self.values(kind, which);
                    self.build_report(kind, Values { first: number, ..values });
                    let values = self.values(kind, which);
                    self.build_report(kind, Values { second: number, ..values });
                    let values = self.values(kind, which);
                    self.build_report(kind, Values { first: number, second: number, ..values });
                }
            }
            for what in WHATS {
                for number in NUMBERS_16.map(u32::from) {
                    let values = self.values(kind, Which::WorkingVoltage);
                    let values = Values { first: number, ..values };
                    self.build(what, kind, default_identifier(what), values);
                }
            }
        }
    }

    fn uncertainties_to_build(&mut self) {
        for kind in KINDS {
            for which in &ALL_WHICH[..5] {
                for uncertainty in UNCERTAINTIES {
                    let values = self.values(kind, *which);
                    self.build_report(kind, Values { first_uncertainty: uncertainty, ..values });
                    let values = self.values(kind, *which);
                    self.build_report(kind, Values { second_uncertainty: uncertainty, ..values });
                }
            }
        }
    }

    /// Error flags at the limits of one byte and of two, each bit alone, and
    /// with a status that breaks the rule of 5.
    fn flags_to_build(&mut self) {
        for kind in KINDS {
            let bits = (0..16).map(|bit| 1 << bit);
            for flags in bits.chain(ERROR_FLAGS) {
                for bad_bits in [0x00, 0x10] {
                    let values = self.values(kind, Which::ErrorFlags);
                    let status_or_number = values.status_or_number | bad_bits;
                    self.build_report(kind, Values { status_or_number, first: flags, ..values });
                }
            }
        }
    }

    /// Every word number, words at their limits, temperatures at theirs.
    fn words_to_build(&mut self) {
        for kind in KINDS {
            for what in WHATS {
                for number in 0..=255 {
                    let values = self.values(kind, Which::Word);
                    let values = Values { status_or_number: number, ..values };
                    self.build(what, kind, default_identifier(what), values);
                }
            }
            for first in NUMBERS_32 {
                for status_or_number in [0x01, 0x06, 0x0B, 0x0C] {
                    let values = self.values(kind, Which::Word);
                    self.build_report(kind, Values { status_or_number, first, ..values });
                }
                let values = self.values(kind, Which::Temperature);
                self.build_report(kind, Values { first, ..values });
            }
        }
    }

    /// 1 with 3, 1 with 6, and several reasons for 6. No record asks for 3
    /// with 6: the rows that can be unlisted have no value that does not fit.
    fn refusals_together_in_building(&mut self) {
        for identifier in OVER_IDENTIFIERS {
            for kind in KINDS {
                for what in WHATS {
                    for number in [0x00, 0x0C, 0x10, 0x11, 0x80, 0xE0, 0xF0, 0xFF] {
                        let values = self.values(kind, Which::Word);
                        self.build(
                            what,
                            kind,
                            identifier,
                            Values { status_or_number: number, ..values },
                        );
                    }
                    for which in [Which::Temperature, Which::WorkingVoltage] {
                        let values = self.values(kind, which);
                        self.build(what, kind, identifier, values);
                    }
                }
                for (which, status, first, second) in [
                    (Which::IsolationState, 0x10, 1, 2),
                    (Which::Resistances, 0x01, 3, 4),
                    (Which::Capacitances, 0x11, 5, 6),
                    (Which::Voltages, 0x00, 65_536, 1),
                    (Which::Voltages, 0x00, 1, 65_536),
                    (Which::BatteryVoltage, 0x00, 0x8000_0000, 1),
                    (Which::ErrorFlags, 0x00, 256, 0),
                    (Which::ErrorFlags, 0x10, 0, 0),
                ] {
                    let values = self.values(kind, which);
                    let values = Values { status_or_number: status, first, second, ..values };
                    self.build(What::Report, kind, identifier, values);
                }
            }
        }
        for kind in KINDS {
            for status in [0x00, 0x01, 0x10, 0x11, 0xEF] {
                for (first, second) in [(65_536, 7), (7, 65_536), (65_536, 65_536), (7, 8)] {
                    let values = self.values(kind, Which::Voltages);
                    let values = Values { status_or_number: status, first, second, ..values };
                    self.build_report(kind, values);
                    let values = self.values(kind, Which::BatteryVoltage);
                    let values = Values { status_or_number: status, first, ..values };
                    self.build_report(kind, values);
                }
            }
        }
    }
}

/// The systematic questions for a seed, the marked cases first.
fn systematic(seed: u64) -> Vec<Question> {
    let mut maker = Maker { random: Random::new(seed), questions: Vec::new() };
    maker.marked_cases();
    maker.every_multiplexer();
    maker.every_length();
    maker.every_identifier();
    maker.nearly_expected();
    maker.faults_together();
    maker.bad_status_and_length();
    maker.statuses_to_read();
    maker.patterns();
    maker.single_bytes();
    maker.numbers_to_read();
    maker.words_to_read();
    maker.uncertainties_to_read();
    maker.rows_to_build();
    maker.distinct_values();
    maker.statuses_to_build();
    maker.voltages_to_build();
    maker.numbers_to_build();
    maker.uncertainties_to_build();
    maker.flags_to_build();
    maker.words_to_build();
    maker.refusals_together_in_building();
    maker.questions
}

// The random questions.

/// One in ten is random throughout, two in ten are right, the rest has one
/// thing damaged.
fn random_question(random: &mut Random) -> Question {
    match random.below(10) {
        0 => wild_question(random),
        1 | 2 => good_question(random),
        _ => {
            let mut question = good_question(random);
            damage(random, &mut question);
            question
        }
    }
}

fn random_identifier(random: &mut Random, what: What) -> u32 {
    match random.below(8) {
        0 => random.word() & 0x1FFF_FFFF,
        1 => random.pick(&IDENTIFIERS) & 0x1FFF_FFFF,
        _ => default_identifier(what),
    }
}

/// A question that is answered with values or a frame.
fn good_question(random: &mut Random) -> Question {
    let what = random.pick(&WHATS);
    let kind = random.pick(&KINDS);
    let identifier = random_identifier(random, what);
    let task = if random.one_in(2) {
        let multiplexer = if random.one_in(3) {
            random.pick(&listed(kind))
        } else {
            random.pick(&[0xE0, 0xE1, 0xE2, 0xE3, 0xE4, 0xE5])
        };
        let frame = good_frame(random, what, kind, multiplexer);
        Task::Read(Frame { identifier, ..frame })
    } else {
        let rows: Vec<Which> =
            ALL_WHICH.into_iter().filter(|&which| is_listed(which, kind)).collect();
        let which = random.pick(&rows);
        Task::Build(good_values(random, kind, which))
    };
    // Most of what is built is reports: requests have little to get wrong.
    let what = match task {
        Task::Build(_) if !random.one_in(8) => What::Report,
        _ => what,
    };
    Question { what, kind, identifier, task }
}

/// A question of random bytes, as far as the record format allows.
fn wild_question(random: &mut Random) -> Question {
    let identifier = random.word();
    let task = if random.one_in(2) {
        Task::Read(Frame {
            extended: random.one_in(2),
            length: random.byte() >> random.below(6),
            identifier: if random.one_in(2) { identifier } else { random.word() },
            bytes: random.bytes(),
        })
    } else {
        Task::Build(Values {
            which: random.pick(&ALL_WHICH),
            status_or_number: random.byte(),
            first: random.word(),
            first_uncertainty: random.byte(),
            second: random.word(),
            second_uncertainty: random.byte(),
        })
    };
    let identifier = if random.one_in(2) { identifier } else { identifier & 0x1FFF_FFFF };
    Question { what: random.pick(&WHATS), kind: random.pick(&KINDS), identifier, task }
}

/// Damages one thing.
fn damage(random: &mut Random, question: &mut Question) {
    match random.below(8) {
        0 => question.kind = other(question.kind),
        1 => question.what = opposite(question.what),
        2 => question.identifier ^= 1 << random.below(32),
        _ => match &mut question.task {
            Task::Read(frame) => damage_frame(random, question.kind, frame),
            Task::Build(values) => damage_values(random, values),
        },
    }
}

fn damage_frame(random: &mut Random, kind: Kind, frame: &mut Frame) {
    match random.below(10) {
        0 => frame.length = random.below(10) as u8,
        1 => frame.length = random.byte(),
        2 => frame.length = random.pick(&[1, 3, 4, 5, 8]),
        3 => frame.identifier ^= 1 << random.below(32),
        4 => {
            frame.extended = false;
            if random.one_in(2) {
                frame.identifier &= 0x7FF;
            }
        }
        5 => frame.bytes[0] ^= 1 << random.below(8),
        6 => frame.bytes[0] = random.pick(&INTERESTING),
        7 => frame.length = listed_length(What::Report, other(kind), frame.bytes[0]).unwrap_or(2),
        _ => frame.bytes[1] = random.byte(),
    }
}

fn damage_values(random: &mut Random, values: &mut Values) {
    match random.below(6) {
        0 | 1 => values.status_or_number = random.byte(),
        2 => values.first ^= 1 << random.below(32),
        3 => values.second ^= 1 << random.below(32),
        4 => values.first = random.pick(&VOLTAGES) as u32,
        _ => values.second = random.pick(&VOLTAGES) as u32,
    }
    if first_is_16_bits(values.which) {
        values.first &= 0xFFFF;
    }
    if second_is_16_bits(values.which) {
        values.second &= 0xFFFF;
    }
}

/// Writes `count` records for a seed: the systematic ones, cut off if there
/// are more of them, and random ones to fill up.
pub fn write_all(seed: u64, count: u64, out: &mut impl Write) -> io::Result<()> {
    // The fill has a row of random numbers of its own, so that it stays the
    // same when the systematic part grows.
    let mut random = Random::new(seed ^ 0x7365_636F_6E64_0001);
    let mut questions = systematic(seed).into_iter();
    for _ in 0..count {
        let question = questions.next().unwrap_or_else(|| random_question(&mut random));
        out.write_all(&encode(&question))?;
    }
    Ok(())
}

#[cfg(test)]
mod tests {
    use super::*;
    use crate::codec_cases::{answer_all, decode, RECORD};
    use std::collections::BTreeSet;

    fn inputs(seed: u64, count: u64) -> Vec<u8> {
        let mut out = Vec::new();
        write_all(seed, count, &mut out).unwrap();
        out
    }

    #[test]
    fn the_same_seed_gives_the_same_bytes() {
        assert_eq!(inputs(1, 24_000), inputs(1, 24_000));
        assert_ne!(inputs(1, 24_000), inputs(2, 24_000));
    }

    /// The bytes of seed 1 are known by their FNV-1a sum, so that a machine
    /// that makes others is found out. A change of the maker changes the sum.
    #[test]
    fn the_bytes_of_seed_1_are_known() {
        let sum = inputs(1, 24_000).iter().fold(0xCBF2_9CE4_8422_2325, |sum: u64, &byte| {
            (sum ^ u64::from(byte)).wrapping_mul(0x0100_0000_01B3)
        });
        assert_eq!(sum, 0xA0A0_E38A_0E9E_CFE3, "{sum:#X}");
    }

    /// The marked cases are the first twelve records, whatever the seed and
    /// the count.
    #[test]
    fn the_marked_cases_come_first() {
        let lines = [
            "E0 0 550 2 80 4",
            "E0 0 550 2 80 4",
            "F0 600",
            "F0 600",
            "E3 0 -100 1 100 2",
            "E3 0 65436 1 100 2",
            "0A100100 8 E0 00 02 26 02 00 50 04",
            "0A100100 8 E0 00 02 26 02 00 50 04",
            "0A100100 3 F0 02 58 00 00 00 00 00",
            "0A100101 3 F0 02 58 00 00 00 00 00",
            "0A100100 8 E3 00 FF 9C 01 00 64 02",
            "refused 6",
        ];
        // Bytes 0 and 1 of each record: what is asked, and of which kind.
        let asked = [
            [0, 0],
            [0, 1],
            [0, 0],
            [1, 0],
            [0, 1],
            [0, 0],
            [2, 0],
            [2, 1],
            [2, 0],
            [3, 0],
            [2, 1],
            [2, 0],
        ];
        let marked = inputs(1, 12);
        for seed in [1, 2, u64::MAX] {
            let start = &inputs(seed, 24_000)[..12 * RECORD];
            assert_eq!(start, marked);
            let mut out = Vec::new();
            answer_all(start, &mut out).unwrap();
            assert_eq!(String::from_utf8(out).unwrap(), lines.join("\n") + "\n");
            for (record, asked) in start.chunks(RECORD).zip(asked) {
                assert_eq!(record[..2], asked);
            }
        }
    }

    #[test]
    fn a_smaller_count_gives_the_start_of_the_same_bytes() {
        let all = inputs(3, 24_000);
        assert_eq!(all.len(), 24_000 * RECORD);
        for count in [0, 1, 100, 20_000] {
            assert_eq!(inputs(3, count), all[..count as usize * RECORD]);
        }
    }

    #[test]
    fn the_systematic_part_has_the_same_size_for_each_seed() {
        let size = systematic(0).len();
        assert!((15_000..=16_100).contains(&size), "{size}");
        assert_eq!(systematic(u64::MAX).len(), size);
    }

    /// Every record is one that the tables list, with zero where it is not
    /// used, so no record ends the answers.
    #[test]
    fn every_record_keeps_the_format() {
        let all = inputs(4, 24_000);
        for record in all.chunks(RECORD) {
            let record: &[u8; RECORD] = record.try_into().unwrap();
            let question = decode(record).unwrap();
            assert_eq!(encode(&question), *record);
            if let Task::Build(_) = question.task {
                assert_eq!(record[18..], [0, 0]);
            }
        }
        let mut out = Vec::new();
        answer_all(&all, &mut out).unwrap();
        assert_eq!(out.iter().filter(|&&byte| byte == b'\n').count(), 24_000);
    }

    /// Each task meets each refusal it can give and each multiplexer it can
    /// read or build, for each kind.
    #[test]
    fn the_systematic_part_meets_everything() {
        let mut met = BTreeSet::new();
        for question in systematic(5) {
            let reading = matches!(question.task, Task::Read(_));
            let line = crate::codec_cases::line(&question);
            let words: Vec<&str> = line.split(' ').collect();
            let answer = match words[0] {
                "refused" => line.clone(),
                first if reading => first.to_string(),
                _ => words[2].to_string(),
            };
            met.insert((reading, question.what == What::Report, question.kind as u8, answer));
        }
        let mut expected = BTreeSet::new();
        for kind in KINDS {
            for reading in [false, true] {
                for report in [false, true] {
                    let numbers: &[u8] = match (reading, report, kind) {
                        (true, true, Kind::Sim100) => &[1, 2, 3, 4, 5],
                        (true, _, _) => &[1, 2, 3, 4],
                        (false, true, _) => &[1, 3, 6],
                        (false, false, _) => &[1, 3],
                    };
                    for number in numbers {
                        expected.insert((reading, report, kind as u8, format!("refused {number}")));
                    }
                    let only = if kind == Kind::Sim100 { 0xF0 } else { 0x80 };
                    for multiplexer in (0x01..=0x0B).chain(0xE0..=0xE5).chain([only]) {
                        expected.insert((
                            reading,
                            report,
                            kind as u8,
                            format!("{multiplexer:02X}"),
                        ));
                    }
                }
            }
        }
        assert_eq!(met, expected);
    }
}
