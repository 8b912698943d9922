//! The cases file: records of 20 bytes, one question each, and the text line
//! that answers a question. The quoted sentences are those of
//! docs/CODEC_CASES.md. "Numbers of several bytes are most significant byte first."

use crate::codec::{self, Frame, Kind, Message, What, Which, ALL_WHICH};
use std::io::{self, Write};

/// "records of 20 bytes, one question each"
pub const RECORD: usize = 20;

/// The values of a frame to build, as they stand in a record.
#[derive(Clone, Copy, Debug, PartialEq, Eq)]
pub struct Values {
    pub which: Which,
    /// "the status byte for 0 to 5 (reports); for 6 the word's number"
    pub status_or_number: u8,
    pub first: u32,
    pub first_uncertainty: u8,
    pub second: u32,
    pub second_uncertainty: u8,
}

/// What goes on after the first six bytes of a record.
#[derive(Clone, Copy, Debug, PartialEq, Eq)]
pub enum Task {
    Read(Frame),
    Build(Values),
}

/// One question.
#[derive(Clone, Copy, Debug, PartialEq, Eq)]
pub struct Question {
    pub what: What,
    pub kind: Kind,
    /// "the expected identifier (reading), or the identifier of the frame to
    /// build"
    pub identifier: u32,
    pub task: Task,
}

/// "Isolation, energy, Rp, Rn, Cp, Cn, Vb max, the error flags and the working
/// voltage are 16 bits". This is so for the first value of:
pub fn first_is_16_bits(which: Which) -> bool {
    !matches!(which, Which::Voltages | Which::BatteryVoltage | Which::Word | Which::Temperature)
}

/// The same for the second value: all but Vn.
pub fn second_is_16_bits(which: Which) -> bool {
    which != Which::Voltages
}

/// Rows that have a status, two values and their uncertainties.
fn has_two_values(which: Which) -> bool {
    matches!(
        which,
        Which::IsolationState
            | Which::Resistances
            | Which::Capacitances
            | Which::Voltages
            | Which::BatteryVoltage
    )
}

fn number_at(record: &[u8; RECORD], at: usize) -> u32 {
    u32::from_be_bytes([record[at], record[at + 1], record[at + 2], record[at + 3]])
}

fn put_number(record: &mut [u8; RECORD], at: usize, number: u32) {
    record[at..at + 4].copy_from_slice(&number.to_be_bytes());
}

/// The question of a record, or none for "a byte 0, 1 or (building) 6 that the
/// tables do not list".
pub fn decode(record: &[u8; RECORD]) -> Option<Question> {
    // "0 read a report, 1 read a request, 2 build a report, 3 build a request"
    let (reading, what) = match record[0] {
        0 => (true, What::Report),
        1 => (true, What::Request),
        2 => (false, What::Report),
        3 => (false, What::Request),
        _ => return None,
    };
    // "0 SIM100, 1 SIM101"
    let kind = match record[1] {
        0 => Kind::Sim100,
        1 => Kind::Sim101,
        _ => return None,
    };
    let task = if reading {
        Task::Read(decode_frame(record))
    } else {
        Task::Build(decode_values(record)?)
    };
    Some(Question { what, kind, identifier: number_at(record, 2), task })
}

fn decode_frame(record: &[u8; RECORD]) -> Frame {
    let mut bytes = [0; 8];
    bytes.copy_from_slice(&record[12..20]);
    Frame {
        // "0 standard, 1 extended"
        extended: record[6] == 1,
        length: record[7],
        identifier: number_at(record, 8),
        bytes,
    }
}

fn decode_values(record: &[u8; RECORD]) -> Option<Values> {
    Some(Values {
        which: *ALL_WHICH.get(usize::from(record[6]))?,
        status_or_number: record[7],
        first: number_at(record, 8),
        first_uncertainty: record[12],
        second: number_at(record, 13),
        second_uncertainty: record[17],
    })
}

/// The record of a question. "What a record does not use is zero."
pub fn encode(question: &Question) -> [u8; RECORD] {
    let mut record = [0; RECORD];
    record[0] = match (&question.task, question.what) {
        (Task::Read(_), What::Report) => 0,
        (Task::Read(_), What::Request) => 1,
        (Task::Build(_), What::Report) => 2,
        (Task::Build(_), What::Request) => 3,
    };
    record[1] = match question.kind {
        Kind::Sim100 => 0,
        Kind::Sim101 => 1,
    };
    put_number(&mut record, 2, question.identifier);
    match &question.task {
        Task::Read(frame) => encode_frame(frame, &mut record),
        Task::Build(values) => encode_values(question.what, values, &mut record),
    }
    record
}

fn encode_frame(frame: &Frame, record: &mut [u8; RECORD]) {
    record[6] = u8::from(frame.extended);
    record[7] = frame.length;
    put_number(record, 8, frame.identifier);
    record[12..20].copy_from_slice(&frame.bytes);
}

fn encode_values(what: What, values: &Values, record: &mut [u8; RECORD]) {
    let which = values.which;
    record[6] = which as u8;
    let report = what == What::Report;
    // "Building a request uses the which-byte alone, for 6 with the word's
    // number and for 8 with the working voltage."
    let first_is_used = report || which == Which::WorkingVoltage;
    let byte_7_is_used = match which {
        Which::Word => true,
        Which::Temperature | Which::WorkingVoltage => false,
        _ => report,
    };
    if byte_7_is_used {
        record[7] = values.status_or_number;
    }
    if first_is_used {
        put_number(record, 8, values.first & mask(first_is_16_bits(which)));
    }
    if report && has_two_values(which) {
        record[12] = values.first_uncertainty;
        put_number(record, 13, values.second & mask(second_is_16_bits(which)));
        record[17] = values.second_uncertainty;
    }
}

/// "16 bits: their upper two bytes in the record are zero"
fn mask(is_16_bits: bool) -> u32 {
    if is_16_bits {
        0xFFFF
    } else {
        0xFFFF_FFFF
    }
}

/// "Vp, Vn, Vb and the temperature are two's complement numbers of 32 bits.
/// The word is a number of 32 bits." The others are numbers as they stand.
fn first_value(values: &Values) -> i64 {
    match values.which {
        Which::Voltages | Which::BatteryVoltage | Which::Temperature => {
            i64::from(values.first as i32)
        }
        _ => i64::from(values.first),
    }
}

fn second_value(values: &Values) -> i64 {
    match values.which {
        Which::Voltages => i64::from(values.second as i32),
        _ => i64::from(values.second),
    }
}

/// The message that a record wants built.
fn message(what: What, values: &Values) -> Message {
    let which = values.which;
    let multiplexer = match which {
        Which::Word => values.status_or_number,
        _ => which.multiplexer(),
    };
    let status = i64::from(values.status_or_number);
    let all = match (what, which) {
        (What::Request, Which::WorkingVoltage) => vec![first_value(values)],
        (What::Request, _) => vec![],
        (What::Report, Which::Word | Which::Temperature | Which::WorkingVoltage) => {
            vec![first_value(values)]
        }
        (What::Report, Which::ErrorFlags) => vec![status, first_value(values)],
        (What::Report, _) => vec![
            status,
            first_value(values),
            i64::from(values.first_uncertainty),
            second_value(values),
            i64::from(values.second_uncertainty),
        ],
    };
    Message { multiplexer, values: all }
}

/// The line that answers a question, without its line feed.
pub fn line(question: &Question) -> String {
    let Question { what, kind, identifier, task } = question;
    let answer = match task {
        Task::Read(frame) => {
            codec::read(*what, *kind, *identifier, frame).map(|message| message.to_string())
        }
        Task::Build(values) => {
            let message = message(*what, values);
            codec::build(*what, *kind, *identifier, values.which, &message)
                .map(|frame| frame.to_string())
        }
    };
    answer.unwrap_or_else(|refusal| refusal.to_string())
}

/// Answers the records of a cases file, "one line for each record, in order".
/// "A program that meets a record of fewer than 20 bytes at the end, or a byte
/// 0, 1 or (building) 6 that the tables do not list, stops there without a
/// line for it." "Every line ends with one line feed, the last too."
pub fn answer_all(cases: &[u8], out: &mut impl Write) -> io::Result<()> {
    for chunk in cases.chunks_exact(RECORD) {
        let record = chunk.try_into().expect("chunks have the size of a record");
        match decode(record) {
            Some(question) => writeln!(out, "{}", line(&question))?,
            None => break,
        }
    }
    Ok(())
}

#[cfg(test)]
mod tests {
    use super::*;

    fn answers(cases: &[u8]) -> String {
        let mut out = Vec::new();
        answer_all(cases, &mut out).unwrap();
        String::from_utf8(out).unwrap()
    }

    const READ_E0: [u8; RECORD] = [
        0, 0, 0x0A, 0x10, 0x01, 0x00, 1, 8, 0x0A, 0x10, 0x01, 0x00, //
        0xE0, 0x00, 0x02, 0x26, 0x02, 0x00, 0x50, 0x04,
    ];
    const BUILD_E3: [u8; RECORD] = [
        2, 1, 0x0A, 0x10, 0x01, 0x00, 3, 0x91, 0xFF, 0xFF, 0xFF, 0x9C, //
        0x07, 0x00, 0x00, 0x01, 0x02, 0x08, 0, 0,
    ];
    const BUILD_WORD: [u8; RECORD] = [
        2, 1, 0x0A, 0x10, 0x01, 0x00, 6, 8, 0x12, 0x34, 0x56, 0x78, //
        0, 0, 0, 0, 0, 0, 0, 0,
    ];
    const BUILD_F0_REQUEST: [u8; RECORD] = [
        3, 0, 0x0A, 0x10, 0x01, 0x01, 8, 0, 0, 0, 2, 0x58, //
        0, 0, 0, 0, 0, 0, 0, 0,
    ];

    #[test]
    fn records_are_answered() {
        assert_eq!(answers(&READ_E0), "E0 0 550 2 80 4\n");
        assert_eq!(answers(&BUILD_E3), "0A100100 8 E3 91 FF 9C 07 01 02 08\n");
        assert_eq!(answers(&BUILD_WORD), "0A100100 5 08 12 34 56 78 00 00 00\n");
        assert_eq!(answers(&BUILD_F0_REQUEST), "0A100101 3 F0 02 58 00 00 00 00 00\n");
    }

    #[test]
    fn voltages_in_records_have_32_bits_and_a_sign() {
        let mut record = BUILD_E3;
        record[13..17].copy_from_slice(&65_536u32.to_be_bytes());
        assert_eq!(answers(&record), "refused 6\n");
        record[13..17].copy_from_slice(&(-2i32).to_be_bytes());
        assert_eq!(answers(&record), "0A100100 8 E3 91 FF 9C 07 FF FE 08\n");
        let mut record = BUILD_E3;
        record[6] = 4;
        assert_eq!(answers(&record), "0A100100 8 E4 91 FF 9C 07 01 02 08\n");
        record[1] = 0;
        record[7] = 0;
        assert_eq!(answers(&record), "refused 6\n");
    }

    #[test]
    fn each_record_gets_a_line_in_order() {
        let cases = [BUILD_WORD, READ_E0, BUILD_F0_REQUEST].concat();
        assert_eq!(
            answers(&cases),
            "0A100100 5 08 12 34 56 78 00 00 00\n\
             E0 0 550 2 80 4\n\
             0A100101 3 F0 02 58 00 00 00 00 00\n"
        );
        assert_eq!(answers(&[]), "");
    }

    #[test]
    fn a_record_cut_short_ends_the_answers() {
        let cases = [READ_E0, BUILD_WORD].concat();
        for kept in RECORD..2 * RECORD {
            assert_eq!(answers(&cases[..kept]), "E0 0 550 2 80 4\n");
        }
        assert_eq!(answers(&READ_E0[..19]), "");
    }

    #[test]
    fn a_byte_not_listed_ends_the_answers() {
        for (at, byte) in [(0, 4), (0, 255), (1, 2), (1, 255), (6, 9), (6, 255)] {
            let mut bad = BUILD_WORD;
            bad[at] = byte;
            assert_eq!(answers(&[READ_E0, bad, READ_E0].concat()), "E0 0 550 2 80 4\n");
        }
    }

    #[test]
    fn decoding_and_encoding_are_inverse() {
        for record in [READ_E0, BUILD_E3, BUILD_WORD, BUILD_F0_REQUEST] {
            assert_eq!(encode(&decode(&record).unwrap()), record);
        }
    }

    #[test]
    fn fields_are_where_the_tables_say() {
        let mut record: [u8; RECORD] = std::array::from_fn(|i| i as u8);
        record[6] = 1;
        let frame = Frame {
            extended: true,
            length: 7,
            identifier: 0x0809_0A0B,
            bytes: [12, 13, 14, 15, 16, 17, 18, 19],
        };
        let question = Question {
            what: What::Report,
            kind: Kind::Sim101,
            identifier: 0x0203_0405,
            task: Task::Read(frame),
        };
        assert_eq!(decode(&record), Some(question));
        record[0] = 3;
        record[6] = 4;
        let values = Values {
            which: Which::BatteryVoltage,
            status_or_number: 7,
            first: 0x0809_0A0B,
            first_uncertainty: 12,
            second: 0x0D0E_0F10,
            second_uncertainty: 17,
        };
        let question = Question { what: What::Request, task: Task::Build(values), ..question };
        assert_eq!(decode(&record), Some(question));
    }
}
