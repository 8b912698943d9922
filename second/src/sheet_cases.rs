//! The sheet cases file: bytes to be read and settings to be written, and the
//! answer to each. The quoted sentences are those of docs/SHEET_CASES.md.
//! "Numbers of several bytes are most significant byte first."

use crate::monitor::Settings;
use crate::sheet::{self, WrongLine};
use std::fs;
use std::io::{self, Write};
use std::path::Path;

/// "the length L of the bytes, 0 to 4,095", and the room R too
pub const MOST: usize = 4_095;
/// The first byte of a case to be read, and of one to be written.
const READ: u8 = 0;
const WRITE: u8 = 1;
/// The bytes of a case to be read begin after the length.
const READ_HEAD: usize = 3;
/// A case to be written is so long.
const WRITE_LENGTH: usize = 27;
/// "each of its bytes is a full stop (2E) before"
const BEFORE: u8 = 0x2E;

/// "A case has some bytes read as an order sheet, or six settings written as one
/// into a lent buffer."
#[derive(Clone, Copy, Debug, PartialEq, Eq)]
pub enum Case<'a> {
    Read { bytes: &'a [u8] },
    Write { settings: Settings, room: usize },
}

/// The cases of a file, up to the first that cannot be one: "a case cut off at
/// the end of the input, another first byte, or a length or a room over 4,095".
pub struct Cases<'a> {
    pub rest: &'a [u8],
}

impl<'a> Iterator for Cases<'a> {
    type Item = Case<'a>;

    fn next(&mut self) -> Option<Case<'a>> {
        let (case, length) = match *self.rest.first()? {
            READ => read_case(self.rest)?,
            WRITE => write_case_at(self.rest)?,
            _ => return None,
        };
        self.rest = &self.rest[length..];
        Some(case)
    }
}

/// A case to be read at the start of these bytes, and how long it is.
fn read_case(from: &[u8]) -> Option<(Case<'_>, usize)> {
    let length = limited(from, 1)?;
    let bytes = from.get(READ_HEAD..READ_HEAD + length)?;
    Some((Case::Read { bytes }, READ_HEAD + length))
}

/// A case to be written at the start of these bytes, and how long it is.
fn write_case_at(from: &[u8]) -> Option<(Case<'_>, usize)> {
    let mut values = [0; 6];
    for (i, value) in values.iter_mut().enumerate() {
        *value = number(from, 1 + 4 * i)?;
    }
    let settings = settings_of(values);
    let room = limited(from, 25)?;
    Some((Case::Write { settings, room }, WRITE_LENGTH))
}

fn number(bytes: &[u8], at: usize) -> Option<u32> {
    let bytes = bytes.get(at..at + 4)?.try_into().expect("four bytes");
    Some(u32::from_be_bytes(bytes))
}

/// A length or a room that is not over 4,095.
fn limited(bytes: &[u8], at: usize) -> Option<usize> {
    let bytes = bytes.get(at..at + 2)?.try_into().expect("two bytes");
    let number = usize::from(u16::from_be_bytes(bytes));
    (number <= MOST).then_some(number)
}

/// The settings "in the order of the lines".
pub fn in_order(settings: &Settings) -> [u32; 6] {
    let Settings { receive, transmit, speed, voltage, warning, fault } = *settings;
    [receive, transmit, speed, voltage, warning, fault]
}

/// The settings from their values in that order.
pub fn settings_of([receive, transmit, speed, voltage, warning, fault]: [u32; 6]) -> Settings {
    Settings { receive, transmit, speed, voltage, warning, fault }
}

/// Writes a case.
pub fn write_case(case: &Case, out: &mut impl Write) -> io::Result<()> {
    let two = |number: usize| {
        assert!(number <= MOST, "a length or a room is at most 4,095");
        (number as u16).to_be_bytes()
    };
    match case {
        Case::Read { bytes } => {
            out.write_all(&[READ])?;
            out.write_all(&two(bytes.len()))?;
            out.write_all(bytes)
        }
        Case::Write { settings, room } => {
            out.write_all(&[WRITE])?;
            for value in in_order(settings) {
                out.write_all(&value.to_be_bytes())?;
            }
            out.write_all(&two(*room))
        }
    }
}

/// The answer to a case.
pub fn answer(case: &Case) -> Vec<u8> {
    match case {
        Case::Read { bytes } => read_answer(bytes).into_bytes(),
        Case::Write { settings, room } => write_answer(settings, *room),
    }
}

/// "`sheet` and the six settings in the order of the lines, each in eight capital
/// hexadecimal digits after one space", or "`11`, one space, and the first line,
/// counted from 1, at which no sheet goes on so".
fn read_answer(bytes: &[u8]) -> String {
    match sheet::read(bytes) {
        Ok(settings) => {
            let values = in_order(&settings).map(|value| format!(" {value:08X}"));
            format!("sheet{}\n", values.concat())
        }
        Err(WrongLine(line)) => format!("11 {line}\n"),
    }
}

/// "the whole buffer as it is after the call, a line feed, then one line: `text`
/// and the length of the text in decimal after one space, or `refused 11` or
/// `refused 12`"
fn write_answer(settings: &Settings, room: usize) -> Vec<u8> {
    let mut buffer = vec![BEFORE; room];
    let line = match sheet::write(settings, &mut buffer) {
        Ok(length) => format!("\ntext {length}\n"),
        Err(refusal) => format!("\n{refusal}\n"),
    };
    buffer.extend(line.as_bytes());
    buffer
}

/// Answers the cases of a file, in order.
pub fn answer_all(cases: &[u8], out: &mut impl Write) -> io::Result<()> {
    for case in (Cases { rest: cases }) {
        out.write_all(&answer(&case))?;
    }
    Ok(())
}

/// Writes for the case to be read number n, from 1, its bytes to `n.sheet` and
/// what the program `sheet` writes for them to `n.answer`. Cases to be written
/// are not counted.
pub fn write_files(cases: &[u8], directory: &Path) -> io::Result<()> {
    fs::create_dir_all(directory)?;
    let mut n = 0;
    for case in (Cases { rest: cases }) {
        let Case::Read { bytes } = case else { continue };
        n += 1;
        fs::write(directory.join(format!("{n}.sheet")), bytes)?;
        fs::write(directory.join(format!("{n}.answer")), sheet::program(bytes))?;
    }
    Ok(())
}
