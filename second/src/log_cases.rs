//! The log cases file: cases of bytes and a room, and the answer to each. The
//! quoted sentences are those of docs/LOG_CASES.md. "Numbers of several bytes
//! are most significant byte first."

use crate::listing::{answer, replay};
use std::fs;
use std::io::{self, Write};
use std::path::Path;

/// "the length L of the bytes, 0 to 65,535"
pub const MOST_BYTES: usize = 65_535;
/// "the room R, the length of the buffer that is lent, 0 to 138,057"
pub const MOST_ROOM: usize = 138_057;
/// The bytes begin after the two numbers.
const HEAD: usize = 8;

/// "A case lends a buffer of some length for the listing of some bytes".
#[derive(Clone, Copy, Debug, PartialEq, Eq)]
pub struct Case<'a> {
    pub bytes: &'a [u8],
    pub room: usize,
}

/// The cases of a file, up to the first that cannot be one: "a case cut off at
/// the end of the input, a length over 65,535 or a room over 138,057".
pub struct Cases<'a> {
    pub rest: &'a [u8],
}

impl<'a> Iterator for Cases<'a> {
    type Item = Case<'a>;

    fn next(&mut self) -> Option<Case<'a>> {
        let length = number(self.rest, 0)?;
        let room = number(self.rest, 4)?;
        if length > MOST_BYTES || room > MOST_ROOM {
            return None;
        }
        let bytes = self.rest.get(HEAD..HEAD + length)?;
        self.rest = &self.rest[HEAD + length..];
        Some(Case { bytes, room })
    }
}

fn number(bytes: &[u8], at: usize) -> Option<usize> {
    let bytes = bytes.get(at..at + 4)?.try_into().expect("four bytes");
    Some(u32::from_be_bytes(bytes) as usize)
}

/// Writes a case.
pub fn write_case(case: &Case, out: &mut impl Write) -> io::Result<()> {
    for number in [case.bytes.len(), case.room] {
        let number = u32::try_from(number).expect("the numbers of a case have 32 bits");
        out.write_all(&number.to_be_bytes())?;
    }
    out.write_all(case.bytes)
}

/// Answers the cases of a file, in order.
pub fn answer_all(cases: &[u8], out: &mut impl Write) -> io::Result<()> {
    for case in (Cases { rest: cases }) {
        out.write_all(answer(case.bytes, case.room).as_bytes())?;
    }
    Ok(())
}

/// Writes for the case number n, from 1, its bytes to `n.log` and what the
/// program `replay` prints for them to `n.listing`.
pub fn write_files(cases: &[u8], directory: &Path) -> io::Result<()> {
    fs::create_dir_all(directory)?;
    for (n, case) in (1..).zip(Cases { rest: cases }) {
        fs::write(directory.join(format!("{n}.log")), case.bytes)?;
        fs::write(directory.join(format!("{n}.listing")), replay(case.bytes))?;
    }
    Ok(())
}
