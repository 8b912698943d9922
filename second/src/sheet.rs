//! Order sheets: reading one, writing one, and what the program `sheet` writes.
//! The quoted sentences are those of document 01, section "Log, sheet and
//! listing", and those marked with a number are the readings of
//! docs/SHEET_CASES.md.

use crate::codec::HIGHEST_EXTENDED;
use crate::monitor::{Settings, HIGHEST_LEVEL, SPEED_250, SPEED_500};
use crate::refusal::Refusal;

/// "voltage 0 to 65534"
pub const HIGHEST_VOLTAGE: u32 = 65_534;
/// "Identifiers are eight capital hex digits"
const HEX_DIGITS: usize = 8;
/// The highest level has ten decimal digits.
const MOST_DIGITS: usize = 10;

/// The first line, counted from 1, "at which no sheet goes on so". It is 7 for a
/// sheet with anything after.
#[derive(Clone, Copy, Debug, PartialEq, Eq)]
pub struct WrongLine(pub usize);

/// What is left of some bytes after so many right lines.
struct Lines<'a> {
    rest: &'a [u8],
    right: usize,
}

impl<'a> Lines<'a> {
    fn wrong(&self) -> WrongLine {
        WrongLine(self.right + 1)
    }

    /// The value of the next line: "each the name, one space, the value, a line
    /// feed". "A line is what stands up to a line feed, with it." (2)
    fn next(&mut self, name: &str, value: Value) -> Result<u32, WrongLine> {
        let end = self.rest.iter().position(|&byte| byte == b'\n').ok_or(self.wrong())?;
        let (line, rest) = (&self.rest[..end], &self.rest[end + 1..]);
        let told = line
            .strip_prefix(name.as_bytes())
            .and_then(|line| line.strip_prefix(b" "))
            .and_then(value)
            .ok_or(self.wrong())?;
        self.rest = rest;
        self.right += 1;
        Ok(told)
    }

    /// "nothing after"
    fn end(&self) -> Result<(), WrongLine> {
        if self.rest.is_empty() {
            Ok(())
        } else {
            Err(self.wrong())
        }
    }
}

/// Reads the value of a line, if it is right.
type Value = fn(&[u8]) -> Option<u32>;

/// "Identifiers are eight capital hex digits at most 1FFFFFFF".
fn identifier(digits: &[u8]) -> Option<u32> {
    if digits.len() != HEX_DIGITS {
        return None;
    }
    let mut value = 0;
    for &digit in digits {
        let digit = match digit {
            b'0'..=b'9' => digit - b'0',
            b'A'..=b'F' => digit - b'A' + 10,
            _ => return None,
        };
        value = value << 4 | u32::from(digit);
    }
    (value <= HIGHEST_EXTENDED).then_some(value)
}

/// "speed 250 or 500". "A sheet's speed is the setting 0x00CA0250 or 0x00CA0500;
/// 250 and 500 are its text only." (1)
fn speed(text: &[u8]) -> Option<u32> {
    match text {
        b"250" => Some(SPEED_250),
        b"500" => Some(SPEED_500),
        _ => None,
    }
}

/// "voltage 0 to 65534"
fn voltage(digits: &[u8]) -> Option<u32> {
    decimal(digits, 0, HIGHEST_VOLTAGE)
}

/// "levels 1 to 2147483647"
fn level(digits: &[u8]) -> Option<u32> {
    decimal(digits, 1, HIGHEST_LEVEL)
}

/// "decimal, no leading zero. A comma or dot is refused." "Voltage `0` is right,
/// `00` is not." (1)
fn decimal(digits: &[u8], lowest: u32, highest: u32) -> Option<u32> {
    if digits.is_empty() || digits.len() > MOST_DIGITS {
        return None;
    }
    if digits.len() > 1 && digits[0] == b'0' {
        return None;
    }
    // Ten digits are less than 2^64.
    let mut value: u64 = 0;
    for &digit in digits {
        if !digit.is_ascii_digit() {
            return None;
        }
        value = 10 * value + u64::from(digit - b'0');
    }
    let value = u32::try_from(value).ok()?;
    (lowest..=highest).contains(&value).then_some(value)
}

/// "A sheet is six lines in this order: rx, tx, speed, voltage, warning, fault".
/// "A line's own rule alone decides" (2).
pub fn read(bytes: &[u8]) -> Result<Settings, WrongLine> {
    let mut lines = Lines { rest: bytes, right: 0 };
    let receive = lines.next("rx", identifier)?;
    let transmit = lines.next("tx", identifier)?;
    let speed = lines.next("speed", speed)?;
    let voltage = lines.next("voltage", voltage)?;
    let warning = lines.next("warning", level)?;
    let fault = lines.next("fault", level)?;
    lines.end()?;
    Ok(Settings { receive, transmit, speed, voltage, warning, fault })
}

/// The text of settings, or none for "values no sheet may hold": "an identifier
/// over 1FFFFFFF, another speed, a voltage over 65534, a level of 0 or over
/// 2147483647" (4).
pub fn text(settings: &Settings) -> Option<String> {
    let Settings { receive, transmit, speed, voltage, warning, fault } = *settings;
    let speed = match speed {
        SPEED_250 => "250",
        SPEED_500 => "500",
        _ => return None,
    };
    if receive > HIGHEST_EXTENDED || transmit > HIGHEST_EXTENDED || voltage > HIGHEST_VOLTAGE {
        return None;
    }
    for level in [warning, fault] {
        if level == 0 || level > HIGHEST_LEVEL {
            return None;
        }
    }
    Some(format!(
        "rx {receive:08X}\ntx {transmit:08X}\nspeed {speed}\n\
         voltage {voltage}\nwarning {warning}\nfault {fault}\n"
    ))
}

/// Writes a sheet into the buffer that is lent and gives its length. "Sheet
/// writer: 11 for values no sheet may hold, then 12; bytes after the text are
/// unchanged." After a refusal all are.
pub fn write(settings: &Settings, buffer: &mut [u8]) -> Result<usize, Refusal> {
    let text = text(settings).ok_or(Refusal::SheetWrong)?;
    let place = buffer.get_mut(..text.len()).ok_or(Refusal::NoRoom)?;
    place.copy_from_slice(text.as_bytes());
    Ok(text.len())
}

/// What was expected at a line.
fn expected(WrongLine(line): WrongLine) -> &'static str {
    match line {
        1 => "'rx', one space, eight capital hex digits at most 1FFFFFFF, and a line feed",
        2 => "'tx', one space, eight capital hex digits at most 1FFFFFFF, and a line feed",
        3 => "'speed', one space, 250 or 500, and a line feed",
        4 => {
            "'voltage', one space, whole volts from 0 to 65534 \
             (no comma or dot, no leading zero), and a line feed"
        }
        5 => {
            "'warning', one space, whole Ohm/V from 1 to 2147483647 \
             (no comma or dot, no leading zero), and a line feed"
        }
        6 => {
            "'fault', one space, whole Ohm/V from 1 to 2147483647 \
             (no comma or dot, no leading zero), and a line feed"
        }
        _ => "nothing: a sheet has six lines",
    }
}

/// What the program `sheet` writes: "Where the bytes are a sheet it writes the
/// sheet, the same bytes. Otherwise it writes two lines, `refused 11` and the
/// line that is wrong, with what was expected there".
pub fn program(bytes: &[u8]) -> String {
    match read(bytes) {
        Ok(settings) => text(&settings).expect("settings that were read can be written"),
        Err(wrong) => {
            let refusal = Refusal::SheetWrong;
            format!("{refusal}\nline {}: expected {}\n", wrong.0, expected(wrong))
        }
    }
}
