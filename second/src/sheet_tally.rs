//! Tells what a sheet case has in it. It looks at the bytes alone, not at how
//! they were made.

use crate::sheet::{read, write, WrongLine};
use crate::sheet_cases::{in_order, settings_of, Case};
use std::collections::BTreeMap;

pub const NAMES: [&str; 6] = ["rx", "tx", "speed", "voltage", "warning", "fault"];
/// Right lines to put others among.
const RIGHT: [&str; 6] =
    ["rx 00000001\n", "tx 00000002\n", "speed 250\n", "voltage 3\n", "warning 4\n", "fault 5\n"];
const RIGHT_VALUES: [u32; 6] = [1, 2, 0x00CA_0250, 3, 4, 5];

/// The counts.
#[derive(Default)]
pub struct Tally {
    counts: BTreeMap<String, usize>,
}

impl Tally {
    pub fn count(&mut self, what: impl Into<String>) {
        *self.counts.entry(what.into()).or_default() += 1;
    }

    pub fn get(&self, what: &str) -> usize {
        self.counts.get(what).copied().unwrap_or(0)
    }

    #[track_caller]
    pub fn at_least(&self, least: usize, what: &str) {
        assert!(self.get(what) >= least, "{what}: {}", self.get(what));
    }

    pub fn take(&mut self, case: &Case) {
        match case {
            Case::Read { bytes } => {
                self.count("read");
                self.whole(bytes);
                self.order(bytes);
                match read(bytes) {
                    Ok(_) => self.right(bytes),
                    Err(WrongLine(line)) => self.wrong(bytes, line),
                }
            }
            Case::Write { settings, room } => {
                self.count("write");
                self.writing(in_order(settings), *room);
            }
        }
    }

    fn right(&mut self, bytes: &[u8]) {
        self.count("accepted");
        for (line, text) in (1..).zip(String::from_utf8_lossy(bytes).lines()) {
            let value = text.split(' ').nth(1).unwrap();
            self.count(format!("right {line} {value}"));
        }
    }

    /// What is seen of the whole input.
    fn whole(&mut self, bytes: &[u8]) {
        let times = |byte: u8| bytes.iter().filter(|&&other| other == byte).count();
        let pairs = |pair: &[u8]| bytes.windows(2).filter(|&other| other == pair).count();
        let zeros = |at: usize| bytes.iter().skip(at).step_by(2).all(|&byte| byte == 0);
        let seen = [
            (bytes.is_empty(), "empty"),
            (bytes.len() == 4_095, "longest"),
            (pairs(b"\r\n") == 6 && times(b'\n') == 6, "CRLF in all lines"),
            (pairs(b"\r\n") == 1 && times(b'\n') == 6, "CRLF in one line"),
            (times(b'\r') == 6 && times(b'\n') == 0, "CR alone in all lines"),
            (bytes.starts_with(b"\xEF\xBB\xBF"), "mark of UTF-8"),
            (bytes.starts_with(b"\xFF\xFEr\0"), "mark of UTF-16, least first"),
            (bytes.starts_with(b"\xFE\xFF\0r"), "mark of UTF-16, most first"),
            (bytes.starts_with(b"r") && zeros(1) && bytes.len() > 60, "UTF-16, least first"),
            (bytes.ends_with(b"\n") && zeros(0) && bytes.len() > 60, "UTF-16, most first"),
            (bytes.iter().filter(|byte| !byte.is_ascii()).count() > 20, "many bytes from 80 on"),
            (bytes.windows(2).any(|two| two[0] == 0xD9 && two[1] >> 4 == 0xA), "Arabic digits"),
            (bytes.windows(2).any(|two| two == b"\xEF\xBC"), "wide digits"),
        ];
        for (_, what) in seen.into_iter().filter(|(seen, _)| *seen) {
            self.count(what);
        }
        let last = [bytes, b"\n"].concat();
        if !bytes.ends_with(b"\n") && read(&last).is_ok() {
            self.count("no last line feed");
        }
    }

    /// Inputs of lines that are all right alone.
    fn order(&mut self, bytes: &[u8]) {
        let lines: Option<Vec<usize>> =
            bytes.split_inclusive(|&byte| byte == b'\n').map(line_alone).collect();
        let Some(lines) = lines else { return };
        let rising = lines.windows(2).all(|two| two[0] < two[1]);
        let mut sorted = lines.clone();
        sorted.sort_unstable();
        if lines.len() == 5 && rising {
            let missing = (1..=6).find(|line| !lines.contains(line)).unwrap();
            self.count(format!("missing line {missing}"));
        } else if sorted == [1, 2, 3, 4, 5, 6] && !rising {
            self.count("other order");
        } else if lines.len() == 7 && lines.windows(2).all(|two| two[0] <= two[1]) {
            self.count("line twice");
        } else if lines == [1, 2, 3, 4, 5, 6, 1, 2, 3, 4, 5, 6] {
            self.count("two sheets");
        } else if lines.len() == 7 && lines[..6] == [1, 2, 3, 4, 5, 6] {
            self.count("a seventh line");
        }
    }

    /// What is seen of the first wrong line.
    fn wrong(&mut self, bytes: &[u8], line: usize) {
        self.count(format!("wrong line {line}"));
        let mut lines = bytes.split_inclusive(|&byte| byte == b'\n');
        let wrong = lines.nth(line - 1).unwrap_or(b"");
        if line == 7 {
            return self.count(format!("after: {}", bytes_after(bytes).escape_ascii()));
        }
        let name = NAMES[line - 1].as_bytes();
        let shown = wrong.escape_ascii().to_string();
        if shown.len() < 60 {
            self.count(format!("{line}: {shown}"));
        }
        let Some(rest) = wrong.strip_prefix(name) else {
            if wrong.to_ascii_lowercase().starts_with(name) {
                self.count(format!("capitals {line}"));
            }
            if line_alone(wrong).is_some() {
                self.count(format!("line of another place {line}"));
            }
            return;
        };
        match rest {
            b"\n" => self.count(format!("name alone {line}")),
            [b' ', b'\n'] => self.count(format!("no value {line}")),
            [b' ', value @ .., b'\n'] => self.value(line, value),
            [b'\t', ..] => self.count(format!("tab for the space {line}")),
            [first, ..] if first.is_ascii_digit() => self.count(format!("no space {line}")),
            _ => {}
        }
    }

    /// What is seen of a wrong value.
    fn value(&mut self, line: usize, value: &[u8]) {
        let digit = |byte: &u8| byte.is_ascii_digit();
        let hex = |byte: &u8| byte.is_ascii_hexdigit();
        let own = |byte: &u8| if line < 3 { hex(byte) } else { digit(byte) };
        let around = |mark: u8| {
            let parts: Vec<&[u8]> = value.split(|&byte| byte == mark).collect();
            parts.len() == 2 && parts.iter().all(|part| !part.is_empty() && part.iter().all(own))
        };
        let rest = &value[1..];
        let seen = [
            (around(b','), "comma within"),
            (around(b'.'), "dot within"),
            (around(b' '), "space within"),
            (value[0] == b',' && rest.iter().all(own), "comma before"),
            (value.ends_with(b",") && value[..value.len() - 1].iter().all(own), "comma after"),
            (value[0] == b'+' && rest.iter().all(own), "plus"),
            (value[0] == b'-' && rest.iter().all(own), "minus"),
            (value[0] == b' ' && rest.iter().all(own), "space before"),
            (value.ends_with(b" ") && value[..value.len() - 1].iter().all(own), "space after"),
            (value.contains(&b'\t'), "tab"),
            (value.contains(&0), "zero byte"),
            (value.ends_with(b"\r"), "CR at the end"),
            (value[0] == b'0' && value.len() > 1 && value.iter().all(digit), "leading zero"),
            (value.iter().all(digit) && (20..=300).contains(&value.len()), "long"),
            (value.iter().all(digit) && value.len() > 40, "very long"),
            (value.len() == 8 && value.iter().all(hex), "eight hex digits"),
            (value.len() == 7 && value.iter().all(hex), "seven hex digits"),
            (value.len() == 9 && value.iter().all(hex), "nine hex digits"),
            (value.starts_with(b"0x") && value[2..].iter().all(hex), "0x"),
        ];
        for (_, what) in seen.into_iter().filter(|(seen, _)| *seen) {
            self.count(format!("{what} {line}"));
        }
        self.modulo(line, value);
        if value.len() == 8 && read_value(line, &value.to_ascii_uppercase()) {
            self.count(format!("lower case {line}"));
        }
    }

    /// Wrong numbers that are right without their high bits.
    fn modulo(&mut self, line: usize, value: &[u8]) {
        let text = String::from_utf8_lossy(value);
        let radix = if line < 3 { 16 } else { 10 };
        let Ok(number) = u128::from_str_radix(&text, radix) else { return };
        for bits in [32, 64] {
            let low = number & ((1 << bits) - 1);
            let low = if line < 3 { format!("{low:08X}") } else { low.to_string() };
            if number >> bits != 0 && read_value(line, low.as_bytes()) {
                self.count(format!("right modulo 2^{bits} {line}"));
            }
        }
    }

    fn writing(&mut self, values: [u32; 6], room: usize) {
        let mut buffer = vec![0; room.max(100)];
        let Ok(length) = write(&settings_of(values), &mut buffer) else {
            self.count(match room {
                0 => "11 without room",
                1..=61 => "11 with a short room",
                62..=83 => "11 with some room",
                _ => "11 with enough room",
            });
            return self.wrong_values(values);
        };
        self.count(match room {
            0 => "room: none".to_string(),
            83..=85 => format!("room: {room}"),
            4_095 => "room: most".to_string(),
            100.. => "room: large".to_string(),
            _ => format!("room: text and {}", (room as isize - length as isize).clamp(-2, 2)),
        });
        self.count(if room < length { "12" } else { "text" });
        for (line, value) in (1..).zip(values) {
            self.count(format!("written {line} {value:X}"));
        }
    }

    /// Which of the values is wrong, and whether it is the only one.
    fn wrong_values(&mut self, values: [u32; 6]) {
        let right_alone = |at: usize| {
            let mut right = RIGHT_VALUES;
            right[at] = values[at];
            write(&settings_of(right), &mut [0; 100]).is_ok()
        };
        let wrong: Vec<usize> = (0..6).filter(|&at| !right_alone(at)).collect();
        match wrong[..] {
            [at] => self.count(format!("11 for {} {:X}", at + 1, values[at])),
            _ => self.count("11 for several"),
        }
    }
}

/// The line, counted from 1, that these bytes are a right one of.
fn line_alone(bytes: &[u8]) -> Option<usize> {
    (1..=6).find(|line| {
        let mut lines = RIGHT.map(str::as_bytes);
        lines[line - 1] = bytes;
        bytes.iter().filter(|&&byte| byte == b'\n').count() == 1 && read(&lines.concat()).is_ok()
    })
}

/// Whether a line with this value is right.
fn read_value(line: usize, value: &[u8]) -> bool {
    let bytes = [NAMES[line - 1].as_bytes(), b" ", value, b"\n"].concat();
    line_alone(&bytes) == Some(line)
}

/// What stands after the sixth line feed.
fn bytes_after(bytes: &[u8]) -> &[u8] {
    let feeds = bytes.iter().enumerate().filter(|(_, &byte)| byte == b'\n');
    let (sixth, _) = feeds.clone().nth(5).expect("six right lines");
    &bytes[sixth + 1..]
}
