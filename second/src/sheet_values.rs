//! Damage to the value of one line, and values at its limits. Some of it leaves
//! or makes a right value.

use crate::random::Random;
use crate::sheet_changes::inserted;
use crate::sheet_parts::{SPEED, VOLTAGE};

/// What becomes of a value.
#[derive(Clone, Copy)]
pub enum Damage {
    /// It gets something before it and after it.
    Around(&'static str, &'static str),
    /// It gets something at a place within.
    Within(&'static str),
    /// It is replaced.
    Whole(&'static str),
    Made(fn(&mut Random, &[u8]) -> Vec<u8>),
}

use Damage::{Around, Made, Whole, Within};

/// Commas and dots, signs and zeros.
const NUMBERS: [Damage; 41] = [
    Around(",", ""),
    Around("", ","),
    Around(".", ""),
    Around("", "."),
    Around("", ",0"),
    Around("", ".0"),
    Around("", ".25"),
    Around("0,", ""),
    Around("0.", ""),
    Around("+", ""),
    Around("-", ""),
    Around("\u{2212}", ""),
    Around("0", ""),
    Around("00", ""),
    Around("0000000", ""),
    Around("", "0"),
    Around("", "00000"),
    Around("1", ""),
    Around("100000000", ""),
    Within(","),
    Within("."),
    Within(",,"),
    Within("_"),
    Within("'"),
    Within("\u{66B}"),
    Whole("0,25"),
    Whole("0.25"),
    Whole("250,0"),
    Whole("250.0"),
    Whole("+5"),
    Whole("-5"),
    Whole("-0"),
    Whole("00"),
    Whole("007"),
    Whole("0"),
    Whole("1"),
    Whole("250"),
    Made(|_, value| grouped(value, b',')),
    Made(|_, value| grouped(value, b'.')),
    Made(|random, value| with_more(random, value, 32)),
    Made(|random, value| with_more(random, value, 64)),
];

/// Blanks and other bytes that do not belong there.
const BLANKS: [Damage; 27] = [
    Around(" ", ""),
    Around("", " "),
    Around("  ", ""),
    Around("\t", ""),
    Around("", "\t"),
    Around("\r", ""),
    Around("", "\r"),
    Around("\n", ""),
    Around("", "\u{B}"),
    Around("", "\u{C}"),
    Around("\0", ""),
    Around("", "\0"),
    Around("\u{A0}", ""),
    Around("", "\u{A0}"),
    Around("\u{FEFF}", ""),
    Around("\"", "\""),
    Around("(", ")"),
    Around("", ";"),
    Around("", " # as ordered"),
    Within(" "),
    Within("\t"),
    Within("\n"),
    Within("\r"),
    Within("\r\n"),
    Within("\0"),
    Whole(""),
    Whole(" "),
];

/// Other letters and digits.
const LETTERS: [Damage; 26] = [
    Around("0x", ""),
    Around("0X", ""),
    Around("$", ""),
    Around("", "h"),
    Around("", "V"),
    Around("", " V"),
    Around("", "e0"),
    Around("", "E2"),
    Within("A"),
    Within("f"),
    Within("x"),
    Whole("1e3"),
    Whole("0A100101"),
    Whole("null"),
    Made(|random, value| other_digits(random, value, 0x660, true)),
    Made(|random, value| other_digits(random, value, 0x660, false)),
    Made(|random, value| other_digits(random, value, 0xFF10, true)),
    Made(|random, value| other_digits(random, value, 0xFF10, false)),
    Made(|_, value| value.to_ascii_lowercase()),
    Made(one_lower),
    Made(high_bit),
    Made(|random, _| number(random, 20, 40)),
    Made(|random, _| number(random, 41, 300)),
    Made(|_, value| [value, value].concat()),
    Made(|_, value| [value, b" ", value].concat()),
    Made(|_, value| value.iter().rev().copied().collect()),
];

pub fn damages() -> impl Iterator<Item = Damage> {
    NUMBERS.into_iter().chain(BLANKS).chain(LETTERS)
}

pub fn damaged(random: &mut Random, value: &[u8], damage: Damage) -> Vec<u8> {
    match damage {
        Around(before, after) => [before.as_bytes(), value, after.as_bytes()].concat(),
        Within(put_in) => {
            let at = random.between(1, value.len().max(2) as u64 - 1) as usize;
            // A value of one digit gets one more.
            let value = if value.len() < 2 { [value, b"50"].concat() } else { value.to_vec() };
            inserted(&value, at, put_in.as_bytes())
        }
        Whole(text) => text.as_bytes().to_vec(),
        Made(make) => make(random, value),
    }
}

/// Thousands apart. A short value gets three zeros more.
fn grouped(value: &[u8], by: u8) -> Vec<u8> {
    let mut grouped = value.to_vec();
    if value.len() < 4 {
        grouped.extend(b"000");
    }
    let mut at = grouped.len();
    while at > 3 {
        at -= 3;
        grouped.insert(at, by);
    }
    grouped
}

/// The same value modulo 2^32 or 2^64: decimal digits stay decimal, eight are
/// taken for an identifier.
fn with_more(random: &mut Random, value: &[u8], bits: u32) -> Vec<u8> {
    let more = u128::from(random.between(1, 3)) << bits;
    let text = String::from_utf8_lossy(value);
    if value.len() == 8 {
        let number = u128::from_str_radix(&text, 16).unwrap_or(0);
        return format!("{:X}", number + more).into_bytes();
    }
    let number: u128 = text.parse().unwrap_or(0);
    (number + more).to_string().into_bytes()
}

/// Some or all digits written with those that begin at another place of Unicode.
fn other_digits(random: &mut Random, value: &[u8], zero: u32, all: bool) -> Vec<u8> {
    let one = random.below(value.len().max(1));
    let mut text = String::new();
    for (i, &byte) in value.iter().enumerate() {
        let digit = u32::from(byte).wrapping_sub(u32::from(b'0'));
        if digit < 10 && (all || i == one) {
            text.extend(char::from_u32(zero + digit));
        } else {
            text.push(char::from(byte));
        }
    }
    text.into_bytes()
}

/// One letter in lower case; one is put there if there is none.
fn one_lower(random: &mut Random, value: &[u8]) -> Vec<u8> {
    let mut value = value.to_vec();
    let letters: Vec<usize> =
        (0..value.len()).filter(|&at| value[at].is_ascii_uppercase()).collect();
    match letters.is_empty() {
        true => value[0] = b'a',
        false => value[random.pick(&letters)] |= 0x20,
    }
    value
}

/// One byte with its top bit set.
fn high_bit(random: &mut Random, value: &[u8]) -> Vec<u8> {
    let mut value = value.to_vec();
    let at = random.below(value.len());
    value[at] |= 0x80;
    value
}

/// A number of so many digits.
fn number(random: &mut Random, least: u64, most: u64) -> Vec<u8> {
    let length = random.between(least, most);
    let mut value: Vec<u8> = (0..length).map(|_| b'0' + random.below(10) as u8).collect();
    value[0] = value[0].max(b'1');
    value
}

/// Values on both sides of the limits of a line.
pub fn limit_values(line: usize) -> Vec<&'static str> {
    let values = match line {
        0 | 1 => {
            "00000000 00000001 1FFFFFFE 1FFFFFFF 20000000 20000001 2FFFFFFF 3FFFFFFF 7FFFFFFF \
             80000000 8A100101 FFFFFFFF 1ffffffF 1FFFFFFG 1FFFFFF A100101 0A10010 1FFFFFFFF \
             0FFFFFFFF 000A100101 0x100101 536870911 10000000000000000 1"
        }
        SPEED => {
            "251 25 0500 125 1000 50A 249 499 501 0250 2500 50 5000 0 1 00CA0250 00CA0500 CA0250 \
             13238864 250000 25O 4294967546 4294967796 800 050 520 200 550 205"
        }
        VOLTAGE => {
            "65534 65533 65535 65536 65537 65540 66000 70000 99999 100000 131070 131071 065534 \
             2147483647 2147483648 4294967295 4294967296 4294967297 4295032830 \
             18446744073709551615 18446744073709551616 18446744073709551617 \
             18446744073709617150 6553400000000000000000 FFFE"
        }
        _ => {
            "0 1 2 2147483646 2147483647 2147483648 2147483649 2147483650 2200000000 3000000000 \
             3000000001 4294967295 4294967296 4294967297 4294967298 6442450943 6442450944 \
             9999999999 10000000000 10737418240 21474836470 99999999999 18446744073709551614 \
             18446744073709551615 18446744073709551616 18446744073709551617 \
             18446744075857035263 184467440737095516160 \
             340282366920938463463374607431768211457 02147483647 0000000001 7FFFFFFF"
        }
    };
    values.split(' ').collect()
}
