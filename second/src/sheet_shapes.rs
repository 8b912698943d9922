//! Damage to a sheet as a whole: its lines, its encoding, what stands after it,
//! and bytes that never were a sheet.

use crate::random::Random;
use crate::sheet_changes::{byte_of, changed, inserted, KINDS};
use crate::sheet_parts::{Line, Parts, LINES};

/// What becomes of a sheet.
pub type Shape = fn(&mut Random, Parts) -> Vec<u8>;

/// Something in all lines.
const ALL_LINES: [Shape; 12] = [
    |_, parts| each_line(parts, |line| line.end = b"\r\n".to_vec()),
    |_, parts| each_line(parts, |line| line.end = b"\r".to_vec()),
    |_, parts| each_line(parts, |line| line.end = b"\n\r".to_vec()),
    |_, parts| each_line(parts, |line| line.end = b" ".to_vec()),
    |_, parts| each_line(parts, |line| line.end = b",\n".to_vec()),
    |_, parts| each_line(parts, |line| line.end.clear()),
    |_, parts| each_line(parts, |line| line.gap = b"\t".to_vec()),
    |_, parts| each_line(parts, |line| line.gap = b"  ".to_vec()),
    |_, parts| each_line(parts, |line| line.name.make_ascii_uppercase()),
    |_, parts| each_line(parts, |line| line.value.make_ascii_lowercase()),
    |_, parts| each_line(parts, |line| line.name.clear()),
    |_, parts| each_line(parts, |line| line.value.clear()),
];

/// Lines in another order, missing, or too many.
const ORDERS: [Shape; 10] = [
    |random, mut parts| {
        parts.lines.remove(random.below(LINES));
        parts.bytes()
    },
    |random, mut parts| {
        let at = random.below(LINES);
        parts.lines.insert(at, parts.lines[at].clone());
        parts.bytes()
    },
    |random, mut parts| {
        let at = random.below(LINES - 1);
        parts.lines.swap(at, at + 1);
        parts.bytes()
    },
    |random, mut parts| {
        let (one, other) = (random.below(LINES), random.below(LINES));
        parts.lines.swap(one, other);
        parts.bytes()
    },
    |random, mut parts| {
        random_order(random, &mut parts.lines);
        parts.bytes()
    },
    |_, mut parts| {
        parts.lines.reverse();
        parts.bytes()
    },
    |random, mut parts| {
        parts.lines.rotate_left(1 + random.below(LINES - 1));
        parts.bytes()
    },
    |random, parts| between_lines(random, &parts, b"\n"),
    |random, parts| between_lines(random, &parts, b"note 1\n"),
    |random, parts| between_lines(random, &parts, b"# ordered\n"),
];

/// The whole in another encoding.
const ENCODINGS: [Shape; 6] = [
    |_, parts| [&b"\xEF\xBB\xBF"[..], &parts.bytes()].concat(),
    |_, parts| sixteen_bits(&parts, b"", u16::to_le_bytes),
    |_, parts| sixteen_bits(&parts, b"", u16::to_be_bytes),
    |_, parts| sixteen_bits(&parts, b"\xFF\xFE", u16::to_le_bytes),
    |_, parts| sixteen_bits(&parts, b"\xFE\xFF", u16::to_be_bytes),
    |_, parts| parts.bytes().into_iter().map(|byte| byte | 0x80).collect(),
];

/// Pieces taken out, put in and changed anywhere.
const PIECES: [Shape; 7] = [
    |_, parts| without_last(&parts),
    |random, parts| {
        let bytes = parts.bytes();
        bytes[random.below(bytes.len())..].to_vec()
    },
    |random, parts| {
        let (bytes, from, to) = piece(random, &parts);
        [&bytes[..from], &bytes[to..]].concat()
    },
    |random, parts| {
        let (bytes, from, to) = piece(random, &parts);
        [&bytes[..to], &bytes[from..]].concat()
    },
    |random, parts| {
        let (mut bytes, from, to) = piece(random, &parts);
        bytes[from..to].reverse();
        bytes
    },
    any_put_in,
    |random, parts| {
        let bytes = parts.bytes();
        let (one, other) = (random.below(bytes.len()), random.below(bytes.len()));
        let (kind, next) = (random.pick(&KINDS), random.pick(&KINDS));
        let bytes = changed(random, &bytes, one, kind);
        changed(random, &bytes, other, next)
    },
];

/// No sheets.
const OTHERS: [Shape; 7] = [
    |random, _| any_of(random, 100, |random| random.byte()),
    |random, _| any_of(random, 100, |random| random.between(0x20, 0x7E) as u8),
    |random, _| any_of(random, 80, |random| random.pick(b"rxtspeed 0123456789ABCDEF,.\n")),
    |random, _| any_of(random, 12, |random| random.pick(b"\n\r \0")),
    |random, parts| parts.lines[random.below(LINES)].bytes(),
    |_, parts| words("stored", &parts),
    |_, parts| words("sheet", &parts),
];

pub fn shapes() -> impl Iterator<Item = Shape> {
    ALL_LINES.into_iter().chain(ORDERS).chain(ENCODINGS).chain(PIECES).chain(OTHERS)
}

/// What can stand after a sheet, besides lines of its own.
pub const AFTER: [&[u8]; 20] = [
    b"\n",
    b"\n\n",
    b"\r",
    b"\r\n",
    b" ",
    b"\t",
    b"\0",
    b",",
    b".",
    b"x",
    b"0",
    b"\x1A",
    b"\xFF",
    b"\xEF\xBB\xBF",
    b"rx 0A100101\n",
    b"fault 250\n",
    b"rating 1000\n",
    b"# end\n",
    b"note",
    b" \n",
];

/// A sheet with lines of its own or another after it.
pub const AFTER_LINES: [Shape; 5] = [
    |_, parts| parts.bytes().repeat(2),
    |_, parts| parts.bytes().repeat(3),
    |random, parts| [parts.bytes(), parts.lines[random.below(LINES)].bytes()].concat(),
    |random, parts| {
        let bytes = parts.bytes();
        [&bytes[..], &bytes[..1 + random.below(bytes.len() - 1)]].concat()
    },
    |random, parts| {
        let first = random.byte();
        [parts.bytes(), vec![first], any_of(random, 20, |random| random.byte())].concat()
    },
];

fn each_line(mut parts: Parts, change: fn(&mut Line)) -> Vec<u8> {
    parts.lines.iter_mut().for_each(change);
    parts.bytes()
}

pub fn random_order<T>(random: &mut Random, items: &mut [T]) {
    for end in (1..items.len()).rev() {
        items.swap(end, random.below(end + 1));
    }
}

/// Something before any of the lines, the first too, or after the last.
fn between_lines(random: &mut Random, parts: &Parts, put_in: &[u8]) -> Vec<u8> {
    let at = random.below(LINES + 1);
    let lines = |lines: &[Line]| lines.iter().flat_map(Line::bytes).collect::<Vec<u8>>();
    [&lines(&parts.lines[..at]), put_in, &lines(&parts.lines[at..])].concat()
}

/// UTF-16, with a mark before it or none.
fn sixteen_bits(parts: &Parts, mark: &[u8], order: fn(u16) -> [u8; 2]) -> Vec<u8> {
    let mut bytes = mark.to_vec();
    bytes.extend(parts.bytes().into_iter().flat_map(|byte| order(u16::from(byte))));
    bytes
}

fn without_last(parts: &Parts) -> Vec<u8> {
    let mut bytes = parts.bytes();
    bytes.pop();
    bytes
}

/// A piece of a sheet, of one byte at least: where it begins and ends.
fn piece(random: &mut Random, parts: &Parts) -> (Vec<u8>, usize, usize) {
    let bytes = parts.bytes();
    let from = random.below(bytes.len());
    let longest = random.pick(&[2, 4, 12, 40]).min(bytes.len() - from);
    let length = 1 + random.below(longest);
    (bytes, from, from + length)
}

/// A byte of any kind put in anywhere.
fn any_put_in(random: &mut Random, parts: Parts) -> Vec<u8> {
    let bytes = parts.bytes();
    let at = random.below(bytes.len() + 1);
    let kind = random.pick(&KINDS);
    let byte = byte_of(random, bytes[at.min(bytes.len() - 1)], kind);
    inserted(&bytes, at, &[byte])
}

fn any_of(random: &mut Random, most: usize, byte: fn(&mut Random) -> u8) -> Vec<u8> {
    let length = random.below(most + 1);
    (0..length).map(|_| byte(random)).collect()
}

/// The values alone in one line after a word.
fn words(word: &str, parts: &Parts) -> Vec<u8> {
    let values = parts.lines.iter().flat_map(|line| [b" ", &line.value[..]].concat());
    word.bytes().chain(values).chain(*b"\n").collect()
}
