//! Changes of one place: a byte taken out, doubled, changed or put in, and the
//! input cut off there.

use crate::random::Random;

/// What a byte becomes.
#[derive(Clone, Copy, Debug, PartialEq, Eq)]
pub enum Kind {
    Comma,
    Dot,
    Up,
    Down,
    Space,
    Tab,
    LineFeed,
    Return,
    Null,
    Digit,
    Upper,
    Lower,
    Minus,
    Plus,
    /// From 80 on.
    High,
    Any,
}

pub const KINDS: [Kind; 16] = [
    Kind::Comma,
    Kind::Dot,
    Kind::Up,
    Kind::Down,
    Kind::Space,
    Kind::Tab,
    Kind::LineFeed,
    Kind::Return,
    Kind::Null,
    Kind::Digit,
    Kind::Upper,
    Kind::Lower,
    Kind::Minus,
    Kind::Plus,
    Kind::High,
    Kind::Any,
];

/// A byte of a kind; the old one matters to its neighbours only.
pub fn byte_of(random: &mut Random, old: u8, kind: Kind) -> u8 {
    match kind {
        Kind::Comma => b',',
        Kind::Dot => b'.',
        Kind::Up => old.wrapping_add(1),
        Kind::Down => old.wrapping_sub(1),
        Kind::Space => b' ',
        Kind::Tab => b'\t',
        Kind::LineFeed => b'\n',
        Kind::Return => b'\r',
        Kind::Null => 0,
        Kind::Digit => b'0' + random.below(10) as u8,
        // Half of the letters are hexadecimal digits.
        Kind::Upper => b'A' + letter(random),
        Kind::Lower => b'a' + letter(random),
        Kind::Minus => b'-',
        Kind::Plus => b'+',
        Kind::High => 0x80 | random.byte(),
        Kind::Any => random.byte(),
    }
}

fn letter(random: &mut Random) -> u8 {
    let letters = random.pick(&[6, 26]);
    random.below(letters) as u8
}

/// A byte of a kind that is another than the old one; of any other kind if this
/// one has none.
fn other_byte(random: &mut Random, old: u8, kind: Kind) -> u8 {
    let mut kind = kind;
    loop {
        let new = byte_of(random, old, kind);
        if new != old {
            return new;
        }
        kind = random.pick(&KINDS);
    }
}

pub fn dropped(bytes: &[u8], at: usize) -> Vec<u8> {
    [&bytes[..at], &bytes[at + 1..]].concat()
}

pub fn doubled(bytes: &[u8], at: usize) -> Vec<u8> {
    inserted(bytes, at, &[bytes[at]])
}

pub fn changed(random: &mut Random, bytes: &[u8], at: usize, kind: Kind) -> Vec<u8> {
    let mut bytes = bytes.to_vec();
    bytes[at] = other_byte(random, bytes[at], kind);
    bytes
}

pub fn inserted(bytes: &[u8], at: usize, put_in: &[u8]) -> Vec<u8> {
    [&bytes[..at], put_in, &bytes[at..]].concat()
}

/// Every place taken out, doubled and changed. The kinds of change go round, so
/// that sixteen sheets of successive numbers have all of them at each place.
pub fn every_change(random: &mut Random, bytes: &[u8], number: usize) -> Vec<Vec<u8>> {
    let mut all = Vec::new();
    for at in 0..bytes.len() {
        all.push(dropped(bytes, at));
        all.push(doubled(bytes, at));
        all.push(changed(random, bytes, at, KINDS[(at + number) % KINDS.len()]));
    }
    all
}

/// The input cut off at every place, the start and the end too.
pub fn every_start(bytes: &[u8]) -> Vec<Vec<u8>> {
    (0..=bytes.len()).map(|length| bytes[..length].to_vec()).collect()
}

/// Some bytes put in at every place, the start and the end too.
pub fn every_insertion(bytes: &[u8], put_in: &[u8]) -> Vec<Vec<u8>> {
    (0..=bytes.len()).map(|at| inserted(bytes, at, put_in)).collect()
}
