//! Random steps of the host: each looks at the state the monitor is in and does
//! something that fits, or nearly fits.

use crate::codec::Frame;
use crate::monitor::{CODES, COMMIT, CONSTANTS, UNLOCK, UNLOCK_WINDOW};
use crate::monitor_host::{write, Host, Place, OVERS};

/// One step.
pub fn step(host: &mut Host) {
    let stamp = next_stamp(host);
    match host.random.below(20) {
        0 => host.any_unheard_at(stamp),
        1 => {
            let how = host.random.pick(&OVERS);
            let early = host.random.one_in(3);
            let stamp = if early { host.early_stamp() } else { stamp };
            host.over_at(stamp, how);
        }
        2 if host.now() > 0 => {
            let stamp = host.early_stamp();
            host.early_at(stamp);
        }
        3 => host.ask_about(stamp),
        4 => junk(host, stamp),
        5 => near_miss(host, stamp),
        6 if host.random.one_in(4) => wild(host, stamp),
        _ => match host.place() {
            Place::Locked => locked_step(host, stamp),
            Place::Challenged => challenged_step(host, stamp),
            Place::InSession => session_step(host, stamp),
        },
    }
}

/// Most often a few milliseconds on; now and then at a limit or past it.
fn next_stamp(host: &mut Host) -> u64 {
    let now = host.now();
    match host.random.below(16) {
        0 => {
            let limit = if host.place() == Place::Locked { UNLOCK_WINDOW } else { 2_000 };
            host.reference() + limit - 1 + host.random.between(0, 2)
        }
        1 => now + host.random.between(0, 3_000),
        _ => now + host.stride(),
    }
}

/// A heard frame of any length, its first byte often one that means something.
fn junk(host: &mut Host, stamp: u64) {
    let length = host.random.below(9);
    let mut bytes = host.random.bytes();
    bytes[0] = host.random.pick(&[
        0x14, 0x14, 0x15, 0x16, 0x17, 0x18, 0x19, 0x1A, 0x20, 0x08, 0x0B, 0xF0, 0xE0, 0x41,
        bytes[0],
    ]);
    host.send_at(stamp, &bytes[..length]);
}

/// A frame of random bytes throughout, most often refused or not heard.
fn wild(host: &mut Host, stamp: u64) {
    let identifier = host.random.word() >> host.random.below(32);
    let frame = Frame {
        extended: host.random.one_in(2),
        length: host.random.byte() >> host.random.below(8),
        identifier,
        bytes: host.random.bytes(),
    };
    host.any_frame_at(stamp, frame);
}

/// An unlock, a commit or an answer with one bit or the length wrong. What comes
/// past a shortened length is what would have been right.
fn near_miss(host: &mut Host, stamp: u64) {
    let mut bytes = host.random.bytes();
    let mut length = 3;
    match host.random.below(5) {
        0 | 1 => bytes[..3].copy_from_slice(&UNLOCK),
        2 | 3 => bytes[..3].copy_from_slice(&COMMIT),
        _ => {
            bytes = host.right_answer();
            length = 8;
        }
    }
    if host.random.one_in(2) {
        bytes[host.random.below(length)] ^= 1 << host.random.below(8);
    } else if length == 3 {
        length = host.random.pick(&[2, 4, 8]);
    } else {
        length = host.random.pick(&[1, 3, 7]);
    }
    let frame = host.heard_frame(&bytes);
    host.any_frame_at(stamp, Frame { length: length as u8, ..frame });
}

fn locked_step(host: &mut Host, stamp: u64) {
    if host.window_left() == 0 && host.random.one_in(2) {
        return host.reset_at(stamp);
    }
    match host.random.below(16) {
        0 => host.reset_at(stamp),
        1 => request(host, stamp),
        2 => {
            let answer = host.right_answer();
            host.send_at(stamp, &answer);
        }
        3 => host.commit_at(stamp, true),
        4 => session_frame(host, stamp),
        _ => host.send_at(stamp, &UNLOCK),
    }
}

fn challenged_step(host: &mut Host, stamp: u64) {
    match host.random.below(16) {
        0 => host.reset_at(stamp),
        1 => request(host, stamp),
        2 => {
            let answer = wrong_answer(host);
            host.send_at(stamp, &answer);
        }
        3 => host.commit_at(stamp, true),
        4 => session_frame(host, stamp),
        5 => host.send_at(stamp, &UNLOCK),
        _ => {
            let answer = host.right_answer();
            host.send_at(stamp, &answer);
        }
    }
}

/// A wrong answer: one bit wrong, the same bit wrong in two bytes, the
/// challenge itself, the constants alone, or the bytes the other way round. The
/// last three may happen to be right, for a serial made for it.
fn wrong_answer(host: &mut Host) -> [u8; 8] {
    let mut answer = host.right_answer();
    let bit = 1 << host.random.below(8);
    let first = 1 + host.random.below(7);
    match host.random.below(8) {
        0..=2 => answer[first] ^= bit,
        3 | 4 => {
            let second = 1 + first % 7;
            answer[first] ^= bit;
            answer[second] ^= bit;
        }
        5 => answer[1..].copy_from_slice(&host.monitor().challenge()),
        6 => answer[1..].copy_from_slice(&CONSTANTS),
        _ => answer[1..].reverse(),
    }
    answer
}

fn session_step(host: &mut Host, stamp: u64) {
    match host.random.below(24) {
        0 => host.reset_at(stamp),
        1 => request(host, stamp),
        2 => host.send_at(stamp, &UNLOCK),
        3 => {
            let answer = host.right_answer();
            host.send_at(stamp, &answer);
        }
        4 => host.commit_at(stamp, false),
        5..=8 => host.commit_at(stamp, true),
        _ => session_frame(host, stamp),
    }
}

/// A request 08 to 0B of length 1 or 3.
fn request(host: &mut Host, stamp: u64) {
    let bytes = host.random.bytes();
    let number = host.random.pick(&[0x08, 0x09, 0x0A, 0x0B]);
    let length = host.random.pick(&[1, 3]);
    host.send_at(stamp, &[number, bytes[1], bytes[2]][..length]);
}

/// A read, a legal write, or a write of a value that may be legal or not.
fn session_frame(host: &mut Host, stamp: u64) {
    match host.random.below(10) {
        0 | 1 => {
            let code = host.random.pick(&CODES);
            host.send_at(stamp, &[code]);
        }
        2 => {
            let code = host.random.pick(&CODES);
            let value = host.random.word() >> host.random.below(32);
            host.send_at(stamp, &write(code, value));
        }
        3 => {
            let from = host.random.pick(&CODES);
            let code = host.random.pick(&CODES);
            let value = host.legal_value(from);
            host.send_at(stamp, &write(code, value));
        }
        4 => {
            let code = host.random.pick(&CODES);
            let value = host.illegal_value(code);
            host.send_at(stamp, &write(code, value));
        }
        _ => {
            let content = host.legal_write();
            host.send_at(stamp, &content);
        }
    }
}

/// So many steps, and a commit if they end in a session.
pub fn wander(host: &mut Host, steps: u64) {
    for _ in 0..steps {
        step(host);
    }
    if host.place() == Place::InSession && host.random.one_in(2) {
        host.send(&COMMIT);
    }
}
