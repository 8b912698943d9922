//! The history reading of the bench monitor: what is stored, what is replied
//! and when the monitor last started, worked out by looking back over the
//! events. "The history reading of demand 3 looks back over the events; it
//! keeps no draft and does not run the monitor." The sentences quoted from "the
//! demand" are these; the others are those of document 01.
//!
//! "Start a monitor from any settings that power-on accepts and give it any run
//! of accepted events. After each event the six stored settings equal those
//! worked out afresh from the whole history. They change only at a commit heard
//! on the identifier then in force, with storage working, inside a session
//! opened by a timely unlock and its timely right answer, with no reset, no
//! earlier commit heard and no two successive heard messages over 2,000 ms
//! apart since that answer. Each setting then takes that session's last
//! accepted write to it, if there was one. At every other event all six stay."
//!
//! An event is known by its position, 0 the oldest. Every question is a function
//! of positions and looks only at events before the one it is about, and at that
//! one itself. With the state machine of `monitor.rs` it shares the shape of
//! stamps, settings and frames, and nothing that either of them does.

use crate::codec::Frame;
use crate::monitor::{Settings, Stamp, Unit};
use std::cell::OnceCell;

/// "no two successive heard messages over 2,000 ms apart" (the demand)
const LONGEST_SILENCE: u64 = 2_000;
/// "Right and at most 2,000 ms after the challenge"
const ANSWER_LIMIT: u64 = 2_000;
/// "At most 10,000 ms after the last start"
const UNLOCK_LIMIT: u64 = 10_000;

/// "Unlock 14 28 D5, length 3"
const UNLOCK: &[u8] = &[0x14, 0x28, 0xD5];
/// "Commit 14 9A 28, length 3"
const COMMIT: &[u8] = &[0x14, 0x9A, 0x28];
/// "the seven constants 53 4E 44 53 49 4D 42"
const CONSTANTS: [u8; 7] = [0x53, 0x4E, 0x44, 0x53, 0x49, 0x4D, 0x42];
/// "ACK is 41 43 4B, NAK is 4E 41 4B"
const ACK: &[u8] = &[0x41, 0x43, 0x4B];
const NAK: &[u8] = &[0x4E, 0x41, 0x4B];

/// "Events: a frame with a stamp and a note whether storage works, or a reset
/// with a stamp." Those of a history are accepted ones.
#[derive(Clone, Copy, Debug, PartialEq, Eq)]
pub enum Event {
    Frame { stamp: Stamp, storage_works: bool, frame: Frame },
    Reset { stamp: Stamp },
}

impl Event {
    pub fn stamp(&self) -> Stamp {
        match self {
            Event::Frame { stamp, .. } | Event::Reset { stamp } => *stamp,
        }
    }
}

/// Answers by position, each worked out once. They depend on the events alone,
/// so that keeping them changes nothing but the time it takes.
struct Kept<T>(Vec<OnceCell<T>>);

impl<T: Copy> Kept<T> {
    fn new(positions: usize) -> Kept<T> {
        Kept((0..positions).map(|_| OnceCell::new()).collect())
    }

    fn at(&self, position: usize, work_out: impl FnOnce() -> T) -> T {
        *self.0[position].get_or_init(work_out)
    }
}

/// A power-on that was accepted and the events that were accepted after it.
pub struct History<'a> {
    power_on: Stamp,
    unit: &'a Unit,
    /// Oldest first; no stamp is earlier than the one before or the power-on's.
    events: &'a [Event],
    stored: Kept<Settings>,
    heard: Kept<bool>,
    session: Kept<Option<usize>>,
    pending: Kept<Option<usize>>,
    start: Kept<Stamp>,
    silence: Kept<Option<Stamp>>,
}

/// "at most" so many milliseconds after
fn at_most(milliseconds: u64, later: Stamp, earlier: Stamp) -> bool {
    later <= earlier.plus(milliseconds)
}

fn ack_if(good: bool) -> Vec<u8> {
    if good { ACK } else { NAK }.to_vec()
}

impl<'a> History<'a> {
    pub fn new(power_on: Stamp, unit: &'a Unit, events: &'a [Event]) -> History<'a> {
        let positions = events.len() + 1;
        let history = History {
            power_on,
            unit,
            events,
            stored: Kept::new(positions),
            heard: Kept::new(positions),
            session: Kept::new(positions),
            pending: Kept::new(positions),
            start: Kept::new(positions),
            silence: Kept::new(positions),
        };
        // Asked in the order of the events, so that no question has to wait for
        // a long row of earlier ones.
        for i in 0..events.len() {
            history.heard(i);
            history.session(i);
            history.pending_unlock(i);
            history.last_start_before(i);
        }
        history
    }

    // What is stored.

    /// "After each event the six stored settings equal those worked out afresh
    /// from the whole history." (the demand) Before event `i`, or after all if
    /// `i` is their number.
    pub fn stored_before(&self, i: usize) -> Settings {
        self.stored.at(i, || Settings {
            receive: self.setting_before(i, 0x15, self.unit.settings.receive),
            transmit: self.setting_before(i, 0x16, self.unit.settings.transmit),
            speed: self.setting_before(i, 0x17, self.unit.settings.speed),
            voltage: self.setting_before(i, 0x18, self.unit.settings.voltage),
            warning: self.setting_before(i, 0x19, self.unit.settings.warning),
            fault: self.setting_before(i, 0x20, self.unit.settings.fault),
        })
    }

    /// "Each setting then takes that session's last accepted write to it, if
    /// there was one. At every other event all six stay." (the demand) So it is
    /// from the latest such session that had one, else from power-on.
    fn setting_before(&self, i: usize, code: u8, at_power_on: u32) -> u32 {
        (0..i)
            .rev()
            .filter(|&commit| self.changes_the_settings(commit))
            .find_map(|commit| self.last_accepted_write(code, self.session(commit)?, commit))
            .unwrap_or(at_power_on)
    }

    /// "They change only at a commit heard on the identifier then in force, with
    /// storage working, inside a session" (the demand)
    pub fn changes_the_settings(&self, i: usize) -> bool {
        self.is_commit_inside_a_session(i) && self.storage_working(i)
    }

    /// A commit heard inside a session, stored or not.
    pub fn is_commit_inside_a_session(&self, i: usize) -> bool {
        self.is_heard_commit(i) && self.session(i).is_some()
    }

    /// "that session's last accepted write to it, if there was one" (the
    /// demand): the value, of those after the session's answer and before event
    /// `i`, which falls into the session.
    fn last_accepted_write(&self, code: u8, answer: usize, i: usize) -> Option<u32> {
        (answer + 1..i)
            .rev()
            .filter_map(|k| self.accepted_write(k))
            .find(|&(written, _)| written == code)
            .map(|(_, value)| value)
    }

    /// "Write, length 5, code and a 32-bit value: ACK and draft changed if
    /// legal, else NAK." The code and the value of one that is accepted.
    fn accepted_write(&self, i: usize) -> Option<(u8, u32)> {
        self.session(i)?;
        let &[code, a, b, c, d] = self.heard_message(i)? else {
            return None;
        };
        let value = u32::from_be_bytes([a, b, c, d]);
        self.is_legal(code, value).then_some((code, value))
    }

    /// "Codes: 15 receive id and 16 transmit id, 0 to 0x1FFFFFFF; 17 speed, the
    /// two values; 18 voltage, at least 1 and below the rating; 19 warning and 20
    /// fault level, 1 to 2,147,483,647."
    fn is_legal(&self, code: u8, value: u32) -> bool {
        match code {
            0x15 | 0x16 => value <= 0x1FFF_FFFF,
            0x17 => value == 0x00CA_0250 || value == 0x00CA_0500,
            0x18 => value >= 1 && value < u32::from(self.unit.rating),
            0x19 | 0x20 => (1..=2_147_483_647).contains(&value),
            _ => false,
        }
    }

    // What is heard.

    /// "A frame is *heard* when it is extended and its identifier equals the
    /// stored receive identifier", which is "the identifier then in force" (the
    /// demand).
    pub fn heard(&self, i: usize) -> bool {
        self.heard.at(i, || match &self.events[i] {
            Event::Frame { frame, .. } => {
                frame.extended && frame.identifier == self.stored_before(i).receive
            }
            Event::Reset { .. } => false,
        })
    }

    /// What a heard frame says. "Bytes past the length [...] are no part of the
    /// frame."
    fn heard_message(&self, i: usize) -> Option<&'a [u8]> {
        match &self.events[i] {
            Event::Frame { frame, .. } if self.heard(i) => {
                Some(&frame.bytes[..usize::from(frame.length)])
            }
            _ => None,
        }
    }

    fn is_heard_unlock(&self, i: usize) -> bool {
        self.heard_message(i) == Some(UNLOCK)
    }

    fn is_heard_commit(&self, i: usize) -> bool {
        self.heard_message(i) == Some(COMMIT)
    }

    /// "Answer: length 8, byte 0 is 14."
    fn is_heard_answer(&self, i: usize) -> bool {
        matches!(self.heard_message(i), Some([0x14, _, _, _, _, _, _, _]))
    }

    /// "Right means the seven challenge bytes xored with the seven constants"
    fn is_right_answer(&self, i: usize) -> bool {
        let challenge = self.challenge();
        let right: [u8; 7] = std::array::from_fn(|byte| challenge[byte] ^ CONSTANTS[byte]);
        matches!(self.heard_message(i), Some([0x14, said @ ..]) if *said == right)
    }

    /// "the seven bytes are the first seven serial bytes"
    fn challenge(&self) -> [u8; 7] {
        self.unit.serial[..7].try_into().expect("seven of sixteen bytes")
    }

    pub fn is_reset(&self, i: usize) -> bool {
        matches!(self.events[i], Event::Reset { .. })
    }

    /// "with storage working" (the demand)
    fn storage_working(&self, i: usize) -> bool {
        matches!(self.events[i], Event::Frame { storage_works: true, .. })
    }

    pub fn stamp(&self, i: usize) -> Stamp {
        self.events[i].stamp()
    }

    // Sessions.

    /// The answer that opened the session into which event `i` falls, if it
    /// falls into one: "inside a session opened by a timely unlock and its timely
    /// right answer, with no reset, no earlier commit heard and no two successive
    /// heard messages over 2,000 ms apart since that answer" (the demand). Only
    /// the latest can be that answer: it had a challenge pending, so that every
    /// session before it was over.
    pub fn session(&self, i: usize) -> Option<usize> {
        self.session.at(i, || {
            let answer = (0..i).rev().find(|&k| self.opens_a_session(k))?;
            let goes_on = self.no_reset_since(answer, i)
                && self.no_earlier_commit_heard_since(answer, i)
                && self.no_two_successive_heard_messages_over_2000_ms_apart_since(answer, i);
            goes_on.then_some(answer)
        })
    }

    /// "a session opened by a timely unlock and its timely right answer" (the
    /// demand); "Right and at most 2,000 ms after the challenge: ACK, session
    /// open". The challenge has the unlock's stamp.
    pub fn opens_a_session(&self, i: usize) -> bool {
        self.is_right_answer(i)
            && self
                .pending_unlock(i)
                .is_some_and(|unlock| at_most(ANSWER_LIMIT, self.stamp(i), self.stamp(unlock)))
    }

    /// "with no reset [...] since that answer" (the demand)
    fn no_reset_since(&self, since: usize, i: usize) -> bool {
        !(since + 1..i).any(|k| self.is_reset(k))
    }

    /// "no earlier commit heard [...] since that answer" (the demand)
    fn no_earlier_commit_heard_since(&self, answer: usize, i: usize) -> bool {
        !(answer + 1..i).any(|k| self.is_heard_commit(k))
    }

    /// "no two successive heard messages over 2,000 ms apart since that answer"
    /// (the demand). The answer is the first of them and event `i` the last:
    /// heard or not, it meets the session only if its stamp is not "more than
    /// 2,000 ms after the last heard message".
    fn no_two_successive_heard_messages_over_2000_ms_apart_since(
        &self,
        answer: usize,
        i: usize,
    ) -> bool {
        let heard = (answer..i).filter(|&k| self.heard(k));
        let stamps: Vec<Stamp> = heard.chain([i]).map(|k| self.stamp(k)).collect();
        stamps.windows(2).all(|pair| at_most(LONGEST_SILENCE, pair[1], pair[0]))
    }

    // Unlocks.

    /// The unlock that opened the challenge that is pending at event `i`, if one
    /// is. "the challenge [...], now pending from this stamp, replacing any
    /// other. Later: NAK, nothing pending." So only the latest unlock outside a
    /// session counts, and only if it was timely. "Wrong or late: NAK, nothing
    /// pending": an answer leaves none, nor does a right one, which opens a
    /// session. "Every start [...] leaves it locked, with [...] nothing pending":
    /// of the starts only a reset can come between, the others need a session.
    /// "None of these requests, answered or not, touches a pending challenge".
    pub fn pending_unlock(&self, i: usize) -> Option<usize> {
        self.pending.at(i, || {
            let unlock = (0..i).rev().find(|&k| self.is_unlock_outside_a_session(k))?;
            let pending = self.is_timely_unlock(unlock)
                && self.no_reset_since(unlock, i)
                && !(unlock + 1..i).any(|k| self.is_heard_answer(k));
            pending.then_some(unlock)
        })
    }

    /// "Unlock 14 28 D5, length 3, outside a session."
    fn is_unlock_outside_a_session(&self, i: usize) -> bool {
        self.is_heard_unlock(i) && self.session(i).is_none()
    }

    /// "a timely unlock" (the demand): "At most 10,000 ms after the last start".
    fn is_timely_unlock(&self, i: usize) -> bool {
        self.is_unlock_outside_a_session(i)
            && at_most(UNLOCK_LIMIT, self.stamp(i), self.last_start_before(i))
    }

    // Starts.

    /// The last start as event `i` finds it, before its own.
    fn last_start_before(&self, i: usize) -> Stamp {
        self.start.at(i, || self.last_start_at(i, self.stamp(i)))
    }

    /// The last start at a stamp after `i` events, "silence counted": the latest
    /// of power-on, the resets, the commits in a session and the silences.
    pub fn last_start_at(&self, i: usize, stamp: Stamp) -> Stamp {
        let by_events = (0..i).filter(|&k| self.starts_the_monitor(k)).map(|k| self.stamp(k));
        let by_silences = (0..i).filter_map(|k| self.silence_before(k));
        let by_silence_now = self.silence_at(i, stamp);
        let starts = by_events.chain(by_silences).chain(by_silence_now);
        starts.fold(self.power_on, Stamp::max)
    }

    /// "A reset event starts the monitor again at its stamp"; a commit, stored or
    /// not: "Either way the monitor starts again at this stamp."
    fn starts_the_monitor(&self, i: usize) -> bool {
        self.is_reset(i) || self.is_commit_inside_a_session(i)
    }

    /// The start by silence that event `i` finds.
    fn silence_before(&self, i: usize) -> Option<Stamp> {
        self.silence.at(i, || self.silence_at(i, self.stamp(i)))
    }

    /// "In a session, if the next event's stamp is more than 2,000 ms after the
    /// last heard message, the monitor has already started again at that
    /// message's stamp plus 2,000": the stamp of that start, for an event or a
    /// question at a stamp after `i` events.
    fn silence_at(&self, i: usize, stamp: Stamp) -> Option<Stamp> {
        let last = self.last_message_of_an_open_session(i)?;
        let silent = !at_most(LONGEST_SILENCE, stamp, self.stamp(last));
        silent.then_some(self.stamp(last).plus(LONGEST_SILENCE))
    }

    /// The last message heard before event `i`, if a session was open after it
    /// (the answer that opens it is its first) and no reset has ended it since.
    fn last_message_of_an_open_session(&self, i: usize) -> Option<usize> {
        let last = (0..i).rev().find(|&k| self.heard(k))?;
        let goes_on = self.session(last).is_some() && !self.is_heard_commit(last);
        let open = self.opens_a_session(last) || goes_on;
        (open && self.no_reset_since(last, i)).then_some(last)
    }

    /// The last message of the session that event `i` finds fallen silent, if it
    /// finds one.
    pub fn fallen_silent_after(&self, i: usize) -> Option<usize> {
        self.silence_before(i)?;
        self.last_message_of_an_open_session(i)
    }

    // Replies.

    /// "Frames not heard get no reply. Every reply is on the transmit identifier
    /// stored before the event."
    pub fn reply(&self, i: usize) -> Option<Frame> {
        let message = self.heard_message(i)?;
        let content = match self.session(i) {
            Some(answer) => self.reply_in_the_session(i, answer, message),
            None => self.reply_outside_a_session(i, message)?,
        };
        let mut bytes = [0; 8];
        bytes[..content.len()].copy_from_slice(&content);
        let (length, identifier) = (content.len() as u8, self.stored_before(i).transmit);
        Some(Frame { extended: true, length, identifier, bytes })
    }

    /// "Anything else, unlock and answer included: NAK, session goes on (house)."
    fn reply_in_the_session(&self, i: usize, answer: usize, message: &[u8]) -> Vec<u8> {
        match *message {
            // "Read, length 1, a code below: reply of length 5, the code and the
            // draft value (house)."
            [code] => match self.value_in_the_session(i, answer, code) {
                Some(value) => [&[code][..], &value.to_be_bytes()].concat(),
                None => NAK.to_vec(),
            },
            // "storage works, draft stored, ACK; otherwise NAK"
            _ if message == COMMIT => ack_if(self.storage_working(i)),
            // "ACK and draft changed if legal, else NAK"
            _ => ack_if(self.accepted_write(i).is_some()),
        }
    }

    /// What a read answers: the session's last accepted write to the setting,
    /// else what is stored; none for a code that is not listed.
    fn value_in_the_session(&self, i: usize, answer: usize, code: u8) -> Option<u32> {
        let stored = self.stored_before(i);
        let stored = match code {
            0x15 => stored.receive,
            0x16 => stored.transmit,
            0x17 => stored.speed,
            0x18 => stored.voltage,
            0x19 => stored.warning,
            0x20 => stored.fault,
            _ => return None,
        };
        Some(self.last_accepted_write(code, answer, i).unwrap_or(stored))
    }

    /// "All else, F0 included, gets no reply."
    fn reply_outside_a_session(&self, i: usize, message: &[u8]) -> Option<Vec<u8>> {
        match *message {
            // "the challenge, 14 and seven bytes [...]. Later: NAK"
            _ if message == UNLOCK && self.is_timely_unlock(i) => {
                Some([&[0x14][..], &self.challenge()].concat())
            }
            _ if message == UNLOCK => Some(NAK.to_vec()),
            // "Nothing pending: no reply. Right and at most 2,000 ms after the
            // challenge: ACK [...]. Wrong or late: NAK"
            [0x14, _, _, _, _, _, _, _] => {
                self.pending_unlock(i)?;
                Some(ack_if(self.opens_a_session(i)))
            }
            [number @ 0x08..=0x0B] | [number @ 0x08..=0x0B, _, _] => {
                Some([&[number][..], self.serial_word(number)].concat())
            }
            _ => None,
        }
    }

    /// "08 the last four serial bytes, 0B the first four"; the other two stand
    /// between them.
    fn serial_word(&self, number: u8) -> &[u8] {
        match number {
            0x0B => &self.unit.serial[0..4],
            0x0A => &self.unit.serial[4..8],
            0x09 => &self.unit.serial[8..12],
            _ => &self.unit.serial[12..16],
        }
    }
}
