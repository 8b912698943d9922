//! The bench monitor: a model of the SIM101 with its maintenance mode. The
//! quoted sentences are those of document 01, section "The bench monitor",
//! unless another document is named.

use crate::codec::{self, over_limits, Frame, Kind, Message, What, Which, HIGHEST_EXTENDED};
use crate::refusal::Refusal;

/// "a stamp in milliseconds, 0 to 4,294,967,295". Kept in 64 bits, so that no
/// sum or difference of stamps wraps.
#[derive(Clone, Copy, Debug, PartialEq, Eq, PartialOrd, Ord)]
pub struct Stamp(pub u64);

/// "ticks of ten milliseconds". "Bench milliseconds and uptime ticks are kept
/// apart throughout".
#[derive(Clone, Copy, Debug, PartialEq, Eq)]
pub struct Ticks(pub u64);

/// "if the next event's stamp is more than 2,000 ms after the last heard
/// message"
pub const SILENCE: u64 = 2_000;
/// "At most 10,000 ms after the last start"
pub const UNLOCK_WINDOW: u64 = 10_000;
/// "Right and at most 2,000 ms after the challenge"
pub const ANSWER_WINDOW: u64 = 2_000;

/// "Unlock 14 28 D5, length 3"
pub const UNLOCK: [u8; 3] = [0x14, 0x28, 0xD5];
/// "Commit 14 9A 28, length 3"
pub const COMMIT: [u8; 3] = [0x14, 0x9A, 0x28];
/// "the seven constants 53 4E 44 53 49 4D 42"
pub const CONSTANTS: [u8; 7] = [0x53, 0x4E, 0x44, 0x53, 0x49, 0x4D, 0x42];

/// "speed 0x00CA0250 or 0x00CA0500"
pub const SPEED_250: u32 = 0x00CA_0250;
pub const SPEED_500: u32 = 0x00CA_0500;
/// "levels 1 to 2,147,483,647"
pub const HIGHEST_LEVEL: u32 = 2_147_483_647;

/// "Codes: 15 receive id and 16 transmit id [...]; 17 speed [...]; 18 voltage
/// [...]; 19 warning and 20 fault level". They are hexadecimal: the fault level
/// is not at 1A.
pub const CODES: [u8; 6] = [0x15, 0x16, 0x17, 0x18, 0x19, 0x20];

/// "six stored settings"; a draft is six settings too.
#[derive(Clone, Copy, Debug, PartialEq, Eq)]
pub struct Settings {
    pub receive: u32,
    pub transmit: u32,
    pub speed: u32,
    pub voltage: u32,
    pub warning: u32,
    pub fault: u32,
}

/// What a monitor is given at power-on besides the stamp: "16 serial bytes
/// (first most significant), a voltage rating 1 to 65,535, and six stored
/// settings".
#[derive(Clone, Copy, Debug, PartialEq, Eq)]
pub struct Unit {
    pub serial: [u8; 16],
    pub rating: u16,
    pub settings: Settings,
}

/// The three states a monitor can be in.
#[derive(Clone, Copy, Debug, PartialEq, Eq)]
pub enum State {
    /// "locked, with no draft and nothing pending"
    Locked,
    /// A challenge is "now pending from this stamp".
    Challenged { since: Stamp },
    /// "session open", with the draft and the stamp of the last heard message.
    InSession { draft: Settings, last_heard: Stamp },
}

/// A monitor that has been powered on.
#[derive(Clone, Debug, PartialEq, Eq)]
pub struct Monitor {
    serial: [u8; 16],
    rating: u16,
    stored: Settings,
    /// The stamp of "the last accepted one (or power-on)" of refusal 7.
    last_accepted: Stamp,
    last_start: Stamp,
    state: State,
}

/// What a monitor answers, before it is put on an identifier.
#[derive(Clone, Copy, Debug, PartialEq, Eq)]
enum Reply {
    Ack,
    Nak,
    Challenge([u8; 7]),
    SerialWord { number: u8, word: u32 },
    Value { code: u8, value: u32 },
}

impl Stamp {
    /// The milliseconds from an earlier stamp to this one.
    pub fn since(self, earlier: Stamp) -> u64 {
        self.0 - earlier.0
    }

    /// The stamp some milliseconds later.
    pub fn plus(self, milliseconds: u64) -> Stamp {
        Stamp(self.0 + milliseconds)
    }
}

/// "Right means the seven challenge bytes xored with the seven constants"
pub fn right_answer(challenge: [u8; 7]) -> [u8; 7] {
    let mut answer = challenge;
    for (byte, constant) in answer.iter_mut().zip(CONSTANTS) {
        *byte ^= constant;
    }
    answer
}

impl Settings {
    /// The setting that a code stands for.
    pub fn get(&self, code: u8) -> Option<u32> {
        match code {
            0x15 => Some(self.receive),
            0x16 => Some(self.transmit),
            0x17 => Some(self.speed),
            0x18 => Some(self.voltage),
            0x19 => Some(self.warning),
            0x20 => Some(self.fault),
            _ => None,
        }
    }

    /// The settings with the one that a code stands for changed.
    fn with(mut self, code: u8, value: u32) -> Settings {
        match code {
            0x15 => self.receive = value,
            0x16 => self.transmit = value,
            0x17 => self.speed = value,
            0x18 => self.voltage = value,
            0x19 => self.warning = value,
            0x20 => self.fault = value,
            _ => {}
        }
        self
    }
}

/// "identifiers at most 29 bits"; "0 to 0x1FFFFFFF"
fn is_identifier(value: u32) -> bool {
    value <= HIGHEST_EXTENDED
}

/// "17 speed, the two values"
fn is_speed(value: u32) -> bool {
    value == SPEED_250 || value == SPEED_500
}

/// "19 warning and 20 fault level, 1 to 2,147,483,647"
fn is_level(value: u32) -> bool {
    (1..=HIGHEST_LEVEL).contains(&value)
}

/// Whether a write of this value is legal. "A value with its top bit set is
/// negative and refused by NAK": none of these ranges has one.
fn write_is_legal(code: u8, value: u32, rating: u16) -> bool {
    match code {
        0x15 | 0x16 => is_identifier(value),
        0x17 => is_speed(value),
        // "18 voltage, at least 1 and below the rating"
        0x18 => value >= 1 && value < u32::from(rating),
        0x19 | 0x20 => is_level(value),
        _ => false,
    }
}

/// Power-on "accepts: identifiers at most 29 bits; speed 0x00CA0250 or
/// 0x00CA0500; voltage 0 up to one below the rating; levels 1 to
/// 2,147,483,647. Equal identifiers are accepted (house)." The rating is "1 to
/// 65,535".
fn power_on_is_legal(rating: u16, settings: &Settings) -> bool {
    rating >= 1
        && is_identifier(settings.receive)
        && is_identifier(settings.transmit)
        && is_speed(settings.speed)
        && settings.voltage < u32::from(rating)
        && is_level(settings.warning)
        && is_level(settings.fault)
}

impl Reply {
    /// The frame of a reply. Bytes past the length are zero.
    fn on(self, identifier: u32) -> Frame {
        match self {
            // "ACK is 41 43 4B, NAK is 4E 41 4B (002 prints "041", a misprint)."
            Reply::Ack => plain_frame(identifier, &[0x41, 0x43, 0x4B]),
            Reply::Nak => plain_frame(identifier, &[0x4E, 0x41, 0x4B]),
            // "the challenge, 14 and seven bytes"
            Reply::Challenge([a, b, c, d, e, f, g]) => {
                plain_frame(identifier, &[0x14, a, b, c, d, e, f, g])
            }
            // "reply of length 5, the code and the draft value (house)"
            Reply::Value { code, value } => {
                let [a, b, c, d] = value.to_be_bytes();
                plain_frame(identifier, &[code, a, b, c, d])
            }
            Reply::SerialWord { number, word } => serial_report(identifier, number, word),
        }
    }
}

fn plain_frame(identifier: u32, content: &[u8]) -> Frame {
    let mut bytes = [0; 8];
    bytes[..content.len()].copy_from_slice(content);
    Frame { extended: true, length: content.len() as u8, identifier, bytes }
}

/// The words 08 to 0B are reports of a SIM101: "one 32-bit word (part name,
/// version, serial)".
fn serial_report(identifier: u32, number: u8, word: u32) -> Frame {
    let message = Message { multiplexer: number, values: vec![i64::from(word)] };
    codec::build(What::Report, Kind::Sim101, identifier, Which::Word, &message)
        .expect("the stored identifier has 29 bits and 08 to 0B are words")
}

impl Monitor {
    /// Power-on: refusal 8, "power-on settings, rating or log block not legal".
    /// "Every start, power-on's too, leaves it locked".
    pub fn power_on(stamp: Stamp, unit: &Unit) -> Result<Monitor, Refusal> {
        if !power_on_is_legal(unit.rating, &unit.settings) {
            return Err(Refusal::NotLegal);
        }
        Ok(Monitor {
            serial: unit.serial,
            rating: unit.rating,
            stored: unit.settings,
            last_accepted: stamp,
            last_start: stamp,
            state: State::Locked,
        })
    }

    /// The event of "a frame with a stamp and a note whether storage works".
    /// "Event: 1, 7." Gives the reply, if there is one.
    pub fn frame(
        &mut self,
        stamp: Stamp,
        storage_works: bool,
        frame: &Frame,
    ) -> Result<Option<Frame>, Refusal> {
        if over_limits(frame) {
            return Err(Refusal::OverLimits);
        }
        self.accept(stamp)?;
        // "Frames not heard get no reply."
        if !self.hears(frame) {
            return Ok(None);
        }
        // "Every reply is on the transmit identifier stored before the event."
        let transmit = self.stored.transmit;
        // "Bytes past the length [...] are no part of the frame."
        let content = &frame.bytes[..usize::from(frame.length)];
        let reply = match self.state {
            State::InSession { draft, .. } => {
                Some(self.meet_in_session(stamp, storage_works, draft, content))
            }
            State::Locked | State::Challenged { .. } => self.meet_outside(stamp, content),
        };
        Ok(reply.map(|reply| reply.on(transmit)))
    }

    /// "A reset event starts the monitor again at its stamp, with no reply and
    /// stored settings kept." Of the refusals of an event only 7 can concern it.
    pub fn reset(&mut self, stamp: Stamp) -> Result<(), Refusal> {
        self.accept(stamp)?;
        self.start_again(stamp);
        Ok(())
    }

    /// "An uptime question at a stamp returns ticks of ten milliseconds since
    /// the last start, rounded down, silence counted, state unchanged; 7 for
    /// an early stamp."
    pub fn uptime(&self, stamp: Stamp) -> Result<Ticks, Refusal> {
        self.check(stamp)?;
        let start = self.start_by_silence(stamp).unwrap_or(self.last_start);
        Ok(Ticks(stamp.since(start) / 10))
    }

    /// Refusal 7: "a stamp earlier than the last accepted one (or power-on)".
    /// "Equal stamps are taken in the order given."
    fn check(&self, stamp: Stamp) -> Result<(), Refusal> {
        if stamp < self.last_accepted {
            return Err(Refusal::Early);
        }
        Ok(())
    }

    /// Accepts an event's stamp. If there was a silence before it, the monitor
    /// "has already started again [...], draft dropped, and meets the event as
    /// locked".
    fn accept(&mut self, stamp: Stamp) -> Result<(), Refusal> {
        self.check(stamp)?;
        self.last_accepted = stamp;
        if let Some(start) = self.start_by_silence(stamp) {
            self.start_again(start);
        }
        Ok(())
    }

    /// "In a session, if the next event's stamp is more than 2,000 ms after the
    /// last heard message, the monitor has already started again at that
    /// message's stamp plus 2,000".
    fn start_by_silence(&self, stamp: Stamp) -> Option<Stamp> {
        match self.state {
            State::InSession { last_heard, .. } if stamp.since(last_heard) > SILENCE => {
                Some(last_heard.plus(SILENCE))
            }
            _ => None,
        }
    }

    /// "Every start, power-on's too, leaves it locked, with no draft and
    /// nothing pending."
    fn start_again(&mut self, stamp: Stamp) {
        self.last_start = stamp;
        self.state = State::Locked;
    }

    /// "A frame is *heard* when it is extended and its identifier equals the
    /// stored receive identifier."
    fn hears(&self, frame: &Frame) -> bool {
        frame.extended && frame.identifier == self.stored.receive
    }

    /// A heard frame outside a session. "All else, F0 included, gets no reply.
    /// None of these requests, answered or not, touches a pending challenge
    /// (house)."
    fn meet_outside(&mut self, stamp: Stamp, content: &[u8]) -> Option<Reply> {
        match *content {
            _ if content == UNLOCK => Some(self.unlock(stamp)),
            // "Answer: length 8, byte 0 is 14."
            [0x14, a, b, c, d, e, f, g] => self.answer(stamp, [a, b, c, d, e, f, g]),
            // "Outside a session a request 08 to 0B of length 1 or 3 gets its
            // serial word"
            [number @ 0x08..=0x0B] | [number @ 0x08..=0x0B, _, _] => Some(self.serial_word(number)),
            _ => None,
        }
    }

    /// "At most 10,000 ms after the last start: the challenge, 14 and seven
    /// bytes, now pending from this stamp, replacing any other. Later: NAK,
    /// nothing pending."
    fn unlock(&mut self, stamp: Stamp) -> Reply {
        if stamp.since(self.last_start) <= UNLOCK_WINDOW {
            self.state = State::Challenged { since: stamp };
            Reply::Challenge(self.challenge())
        } else {
            self.state = State::Locked;
            Reply::Nak
        }
    }

    /// "House: the seven bytes are the first seven serial bytes."
    pub fn challenge(&self) -> [u8; 7] {
        let [a, b, c, d, e, f, g, ..] = self.serial;
        [a, b, c, d, e, f, g]
    }

    /// "Nothing pending: no reply. Right and at most 2,000 ms after the
    /// challenge: ACK, session open, draft equal to stored. Wrong or late: NAK,
    /// nothing pending, no restart." The answer is the first heard message of
    /// the session.
    fn answer(&mut self, stamp: Stamp, answer: [u8; 7]) -> Option<Reply> {
        let State::Challenged { since } = self.state else {
            return None;
        };
        let right = answer == right_answer(self.challenge());
        if right && stamp.since(since) <= ANSWER_WINDOW {
            self.state = State::InSession { draft: self.stored, last_heard: stamp };
            Some(Reply::Ack)
        } else {
            self.state = State::Locked;
            Some(Reply::Nak)
        }
    }

    /// "08 the last four serial bytes, 0B the first four": the words stand in
    /// the serial from 0B down to 08.
    fn serial_word(&self, number: u8) -> Reply {
        let at = 4 * usize::from(0x0B - number);
        let bytes = [0, 1, 2, 3].map(|i| self.serial[at + i]);
        Reply::SerialWord { number, word: u32::from_be_bytes(bytes) }
    }

    /// A heard frame in a session. "In a session every heard frame, of any
    /// length or content, restarts the 2,000 ms." "Anything else, unlock and
    /// answer included: NAK, session goes on (house)."
    fn meet_in_session(
        &mut self,
        stamp: Stamp,
        storage_works: bool,
        draft: Settings,
        content: &[u8],
    ) -> Reply {
        self.state = State::InSession { draft, last_heard: stamp };
        match *content {
            _ if content == COMMIT => self.commit(stamp, storage_works, draft),
            [code] => read(draft, code),
            [code, a, b, c, d] => self.write(stamp, draft, code, u32::from_be_bytes([a, b, c, d])),
            _ => Reply::Nak,
        }
    }

    /// "Write, length 5, code and a 32-bit value: ACK and draft changed if
    /// legal, else NAK." A code that is not listed is "anything else": NAK too.
    fn write(&mut self, stamp: Stamp, draft: Settings, code: u8, value: u32) -> Reply {
        if !write_is_legal(code, value, self.rating) {
            return Reply::Nak;
        }
        self.state = State::InSession { draft: draft.with(code, value), last_heard: stamp };
        Reply::Ack
    }

    /// "storage works, draft stored, ACK; otherwise NAK, stored unchanged.
    /// Either way the monitor starts again at this stamp."
    fn commit(&mut self, stamp: Stamp, storage_works: bool, draft: Settings) -> Reply {
        self.start_again(stamp);
        if !storage_works {
            return Reply::Nak;
        }
        self.stored = draft;
        Reply::Ack
    }

    pub fn stored(&self) -> &Settings {
        &self.stored
    }

    pub fn rating(&self) -> u16 {
        self.rating
    }

    pub fn state(&self) -> &State {
        &self.state
    }

    pub fn last_accepted(&self) -> Stamp {
        self.last_accepted
    }

    pub fn last_start(&self) -> Stamp {
        self.last_start
    }
}

/// "Read, length 1, a code below: reply of length 5, the code and the draft
/// value (house)." A code that is not listed is "anything else": NAK.
fn read(draft: Settings, code: u8) -> Reply {
    match draft.get(code) {
        Some(value) => Reply::Value { code, value },
        None => Reply::Nak,
    }
}
