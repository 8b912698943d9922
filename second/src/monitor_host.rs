//! The host of the made-up monitor cases. It writes records and takes them on
//! a bench of this program at once, so that it knows what state the monitor is
//! in, which identifiers are in force and how much time is left.

use crate::codec::{Frame, HIGHEST_EXTENDED, HIGHEST_STANDARD};
use crate::monitor::{
    right_answer, Monitor, Stamp, State, CODES, COMMIT, HIGHEST_LEVEL, SILENCE, SPEED_250,
    SPEED_500, UNLOCK, UNLOCK_WINDOW,
};
use crate::monitor_cases::{encode, Bench, Record};
use crate::random::Random;

/// The highest stamp a record can hold.
pub const LAST_STAMP: u64 = 4_294_967_295;

/// The states a scene can ask for.
#[derive(Clone, Copy, Debug, PartialEq, Eq)]
pub enum Place {
    Locked,
    Challenged,
    InSession,
}

pub const PLACES: [Place; 3] = [Place::Locked, Place::Challenged, Place::InSession];

/// The ways in which a monitor starts again.
#[derive(Clone, Copy, Debug, PartialEq, Eq)]
pub enum Start {
    Reset,
    Commit,
    FailingCommit,
    Silence,
}

/// Ways for a frame to be accepted but not heard.
#[derive(Clone, Copy, Debug, PartialEq, Eq)]
pub enum Unheard {
    /// A standard frame with the number of the receive identifier, or with its
    /// low 11 bits if it has more.
    Standard,
    OneAbove,
    OneBelow,
    OneBit,
    Transmit,
    /// The receive identifier that was stored before the present one.
    Former,
    Random,
}

pub const UNHEARD: [Unheard; 7] = [
    Unheard::Standard,
    Unheard::OneAbove,
    Unheard::OneBelow,
    Unheard::OneBit,
    Unheard::Transmit,
    Unheard::Former,
    Unheard::Random,
];

/// Ways for a frame to be refused by 1.
#[derive(Clone, Copy, Debug, PartialEq, Eq)]
pub enum Over {
    Length9,
    Length255,
    AnyLength,
    Standard800,
    /// A standard frame with the number of the receive identifier, if that has
    /// more than 11 bits.
    StandardReceive,
    Extended30Bits,
    /// The receive identifier with one of the three highest bits set.
    HighBit,
    AllOnes,
}

pub const OVERS: [Over; 8] = [
    Over::Length9,
    Over::Length255,
    Over::AnyLength,
    Over::Standard800,
    Over::StandardReceive,
    Over::Extended30Bits,
    Over::HighBit,
    Over::AllOnes,
];

/// The host: what it has written, and the bench as it is after that.
pub struct Host {
    pub random: Random,
    bench: Bench,
    written: Vec<u8>,
    /// How many more records the run takes.
    room: usize,
    former_receive: u32,
}

/// A write of a value.
pub fn write(code: u8, value: u32) -> [u8; 5] {
    let [a, b, c, d] = value.to_be_bytes();
    [code, a, b, c, d]
}

impl Host {
    pub fn new(seed: u64) -> Host {
        Host {
            random: Random::new(seed),
            bench: Bench::default(),
            written: Vec::new(),
            room: 0,
            former_receive: 0,
        }
    }

    /// Begins a run with a power-on and room for so many more records.
    pub fn begin_run(&mut self, power_on: Record, room: usize) {
        self.room = room + 1;
        self.push(power_on);
    }

    /// Leaves room for no more than so many records.
    pub fn shorten(&mut self, room: usize) {
        self.room = self.room.min(room);
    }

    pub fn is_full(&self) -> bool {
        self.room == 0
    }

    /// Gives what was written since the last time.
    pub fn take_written(&mut self) -> Vec<u8> {
        std::mem::take(&mut self.written)
    }

    /// Writes a record and takes it on the bench. A full run takes no more: then
    /// nothing is written, and the bench stays as it is.
    pub fn push(&mut self, record: Record) {
        if self.is_full() {
            return;
        }
        self.room -= 1;
        let receive = self.bench.monitor.as_ref().map(|monitor| monitor.stored().receive);
        self.written.extend(encode(&record));
        self.bench.take(&record);
        if let Some(receive) = receive {
            if receive != self.monitor().stored().receive {
                self.former_receive = receive;
            }
        }
    }

    /// The monitor; there is one, since the first run begins with a good
    /// power-on.
    pub fn monitor(&self) -> &Monitor {
        self.bench.monitor.as_ref().expect("the first power-on is accepted")
    }

    /// The stamp of the last accepted event.
    pub fn now(&self) -> u64 {
        self.monitor().last_accepted().0
    }

    pub fn receive(&self) -> u32 {
        self.monitor().stored().receive
    }

    pub fn place(&self) -> Place {
        match self.monitor().state() {
            State::Locked => Place::Locked,
            State::Challenged { .. } => Place::Challenged,
            State::InSession { .. } => Place::InSession,
        }
    }

    /// The stamp from which the present limit runs: the last heard message in a
    /// session, the challenge if one is pending, else the last start.
    pub fn reference(&self) -> u64 {
        match self.monitor().state() {
            State::Locked => self.monitor().last_start().0,
            State::Challenged { since } => since.0,
            State::InSession { last_heard, .. } => last_heard.0,
        }
    }

    /// The milliseconds in which an unlock is still challenged.
    pub fn window_left(&self) -> u64 {
        (self.monitor().last_start().0 + UNLOCK_WINDOW).saturating_sub(self.now())
    }

    // Frames.

    /// A frame with this content; what comes past its length is random or zero.
    fn frame(&mut self, extended: bool, identifier: u32, content: &[u8]) -> Frame {
        let mut bytes = if self.random.one_in(4) { [0; 8] } else { self.random.bytes() };
        bytes[..content.len()].copy_from_slice(content);
        Frame { extended, length: content.len() as u8, identifier, bytes }
    }

    /// A frame on the stored receive identifier.
    pub fn heard_frame(&mut self, content: &[u8]) -> Frame {
        self.frame(true, self.receive(), content)
    }

    /// A frame that is accepted but not heard.
    pub fn unheard_frame(&mut self, how: Unheard, content: &[u8]) -> Frame {
        let receive = self.receive();
        let identifier = match how {
            Unheard::Standard => {
                return self.frame(false, receive & HIGHEST_STANDARD, content);
            }
            Unheard::OneAbove => receive.wrapping_add(1),
            Unheard::OneBelow => receive.wrapping_sub(1),
            Unheard::OneBit => receive ^ (1 << self.random.below(29)),
            Unheard::Transmit => self.monitor().stored().transmit,
            Unheard::Former => self.former_receive,
            Unheard::Random => self.random.word(),
        };
        let identifier = identifier & HIGHEST_EXTENDED;
        // With equal identifiers, and where there is no other former one.
        let identifier = if identifier == receive { identifier ^ 1 } else { identifier };
        self.frame(true, identifier, content)
    }

    /// A frame that is refused by 1.
    pub fn over_frame(&mut self, how: Over, content: &[u8]) -> Frame {
        let receive = self.receive();
        let good = self.heard_frame(content);
        match how {
            Over::Length9 => Frame { length: 9, ..good },
            Over::Length255 => Frame { length: 255, ..good },
            Over::AnyLength => Frame { length: self.random.between(9, 255) as u8, ..good },
            Over::Standard800 => Frame { extended: false, identifier: 0x800, ..good },
            Over::StandardReceive => {
                let identifier = if receive > HIGHEST_STANDARD { receive } else { 0x800 | receive };
                Frame { extended: false, identifier, ..good }
            }
            Over::Extended30Bits => Frame { identifier: 0x2000_0000, ..good },
            Over::HighBit => {
                Frame { identifier: receive | (1 << self.random.pick(&[29, 30, 31])), ..good }
            }
            Over::AllOnes => {
                let extended = self.random.one_in(2);
                Frame { extended, identifier: 0xFFFF_FFFF, ..good }
            }
        }
    }

    /// The right answer to this monitor's challenge.
    pub fn right_answer(&self) -> [u8; 8] {
        let [a, b, c, d, e, f, g] = right_answer(self.monitor().challenge());
        [0x14, a, b, c, d, e, f, g]
    }

    /// The right answer with one bit wrong in one of the bytes 1 to 7.
    pub fn wrong_answer(&mut self, byte: usize) -> [u8; 8] {
        let mut answer = self.right_answer();
        answer[byte] ^= 1 << self.random.below(8);
        answer
    }

    /// What would change or show the state that the monitor is in.
    pub fn tempting(&mut self) -> Vec<u8> {
        match self.place() {
            Place::Locked => UNLOCK.to_vec(),
            Place::Challenged => self.right_answer().to_vec(),
            Place::InSession => match self.random.below(4) {
                0 => vec![self.random.pick(&CODES)],
                1 => COMMIT.to_vec(),
                _ => self.legal_write().to_vec(),
            },
        }
    }

    /// A legal write, but for a rating of 1, which has no legal voltage.
    pub fn legal_write(&mut self) -> [u8; 5] {
        let code = self.random.pick(&CODES);
        let value = self.legal_value(code);
        write(code, value)
    }

    pub fn legal_value(&mut self, code: u8) -> u32 {
        match code {
            0x15 | 0x16 => self.identifier(),
            0x17 => self.random.pick(&[SPEED_250, SPEED_500]),
            0x18 => {
                let highest = u64::from(self.monitor().rating()).saturating_sub(1).max(1);
                let free = self.random.between(1, highest);
                self.random.pick(&[1, highest, free, free]) as u32
            }
            _ => {
                let free = self.random.word() & HIGHEST_LEVEL;
                self.random.pick(&[1, 2, 500, 100, HIGHEST_LEVEL - 1, HIGHEST_LEVEL, free.max(1)])
            }
        }
    }

    /// A value that may not be written to a code, most often just past a limit.
    pub fn illegal_value(&mut self, code: u8) -> u32 {
        let free = self.random.word() | 0x8000_0000;
        let rating = u32::from(self.monitor().rating());
        match code {
            0x15 | 0x16 => self.random.pick(&[HIGHEST_EXTENDED + 1, 0xFFFF_FFFF, free]),
            0x17 => self.random.pick(&[0, SPEED_250 + 1, SPEED_500 - 1, free]),
            0x18 => self.random.pick(&[0, rating, rating + 1, free]),
            _ => self.random.pick(&[0, HIGHEST_LEVEL + 1, 0xFFFF_FFFF, free]),
        }
    }

    /// An identifier of at most 29 bits, often one near those in force.
    pub fn identifier(&mut self) -> u32 {
        let stored = *self.monitor().stored();
        let free = self.random.word();
        let any = self.random.pick(&[
            0,
            1,
            0x7FF,
            0x800,
            0x101,
            0x0A10_0100,
            0x0A10_0101,
            HIGHEST_EXTENDED - 1,
            HIGHEST_EXTENDED,
            stored.receive,
            stored.transmit,
            stored.receive.wrapping_add(1),
            self.former_receive,
            free & HIGHEST_STANDARD,
            free,
            free,
        ]);
        any & HIGHEST_EXTENDED
    }

    // Time.

    /// A few milliseconds, often none: less than any limit.
    pub fn stride(&mut self) -> u64 {
        match self.random.below(8) {
            0 | 1 => 0,
            2 | 3 => self.random.between(1, 20),
            _ => self.random.between(1, 300),
        }
    }

    /// A stamp that is not early and fits a record.
    fn fitting(&self, stamp: u64) -> Stamp {
        Stamp(stamp.max(self.now()).min(LAST_STAMP))
    }

    // Events. Most have something beside the way before them.

    pub fn frame_at(&mut self, stamp: u64, storage_works: bool, frame: Frame) {
        self.aside(stamp);
        let stamp = self.fitting(stamp);
        self.push(Record::Frame { stamp, storage_works, frame });
    }

    /// A frame to which it should not matter whether storage works.
    pub fn any_frame_at(&mut self, stamp: u64, frame: Frame) {
        let storage_works = !self.random.one_in(6);
        self.frame_at(stamp, storage_works, frame);
    }

    pub fn send_at(&mut self, stamp: u64, content: &[u8]) {
        let storage_works = content == COMMIT || !self.random.one_in(6);
        self.aside(stamp);
        let frame = self.heard_frame(content);
        let stamp = self.fitting(stamp);
        self.push(Record::Frame { stamp, storage_works, frame });
    }

    /// Sends a heard frame a few milliseconds later.
    pub fn send(&mut self, content: &[u8]) {
        let stamp = self.now() + self.stride();
        self.send_at(stamp, content);
    }

    pub fn commit_at(&mut self, stamp: u64, storage_works: bool) {
        let frame = self.heard_frame(&COMMIT);
        self.frame_at(stamp, storage_works, frame);
    }

    pub fn commit(&mut self, storage_works: bool) {
        let stamp = self.now() + self.stride();
        self.commit_at(stamp, storage_works);
    }

    pub fn unheard_at(&mut self, stamp: u64, how: Unheard) {
        let content = self.tempting();
        let frame = self.unheard_frame(how, &content);
        self.any_frame_at(stamp, frame);
    }

    pub fn any_unheard_at(&mut self, stamp: u64) {
        let how = self.random.pick(&UNHEARD);
        self.unheard_at(stamp, how);
    }

    pub fn reset_at(&mut self, stamp: u64) {
        self.aside(stamp);
        let stamp = self.fitting(stamp);
        self.push(Record::Reset { stamp });
    }

    pub fn reset(&mut self) {
        let stamp = self.now() + self.stride();
        self.reset_at(stamp);
    }

    /// A frame that is refused by 1, at any stamp.
    pub fn over_at(&mut self, stamp: u64, how: Over) {
        let content = self.tempting();
        let frame = self.over_frame(how, &content);
        let storage_works = !self.random.one_in(6);
        let stamp = Stamp(stamp.min(LAST_STAMP));
        self.push(Record::Frame { stamp, storage_works, frame });
    }

    /// An uptime question, at any stamp.
    pub fn ask_at(&mut self, stamp: u64) {
        self.push(Record::Uptime { stamp: Stamp(stamp.min(LAST_STAMP)) });
    }

    /// Seven bytes to be answered.
    pub fn ask_answer(&mut self) {
        let [a, b, c, d, e, f, g, _] = self.random.bytes();
        let challenge = match self.random.below(8) {
            0 => self.monitor().challenge(),
            1 => right_answer(self.monitor().challenge()),
            2 => [0x00; 7],
            3 => [0xFF; 7],
            _ => [a, b, c, d, e, f, g],
        };
        self.push(Record::Challenge(challenge));
    }

    /// An event that would be taken, but for its early stamp.
    pub fn early_at(&mut self, stamp: u64) {
        let stamp = Stamp(stamp);
        if self.random.one_in(4) {
            return self.push(Record::Reset { stamp });
        }
        let content = self.tempting();
        let frame = match self.random.below(4) {
            0 => {
                let how = self.random.pick(&UNHEARD);
                self.unheard_frame(how, &content)
            }
            _ => self.heard_frame(&content),
        };
        let storage_works = !self.random.one_in(6);
        self.push(Record::Frame { stamp, storage_works, frame });
    }

    /// A stamp before the last accepted one, or that one if it is 0.
    pub fn early_stamp(&mut self) -> u64 {
        let now = self.now();
        let back = match self.random.below(6) {
            0..=2 => 1,
            3 => self.random.between(1, 3_000),
            4 => self.random.between(1, now.max(1)),
            _ => now,
        };
        now.saturating_sub(back)
    }

    /// Now and then something that changes nothing of what an event at `next`
    /// meets: a question, a refused event, or an unheard frame on the way there.
    fn aside(&mut self, next: u64) {
        match self.random.below(64) {
            0..=3 => self.ask_about(next),
            4 => self.ask_answer(),
            5 if self.now() > 0 => {
                let stamp = self.early_stamp();
                self.early_at(stamp);
            }
            6 => {
                let stamp = self.now() + self.random.between(0, 4_000);
                let how = self.random.pick(&OVERS);
                self.over_at(stamp, how);
            }
            7 | 8 => {
                let way = next.saturating_sub(self.now()) / 2;
                let content = self.tempting();
                let how = self.random.pick(&UNHEARD);
                let frame = self.unheard_frame(how, &content);
                let stamp = self.now() + self.random.between(0, way);
                let stamp = self.fitting(stamp);
                self.push(Record::Frame { stamp, storage_works: true, frame });
            }
            _ => {}
        }
    }

    /// A question now, on the way to the next event, at it, long after it, at a
    /// limit, or too early.
    pub fn ask_about(&mut self, next: u64) {
        let now = self.now();
        let next = next.max(now);
        let limit = self.reference() + SILENCE;
        let stamp = match self.random.below(10) {
            0 => now,
            1 => self.random.between(now, next),
            2 => next,
            3 => next + self.random.between(1, 30_000),
            4 => LAST_STAMP - self.random.between(0, 1),
            5 => self.early_stamp(),
            6 => now + self.random.between(0, 100),
            _ => (limit + self.random.between(0, 2)).saturating_sub(1).max(now),
        };
        self.ask_at(stamp);
    }

    /// A question and a read, which show the last start and whether there is a
    /// session.
    pub fn probe(&mut self) {
        let stamp = self.now() + self.random.pick(&[0, 0, 5, 9, 10, 11]);
        self.ask_at(stamp);
        let code = self.random.pick(&CODES);
        self.send(&[code]);
    }

    // Steering.

    pub fn go_to(&mut self, place: Place) {
        match place {
            Place::Locked => self.lock(),
            Place::Challenged => self.challenge(),
            Place::InSession => self.open_session(),
        }
    }

    /// Locked, with nothing pending and time left to unlock.
    fn lock(&mut self) {
        if self.place() != Place::Locked || self.window_left() < 3_000 {
            self.start_again();
        }
    }

    /// Challenged just now.
    pub fn challenge(&mut self) {
        if self.place() == Place::InSession || self.window_left() < 1_000 {
            self.start_again();
        }
        self.send(&UNLOCK);
    }

    pub fn open_session(&mut self) {
        if self.place() == Place::InSession {
            return;
        }
        self.challenge();
        let answer = self.right_answer();
        self.send(&answer);
    }

    /// Starts again in a way that suits the state: in a session most often by a
    /// commit that is stored.
    pub fn start_again(&mut self) {
        let ways = [
            Start::Commit,
            Start::Commit,
            Start::Commit,
            Start::FailingCommit,
            Start::Reset,
            Start::Silence,
        ];
        match self.place() {
            Place::InSession => {
                let way = self.random.pick(&ways);
                self.start_by(way);
            }
            _ => self.reset(),
        }
    }

    pub fn start_by(&mut self, start: Start) {
        if start == Start::Reset {
            return self.reset();
        }
        self.open_session();
        match start {
            Start::Reset => {}
            Start::Commit => self.commit(true),
            Start::FailingCommit => self.commit(false),
            Start::Silence => {
                let stamp = self.reference() + SILENCE + self.random.between(1, 2_000);
                self.any_unheard_at(stamp);
            }
        }
    }
}
