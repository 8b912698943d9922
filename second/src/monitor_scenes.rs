//! The systematic part of the monitor cases: scenes, each of which leads the
//! monitor to a limit or a near miss of one rule and then looks what came of
//! it.

use crate::codec::{Frame, HIGHEST_EXTENDED};
use crate::monitor::{Stamp, CODES, COMMIT, HIGHEST_LEVEL, SILENCE, SPEED_250, SPEED_500, UNLOCK};
use crate::monitor_cases::Record;
use crate::monitor_host::{
    write, Host, Over, Place, Start, Unheard, LAST_STAMP, OVERS, PLACES, UNHEARD,
};

/// Sent happens between the last heard message and the event at the limit.
#[derive(Clone, Copy, Debug, PartialEq, Eq)]
pub enum Between {
    Nothing,
    /// An unheard frame, which must not restart the 2,000 ms.
    Unheard,
    /// A question or a refused frame past the limit, which must show nothing.
    Question,
    OverLimits,
}

/// The event at the limit of a silence.
#[derive(Clone, Copy, Debug, PartialEq, Eq)]
pub enum Next {
    Read,
    Write,
    Commit,
    FailingCommit,
    Unlock,
    Answer,
    Request,
    Empty,
    Unheard,
    Reset,
    Question,
    OverLimits,
}

/// Sent a near miss nearly is.
#[derive(Clone, Copy, Debug, PartialEq, Eq)]
pub enum Nearly {
    Unlock,
    Commit,
}

/// How it misses, or not.
#[derive(Clone, Copy, Debug, PartialEq, Eq)]
pub enum Miss {
    /// Nothing is wrong with it; it may still be out of place.
    None,
    Byte(usize),
    Length(u8),
}

/// Where an identifier is moved to.
#[derive(Clone, Copy, Debug, PartialEq, Eq)]
pub enum Target {
    Stay,
    Default,
    Zero,
    Highest,
    /// At most 11 bits, so that a standard frame can have the number.
    Small,
    /// The one identifier becomes equal to the other.
    Other,
    OneAbove,
    Random,
}

/// When a refused frame is stamped.
#[derive(Clone, Copy, Debug, PartialEq, Eq)]
pub enum When {
    Early,
    Now,
    /// So late that it would show a silence, or miss a limit.
    Late,
}

/// How far back an early stamp is; `Not` is the last accepted stamp itself.
#[derive(Clone, Copy, Debug, PartialEq, Eq)]
pub enum Back {
    Not,
    One,
    Far,
}

/// Sent is given an early stamp.
#[derive(Clone, Copy, Debug, PartialEq, Eq)]
pub enum Sent {
    Heard,
    Unheard,
    Reset,
    Question,
    OverLimits,
}

/// One scene.
#[derive(Clone, Copy, Debug, PartialEq, Eq)]
pub enum Scene {
    Silence {
        gap: u64,
        between: Between,
        next: Next,
    },
    /// An answer so long after the challenge; byte 0 stands for a right one.
    Answer {
        gap: u64,
        wrong: usize,
    },
    /// An unlock so long after another, and an answer so long after that.
    SecondUnlock {
        apart: u64,
        gap: u64,
    },
    /// A late unlock while a challenge is pending.
    LateUnlock,
    Window {
        start: Start,
        gap: u64,
    },
    NearMiss {
        nearly: Nearly,
        miss: Miss,
        place: Place,
    },
    /// Frames of lengths 0 to 8 that begin with this byte.
    Lengths {
        first: u8,
        place: Place,
    },
    /// Writes of one code, part by part of the values worth trying.
    Writes {
        code: u8,
        part: usize,
    },
    WriteLengths {
        code: u8,
    },
    Move {
        receive: Target,
        transmit: Target,
        storage_works: bool,
    },
    Reset {
        place: Place,
        after_write: bool,
    },
    /// A whole session with storage failing at all frames but the commit.
    StorageFails,
    Unheard {
        how: Unheard,
        place: Place,
    },
    OverLimits {
        how: Over,
        when: When,
        place: Place,
    },
    Early {
        sent: Sent,
        back: Back,
        place: Place,
    },
    /// The monitor's own replies sent to it.
    Echo {
        place: Place,
    },
    Challenges,
}

/// Events that are heard, each for its own kind of reply.
const HEARD: [Next; 8] = [
    Next::Read,
    Next::Write,
    Next::Commit,
    Next::FailingCommit,
    Next::Unlock,
    Next::Answer,
    Next::Request,
    Next::Empty,
];
/// Events that are not, and the question.
const NOT_HEARD: [Next; 4] = [Next::Unheard, Next::Reset, Next::Question, Next::OverLimits];

const BETWEENS: [Between; 4] =
    [Between::Nothing, Between::Unheard, Between::Question, Between::OverLimits];

/// Around the limit of 2,000 and that of 10,000.
pub const AROUND_2000: [u64; 3] = [1_999, 2_000, 2_001];
pub const AROUND_10000: [u64; 3] = [9_999, 10_000, 10_001];

/// The first bytes of requests worth every length: those that are answered,
/// their neighbours and others that 01 names.
const REQUESTS: [u8; 9] = [0x08, 0x09, 0x0A, 0x0B, 0x07, 0x0C, 0xF0, 0xE0, 0x01];
/// The codes and their neighbours.
const NEAR_CODES: [u8; 14] =
    [0x14, 0x15, 0x16, 0x17, 0x18, 0x19, 0x1A, 0x1B, 0x1C, 0x1D, 0x1E, 0x1F, 0x20, 0x21];
/// Bytes that look like codes but are none.
const NO_CODES: [u8; 4] = [0x14, 0x1A, 0x1F, 0x21];

/// The values worth writing are tried in parts of so many.
const PART: usize = 6;
const PARTS: usize = 4;

/// All scenes, some of them several times so that each limit is met often.
pub fn all() -> Vec<Scene> {
    let mut scenes = Vec::new();
    silences(&mut scenes);
    answers(&mut scenes);
    windows(&mut scenes);
    near_misses(&mut scenes);
    contents(&mut scenes);
    moves(&mut scenes);
    places(&mut scenes);
    scenes
}

fn silences(scenes: &mut Vec<Scene>) {
    for gap in AROUND_2000 {
        for between in BETWEENS {
            let (heard, not_heard) = match between {
                Between::Nothing | Between::Question => (1, 4),
                Between::Unheard | Between::OverLimits => (2, 3),
            };
            for next in HEARD {
                scenes.extend([Scene::Silence { gap, between, next }].repeat(heard));
            }
            for next in NOT_HEARD {
                scenes.extend([Scene::Silence { gap, between, next }].repeat(not_heard));
            }
        }
    }
}

fn answers(scenes: &mut Vec<Scene>) {
    for gap in AROUND_2000 {
        for wrong in 1..8 {
            scenes.extend([Scene::Answer { gap, wrong }; 2]);
        }
        scenes.extend([Scene::Answer { gap, wrong: 0 }; 5]);
        for apart in [0, 1, 1_000, 2_000, 2_001, 5_000] {
            scenes.push(Scene::SecondUnlock { apart, gap });
        }
    }
    for wrong in 1..8 {
        scenes.push(Scene::Answer { gap: 700, wrong });
    }
    scenes.extend([Scene::LateUnlock; 14]);
}

fn windows(scenes: &mut Vec<Scene>) {
    for gap in AROUND_10000 {
        for start in [Start::Reset, Start::Commit] {
            scenes.extend([Scene::Window { start, gap }; 10]);
        }
        for start in [Start::FailingCommit, Start::Silence] {
            scenes.extend([Scene::Window { start, gap }; 14]);
        }
    }
}

fn near_misses(scenes: &mut Vec<Scene>) {
    for nearly in [Nearly::Unlock, Nearly::Commit] {
        for place in PLACES {
            scenes.push(Scene::NearMiss { nearly, miss: Miss::None, place });
            for byte in 0..3 {
                scenes.push(Scene::NearMiss { nearly, miss: Miss::Byte(byte), place });
            }
            for length in [0, 1, 2, 4, 5, 8] {
                scenes.push(Scene::NearMiss { nearly, miss: Miss::Length(length), place });
            }
        }
    }
    // More of those that would matter most where they are.
    for byte in 0..3 {
        let (nearly, miss) = (Nearly::Unlock, Miss::Byte(byte));
        for place in [Place::Locked, Place::Challenged] {
            scenes.push(Scene::NearMiss { nearly, miss, place });
        }
        let nearly = Nearly::Commit;
        scenes.push(Scene::NearMiss { nearly, miss, place: Place::InSession });
    }
    for length in [2, 4, 8] {
        let miss = Miss::Length(length);
        for place in [Place::Locked, Place::Challenged] {
            scenes.extend([Scene::NearMiss { nearly: Nearly::Unlock, miss, place }; 3]);
        }
        let place = Place::InSession;
        scenes.extend([Scene::NearMiss { nearly: Nearly::Commit, miss, place }; 9]);
    }
}

fn contents(scenes: &mut Vec<Scene>) {
    for place in PLACES {
        for first in REQUESTS {
            scenes.push(Scene::Lengths { first, place });
        }
    }
    for first in NEAR_CODES {
        scenes.push(Scene::Lengths { first, place: Place::InSession });
    }
    for first in CODES {
        scenes.push(Scene::Lengths { first, place: Place::Challenged });
    }
    for code in CODES {
        for part in 0..PARTS {
            scenes.push(Scene::Writes { code, part });
        }
        scenes.push(Scene::WriteLengths { code });
    }
    for code in NO_CODES {
        scenes.push(Scene::Writes { code, part: 0 });
        scenes.push(Scene::WriteLengths { code });
    }
}

fn moves(scenes: &mut Vec<Scene>) {
    use Target::{Default, Highest, OneAbove, Other, Random, Small, Stay, Zero};
    let pairs = [
        (Default, Default),
        (Zero, Stay),
        (Stay, Zero),
        (Highest, Stay),
        (Stay, Highest),
        (Small, Stay),
        (Small, Random),
        (Other, Stay),
        (Stay, Other),
        (OneAbove, OneAbove),
        (Random, Random),
        (Random, Stay),
        (Stay, Random),
        (Default, Random),
    ];
    for (receive, transmit) in pairs {
        for storage_works in [true, true, false] {
            scenes.push(Scene::Move { receive, transmit, storage_works });
        }
    }
}

fn places(scenes: &mut Vec<Scene>) {
    for place in PLACES {
        for how in UNHEARD {
            scenes.push(Scene::Unheard { how, place });
        }
        scenes.extend([Scene::Unheard { how: Unheard::Standard, place }; 4]);
        for how in OVERS {
            for when in [When::Early, When::Now, When::Late] {
                scenes.push(Scene::OverLimits { how, when, place });
            }
        }
        for sent in [Sent::Heard, Sent::Unheard, Sent::Reset, Sent::Question, Sent::OverLimits] {
            for back in [Back::Not, Back::One, Back::Far] {
                scenes.push(Scene::Early { sent, back, place });
            }
        }
        for after_write in [false, true] {
            scenes.extend([Scene::Reset { place, after_write }; 3]);
        }
        scenes.extend([Scene::Echo { place }; 2]);
    }
    scenes.extend([Scene::StorageFails; 6]);
    scenes.extend([Scene::Challenges; 6]);
}

/// An event for the limit of a silence, of any kind.
pub fn any_event(host: &mut Host, stamp: u64) {
    let next =
        if host.random.one_in(3) { host.random.pick(&NOT_HEARD) } else { host.random.pick(&HEARD) };
    event(host, next, stamp);
}

/// Plays a scene, from whatever state the monitor is in.
pub fn play(host: &mut Host, scene: Scene) {
    match scene {
        Scene::Silence { gap, between, next } => silence(host, gap, between, next),
        Scene::Answer { gap, wrong } => answer(host, gap, wrong),
        Scene::SecondUnlock { apart, gap } => second_unlock(host, apart, gap),
        Scene::LateUnlock => late_unlock(host),
        Scene::Window { start, gap } => {
            host.start_by(start);
            window(host, gap);
        }
        Scene::NearMiss { nearly, miss, place } => near_miss(host, nearly, miss, place),
        Scene::Lengths { first, place } => lengths(host, first, place),
        Scene::Writes { code, part } => writes(host, code, part),
        Scene::WriteLengths { code } => write_lengths(host, code),
        Scene::Move { receive, transmit, storage_works } => {
            move_identifiers(host, receive, transmit, storage_works);
        }
        Scene::Reset { place, after_write } => reset(host, place, after_write),
        Scene::StorageFails => storage_fails(host),
        Scene::Unheard { how, place } => unheard(host, how, place),
        Scene::OverLimits { how, when, place } => over_limits(host, how, when, place),
        Scene::Early { sent, back, place } => early(host, sent, back, place),
        Scene::Echo { place } => echo(host, place),
        Scene::Challenges => (0..3).for_each(|_| host.ask_answer()),
    }
}

fn some_writes(host: &mut Host, most: u64) {
    for _ in 0..host.random.between(0, most) {
        let content = host.legal_write();
        host.send(&content);
    }
}

/// Does what the state waits for and looks at the result: an unlock, an answer,
/// or a read and perhaps a commit.
fn go_on(host: &mut Host) {
    match host.place() {
        Place::Locked => host.send(&UNLOCK),
        Place::Challenged => {
            let answer = host.right_answer();
            host.send(&answer);
        }
        Place::InSession => host.probe(),
    }
    finish(host);
}

/// Half of the sessions end with a commit that is stored, the others go on.
fn finish(host: &mut Host) {
    if host.place() == Place::InSession && host.random.one_in(2) {
        some_writes(host, 1);
        host.send(&COMMIT);
    }
}

fn silence(host: &mut Host, gap: u64, between: Between, next: Next) {
    host.open_session();
    some_writes(host, 2);
    let heard = host.reference();
    match between {
        Between::Nothing => {}
        Between::Unheard => {
            let stamp = heard + host.random.between(1, 1_999);
            host.any_unheard_at(stamp);
        }
        Between::Question => host.ask_at(heard + SILENCE + 1),
        Between::OverLimits => {
            let stamp = heard + SILENCE + host.random.pick(&[1, 2, 500]);
            let how = host.random.pick(&OVERS);
            host.over_at(stamp, how);
        }
    }
    event(host, next, heard + gap);
    host.probe();
    finish(host);
}

fn event(host: &mut Host, next: Next, stamp: u64) {
    match next {
        Next::Read => {
            let code = host.random.pick(&CODES);
            host.send_at(stamp, &[code]);
        }
        Next::Write => {
            let content = host.legal_write();
            host.send_at(stamp, &content);
        }
        Next::Commit => host.commit_at(stamp, true),
        Next::FailingCommit => host.commit_at(stamp, false),
        Next::Unlock => host.send_at(stamp, &UNLOCK),
        Next::Answer => {
            let answer = host.right_answer();
            host.send_at(stamp, &answer);
        }
        Next::Request => {
            let number = host.random.pick(&[0x08, 0x09, 0x0A, 0x0B]);
            host.send_at(stamp, &[number]);
        }
        Next::Empty => host.send_at(stamp, &[]),
        Next::Unheard => host.any_unheard_at(stamp),
        Next::Reset => host.reset_at(stamp),
        Next::Question => host.ask_at(stamp),
        Next::OverLimits => {
            let how = host.random.pick(&OVERS);
            host.over_at(stamp, how);
        }
    }
}

fn answer(host: &mut Host, gap: u64, wrong: usize) {
    host.challenge();
    let since = host.now();
    match host.random.below(4) {
        0 => {
            let stamp = since + host.random.between(0, gap);
            host.any_unheard_at(stamp);
        }
        1 => {
            let number = host.random.pick(&[0x08, 0x09, 0x0A, 0x0B, 0xF0]);
            host.send(&[number]);
        }
        _ => {}
    }
    let answer = if wrong == 0 { host.right_answer() } else { host.wrong_answer(wrong) };
    host.send_at(since + gap, &answer);
    // Whether it opened a session or not, the second answer shows it.
    let second = host.right_answer();
    host.send(&second);
    host.probe();
    finish(host);
}

fn second_unlock(host: &mut Host, apart: u64, gap: u64) {
    host.start_again();
    host.challenge();
    let first = host.now();
    host.send_at(first + apart, &UNLOCK);
    let second = host.now();
    let answer = host.right_answer();
    host.send_at(second + gap, &answer);
    host.probe();
    finish(host);
}

/// A challenge at the end of the window, then an unlock past it: the answer
/// that would have been in time gets no reply.
fn late_unlock(host: &mut Host) {
    host.start_again();
    let start = host.monitor().last_start().0;
    let since = start + host.random.pick(&[8_500, 9_999, 10_000]);
    host.send_at(since, &UNLOCK);
    let late = host.random.pick(&[10_001, 10_001, 10_400]);
    host.send_at(start + late, &UNLOCK);
    let answer = host.right_answer();
    host.send(&answer);
    host.probe();
}

/// An unlock so long after the last start, with perhaps a wrong answer before
/// it, which must not restart the window.
pub fn window(host: &mut Host, gap: u64) {
    let start = host.monitor().last_start().0;
    if host.random.one_in(3) {
        let stamp = host.now() + host.random.between(0, 5_000);
        host.send_at(stamp, &UNLOCK);
        let byte = 1 + host.random.below(7);
        let answer = host.wrong_answer(byte);
        host.send(&answer);
    }
    host.send_at(start + gap, &UNLOCK);
    let stamp = host.now() + host.random.pick(&[0, 5, 300, 1_999, 2_000, 2_000, 2_001]);
    let answer = host.right_answer();
    host.send_at(stamp, &answer);
    host.probe();
    finish(host);
}

fn near_miss(host: &mut Host, nearly: Nearly, miss: Miss, place: Place) {
    host.go_to(place);
    if place == Place::InSession {
        some_writes(host, 2);
    }
    let mut bytes = host.random.bytes();
    bytes[..3].copy_from_slice(match nearly {
        Nearly::Unlock => &UNLOCK,
        Nearly::Commit => &COMMIT,
    });
    let mut length = 3;
    match miss {
        Miss::None => {}
        Miss::Byte(byte) => bytes[byte] ^= 1 << host.random.below(8),
        Miss::Length(other) => length = other,
    }
    // The bytes past the length stay: 14 28 of length 2 has a D5 behind it.
    let frame = host.heard_frame(&bytes);
    let stamp = host.now() + host.stride();
    host.any_frame_at(stamp, Frame { length, ..frame });
    host.probe();
    go_on(host);
}

fn lengths(host: &mut Host, first: u8, place: Place) {
    host.go_to(place);
    for length in 0..=8 {
        let mut bytes = host.random.bytes();
        bytes[0] = first;
        let frame = host.heard_frame(&bytes);
        // A little time only: a challenge has to last for all of them.
        let stamp = host.now() + host.random.between(0, 40);
        host.any_frame_at(stamp, Frame { length, ..frame });
    }
    go_on(host);
}

/// Values at and around each limit.
fn values(rating: u32) -> [u32; PART * PARTS] {
    [
        0,
        1,
        rating - 1,
        rating,
        rating + 1,
        65_535,
        65_536,
        HIGHEST_EXTENDED - 1,
        HIGHEST_EXTENDED,
        HIGHEST_EXTENDED + 1,
        SPEED_250 - 1,
        SPEED_250,
        SPEED_250 + 1,
        SPEED_500 - 1,
        SPEED_500,
        SPEED_500 + 1,
        HIGHEST_LEVEL - 1,
        HIGHEST_LEVEL,
        HIGHEST_LEVEL + 1,
        0x8000_0000 | SPEED_250,
        250,
        500,
        0xFFFF_FFFE,
        0xFFFF_FFFF,
    ]
}

fn writes(host: &mut Host, code: u8, part: usize) {
    host.open_session();
    let rating = u32::from(host.monitor().rating());
    for value in &values(rating)[part * PART..][..PART] {
        host.send(&write(code, *value));
        host.send(&[code]);
    }
    host.start_again();
}

fn write_lengths(host: &mut Host, code: u8) {
    host.open_session();
    for length in [4, 5, 6] {
        let value = host.legal_value(code);
        let [a, b, c, d, e] = write(code, value);
        host.send(&[a, b, c, d, e, 0][..length]);
        host.send(&[code]);
    }
    host.start_again();
}

fn target(host: &mut Host, target: Target, own: u32, other: u32) -> Option<u32> {
    let free = host.random.word() & HIGHEST_EXTENDED;
    match target {
        Target::Stay => None,
        Target::Default => Some(host.random.pick(&[0x0A10_0100, 0x0A10_0101])),
        Target::Zero => Some(0),
        Target::Highest => Some(HIGHEST_EXTENDED),
        Target::Small => Some(free & 0x7FF),
        Target::Other => Some(other),
        Target::OneAbove => Some((own + 1) & HIGHEST_EXTENDED),
        Target::Random => Some(free),
    }
}

/// Moves identifiers and then uses both the old one and the new one.
fn move_identifiers(host: &mut Host, receive: Target, transmit: Target, storage_works: bool) {
    host.open_session();
    let stored = *host.monitor().stored();
    let new_receive = target(host, receive, stored.receive, stored.transmit);
    let new_transmit = target(host, transmit, stored.transmit, stored.receive);
    if let Some(identifier) = new_receive {
        host.send(&write(0x15, identifier));
    }
    if let Some(identifier) = new_transmit {
        host.send(&write(0x16, identifier));
    }
    // The draft's identifier is not in force yet.
    let drafted = new_receive.unwrap_or(stored.receive);
    send_on(host, drafted, &[0x15]);
    host.send(&[0x16]);
    host.commit(storage_works);
    for content in [UNLOCK.to_vec(), host.right_answer().to_vec(), vec![0x15], vec![0x16]] {
        send_on(host, stored.receive, &content);
        send_on(host, drafted, &content);
    }
    finish(host);
}

/// An extended frame on a given identifier.
fn send_on(host: &mut Host, identifier: u32, content: &[u8]) {
    let frame = host.heard_frame(content);
    let stamp = host.now() + host.stride();
    host.any_frame_at(stamp, Frame { identifier, ..frame });
}

fn reset(host: &mut Host, place: Place, after_write: bool) {
    host.go_to(place);
    if after_write {
        let content = host.legal_write();
        host.send(&content);
    }
    host.reset();
    let answer = host.right_answer();
    host.send(&answer);
    host.probe();
    go_on(host);
}

fn storage_fails(host: &mut Host) {
    host.start_by(Start::Reset);
    for content in [UNLOCK.to_vec(), host.right_answer().to_vec()] {
        let frame = host.heard_frame(&content);
        let stamp = host.now() + host.stride();
        host.frame_at(stamp, false, frame);
    }
    for _ in 0..2 {
        let content = host.legal_write();
        let frame = host.heard_frame(&content);
        let stamp = host.now() + host.stride();
        host.frame_at(stamp, false, frame);
    }
    host.commit(true);
    host.probe();
}

fn unheard(host: &mut Host, how: Unheard, place: Place) {
    if how == Unheard::Standard && host.random.one_in(2) {
        // A standard frame can have the right number if that is small.
        host.open_session();
        let identifier = host.random.word() & 0x7FF;
        host.send(&write(0x15, identifier));
        host.commit(true);
    }
    host.go_to(place);
    for _ in 0..2 {
        let stamp = host.now() + host.stride();
        host.unheard_at(stamp, how);
    }
    go_on(host);
}

fn over_limits(host: &mut Host, how: Over, when: When, place: Place) {
    host.go_to(place);
    let now = host.now();
    let stamp = match when {
        When::Early => host.early_stamp(),
        When::Now => now,
        When::Late => now + host.random.pick(&[2_001, 10_001, LAST_STAMP]),
    };
    host.over_at(stamp, how);
    host.ask_at(now);
    go_on(host);
}

fn early(host: &mut Host, sent: Sent, back: Back, place: Place) {
    host.go_to(place);
    let now = host.now();
    let stamp = match back {
        Back::Not => now,
        Back::One => now.saturating_sub(1),
        Back::Far => host.random.between(0, now.saturating_sub(1)),
    };
    match sent {
        Sent::Heard => {
            let content = host.tempting();
            let frame = host.heard_frame(&content);
            raw_frame(host, stamp, frame);
        }
        Sent::Unheard => {
            let content = host.tempting();
            let how = host.random.pick(&UNHEARD);
            let frame = host.unheard_frame(how, &content);
            raw_frame(host, stamp, frame);
        }
        Sent::Reset => host.push(Record::Reset { stamp: Stamp(stamp) }),
        Sent::Question => host.ask_at(stamp),
        Sent::OverLimits => {
            let how = host.random.pick(&OVERS);
            host.over_at(stamp, how);
        }
    }
    host.probe();
    go_on(host);
}

/// A frame at any stamp, early ones too.
fn raw_frame(host: &mut Host, stamp: u64, frame: Frame) {
    let storage_works = !host.random.one_in(6);
    host.push(Record::Frame { stamp: Stamp(stamp), storage_works, frame });
}

/// With equal identifiers the monitor's own replies are heard, if someone else
/// sends them.
fn echo(host: &mut Host, place: Place) {
    host.open_session();
    let receive = host.receive();
    host.send(&write(0x16, receive));
    host.commit(true);
    host.go_to(place);
    let mut challenge = [0x14; 8];
    challenge[1..].copy_from_slice(&host.monitor().challenge());
    for content in [&[0x41, 0x43, 0x4B][..], &[0x4E, 0x41, 0x4B][..], &challenge[..]] {
        host.send(content);
    }
    go_on(host);
}
