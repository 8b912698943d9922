//! Tests of the history reading: what it says of runs whose answers are written
//! by hand from document 01, and whether the state machine says the same of
//! made-up runs.

use crate::codec::Frame;
use crate::history::{Event, History};
use crate::monitor::{Settings, Stamp, Ticks, Unit};
use crate::monitor_cases::{encode, reply_part, stored_part, Record};
use crate::monitor_histories::{compare, compare_all, Counts, Played, Plays, Said, Seen};
use crate::monitor_inputs::write_all;

const RECEIVE: u32 = 0x0A10_0101;
const UNLOCK: &[u8] = &[0x14, 0x28, 0xD5];
const COMMIT: &[u8] = &[0x14, 0x9A, 0x28];
/// The right answer for the serial 00 01 .. 0F, as document 01 prints it, and a
/// wrong one.
const ANSWER: &[u8] = &[0x14, 0x53, 0x4F, 0x46, 0x50, 0x4D, 0x48, 0x44];
const WRONG: &[u8] = &[0x14, 0x53, 0x4F, 0x46, 0x50, 0x4D, 0x48, 0x45];
/// "write 20 00 00 00 FA", and a write of 200 to the same setting.
const WRITE: &[u8] = &[0x20, 0x00, 0x00, 0x00, 0xFA];
const WRITE_200: &[u8] = &[0x20, 0x00, 0x00, 0x00, 0xC8];

const ACK: &str = "0A100100 3 41 43 4B 00 00 00 00 00";
const NAK: &str = "0A100100 3 4E 41 4B 00 00 00 00 00";
const CHALLENGE: &str = "0A100100 8 14 00 01 02 03 04 05 06";
const NONE: &str = "no reply";
const READ_100: &str = "0A100100 5 20 00 00 00 64 00 00 00";
const READ_200: &str = "0A100100 5 20 00 00 00 C8 00 00 00";
const READ_250: &str = "0A100100 5 20 00 00 00 FA 00 00 00";
const WORD_08: &str = "0A100100 5 08 0C 0D 0E 0F 00 00 00";

/// What is stored at power-on, and with another fault level.
const DEFAULTS: &str = " stored 0A100101 0A100100 500 0 500 100";
const FAULT_200: &str = " stored 0A100101 0A100100 500 0 500 200";
const FAULT_250: &str = " stored 0A100101 0A100100 500 0 500 250";

const UNIT: Unit = Unit {
    serial: [0, 1, 2, 3, 4, 5, 6, 7, 8, 9, 10, 11, 12, 13, 14, 15],
    rating: 1_000,
    settings: Settings {
        receive: 0x0A10_0101,
        transmit: 0x0A10_0100,
        speed: 0x00CA_0500,
        voltage: 0,
        warning: 500,
        fault: 100,
    },
};

/// An extended frame; past its length it has bytes that mean nothing.
fn on(identifier: u32, stamp: u64, content: &[u8]) -> Event {
    let mut bytes = [0xD5; 8];
    bytes[..content.len()].copy_from_slice(content);
    let frame = Frame { extended: true, length: content.len() as u8, identifier, bytes };
    Event::Frame { stamp: Stamp(stamp), storage_works: true, frame }
}

fn heard(stamp: u64, content: &[u8]) -> Event {
    on(RECEIVE, stamp, content)
}

fn unheard(stamp: u64, content: &[u8]) -> Event {
    on(RECEIVE + 1, stamp, content)
}

/// A heard frame with storage failing.
fn failing(stamp: u64, content: &[u8]) -> Event {
    match heard(stamp, content) {
        Event::Frame { stamp, frame, .. } => Event::Frame { stamp, storage_works: false, frame },
        reset => reset,
    }
}

fn reset(stamp: u64) -> Event {
    Event::Reset { stamp: Stamp(stamp) }
}

/// Checks what the history reading says of each event after a power-on at
/// `start`: the reply, and what is stored after it.
fn check_stored(start: u64, steps: &[(Event, &str, &str)]) {
    let events: Vec<Event> = steps.iter().map(|step| step.0).collect();
    let history = History::new(Stamp(start), &UNIT, &events);
    assert_eq!(stored_part(&history.stored_before(0)), DEFAULTS);
    for (i, (event, reply, stored)) in steps.iter().enumerate() {
        assert_eq!(reply_part(history.reply(i)), *reply, "reply to event {i}, {event:?}");
        let after = stored_part(&history.stored_before(i + 1));
        assert_eq!(after, *stored, "stored after event {i}, {event:?}");
    }
}

/// The same where nothing stored changes.
fn check(steps: &[(Event, &str)]) {
    let steps: Vec<_> = steps.iter().map(|&(event, reply)| (event, reply, DEFAULTS)).collect();
    check_stored(0, &steps);
}

/// The same after an unlock at 1000.
fn challenged(steps: &[(Event, &str)]) {
    let mut all = vec![(heard(1_000, UNLOCK), CHALLENGE)];
    all.extend(steps);
    check(&all);
}

/// The same with an answer at 1500: the session is open.
fn in_session(steps: &[(Event, &str)]) {
    let mut all = vec![(heard(1_500, ANSWER), ACK)];
    all.extend(steps);
    challenged(&all);
}

/// Steps in the session, all of them stored as at power-on but the last.
fn session_stores(steps: &[(Event, &str)], stored: &str) {
    let mut all = vec![(heard(1_000, UNLOCK), CHALLENGE), (heard(1_500, ANSWER), ACK)];
    all.extend(steps);
    let mut all: Vec<_> = all.into_iter().map(|(event, reply)| (event, reply, DEFAULTS)).collect();
    all.last_mut().expect("there are steps").2 = stored;
    check_stored(0, &all);
}

/// The last start at a stamp after a power-on at 0, an unlock at 1000, an answer
/// at 1500 and these events.
fn start_in_session(then: &[Event], stamp: u64) -> u64 {
    let mut events = vec![heard(1_000, UNLOCK), heard(1_500, ANSWER)];
    events.extend(then);
    History::new(Stamp(0), &UNIT, &events).last_start_at(events.len(), Stamp(stamp)).0
}

// The marked cases.

#[test]
fn p1_the_listing() {
    session_stores(&[(heard(3_500, WRITE), ACK), (heard(4_000, COMMIT), ACK)], FAULT_250);
}

#[test]
fn p2_the_write_at_3501() {
    in_session(&[(heard(3_501, WRITE), NONE), (heard(4_000, COMMIT), NONE)]);
}

#[test]
fn p3_and_p4_the_unlock_window() {
    check(&[(heard(10_000, UNLOCK), CHALLENGE)]);
    check(&[(heard(10_001, UNLOCK), NAK)]);
}

#[test]
fn p5_and_p6_the_answer_window() {
    challenged(&[(heard(3_000, ANSWER), ACK)]);
    challenged(&[(heard(3_001, ANSWER), NAK)]);
}

/// "challenge 01 23 45 67 89 AB CD is answered 52 6D 01 34 C0 E6 8F (002 prints 64
/// for 6D; the xor decides)"
#[test]
fn p7_the_answer_to_a_challenge() {
    let mut unit = UNIT;
    unit.serial[..7].copy_from_slice(&[0x01, 0x23, 0x45, 0x67, 0x89, 0xAB, 0xCD]);
    for (second, reply) in [(0x6D, ACK), (0x64, NAK)] {
        let answer = [0x14, 0x52, second, 0x01, 0x34, 0xC0, 0xE6, 0x8F];
        let events = [heard(1_000, UNLOCK), heard(1_500, &answer)];
        let history = History::new(Stamp(0), &unit, &events);
        assert_eq!(reply_part(history.reply(0)), "0A100100 8 14 01 23 45 67 89 AB CD");
        assert_eq!(reply_part(history.reply(1)), reply);
    }
}

#[test]
fn p8_a_commit_with_storage_failing() {
    in_session(&[(heard(3_500, WRITE), ACK), (failing(4_000, COMMIT), NAK)]);
}

#[test]
fn p9_and_p10_the_voltage_and_the_rating() {
    in_session(&[(heard(2_000, &[0x18, 0x00, 0x00, 0x03, 0xE8]), NAK)]);
    in_session(&[(heard(2_000, &[0x18, 0x00, 0x00, 0x03, 0xE7]), ACK)]);
}

// "no two successive heard messages over 2,000 ms apart since that answer". In
// the session above the answer has the stamp 1500.

#[test]
fn silence_from_the_answer_on() {
    for stamp in [1_500, 3_499, 3_500] {
        in_session(&[(heard(stamp, &[0x20]), READ_100)]);
        session_stores(&[(heard(stamp, WRITE), ACK), (heard(stamp, COMMIT), ACK)], FAULT_250);
    }
    in_session(&[(heard(3_501, &[0x20]), NONE), (heard(3_501, &[0x20]), NONE)]);
    in_session(&[(heard(3_501, COMMIT), NONE)]);
    in_session(&[(heard(3_501, ANSWER), NONE)]);
    in_session(&[(heard(3_501, UNLOCK), CHALLENGE), (heard(3_501, ANSWER), ACK)]);
    in_session(&[(heard(3_501, &[0x08]), WORD_08)]);
}

#[test]
fn silence_from_each_heard_message_on() {
    let messages: [&[u8]; 7] =
        [WRITE, &[0x18, 0, 0, 0, 0], &[0x20], UNLOCK, WRONG, &[], &[0x77; 8]];
    let replies = [ACK, NAK, READ_100, NAK, NAK, NAK, NAK];
    for (message, reply) in messages.into_iter().zip(replies) {
        let before = (heard(3_500, message), reply);
        let stored = if message == WRITE { FAULT_250 } else { DEFAULTS };
        session_stores(&[before, (heard(5_500, COMMIT), ACK)], stored);
        in_session(&[before, (heard(5_501, COMMIT), NONE)]);
    }
    // One gap too long is enough, wherever it was.
    in_session(&[
        (heard(2_000, WRITE), ACK),
        (heard(4_001, WRITE), NONE),
        (heard(4_002, COMMIT), NONE),
    ]);
}

#[test]
fn an_unheard_frame_does_not_restart_the_2000_ms() {
    for stamp in [2_000, 3_499, 3_500] {
        let between = (unheard(stamp, &[0x20]), NONE);
        in_session(&[between, (heard(3_500, &[0x20]), READ_100)]);
        in_session(&[between, (heard(3_501, &[0x20]), NONE)]);
    }
    // Past the limit it finds the session over.
    in_session(&[(unheard(3_501, &[0x20]), NONE), (heard(3_501, &[0x20]), NONE)]);
    assert_eq!(start_in_session(&[unheard(3_500, &[0x20])], 3_500), 0);
    assert_eq!(start_in_session(&[unheard(3_501, &[0x20])], 3_501), 3_500);
}

#[test]
fn a_silence_starts_at_the_last_message_plus_2000() {
    for stamp in [1_500, 3_499, 3_500] {
        assert_eq!(start_in_session(&[], stamp), 0);
    }
    for stamp in [3_501, 3_502, 9_000, 4_294_967_295] {
        assert_eq!(start_in_session(&[], stamp), 3_500);
        assert_eq!(start_in_session(&[heard(stamp, &[0x20])], stamp), 3_500);
        assert_eq!(start_in_session(&[heard(3_000, &[])], stamp.max(5_001)), 5_000);
    }
    // A question between two events, and events after the silence.
    let events = [heard(1_000, UNLOCK), heard(1_500, ANSWER), heard(9_000, WRITE)];
    let history = History::new(Stamp(0), &UNIT, &events);
    assert_eq!(history.last_start_at(1, Stamp(8_000)).0, 0);
    assert_eq!(history.last_start_at(2, Stamp(3_500)).0, 0);
    assert_eq!(history.last_start_at(2, Stamp(3_501)).0, 3_500);
    assert_eq!(history.last_start_at(3, Stamp(90_000)).0, 3_500);
}

#[test]
fn there_is_no_silence_outside_a_session() {
    let start = |events: &[Event]| {
        History::new(Stamp(7), &UNIT, events).last_start_at(events.len(), Stamp(99_999)).0
    };
    assert_eq!(start(&[]), 7);
    assert_eq!(start(&[heard(1_000, UNLOCK)]), 7);
    assert_eq!(start(&[heard(1_000, UNLOCK), heard(1_500, WRONG)]), 7);
    assert_eq!(start(&[heard(1_000, UNLOCK), heard(3_001, ANSWER)]), 7);
    assert_eq!(start(&[heard(1_000, UNLOCK), unheard(1_500, ANSWER)]), 7);
    // Nor after a session that a reset or a commit has ended.
    assert_eq!(start_in_session(&[reset(3_500)], 99_999), 3_500);
    assert_eq!(start_in_session(&[reset(2_000), heard(2_000, &[0x20])], 99_999), 2_000);
    assert_eq!(start_in_session(&[heard(2_000, COMMIT)], 99_999), 2_000);
    assert_eq!(start_in_session(&[failing(2_000, COMMIT), heard(2_100, &[])], 99_999), 2_000);
}

// "with no reset [...] since that answer"

#[test]
fn a_reset_ends_the_session() {
    for stamp in [1_500, 2_500, 3_500, 3_501] {
        in_session(&[
            (heard(1_500, WRITE), ACK),
            (reset(stamp), NONE),
            (heard(stamp, &[0x20]), NONE),
            (heard(stamp, COMMIT), NONE),
            (heard(stamp, &[0x08]), WORD_08),
        ]);
        assert_eq!(start_in_session(&[reset(stamp)], stamp), stamp);
        assert_eq!(start_in_session(&[reset(stamp)], stamp + 2_001), stamp);
    }
}

#[test]
fn a_reset_takes_the_challenge() {
    challenged(&[(reset(1_000), NONE), (heard(1_000, ANSWER), NONE)]);
    // One before the unlock does not.
    check(&[(reset(1_000), NONE), (heard(1_000, UNLOCK), CHALLENGE), (heard(3_000, ANSWER), ACK)]);
}

// "no earlier commit heard"

#[test]
fn a_commit_ends_the_session_stored_or_not() {
    let after = |commit: Event, reply: &'static str, stored: &'static str| {
        check_stored(
            0,
            &[
                (heard(1_000, UNLOCK), CHALLENGE, DEFAULTS),
                (heard(1_500, ANSWER), ACK, DEFAULTS),
                (heard(1_600, WRITE), ACK, DEFAULTS),
                (commit, reply, stored),
                (heard(1_700, &[0x20]), NONE, stored),
                (heard(1_700, WRITE_200), NONE, stored),
                (heard(1_700, COMMIT), NONE, stored),
                (heard(1_700, ANSWER), NONE, stored),
                (heard(1_700, &[0x08]), WORD_08, stored),
            ],
        );
    };
    after(heard(1_700, COMMIT), ACK, FAULT_250);
    after(failing(1_700, COMMIT), NAK, DEFAULTS);
    assert_eq!(start_in_session(&[heard(1_700, COMMIT)], 1_700), 1_700);
    assert_eq!(start_in_session(&[failing(1_700, COMMIT)], 1_700), 1_700);
}

#[test]
fn a_commit_outside_a_session_does_nothing() {
    check(&[(heard(0, COMMIT), NONE), (heard(10_001, UNLOCK), NAK)]);
    challenged(&[(heard(1_500, COMMIT), NONE), (heard(3_000, ANSWER), ACK)]);
    challenged(&[(heard(1_500, WRITE), NONE), (heard(1_500, COMMIT), NONE)]);
    in_session(&[(unheard(1_600, COMMIT), NONE), (heard(1_600, &[0x20]), READ_100)]);
}

/// "Commit 14 9A 28, length 3"
#[test]
fn what_is_nearly_a_commit_is_none() {
    let nearly: [&[u8]; 4] =
        [&[0x14, 0x9A], &[0x14, 0x9A, 0x29], &[0x14, 0x9A, 0x28, 0x00], &[0x15, 0x9A, 0x28]];
    for content in nearly {
        session_stores(
            &[
                (heard(1_600, WRITE), ACK),
                (heard(1_700, content), NAK),
                (heard(1_800, &[0x20]), READ_250),
                (heard(1_900, COMMIT), ACK),
            ],
            FAULT_250,
        );
    }
}

// "Each setting then takes that session's last accepted write to it, if there
// was one."

#[test]
fn the_last_accepted_write_is_stored() {
    session_stores(
        &[(heard(1_600, WRITE), ACK), (heard(1_700, WRITE_200), ACK), (heard(1_800, COMMIT), ACK)],
        FAULT_200,
    );
    // A refused one does not count, nor one that is not heard, nor what has
    // another length.
    session_stores(
        &[
            (heard(1_600, WRITE), ACK),
            (heard(1_700, &[0x20, 0x80, 0x00, 0x00, 0x01]), NAK),
            (heard(1_700, &[0x20, 0x00, 0x00, 0x00, 0x00]), NAK),
            (unheard(1_700, WRITE_200), NONE),
            (heard(1_700, &[0x20, 0x00, 0x00, 0x00]), NAK),
            (heard(1_700, &[0x20, 0x00, 0x00, 0x00, 0xC8, 0x00]), NAK),
            (heard(1_700, &[0x1A, 0x00, 0x00, 0x00, 0xC8]), NAK),
            (heard(1_800, COMMIT), ACK),
        ],
        FAULT_250,
    );
    // The note on storage counts at the commit alone.
    session_stores(&[(failing(1_600, WRITE), ACK), (heard(1_700, COMMIT), ACK)], FAULT_250);
    // A session without a write changes nothing.
    in_session(&[(heard(1_600, COMMIT), ACK)]);
}

#[test]
fn each_setting_takes_its_own_write() {
    session_stores(
        &[
            (heard(1_600, &[0x15, 0x1F, 0xFF, 0xFF, 0xFF]), ACK),
            (heard(1_600, &[0x16, 0x00, 0x00, 0x00, 0x00]), ACK),
            (heard(1_600, &[0x17, 0x00, 0xCA, 0x02, 0x50]), ACK),
            (heard(1_600, &[0x18, 0x00, 0x00, 0x03, 0xE7]), ACK),
            (heard(1_600, &[0x19, 0x7F, 0xFF, 0xFF, 0xFF]), ACK),
            (heard(1_600, &[0x20, 0x00, 0x00, 0x00, 0x01]), ACK),
            (heard(1_600, COMMIT), ACK),
        ],
        " stored 1FFFFFFF 00000000 250 999 2147483647 1",
    );
}

/// Each code with the lowest and the highest value that may be written, and their
/// neighbours that may not. A voltage of 0 is refused, though power-on takes it.
#[test]
fn the_values_that_may_be_written() {
    let limits: [(u8, &[u32], &[u32]); 6] = [
        (0x15, &[0, 0x1FFF_FFFF], &[0x2000_0000, 0x8000_0000, 0xFFFF_FFFF]),
        (0x16, &[0, 0x1FFF_FFFF], &[0x2000_0000, 0x8000_0000, 0xFFFF_FFFF]),
        (0x17, &[0x00CA_0250, 0x00CA_0500], &[0, 250, 500, 0x00CA_0251, 0x80CA_0500]),
        (0x18, &[1, 999], &[0, 1_000, 0x8000_0001, 0xFFFF_FFFF]),
        (0x19, &[1, 2_147_483_647], &[0, 2_147_483_648, 0xFFFF_FFFF]),
        (0x20, &[1, 2_147_483_647], &[0, 2_147_483_648, 0xFFFF_FFFF]),
    ];
    for (code, legal, illegal) in limits {
        let write = |value: u32| [&[code][..], &value.to_be_bytes()].concat();
        legal.iter().for_each(|&value| in_session(&[(heard(1_600, &write(value)), ACK)]));
        illegal.iter().for_each(|&value| in_session(&[(heard(1_600, &write(value)), NAK)]));
    }
    for code in [0x14, 0x1A, 0x1F, 0x21] {
        in_session(&[(heard(1_600, &[code, 0x00, 0x00, 0x00, 0x01]), NAK)]);
    }
}

/// A first session stores 250; the second one begins at 3000.
fn second_session(steps: &[(Event, &str, &str)]) {
    let mut all = vec![
        (heard(1_000, UNLOCK), CHALLENGE, DEFAULTS),
        (heard(1_500, ANSWER), ACK, DEFAULTS),
        (heard(1_600, WRITE), ACK, DEFAULTS),
        (heard(2_000, COMMIT), ACK, FAULT_250),
        (heard(2_500, UNLOCK), CHALLENGE, FAULT_250),
        (heard(3_000, ANSWER), ACK, FAULT_250),
    ];
    all.extend(steps);
    check_stored(0, &all);
}

#[test]
fn later_sessions_store_too() {
    second_session(&[
        (heard(3_100, &[0x20]), READ_250, FAULT_250),
        (heard(3_200, WRITE_200), ACK, FAULT_250),
        (heard(3_300, COMMIT), ACK, FAULT_200),
    ]);
    // What the first session stored stays where the second does not write.
    second_session(&[
        (heard(3_200, &[0x19, 0x00, 0x00, 0x00, 0x07]), ACK, FAULT_250),
        (heard(3_300, COMMIT), ACK, " stored 0A100101 0A100100 500 0 7 250"),
    ]);
    second_session(&[(heard(3_300, COMMIT), ACK, FAULT_250)]);
    second_session(&[
        (heard(3_200, WRITE_200), ACK, FAULT_250),
        (failing(3_300, COMMIT), NAK, FAULT_250),
    ]);
}

#[test]
fn a_write_counts_in_its_own_session_only() {
    let ends = [
        (reset(2_000), NONE),
        (failing(2_000, COMMIT), NAK),
        // Past the silence of the first session.
        (heard(3_601, &[0x20]), NONE),
    ];
    for end in ends {
        in_session(&[
            (heard(1_600, WRITE), ACK),
            end,
            (heard(4_000, UNLOCK), CHALLENGE),
            (heard(4_000, ANSWER), ACK),
            (heard(4_100, &[0x20]), READ_100),
            (heard(4_200, COMMIT), ACK),
        ]);
    }
    // Nor does one before the answer.
    challenged(&[
        (heard(1_100, WRITE), NONE),
        (heard(1_500, ANSWER), ACK),
        (heard(1_600, &[0x20]), READ_100),
        (heard(1_700, COMMIT), ACK),
    ]);
}

#[test]
fn a_read_gives_the_last_accepted_write_else_what_is_stored() {
    in_session(&[
        (heard(1_600, &[0x20]), READ_100),
        (heard(1_600, WRITE), ACK),
        (heard(1_600, &[0x20]), READ_250),
        (heard(1_600, WRITE_200), ACK),
        (heard(1_600, &[0x20]), READ_200),
        (heard(1_600, &[0x20, 0xFF, 0xFF, 0xFF, 0xFF]), NAK),
        (heard(1_600, &[0x20]), READ_200),
        (heard(1_600, &[0x19]), "0A100100 5 19 00 00 01 F4 00 00 00"),
        (heard(1_600, &[0x1A]), NAK),
    ]);
}

// "a session opened by a timely unlock and its timely right answer"

#[test]
fn the_unlock_window_runs_from_the_last_start() {
    let window = |start: u64, before: &[(Event, &str)]| {
        for (stamp, reply) in [(start + 10_000, CHALLENGE), (start + 10_001, NAK)] {
            let mut steps = before.to_vec();
            steps.push((heard(stamp, UNLOCK), reply));
            in_session(&steps);
        }
    };
    window(2_000, &[(reset(2_000), NONE)]);
    window(2_000, &[(heard(2_000, COMMIT), ACK)]);
    window(2_000, &[(failing(2_000, COMMIT), NAK)]);
    window(3_500, &[]);
    window(3_500, &[(unheard(5_000, &[]), NONE)]);
    window(4_000, &[(heard(2_000, &[]), NAK)]);
    // The later one of two starts.
    window(6_000, &[(heard(2_000, COMMIT), ACK), (reset(6_000), NONE)]);
    window(6_000, &[(unheard(5_000, &[]), NONE), (reset(6_000), NONE)]);
}

#[test]
fn nothing_else_restarts_the_unlock_window() {
    for (event, reply) in [
        (heard(9_000, UNLOCK), CHALLENGE),
        (heard(9_000, WRONG), NAK),
        (heard(3_001, ANSWER), NAK),
        (heard(9_000, COMMIT), NONE),
        (heard(9_000, WRITE), NONE),
        (heard(9_000, &[0x08]), WORD_08),
        (unheard(9_000, COMMIT), NONE),
    ] {
        challenged(&[(event, reply), (heard(10_001, UNLOCK), NAK)]);
        challenged(&[(event, reply), (heard(10_000, UNLOCK), CHALLENGE)]);
    }
    // The 10,000 ms limit the unlock alone.
    check(&[(heard(10_000, UNLOCK), CHALLENGE), (heard(12_000, ANSWER), ACK)]);
}

#[test]
fn an_unlock_replaces_the_challenge() {
    challenged(&[(heard(2_500, UNLOCK), CHALLENGE), (heard(4_500, ANSWER), ACK)]);
    challenged(&[(heard(2_500, UNLOCK), CHALLENGE), (heard(4_501, ANSWER), NAK)]);
    // A challenge that is too old is replaced too.
    challenged(&[(heard(9_000, UNLOCK), CHALLENGE), (heard(11_000, ANSWER), ACK)]);
    // A late unlock leaves nothing pending.
    check(&[
        (heard(9_500, UNLOCK), CHALLENGE),
        (heard(10_001, UNLOCK), NAK),
        (heard(10_002, ANSWER), NONE),
        (heard(10_003, &[0x20]), NONE),
    ]);
}

#[test]
fn an_answer_leaves_nothing_pending() {
    challenged(&[(heard(1_500, WRONG), NAK), (heard(1_600, ANSWER), NONE)]);
    challenged(&[(heard(3_001, ANSWER), NAK), (heard(3_001, ANSWER), NONE)]);
    // After the session, the answered challenge is not pending again.
    in_session(&[(reset(1_600), NONE), (heard(1_700, ANSWER), NONE)]);
    check(&[(heard(0, ANSWER), NONE), (heard(1, WRONG), NONE)]);
    challenged(&[
        (heard(1_500, WRONG), NAK),
        (heard(1_600, UNLOCK), CHALLENGE),
        (heard(1_700, ANSWER), ACK),
    ]);
}

#[test]
fn nothing_else_touches_the_challenge() {
    let others: [(Event, &str); 9] = [
        (heard(1_500, &[0x08]), WORD_08),
        (heard(1_500, &[0x0B, 0x12, 0x34]), "0A100100 5 0B 00 01 02 03 00 00 00"),
        (heard(1_500, &[0x08, 0x00]), NONE),
        (heard(1_500, &[0xF0]), NONE),
        (heard(1_500, &[]), NONE),
        (heard(1_500, &[0x14; 7]), NONE),
        (heard(1_500, &[0x14, 0x28, 0xD4]), NONE),
        (unheard(1_500, WRONG), NONE),
        (unheard(1_500, UNLOCK), NONE),
    ];
    for other in others {
        challenged(&[other, (heard(3_000, ANSWER), ACK)]);
        challenged(&[other, (heard(3_001, ANSWER), NAK)]);
    }
}

#[test]
fn unlock_and_answer_in_a_session() {
    // They are NAK and the session goes on, its writes too.
    session_stores(
        &[
            (heard(1_600, WRITE), ACK),
            (heard(1_700, UNLOCK), NAK),
            (heard(1_800, ANSWER), NAK),
            (heard(1_900, &[0x20]), READ_250),
            (heard(2_000, COMMIT), ACK),
        ],
        FAULT_250,
    );
    // That unlock is no challenge, not after the session either.
    in_session(&[(heard(1_600, UNLOCK), NAK), (reset(1_600), NONE), (heard(1_600, ANSWER), NONE)]);
    in_session(&[(heard(1_600, UNLOCK), NAK), (heard(3_601, ANSWER), NONE)]);
    in_session(&[
        (heard(1_600, UNLOCK), NAK),
        (heard(1_700, COMMIT), ACK),
        (heard(1_700, ANSWER), NONE),
    ]);
    // Requests have no word in a session.
    in_session(&[(heard(1_600, &[0x08]), NAK), (heard(1_600, &[0x0B, 0, 0]), NAK)]);
}

// "heard on the identifier then in force"

#[test]
fn a_new_receive_identifier_is_in_force_after_the_commit() {
    const NEW: u32 = 0x0000_0123;
    const MOVED: &str = " stored 00000123 0A100100 500 0 500 100";
    check_stored(
        0,
        &[
            (heard(1_000, UNLOCK), CHALLENGE, DEFAULTS),
            (heard(1_500, ANSWER), ACK, DEFAULTS),
            (heard(1_600, &[0x15, 0x00, 0x00, 0x01, 0x23]), ACK, DEFAULTS),
            (on(NEW, 1_700, &[0x20]), NONE, DEFAULTS),
            (on(NEW, 1_700, COMMIT), NONE, DEFAULTS),
            (heard(1_700, &[0x20]), READ_100, DEFAULTS),
            (heard(1_800, COMMIT), ACK, MOVED),
            (heard(1_900, UNLOCK), NONE, MOVED),
            (on(NEW, 1_900, UNLOCK), CHALLENGE, MOVED),
            (heard(2_000, ANSWER), NONE, MOVED),
            (on(NEW, 2_000, ANSWER), ACK, MOVED),
            (heard(2_100, WRITE), NONE, MOVED),
            (on(NEW, 2_100, &[0x20]), READ_100, MOVED),
            (heard(2_200, COMMIT), NONE, MOVED),
            (on(NEW, 4_101, COMMIT), NONE, MOVED),
        ],
    );
}

/// "Every reply is on the transmit identifier stored before the event."
#[test]
fn a_new_transmit_identifier_is_used_after_the_commit() {
    const MOVED: &str = " stored 0A100101 00000456 500 0 500 100";
    check_stored(
        0,
        &[
            (heard(1_000, UNLOCK), CHALLENGE, DEFAULTS),
            (heard(1_500, ANSWER), ACK, DEFAULTS),
            (heard(1_600, &[0x16, 0x00, 0x00, 0x04, 0x56]), ACK, DEFAULTS),
            (heard(1_700, &[0x20]), READ_100, DEFAULTS),
            (heard(1_800, COMMIT), ACK, MOVED),
            (heard(1_900, &[0x08]), "00000456 5 08 0C 0D 0E 0F 00 00 00", MOVED),
            (heard(1_900, UNLOCK), "00000456 8 14 00 01 02 03 04 05 06", MOVED),
        ],
    );
}

#[test]
fn a_standard_frame_is_not_heard() {
    let unit = Unit { settings: Settings { receive: 0x123, ..UNIT.settings }, ..UNIT };
    let Event::Frame { stamp, storage_works, frame } = on(0x123, 1_000, UNLOCK) else {
        unreachable!("it is a frame");
    };
    for extended in [true, false] {
        let events = [Event::Frame { stamp, storage_works, frame: Frame { extended, ..frame } }];
        let history = History::new(Stamp(0), &unit, &events);
        assert_eq!(history.heard(0), extended);
        assert_eq!(history.reply(0).is_some(), extended);
    }
}

#[test]
fn the_serial_words() {
    check(&[
        (heard(0, &[0x08]), WORD_08),
        (heard(0, &[0x09]), "0A100100 5 09 08 09 0A 0B 00 00 00"),
        (heard(0, &[0x0A, 0xFF, 0xFF]), "0A100100 5 0A 04 05 06 07 00 00 00"),
        (heard(0, &[0x0B]), "0A100100 5 0B 00 01 02 03 00 00 00"),
        (heard(0, &[0x07]), NONE),
        (heard(0, &[0x0C]), NONE),
        (reset(0), NONE),
    ]);
}

/// Stamps near the highest: no sum of stamps wraps.
#[test]
fn the_highest_stamps() {
    const LAST: u64 = 4_294_967_295;
    let steps = [
        (heard(LAST - 2_001, UNLOCK), CHALLENGE, DEFAULTS),
        (heard(LAST - 1, ANSWER), ACK, DEFAULTS),
        (heard(LAST, WRITE), ACK, DEFAULTS),
        (heard(LAST, COMMIT), ACK, FAULT_250),
        (heard(LAST, UNLOCK), CHALLENGE, FAULT_250),
    ];
    check_stored(LAST - 12_001, &steps);
    check_stored(LAST - 12_002, &[(steps[0].0, NAK, DEFAULTS)]);
}

/// What is said of an event does not depend on what comes after it.
#[test]
fn the_start_of_a_history_says_the_same() {
    let events = [
        heard(1_000, UNLOCK),
        heard(1_500, ANSWER),
        heard(1_600, WRITE),
        heard(1_700, COMMIT),
        heard(1_800, UNLOCK),
        heard(1_900, ANSWER),
        unheard(3_901, COMMIT),
        heard(4_000, UNLOCK),
        reset(4_000),
    ];
    let whole = History::new(Stamp(0), &UNIT, &events);
    for number in 0..=events.len() {
        let start = History::new(Stamp(0), &UNIT, &events[..number]);
        assert_eq!(start.stored_before(number), whole.stored_before(number));
        assert_eq!(
            start.last_start_at(number, Stamp(5_000)),
            whole.last_start_at(number, Stamp(5_000))
        );
        for i in 0..number {
            assert_eq!(start.reply(i), whole.reply(i));
        }
    }
}

// Both readings.

fn inputs(seed: u64, runs: u64) -> Vec<u8> {
    let mut cases = Vec::new();
    write_all(seed, runs, &mut cases).unwrap();
    cases
}

#[test]
fn both_readings_say_the_same_of_made_up_runs() {
    for seed in [1, 2, 3, 4, 2_026, u64::MAX] {
        let counts = compare(&inputs(seed, 60)).unwrap_or_else(|text| panic!("{seed}: {text}"));
        assert_eq!(counts.runs, 60);
        // They have something to agree on.
        assert!(counts.events > 3_000 && counts.replies > 2_000, "{counts}");
        assert!(counts.questions > 500 && counts.resets > 100, "{counts}");
        assert!(counts.sessions > 300 && counts.silent > 30, "{counts}");
        assert!(counts.commits_changing > 60 && counts.commits_failed > 20, "{counts}");
        let ended = counts.silent + counts.reset_sessions;
        let ended = ended + counts.commits_stored + counts.commits_failed;
        assert!(ended <= counts.sessions, "{counts}");
        assert!(counts.sessions <= ended + counts.power_ons, "{counts}");
    }
}

/// The run of P1 with a question, as records.
fn listed_run() -> Vec<u8> {
    let power_on = Record::PowerOn { stamp: Stamp(0), unit: UNIT };
    let mut cases = encode(&power_on);
    let contents = [(1_000, UNLOCK), (1_500, ANSWER), (3_500, WRITE), (4_000, COMMIT)];
    for (stamp, content) in contents {
        let Event::Frame { stamp, storage_works, frame } = heard(stamp, content) else {
            unreachable!("it is a frame");
        };
        cases.extend(encode(&Record::Frame { stamp, storage_works, frame }));
    }
    cases.extend(encode(&Record::Reset { stamp: Stamp(3_999) }));
    cases.extend(encode(&Record::Uptime { stamp: Stamp(4_019) }));
    cases
}

fn compared(cases: &[u8]) -> (bool, String) {
    let mut out = Vec::new();
    let same = compare_all(cases, &mut out).unwrap();
    (same, String::from_utf8(out).unwrap())
}

#[test]
fn the_line_of_a_comparison() {
    let line = "the same for 1 runs, 1 power-ons accepted, 4 accepted events (4 heard, 0 resets, \
                4 replies), 1 uptime questions; 1 sessions opened, 0 fell silent, 0 reset, \
                1 commits stored, 1 of them with a changed setting, 0 commits failed; \
                1 records refused\n";
    assert_eq!(compared(&listed_run()), (true, line.to_string()));
    let mut cut = listed_run();
    cut.extend([0; 19]);
    let line = "after 7 records come 19 bytes that are no record\n";
    assert_eq!(compared(&cut), (false, line.to_string()));
}

/// The run of P1 as it was played, one of its answers changed.
fn changed(change: impl Fn(&mut Vec<Seen>)) -> Result<(), String> {
    let cases = listed_run();
    let mut played: Vec<Played> = Plays::of(&cases).collect();
    assert_eq!((played.len(), played[0].seen.len()), (1, 5));
    change(&mut played[0].seen);
    played[0].compare(&mut Counts::default())
}

/// A machine that says something else of any event or question is found out,
/// whichever part it is.
#[test]
fn every_difference_is_found() {
    assert_eq!(changed(|_| {}), Ok(()));
    for at in 0..5 {
        for part in 0..3 {
            let difference = changed(|seen| match (&mut seen[at].said, part) {
                (Said::Event { reply, .. }, 0) => *reply = None,
                (Said::Event { stored, .. }, 1) => stored.fault += 1,
                (Said::Uptime { ticks, .. }, 0) => *ticks = Ticks(2),
                (Said::Event { start, .. } | Said::Uptime { start, .. }, _) => start.0 += 1,
            });
            let record = [2, 3, 4, 5, 7][at];
            let place = format!("different in run 1, record {record}, after {at} accepted");
            assert!(difference.unwrap_err().starts_with(&place), "{place}");
        }
    }
}

#[test]
fn the_text_of_a_difference() {
    let said = Said::Event { reply: None, stored: UNIT.settings, start: Stamp(0) };
    assert_eq!(
        changed(|seen| seen[3].said = said).unwrap_err(),
        "different in run 1, record 5, after 3 accepted events\n\
         frame at 4000, storage works: 0A100101 3 14 9A 28 D5 D5 D5 D5 D5\n\
         the history reading says: 0A100100 3 41 43 4B 00 00 00 00 00 \
         stored 0A100101 0A100100 500 0 500 250, started at 4000\n\
         the state machine says: no reply stored 0A100101 0A100100 500 0 500 100, started at 0"
    );
    let said = Said::Uptime { ticks: Ticks(0), start: Stamp(4_019) };
    assert_eq!(
        changed(|seen| seen[4].said = said).unwrap_err(),
        "different in run 1, record 7, after 4 accepted events\n\
         uptime question at 4019\n\
         the history reading says: ticks 1, started at 4000\n\
         the state machine says: ticks 0, started at 4019"
    );
}
