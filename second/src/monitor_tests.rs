//! Monitor cases whose lines are written by hand from document 01: the marked
//! cases and each limit from both sides.

use crate::codec::Frame;
use crate::monitor::{Settings, Stamp, Unit};
use crate::monitor_cases::{answer_all, encode, Record};

const RECEIVE: u32 = 0x0A10_0101;
const UNLOCK: &[u8] = &[0x14, 0x28, 0xD5];
const COMMIT: &[u8] = &[0x14, 0x9A, 0x28];
/// The right answer for the serial 00 01 .. 0F, as document 01 prints it.
const ANSWER: &[u8] = &[0x14, 0x53, 0x4F, 0x46, 0x50, 0x4D, 0x48, 0x44];

const ACK: &str = "0A100100 3 41 43 4B 00 00 00 00 00";
const NAK: &str = "0A100100 3 4E 41 4B 00 00 00 00 00";
const CHALLENGE: &str = "0A100100 8 14 00 01 02 03 04 05 06";
const NONE: &str = "no reply";
/// What the monitor of the marked cases has stored at power-on.
const DEFAULTS: &str = "0A100101 0A100100 500 0 500 100";
/// The receive identifier as it is read.
const READ_15: &str = "0A100100 5 15 0A 10 01 01 00 00 00";

const UNIT: Unit = Unit {
    serial: [0, 1, 2, 3, 4, 5, 6, 7, 8, 9, 10, 11, 12, 13, 14, 15],
    rating: 1_000,
    settings: Settings {
        receive: 0x0A10_0101,
        transmit: 0x0A10_0100,
        speed: 0x00CA_0500,
        voltage: 0,
        warning: 500,
        fault: 100,
    },
};

fn on(stamp: u64) -> Record {
    Record::PowerOn { stamp: Stamp(stamp), unit: UNIT }
}

/// An extended frame; past its length it has bytes that mean nothing.
fn frame(identifier: u32, content: &[u8]) -> Frame {
    let mut bytes = [0xD5; 8];
    bytes[..content.len()].copy_from_slice(content);
    Frame { extended: true, length: content.len() as u8, identifier, bytes }
}

fn at(stamp: u64, frame: Frame) -> Record {
    Record::Frame { stamp: Stamp(stamp), storage_works: true, frame }
}

fn failing(stamp: u64, content: &[u8]) -> Record {
    Record::Frame { stamp: Stamp(stamp), storage_works: false, frame: frame(RECEIVE, content) }
}

fn heard(stamp: u64, content: &[u8]) -> Record {
    at(stamp, frame(RECEIVE, content))
}

fn unheard(stamp: u64, content: &[u8]) -> Record {
    at(stamp, frame(RECEIVE + 1, content))
}

fn over(stamp: u64, content: &[u8]) -> Record {
    at(stamp, Frame { length: 9, ..frame(RECEIVE, content) })
}

fn reset(stamp: u64) -> Record {
    Record::Reset { stamp: Stamp(stamp) }
}

fn ask(stamp: u64) -> Record {
    Record::Uptime { stamp: Stamp(stamp) }
}

fn answers(records: &[Record]) -> String {
    let cases: Vec<u8> = records.iter().flat_map(encode).collect();
    let mut out = Vec::new();
    answer_all(&cases, &mut out).unwrap();
    String::from_utf8(out).unwrap()
}

/// Checks the lines after a power-on at `start`: their first parts, and what is
/// stored.
fn check_stored(start: u64, steps: &[(Record, &str, &str)]) {
    let mut records = vec![on(start)];
    let mut lines = format!("on stored {DEFAULTS}\n");
    for (record, first, stored) in steps {
        records.push(*record);
        lines.push_str(&format!("{first} stored {stored}\n"));
    }
    assert_eq!(answers(&records), lines);
}

/// The same where nothing stored changes.
fn check_from(start: u64, steps: &[(Record, &str)]) {
    let steps: Vec<_> = steps.iter().map(|&(record, first)| (record, first, DEFAULTS)).collect();
    check_stored(start, &steps);
}

fn check(steps: &[(Record, &str)]) {
    check_from(0, steps);
}

/// After a power-on at 0 and an unlock at 1000.
fn challenged(steps: &[(Record, &str)]) {
    let mut all = vec![(heard(1_000, UNLOCK), CHALLENGE)];
    all.extend(steps);
    check(&all);
}

/// The same with an answer at 1500: the session is open.
fn in_session(steps: &[(Record, &str)]) {
    let mut all = vec![(heard(1_500, ANSWER), ACK)];
    all.extend(steps);
    challenged(&all);
}

// The marked cases, each as its whole text.

fn marked_session(write_stamp: u64, commit: Record) -> String {
    answers(&[
        on(0),
        heard(1_000, UNLOCK),
        heard(1_500, ANSWER),
        heard(write_stamp, &[0x20, 0x00, 0x00, 0x00, 0xFA]),
        commit,
    ])
}

#[test]
fn p1_the_listing() {
    assert_eq!(
        marked_session(3_500, heard(4_000, COMMIT)),
        "on stored 0A100101 0A100100 500 0 500 100\n\
         0A100100 8 14 00 01 02 03 04 05 06 stored 0A100101 0A100100 500 0 500 100\n\
         0A100100 3 41 43 4B 00 00 00 00 00 stored 0A100101 0A100100 500 0 500 100\n\
         0A100100 3 41 43 4B 00 00 00 00 00 stored 0A100101 0A100100 500 0 500 100\n\
         0A100100 3 41 43 4B 00 00 00 00 00 stored 0A100101 0A100100 500 0 500 250\n"
    );
}

#[test]
fn p2_the_write_at_3501() {
    assert_eq!(
        marked_session(3_501, heard(4_000, COMMIT)),
        "on stored 0A100101 0A100100 500 0 500 100\n\
         0A100100 8 14 00 01 02 03 04 05 06 stored 0A100101 0A100100 500 0 500 100\n\
         0A100100 3 41 43 4B 00 00 00 00 00 stored 0A100101 0A100100 500 0 500 100\n\
         no reply stored 0A100101 0A100100 500 0 500 100\n\
         no reply stored 0A100101 0A100100 500 0 500 100\n"
    );
}

#[test]
fn p3_an_unlock_at_10000_is_challenged() {
    assert_eq!(
        answers(&[on(0), heard(10_000, UNLOCK)]),
        "on stored 0A100101 0A100100 500 0 500 100\n\
         0A100100 8 14 00 01 02 03 04 05 06 stored 0A100101 0A100100 500 0 500 100\n"
    );
}

#[test]
fn p4_an_unlock_at_10001_is_not() {
    assert_eq!(
        answers(&[on(0), heard(10_001, UNLOCK)]),
        "on stored 0A100101 0A100100 500 0 500 100\n\
         0A100100 3 4E 41 4B 00 00 00 00 00 stored 0A100101 0A100100 500 0 500 100\n"
    );
}

#[test]
fn p5_an_answer_after_2000() {
    assert_eq!(
        answers(&[on(0), heard(1_000, UNLOCK), heard(3_000, ANSWER)]),
        "on stored 0A100101 0A100100 500 0 500 100\n\
         0A100100 8 14 00 01 02 03 04 05 06 stored 0A100101 0A100100 500 0 500 100\n\
         0A100100 3 41 43 4B 00 00 00 00 00 stored 0A100101 0A100100 500 0 500 100\n"
    );
}

#[test]
fn p6_an_answer_after_2001() {
    assert_eq!(
        answers(&[on(0), heard(1_000, UNLOCK), heard(3_001, ANSWER)]),
        "on stored 0A100101 0A100100 500 0 500 100\n\
         0A100100 8 14 00 01 02 03 04 05 06 stored 0A100101 0A100100 500 0 500 100\n\
         0A100100 3 4E 41 4B 00 00 00 00 00 stored 0A100101 0A100100 500 0 500 100\n"
    );
}

#[test]
fn p7_the_answer_to_a_challenge() {
    let challenge = [0x01, 0x23, 0x45, 0x67, 0x89, 0xAB, 0xCD];
    assert_eq!(answers(&[Record::Challenge(challenge)]), "answer 52 6D 01 34 C0 E6 8F\n");
    assert_eq!(answers(&[Record::Challenge([0; 7])]), "answer 53 4E 44 53 49 4D 42\n");
}

#[test]
fn p8_a_commit_with_storage_failing() {
    assert_eq!(
        marked_session(3_500, failing(4_000, COMMIT)),
        "on stored 0A100101 0A100100 500 0 500 100\n\
         0A100100 8 14 00 01 02 03 04 05 06 stored 0A100101 0A100100 500 0 500 100\n\
         0A100100 3 41 43 4B 00 00 00 00 00 stored 0A100101 0A100100 500 0 500 100\n\
         0A100100 3 41 43 4B 00 00 00 00 00 stored 0A100101 0A100100 500 0 500 100\n\
         0A100100 3 4E 41 4B 00 00 00 00 00 stored 0A100101 0A100100 500 0 500 100\n"
    );
}

fn voltage_write(content: &[u8]) -> String {
    answers(&[on(0), heard(1_000, UNLOCK), heard(1_500, ANSWER), heard(2_000, content)])
}

#[test]
fn p9_a_voltage_equal_to_the_rating() {
    assert_eq!(
        voltage_write(&[0x18, 0x00, 0x00, 0x03, 0xE8]),
        "on stored 0A100101 0A100100 500 0 500 100\n\
         0A100100 8 14 00 01 02 03 04 05 06 stored 0A100101 0A100100 500 0 500 100\n\
         0A100100 3 41 43 4B 00 00 00 00 00 stored 0A100101 0A100100 500 0 500 100\n\
         0A100100 3 4E 41 4B 00 00 00 00 00 stored 0A100101 0A100100 500 0 500 100\n"
    );
}

#[test]
fn p10_a_voltage_one_below_the_rating() {
    assert_eq!(
        voltage_write(&[0x18, 0x00, 0x00, 0x03, 0xE7]),
        "on stored 0A100101 0A100100 500 0 500 100\n\
         0A100100 8 14 00 01 02 03 04 05 06 stored 0A100101 0A100100 500 0 500 100\n\
         0A100100 3 41 43 4B 00 00 00 00 00 stored 0A100101 0A100100 500 0 500 100\n\
         0A100100 3 41 43 4B 00 00 00 00 00 stored 0A100101 0A100100 500 0 500 100\n"
    );
}

// Silence. In the session above the last heard message has the stamp 1500.

#[test]
fn silence_before_a_heard_frame() {
    in_session(&[(heard(3_499, &[0x15]), READ_15), (ask(3_499), "ticks 349")]);
    in_session(&[(heard(3_500, &[0x15]), READ_15), (ask(3_500), "ticks 350")]);
    in_session(&[(heard(3_501, &[0x15]), NONE), (ask(3_501), "ticks 0"), (ask(3_510), "ticks 1")]);
    // It is met as locked: a commit gets no reply, an unlock is challenged, an
    // answer has nothing pending, a request gets its word.
    in_session(&[(heard(3_500, COMMIT), ACK)]);
    in_session(&[(heard(3_501, COMMIT), NONE)]);
    in_session(&[(heard(3_500, UNLOCK), NAK)]);
    in_session(&[(heard(3_501, UNLOCK), CHALLENGE)]);
    in_session(&[(heard(3_500, ANSWER), NAK)]);
    in_session(&[(heard(3_501, ANSWER), NONE)]);
    in_session(&[(heard(3_500, &[0x08]), NAK)]);
    in_session(&[(heard(3_501, &[0x08]), "0A100100 5 08 0C 0D 0E 0F 00 00 00")]);
    // Each heard frame restarts the 2,000 ms, whatever it is.
    in_session(&[
        (heard(3_500, &[]), NAK),
        (heard(5_500, &[0x77; 8]), NAK),
        (heard(7_500, &[0x15]), READ_15),
        (heard(9_501, &[0x15]), NONE),
        (ask(9_510), "ticks 1"),
    ]);
}

#[test]
fn silence_before_an_unheard_frame() {
    for stamp in [3_499, 3_500] {
        in_session(&[
            (unheard(stamp, COMMIT), NONE),
            (heard(3_500, &[0x15]), READ_15),
            (ask(3_500), "ticks 350"),
        ]);
    }
    in_session(&[(unheard(3_501, COMMIT), NONE), (ask(3_520), "ticks 2")]);
    // The unheard frame does not restart the 2,000 ms.
    for stamp in [2_000, 3_499, 3_500] {
        in_session(&[(unheard(stamp, &[]), NONE), (heard(3_501, &[0x15]), NONE)]);
    }
}

#[test]
fn silence_before_a_reset() {
    for stamp in [3_499, 3_500, 3_501] {
        in_session(&[
            (reset(stamp), NONE),
            (ask(stamp), "ticks 0"),
            (ask(stamp + 10), "ticks 1"),
            (heard(stamp, &[0x15]), NONE),
        ]);
    }
}

#[test]
fn silence_and_a_question() {
    // A question moves nothing, not its stamp either.
    in_session(&[
        (ask(3_499), "ticks 349"),
        (ask(3_500), "ticks 350"),
        (ask(3_501), "ticks 0"),
        (ask(3_509), "ticks 0"),
        (ask(3_510), "ticks 1"),
        (ask(4_294_967_295), "ticks 429496379"),
        (heard(3_500, &[0x15]), READ_15),
    ]);
}

#[test]
fn silence_and_a_refused_event() {
    for stamp in [3_499, 3_500, 3_501, 9_000] {
        in_session(&[
            (over(stamp, COMMIT), "refused 1"),
            (heard(3_499, &[0x15]), READ_15),
            (ask(3_499), "ticks 349"),
        ]);
    }
    in_session(&[(over(3_501, COMMIT), "refused 1"), (heard(3_501, &[0x15]), NONE)]);
}

#[test]
fn silence_drops_the_draft() {
    let write = [0x20, 0x00, 0x00, 0x00, 0xFA];
    in_session(&[
        (heard(2_000, &write), ACK),
        (heard(2_000, &[0x20]), "0A100100 5 20 00 00 00 FA 00 00 00"),
        (heard(4_001, UNLOCK), CHALLENGE),
        (heard(4_001, ANSWER), ACK),
        (heard(4_001, &[0x20]), "0A100100 5 20 00 00 00 64 00 00 00"),
    ]);
}

// The answer. In the challenged state above the challenge has the stamp 1000.

#[test]
fn the_answer_in_time_and_late() {
    challenged(&[(heard(2_999, ANSWER), ACK), (heard(2_999, &[0x15]), READ_15)]);
    challenged(&[(heard(3_000, ANSWER), ACK), (heard(5_000, &[0x15]), READ_15)]);
    // A late answer gets one NAK; then nothing is pending.
    challenged(&[(heard(3_001, ANSWER), NAK), (heard(3_001, ANSWER), NONE)]);
    // No restart: the window still ends at 10000, the uptime runs on.
    challenged(&[
        (heard(3_001, ANSWER), NAK),
        (ask(3_001), "ticks 300"),
        (heard(10_000, UNLOCK), CHALLENGE),
        (heard(10_001, UNLOCK), NAK),
    ]);
}

#[test]
fn an_answer_wrong_in_each_byte() {
    for byte in 1..8 {
        let mut wrong = ANSWER.to_vec();
        wrong[byte] ^= 0x10;
        challenged(&[
            (heard(1_500, &wrong), NAK),
            (heard(1_500, ANSWER), NONE),
            (heard(1_500, &[0x15]), NONE),
            (ask(1_500), "ticks 150"),
            (heard(10_001, UNLOCK), NAK),
        ]);
        challenged(&[(heard(3_000, &wrong), NAK), (heard(3_000, ANSWER), NONE)]);
    }
    // The same bit wrong in two bytes.
    challenged(&[
        (heard(1_500, &[0x14, 0x52, 0x4E, 0x46, 0x50, 0x4D, 0x48, 0x44]), NAK),
        (heard(1_500, ANSWER), NONE),
    ]);
    // Byte 0 wrong, or another length: no answer, and the challenge stays.
    challenged(&[
        (heard(1_500, &[0x15, 0x53, 0x4F, 0x46, 0x50, 0x4D, 0x48, 0x44]), NONE),
        (heard(1_500, &ANSWER[..7]), NONE),
        (heard(1_500, &ANSWER[..0]), NONE),
        (heard(1_500, ANSWER), ACK),
    ]);
}

#[test]
fn an_answer_with_nothing_pending() {
    check(&[
        (heard(500, ANSWER), NONE),
        (heard(600, UNLOCK), CHALLENGE),
        (heard(700, ANSWER), ACK),
    ]);
    // Answered by the challenge itself: wrong.
    challenged(&[(heard(1_100, &[0x14, 0, 1, 2, 3, 4, 5, 6]), NAK), (heard(1_100, ANSWER), NONE)]);
}

#[test]
fn a_second_unlock_replaces_the_challenge() {
    challenged(&[(heard(2_500, UNLOCK), CHALLENGE), (heard(4_499, ANSWER), ACK)]);
    challenged(&[(heard(2_500, UNLOCK), CHALLENGE), (heard(4_500, ANSWER), ACK)]);
    challenged(&[(heard(2_500, UNLOCK), CHALLENGE), (heard(4_501, ANSWER), NAK)]);
    // A pending challenge does not expire: late it is replaced all the same.
    challenged(&[(heard(9_000, UNLOCK), CHALLENGE), (heard(11_000, ANSWER), ACK)]);
}

#[test]
fn a_late_unlock_drops_the_challenge() {
    check(&[
        (heard(9_500, UNLOCK), CHALLENGE),
        (heard(10_001, UNLOCK), NAK),
        (heard(10_001, ANSWER), NONE),
    ]);
    // The answer itself may come after the window.
    check(&[(heard(10_000, UNLOCK), CHALLENGE), (heard(12_000, ANSWER), ACK)]);
    check(&[(heard(10_000, UNLOCK), CHALLENGE), (heard(12_001, ANSWER), NAK)]);
}

// The unlock window, for each kind of start.

/// The steps lead to a start at `start`; then the window is tried.
fn window_after(start: u64, steps: &[(Record, &str)]) {
    for (gap, first) in [(9_999, CHALLENGE), (10_000, CHALLENGE), (10_001, NAK)] {
        let mut all = steps.to_vec();
        all.push((heard(start + gap, UNLOCK), first));
        check(&all);
    }
}

#[test]
fn the_window_of_each_start() {
    window_after(0, &[]);
    window_after(700, &[(reset(700), NONE)]);
    let session = [(heard(1_000, UNLOCK), CHALLENGE), (heard(1_500, ANSWER), ACK)];
    let after = |step: (Record, &'static str)| [session[0], session[1], step];
    window_after(1_600, &after((heard(1_600, COMMIT), ACK)));
    window_after(1_600, &after((failing(1_600, COMMIT), NAK)));
    window_after(1_600, &after((reset(1_600), NONE)));
    // The silence counts from 1500 plus 2000, whether it was shown or not.
    window_after(3_500, &session);
    window_after(3_500, &after((unheard(4_000, UNLOCK), NONE)));
}

#[test]
fn near_misses_of_the_unlock() {
    for content in [
        &[0x15, 0x28, 0xD5][..],
        &[0x14, 0x29, 0xD5],
        &[0x14, 0x28, 0xD4],
        &[],
        &[0x14],
        &[0x14, 0x28],
        &[0x14, 0x28, 0xD5, 0x00],
        &[0x14, 0x28, 0xD5, 0x00, 0x00, 0x00, 0x00, 0x00],
    ] {
        check(&[(heard(100, content), NONE), (heard(100, ANSWER), NONE)]);
        in_session(&[(heard(1_600, content), NAK), (heard(1_600, &[0x15]), READ_15)]);
    }
    // Past the length there may be what would have made it right: `heard` puts
    // D5 there.
    let two = frame(RECEIVE, &[0x14, 0x28]);
    assert_eq!(two.bytes[2], 0xD5);
    check(&[(at(100, two), NONE)]);
    // With a challenge pending the one of length 8 is an answer, and wrong.
    challenged(&[
        (heard(1_100, &[0x14, 0x28, 0xD5, 0, 0, 0, 0, 0]), NAK),
        (heard(1_100, ANSWER), NONE),
    ]);
    challenged(&[(heard(1_100, &[0x14, 0x28, 0xD5, 0]), NONE), (heard(1_100, ANSWER), ACK)]);
}

/// "Bytes past the length are ignored": a frame of length 0 has no first byte.
#[test]
fn a_frame_of_length_0() {
    let empty = |stamp, byte| at(stamp, Frame { length: 0, ..frame(RECEIVE, &[byte]) });
    check(&[(empty(100, 0x08), NONE), (empty(100, 0x14), NONE)]);
    challenged(&[(empty(1_100, 0x0B), NONE), (heard(1_100, ANSWER), ACK)]);
    in_session(&[(empty(1_600, 0x15), NAK), (empty(3_600, 0x20), NAK), (empty(5_601, 0x20), NONE)]);
}

#[test]
fn near_misses_of_the_commit() {
    let write = [0x20, 0x00, 0x00, 0x00, 0xFA];
    for content in [
        &[0x15, 0x9A, 0x28][..],
        &[0x14, 0x9B, 0x28],
        &[0x14, 0x9A, 0x29],
        &[0x14, 0x9A],
        &[0x14, 0x9A, 0x28, 0x00],
        &[0x14, 0x9A, 0x28, 0x00, 0x00, 0x00, 0x00, 0x00],
    ] {
        in_session(&[
            (heard(1_600, &write), ACK),
            (heard(1_600, content), NAK),
            (heard(1_600, &[0x20]), "0A100100 5 20 00 00 00 FA 00 00 00"),
        ]);
    }
    // Outside a session it is nothing, and touches no challenge.
    check(&[(heard(100, COMMIT), NONE)]);
    challenged(&[(heard(1_100, COMMIT), NONE), (heard(1_100, ANSWER), ACK)]);
}

// Requests.

#[test]
fn serial_words() {
    let words = [
        (0x08, "0A100100 5 08 0C 0D 0E 0F 00 00 00"),
        (0x09, "0A100100 5 09 08 09 0A 0B 00 00 00"),
        (0x0A, "0A100100 5 0A 04 05 06 07 00 00 00"),
        (0x0B, "0A100100 5 0B 00 01 02 03 00 00 00"),
    ];
    for (number, word) in words {
        for length in 0..=8 {
            let content = &[number, 0x9A, 0x28, 1, 2, 3, 4, 5][..length];
            let first = if length == 1 || length == 3 { word } else { NONE };
            check(&[(heard(100, content), first)]);
            challenged(&[(heard(1_100, content), first), (heard(1_200, ANSWER), ACK)]);
            in_session(&[(heard(1_600, content), NAK), (heard(3_600, &[0x15]), READ_15)]);
        }
    }
}

#[test]
fn requests_that_get_no_reply() {
    for first in [0x01, 0x07, 0x0C, 0xE0, 0xF0, 0x80, 0x15, 0x20] {
        for length in 1..=8 {
            let content = &[first, 0, 0, 0, 0, 0, 0, 0][..length];
            check(&[(heard(10_500, content), NONE)]);
            challenged(&[(heard(1_100, content), NONE), (heard(1_200, ANSWER), ACK)]);
        }
    }
}

// Reads and writes.

#[test]
fn reads_of_each_code() {
    let values = [
        (0x15, READ_15),
        (0x16, "0A100100 5 16 0A 10 01 00 00 00 00"),
        (0x17, "0A100100 5 17 00 CA 05 00 00 00 00"),
        (0x18, "0A100100 5 18 00 00 00 00 00 00 00"),
        (0x19, "0A100100 5 19 00 00 01 F4 00 00 00"),
        (0x20, "0A100100 5 20 00 00 00 64 00 00 00"),
    ];
    for code in 0..=255u8 {
        let first = values.iter().find(|value| value.0 == code).map_or(NAK, |value| value.1);
        in_session(&[(heard(1_600, &[code]), first)]);
        for length in [0, 2, 3, 4, 6, 7, 8] {
            in_session(&[(heard(1_600, &[code, 0, 0, 0, 0, 0, 0, 0][..length]), NAK)]);
        }
    }
}

/// Writes a value in a session and reads it back.
fn write(code: u8, value: u32, legal: bool) {
    let [a, b, c, d] = value.to_be_bytes();
    let read = format!("0A100100 5 {code:02X} {a:02X} {b:02X} {c:02X} {d:02X} 00 00 00");
    let before = match code {
        0x15 => READ_15,
        0x16 => "0A100100 5 16 0A 10 01 00 00 00 00",
        0x17 => "0A100100 5 17 00 CA 05 00 00 00 00",
        0x18 => "0A100100 5 18 00 00 00 00 00 00 00",
        0x19 => "0A100100 5 19 00 00 01 F4 00 00 00",
        0x20 => "0A100100 5 20 00 00 00 64 00 00 00",
        _ => NAK,
    };
    let after = if legal { (ACK, read.as_str()) } else { (NAK, before) };
    in_session(&[
        (heard(1_600, &[code, a, b, c, d]), after.0),
        (heard(1_700, &[code]), after.1),
        // Nothing is stored at the ACK of a write; another length writes nothing.
        (heard(1_700, &[code, a, b, c]), NAK),
        (heard(1_700, &[code, a, b, c, d, 0]), NAK),
        (heard(1_700, &[code]), after.1),
    ]);
}

#[test]
fn writes_at_each_limit() {
    for (value, legal) in [
        (0, true),
        (1, true),
        (0x1FFF_FFFE, true),
        (0x1FFF_FFFF, true),
        (0x2000_0000, false),
        (0x7FFF_FFFF, false),
        (0x8000_0000, false),
        (0xFFFF_FFFF, false),
    ] {
        write(0x15, value, legal);
        write(0x16, value, legal);
    }
    for (value, legal) in [
        (0x00CA_024F, false),
        (0x00CA_0250, true),
        (0x00CA_0251, false),
        (0x00CA_04FF, false),
        (0x00CA_0500, true),
        (0x00CA_0501, false),
        (0x80CA_0500, false),
        (0, false),
        (250, false),
        (500, false),
        (0xFFFF_FFFF, false),
    ] {
        write(0x17, value, legal);
    }
    for (value, legal) in [
        (0, false),
        (1, true),
        (998, true),
        (999, true),
        (1_000, false),
        (1_001, false),
        (65_537, false),
        (0x8000_0001, false),
        (0xFFFF_FFFF, false),
    ] {
        write(0x18, value, legal);
    }
    for (value, legal) in [
        (0, false),
        (1, true),
        (2_147_483_646, true),
        (2_147_483_647, true),
        (2_147_483_648, false),
        (0xFFFF_FFFF, false),
    ] {
        write(0x19, value, legal);
        write(0x20, value, legal);
    }
    for code in [0x00, 0x14, 0x1A, 0x1F, 0x21, 0x0F, 0x10] {
        write(code, 1, false);
        write(code, 0x00CA_0250, false);
    }
}

#[test]
fn a_rating_of_one_has_no_legal_voltage() {
    let unit = Unit { rating: 1, ..UNIT };
    let records = [
        Record::PowerOn { stamp: Stamp(0), unit },
        heard(0, UNLOCK),
        heard(0, ANSWER),
        heard(0, &[0x18, 0, 0, 0, 0]),
        heard(0, &[0x18, 0, 0, 0, 1]),
    ];
    let lines = format!(
        "on stored {DEFAULTS}\n{CHALLENGE} stored {DEFAULTS}\n{ACK} stored {DEFAULTS}\n\
         {NAK} stored {DEFAULTS}\n{NAK} stored {DEFAULTS}\n"
    );
    assert_eq!(answers(&records), lines);
}

#[test]
fn the_highest_rating() {
    let unit = Unit { rating: 65_535, ..UNIT };
    let records = [
        Record::PowerOn { stamp: Stamp(0), unit },
        heard(0, UNLOCK),
        heard(0, ANSWER),
        heard(0, &[0x18, 0x00, 0x00, 0xFF, 0xFF]),
        heard(0, &[0x18, 0x00, 0x01, 0x00, 0x01]),
        heard(0, &[0x18, 0x00, 0x00, 0xFF, 0xFE]),
        heard(0, COMMIT),
    ];
    let lines = format!(
        "on stored {DEFAULTS}\n{CHALLENGE} stored {DEFAULTS}\n{ACK} stored {DEFAULTS}\n\
         {NAK} stored {DEFAULTS}\n{NAK} stored {DEFAULTS}\n{ACK} stored {DEFAULTS}\n\
         {ACK} stored 0A100101 0A100100 500 65534 500 100\n"
    );
    assert_eq!(answers(&records), lines);
}

// Identifiers that move.

#[test]
fn a_commit_moves_the_identifiers() {
    let new = |stamp, content| at(stamp, frame(0x0000_0123, content));
    let moved = "00000123 1FFFFFFF 500 0 500 100";
    check_stored(
        0,
        &[
            (heard(1_000, UNLOCK), CHALLENGE, DEFAULTS),
            (heard(1_500, ANSWER), ACK, DEFAULTS),
            (heard(1_600, &[0x15, 0x00, 0x00, 0x01, 0x23]), ACK, DEFAULTS),
            (heard(1_600, &[0x16, 0x1F, 0xFF, 0xFF, 0xFF]), ACK, DEFAULTS),
            // The draft is not in force yet.
            (new(1_700, &[0x15]), NONE, DEFAULTS),
            (heard(1_700, &[0x15]), "0A100100 5 15 00 00 01 23 00 00 00", DEFAULTS),
            // The commit is acknowledged on the old identifier.
            (heard(1_800, COMMIT), ACK, moved),
            (heard(1_800, UNLOCK), NONE, moved),
            (new(1_800, UNLOCK), "1FFFFFFF 8 14 00 01 02 03 04 05 06", moved),
            (heard(1_800, ANSWER), NONE, moved),
            (new(1_900, ANSWER), "1FFFFFFF 3 41 43 4B 00 00 00 00 00", moved),
            (new(1_900, &[0x16]), "1FFFFFFF 5 16 1F FF FF FF 00 00 00", moved),
            // A second session moves the receive identifier back.
            (
                new(1_900, &[0x15, 0x0A, 0x10, 0x01, 0x01]),
                "1FFFFFFF 3 41 43 4B 00 00 00 00 00",
                moved,
            ),
            (
                new(1_900, COMMIT),
                "1FFFFFFF 3 41 43 4B 00 00 00 00 00",
                "0A100101 1FFFFFFF 500 0 500 100",
            ),
            (new(1_900, UNLOCK), NONE, "0A100101 1FFFFFFF 500 0 500 100"),
            (
                heard(1_900, &[0x0B]),
                "1FFFFFFF 5 0B 00 01 02 03 00 00 00",
                "0A100101 1FFFFFFF 500 0 500 100",
            ),
        ],
    );
}

#[test]
fn a_failing_commit_moves_nothing() {
    in_session(&[
        (heard(1_600, &[0x15, 0x00, 0x00, 0x01, 0x23]), ACK),
        (failing(1_700, COMMIT), NAK),
        (ask(1_710), "ticks 1"),
        (heard(1_710, &[0x15]), NONE),
        (at(1_710, frame(0x123, UNLOCK)), NONE),
        (heard(1_710, UNLOCK), CHALLENGE),
        (heard(1_710, ANSWER), ACK),
        (heard(1_710, &[0x15]), READ_15),
    ]);
}

#[test]
fn all_six_settings_are_stored() {
    let changed = "0A100101 0A100100 250 999 1 2147483647";
    check_stored(
        0,
        &[
            (heard(1_000, UNLOCK), CHALLENGE, DEFAULTS),
            (heard(1_500, ANSWER), ACK, DEFAULTS),
            (heard(1_600, &[0x17, 0x00, 0xCA, 0x02, 0x50]), ACK, DEFAULTS),
            (heard(1_600, &[0x18, 0x00, 0x00, 0x03, 0xE7]), ACK, DEFAULTS),
            (heard(1_600, &[0x19, 0x00, 0x00, 0x00, 0x01]), ACK, DEFAULTS),
            (heard(1_600, &[0x20, 0x7F, 0xFF, 0xFF, 0xFF]), ACK, DEFAULTS),
            (heard(1_600, &[0x20, 0x80, 0x00, 0x00, 0x00]), NAK, DEFAULTS),
            (heard(1_700, COMMIT), ACK, changed),
            (ask(1_700), "ticks 0", changed),
            (reset(1_800), NONE, changed),
            (heard(1_900, UNLOCK), CHALLENGE, changed),
            (heard(1_900, ANSWER), ACK, changed),
            (heard(1_900, &[0x17]), "0A100100 5 17 00 CA 02 50 00 00 00", changed),
            (heard(1_900, &[0x20]), "0A100100 5 20 7F FF FF FF 00 00 00", changed),
        ],
    );
}

#[test]
fn equal_identifiers_hear_what_looks_like_a_reply() {
    let settings = Settings { transmit: RECEIVE, ..UNIT.settings };
    let records = [
        Record::PowerOn { stamp: Stamp(0), unit: Unit { settings, ..UNIT } },
        heard(0, UNLOCK),
        heard(0, &[0x14, 0, 1, 2, 3, 4, 5, 6]),
        heard(0, UNLOCK),
        heard(0, ANSWER),
        heard(0, &[0x41, 0x43, 0x4B]),
    ];
    let equal = "stored 0A100101 0A100101 500 0 500 100";
    let lines = format!(
        "on {equal}\n\
         0A100101 8 14 00 01 02 03 04 05 06 {equal}\n\
         0A100101 3 4E 41 4B 00 00 00 00 00 {equal}\n\
         0A100101 8 14 00 01 02 03 04 05 06 {equal}\n\
         0A100101 3 41 43 4B 00 00 00 00 00 {equal}\n\
         0A100101 3 4E 41 4B 00 00 00 00 00 {equal}\n"
    );
    assert_eq!(answers(&records), lines);
}

// Storage, resets, frames that are not heard.

#[test]
fn storage_matters_at_a_commit_alone() {
    let write = [0x20, 0x00, 0x00, 0x00, 0xFA];
    check_stored(
        0,
        &[
            (failing(1_000, UNLOCK), CHALLENGE, DEFAULTS),
            (failing(1_500, ANSWER), ACK, DEFAULTS),
            (failing(1_600, &write), ACK, DEFAULTS),
            (failing(1_600, &[0x20]), "0A100100 5 20 00 00 00 FA 00 00 00", DEFAULTS),
            (heard(1_700, COMMIT), ACK, "0A100101 0A100100 500 0 500 250"),
            (failing(1_700, COMMIT), NONE, "0A100101 0A100100 500 0 500 250"),
            (
                failing(1_700, &[0x0B]),
                "0A100100 5 0B 00 01 02 03 00 00 00",
                "0A100101 0A100100 500 0 500 250",
            ),
        ],
    );
}

#[test]
fn a_reset_in_each_state() {
    check(&[(reset(500), NONE), (ask(510), "ticks 1"), (heard(510, UNLOCK), CHALLENGE)]);
    challenged(&[(reset(1_100), NONE), (heard(1_100, ANSWER), NONE), (ask(1_100), "ticks 0")]);
    in_session(&[(reset(1_600), NONE), (heard(1_600, &[0x15]), NONE), (ask(1_619), "ticks 1")]);
    in_session(&[
        (heard(1_600, &[0x20, 0x00, 0x00, 0x00, 0xFA]), ACK),
        (reset(1_600), NONE),
        (heard(1_600, COMMIT), NONE),
        (heard(1_600, UNLOCK), CHALLENGE),
        (heard(1_600, ANSWER), ACK),
        (heard(1_600, &[0x20]), "0A100100 5 20 00 00 00 64 00 00 00"),
    ]);
}

#[test]
fn frames_that_are_not_heard() {
    let settings = Settings { receive: 0x123, ..UNIT.settings };
    let small = Unit { settings, ..UNIT };
    let standard = Frame { extended: false, ..frame(0x123, UNLOCK) };
    let stored = "stored 00000123 0A100100 500 0 500 100";
    assert_eq!(
        answers(&[
            Record::PowerOn { stamp: Stamp(0), unit: small },
            at(0, standard),
            at(0, frame(0x122, UNLOCK)),
            at(0, frame(0x124, UNLOCK)),
            at(0, frame(0x123, UNLOCK)),
        ]),
        format!("on {stored}\nno reply {stored}\nno reply {stored}\nno reply {stored}\n{CHALLENGE} {stored}\n")
    );
    for identifier in [RECEIVE - 1, RECEIVE + 1, RECEIVE ^ 0x1000_0000, 0, 0x1FFF_FFFF] {
        check(&[(at(100, frame(identifier, UNLOCK)), NONE), (heard(100, ANSWER), NONE)]);
        challenged(&[(at(1_100, frame(identifier, ANSWER)), NONE), (heard(1_100, ANSWER), ACK)]);
        in_session(&[
            (at(1_600, frame(identifier, COMMIT)), NONE),
            (heard(1_600, &[0x15]), READ_15),
        ]);
    }
}

// Refusals 1 and 7.

#[test]
fn frames_over_the_limits() {
    let good = frame(RECEIVE, UNLOCK);
    let standard = Frame { extended: false, ..good };
    for bad in [
        Frame { length: 9, ..good },
        Frame { length: 255, ..good },
        Frame { identifier: 0x2000_0000, ..good },
        Frame { identifier: RECEIVE | 0x8000_0000, ..good },
        Frame { identifier: 0xFFFF_FFFF, ..good },
        Frame { identifier: 0x800, ..standard },
        // The right number, but a standard frame has 11 bits.
        standard,
        // These would not be heard: they are refused all the same.
        Frame { length: 9, identifier: 5, ..good },
        Frame { length: 9, identifier: 5, ..standard },
    ] {
        check_from(
            500,
            &[
                (at(600, bad), "refused 1"),
                // 1 goes before 7.
                (at(499, bad), "refused 1"),
                (at(0, bad), "refused 1"),
                (at(4_294_967_295, bad), "refused 1"),
                // No stamp was moved and nothing is pending.
                (heard(500, ANSWER), NONE),
            ],
        );
    }
    for fine in [
        Frame { identifier: 0x1FFF_FFFF, ..good },
        Frame { identifier: 0x7FF, ..standard },
        Frame { identifier: 0x1FFF_FFFF, length: 8, ..good },
    ] {
        check_from(500, &[(at(500, fine), NONE), (at(499, fine), "refused 7")]);
    }
}

#[test]
fn early_stamps() {
    check_from(
        500,
        &[
            (heard(499, UNLOCK), "refused 7"),
            (heard(0, UNLOCK), "refused 7"),
            (unheard(499, UNLOCK), "refused 7"),
            (reset(499), "refused 7"),
            (ask(499), "refused 7"),
            (ask(0), "refused 7"),
            (heard(500, ANSWER), NONE),
            (ask(500), "ticks 0"),
            (heard(500, UNLOCK), CHALLENGE),
            (heard(500, ANSWER), ACK),
            (heard(600, &[0x15]), READ_15),
            (reset(599), "refused 7"),
            (heard(599, COMMIT), "refused 7"),
            (ask(599), "refused 7"),
            (heard(600, &[0x15]), READ_15),
            // An unheard frame moves the stamp, a question does not.
            (ask(900), "ticks 40"),
            (heard(601, &[0x15]), READ_15),
            (unheard(800, &[0x15]), NONE),
            (heard(799, &[0x15]), "refused 7"),
            (heard(800, &[0x15]), READ_15),
        ],
    );
}

// The highest stamps.

#[test]
fn sums_past_32_bits() {
    let last = 4_294_967_295;
    check_from(
        last,
        &[
            (heard(last, UNLOCK), CHALLENGE),
            (heard(last, ANSWER), ACK),
            (heard(last, &[0x15]), READ_15),
            (ask(last), "ticks 0"),
            (heard(last - 1, &[0x15]), "refused 7"),
            (heard(0, &[0x15]), "refused 7"),
            (heard(last, COMMIT), ACK),
            (heard(last, &[0x15]), NONE),
        ],
    );
    // The window, the challenge's limit and the silence end past 32 bits.
    check_from(
        last - 9_999,
        &[
            (heard(last - 1_000, UNLOCK), CHALLENGE),
            (heard(last - 1_000, ANSWER), ACK),
            (heard(last, &[0x15]), READ_15),
            (reset(last), NONE),
            (heard(last, UNLOCK), CHALLENGE),
            (heard(last, ANSWER), ACK),
        ],
    );
    check_from(last - 10_000, &[(heard(last, UNLOCK), CHALLENGE)]);
    check_from(last - 10_001, &[(heard(last, UNLOCK), NAK)]);
    for (gap, first) in [(1_999, ACK), (2_000, ACK), (2_001, NAK)] {
        check_from(
            last - gap,
            &[(heard(last - gap, UNLOCK), CHALLENGE), (heard(last, ANSWER), first)],
        );
    }
    for (gap, first, ticks) in
        [(1_999, READ_15, "ticks 199"), (2_000, READ_15, "ticks 200"), (2_001, NONE, "ticks 0")]
    {
        check_from(
            last - gap,
            &[
                (heard(last - gap, UNLOCK), CHALLENGE),
                (heard(last - gap, ANSWER), ACK),
                (ask(last), ticks),
                (heard(last, &[0x15]), first),
            ],
        );
    }
    check(&[(ask(last), "ticks 429496729"), (reset(last), NONE), (ask(last), "ticks 0")]);
}

// Uptime.

#[test]
fn uptime_is_rounded_down() {
    check_from(
        1_005,
        &[
            (ask(1_005), "ticks 0"),
            (ask(1_014), "ticks 0"),
            (ask(1_015), "ticks 1"),
            (ask(2_004), "ticks 99"),
            (ask(2_005), "ticks 100"),
            (ask(1_004), "refused 7"),
            (reset(1_999), NONE),
            (ask(2_008), "ticks 0"),
            (ask(2_009), "ticks 1"),
        ],
    );
    // No restart by an unlock, an answer or a session.
    in_session(&[(ask(1_500), "ticks 150"), (heard(1_600, COMMIT), ACK), (ask(1_600), "ticks 0")]);
}

// Power-on.

fn power_on(unit: Unit) -> Record {
    Record::PowerOn { stamp: Stamp(7), unit }
}

fn with(settings: Settings) -> Record {
    power_on(Unit { settings, ..UNIT })
}

#[test]
fn power_ons_that_are_refused() {
    let good = UNIT.settings;
    let mut records = vec![power_on(Unit { rating: 0, ..UNIT })];
    records.push(power_on(Unit { rating: 1, settings: Settings { voltage: 1, ..good }, ..UNIT }));
    for identifier in [0x2000_0000, 0x8A10_0101, 0xFFFF_FFFF] {
        records.push(with(Settings { receive: identifier, ..good }));
        records.push(with(Settings { transmit: identifier, ..good }));
    }
    for speed in [0, 250, 500, 0x00CA_024F, 0x00CA_0251, 0x00CA_04FF, 0x00CA_0501, 0x80CA_0250] {
        records.push(with(Settings { speed, ..good }));
    }
    for voltage in [1_000, 1_001, 65_536, 0x8000_0000, 0xFFFF_FFFF] {
        records.push(with(Settings { voltage, ..good }));
    }
    for level in [0, 2_147_483_648, 0xFFFF_FFFF] {
        records.push(with(Settings { warning: level, ..good }));
        records.push(with(Settings { fault: level, ..good }));
    }
    for record in records {
        // No monitor yet.
        assert_eq!(answers(&[record, ask(7)]), "refused 8\nno monitor\n");
        // The monitor before goes on as it was, in its session too.
        in_session(&[(record, "refused 8"), (heard(1_600, &[0x15]), READ_15)]);
        challenged(&[(record, "refused 8"), (heard(1_600, ANSWER), ACK)]);
        check_from(
            9_000,
            &[(record, "refused 8"), (ask(8_999), "refused 7"), (ask(9_010), "ticks 1")],
        );
    }
}

/// A refused power-on changes nothing: not the stamp, nor the start, the
/// serial, the rating or what is stored.
#[test]
fn a_refused_power_on_leaves_the_monitor_as_it_was() {
    let settings = Settings { receive: 5, transmit: 6, speed: 0, ..UNIT.settings };
    let unit = Unit { serial: [0xFF; 16], rating: 10, settings };
    for stamp in [0, 1_500, 2_000, 3_501, 20_000, 4_294_967_295] {
        let refused = (Record::PowerOn { stamp: Stamp(stamp), unit }, "refused 8");
        in_session(&[
            refused,
            (ask(1_500), "ticks 150"),
            (heard(1_500, &[0x18, 0x00, 0x00, 0x03, 0xE7]), ACK),
            (at(1_500, frame(5, COMMIT)), NONE),
            (heard(3_500, &[0x18]), "0A100100 5 18 00 00 03 E7 00 00 00"),
            (heard(5_501, UNLOCK), CHALLENGE),
        ]);
        challenged(&[refused, (heard(1_000, ANSWER), ACK)]);
        check(&[refused, (heard(0, UNLOCK), CHALLENGE), refused, (heard(10_001, UNLOCK), NAK)]);
    }
}

#[test]
fn power_ons_that_are_accepted() {
    let good = UNIT.settings;
    let lines = [
        (power_on(UNIT), DEFAULTS),
        (power_on(Unit { rating: 1, ..UNIT }), DEFAULTS),
        (
            power_on(Unit {
                rating: 65_535,
                settings: Settings { voltage: 65_534, ..good },
                ..UNIT
            }),
            "0A100101 0A100100 500 65534 500 100",
        ),
        (with(Settings { voltage: 999, ..good }), "0A100101 0A100100 500 999 500 100"),
        (with(Settings { receive: 0x1FFF_FFFF, ..good }), "1FFFFFFF 0A100100 500 0 500 100"),
        (with(Settings { transmit: 0x1FFF_FFFF, ..good }), "0A100101 1FFFFFFF 500 0 500 100"),
        (with(Settings { receive: 0, transmit: 0, ..good }), "00000000 00000000 500 0 500 100"),
        (with(Settings { speed: 0x00CA_0250, ..good }), "0A100101 0A100100 250 0 500 100"),
        (with(Settings { warning: 1, fault: 1, ..good }), "0A100101 0A100100 500 0 1 1"),
        (
            with(Settings { warning: 2_147_483_647, fault: 2_147_483_647, ..good }),
            "0A100101 0A100100 500 0 2147483647 2147483647",
        ),
    ];
    for (record, stored) in lines {
        // Whatever the monitor before did, the new one is locked and starts at 7.
        let records =
            [on(5_000), heard(5_000, UNLOCK), heard(5_000, ANSWER), record, ask(6), ask(17)];
        let text = answers(&records);
        let last: Vec<&str> = text.lines().skip(3).collect();
        let expected = [
            format!("on stored {stored}"),
            format!("refused 7 stored {stored}"),
            format!("ticks 1 stored {stored}"),
        ];
        assert_eq!(last, expected);
    }
}

// The records themselves.

/// One record of each kind, byte for byte as docs/MONITOR_CASES.md has them.
#[test]
fn the_bytes_of_each_record() {
    let mut cases: Vec<u8> = vec![
        // A power-on at 5, rating 1000.
        0, 0, 0, 5, 4, 0, 0x03, 0xE8, 0x0A, 0x10, 0x01, 0x01, 0x0A, 0x10, 0x01, 0x00, //
        0x00, 0xCA, 0x05, 0x00, 0, 0, 0, 0, 0, 0, 0x01, 0xF4, 0, 0, 0, 100, //
        0, 1, 2, 3, 4, 5, 6, 7, 8, 9, 10, 11, 12, 13, 14, 15,
    ];
    let records: [[u8; 20]; 6] = [
        // An unlock at 1000, storage works; an answer at 1500, storage fails.
        [0, 0, 0x03, 0xE8, 0, 1, 3, 0, 0x0A, 0x10, 0x01, 0x01, 0x14, 0x28, 0xD5, 0, 0, 0, 0, 0],
        [
            0, 0, 0x05, 0xDC, 1, 1, 8, 0, 0x0A, 0x10, 0x01, 0x01, //
            0x14, 0x53, 0x4F, 0x46, 0x50, 0x4D, 0x48, 0x44,
        ],
        // A question at 2005, a reset at 2005, a challenge, a standard frame.
        [0, 0, 0x07, 0xD5, 3, 0, 0, 0, 0, 0, 0, 0, 0, 0, 0, 0, 0, 0, 0, 0],
        [0, 0, 0x07, 0xD5, 2, 0, 0, 0, 0, 0, 0, 0, 0, 0, 0, 0, 0, 0, 0, 0],
        [0, 0, 0, 0, 5, 0, 0, 0, 0, 0, 0, 0, 0, 1, 0x23, 0x45, 0x67, 0x89, 0xAB, 0xCD],
        [0, 0, 0x07, 0xD5, 0, 0, 3, 0, 0, 0, 0x08, 0x00, 0x14, 0x28, 0xD5, 0, 0, 0, 0, 0],
    ];
    records.iter().for_each(|record| cases.extend(record));
    let mut out = Vec::new();
    answer_all(&cases, &mut out).unwrap();
    let lines = format!(
        "on stored {DEFAULTS}\n{CHALLENGE} stored {DEFAULTS}\n{ACK} stored {DEFAULTS}\n\
         ticks 200 stored {DEFAULTS}\nno reply stored {DEFAULTS}\nanswer 52 6D 01 34 C0 E6 8F\n\
         refused 1 stored {DEFAULTS}\n"
    );
    assert_eq!(String::from_utf8(out).unwrap(), lines);
}

#[test]
fn without_a_monitor() {
    let bad = power_on(Unit { rating: 0, ..UNIT });
    let records = [
        heard(5, UNLOCK),
        over(5, UNLOCK),
        reset(5),
        ask(5),
        Record::Challenge([0; 7]),
        bad,
        ask(5),
        on(9),
        ask(5),
        bad,
    ];
    let lines = format!(
        "no monitor\nno monitor\nno monitor\nno monitor\nanswer 53 4E 44 53 49 4D 42\n\
         refused 8\nno monitor\non stored {DEFAULTS}\nrefused 7 stored {DEFAULTS}\n\
         refused 8 stored {DEFAULTS}\n"
    );
    assert_eq!(answers(&records), lines);
}

#[test]
fn where_the_answers_stop() {
    let start: Vec<u8> = [on(0), ask(10)].iter().flat_map(encode).collect();
    let two = answers(&[on(0), ask(10)]);
    let lines_of = |cases: &[u8]| {
        let mut out = Vec::new();
        answer_all(cases, &mut out).unwrap();
        String::from_utf8(out).unwrap()
    };
    // Cut off: anywhere in a record of 20 bytes, and in a power-on.
    for size in 0..20 {
        assert_eq!(lines_of(&[&start[..], &encode(&ask(20))[..size]].concat()), two);
    }
    for size in [0, 4, 5, 20, 47] {
        assert_eq!(lines_of(&[&start[..], &encode(&on(20))[..size]].concat()), two);
    }
    // A kind that is not listed, or byte 5 of a frame over 1.
    for (place, byte) in [(4, 6), (4, 255), (5, 2), (5, 255)] {
        for frame in [heard(20, UNLOCK), failing(20, UNLOCK)] {
            let mut bad = encode(&frame);
            bad[place] = byte;
            assert_eq!(lines_of(&[&start[..], &bad, &start].concat()), two);
        }
    }
}
