//! Counts what the made-up sheet cases meet: answers, limits and families.

use crate::sheet_cases::Cases;
use crate::sheet_inputs::write_all;
use crate::sheet_tally::Tally;
use std::sync::OnceLock;

pub const COUNT: u64 = 22_000;

pub fn inputs(seed: u64, count: u64) -> Vec<u8> {
    let mut out = Vec::new();
    write_all(seed, count, &mut out).unwrap();
    out
}

/// The cases of seed 1, made once.
pub fn cases() -> &'static [u8] {
    static CASES: OnceLock<Vec<u8>> = OnceLock::new();
    CASES.get_or_init(|| inputs(1, COUNT))
}

/// The counts of seed 1, made once.
fn tally() -> &'static Tally {
    static TALLY: OnceLock<Tally> = OnceLock::new();
    TALLY.get_or_init(|| {
        let mut tally = Tally::default();
        let mut met = Cases { rest: cases() };
        met.by_ref().for_each(|case| tally.take(&case));
        assert!(met.rest.is_empty(), "a case that ends the answers");
        tally
    })
}

// What has to be there.

#[test]
fn every_answer_is_met_often() {
    let tally = tally();
    assert_eq!(tally.get("read") + tally.get("write"), 22_000);
    tally.at_least(20_400, "read");
    tally.at_least(1_000, "write");
    tally.at_least(1_000, "accepted");
    for line in 1..=6 {
        tally.at_least(2_000, &format!("wrong line {line}"));
    }
    tally.at_least(300, "wrong line 7");
    tally.at_least(400, "text");
    tally.at_least(150, "12");
    tally.at_least(80, "11 without room");
    tally.at_least(100, "11 with a short room");
    tally.at_least(100, "11 with enough room");
}

/// A small file has every answer too.
#[test]
fn a_small_file_has_variety() {
    let mut tally = Tally::default();
    Cases { rest: &inputs(5, 600) }.for_each(|case| tally.take(&case));
    tally.at_least(30, "accepted");
    for line in 1..=6 {
        tally.at_least(30, &format!("wrong line {line}"));
    }
    for what in ["wrong line 7", "text", "12", "11 for several"] {
        tally.at_least(1, what);
    }
}

/// Each range's ends, powers of ten and of sixteen, and their neighbours.
#[test]
fn right_values_of_every_length_are_met() {
    let tally = tally();
    for line in [1, 2] {
        for value in ["00000000", "00000001", "1FFFFFFF", "1FFFFFFE", "00010000", "0000FFFF"] {
            tally.at_least(1, &format!("right {line} {value}"));
        }
    }
    tally.at_least(500, "right 3 250");
    tally.at_least(500, "right 3 500");
    for value in ["0", "1", "65533", "65534"] {
        tally.at_least(2, &format!("right 4 {value}"));
    }
    for (line, powers) in [(4, 5), (5, 10), (6, 10)] {
        for power in (0..powers).map(|power| 10_u64.pow(power)) {
            for value in [power - 1, power, power + 1].into_iter().filter(|&value| value > 0) {
                tally.at_least(1, &format!("right {line} {value}"));
                tally.at_least(1, &format!("written {line} {value:X}"));
            }
        }
    }
    for line in [5, 6] {
        for value in ["1", "2", "2147483646", "2147483647"] {
            tally.at_least(2, &format!("right {line} {value}"));
        }
    }
}

/// Each limit is passed in its line.
#[test]
fn wrong_values_at_the_limits_are_met() {
    let tally = tally();
    let lines = [
        (1, "rx", "20000000 FFFFFFFF 1FFFFFFFF 1FFFFFF 0x100101"),
        (2, "tx", "20000000 FFFFFFFF 1FFFFFFFF 1FFFFFF 0x100101"),
        (3, "speed", "251 25 0500 125 1000 50A 249 501 00CA0500 4294967546"),
        (4, "voltage", "65535 65536 99999 00 007 4294967296 18446744073709551616 0,25 0.25 250,0"),
        (
            5,
            "warning",
            "0 2147483648 4294967295 4294967296 4294967297 18446744073709551615 \
             18446744073709551616 18446744073709551617 0,25 0.25 250,0 +5 -5 00 007",
        ),
    ];
    let fault = (6, "fault", lines[4].2);
    for (line, name, values) in lines.into_iter().chain([fault]) {
        for value in values.split(' ') {
            tally.at_least(2, &format!("{line}: {name} {value}\\n"));
        }
    }
}

#[test]
fn every_family_of_values_is_met() {
    let tally = tally();
    for line in 1..=6 {
        for what in [
            "comma within",
            "dot within",
            "space within",
            "comma before",
            "comma after",
            "plus",
            "minus",
            "space before",
            "space after",
            "tab",
            "zero byte",
            "CR at the end",
        ] {
            tally.at_least(3, &format!("{what} {line}"));
        }
        for what in ["long", "right modulo 2^32", "right modulo 2^64", "0x"] {
            tally.at_least(1, &format!("{what} {line}"));
        }
        for what in ["no value", "name alone", "capitals"] {
            tally.at_least(5, &format!("{what} {line}"));
        }
        tally.at_least(2, &format!("line of another place {line}"));
        tally.at_least(5, &format!("tab for the space {line}"));
        tally.at_least(5, &format!("no space {line}"));
    }
    for line in 3..=6 {
        tally.at_least(5, &format!("leading zero {line}"));
        tally.at_least(1, &format!("very long {line}"));
    }
    for line in [1, 2] {
        for what in ["eight hex digits", "seven hex digits", "nine hex digits", "lower case"] {
            tally.at_least(10, &format!("{what} {line}"));
        }
    }
}

#[test]
fn every_family_of_wholes_is_met() {
    let tally = tally();
    for what in [
        "CRLF in all lines",
        "CR alone in all lines",
        "mark of UTF-8",
        "mark of UTF-16, least first",
        "mark of UTF-16, most first",
        "UTF-16, least first",
        "UTF-16, most first",
        "many bytes from 80 on",
        "two sheets",
        "a seventh line",
        "line twice",
        "empty",
    ] {
        tally.at_least(5, what);
    }
    for what in ["CRLF in one line", "Arabic digits", "wide digits", "other order"] {
        tally.at_least(15, what);
    }
    tally.at_least(50, "no last line feed");
    tally.at_least(1, "longest");
    for line in 1..=6 {
        tally.at_least(2, &format!("missing line {line}"));
    }
    for after in ["\\n", "\\r", "\\r\\n", " ", "\\x00", ",", ".", "fault 250\\n", "\\xff"] {
        tally.at_least(8, &format!("after: {after}"));
    }
}

#[test]
fn every_family_of_writings_is_met() {
    let tally = tally();
    for room in ["none", "83", "84", "85", "text and -1", "text and 0", "text and 1"] {
        tally.at_least(20, &format!("room: {room}"));
    }
    for room in ["text and -2", "text and 2", "large"] {
        tally.at_least(5, &format!("room: {room}"));
    }
    tally.at_least(1, "room: most");
    tally.at_least(50, "11 for several");
    let levels = "0 80000000 FFFFFFFF";
    for (line, values) in [
        (1, "20000000 20000001 FFFFFFFF"),
        (2, "20000000 20000001 FFFFFFFF"),
        (3, "0 FA 1F4 250 500 CA024F CA0251 CA04FF CA0501 1CA0250 80CA0500"),
        (4, "FFFF 10000 10001 80000000 FFFFFFFF"),
        (5, levels),
        (6, levels),
    ] {
        for value in values.split(' ') {
            tally.at_least(3, &format!("11 for {line} {value}"));
        }
    }
    for what in ["1 0", "1 1FFFFFFF", "2 0", "2 1FFFFFFF", "3 CA0250", "3 CA0500", "4 0"] {
        tally.at_least(5, &format!("written {what}"));
    }
    for what in ["4 FFFE", "5 1", "5 7FFFFFFF", "6 1", "6 7FFFFFFF"] {
        tally.at_least(5, &format!("written {what}"));
    }
}
