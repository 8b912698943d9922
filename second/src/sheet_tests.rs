//! Tests of the sheet reader: bytes and lines written by hand from the rules of
//! document 01 and the readings of docs/SHEET_CASES.md.

use crate::monitor::Settings;
use crate::sheet::{read, WrongLine};

/// The lines of the example of docs/SHEET_CASES.md.
pub const LINES: [&str; 6] = [
    "rx 0A100101\n",
    "tx 0A100100\n",
    "speed 500\n",
    "voltage 0\n",
    "warning 500\n",
    "fault 250\n",
];

pub const SETTINGS: Settings = Settings {
    receive: 0x0A10_0101,
    transmit: 0x0A10_0100,
    speed: 0x00CA_0500,
    voltage: 0,
    warning: 500,
    fault: 250,
};

pub fn example() -> Vec<u8> {
    LINES.concat().into_bytes()
}

/// The example with another line, counted from 1.
fn with_line(line: usize, text: &str) -> Vec<u8> {
    let mut lines = LINES;
    lines[line - 1] = text;
    lines.concat().into_bytes()
}

#[track_caller]
fn wrong(bytes: &[u8], line: usize) {
    assert_eq!(read(bytes), Err(WrongLine(line)), "{}", bytes.escape_ascii());
}

#[track_caller]
pub fn right(bytes: &[u8]) -> Settings {
    read(bytes).unwrap_or_else(|line| panic!("{line:?}: {}", bytes.escape_ascii()))
}

#[test]
fn the_example_is_read() {
    assert_eq!(read(&example()), Ok(SETTINGS));
    assert_eq!(right(&with_line(3, "speed 250\n")), Settings { speed: 0x00CA_0250, ..SETTINGS });
}

/// Each line has its own place in the settings.
#[test]
fn each_value_goes_to_its_setting() {
    let bytes =
        b"rx 1FFFFFFF\ntx 0000000C\nspeed 250\nvoltage 65534\nwarning 1\nfault 2147483647\n";
    let settings = Settings {
        receive: 0x1FFF_FFFF,
        transmit: 12,
        speed: 0x00CA_0250,
        voltage: 65_534,
        warning: 1,
        fault: 0x7FFF_FFFF,
    };
    assert_eq!(read(bytes), Ok(settings));
}

/// "Identifiers are eight capital hex digits at most 1FFFFFFF".
#[test]
fn identifiers_have_their_limits() {
    for (line, name) in [(1, "rx"), (2, "tx")] {
        for value in ["00000000", "1FFFFFFF", "1ABCDEF0", "12345678", "19999999"] {
            right(&with_line(line, &format!("{name} {value}\n")));
        }
        // The empty one is between two spaces.
        let wrong_ones =
            "20000000 FFFFFFFF A0000000 0a100101 0A10010f 0A10010 0A1001011 00A100101 \
            0x0A100101 0x100101 0A10010G 0A10010@ 0A10010: 0A10010/ 0A10010`  +A100101 \
            0A10,101 0A10.101 0A10\t101 10A100101";
        for value in wrong_ones.split(' ') {
            wrong(&with_line(line, &format!("{name} {value}\n")), line);
        }
    }
}

/// "speed 250 or 500"
#[test]
fn speeds_are_two() {
    for value in [
        "251", "249", "25", "50", "0250", "0500", "125", "1000", "50A", "5000", "2500", "", "0",
        "500,0", "250.0", "00CA0500", "+500", "500 ", " 500", "550", "200",
    ] {
        wrong(&with_line(3, &format!("speed {value}\n")), 3);
    }
}

/// "voltage 0 to 65534"; "Voltage `0` is right, `00` is not."
#[test]
fn voltages_have_their_limits() {
    for (text, value) in [("0", 0), ("1", 1), ("9", 9), ("10", 10), ("65534", 65_534)] {
        let settings = right(&with_line(4, &format!("voltage {text}\n")));
        assert_eq!(settings, Settings { voltage: value, ..SETTINGS });
    }
    for value in ["65535", "65536", "99999", "100000", "00", "01", "065534", "-1", "-0", "+1", ""] {
        wrong(&with_line(4, &format!("voltage {value}\n")), 4);
    }
}

/// "levels 1 to 2147483647, decimal, no leading zero"
#[test]
fn levels_have_their_limits() {
    for (line, name) in [(5, "warning"), (6, "fault")] {
        for value in ["1", "9", "10", "2000000000", "2147483647"] {
            right(&with_line(line, &format!("{name} {value}\n")));
        }
        for value in ["0", "00", "007", "02147483647", "2147483648", "3000000000", "9999999999", ""]
        {
            wrong(&with_line(line, &format!("{name} {value}\n")), line);
        }
    }
}

/// Numbers that are right modulo 2^32 or 2^64 are wrong, however long.
#[test]
fn numbers_do_not_wrap() {
    let long = "1".repeat(300);
    for value in [
        "4294967295",
        "4294967296",
        "4294967297",
        "4294967546",
        "18446744073709551615",
        "18446744073709551616",
        "18446744073709551617",
        "340282366920938463463374607431768211457",
        &long,
    ] {
        for (line, name) in [(3, "speed"), (4, "voltage"), (5, "warning"), (6, "fault")] {
            wrong(&with_line(line, &format!("{name} {value}\n")), line);
        }
    }
}

/// "A comma or dot is refused."
#[test]
fn commas_and_dots_are_refused_everywhere() {
    for put_in in [b',', b'.'] {
        for at in 0..=example().len() {
            let mut bytes = example();
            bytes.insert(at, put_in);
            let line = 1 + example()[..at].iter().filter(|&&byte| byte == b'\n').count();
            wrong(&bytes, line);
        }
    }
    for value in ["0,25", "0.25", "250,0", "250.0", ",5", "5,", ".5", "5.", "1,000", "1.000"] {
        wrong(&with_line(4, &format!("voltage {value}\n")), 4);
        wrong(&with_line(5, &format!("warning {value}\n")), 5);
        wrong(&with_line(6, &format!("fault {value}\n")), 6);
    }
}

/// "each the name, one space, the value, a line feed, nothing after"
#[test]
fn a_line_is_nothing_else() {
    for (line, text) in (1..).zip(LINES) {
        let (name, value) = text.trim_end().split_once(' ').unwrap();
        for text in [
            format!("{name}  {value}\n"),
            format!(" {name} {value}\n"),
            format!("{name} {value} \n"),
            format!("{name}\t{value}\n"),
            format!("{name}{value}\n"),
            format!("{name} \n"),
            format!("{name}\n"),
            format!("{name} {value}\r\n"),
            format!("{name} {value}\r"),
            format!("{name} {value}\0\n"),
            format!("{name}: {value}\n"),
            format!("{} {value}\n", name.to_uppercase()),
            format!("{}s {value}\n", name),
            format!("{} {value}\n", &name[1..]),
            format!("{name} {value}\u{A0}\n"),
            format!("{name} \u{660}{value}\n"),
            format!("{name} \u{FF11}\n"),
            format!("\n{name} {value}\n"),
            String::new(),
        ] {
            wrong(&with_line(line, &text), line);
        }
    }
}

/// "So an empty input is wrong at line 1, a sheet cut off after its second line
/// feed at line 3, one without its last line feed at line 6".
#[test]
fn a_start_is_wrong_where_it_ends() {
    wrong(b"", 1);
    wrong(b"rx 0A100101\ntx 0A100100\n", 3);
    let bytes = example();
    wrong(&bytes[..65], 6);
    for length in 0..66 {
        let line = 1 + bytes[..length].iter().filter(|&&byte| byte == b'\n').count();
        wrong(&bytes[..length], line);
    }
}

/// "one with anything after at line 7"
#[test]
fn nothing_stands_after() {
    for after in ["\n", " ", "\0", "\r\n", "x", ",", "fault 250\n", "rx 0A100101\n", "\u{FEFF}"] {
        wrong(&[&example(), after.as_bytes()].concat(), 7);
    }
    wrong(&example().repeat(2), 7);
}

/// "six lines in this order"
#[test]
fn the_order_is_fixed() {
    for (one, line) in LINES.into_iter().enumerate() {
        for other in one + 1..6 {
            let mut lines = LINES;
            lines.swap(one, other);
            wrong(lines.concat().as_bytes(), one + 1);
        }
        let mut lines = LINES.to_vec();
        lines.remove(one);
        wrong(lines.concat().as_bytes(), one + 1);
        lines.insert(one, line);
        lines.insert(one, line);
        wrong(lines.concat().as_bytes(), one + 2);
    }
}

/// The first wrong line is given, whatever comes after.
#[test]
fn the_first_wrong_line_is_given() {
    wrong(b"\n", 1);
    wrong(b"\xEF\xBB\xBFrx 0A100101\n", 1);
    wrong(b"rx 0A100101\ntx 20000000\nspeed 251\nvoltage 65535\n", 2);
    wrong(b"rx 0A100101\ntx 00000000\nspeed 251\nvoltage 65535\nwarning 0\nfault 0\nx\n", 3);
    wrong(b"rx 0A100101\ntx 00000000\nspeed 250\nvoltage 1\nwarning 0\nfault 0", 5);
    wrong(b"rx 0A100101\r\ntx 00000000\r\n", 1);
}

/// "Equal identifiers, and a warning level below or above the fault level, are
/// right on a sheet."
#[test]
fn lines_are_not_compared() {
    right(&with_line(2, "tx 0A100101\n"));
    for value in ["1", "249", "250", "251", "2147483647"] {
        right(&with_line(5, &format!("warning {value}\n")));
    }
}

/// All other bytes at all places. Right are: the first digit of an identifier as
/// 1, its seven others as 15 digits, twice; 1 to 9 for the voltage 0; for a level
/// of three digits 8 and twice 9 others, twice.
#[test]
fn every_byte_at_every_place() {
    let (mut changed, mut dropped, mut doubled) = (0, 0, 0);
    for at in 0..66 {
        let old = example()[at];
        for new in (0..=255).filter(|&new| new != old) {
            let mut bytes = example();
            bytes[at] = new;
            changed += usize::from(read(&bytes).is_ok());
        }
        let mut bytes = example();
        bytes.remove(at);
        dropped += usize::from(read(&bytes).is_ok());
        let mut bytes = example();
        bytes.insert(at, old);
        doubled += usize::from(read(&bytes).is_ok());
    }
    assert_eq!(changed, 2 * (1 + 7 * 15) + 9 + 2 * (8 + 9 + 9));
    // 500 without either zero, 250 without any digit.
    assert_eq!(dropped, 2 + 3);
    // Any digit of the levels; the voltage becomes 00.
    assert_eq!(doubled, 3 + 3);
}
