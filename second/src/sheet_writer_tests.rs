//! Tests of the sheet writer and of the program `sheet`, written by hand from the
//! rules of document 01 and docs/SHEET_CASES.md.

use crate::monitor::Settings;
use crate::refusal::Refusal;
use crate::sheet::{program, read, write};
use crate::sheet_tests::{example, right, SETTINGS};

/// The result for a buffer of such a length, and the buffer after.
fn written(settings: &Settings, room: usize) -> (Result<usize, u8>, Vec<u8>) {
    let mut buffer: Vec<u8> = (0..room).map(|i| i as u8 | 0x80).collect();
    let result = write(settings, &mut buffer).map_err(|refusal| refusal as u8);
    (result, buffer)
}

/// What a buffer of such a length is before.
fn before(room: usize) -> Vec<u8> {
    (0..room).map(|i| i as u8 | 0x80).collect()
}

#[test]
fn the_example_is_written() {
    assert_eq!(written(&SETTINGS, 66), (Ok(66), example()));
    for room in 0..66 {
        assert_eq!(written(&SETTINGS, room), (Err(12), before(room)));
    }
    for room in [67, 84, 100, 4_095] {
        let after = [&example()[..], &before(room)[66..]].concat();
        assert_eq!(written(&SETTINGS, room), (Ok(66), after));
    }
}

/// Values that no sheet holds, each with a right neighbour.
#[test]
fn the_writer_has_the_limits_of_the_reader() {
    let with = |at: usize, value: u32| {
        let mut values = [0x0A10_0101, 0x0A10_0100, 0x00CA_0500, 0, 500, 250];
        values[at] = value;
        let [receive, transmit, speed, voltage, warning, fault] = values;
        Settings { receive, transmit, speed, voltage, warning, fault }
    };
    let wrong: [&[u32]; 6] = [
        &[0x2000_0000, u32::MAX],
        &[0x2000_0000, u32::MAX],
        &[0, 250, 500, 0x00CA_0251, 0x00CA_024F, 0x00CA_0501, 0x00CA_04FF, 0x01CA_0250],
        &[65_535, 65_536, 0x8000_0000, u32::MAX],
        &[0, 0x8000_0000, u32::MAX],
        &[0, 0x8000_0000, u32::MAX],
    ];
    let limits: [&[u32]; 6] = [
        &[0, 0x1FFF_FFFF],
        &[0, 0x1FFF_FFFF],
        &[0x00CA_0250, 0x00CA_0500],
        &[0, 65_534],
        &[1, 0x7FFF_FFFF],
        &[1, 0x7FFF_FFFF],
    ];
    for at in 0..6 {
        for &value in wrong[at] {
            // 11 goes before 12.
            for room in [0, 30, 65, 66, 84, 100] {
                assert_eq!(written(&with(at, value), room), (Err(11), before(room)));
            }
        }
        for &value in limits[at] {
            let (result, buffer) = written(&with(at, value), 84);
            assert_eq!(read(&buffer[..result.unwrap()]), Ok(with(at, value)));
        }
    }
}

/// The longest and the shortest sheet.
#[test]
fn the_length_is_that_of_the_text() {
    let longest = "rx 1FFFFFFF\ntx 1FFFFFFE\nspeed 250\nvoltage 65534\nwarning 2147483647\n\
                   fault 1000000000\n";
    let shortest = "rx 00000000\ntx 00000001\nspeed 500\nvoltage 9\nwarning 1\nfault 2\n";
    for (text, length) in [(longest, 84), (shortest, 62)] {
        let settings = right(text.as_bytes());
        assert_eq!(written(&settings, length), (Ok(length), text.as_bytes().to_vec()));
        assert_eq!(written(&settings, length - 1).0, Err(12));
    }
}

#[test]
fn the_refusals_have_their_numbers() {
    assert_eq!(Refusal::SheetWrong.to_string(), "refused 11");
    assert_eq!(Refusal::NoRoom.to_string(), "refused 12");
}

// The program.

#[test]
fn the_program_writes_the_sheet() {
    assert_eq!(program(&example()).into_bytes(), example());
}

#[test]
fn the_program_tells_what_was_expected() {
    let expected = [
        "line 1: expected 'rx', one space, eight capital hex digits at most 1FFFFFFF, and a line feed",
        "line 2: expected 'tx', one space, eight capital hex digits at most 1FFFFFFF, and a line feed",
        "line 3: expected 'speed', one space, 250 or 500, and a line feed",
        "line 4: expected 'voltage', one space, whole volts from 0 to 65534 (no comma or dot, no leading zero), and a line feed",
        "line 5: expected 'warning', one space, whole Ohm/V from 1 to 2147483647 (no comma or dot, no leading zero), and a line feed",
        "line 6: expected 'fault', one space, whole Ohm/V from 1 to 2147483647 (no comma or dot, no leading zero), and a line feed",
        "line 7: expected nothing: a sheet has six lines",
    ];
    let starts = [0, 12, 24, 34, 44, 56, 66];
    for (start, expected) in starts.into_iter().zip(expected) {
        let bytes = [&example()[..start], b"?"].concat();
        assert_eq!(program(&bytes), format!("refused 11\n{expected}\n"));
    }
}
