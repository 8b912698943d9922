//! Tests of the sheet cases file: cases and answers written by hand from
//! docs/SHEET_CASES.md.

use crate::sheet_cases::{answer_all, write_case, write_files, Case, Cases};
use crate::sheet_inputs::write_all;

const SHEET: &[u8] = b"rx 0A100101\ntx 0A100100\nspeed 500\nvoltage 0\nwarning 500\nfault 250\n";
const SHEET_LINE: &str = "sheet 0A100101 0A100100 00CA0500 00000000 000001F4 000000FA\n";

/// The six settings of the sheet as a case has them.
const SETTINGS: [u8; 24] = [
    0x0A, 0x10, 0x01, 0x01, 0x0A, 0x10, 0x01, 0x00, 0x00, 0xCA, 0x05, 0x00, 0, 0, 0, 0, 0, 0, 0x01,
    0xF4, 0, 0, 0, 0xFA,
];

fn to_read(bytes: &[u8]) -> Vec<u8> {
    let length = bytes.len();
    [&[0, (length / 256) as u8, (length % 256) as u8], bytes].concat()
}

fn to_write(settings: [u8; 24], room: usize) -> Vec<u8> {
    [&[1][..], &settings, &[(room / 256) as u8, (room % 256) as u8]].concat()
}

fn answers(cases: &[u8]) -> String {
    let mut out = Vec::new();
    answer_all(cases, &mut out).unwrap();
    String::from_utf8(out).unwrap()
}

#[test]
fn a_case_to_be_read_is_answered_by_one_line() {
    assert_eq!(answers(&to_read(SHEET)), SHEET_LINE);
    assert_eq!(answers(&to_read(&SHEET[..65])), "11 6\n");
    assert_eq!(answers(&to_read(b"")), "11 1\n");
    assert_eq!(answers(&to_read(&SHEET[..24])), "11 3\n");
    assert_eq!(answers(&to_read(&[SHEET, b"\n"].concat())), "11 7\n");
}

#[test]
fn a_case_to_be_written_is_answered_by_the_buffer_and_one_line() {
    let text = String::from_utf8(SHEET.to_vec()).unwrap();
    assert_eq!(answers(&to_write(SETTINGS, 66)), format!("{text}\ntext 66\n"));
    assert_eq!(answers(&to_write(SETTINGS, 69)), format!("{text}...\ntext 66\n"));
    let dots = |count: usize| ".".repeat(count);
    assert_eq!(answers(&to_write(SETTINGS, 65)), format!("{}\nrefused 12\n", dots(65)));
    assert_eq!(answers(&to_write(SETTINGS, 0)), "\nrefused 12\n");
    let mut wrong = SETTINGS;
    wrong[23] = 0;
    assert_eq!(answers(&to_write(wrong, 70)), format!("{}\nrefused 11\n", dots(70)));
    assert_eq!(answers(&to_write(wrong, 0)), "\nrefused 11\n");
    assert_eq!(answers(&to_write(wrong, 300)), format!("{}\nrefused 11\n", dots(300)));
}

/// "receive id, transmit id, speed", "voltage, warning level, fault level"
#[test]
fn each_setting_has_its_bytes() {
    let mut settings = [0; 24];
    settings[0..4].copy_from_slice(&[0x01, 0x23, 0x45, 0x67]);
    settings[4..8].copy_from_slice(&[0x1F, 0xED, 0xCB, 0xA9]);
    settings[8..12].copy_from_slice(&[0x00, 0xCA, 0x02, 0x50]);
    settings[12..16].copy_from_slice(&[0, 0, 0x01, 0x02]);
    settings[16..20].copy_from_slice(&[0x01, 0x00, 0x00, 0x01]);
    settings[20..24].copy_from_slice(&[0x02, 0x00, 0x00, 0x00]);
    let text = "rx 01234567\ntx 1FEDCBA9\nspeed 250\nvoltage 258\nwarning 16777217\n\
                fault 33554432\n";
    assert_eq!(answers(&to_write(settings, 78)), format!("{text}\ntext 78\n"));
}

/// "a case cut off at the end of the input, another first byte, or a length or a
/// room over 4,095 stops there without an answer for it"
#[test]
fn what_cannot_be_a_case_stops_the_answers() {
    let first = to_read(SHEET);
    let next = to_read(b"");
    for stop in [to_read(&[b'x'; 4_096]), to_write(SETTINGS, 4_096), vec![2], vec![0xFF, 0, 0]] {
        assert_eq!(answers(&[&first[..], &stop, &next].concat()), SHEET_LINE);
    }
    for last in [to_read(SHEET), to_write(SETTINGS, 66)] {
        for length in 0..last.len() {
            assert_eq!(answers(&[&first[..], &last[..length]].concat()), SHEET_LINE);
        }
        assert_ne!(answers(&[&first[..], &last].concat()), SHEET_LINE);
    }
    // The most there can be is answered, and so is what comes after.
    let most = [to_read(&[b'x'; 4_095]), first.clone()].concat();
    assert_eq!(answers(&most), format!("11 1\n{SHEET_LINE}"));
    let most = [to_write(SETTINGS, 4_095), first].concat();
    assert!(answers(&most).ends_with(&format!("...\ntext 66\n{SHEET_LINE}")));
}

#[test]
fn cases_are_written_as_they_are_read() {
    let cases = [to_read(SHEET), to_write(SETTINGS, 300), to_read(&[7; 300])].concat();
    let mut out = Vec::new();
    for case in (Cases { rest: &cases }) {
        write_case(&case, &mut out).unwrap();
    }
    assert_eq!(out, cases);
}

/// Only cases to be read are counted.
#[test]
fn the_files_are_numbered_from_1() {
    let directory = std::env::temp_dir().join(format!("second-sheets-{}", std::process::id()));
    let cases = [to_write(SETTINGS, 66), to_read(SHEET), to_write(SETTINGS, 0), to_read(b"rx\n")];
    write_files(&cases.concat(), &directory).unwrap();
    let file = |name: &str| std::fs::read(directory.join(name)).unwrap();
    let met = ["1.sheet", "1.answer", "2.sheet", "2.answer"].map(file);
    let files = std::fs::read_dir(&directory).unwrap().count();
    std::fs::remove_dir_all(&directory).unwrap();
    let refused: &[u8] = b"refused 11\nline 1: expected 'rx', one space, \
        eight capital hex digits at most 1FFFFFFF, and a line feed\n";
    assert_eq!(
        met.map(|bytes| bytes.escape_ascii().to_string()),
        [SHEET, SHEET, b"rx\n", refused].map(|bytes| bytes.escape_ascii().to_string())
    );
    assert_eq!(files, 4);
}

/// The first cases of each seed: the example read, written with seven rooms, and
/// what reading 2 says of starts and ends.
#[test]
fn the_examples_come_first() {
    for seed in [1, 77] {
        let mut cases = Vec::new();
        write_all(seed, 12, &mut cases).unwrap();
        let rooms = [66, 65, 67, 0, 84, 83, 85];
        let mut hand = vec![to_read(SHEET)];
        hand.extend(rooms.map(|room| to_write(SETTINGS, room)));
        hand.extend([to_read(b""), to_read(&SHEET[..24]), to_read(&SHEET[..65])]);
        hand.push(to_read(&[SHEET, b"\n"].concat()));
        assert_eq!(cases, hand.concat());
        let lines = answers(&cases);
        assert!(lines.ends_with("\ntext 66\n11 1\n11 3\n11 6\n11 7\n"));
    }
}

/// A case of each kind is what the iterator gives.
#[test]
fn cases_are_told_apart() {
    let cases = [to_read(b"x"), to_write(SETTINGS, 5)].concat();
    let mut met = Cases { rest: &cases };
    assert_eq!(met.next(), Some(Case::Read { bytes: b"x" }));
    assert!(matches!(met.next(), Some(Case::Write { room: 5, .. })));
    assert_eq!(met.next(), None);
}
