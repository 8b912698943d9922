//! Tests of the log reader and the listing: bytes and lines written by hand from
//! the rules of document 01 and the readings of docs/LOG_CASES.md.

use crate::history::History;
use crate::listing::{answer, input, list, replay};
use crate::log::{read, LONGEST};
use crate::log_cases::{answer_all, write_files, Cases};
use crate::log_inputs::write_all;
use std::fmt::Write as _;

/// Bytes from hexadecimal digits; blanks are left out.
fn hex(digits: &str) -> Vec<u8> {
    let digits: Vec<u8> =
        digits.chars().filter_map(|c| c.to_digit(16)).map(|digit| digit as u8).collect();
    digits.chunks(2).map(|pair| pair[0] << 4 | pair[1]).collect()
}

/// The block of P1: power-on at 0, serial 00 01 .. 0F, rating 1000, defaults.
const BLOCK: &str = "00000000 000102030405060708090A0B0C0D0E0F 03E8
    0A100101 0A100100 00CA0500 00000000 000001F4 00000064 0000";

/// The records of P1.
const UNLOCK: &str = "000003E8 00 01 03 00 0A100101 1428D50000000000";
const ANSWER: &str = "000005DC 00 01 08 00 0A100101 14534F46504D4844";
const WRITE: &str = "00000DAC 00 01 05 00 0A100101 20000000FA000000";
const COMMIT: &str = "00000FA0 00 01 03 00 0A100101 149A280000000000";
const P1: [&str; 4] = [UNLOCK, ANSWER, WRITE, COMMIT];

const P1_LISTING: &str = "1000 0A100100 8 14 00 01 02 03 04 05 06
1500 0A100100 3 41 43 4B
3500 0A100100 3 41 43 4B
4000 0A100100 3 41 43 4B
stored 0A100101 0A100100 500 0 500 250
";

/// A log with a right trailer.
fn log(notes: &[u8], block: &str, records: &[&str]) -> Vec<u8> {
    let mut bytes = notes.to_vec();
    bytes.extend(hex(block));
    records.iter().for_each(|record| bytes.extend(hex(record)));
    let length = bytes.len() + 16;
    with_trailer(bytes, notes.len(), records.len(), length)
}

fn with_trailer(mut bytes: Vec<u8>, offset: usize, count: usize, told: usize) -> Vec<u8> {
    for number in [offset, count, told] {
        bytes.extend((number as u32).to_be_bytes());
    }
    bytes.extend(b"BLOG");
    bytes
}

fn p1() -> Vec<u8> {
    log(&[], BLOCK, &P1)
}

/// P1 with these bytes from a place on.
fn p1_with(at: usize, bytes: &[u8]) -> Vec<u8> {
    let mut log = p1();
    log[at..at + bytes.len()].copy_from_slice(bytes);
    log
}

/// The block with these bytes from a place on, with the records of P1 and with
/// none.
fn with_block(at: usize, bytes: &[u8]) -> [Vec<u8>; 2] {
    let mut block = hex(BLOCK);
    block[at..at + bytes.len()].copy_from_slice(bytes);
    let block: String = block.iter().fold(String::new(), |mut digits, byte| {
        write!(digits, "{byte:02X}").unwrap();
        digits
    });
    [log(&[], &block, &P1), log(&[], &block, &[])]
}

#[track_caller]
fn refused(bytes: &[u8], number: u8) {
    assert_eq!(replay(bytes), format!("refused {number}\n"));
    assert_eq!(list(bytes).map_err(|refusal| refusal as u8), Err(number));
}

#[track_caller]
fn accepted(bytes: &[u8]) -> String {
    list(bytes).expect("a log that is accepted")
}

/// Accepted if it is right, else refused by the number.
#[track_caller]
fn judged(bytes: &[u8], right: bool, number: u8) {
    if right {
        accepted(bytes);
    } else {
        refused(bytes, number);
    }
}

/// The last line.
#[track_caller]
fn stored(bytes: &[u8]) -> String {
    let text = accepted(bytes);
    assert!(text.ends_with('\n'));
    text.lines().last().unwrap().to_string()
}

// The marked cases.

#[test]
fn p1_is_listed_as_written() {
    let bytes = hex("00000000 000102030405060708090A0B0C0D0E0F 03E8
        0A100101 0A100100 00CA0500 00000000 000001F4 00000064 0000
        000003E8 00010300 0A100101 1428D50000000000
        000005DC 00010800 0A100101 14534F46504D4844
        00000DAC 00010500 0A100101 20000000FA000000
        00000FA0 00010300 0A100101 149A280000000000
        00000000 00000004 00000090 424C4F47");
    assert_eq!(bytes.len(), 144);
    assert_eq!(bytes, p1());
    assert_eq!(replay(&bytes), P1_LISTING);
}

/// The first case of each cases file is P1 with room for its listing exactly;
/// then come one byte less, none and all.
#[test]
fn p1_comes_first() {
    for seed in [1, 77] {
        let mut cases = Vec::new();
        write_all(seed, 4, &mut cases).unwrap();
        let met: Vec<(Vec<u8>, usize)> =
            Cases { rest: &cases }.map(|case| (case.bytes.to_vec(), case.room)).collect();
        let rooms = [154, 153, 0, 138_057];
        assert_eq!(met, rooms.map(|room| (p1(), room)).to_vec());
        assert_eq!(P1_LISTING.len(), 154);
        let mut out = Vec::new();
        answer_all(&cases, &mut out).unwrap();
        let text = format!("{P1_LISTING}refused 12\nrefused 12\n{P1_LISTING}");
        assert_eq!(String::from_utf8(out).unwrap(), text);
    }
}

/// P2 to P6 and P8 to P10, all with power-on at 0.
#[test]
fn the_other_marked_cases() {
    let challenge = |stamp: u32| format!("{stamp} 0A100100 8 14 00 01 02 03 04 05 06\n");
    let ack = |stamp: u32| format!("{stamp} 0A100100 3 41 43 4B\n");
    let nak = |stamp: u32| format!("{stamp} 0A100100 3 4E 41 4B\n");
    let stored = "stored 0A100101 0A100100 500 0 500 100\n";
    let open = challenge(1_000) + &ack(1_500);
    let listings = [
        open.clone() + stored,
        challenge(10_000) + stored,
        nak(10_001) + stored,
        challenge(1_000) + &ack(3_000) + stored,
        challenge(1_000) + &nak(3_001) + stored,
        open.clone() + &ack(3_500) + &nak(4_000) + stored,
        open.clone() + &nak(2_000) + stored,
        open + &ack(2_000) + stored,
    ];
    let mut cases = Vec::new();
    write_all(1, 36, &mut cases).unwrap();
    let met: Vec<String> = Cases { rest: &cases }
        .map(|case| replay(case.bytes))
        .enumerate()
        .filter(|(i, _)| i % 4 == 0 && *i > 0)
        .map(|(_, text)| text)
        .collect();
    assert_eq!(met, listings);
    // P2 has "two replies, fault level 100"; 3501 is DAD.
    let late = WRITE.replace("00000DAC", "00000DAD");
    assert_eq!(replay(&log(&[], BLOCK, &[UNLOCK, ANSWER, &late, COMMIT])), listings[0]);
    let failing = COMMIT.replace("00000FA0 00", "00000FA0 01");
    assert_eq!(replay(&log(&[], BLOCK, &[UNLOCK, ANSWER, WRITE, &failing])), listings[5]);
}

// Rooms.

/// "12 exactly when the bytes are a log and the room is shorter than the
/// listing"
#[test]
fn the_room_counts_to_the_byte() {
    for room in 0..154 {
        assert_eq!(answer(&p1(), room), "refused 12\n", "{room}");
    }
    for room in [154, 155, 138_057] {
        assert_eq!(answer(&p1(), room), P1_LISTING, "{room}");
    }
    assert_eq!(answer(&p1()[1..], 0), "refused 9\n");
    let [bad_block, _] = with_block(47, &[1]);
    assert_eq!(answer(&bad_block, 0), "refused 8\n");
    assert_eq!(answer(&p1_with(52, &[3]), 0), "refused 10\n");
    assert_eq!(answer(&p1_with(2, &[4]), 0), "refused 7\n");
}

/// The longest listing is as long as the highest room of a case: 3,000
/// challenges, at stamps of ten digits.
#[test]
fn the_longest_listing() {
    let block = "FFFFF000 FFFFFFFFFFFFFFFFFFFFFFFFFFFFFFFF FFFF
        1FFFFFFF 1FFFFFFF 00CA0500 0000FFFE 7FFFFFFF 7FFFFFFF 0000";
    let unlock = "FFFFFFFF 00 01 03 00 1FFFFFFF 1428D50000000000";
    let bytes = log(&[], block, &vec![unlock; 3_000]);
    let text = accepted(&bytes);
    assert_eq!(text.len(), 138_057);
    let line = "4294967295 1FFFFFFF 8 14 FF FF FF FF FF FF FF\n";
    let stored = "stored 1FFFFFFF 1FFFFFFF 500 65534 2147483647 2147483647\n";
    assert_eq!(text, line.repeat(3_000) + stored);
    assert_eq!(answer(&bytes, 138_056), "refused 12\n");
}

// The listing.

/// "The listing of a log with no records, or with no replies, is the stored line
/// alone."
#[test]
fn no_reply_no_line() {
    let line = "stored 0A100101 0A100100 500 0 500 100\n";
    assert_eq!(replay(&log(&[], BLOCK, &[])), line);
    let reset = "00000001 02 00 00 00 00000000 0000000000000000";
    let unheard = "00000002 00 00 03 00 00000101 1428D50000000000";
    assert_eq!(replay(&log(&[], BLOCK, &[reset, unheard])), line);
}

/// Small numbers and the other speed; replies of lengths 5 and 3 without what
/// comes past them.
#[test]
fn lines_of_every_length() {
    let block = "00000007 A0A1A2A3A4A5A6A7A8A9AAABACADAEAF 0002
        00000000 0000000F 00CA0250 00000001 00000001 00000002 0000";
    let records = [
        "00000007 00 01 01 00 00000000 0B00000000000000",
        "00000007 00 01 03 00 00000000 0812340000000000",
        "00002718 00 01 03 00 00000000 1428D50000000000",
    ];
    assert_eq!(
        replay(&log(b"notes", block, &records)),
        "7 0000000F 5 0B A0 A1 A2 A3\n7 0000000F 5 08 AC AD AE AF\n\
         10008 0000000F 3 4E 41 4B\nstored 00000000 0000000F 250 1 1 2\n"
    );
}

// Refusal 9.

/// Bytes that have a right trailer for their parts are needed, from 64 to 64,160
/// of them.
#[test]
fn refusal_9_lengths() {
    let smallest = log(&[], BLOCK, &[]);
    assert_eq!(smallest.len(), 64);
    accepted(&smallest);
    for length in 0..144 {
        refused(&p1()[..length], 9);
    }
    for start in 1..144 {
        refused(&p1()[start..], 9);
    }
    for length in 0..64 {
        refused(&smallest[64 - length..], 9);
        let mut short = smallest[64 - length..].to_vec();
        if length >= 16 {
            short[length - 8..length - 4].copy_from_slice(&(length as u32).to_be_bytes());
        }
        refused(&short, 9);
    }
    refused(&[p1(), vec![0]].concat(), 9);
    refused(&[vec![0], p1()].concat(), 9);
}

const RESET: &str = "00000001 02 00 00 00 00000000 0000000000000000";

/// Each limit of the trailer: 4,096 notes, 3,000 records and both, and one more
/// of each, all else fitting.
#[test]
fn refusal_9_limits() {
    for (notes, records, right) in [
        (4_096, 0, true),
        (4_097, 0, false),
        (0, 3_000, true),
        (0, 3_001, false),
        (4_096, 3_000, true),
        (4_097, 3_000, false),
        (4_096, 3_001, false),
    ] {
        let bytes = log(&vec![0x42; notes], BLOCK, &vec![RESET; records]);
        judged(&bytes, right, 9);
    }
    let longest = log(&vec![0; 4_096], BLOCK, &vec![RESET; 3_000]);
    assert_eq!(longest.len(), LONGEST);
    // One byte more before the trailer, told as it is.
    let mut longer = longest[..LONGEST - 16].to_vec();
    longer.push(0);
    refused(&with_trailer(longer, 4_096, 3_000, LONGEST + 1), 9);
}

/// Every other value of every byte of the trailer is wrong.
#[test]
fn refusal_9_each_byte_of_the_trailer() {
    for notes in [0, 40] {
        let right = log(&vec![0; notes], BLOCK, &P1);
        let length = right.len();
        for at in length - 16..length {
            for value in 0..=255 {
                let mut bytes = right.clone();
                bytes[at] = value;
                if bytes != right {
                    refused(&bytes, 9);
                }
            }
        }
    }
}

/// "Sums are exact, never modulo 2^32."
#[test]
fn refusal_9_sums_do_not_wrap() {
    let body = p1()[..128].to_vec();
    accepted(&with_trailer(body.clone(), 0, 4, 144));
    for (offset, count, told) in [
        (0, 4 + (1 << 30), 144),
        (0, 4 + (1 << 31), 144),
        (0, 4 + (3 << 30), 144),
        (0, 4 + (1 << 29), 144),
        (0, 4 + (1 << 16), 144),
        (0, 4 + (1 << 14), 144),
        (1 << 16, 4, 144),
        (1 << 31, 4, 144),
        (1 << 31, 4 + (1 << 29), 144),
        (0, 4, 144 + (1 << 16)),
        (0, 4, 144 + (1 << 31)),
        ((1 << 32) - 20, 5, 144),
        ((1 << 32) - 20 * 2_996, 3_000, 144),
        (100, (1 << 32) - 1, 144),
    ] {
        refused(&with_trailer(body.clone(), offset, count, told), 9);
    }
}

/// The parts can fill the file in two ways; the trailer decides which. With an
/// offset 20 higher the block begins amid the block.
#[test]
fn the_trailer_decides_where_the_block_is() {
    let body = p1()[..128].to_vec();
    refused(&with_trailer(body.clone(), 20, 3, 144), 8);
    refused(&with_trailer(body.clone(), 20, 4, 144), 9);
    // Notes that are a whole log themselves.
    let twice = log(&p1(), BLOCK, &[]);
    assert_eq!(replay(&twice), "stored 0A100101 0A100100 500 0 500 100\n");
}

// Refusal 8.

/// Both sides of each limit; "The block is judged even with no records."
#[test]
fn refusal_8_each_field() {
    let wrong: [(usize, u32, &[u32]); 6] = [
        (22, 0x1FFF_FFFF, &[0x2000_0000, 0x8000_0000, 0xFFFF_FFFF]),
        (26, 0x1FFF_FFFF, &[0x2000_0000, 0x8000_0000, 0xFFFF_FFFF]),
        (30, 0x00CA_0250, &[0, 250, 500, 0x00CA_0251, 0x00CA_04FF, 0x01CA_0250, 0x80CA_0500]),
        (34, 999, &[1_000, 1_001, 65_536, 0x8000_0000, 0xFFFF_FFFF]),
        (38, 1, &[0, 0x8000_0000, 0xFFFF_FFFF]),
        (42, 0x7FFF_FFFF, &[0, 0x8000_0000, 0xFFFF_FFFF]),
    ];
    for (at, right, wrong) in wrong {
        with_block(at, &right.to_be_bytes()).iter().for_each(|bytes| drop(accepted(bytes)));
        for value in wrong {
            with_block(at, &value.to_be_bytes()).iter().for_each(|bytes| refused(bytes, 8));
        }
    }
    for zeros in [[0, 1], [1, 0], [0x80, 0], [0, 0x80], [0xFF, 0xFF]] {
        with_block(46, &zeros).iter().for_each(|bytes| refused(bytes, 8));
    }
    with_block(20, &[0, 0]).iter().for_each(|bytes| refused(bytes, 8));
    with_block(20, &[0, 1]).iter().for_each(|bytes| drop(accepted(bytes)));
}

/// What the block holds is stored, and every field of it is in its place.
#[test]
fn the_fields_of_the_block() {
    let block = "00000000 000102030405060708090A0B0C0D0E0F FFFF
        1FFFFFFF 01234567 00CA0250 0000FFFE 7FFFFFFF 00000001 0000";
    let line = "stored 1FFFFFFF 01234567 250 65534 2147483647 1";
    assert_eq!(stored(&log(&[9; 17], block, &[])), line);
}

// Refusal 10.

/// One record after a right one, with these bytes from a place on.
fn one_record(record: &str, at: usize, bytes: &[u8]) -> Vec<u8> {
    let mut log = log(b"n", BLOCK, &[UNLOCK, record]);
    let from = 1 + 48 + 20 + at;
    log[from..from + bytes.len()].copy_from_slice(bytes);
    log
}

#[test]
fn refusal_10_kind_extended_length_and_zero() {
    for kind in 0..=255 {
        let bytes = one_record(ANSWER, 4, &[kind]);
        judged(&bytes, kind < 2, 10);
        // A reset is all zeros after its kind; so no other kind may look.
        let bytes = one_record(&RESET.replace("00000001", "000003E8"), 4, &[kind]);
        judged(&bytes, kind <= 2, 10);
    }
    for extended in 0..=255 {
        let small = ANSWER.replace("0A100101", "000007FF");
        let bytes = one_record(&small, 5, &[extended]);
        judged(&bytes, extended < 2, 10);
    }
    for length in 0..=255 {
        let bytes = one_record(ANSWER, 6, &[length]);
        judged(&bytes, length == 8, 10);
        let empty = "000003E8 00 01 08 00 0A100101 0000000000000000";
        let bytes = one_record(empty, 6, &[length]);
        judged(&bytes, length <= 8, 10);
    }
    for spare in 1..=255 {
        refused(&one_record(ANSWER, 7, &[spare]), 10);
    }
}

/// "A standard frame with an identifier over 0x7FF, and an extended one over
/// 0x1FFFFFFF, are 10."
#[test]
fn refusal_10_identifiers() {
    for (extended, identifier, right) in [
        (0, 0_u32, true),
        (0, 0x7FF, true),
        (0, 0x800, false),
        (0, 0x0001_0000, false),
        (0, 0x0A10_0101, false),
        (0, 0x8000_0000, false),
        (1, 0, true),
        (1, 0x800, true),
        (1, 0x1FFF_FFFF, true),
        (1, 0x2000_0000, false),
        (1, 0x8A10_0101, false),
        (1, 0xFFFF_FFFF, false),
    ] {
        let mut bytes = one_record(ANSWER, 5, &[extended]);
        bytes[77..81].copy_from_slice(&identifier.to_be_bytes());
        judged(&bytes, right, 10);
    }
}

/// "data 8 with zeros past the length"
#[test]
fn refusal_10_data_past_the_length() {
    for length in 0..=8 {
        for position in 0..8 {
            for value in [1, 0x80, 0xFF] {
                let record = format!("000003E8 01 01 0{length} 00 0A100101 0000000000000000");
                let bytes = one_record(&record, 12 + position, &[value]);
                judged(&bytes, position < length, 10);
            }
        }
    }
}

/// "In a reset every byte after the kind is zero."
#[test]
fn refusal_10_resets() {
    let reset = RESET.replace("00000001", "000003E8");
    for at in 5..20 {
        for value in [1, 0x80, 0xFF] {
            refused(&one_record(&reset, at, &[value]), 10);
        }
        accepted(&one_record(&reset, at, &[0]));
    }
}

// Refusal 7.

/// "A record's stamp is compared with that of the record before, the first one's
/// with the block's power-on stamp. Equal is in order."
#[test]
fn refusal_7_stamps() {
    // 1000 is 3E8.
    accepted(&p1_with(0, &[0, 0, 3, 0xE8]));
    refused(&p1_with(0, &[0, 0, 3, 0xE9]), 7);
    for (i, before) in [(1, 1_000_u32), (2, 1_500), (3, 3_500)] {
        let at = 48 + 20 * i;
        accepted(&p1_with(at, &before.to_be_bytes()));
        refused(&p1_with(at, &(before - 1).to_be_bytes()), 7);
        refused(&p1_with(at, &[0; 4]), 7);
    }
    for (power_on, first, second, right) in [
        ("80000000", "80000000", "80000000", true),
        ("7FFFFFFF", "80000000", "FFFFFFFF", true),
        ("80000000", "7FFFFFFF", "80000000", false),
        ("00000000", "80000000", "7FFFFFFF", false),
        ("00000000", "FFFFFFFF", "00000000", false),
        ("FFFFFFFF", "FFFFFFFF", "FFFFFFFF", true),
    ] {
        let block = BLOCK.replacen("00000000", power_on, 1);
        let records = [first, second].map(|stamp| RESET.replacen("00000001", stamp, 1));
        let bytes = log(&[], &block, &[&records[0], &records[1]]);
        judged(&bytes, right, 7);
    }
}

/// Resets and frames that are not heard are compared too.
#[test]
fn refusal_7_of_every_kind_of_record() {
    let unheard = "00000005 01 00 00 00 000007FF 0000000000000000";
    let after = [RESET.replace("00000001", "00000005"), unheard.to_string(), UNLOCK.to_string()];
    for before in &after {
        for late in &after {
            let early = format!("00000004{}", &late[8..]);
            refused(&log(&[], BLOCK, &[before, &early]), 7);
            let equal = format!("{}{}", &before[..8], &late[8..]);
            accepted(&log(&[], BLOCK, &[before, &equal]));
        }
    }
}

// The order of the checks.

/// "Checks: 9, then 8, then records in order, each 10 before 7."
#[test]
fn the_order_of_the_refusals() {
    let early = "000003E7 00 01 08 00 0A100101 14534F46504D4844";
    let wrong = "000005DC 03 01 08 00 0A100101 14534F46504D4844";
    let early_and_wrong = "000003E7 00 01 08 01 0A100101 14534F46504D4844";
    refused(&log(&[], BLOCK, &[UNLOCK, early_and_wrong]), 10);
    refused(&log(&[], BLOCK, &[UNLOCK, early, wrong]), 7);
    refused(&log(&[], BLOCK, &[UNLOCK, wrong, early]), 10);
    refused(&log(&[], BLOCK, &[UNLOCK, early, early_and_wrong]), 7);
    let bad_block = BLOCK.replace("000001F4", "00000000");
    for record in [early, wrong, early_and_wrong] {
        let bytes = log(&[], &bad_block, &[UNLOCK, record]);
        refused(&bytes, 8);
        let told = bytes.len() - 5;
        let mut wrong_length = bytes.clone();
        wrong_length[told] ^= 1;
        refused(&wrong_length, 9);
        let mut bytes = log(&[], BLOCK, &[UNLOCK, record]);
        bytes[told] ^= 1;
        refused(&bytes, 9);
    }
}

// The two readings of the monitor.

/// What is listed is what the history reading says of the same events, for every
/// accepted log that is not a long one.
#[test]
fn the_history_reading_says_the_same() {
    let mut cases = Vec::new();
    write_all(1, 600, &mut cases).unwrap();
    let mut compared = 0;
    for case in (Cases { rest: &cases }) {
        let Ok(log) = read(case.bytes) else { continue };
        if log.events.len() > 300 {
            continue;
        }
        let history = History::new(log.power_on, &log.unit, &log.events);
        let mut text = String::new();
        for (i, event) in log.events.iter().enumerate() {
            if let Some(reply) = history.reply(i) {
                write!(text, "{} {:08X} {}", event.stamp().0, reply.identifier, reply.length)
                    .unwrap();
                for byte in &reply.bytes[..usize::from(reply.length)] {
                    write!(text, " {byte:02X}").unwrap();
                }
                text.push('\n');
            }
        }
        let last = history.stored_before(log.events.len());
        let speed = last.speed & 0xFFF;
        writeln!(
            text,
            "stored {:08X} {:08X} {speed:X} {} {} {}",
            last.receive, last.transmit, last.voltage, last.warning, last.fault
        )
        .unwrap();
        assert_eq!(replay(case.bytes), text);
        compared += 1;
    }
    assert!(compared >= 200, "{compared}");
}

// Cases and files.

fn case(length: u32, room: u32, bytes: &[u8]) -> Vec<u8> {
    [&length.to_be_bytes()[..], &room.to_be_bytes(), bytes].concat()
}

fn answers(cases: &[u8]) -> String {
    let mut out = Vec::new();
    answer_all(cases, &mut out).unwrap();
    String::from_utf8(out).unwrap()
}

/// "A program that meets a case cut off at the end of the input, a length over
/// 65,535 or a room over 138,057 stops there without an answer for it."
#[test]
fn cases_end_where_none_can_be() {
    let first = case(3, 138_057, &[1, 2, 3]);
    let with = |second: Vec<u8>| [first.clone(), second].concat();
    let one = "refused 9\n";
    let two = "refused 9\nrefused 9\n";
    assert_eq!(answers(&[]), "");
    assert_eq!(answers(&first), one);
    for cut in 0..first.len() {
        assert_eq!(answers(&first[..cut]), "", "{cut}");
    }
    assert_eq!(answers(&with(case(0, 0, &[]))), two);
    assert_eq!(answers(&with(case(65_535, 0, &vec![0; 65_535]))), two);
    assert_eq!(answers(&with(case(65_536, 0, &vec![0; 65_536]))), one);
    assert_eq!(answers(&with(case(0, 138_057, &[]))), two);
    assert_eq!(answers(&with(case(0, 138_058, &[]))), one);
    assert_eq!(answers(&with([case(0, 138_058, &[]), first.clone()].concat())), one);
    assert_eq!(answers(&with(vec![0; 7])), one);
}

/// The program `replay`: "over 64,160 bytes are `refused 9`", however many.
#[test]
fn replay_takes_an_input_of_any_length() {
    let longest = log(&vec![0; 4_096], BLOCK, &vec![RESET; 3_000]);
    let line = "stored 0A100101 0A100100 500 0 500 100\n";
    assert_eq!(replay(&input(&longest[..]).unwrap()), line);
    for more in [1, 1_000, 1_000_000] {
        // Even if a log stands at the end or at the start.
        for bytes in [[vec![0; more], p1()].concat(), [longest.clone(), vec![0; more]].concat()] {
            assert_eq!(replay(&input(&bytes[..]).unwrap()), "refused 9\n");
        }
    }
    assert_eq!(replay(&input(&p1()[..]).unwrap()), P1_LISTING);
    assert_eq!(replay(&input(&[][..]).unwrap()), "refused 9\n");
}

/// The room plays no part in the files.
#[test]
fn files_hold_the_bytes_and_the_listing() {
    let directory = std::env::temp_dir().join(format!("log-files-{}", std::process::id()));
    let cases = [case(144, 0, &p1()), case(2, 0, &[7, 8]), vec![1]].concat();
    write_files(&cases, &directory).unwrap();
    let file = |name: &str| std::fs::read(directory.join(name)).unwrap();
    assert_eq!(file("1.log"), p1());
    assert_eq!(file("1.listing"), P1_LISTING.as_bytes());
    assert_eq!(file("2.log"), [7, 8]);
    assert_eq!(file("2.listing"), b"refused 9\n");
    assert_eq!(std::fs::read_dir(&directory).unwrap().count(), 4);
    std::fs::remove_dir_all(&directory).unwrap();
}
