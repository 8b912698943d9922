//! Counts of whole sheets among the made-up cases: every place changed, sheets
//! that come back, and the file.

use crate::sheet::{read, write};
use crate::sheet_cases::{answer_all, Case, Cases};
use crate::sheet_coverage::{cases, inputs, COUNT};
use crate::sheet_inputs::fixed_count;
use std::collections::HashSet;

/// The bytes of a case to be read.
fn to_read(case: Case<'_>) -> Option<&[u8]> {
    match case {
        Case::Read { bytes } => Some(bytes),
        Case::Write { .. } => None,
    }
}

/// All that is to be read among so many first cases of seed 1.
fn all_read(count: u64) -> HashSet<&'static [u8]> {
    Cases { rest: cases() }.take(count as usize).filter_map(to_read).collect()
}

// Every place of a sheet.

/// The sheets of which every place is taken out and doubled.
fn bases(all: &HashSet<&'static [u8]>) -> Vec<&'static [u8]> {
    let every_place = |sheet: &[u8]| {
        (0..sheet.len()).all(|at| {
            let dropped = [&sheet[..at], &sheet[at + 1..]].concat();
            let doubled = [&sheet[..=at], &sheet[at..]].concat();
            all.contains(&dropped[..]) && all.contains(&doubled[..])
        })
    };
    all.iter().copied().filter(|sheet| read(sheet).is_ok() && every_place(sheet)).collect()
}

/// The bytes that a place of a sheet is changed to.
fn changes(sheet: &[u8], all: &HashSet<&'static [u8]>) -> Vec<HashSet<u8>> {
    let mut changes = vec![HashSet::new(); sheet.len()];
    for other in all.iter().filter(|other| other.len() == sheet.len()) {
        let mut places = (0..sheet.len()).filter(|&at| sheet[at] != other[at]);
        if let (Some(at), None) = (places.next(), places.next()) {
            changes[at].insert(other[at]);
        }
    }
    changes
}

/// Also among the first 20,000 cases.
#[test]
fn every_place_of_many_sheets_is_taken_out_doubled_and_changed() {
    let all = all_read(20_000);
    let changed = |sheet: &&&[u8]| changes(sheet, &all).iter().all(|new| !new.is_empty());
    let bases = bases(&all);
    let changed = bases.iter().filter(changed).count();
    assert!(changed >= 50, "{changed} of {}", bases.len());
}

/// The first three lines have the same length in every sheet: each of their 34
/// places becomes each kind of byte in some sheet.
#[test]
fn every_place_becomes_every_kind_of_byte() {
    let all = all_read(COUNT);
    let mut met = vec![HashSet::new(); 34];
    for sheet in bases(&all) {
        for (at, new) in changes(sheet, &all).into_iter().take(34).enumerate() {
            met[at].extend(new.into_iter().map(|new| (sheet[at], new)));
        }
    }
    let kinds: [fn(u8, u8) -> bool; 16] = [
        |_, new| new == b',',
        |_, new| new == b'.',
        |old, new| new == old.wrapping_add(1),
        |old, new| new == old.wrapping_sub(1),
        |old, new| new == b' ' || old == b' ',
        |_, new| new == b'\t',
        |old, new| new == b'\n' || old == b'\n',
        |_, new| new == b'\r',
        |_, new| new == 0,
        |_, new| new.is_ascii_digit(),
        |_, new| new.is_ascii_uppercase(),
        |_, new| new.is_ascii_lowercase(),
        |_, new| new == b'-',
        |_, new| new == b'+',
        |_, new| new >= 0x80,
        |old, new| new != old,
    ];
    for (at, met) in met.iter().enumerate() {
        for (kind, is) in kinds.iter().enumerate() {
            assert!(met.iter().any(|&(old, new)| is(old, new)), "place {at}, kind {kind}");
        }
    }
}

/// Some sheets are cut off at every place, and some have a comma, or a dot, at
/// every place.
#[test]
fn every_start_and_every_comma_is_met() {
    let all = all_read(COUNT);
    let right: Vec<&[u8]> = all.iter().copied().filter(|sheet| read(sheet).is_ok()).collect();
    let starts = |sheet: &[u8]| (0..sheet.len()).all(|length| all.contains(&sheet[..length]));
    assert!(right.iter().filter(|sheet| starts(sheet)).count() >= 5);
    for put_in in [b",", b"."] {
        let with = |sheet: &[u8]| {
            let put = |at: usize| [&sheet[..at], put_in, &sheet[at..]].concat();
            (0..=sheet.len()).all(|at| all.contains(&put(at)[..]))
        };
        assert!(right.iter().filter(|sheet| with(sheet)).count() >= 2);
    }
}

// The two sentences that hold for all.

/// "A written sheet reads back as the same six values, and an accepted sheet is
/// written back as the same bytes."
#[test]
fn sheets_come_back() {
    let (mut written, mut accepted) = (0, 0);
    for case in (Cases { rest: cases() }) {
        let mut buffer = [0; 84];
        match case {
            Case::Read { bytes } => {
                let Ok(settings) = read(bytes) else { continue };
                let length = write(&settings, &mut buffer).expect("no sheet is longer");
                assert_eq!(&buffer[..length], bytes);
                accepted += 1;
            }
            Case::Write { settings, .. } => {
                let Ok(length) = write(&settings, &mut buffer) else { continue };
                assert_eq!(read(&buffer[..length]), Ok(settings));
                written += 1;
            }
        }
    }
    assert!(accepted > 1_000 && written > 500, "{accepted} and {written}");
}

// The file as a whole.

#[test]
fn the_same_seed_gives_the_same_bytes() {
    assert_eq!(inputs(1, COUNT), cases());
    assert_ne!(inputs(2, COUNT), cases());
}

/// The bytes of seed 1 are known by their FNV-1a sum, so that a machine that
/// makes others is found out. A change of the maker changes the sum.
#[test]
fn the_bytes_of_seed_1_are_known() {
    let sum = cases().iter().fold(0xCBF2_9CE4_8422_2325, |sum: u64, &byte| {
        (sum ^ u64::from(byte)).wrapping_mul(0x0100_0000_01B3)
    });
    assert_eq!(sum, 0xBB00_4CFC_219E_CF49, "{sum:#X}");
}

#[test]
fn fewer_cases_give_the_start_of_the_same_bytes() {
    for count in [0, 1, 13, 700, 21_999] {
        let start = inputs(1, count);
        assert!(start.len() < cases().len());
        assert_eq!(start, cases()[..start.len()]);
        assert_eq!(Cases { rest: &start }.count() as u64, count);
    }
}

/// The catalogue is within the first 20,000 cases, batches go on after it without
/// end, and inputs and answers together are not too large a file to keep.
#[test]
fn the_files_have_the_wanted_size() {
    for seed in [1, 2] {
        let fixed = fixed_count(seed);
        assert!((19_000..=20_000).contains(&fixed), "{fixed}");
        let all = inputs(seed, COUNT);
        let mut out = Vec::new();
        answer_all(&all, &mut out).unwrap();
        assert!(all.len() + out.len() < 1_950_000, "{} and {}", all.len(), out.len());
    }
    assert_eq!(Cases { rest: &inputs(3, 60_000) }.count(), 60_000);
}
