//! Logs of right form made of monitor cases: the marked cases of document 01, and
//! runs of the host that makes the monitor cases.

use crate::history::Event;
use crate::log_parts::Parts;
use crate::monitor::{Monitor, Stamp, Unit};
use crate::monitor_cases::{decode, Record};
use crate::monitor_host::{Host, LAST_STAMP};
use crate::monitor_inputs::{any_unit, marked_runs, MARKED_UNIT};
use crate::monitor_scenes::{self as scenes, Scene};
use crate::monitor_wander::wander;
use crate::random::Random;

/// The cases P1 to P10 but P7, which has no monitor.
pub fn marked_logs() -> Vec<Parts> {
    let runs = marked_runs();
    let with_monitor = runs.iter().enumerate().filter(|(i, _)| *i != 6);
    with_monitor.map(|(_, records)| Parts::new(0, &MARKED_UNIT, &events(records))).collect()
}

/// The events among records that are all accepted.
fn events(records: &[Record]) -> Vec<Event> {
    let event = |record: &Record| match *record {
        Record::Frame { stamp, storage_works, frame } => {
            Some(Event::Frame { stamp, storage_works, frame })
        }
        Record::Reset { stamp } => Some(Event::Reset { stamp }),
        _ => None,
    };
    records.iter().filter_map(event).collect()
}

/// A power-on stamp: zero, small, near the highest, or any.
pub fn power_on_stamp(random: &mut Random) -> u64 {
    match random.below(8) {
        0 | 1 => 0,
        2 => random.between(1, 100_000),
        3 => (1 << 31) - random.between(0, 20_000),
        4 => LAST_STAMP - random.between(0, 30_000),
        _ => random.between(0, LAST_STAMP),
    }
}

/// A log of a run of the host, at most so many records.
pub fn host_log(random: &mut Random, most: usize) -> Parts {
    let stamp = power_on_stamp(random);
    host_log_at(random, stamp, most)
}

/// A log of a run of the host: the accepted events of scenes and random steps
/// after a power-on at this stamp, at most so many.
pub fn host_log_at(random: &mut Random, stamp: u64, most: usize) -> Parts {
    let unit = any_unit(random);
    let mut host = Host::new(random.next());
    host.begin_run(Record::PowerOn { stamp: Stamp(stamp), unit }, most + most / 2);
    let all: Vec<Scene> = scenes::all();
    while !host.is_full() {
        let scene = host.random.pick(&all);
        scenes::play(&mut host, scene);
        let steps = host.random.between(0, 4);
        wander(&mut host, steps);
    }
    let mut events = accepted(stamp, &unit, &host.take_written());
    events.truncate(most);
    Parts::new(stamp, &unit, &events)
}

/// The accepted events among the records of a run.
fn accepted(power_on: u64, unit: &Unit, records: &[u8]) -> Vec<Event> {
    let mut monitor = Monitor::power_on(Stamp(power_on), unit).expect("a legal unit");
    let mut rest = records;
    let mut all = Vec::new();
    while let Some((record, size)) = decode(rest) {
        rest = &rest[size..];
        let taken = match &record {
            Record::Frame { stamp, storage_works, frame } => {
                monitor.frame(*stamp, *storage_works, frame).is_ok()
            }
            Record::Reset { stamp } => monitor.reset(*stamp).is_ok(),
            _ => false,
        };
        if taken {
            all.push(record);
        }
    }
    events(&all)
}
