//! Counts what the made-up monitor cases meet. It reads the records back and
//! looks at the monitor before each of them.

use crate::codec::{over_limits, Frame};
use crate::monitor::{right_answer, Monitor, Settings, Stamp, State, Unit, CODES, COMMIT, UNLOCK};
use crate::monitor_cases::{decode, Bench, Record};
use crate::monitor_inputs::write_all;
use std::collections::BTreeMap;

/// How the monitor was last started.
type Started = &'static str;

/// The counts, and what has to be remembered from record to record.
#[derive(Default)]
struct Tally {
    counts: BTreeMap<String, usize>,
    bench: Bench,
    started: Started,
    former_receive: Option<u32>,
    /// The latest stamp of a question since the last accepted event.
    asked: Option<Stamp>,
    /// An over-limit frame has been refused past the silence of this session.
    refused_past_silence: bool,
    /// What dropped the last challenge, if it was an answer or a late unlock.
    dropped: &'static str,
    commits_of_run: usize,
}

const ACK: &str = " 3 41 43 4B 00 00 00 00 00 ";
const NAK: &str = " 3 4E 41 4B 00 00 00 00 00 ";

fn place(state: &State) -> &'static str {
    match state {
        State::Locked => "locked",
        State::Challenged { .. } => "challenged",
        State::InSession { .. } => "in session",
    }
}

fn around(gap: u64, limit: u64) -> bool {
    gap + 1 >= limit && gap <= limit + 1
}

/// The content of a frame that is not over the limits.
fn content(frame: &Frame) -> &[u8] {
    &frame.bytes[..usize::from(frame.length)]
}

impl Tally {
    /// The counts over the runs of a seed.
    fn of(seed: u64, runs: u64) -> Tally {
        let mut cases = Vec::new();
        write_all(seed, runs, &mut cases).unwrap();
        let mut tally = Tally::default();
        let mut rest = &cases[..];
        while let Some((record, size)) = decode(rest) {
            tally.take(&record);
            rest = &rest[size..];
        }
        assert!(rest.is_empty());
        tally.end_run();
        tally
    }

    fn count(&mut self, what: impl Into<String>) {
        *self.counts.entry(what.into()).or_default() += 1;
    }

    fn get(&self, what: &str) -> usize {
        self.counts.get(what).copied().unwrap_or(0)
    }

    fn take(&mut self, record: &Record) {
        self.count("records");
        let before = self.bench.monitor.clone();
        let line = self.bench.take(record);
        if line.starts_with("refused") {
            self.count(&line[..9]);
        }
        match record {
            Record::PowerOn { unit, .. } => self.power_on(before.as_ref(), unit, &line),
            Record::Challenge(_) => self.count("challenge to answer"),
            _ => self.event(&before.expect("P1 comes first"), record, &line),
        }
    }

    fn end_run(&mut self) {
        if self.commits_of_run >= 2 {
            self.count("runs with two stored commits or more");
        }
        self.commits_of_run = 0;
    }

    fn power_on(&mut self, before: Option<&Monitor>, unit: &Unit, line: &str) {
        self.end_run();
        self.count("runs");
        let answer = if line.starts_with("on") { "accepted" } else { "refused" };
        self.count(format!("power-on {answer}"));
        for special in specials(unit) {
            self.count(format!("power-on {answer}: {special}"));
        }
        if answer == "accepted" {
            self.started = "power-on";
            self.former_receive = None;
            self.forget();
        } else if let Some(monitor) = before {
            self.count(format!("power-on refused, {}", place(monitor.state())));
        }
    }

    /// Forgets what concerns one start only.
    fn forget(&mut self) {
        self.dropped = "";
        self.refused_past_silence = false;
        self.asked = None;
    }

    fn event(&mut self, before: &Monitor, record: &Record, line: &str) {
        let stamp = match record {
            Record::Frame { stamp, .. } | Record::Reset { stamp } | Record::Uptime { stamp } => {
                *stamp
            }
            _ => unreachable!(),
        };
        let what = what(before, record);
        self.stamps(before, stamp, what);
        if stamp < before.last_accepted() {
            return;
        }
        self.silences(before, stamp, what);
        match record {
            Record::Uptime { .. } => self.asked = self.asked.max(Some(stamp)),
            Record::Reset { .. } => self.reset(before, stamp),
            Record::Frame { frame, storage_works, .. } if what != "over limits" => {
                self.accepted(before, stamp);
                self.frame(before, stamp, frame, *storage_works, line);
            }
            _ => {}
        }
    }

    fn stamps(&mut self, before: &Monitor, stamp: Stamp, what: &str) {
        let last = before.last_accepted();
        if stamp == last {
            self.count(format!("stamp equal, {what}"));
        } else if stamp.0 + 1 == last.0 {
            self.count(format!("stamp one early, {what}"));
        } else if stamp < last {
            self.count(format!("stamp earlier still, {what}"));
        }
        if stamp.0 == 4_294_967_295 {
            self.count(format!("stamp highest, {what}"));
        }
    }

    fn silences(&mut self, before: &Monitor, stamp: Stamp, what: &str) {
        let State::InSession { last_heard, .. } = *before.state() else {
            return;
        };
        let gap = stamp.since(last_heard);
        if around(gap, 2_000) {
            self.count(format!("silence {gap}, {what}"));
            if before.last_accepted() > last_heard && what == "heard" {
                self.count(format!("silence {gap}, heard after unheard"));
            }
            if self.refused_past_silence && what == "heard" {
                self.count(format!("silence {gap}, heard after refused past it"));
            }
        }
        if gap > 2_000 && what == "over limits" {
            self.refused_past_silence = true;
        } else if what == "heard" || gap > 2_000 && what != "question" {
            self.refused_past_silence = false;
        }
        if last_heard.0 + 2_000 > 4_294_967_295 {
            self.count(format!("silence past 32 bits, {what}"));
        }
    }

    /// An accepted event: after a question at a later stamp, or after a silence.
    fn accepted(&mut self, before: &Monitor, stamp: Stamp) {
        if self.asked.take() > Some(stamp) {
            self.count("event before a question's stamp");
        }
        if let State::InSession { last_heard, .. } = *before.state() {
            if stamp.since(last_heard) > 2_000 {
                self.started = "silence";
                self.dropped = "";
            }
        }
    }

    fn reset(&mut self, before: &Monitor, stamp: Stamp) {
        self.accepted(before, stamp);
        let written = match before.state() {
            State::InSession { draft, .. } if draft != before.stored() => " after a write",
            _ => "",
        };
        self.count(format!("reset, {}{written}", place(before.state())));
        self.started = "reset";
        self.forget();
    }

    fn frame(&mut self, before: &Monitor, stamp: Stamp, frame: &Frame, works: bool, line: &str) {
        // The state in which it is met.
        let mut met = before.clone();
        let probe = Frame { extended: false, length: 0, identifier: 0, bytes: [0; 8] };
        met.frame(stamp, true, &probe).unwrap();
        let place = place(met.state());
        let receive = met.stored().receive;
        if !frame.extended && frame.identifier == receive {
            self.count(format!("standard with the right number, {place}"));
        }
        if frame.extended && frame.identifier.abs_diff(receive) == 1 {
            self.count(format!("neighbour identifier, {place}"));
        }
        if !(frame.extended && frame.identifier == receive) {
            if frame.extended && Some(frame.identifier) == self.former_receive {
                self.count(format!("former identifier used, {place}"));
            }
            return;
        }
        if self.former_receive.is_some() {
            self.count(format!("moved identifier used, {place}"));
        }
        if !works && content(frame) != COMMIT {
            self.count(format!("storage failing at another frame, {place}"));
        }
        self.content(place, content(frame), line);
        match *met.state() {
            State::InSession { draft, .. } => self.in_session(&met, &draft, frame, works, line),
            _ => self.outside(&met, stamp, frame, line),
        }
    }

    /// Lengths and near misses.
    fn content(&mut self, place: &str, content: &[u8], line: &str) {
        let length = content.len();
        if let Some(first) = content.first() {
            self.count(format!("{first:02X} length {length}, {place}"));
        } else {
            self.count(format!("length 0, {place}"));
        }
        for (name, whole) in [("unlock", UNLOCK), ("commit", COMMIT)] {
            let same = content.iter().zip(whole).filter(|(a, b)| **a == *b).count();
            if length == 3 && same == 2 {
                self.count(format!("{name} with a wrong byte, {place}"));
            } else if length != 3 && length >= 2 && same == length.min(3) {
                self.count(format!("{name} of length {length}, {place}"));
            } else if length == 3 && same == 3 {
                self.count(format!("{name}, {place}"));
            }
        }
        if let ("in session", [code, a, b, c, d]) = (place, content) {
            let answer = if line.contains(ACK) { "ACK" } else { "NAK" };
            self.count(format!("write {code:02X} {answer}"));
            let value = u32::from_be_bytes([*a, *b, *c, *d]);
            let rating = self.bench.monitor.as_ref().unwrap().rating();
            for (name, _) in values(rating).into_iter().filter(|(_, limit)| *limit == value) {
                self.count(format!("write {code:02X} of {name}"));
            }
        }
    }

    fn outside(&mut self, met: &Monitor, stamp: Stamp, frame: &Frame, line: &str) {
        let gap = stamp.since(met.last_start());
        let pending = matches!(met.state(), State::Challenged { .. });
        if content(frame) == UNLOCK {
            if around(gap, 10_000) {
                self.count(format!("unlock {gap} after {}", self.started));
            }
            if met.last_start().0 + 10_000 > 4_294_967_295 {
                self.count("unlock window past 32 bits");
            }
            if pending {
                let late = if gap > 10_000 { "late unlock drops" } else { "unlock replaces" };
                self.count(format!("{late} a pending challenge"));
            }
            self.dropped = if pending && gap > 10_000 { "late unlock" } else { "" };
        } else if content(frame).len() == 8 && frame.bytes[0] == 0x14 {
            self.answer(met, stamp, frame, line);
        }
    }

    fn answer(&mut self, met: &Monitor, stamp: Stamp, frame: &Frame, line: &str) {
        let State::Challenged { since } = *met.state() else {
            assert!(line.starts_with("no reply"));
            self.count("answer, nothing pending");
            if !self.dropped.is_empty() {
                self.count(format!("answer after {}", self.dropped));
            }
            return;
        };
        let mut right = [0x14; 8];
        right[1..].copy_from_slice(&right_answer(met.challenge()));
        let wrong: Vec<usize> = (0..8).filter(|&i| frame.bytes[i] != right[i]).collect();
        let gap = stamp.since(since);
        let name = if wrong.is_empty() { "right" } else { "wrong" };
        if around(gap, 2_000) {
            self.count(format!("answer {name} at {gap}"));
        }
        if let [byte] = wrong[..] {
            self.count(format!("answer wrong in byte {byte}"));
        }
        if since.0 + 2_000 > 4_294_967_295 {
            self.count(format!("answer {name}, limit past 32 bits"));
        }
        self.dropped = if line.contains(ACK) { "" } else { "a wrong or late one" };
    }

    fn in_session(
        &mut self,
        met: &Monitor,
        draft: &Settings,
        frame: &Frame,
        works: bool,
        line: &str,
    ) {
        if content(frame) != COMMIT {
            return;
        }
        self.started = if works { "commit" } else { "failing commit" };
        self.forget();
        if !works {
            assert!(line.contains(NAK));
            let same = if draft == met.stored() { "" } else { " with a changed draft" };
            return self.count(format!("commit NAK{same}"));
        }
        assert!(line.contains(ACK));
        self.commits_of_run += 1;
        self.count("commit ACK");
        for code in CODES {
            if draft.get(code) != met.stored().get(code) {
                self.count(format!("commit ACK that changed {code:02X}"));
            }
        }
        if draft.receive != met.stored().receive {
            self.former_receive = Some(met.stored().receive);
        }
    }
}

/// What a write of this value tries, for a monitor of this rating.
fn values(rating: u16) -> [(&'static str, u32); 20] {
    let rating = u32::from(rating);
    [
        ("0", 0),
        ("1", 1),
        ("rating - 1", rating - 1),
        ("rating", rating),
        ("rating + 1", rating + 1),
        ("1FFFFFFE", 0x1FFF_FFFE),
        ("1FFFFFFF", 0x1FFF_FFFF),
        ("20000000", 0x2000_0000),
        ("CA024F", 0x00CA_024F),
        ("CA0250", 0x00CA_0250),
        ("CA0251", 0x00CA_0251),
        ("CA04FF", 0x00CA_04FF),
        ("CA0500", 0x00CA_0500),
        ("CA0501", 0x00CA_0501),
        ("2147483646", 2_147_483_646),
        ("2147483647", 2_147_483_647),
        ("2147483648", 2_147_483_648),
        ("65535", 65_535),
        ("65536", 65_536),
        ("FFFFFFFF", 0xFFFF_FFFF),
    ]
}

/// What is at a limit in a power-on.
fn specials(unit: &Unit) -> Vec<&'static str> {
    let Settings { receive, transmit, speed, voltage, warning, fault } = unit.settings;
    let rating = u32::from(unit.rating);
    let all = [
        ("rating 0", rating == 0),
        ("rating 1", rating == 1),
        ("rating 65535", rating == 65_535),
        ("voltage 0", voltage == 0),
        ("voltage below the rating", voltage < rating && voltage + 1 == rating),
        ("voltage at the rating", rating > 0 && voltage == rating),
        ("receive 0", receive == 0),
        ("receive 1FFFFFFF", receive == 0x1FFF_FFFF),
        ("receive 20000000", receive == 0x2000_0000),
        ("transmit 0", transmit == 0),
        ("transmit 1FFFFFFF", transmit == 0x1FFF_FFFF),
        ("transmit 20000000", transmit == 0x2000_0000),
        ("equal identifiers", receive == transmit),
        ("speed 250", speed == 0x00CA_0250),
        ("speed 500", speed == 0x00CA_0500),
        ("wrong speed", speed != 0x00CA_0250 && speed != 0x00CA_0500),
        ("warning 0", warning == 0),
        ("warning 1", warning == 1),
        ("warning 2147483647", warning == 2_147_483_647),
        ("warning 2147483648", warning == 2_147_483_648),
        ("fault 0", fault == 0),
        ("fault 1", fault == 1),
        ("fault 2147483647", fault == 2_147_483_647),
        ("fault 2147483648", fault == 2_147_483_648),
    ];
    all.into_iter().filter(|(_, met)| *met).map(|(name, _)| name).collect()
}

/// What an event or question is, by the monitor it comes to.
fn what(before: &Monitor, record: &Record) -> &'static str {
    match record {
        Record::Frame { frame, .. } if over_limits(frame) => "over limits",
        Record::Frame { frame, .. } => {
            if frame.extended && frame.identifier == before.stored().receive {
                "heard"
            } else {
                "unheard"
            }
        }
        Record::Reset { .. } => "reset",
        _ => "question",
    }
}

const RUNS: u64 = 220;

/// The names of all limits and near misses that have to be met often.
fn limits() -> Vec<String> {
    let mut names = Vec::new();
    for gap in [1_999, 2_000, 2_001] {
        for what in ["heard", "unheard", "reset", "question", "over limits"] {
            names.push(format!("silence {gap}, {what}"));
        }
        names.push(format!("silence {gap}, heard after unheard"));
        names.push(format!("silence {gap}, heard after refused past it"));
        names.push(format!("answer right at {gap}"));
        names.push(format!("answer wrong at {gap}"));
    }
    for gap in [9_999, 10_000, 10_001] {
        for start in ["power-on", "reset", "commit", "failing commit", "silence"] {
            names.push(format!("unlock {gap} after {start}"));
        }
    }
    for byte in 1..8 {
        names.push(format!("answer wrong in byte {byte}"));
    }
    for what in ["heard", "unheard", "reset", "question", "over limits"] {
        for how in ["equal", "one early", "earlier still", "highest"] {
            names.push(format!("stamp {how}, {what}"));
        }
    }
    for name in [
        "answer, nothing pending",
        "answer after a wrong or late one",
        "answer after late unlock",
        "unlock replaces a pending challenge",
        "late unlock drops a pending challenge",
        "unlock window past 32 bits",
        "answer right, limit past 32 bits",
        "silence past 32 bits, heard",
        "silence past 32 bits, unheard",
        "silence past 32 bits, question",
        "commit NAK with a changed draft",
        "event before a question's stamp",
        "challenge to answer",
        "reset, locked",
        "reset, challenged",
        "reset, in session",
        "reset, in session after a write",
        "commit, locked",
        "commit, challenged",
        "unlock, in session",
        "commit of length 2, in session",
        "commit of length 4, in session",
        "commit of length 8, in session",
        "commit with a wrong byte, in session",
        "unlock with a wrong byte, locked",
        "unlock with a wrong byte, challenged",
    ] {
        names.push(name.to_string());
    }
    for place in ["locked", "challenged", "in session"] {
        names.push(format!("storage failing at another frame, {place}"));
        names.push(format!("neighbour identifier, {place}"));
        names.push(format!("former identifier used, {place}"));
        names.push(format!("moved identifier used, {place}"));
    }
    for code in CODES {
        names.push(format!("commit ACK that changed {code:02X}"));
        names.push(format!("write {code:02X} ACK"));
        names.push(format!("write {code:02X} NAK"));
    }
    names
}

#[test]
fn every_limit_is_met_often() {
    let tally = Tally::of(1, RUNS);
    for name in limits() {
        assert!(tally.get(&name) >= 20, "{name}: {}", tally.get(&name));
    }
    for length in [2, 4, 8] {
        let met = ["locked", "challenged"]
            .map(|place| tally.get(&format!("unlock of length {length}, {place}")));
        assert!(met[0] + met[1] >= 20 && met[0].min(met[1]) >= 5, "{length}: {met:?}");
    }
    let standard = ["locked", "challenged", "in session"]
        .map(|place| tally.get(&format!("standard with the right number, {place}")));
    assert!(standard.iter().all(|&met| met >= 15), "{standard:?}");
}

#[test]
fn other_seeds_meet_the_limits_too() {
    for seed in [2, 3, u64::MAX] {
        let tally = Tally::of(seed, RUNS);
        for name in limits() {
            assert!(tally.get(&name) >= 12, "seed {seed}, {name}: {}", tally.get(&name));
        }
    }
}

#[test]
fn sessions_succeed_often() {
    let tally = Tally::of(1, RUNS);
    assert_eq!(tally.get("runs"), 220);
    assert!(tally.get("records") > 22_000);
    assert!(tally.get("commit ACK") >= 600);
    assert!(tally.get("runs with two stored commits or more") >= 150);
    for refusal in ["refused 1", "refused 7", "refused 8"] {
        assert!(tally.get(refusal) >= 50, "{refusal}: {}", tally.get(refusal));
    }
    for place in ["locked", "challenged", "in session"] {
        assert!(tally.get(&format!("power-on refused, {place}")) >= 8, "{place}");
    }
}

/// Requests and codes of every length in every state, and every value worth
/// writing of every code.
#[test]
fn every_content_is_met() {
    let tally = Tally::of(1, RUNS);
    for place in ["locked", "challenged", "in session"] {
        assert!(tally.get(&format!("length 0, {place}")) >= 20);
        for first in [0x01, 0x07, 0x08, 0x09, 0x0A, 0x0B, 0x0C, 0xE0, 0xF0] {
            for length in 1..=8 {
                let name = format!("{first:02X} length {length}, {place}");
                assert!(tally.get(&name) > 0, "{name}");
            }
        }
    }
    for code in 0x14..=0x21 {
        for length in 1..=8 {
            let name = format!("{code:02X} length {length}, in session");
            assert!(tally.get(&name) > 0, "{name}");
        }
    }
    for code in CODES {
        for (value, _) in values(1) {
            let name = format!("write {code:02X} of {value}");
            assert!(tally.get(&name) > 0, "{name}");
        }
    }
}

#[test]
fn every_power_on_is_met() {
    let tally = Tally::of(1, RUNS);
    for special in [
        "rating 1",
        "rating 65535",
        "voltage 0",
        "voltage below the rating",
        "receive 0",
        "receive 1FFFFFFF",
        "transmit 0",
        "transmit 1FFFFFFF",
        "equal identifiers",
        "speed 250",
        "speed 500",
        "warning 1",
        "warning 2147483647",
        "fault 1",
        "fault 2147483647",
    ] {
        let name = format!("power-on accepted: {special}");
        assert!(tally.get(&name) >= 5, "{name}: {}", tally.get(&name));
    }
    for special in [
        "rating 0",
        "voltage at the rating",
        "receive 20000000",
        "transmit 20000000",
        "wrong speed",
        "warning 0",
        "warning 2147483648",
        "fault 0",
        "fault 2147483648",
    ] {
        let name = format!("power-on refused: {special}");
        assert!(tally.get(&name) >= 2, "{name}: {}", tally.get(&name));
    }
}
