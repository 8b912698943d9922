//! Compares the two readings of the monitor that this program has: the machine
//! of three states and the history reading. The records are played through the
//! machine, which refuses what it refuses; what it accepts becomes the history,
//! and the history reading is then asked about each event and question.

use crate::codec::Frame;
use crate::history::{Event, History};
use crate::monitor::{Monitor, Settings, Stamp, Ticks, Unit};
use crate::monitor_cases::{decode, reply_part, stored_part, Record};
use crate::refusal::Refusal;
use std::collections::BTreeSet;
use std::fmt;
use std::io::{self, Write};

/// What one of the readings says of an event or a question.
#[derive(Clone, Copy, Debug, PartialEq, Eq)]
pub enum Said {
    /// After an accepted event: its reply, the six stored settings, the last
    /// start.
    Event { reply: Option<Frame>, stored: Settings, start: Stamp },
    /// To an uptime question that is not early: the ticks, and the start they
    /// are counted from.
    Uptime { ticks: Ticks, start: Stamp },
}

/// An accepted event or an answered question, and what the machine says of it.
#[derive(Clone, Copy, Debug)]
pub struct Seen {
    /// The power-on records up to it, refused ones too.
    run: usize,
    /// The records up to it, which is the number of its line in the answers.
    record: usize,
    /// The events accepted before it.
    before: usize,
    /// The stamp of a question; an event has its own.
    asked: Option<Stamp>,
    pub said: Said,
}

/// All that one monitor was given, and what the machine says of it.
#[derive(Clone, Debug)]
pub struct Played {
    power_on: Stamp,
    unit: Unit,
    events: Vec<Event>,
    pub seen: Vec<Seen>,
}

/// The records of a cases file, played through the machine for one monitor after
/// the other, each up to the power-on of the next.
pub struct Plays<'a> {
    /// What follows the records that were played.
    rest: &'a [u8],
    runs: usize,
    records: usize,
    refused: usize,
    /// "Before the first accepted power-on there is no monitor."
    playing: Option<(Monitor, Played)>,
}

/// A frame that is accepted but not heard: it is not extended.
const UNHEARD: Frame = Frame { extended: false, length: 0, identifier: 0, bytes: [0; 8] };

impl Iterator for Plays<'_> {
    type Item = Played;

    fn next(&mut self) -> Option<Played> {
        while let Some((record, size)) = decode(self.rest) {
            self.rest = &self.rest[size..];
            self.records += 1;
            match self.take(&record) {
                Ok(Some(played)) => return Some(played),
                Ok(None) => {}
                Err(_) => self.refused += 1,
            }
        }
        self.playing.take().map(|(_, played)| played)
    }
}

impl<'a> Plays<'a> {
    pub fn of(cases: &'a [u8]) -> Plays<'a> {
        Plays { rest: cases, runs: 0, records: 0, refused: 0, playing: None }
    }

    /// Takes a record; only what the machine accepts is kept. Gives what was
    /// played if the record is the power-on of the next monitor.
    fn take(&mut self, record: &Record) -> Result<Option<Played>, Refusal> {
        match *record {
            Record::PowerOn { stamp, ref unit } => return self.power_on(stamp, unit),
            Record::Frame { stamp, storage_works, frame } => {
                self.event(Event::Frame { stamp, storage_works, frame })?;
            }
            Record::Reset { stamp } => self.event(Event::Reset { stamp })?,
            Record::Uptime { stamp } => self.question(stamp)?,
            Record::Challenge(_) => {}
        }
        Ok(None)
    }

    fn power_on(&mut self, stamp: Stamp, unit: &Unit) -> Result<Option<Played>, Refusal> {
        self.runs += 1;
        let monitor = Monitor::power_on(stamp, unit)?;
        let played = Played { power_on: stamp, unit: *unit, events: vec![], seen: vec![] };
        Ok(self.playing.replace((monitor, played)).map(|(_, played)| played))
    }

    fn event(&mut self, event: Event) -> Result<(), Refusal> {
        let Some((monitor, played)) = &mut self.playing else {
            return Ok(());
        };
        let reply = match event {
            Event::Frame { stamp, storage_works, frame } => {
                monitor.frame(stamp, storage_works, &frame)?
            }
            Event::Reset { stamp } => {
                monitor.reset(stamp)?;
                None
            }
        };
        let said = Said::Event { reply, stored: *monitor.stored(), start: monitor.last_start() };
        let (run, record, before) = (self.runs, self.records, played.events.len());
        played.seen.push(Seen { run, record, before, asked: None, said });
        played.events.push(event);
        Ok(())
    }

    /// "An uptime question at a stamp returns ticks [...], silence counted, state
    /// unchanged". The start is that of a monitor which has met an event there.
    fn question(&mut self, stamp: Stamp) -> Result<(), Refusal> {
        let Some((monitor, played)) = &mut self.playing else {
            return Ok(());
        };
        let ticks = monitor.uptime(stamp)?;
        let mut other = monitor.clone();
        other.frame(stamp, true, &UNHEARD)?;
        let said = Said::Uptime { ticks, start: other.last_start() };
        let (run, record, before) = (self.runs, self.records, played.events.len());
        played.seen.push(Seen { run, record, before, asked: Some(stamp), said });
        Ok(())
    }
}

impl Played {
    /// Adds to the counts if the history reading says the same as the machine,
    /// else gives the first difference in words. The history reading is given the
    /// power-on and the events, nothing else.
    pub fn compare(&self, counts: &mut Counts) -> Result<(), String> {
        let history = History::new(self.power_on, &self.unit, &self.events);
        match self.first_difference(&history) {
            Some(difference) => Err(difference),
            None => {
                counts.add(self, &history);
                Ok(())
            }
        }
    }

    /// The first event or question of which the two say different things, and
    /// what they say, in words.
    fn first_difference(&self, history: &History) -> Option<String> {
        let seen = self.seen.iter().find(|seen| said_by(history, seen) != seen.said)?;
        let Seen { run, record, before, said, .. } = seen;
        Some(format!(
            "different in run {run}, record {record}, after {before} accepted events\n\
             {}\n\
             the history reading says: {}\n\
             the state machine says: {said}",
            self.what(seen),
            said_by(history, seen),
        ))
    }

    /// The event or question in words.
    fn what(&self, seen: &Seen) -> String {
        if let Some(Stamp(stamp)) = seen.asked {
            return format!("uptime question at {stamp}");
        }
        match self.events[seen.before] {
            Event::Frame { stamp: Stamp(stamp), storage_works, frame } => {
                let storage = if storage_works { "works" } else { "fails" };
                format!("frame at {stamp}, storage {storage}: {frame}")
            }
            Event::Reset { stamp: Stamp(stamp) } => format!("reset at {stamp}"),
        }
    }
}

/// What the history reading says of an event or question.
fn said_by(history: &History, seen: &Seen) -> Said {
    let i = seen.before;
    match seen.asked {
        None => Said::Event {
            reply: history.reply(i),
            stored: history.stored_before(i + 1),
            start: history.last_start_at(i + 1, history.stamp(i)),
        },
        // "ticks of ten milliseconds since the last start, rounded down"
        Some(stamp) => {
            let start = history.last_start_at(i, stamp);
            Said::Uptime { ticks: Ticks(stamp.since(start) / 10), start }
        }
    }
}

impl fmt::Display for Said {
    fn fmt(&self, f: &mut fmt::Formatter) -> fmt::Result {
        match self {
            Said::Event { reply, stored, start: Stamp(start) } => {
                write!(f, "{}{}, started at {start}", reply_part(*reply), stored_part(stored))
            }
            Said::Uptime { ticks: Ticks(ticks), start: Stamp(start) } => {
                write!(f, "ticks {ticks}, started at {start}")
            }
        }
    }
}

/// Counts of what was compared, by the history reading.
#[derive(Clone, Copy, Debug, Default, PartialEq, Eq)]
pub struct Counts {
    pub runs: usize,
    pub power_ons: usize,
    pub refused: usize,
    pub events: usize,
    pub heard: usize,
    pub resets: usize,
    pub replies: usize,
    pub questions: usize,
    pub sessions: usize,
    pub silent: usize,
    pub reset_sessions: usize,
    pub commits_stored: usize,
    pub commits_changing: usize,
    pub commits_failed: usize,
}

impl Counts {
    fn add(&mut self, played: &Played, history: &History) {
        let number = played.events.len();
        let count = |what: &dyn Fn(usize) -> bool| (0..number).filter(|&i| what(i)).count();
        let stored = |i: usize| history.changes_the_settings(i);
        self.power_ons += 1;
        self.events += number;
        self.questions += played.seen.iter().filter(|seen| seen.asked.is_some()).count();
        self.heard += count(&|i| history.heard(i));
        self.resets += count(&|i| history.is_reset(i));
        self.replies += count(&|i| history.reply(i).is_some());
        self.sessions += count(&|i| history.opens_a_session(i));
        let silent = (0..number).filter_map(|i| history.fallen_silent_after(i));
        self.silent += silent.collect::<BTreeSet<usize>>().len();
        self.reset_sessions += count(&|i| history.is_reset(i) && history.session(i).is_some());
        self.commits_stored += count(&stored);
        self.commits_changing +=
            count(&|i| history.stored_before(i) != history.stored_before(i + 1));
        self.commits_failed += count(&|i| history.is_commit_inside_a_session(i) && !stored(i));
    }
}

impl fmt::Display for Counts {
    fn fmt(&self, f: &mut fmt::Formatter) -> fmt::Result {
        write!(
            f,
            "{} runs, {} power-ons accepted, {} accepted events ({} heard, {} resets, \
             {} replies), {} uptime questions; {} sessions opened, {} fell silent, {} reset, \
             {} commits stored, {} of them with a changed setting, {} commits failed; \
             {} records refused",
            self.runs,
            self.power_ons,
            self.events,
            self.heard,
            self.resets,
            self.replies,
            self.questions,
            self.sessions,
            self.silent,
            self.reset_sessions,
            self.commits_stored,
            self.commits_changing,
            self.commits_failed,
            self.refused,
        )
    }
}

/// Plays the records of a cases file and compares: the counts, or the first
/// difference in words.
pub fn compare(cases: &[u8]) -> Result<Counts, String> {
    let mut plays = Plays::of(cases);
    let mut counts = Counts::default();
    for played in &mut plays {
        played.compare(&mut counts)?;
    }
    if !plays.rest.is_empty() {
        let (records, left) = (plays.records, plays.rest.len());
        return Err(format!("after {records} records come {left} bytes that are no record"));
    }
    Ok(Counts { runs: plays.runs, refused: plays.refused, ..counts })
}

/// Compares, and writes the counts or the difference. Gives whether the two
/// readings say the same.
pub fn compare_all(cases: &[u8], out: &mut impl Write) -> io::Result<bool> {
    let compared = compare(cases);
    match &compared {
        Ok(counts) => writeln!(out, "the same for {counts}")?,
        Err(difference) => writeln!(out, "{difference}")?,
    }
    Ok(compared.is_ok())
}
