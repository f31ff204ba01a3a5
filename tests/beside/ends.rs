//! What an order of calls on one panel ends with, and in what two orders differ.

use crate::calls::Call;
use crate::compose;
use crate::hexadecimal;
use crate::kept::Kept;
use crate::second::log::LENGTH_AT;
use crate::second::LOG_RECORD;
use crate::side::{Found, Side};
use std::collections::BTreeSet;

/// Bytes of source and deadline, which stand next to each other in a log record and in the frame
/// of a waiting message.
const NAME: usize = LENGTH_AT;
/// What a receive of a frame that was sent answers, if the output is long enough.
const NUMBERS: [u8; 6] = [0, 20, 21, 22, 23, 32];

pub struct End {
    pub record: Kept,
    /// The log records, as they were written.
    pub log: Vec<Vec<u8>>,
    /// The number that each call answered.
    pub numbers: Vec<u8>,
}

fn same(name: &str, one: u64, other: u64) -> Result<(), String> {
    match one == other {
        true => Ok(()),
        false => Err(format!("{name}: {one} and {other}")),
    }
}

fn same_entries(name: &str, one: &[u64; 64], other: &[u64; 64]) -> Result<(), String> {
    match (0..64).find(|panel| one[*panel] != other[*panel]) {
        None => Ok(()),
        Some(panel) => same(&format!("{name} {panel}"), one[panel], other[panel]),
    }
}

/// Compares two lists of bytes as sets.
fn same_set(name: &str, one: &[Vec<u8>], other: &[Vec<u8>]) -> Result<(), String> {
    let (one, other): (BTreeSet<_>, BTreeSet<_>) = (one.iter().collect(), other.iter().collect());
    let Some(bytes) = one.symmetric_difference(&other).next() else {
        return Ok(());
    };
    let order = match one.contains(bytes) {
        true => "first",
        false => "second",
    };
    let bytes = hexadecimal::write(bytes);
    Err(format!("{name} of the {order} order alone: {bytes}"))
}

/// Whether no source and deadline, nine bytes, come twice.
fn once<'name>(name: &str, mut names: impl Iterator<Item = &'name [u8]>) -> Result<(), String> {
    let mut earlier = BTreeSet::new();
    match names.find(|name| !earlier.insert(*name)) {
        None => Ok(()),
        Some(twice) => Err(format!(
            "{name} {} is there twice",
            hexadecimal::write(twice)
        )),
    }
}

impl End {
    /// Makes the calls on a copy of a panel.
    pub fn of<S: Side>(side: &mut S, panel: &S::Panel, calls: &[Call]) -> Result<End, Found> {
        let mut copy = side.copy(panel);
        let (mut log, mut numbers) = (Vec::new(), Vec::new());
        for call in calls {
            let answer = side.call(&mut copy, call)?;
            let records = side.output().chunks_exact(LOG_RECORD).take(answer.count);
            log.extend(records.map(<[u8]>::to_vec));
            numbers.push(answer.number);
        }
        let record = side.record(&copy);
        Ok(End {
            record,
            log,
            numbers,
        })
    }

    /// Whether receives of frames that were sent may end so: no other refusal was answered, and no
    /// message waits twice, or stands twice in the log, of which `logged` says what was there.
    pub fn possible(&self, logged: impl Fn(u8, u64) -> bool) -> Result<(), String> {
        let other = self.numbers.iter().find(|number| !NUMBERS.contains(number));
        if let Some(number) = other {
            return Err(format!("a receive answered {number}"));
        }
        once(
            "waiting message",
            self.record.frames.iter().map(|frame| &frame[5..][..NAME]),
        )?;
        once("log record", self.log.iter().map(|record| &record[..NAME]))?;
        let stood = self.log.iter().find(|record| {
            let (source, deadline) = compose::name_logged(record);
            logged(source, deadline)
        });
        match stood {
            None => Ok(()),
            Some(record) => {
                let name = hexadecimal::write(&record[..NAME]);
                Err(format!("log record {name} was in the log already"))
            }
        }
    }
}

/// What two orders of calls end with.
pub struct Ends(pub [End; 2]);

impl Ends {
    /// Whether a call of one of them answered 23.
    pub fn full(&self) -> bool {
        self.0.iter().any(|end| end.numbers.contains(&23))
    }

    /// Whether both end with the same: equal numbers, and the same log records and waiting messages
    /// in whatever order.
    pub fn alike(&self) -> Result<(), String> {
        let [one, other] = &self.0;
        let (record, other_record) = (&one.record, &other.record);
        same("time", record.time, other_record.time)?;
        same("high", record.high, other_record.high)?;
        same("floor", record.floor, other_record.floor)?;
        same_entries("mark", &record.marks, &other_record.marks)?;
        same_entries("barrier entry", &record.barrier, &other_record.barrier)?;
        same_set("a log record", &one.log, &other.log)?;
        same_set("a waiting message", &record.frames, &other_record.frames)
    }

    /// Whether they end differently, though 23 was not answered.
    pub fn apart(&self) -> bool {
        !self.full() && self.alike().is_err()
    }
}
