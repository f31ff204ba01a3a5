//! Messages, and the frames that carry them.

use super::faults::{planted, which, Fault};
use super::version::{cut, Layout, Version};
use super::{first, PANELS, PAYLOAD};
use std::collections::BTreeMap;

/// A causal barrier: for each panel that it names, the deadline of a message of that panel.
pub type Barrier = BTreeMap<u8, u64>;

/// A message, known by its source and deadline, with its immediate predecessors, and the version of
/// its frame.
#[derive(Clone, Debug)]
pub struct Message {
    pub source: u8,
    pub deadline: u64,
    pub predecessors: Barrier,
    pub payload: Vec<u8>,
    pub version: Version,
}

const MARK: [u8; 3] = [0x44, 0x52, 0x59];
/// Bytes of the shortest frame of all.
const SHORTEST: usize = 19;

/// A number of several bytes, the highest first.
pub fn number(bytes: &[u8]) -> u64 {
    if planted(Fault::LowestByteFirst) {
        return bytes
            .iter()
            .rev()
            .fold(0, |number, byte| number << 8 | u64::from(*byte));
    }
    bytes
        .iter()
        .fold(0, |number, byte| number << 8 | u64::from(*byte))
}

/// Puts a number of so many bytes behind others.
fn put(bytes: &mut Vec<u8>, number: u64, width: usize) {
    let all = number.to_be_bytes();
    bytes.extend(&all[all.len() - width..]);
}

/// The panels of a mask, lowest first.
fn panels_of(mask: u64) -> Vec<u8> {
    let weight = |panel: u8| match planted(Fault::MaskFromTheTop) {
        true => 63 - panel,
        false => panel,
    };
    (0..PANELS)
        .filter(|panel| mask >> weight(*panel) & 1 == 1)
        .collect()
}

/// The entries of a frame, so many bytes each, for the panels of its mask.
fn entries_of(panels: &[u8], bytes: &[u8], each: usize) -> Barrier {
    let entries = bytes
        .chunks(each)
        .map(|entry| cut(number(entry), Fault::EntriesReadCut));
    match planted(Fault::EntriesHighestPanelFirst) {
        true => panels.iter().rev().copied().zip(entries).collect(),
        false => panels.iter().copied().zip(entries).collect(),
    }
}

/// Whether an entry is none that a frame of this deadline may have.
fn wrong_entry(entry: u64, deadline: u64) -> bool {
    let zero = entry == 0 && !planted(Fault::EntryZeroTaken);
    let late = match planted(Fault::EntryEqualToDeadlineTaken) {
        true => entry > deadline,
        false => entry >= deadline,
    };
    zero || late
}

/// Whether this is what a planted fault leaves of an entry that was removed from the barrier.
fn gone(entry: u64, fault: Fault) -> bool {
    entry == 0 && planted(fault)
}

impl Message {
    /// The message whose frame has these bytes, or the number of the first check that applies.
    pub fn read(bytes: &[u8]) -> Result<Message, u8> {
        if let Some(number) = first_check(bytes) {
            return Err(number);
        }
        let version = Version::of(bytes);
        let layout = Layout::of(version.unwrap_or(Version::Two));
        let (source, deadline) = (bytes[5], layout.deadline(bytes));
        let panels = panels_of(layout.mask(bytes));
        let length_at = layout.entries_at + layout.entry * panels.len();
        let last_source = PANELS - 1 + u8::from(planted(Fault::SourceSixtyFourTaken));
        let refusal = first([
            (2, bytes[..3] != MARK),
            (3, version.is_none()),
            short_of_version(bytes.len() < layout.shortest()),
            (4, source > last_source),
            (5, deadline == 0 && !planted(Fault::DeadlineZeroTaken)),
            (1, bytes.len() <= length_at),
        ]);
        let version = match (refusal, version) {
            (Some(number), _) => return Err(number),
            (None, version) => version.ok_or(3)?,
        };
        let entries = &bytes[layout.entries_at..length_at];
        let predecessors = entries_of(&panels, entries, layout.entry);
        let payload = payload_of(&predecessors, deadline, &bytes[length_at..])?;
        let (source, deadline) = match planted(Fault::OneReadingForAll) {
            true => (0, 1),
            false => (source, deadline),
        };
        Ok(Message {
            source,
            deadline,
            predecessors,
            payload,
            version,
        })
    }

    /// The bytes of the message's frame.
    pub fn frame(&self) -> Vec<u8> {
        let width = self.version.width();
        let mut bytes = MARK.to_vec();
        bytes.extend([0, self.version.number(), self.source]);
        put(
            &mut bytes,
            cut(self.deadline, Fault::DeadlineWrittenCut),
            width,
        );
        let mask = self
            .predecessors
            .iter()
            .filter(|(_, entry)| !gone(**entry, Fault::RemovedBytesStay))
            .fold(0, |mask: u64, (panel, _)| mask | 1 << panel);
        bytes.extend(mask.to_be_bytes());
        let mut entries: Vec<u64> = self.predecessors.values().copied().collect();
        entries.retain(|entry| !gone(*entry, Fault::RemovedBitStays));
        if planted(Fault::EntriesWrittenHighestPanelFirst) {
            entries.reverse();
        }
        for entry in entries {
            put(&mut bytes, cut(entry, Fault::EntriesWrittenCut), width);
        }
        bytes.push(self.payload.len() as u8);
        bytes.extend(&self.payload);
        bytes
    }
}

/// The first check: whether there are fewer bytes than in any frame. Planted faults come before it.
fn first_check(bytes: &[u8]) -> Option<u8> {
    let wrong_mark = bytes.get(..3).is_some_and(|mark| mark != MARK);
    match which() {
        Some(Fault::EveryFrameTurnedDown) => Some(2),
        Some(Fault::MarkBeforeLength) if wrong_mark => Some(2),
        _ => (bytes.len() < SHORTEST).then_some(1),
    }
}

/// The check directly after that of the version: whether there are fewer bytes than the shortest
/// frame of the version has.
fn short_of_version(short: bool) -> (u8, bool) {
    match planted(Fault::ShortOfTwoIsAnotherVersion) {
        true => (3, short),
        false => (1, short && !planted(Fault::ShortOfTwoLeftOut)),
    }
}

/// The payload, from the length byte on, or the number of the first check that applies from the
/// entries on.
fn payload_of(predecessors: &Barrier, deadline: u64, bytes: &[u8]) -> Result<Vec<u8>, u8> {
    let (length, rest) = (usize::from(bytes[0]), &bytes[1..]);
    let longest = PAYLOAD + usize::from(planted(Fault::PayloadLengthThirtyThreeTaken));
    let number = first([
        (
            6,
            predecessors
                .values()
                .any(|entry| wrong_entry(*entry, deadline)),
        ),
        (7, length > longest),
        (1, rest.len() < length),
        (
            8,
            rest.len() > length && !planted(Fault::BytesLeftOverTaken),
        ),
    ]);
    match number {
        Some(number) => Err(number),
        None => Ok(rest[..length].to_vec()),
    }
}
