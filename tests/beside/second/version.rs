//! The versions of frames. Document 02, W-208: "Frame version 2 has 8-byte deadlines and entries,
//! hence at least 23 bytes; fewer are 1, directly after the version check. Version 1 is still read,
//! with the same values; sends write version 2, and a record keeps no version."

use super::faults::{planted, which, Fault};
use super::message::number;
use super::{Message, Panel};
use std::ops::Range;

#[derive(Clone, Copy, Debug, PartialEq, Eq)]
pub enum Version {
    One,
    Two,
}

/// Where the version of a frame stands, and its deadline.
const VERSION_AT: Range<usize> = 3..5;
const DEADLINE_AT: usize = 6;
/// Bytes of the mask.
const MASK: usize = 8;

impl Version {
    /// The version of a frame, if it is one of the two.
    pub fn of(frame: &[u8]) -> Option<Version> {
        let number = match planted(Fault::VersionByItsLowByte) {
            true => number(&frame[VERSION_AT][1..]),
            false => number(&frame[VERSION_AT]),
        };
        match number {
            1 if planted(Fault::VersionOneNotRead) => None,
            1 => Some(Version::One),
            2 if planted(Fault::VersionTwoNotRead) => None,
            2 => Some(Version::Two),
            3 if planted(Fault::VersionThreeTaken) => Some(Version::Two),
            _ => None,
        }
    }

    pub fn number(self) -> u8 {
        match self {
            Version::One => 1,
            Version::Two => 2,
        }
    }

    fn other(self) -> Version {
        match self {
            Version::One => Version::Two,
            Version::Two => Version::One,
        }
    }

    /// Bytes of a deadline, and of an entry.
    pub fn width(self) -> usize {
        match self {
            Version::One => 4,
            Version::Two => 8,
        }
    }

    /// Bytes of a frame with so many entries and so long a payload.
    pub fn length(self, entries: usize, payload: usize) -> usize {
        Layout::of(self).entries_at + entries * self.width() + 1 + payload
    }
}

/// Where the parts of a frame stand that a version decides on.
pub struct Layout {
    deadline: Range<usize>,
    mask: Range<usize>,
    pub entries_at: usize,
    /// Bytes of an entry.
    pub entry: usize,
}

/// The number at this place of a frame, 0 if it is not there whole.
fn number_at(frame: &[u8], place: Range<usize>) -> u64 {
    frame.get(place).map_or(0, number)
}

impl Layout {
    pub fn of(version: Version) -> Layout {
        let mask_at = DEADLINE_AT + version.width();
        let mut layout = Layout {
            deadline: DEADLINE_AT..mask_at,
            mask: mask_at..mask_at + MASK,
            entries_at: mask_at + MASK,
            entry: version.width(),
        };
        match (which(), version) {
            (Some(Fault::VersionOneDeadlineInEight), Version::One) => {
                layout.deadline = DEADLINE_AT..DEADLINE_AT + 8
            }
            (Some(Fault::VersionOneEntriesInEight), Version::One) => layout.entry = 8,
            (Some(Fault::VersionTwoEntriesInFour), Version::Two) => layout.entry = 4,
            (Some(Fault::MaskWhereItWas), Version::Two) => {
                layout.mask = DEADLINE_AT + 4..DEADLINE_AT + 4 + MASK
            }
            _ => {}
        }
        layout
    }

    pub fn deadline(&self, frame: &[u8]) -> u64 {
        cut(
            number_at(frame, self.deadline.clone()),
            Fault::DeadlineReadCut,
        )
    }

    pub fn mask(&self, frame: &[u8]) -> u64 {
        number_at(frame, self.mask.clone())
    }

    /// Bytes of the shortest frame.
    pub fn shortest(&self) -> usize {
        match planted(Fault::ShortestOfTwoForBoth) {
            true => Layout::of(Version::Two).entries_at + 1,
            false => self.entries_at + 1,
        }
    }
}

/// The same number, but for a planted fault that keeps its lower 32 bits.
pub fn cut(number: u64, fault: Fault) -> u64 {
    match planted(fault) {
        true => lower(number),
        false => number,
    }
}

/// The lower 32 bits of a number: planted faults ask for them.
pub fn lower(number: u64) -> u64 {
    number & u64::from(u32::MAX)
}

/// What planted faults make of a number of version 1 that is widened.
fn widened(number: u64) -> u64 {
    match which() {
        Some(Fault::WideningLosesHighestByte) => number & 0x00ff_ffff,
        Some(Fault::WideningShifts) => number << 32,
        Some(Fault::WideningWithASign) => number as u32 as i32 as i64 as u64,
        _ => number,
    }
}

impl Message {
    /// The message that waits as this frame in a record, if it is one: "a record keeps no version".
    pub fn kept(frame: &[u8]) -> Option<Message> {
        let message = Message::read(frame).ok()?;
        let let_through = planted(Fault::VersionOneInASlotLetThrough);
        (message.version == Version::Two || let_through).then_some(message)
    }

    /// The message as it waits: in version 2, with the same values.
    pub fn widened(mut self) -> Message {
        if self.version == Version::One {
            self.deadline = widened(self.deadline);
            let entries = self.predecessors.values_mut();
            entries.for_each(|entry| *entry = widened(*entry));
        }
        if !planted(Fault::VersionOneKept) {
            self.version = Version::Two;
        }
        self
    }

    /// Whether version 1 has room for the deadline, and with it for the entries.
    pub fn fits_version_one(&self) -> bool {
        self.deadline == lower(self.deadline)
    }
}

impl Panel {
    /// Takes the version of a message down that is taken: planted faults ask for it.
    pub fn take_version_down(&mut self, message: &Message) {
        self.last_version = message.version;
        if planted(Fault::WaitingVersionsAreTwo) || planted(Fault::LoggedVersionsAreTwo) {
            let (source, deadline) = (message.source, message.deadline);
            self.taken.push((source, deadline, message.version));
        }
    }

    /// Whether a message was taken in the other version alone, where that was taken down.
    pub fn taken_otherwise(&self, message: &Message) -> bool {
        let (source, deadline) = (message.source, message.deadline);
        let taken_in = |version| self.taken.contains(&(source, deadline, version));
        taken_in(message.version.other()) && !taken_in(message.version)
    }
}
