//! The record of a panel, in the source's form: the causal barrier and what was delivered are maps,
//! and a pending message has a barrier of its own, from which predecessors are struck off.

use super::delivery::visit;
use super::faults::{planted, Fault};
use super::floor::During;
use super::version::lower;
use super::{Barrier, Make, Message, Version, PANELS, WAITING};
use crate::kept::Kept;
use std::borrow::Cow;

/// A message that waits, and its frame. The source strikes predecessors off as they are met or
/// expire: `left` are those that are not struck off yet. Document 01 keeps the message as it came.
#[derive(Clone, Debug)]
pub struct Pending {
    pub message: Message,
    pub left: Barrier,
    frame: Vec<u8>,
}

impl Pending {
    /// Whether the message is ready, by the same test as one that arrives.
    pub fn ready(&self) -> bool {
        visit(&self.message.predecessors, &self.left).ready
    }
}

/// A panel record.
#[derive(Clone, Debug)]
pub struct Panel {
    pub make: Make,
    pub own: u8,
    pub time: u64,
    pub high: u64,
    /// Document 02, W-207: "The record gains a floor, 0 at first."
    pub floor: u64,
    /// Whether the floor rises. In versions 0.5 and 0.6, which have none, it does not.
    pub keeps_floor: bool,
    /// The marks; a source without any has no entry.
    pub delivered: Barrier,
    pub barrier: Barrier,
    /// The waiting messages, in the order taken.
    pub pending: Vec<Pending>,
    /// How many more than 32 wait, in a broken record.
    excess: usize,
    /// How many waiting messages no readable frame carries, in a broken record.
    unreadable: usize,
    /// Places of the list that are never used again: none, but for a planted fault.
    pub lost_places: usize,
    /// Messages that are never taken, or never handed: none, but for planted faults.
    pub turned_down: Vec<(u8, u64)>,
    /// The panel settles just now, and in this call: planted faults ask for it.
    pub settling: bool,
    pub during: During,
    /// The entries of the message that is received just now: a planted fault asks for them.
    pub received: Option<Barrier>,
    /// What planted faults write into the next frame of entries that were removed.
    pub left_over: Barrier,
    /// For each panel the largest entry that was missed: a planted fault asks for it.
    pub largest_missed: Barrier,
    /// The messages that were taken, each with the version that it came in, and the last of these:
    /// planted faults ask for them.
    pub taken: Vec<(u8, u64, Version)>,
    pub last_version: Version,
}

/// A fresh panel of this make, and the number that it is answered with.
pub fn fresh(number: u8, make: Make) -> (Panel, u8) {
    let mut panel = Panel {
        make,
        own: number,
        time: 0,
        high: 0,
        floor: u64::from(planted(Fault::FreshFloorOne)),
        keeps_floor: true,
        delivered: Barrier::new(),
        barrier: Barrier::new(),
        pending: Vec::new(),
        excess: 0,
        unreadable: 0,
        lost_places: 0,
        turned_down: Vec::new(),
        settling: false,
        during: During::Receive,
        received: None,
        left_over: Barrier::new(),
        largest_missed: Barrier::new(),
        taken: Vec::new(),
        last_version: Version::Two,
    };
    let last = PANELS - 1 + u8::from(planted(Fault::FreshSixtyFourTaken));
    if number <= last {
        return (panel, 0);
    }
    if !planted(Fault::FreshRefusalKeepsNumber) {
        panel.own = 0;
    }
    (panel, 11)
}

/// The entries of 64 numbers, in which 0 says that a panel has none.
fn entries(numbers: &[u64; 64]) -> Barrier {
    let places = (0..PANELS).zip(numbers);
    places
        .filter(|(_, entry)| **entry != 0)
        .map(|(panel, entry)| (panel, *entry))
        .collect()
}

/// The 64 numbers of these entries.
fn numbers(entries: &Barrier) -> [u64; 64] {
    let mut numbers = [0; 64];
    for (panel, entry) in entries {
        numbers[usize::from(*panel) % 64] = *entry;
    }
    numbers
}

impl Panel {
    /// A record that was kept, whole or broken, at a panel of this make.
    pub fn kept(kept: &Kept, make: Make) -> Panel {
        let mut panel = Panel {
            own: kept.own,
            time: kept.time,
            high: kept.high,
            floor: kept.floor,
            delivered: entries(&kept.marks),
            barrier: entries(&kept.barrier),
            excess: kept.count.saturating_sub(WAITING),
            ..fresh(0, make).0
        };
        for frame in kept.frames.iter().take(kept.count) {
            match Message::kept(frame) {
                Some(message) => panel.wait(message),
                None => panel.unreadable += 1,
            }
        }
        panel
    }

    /// Puts a message to the end of the list.
    pub fn wait(&mut self, message: Message) {
        let came_in = message.version;
        let message = message.widened();
        let left = self.predecessors_left(&message);
        let mut frame = message.frame();
        if planted(Fault::WidenedVersionStays) {
            frame[4] = came_in.number();
        }
        let pending = Pending {
            message,
            left,
            frame,
        };
        match planted(Fault::NewestFirstInTheList) {
            true => self.pending.insert(0, pending),
            false => self.pending.push(pending),
        }
    }

    /// Whether the record is broken, in the words of 26.
    pub fn broken(&self) -> bool {
        let last = PANELS - 1 + u8::from(planted(Fault::OwnNumberSixtyFourLetThrough));
        let above = |entries: &Barrier| entries.values().any(|entry| self.above_high(*entry));
        let excess = self
            .excess
            .saturating_sub(usize::from(planted(Fault::ThirtyThreeLetThrough)));
        self.own > last
            || above(&self.delivered) && !planted(Fault::MarkAboveHighLetThrough)
            || above(&self.barrier) && !planted(Fault::BarrierAboveHighLetThrough)
            || excess > 0
            || self.unreadable > 0 && !planted(Fault::UnreadableLetThrough)
            || self.wrongly_broken()
            || self.broken_by_floor()
    }

    fn above_high(&self, entry: u64) -> bool {
        match planted(Fault::BrokenIn32Bits) {
            true => lower(entry) > lower(self.high),
            false => entry > self.high,
        }
    }

    /// The 64 marks.
    pub fn marks(&self) -> [u64; 64] {
        numbers(&self.delivered)
    }

    /// The 64 barrier entries.
    pub fn barrier_entries(&self) -> [u64; 64] {
        numbers(&self.barrier)
    }

    /// How many messages are waiting.
    pub fn count(&self) -> usize {
        self.pending.len()
    }

    /// The frame of the waiting message at this place.
    pub fn waiting(&self, place: usize) -> Cow<'_, [u8]> {
        let pending = &self.pending[place];
        if planted(Fault::StruckEntriesLost) {
            let mut message = pending.message.clone();
            message.predecessors = pending.left.clone();
            return Cow::Owned(message.frame());
        }
        Cow::Borrowed(&pending.frame)
    }
}
