//! What the words of demand 3 say of one panel: its time, its floor, its log, and what was sent and
//! taken there. Document 02, W-207: "with a panel's time lowered by them, lapsed read this way, and
//! the floor counted from the frames sent and from time and log at each handing. A message dropped
//! while waiting counts as taken only from when it is next taken."

use crate::bits::Bits;
use std::collections::BTreeMap;

/// A message with the entries of its frame, and all messages before it in cause.
#[derive(Default)]
pub struct Message {
    pub source: u8,
    pub deadline: u64,
    pub entries: Vec<(u8, u64)>,
    pub before: Bits,
}

/// How often set backs and floors made a difference.
#[derive(Clone, Copy, Default)]
pub struct Floors {
    /// Set backs that lowered the time, and those that left it.
    pub lowered: u64,
    pub left: u64,
    /// Messages refused with 21 by the floor alone.
    pub refused: u64,
    /// Entries of messages that were handed, met by the floor alone.
    pub met: u64,
    /// Messages dropped while they waited, and those of them that were taken again.
    pub dropped: u64,
    pub taken_again: u64,
    /// Floors that rose in a receive, and in a clock call.
    pub risen_in_receive: u64,
    pub risen_in_clock: u64,
}

impl Floors {
    pub fn add(&mut self, more: Floors) {
        self.lowered += more.lowered;
        self.left += more.left;
        self.refused += more.refused;
        self.met += more.met;
        self.dropped += more.dropped;
        self.taken_again += more.taken_again;
        self.risen_in_receive += more.risen_in_receive;
        self.risen_in_clock += more.risen_in_clock;
    }
}

/// What the words say of one panel. Messages are known by their numbers.
#[derive(Clone, Default)]
pub struct At {
    pub time: u64,
    pub floor: u64,
    /// The panel's log, and the set of its messages.
    pub log: Vec<usize>,
    pub logged: Bits,
    /// The largest deadline in the log from each source.
    last: BTreeMap<u8, u64>,
    /// The messages of the log and all before them in cause.
    pub past: Bits,
    pub sent: Bits,
    pub taken: Bits,
    /// The messages taken that do not stand in the log.
    waiting: Vec<usize>,
    dropped: Bits,
    pub floors: Floors,
}

impl At {
    /// Lapsed at this panel: below the time, or at most the floor.
    pub fn lapsed(&self, deadline: u64) -> bool {
        deadline < self.time || deadline <= self.floor
    }

    /// Whether the log holds a message of this panel with this deadline or a later one.
    fn reached(&self, (panel, entry): (u8, u64)) -> bool {
        self.last.get(&panel).is_some_and(|last| *last >= entry)
    }

    /// A message of this name was refused with 21: by the floor alone, if its deadline is not below
    /// the time, and the log has not reached it.
    pub fn refused(&mut self, name: (u8, u64)) {
        let by_floor = name.1 >= self.time && !self.reached(name);
        self.floors.refused += u64::from(by_floor);
    }

    pub fn take(&mut self, number: usize) {
        self.floors.taken_again += u64::from(self.dropped.has(number));
        self.taken.insert(number);
        self.dropped.remove(number);
        if !self.waiting.contains(&number) {
            self.waiting.push(number);
        }
    }

    /// A clock call set the time. What waits and has lapsed then is dropped.
    pub fn clock(&mut self, reading: u64, messages: &[Message]) {
        self.time = reading;
        let (dropped, waiting) = std::mem::take(&mut self.waiting)
            .into_iter()
            .partition(|number| self.lapsed(messages[*number].deadline));
        self.waiting = waiting;
        for number in dropped {
            self.taken.remove(number);
            self.dropped.insert(number);
            self.floors.dropped += 1;
        }
    }

    pub fn set_back(&mut self, reading: u64) {
        match reading < self.time {
            true => self.floors.lowered += 1,
            false => self.floors.left += 1,
        }
        self.time = self.time.min(reading);
    }

    /// A message was handed: it stands in the log from now on. The floor comes first, as it goes by
    /// the log before this handing.
    pub fn hand(&mut self, number: usize, message: &Message) {
        let entries = message.entries.iter().copied();
        let missing = entries.filter(|entry| !self.reached(*entry));
        let missed = missing.filter(|(_, entry)| self.lapsed(*entry));
        let missed: Vec<u64> = missed.map(|(_, entry)| entry).collect();
        let by_floor = missed.iter().filter(|entry| **entry >= self.time);
        self.floors.met += by_floor.count() as u64;
        self.floor = missed.into_iter().fold(self.floor, u64::max);
        let last = self.last.entry(message.source).or_default();
        *last = message.deadline.max(*last);
        self.log.push(number);
        self.logged.insert(number);
        self.past.insert(number);
        self.past.join(&message.before);
        self.waiting.retain(|waiting| *waiting != number);
    }
}
