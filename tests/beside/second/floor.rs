//! Lapsed, the floor, and setting a clock back. Document 02, W-207: "Lapsed now means a deadline
//! below the time or at most the floor, and an entry is met in the same sense." The floor rises at
//! handing, "to the largest of the message's entries that had lapsed and that the mark of the
//! entry's panel, before this handing, had not reached".

use super::delivery::raise;
use super::faults::{planted, which, Fault};
use super::log::Log;
use super::version::{cut, lower};
use super::{accepted, first, refused, Answer, Make, Message, Panel};

/// Whose deadline is asked for. It makes a difference to planted faults only.
#[derive(Clone, Copy, PartialEq, Eq)]
pub enum Of {
    Received,
    Waiting,
    Entry,
}

/// The call that is made just now: planted faults ask for it.
#[derive(Clone, Copy, Debug, PartialEq, Eq)]
pub enum During {
    Send,
    Beacon,
    Receive,
    Clock,
}

/// What decides at a panel whether a deadline has lapsed.
#[derive(Clone, Copy)]
pub struct Limits {
    time: u64,
    floor: u64,
    make: Make,
}

impl Limits {
    /// Whether a deadline has lapsed: it is below the time or at most the floor.
    pub fn lapsed(self, of: Of, deadline: u64) -> bool {
        let at_equal_time = match which() {
            Some(Fault::LapsedAtEqualTime) => of == Of::Received,
            Some(Fault::DroppedAtEqualTime) => of == Of::Waiting,
            Some(Fault::EntryMetAtEqualTime) => of == Of::Entry,
            _ => false,
        };
        let below = match planted(Fault::LapsedIn32Bits) {
            true => lower(deadline) < lower(self.time),
            false => deadline < self.time,
        };
        let by_time = below || at_equal_time && deadline == self.time;
        let by_floor = self.asks_floor(of) && self.at_most_floor(deadline);
        match planted(Fault::LapsedByBoth) {
            true => by_time && by_floor,
            false => by_time || by_floor,
        }
    }

    /// Whether the floor is asked: always, but for planted faults.
    fn asks_floor(self, of: Of) -> bool {
        match which() {
            Some(Fault::FloorNotAsked) => false,
            Some(Fault::FloorNotAskedOfReceived) => of != Of::Received,
            Some(Fault::FloorNotAskedOfWaiting) => of != Of::Waiting,
            Some(Fault::FloorNotAskedOfEntries) => of != Of::Entry,
            Some(Fault::OldMakeAsksNoFloor) => self.make == Make::New,
            _ => true,
        }
    }

    fn at_most_floor(self, deadline: u64) -> bool {
        let floor = self.floor;
        match which() {
            Some(Fault::FloorItselfAlive) => deadline < floor,
            Some(Fault::OneAboveFloorLapsed) => deadline <= floor.saturating_add(1),
            Some(Fault::FloorPlusOneWraps) => deadline < floor.wrapping_add(1),
            Some(Fault::FloorWithASign) => deadline as i64 <= floor as i64,
            Some(Fault::FloorIn32Bits) => lower(deadline) <= lower(floor),
            _ => deadline <= floor,
        }
    }
}

impl Panel {
    pub fn limits(&self) -> Limits {
        Limits {
            time: self.time,
            floor: self.floor,
            make: self.make,
        }
    }

    /// The same for a message of this source that is received. The source makes a difference to a
    /// planted fault only.
    pub fn limits_for(&self, source: u8) -> Limits {
        let floor = match planted(Fault::FloorForEachSource) {
            true => self.largest_missed.get(&source).copied().unwrap_or(0),
            false => self.floor,
        };
        Limits {
            floor,
            ..self.limits()
        }
    }

    /// Whether an entry has lapsed.
    pub fn lapsed(&self, entry: u64) -> bool {
        self.limits().lapsed(Of::Entry, entry)
    }

    /// Raises the floor as a message is handed, before its mark is raised.
    pub fn raise_floor(&mut self, message: &Message) {
        if !self.keeps_floor {
            return;
        }
        let mut missed = message.predecessors.clone();
        missed.retain(|panel, entry| self.missed(*panel, *entry));
        let to = match which() {
            Some(Fault::SmallestMissed) => missed.values().min(),
            Some(Fault::FirstMissed) => missed.values().next(),
            Some(Fault::LastMissed) => missed.values().next_back(),
            _ => missed.values().max(),
        };
        let Some(to) = to.filter(|_| !self.floor_wrongly_stays(message)) else {
            return;
        };
        let to = match which() {
            Some(Fault::FloorRisesToDeadline) => message.deadline,
            Some(Fault::FloorRisesToTime) => self.time.saturating_sub(1).max(*to),
            _ => cut(*to, Fault::FloorCut),
        };
        for (panel, entry) in missed {
            raise(&mut self.largest_missed, panel, entry);
        }
        self.floor = match planted(Fault::FloorOverwritten) {
            true => to,
            false => self.floor.max(to),
        };
    }

    /// Whether an entry had lapsed, and the mark of its panel had not reached it.
    fn missed(&self, panel: u8, entry: u64) -> bool {
        let mark = self.delivered.get(&panel).copied().unwrap_or(0);
        let (lapsed, reached) = (self.lapsed(entry), mark >= entry);
        match which() {
            Some(Fault::ReachedRaisesFloor) => lapsed,
            Some(Fault::EqualToMarkRaisesFloor) => lapsed && mark <= entry,
            Some(Fault::AliveRaisesFloor) => !reached,
            Some(Fault::EachEntryRaisesFloor) => true,
            Some(Fault::BarrierAskedForFloor) => {
                lapsed && self.barrier.get(&panel).copied().unwrap_or(0) < entry
            }
            _ => lapsed && !reached,
        }
    }

    /// Whether a planted fault keeps the floor as it is, whatever was missed.
    fn floor_wrongly_stays(&self, message: &Message) -> bool {
        let own = message.source == self.own;
        match which() {
            Some(Fault::FloorNeverRises) => true,
            Some(Fault::FloorStaysOnArrival) => !self.settling && !own,
            Some(Fault::FloorStaysWhileSettling) => self.settling,
            Some(Fault::FloorStaysInClock) => self.during == During::Clock,
            Some(Fault::FloorStaysInSend) => self.during == During::Send,
            Some(Fault::FloorStaysInBeacon) => self.during == During::Beacon,
            Some(Fault::OldMakeFloorStays) => self.make == Make::Old,
            _ => false,
        }
    }

    /// Sets the time back, for service: "sets the time to the lower of its own and the reading, and
    /// hands and drops nothing".
    pub fn set_back(&mut self, reading: u64) -> Answer {
        let wrongly_refused = match which() {
            Some(Fault::SetBackRefusesHigher) => reading > self.time,
            Some(Fault::SetBackRefusesLower) => reading < self.time,
            _ => false,
        };
        let number = first([
            (26, self.broken() && !planted(Fault::SetBackForgetsBroken)),
            (25, wrongly_refused),
        ]);
        match number {
            Some(number) => refused(number),
            None => self.accept(|panel| panel.lower_time(reading)),
        }
    }

    /// Lowers the time. The source strikes predecessors off for good as they expire, since its
    /// clocks are never set back: what is left of them is found anew here.
    fn lower_time(&mut self, reading: u64) -> Answer {
        let before = self.time;
        self.time = match which() {
            Some(Fault::SetBackRaisesTime) => reading,
            Some(Fault::SetBackLeavesTime) => before,
            Some(Fault::SetBackStopsAboveFloor) => {
                before.min(reading.max(self.floor.saturating_add(1)))
            }
            Some(Fault::OldMakeNotSetBack) if self.make == Make::Old => before,
            _ => before.min(cut(reading, Fault::SetBackCut)),
        };
        if !planted(Fault::StruckOffForGood) {
            let messages = self.pending.iter().map(|pending| &pending.message);
            let left: Vec<_> = messages
                .map(|waits| self.predecessors_left(waits))
                .collect();
            for (pending, left) in self.pending.iter_mut().zip(left) {
                pending.left = left;
            }
        }
        self.change_by_set_back(before, reading);
        accepted(0, 0)
    }

    /// What planted faults change by a set back, before which this was the time.
    fn change_by_set_back(&mut self, before: u64, reading: u64) {
        let limits = self.limits();
        match which() {
            Some(Fault::SetBackDropsLapsed) => self
                .pending
                .retain(|pending| !limits.lapsed(Of::Waiting, pending.message.deadline)),
            Some(Fault::SetBackDropsAll) => self.pending.clear(),
            Some(Fault::SetBackSettles) => self.check_pending_messages(&mut Log::new(&mut [])),
            Some(Fault::SetBackResetsFloor) => self.floor = 0,
            Some(Fault::SetBackLowersFloor) => self.floor = self.floor.min(reading),
            Some(Fault::SetBackRaisesFloor) if reading < before => {
                self.floor = self.floor.max(before - 1)
            }
            Some(Fault::SetBackForgetsMarks) => self.delivered.retain(|_, mark| *mark <= reading),
            _ => {}
        }
    }

    /// Whether a planted fault answers 26 for the floor.
    pub fn broken_by_floor(&self) -> bool {
        match which() {
            Some(Fault::FloorAboveTimeIsBroken) => self.floor > self.time,
            Some(Fault::FloorAboveHighIsBroken) => self.floor > self.high,
            _ => false,
        }
    }
}
