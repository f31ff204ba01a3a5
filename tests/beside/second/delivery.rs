//! The test for ready, handing and settling: the source's codes 3, 4, 6, 7, 10, 12 and 13.

use super::faults::{planted, which, Fault};
use super::floor::{Limits, Of};
use super::log::Log;
use super::panel::Pending;
use super::version::{cut, lower};
use super::{Barrier, Message, Panel, Test, PANELS};
use std::cmp::Reverse;

/// The larger of the entry of a panel and this one becomes the entry.
pub fn raise(entries: &mut Barrier, panel: u8, entry: u64) {
    let raised = entries
        .get(&panel)
        .map_or(entry, |present| entry.max(*present));
    entries.insert(panel, raised);
}

/// Code 10: predecessors whose deadline is over are struck off.
fn expunge_expired_predecessors(left: &mut Barrier, limits: Limits) {
    left.retain(|_, entry| !limits.lapsed(Of::Entry, *entry));
}

/// Code 6: predecessors that were delivered are struck off.
fn expunge_delivered_predecessors(left: &mut Barrier, delivered: &Barrier) {
    let met = |panel: &u8, entry: u64| {
        delivered.get(panel).is_some_and(|mark| match which() {
            Some(Fault::EntryMetByEqualMarkOnly) => *mark == entry,
            Some(Fault::MetIn32Bits) => lower(*mark) >= lower(entry),
            _ => *mark >= entry,
        })
    };
    left.retain(|panel, entry| !met(panel, *entry));
}

/// Whether the test for ready looks at this entry: at each, but for planted faults.
fn tested(panel: u8, entries: &Barrier) -> bool {
    match which() {
        Some(Fault::LowestEntryTestedOnly) => entries.keys().next() == Some(&panel),
        Some(Fault::LowestBitNotTested) => panel > 0,
        Some(Fault::HighestBitNotTested) => panel < PANELS - 1,
        _ => true,
    }
}

/// The test for ready. Document 02, W-202: "Let it go from one set bit to the next, lowest first,
/// and also answer how many it visited: the set bits up to the first entry that is not met, that
/// one included, or all of them." The set bits are the panels of the entries, and the entries that
/// are not met are those left.
pub fn visit(entries: &Barrier, left: &Barrier) -> Test {
    let mut visited = 0;
    for panel in entries.keys().filter(|panel| tested(**panel, entries)) {
        visited += 1;
        if left.contains_key(panel) {
            let ready = false;
            return Test { ready, visited };
        }
    }
    let ready = true;
    Test { ready, visited }
}

impl Panel {
    /// The test for ready of a message that arrives.
    pub fn test(&self, message: &Message) -> Test {
        visit(&message.predecessors, &self.predecessors_left(message))
    }

    /// What is left of a message's predecessors (codes 5 and 11): the entries that are not met.
    pub fn predecessors_left(&self, message: &Message) -> Barrier {
        let mut left = message.predecessors.clone();
        if !planted(Fault::LapsedEntryWaitedFor) {
            expunge_expired_predecessors(&mut left, self.limits());
        }
        expunge_delivered_predecessors(&mut left, &self.delivered);
        if planted(Fault::FarAheadEntryMet) {
            left.retain(|_, entry| !self.far_ahead(*entry));
        }
        left
    }

    /// Code 3: hands a message.
    pub fn perform_delivery(&mut self, message: &Message, log: &mut Log) {
        let (source, deadline) = (message.source, message.deadline);
        let received = source != self.own;
        if !planted(Fault::MarkAfterHandingAsked) {
            self.raise_floor(message);
        }
        self.remove_carried(message);
        match planted(Fault::MarkOverwritten) {
            true => _ = self.delivered.insert(source, deadline),
            false => raise(&mut self.delivered, source, cut(deadline, Fault::MarkCut)),
        }
        match planted(Fault::BarrierOverwritten) {
            true => _ = self.barrier.insert(source, deadline),
            false if planted(Fault::BarrierNotRaisedByReceived) && received => {}
            false if planted(Fault::BarrierNotRaisedByOwn) && !received => {}
            false => raise(&mut self.barrier, source, cut(deadline, Fault::BarrierCut)),
        }
        self.change_by_handing(message);
        if planted(Fault::MarkAfterHandingAsked) {
            self.raise_floor(message);
        }
        if !(planted(Fault::HighNotRaisedByReceived) && received) {
            self.high = self.high.max(cut(deadline, Fault::HighCut));
        }
        log.write(message);
        self.forget_dependency(source, deadline);
    }

    /// Code 4: no pending message waits any longer for this one, nor for an earlier one of its
    /// source.
    fn forget_dependency(&mut self, source: u8, deadline: u64) {
        for pending in &mut self.pending {
            if pending
                .left
                .get(&source)
                .is_some_and(|entry| *entry <= deadline)
            {
                pending.left.remove(&source);
            }
        }
    }

    /// Code 12, but for the marks: these stay.
    pub fn forget_expired_messages(&mut self) {
        let limits = self.limits();
        for pending in &mut self.pending {
            expunge_expired_predecessors(&mut pending.left, limits);
        }
        if planted(Fault::LapsedMarksForgotten) {
            self.delivered
                .retain(|_, mark| !limits.lapsed(Of::Entry, *mark));
        }
    }

    /// Codes 7 and 13: settles the panel. Document 01 says which of several ready messages goes
    /// first.
    pub fn check_pending_messages(&mut self, log: &mut Log) {
        let held_back = self.old_with(Fault::OldMakeDoesNotSettle);
        if planted(Fault::EveryMessageHeldBack) || held_back {
            return;
        }
        if planted(Fault::OnePassOverTheList) {
            return self.pass_once(log);
        }
        self.settling = true;
        while let Some(place) = self.next_ready() {
            let pending = self.leave(place);
            self.perform_delivery(&pending.message, log);
            if planted(Fault::SettlingStopsAfterOne) {
                break;
            }
        }
        self.settling = false;
    }

    /// The place of the ready message that goes first: lowest deadline, then lowest source, then
    /// earliest in the list.
    fn next_ready(&self) -> Option<usize> {
        let places = (0..self.pending.len()).filter(|place| {
            let pending = &self.pending[*place];
            pending.ready() && !self.wrongly_held_back(&pending.message)
        });
        let known = |place: usize| {
            let message = &self.pending[place].message;
            (message.deadline, message.source)
        };
        if planted(Fault::HighestSourceFirst) {
            return places.min_by_key(|place| (known(*place).0, Reverse(known(*place).1)));
        }
        if planted(Fault::HighestDeadlineFirst) {
            return places.min_by_key(|place| (Reverse(known(*place).0), known(*place).1));
        }
        if planted(Fault::SourceBeforeDeadline) {
            return places.min_by_key(|place| (known(*place).1, known(*place).0));
        }
        if planted(Fault::LowestDeadlineIn32Bits) {
            return places.min_by_key(|place| (lower(known(*place).0), known(*place).1));
        }
        if planted(Fault::LatestInTheListFirst) {
            return places.min_by_key(|place| (known(*place), Reverse(*place)));
        }
        if planted(Fault::EarliestInTheListFirst) {
            return places.min();
        }
        places.min_by_key(|place| (known(*place), *place))
    }

    /// Takes the message at this place out of the list.
    fn leave(&mut self, place: usize) -> Pending {
        if planted(Fault::PlaceNotUsedAgain) {
            self.lost_places += 1;
        }
        match planted(Fault::LastIntoTheFreedPlace) {
            true => self.pending.swap_remove(place),
            false => self.pending.remove(place),
        }
    }

    /// A planted fault: settling goes over the list once.
    fn pass_once(&mut self, log: &mut Log) {
        let mut place = 0;
        while place < self.pending.len() {
            if self.pending[place].ready() {
                let pending = self.pending.remove(place);
                self.perform_delivery(&pending.message, log);
            } else {
                place += 1;
            }
        }
    }
}
