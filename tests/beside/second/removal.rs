//! Shorter barriers. Document 02, W-204: "When a message is handed, each barrier entry that is at
//! most the entry this message carries for the same panel is removed, before the message's own goes
//! in." A panel of the old make removes nothing. All else here is for planted faults.

use super::delivery::raise;
use super::faults::{planted, which, Fault};
use super::version::lower;
use super::{Barrier, Message, Panel, PANELS};

/// The make of a panel: the old make hands as document 01 has it, the new make as W-204 has it.
#[derive(Clone, Copy, Debug, PartialEq, Eq)]
pub enum Make {
    Old,
    New,
}

impl Make {
    pub fn other(self) -> Make {
        match self {
            Make::Old => Make::New,
            Make::New => Make::Old,
        }
    }
}

/// The rule of W-204: whether a barrier entry is at most the one that a message carries for the
/// same panel.
fn at_most_carried(carried: &Barrier, panel: u8, entry: u64) -> bool {
    carried.get(&panel).is_some_and(|carried| entry <= *carried)
}

impl Panel {
    /// Whether this is a panel of the old make, with this fault planted.
    pub fn old_with(&self, fault: Fault) -> bool {
        self.make == Make::Old && planted(fault)
    }

    /// Removes the barrier entries that a message makes superfluous as it is handed.
    pub fn remove_carried(&mut self, message: &Message) {
        let carried = &message.predecessors;
        let goes = |panel: u8, entry: u64| {
            let by_the_rule = self.make == Make::New && at_most_carried(carried, panel, entry);
            let mistaken = match self.make {
                Make::Old => self.goes_from_old(message, panel, entry),
                Make::New => self.goes_from_new(message, panel, entry),
            };
            mistaken.unwrap_or(by_the_rule)
        };
        let entries = self.barrier.iter().map(|(panel, entry)| (*panel, *entry));
        let removed: Barrier = entries
            .filter(|(panel, entry)| goes(*panel, *entry))
            .collect();
        for panel in removed.keys() {
            self.barrier.remove(panel);
        }
        self.change_by_removal(carried, &removed);
    }

    /// Whether a barrier entry goes by a planted fault that comes in front of the rule.
    fn goes_from_new(&self, message: &Message, panel: u8, entry: u64) -> Option<bool> {
        let entries = &message.predecessors;
        let carried = entries.get(&panel).copied();
        let up_to = |limit: Option<u64>| Some(limit.is_some_and(|limit| entry <= limit));
        match which()? {
            Fault::EqualEntryStays => up_to(carried.map(|carried| carried - 1)),
            Fault::OnlyEqualEntryRemoved => Some(carried == Some(entry)),
            Fault::EntryOneAboveRemoved => up_to(carried.map(|carried| carried.saturating_add(1))),
            Fault::EntryAboveRemoved => Some(carried.is_some()),
            Fault::EntriesWithASign => {
                Some(carried.is_some_and(|carried| entry as i64 <= carried as i64))
            }
            Fault::RemovedIn32Bits => {
                Some(carried.is_some_and(|carried| lower(entry) <= lower(carried)))
            }
            Fault::RemovedByTheMark => up_to(self.delivered.get(&panel).copied()),
            Fault::RemovedByTheHighest => up_to(entries.values().max().copied()),
            Fault::RemovedByTheFirst => up_to(carried.and(entries.values().next().copied())),
            Fault::RemovedByTheDeadline => Some(entry <= message.deadline),
            Fault::NotCarriedRemoved => up_to(carried.or(Some(u64::MAX))),
            Fault::RemovedPlaceByPlace => {
                let place = self.barrier.keys().position(|named| *named == panel);
                up_to(place.and_then(|place| entries.values().nth(place).copied()))
            }
            Fault::PlaceTakenForPanel => up_to(entries.values().nth(usize::from(panel)).copied()),
            Fault::LapsedEntriesRemoved if self.lapsed(entry) => Some(true),
            Fault::RemovedByTheReceived if self.settling => {
                let received = self.received.as_ref();
                received.map(|received| at_most_carried(received, panel, entry))
            }
            _ => self.wrongly_stays(message, panel, entry).then_some(false),
        }
    }

    /// Whether a planted fault keeps a barrier entry, whatever the rule says.
    fn wrongly_stays(&self, message: &Message, panel: u8, entry: u64) -> bool {
        let entries = &message.predecessors;
        let carried = entries.get(&panel).copied().unwrap_or(0);
        match which() {
            Some(Fault::OldRuleAtNewPanel) => true,
            Some(Fault::SettlingRemovesNothing) => self.settling,
            Some(Fault::OnlySettlingRemoves) => !self.settling,
            Some(Fault::BarrierNotEmptied) => message.source == self.own,
            Some(Fault::FirstCarriedOnly) => entries.keys().next() != Some(&panel),
            Some(Fault::LastCarriedOnly) => entries.keys().next_back() != Some(&panel),
            Some(Fault::EntryOfPanelZeroStays) => panel == 0,
            Some(Fault::EntryOfLastPanelStays) => panel == PANELS - 1,
            Some(Fault::EntryOfOwnPanelStays) => panel == self.own,
            Some(Fault::LapsedEntryStays) => self.lapsed(entry),
            Some(Fault::LapsedCarriedRemovesNothing) => self.lapsed(carried),
            Some(Fault::MissingCarriedRemovesNothing) => {
                self.delivered.get(&panel).copied().unwrap_or(0) < carried
            }
            _ => false,
        }
    }

    /// Whether a barrier entry goes by a planted fault of panels of the old make.
    fn goes_from_old(&self, message: &Message, panel: u8, entry: u64) -> Option<bool> {
        let carried = &message.predecessors;
        match which()? {
            Fault::NewRuleAtOldPanel => Some(at_most_carried(carried, panel, entry)),
            Fault::OldMakeEmptiesAsItReceives => Some(message.source != self.own),
            Fault::OldMakeDropsTheLapsed => Some(self.lapsed(entry)),
            _ => None,
        }
    }

    /// What planted faults change by the removal of these entries.
    fn change_by_removal(&mut self, carried: &Barrier, removed: &Barrier) {
        match which() {
            Some(Fault::RemovedFromTheMarks) => self
                .delivered
                .retain(|panel, _| !removed.contains_key(panel)),
            Some(Fault::RemovedBecomesCarried) => {
                let entries = carried.iter();
                self.barrier
                    .extend(entries.filter(|(panel, _)| removed.contains_key(panel)));
            }
            Some(Fault::StayingBecomesTheMark) if self.make == Make::New => {
                for (panel, entry) in &mut self.barrier {
                    *entry = self.delivered.get(panel).copied().unwrap_or(*entry);
                }
            }
            Some(Fault::RemovedIsSent) => self.left_over.extend(removed),
            Some(Fault::RemovedIsZero | Fault::RemovedBitStays | Fault::RemovedBytesStay) => {
                let zeros = removed.keys().map(|panel| (*panel, 0));
                self.left_over.extend(zeros);
            }
            _ => {}
        }
    }

    /// What planted faults change in the barrier once the message's own is in.
    pub fn change_by_handing(&mut self, message: &Message) {
        match which() {
            Some(Fault::CarriedGoesIn) => {
                for (panel, entry) in &message.predecessors {
                    raise(&mut self.barrier, *panel, *entry);
                }
            }
            Some(Fault::OldMakeLeavesReceivedOut)
                if self.make == Make::Old && message.source != self.own =>
            {
                self.barrier.remove(&message.source);
            }
            Some(Fault::OldMakeKeepsTheHighest) if self.make == Make::Old => {
                let highest = self.barrier.values().max().copied();
                self.barrier.retain(|_, entry| Some(*entry) == highest);
            }
            _ => {}
        }
    }
}
