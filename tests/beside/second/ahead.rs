//! Deadlines far ahead. Document 02, W-205: "A received deadline above time + 1,209,600 (14 days)
//! is now refused. Messages already waiting or logged stay. A send may still pass that distance
//! when high forces it". So there is nothing but the check: all behind it is for planted faults,
//! and does nothing without one.

use super::calls::Checks;
use super::delivery::raise;
use super::faults::{planted, which, Fault};
use super::version::{lower, Layout, Version};
use super::{Message, Panel, FARTHEST_AHEAD};

impl Panel {
    /// The last deadline that is taken, without wrapping: it may be one that no frame can carry.
    fn farthest(&self) -> u128 {
        u128::from(self.time) + u128::from(FARTHEST_AHEAD)
    }

    /// Whether a deadline is far ahead.
    pub fn far_ahead(&self, deadline: u64) -> bool {
        u128::from(deadline) > self.farthest()
    }

    /// Whether 32 applies to a message: whether its deadline is far ahead, but for planted faults.
    pub fn too_far_ahead(&self, message: &Message, ready: bool) -> bool {
        let Panel {
            time, high, floor, ..
        } = *self;
        let deadline = message.deadline;
        let far = self.far_ahead(deadline);
        let above = |sum: u128| u128::from(deadline) > sum;
        let ahead_of = |time: u64, seconds: u64| above(u128::from(time) + u128::from(seconds));
        let distance = deadline.wrapping_sub(time);
        match which() {
            Some(Fault::FarAheadTaken | Fault::FarAheadWaits) => false,
            Some(Fault::FarthestAheadRefused) => above(self.farthest() - 1),
            Some(Fault::OneSecondFartherTaken) => above(self.farthest() + 1),
            Some(Fault::ThirteenDaysAhead) => ahead_of(time, 13 * 24 * 60 * 60),
            Some(Fault::FarthestAheadInMinutes) => ahead_of(time, 60 * FARTHEST_AHEAD),
            Some(Fault::FarAheadOfHigh) => ahead_of(high, FARTHEST_AHEAD),
            Some(Fault::FarAheadOfFloor) => ahead_of(time.max(floor), FARTHEST_AHEAD),
            Some(Fault::FarthestAheadWraps) => deadline > time.wrapping_add(FARTHEST_AHEAD),
            Some(Fault::FarthestAheadIn32Bits) => {
                deadline > lower(time.wrapping_add(FARTHEST_AHEAD))
            }
            Some(Fault::LastDeadlineFarAhead) => {
                deadline >= time.saturating_add(FARTHEST_AHEAD + 1)
            }
            Some(Fault::LapsedIsFarAhead) => distance > FARTHEST_AHEAD,
            Some(Fault::DistanceWithASign) => distance as i64 > FARTHEST_AHEAD as i64,
            Some(Fault::DistanceIn32Bits) => lower(distance) > FARTHEST_AHEAD,
            Some(Fault::FarAheadByTheEntries) => {
                let mut entries = message.predecessors.values();
                entries.any(|entry| self.far_ahead(*entry))
            }
            Some(Fault::FarAheadReadyTaken) => far && !ready,
            Some(Fault::FarAheadNotReadyTaken) => far && ready,
            Some(Fault::FarAheadTakenAtTimeZero) => far && time > 0,
            _ => far,
        }
    }

    /// Whether a planted fault refuses a frame with 32 ahead of the checks that come first.
    pub fn refused_too_soon(&self, frame: &[u8], reading: &Result<Message, u8>) -> bool {
        match (which(), reading) {
            (Some(Fault::FarAheadBeforeShortOutput), Ok(message)) => {
                let received = message.source != self.own;
                received && self.far_ahead(message.deadline) && !self.broken()
            }
            (Some(Fault::FarAheadBeforeEntries), Err(6..=8)) => {
                let layout = Layout::of(Version::of(frame).unwrap_or(Version::Two));
                self.far_ahead(layout.deadline(frame)) && !self.broken()
            }
            _ => false,
        }
    }

    /// Whether a planted fault keeps a ready message from being handed.
    pub fn wrongly_held_back(&self, message: &Message) -> bool {
        let far = planted(Fault::FarAheadWaits) || planted(Fault::FarAheadNeverHanded);
        far && self.far_ahead(message.deadline)
            || planted(Fault::TakenAgainHeldBack) && self.was_turned_down(message)
    }

    /// What planted faults change by a refusal with 32.
    pub fn change_by_far_ahead(&mut self, message: &Message) {
        let (source, deadline) = (message.source, message.deadline);
        match which() {
            Some(Fault::RefusedFarAheadRaisesHigh) => self.high = self.high.max(deadline),
            Some(Fault::RefusedFarAheadRaisesMark) => {
                self.high = self.high.max(deadline);
                raise(&mut self.delivered, source, deadline);
            }
            Some(Fault::RefusedFarAheadNeverTaken) => self.turned_down.push((source, deadline)),
            _ => {}
        }
    }

    /// Whether a message was refused with 32, or dropped, with a planted fault that never takes it
    /// then.
    pub fn wrongly_had(&self, message: &Message) -> bool {
        self.was_turned_down(message) && !planted(Fault::TakenAgainHeldBack)
    }

    /// Whether a message was refused with 32, or dropped, with a planted fault that asks for it.
    fn was_turned_down(&self, message: &Message) -> bool {
        self.turned_down
            .contains(&(message.source, message.deadline))
    }

    /// Drops waiting messages that are far ahead, if this fault is planted.
    pub fn drop_far_ahead(&mut self, fault: Fault) {
        if planted(fault) {
            let farthest = self.farthest();
            self.pending
                .retain(|pending| u128::from(pending.message.deadline) <= farthest);
        }
    }

    /// What planted faults change by a clock call.
    pub fn change_by_clock(&mut self) {
        let farthest = self.farthest();
        match which() {
            Some(Fault::FarAheadMarksForgotten) => self
                .delivered
                .retain(|_, mark| u128::from(*mark) <= farthest),
            Some(Fault::FarAheadHighLowered) => {
                self.high = u128::from(self.high).min(farthest) as u64
            }
            Some(Fault::ClockResetsFloor) => self.floor = 0,
            _ => self.drop_far_ahead(Fault::ClockDropsFarAhead),
        }
    }

    /// Whether a planted fault refuses a send or a beacon with 32.
    pub fn wrongly_refused(&self, beacon: bool, deadline: u128) -> bool {
        let fault = match beacon {
            true => Fault::BeaconRefusedFarAhead,
            false => Fault::SendRefusedFarAhead,
        };
        planted(fault) && deadline > self.farthest()
    }

    /// The deadline of a send, which is the first of these but for planted faults.
    pub fn mistaken_deadline(&self, deadline: u128, by_clock: u128) -> u128 {
        match which() {
            Some(Fault::SendStopsFarAhead) => deadline.min(self.farthest()),
            Some(Fault::SendAboveFloor) => deadline.max(u128::from(self.floor) + 1),
            Some(Fault::FarAheadHighLeftOut) if deadline > self.farthest() => by_clock,
            _ => deadline,
        }
    }

    /// Whether a planted fault answers 26 for what is far ahead in the record.
    pub fn wrongly_broken(&self) -> bool {
        match which() {
            Some(Fault::FarAheadWaitingIsBroken) => self
                .pending
                .iter()
                .any(|pending| self.far_ahead(pending.message.deadline)),
            Some(Fault::FarAheadMarkIsBroken) => {
                self.delivered.values().any(|mark| self.far_ahead(*mark))
            }
            _ => false,
        }
    }
}

/// The checks of the state, in which planted faults move the row of 32 or give it another number.
pub fn misplaced(mut checks: Checks) -> Checks {
    match which() {
        Some(Fault::FarAheadBeforeOwnSource) => checks[..3].rotate_right(1),
        Some(Fault::LapsedIsFarAhead) => checks.swap(1, 2),
        Some(Fault::HadBeforeFarAhead) => checks.swap(2, 3),
        Some(Fault::FullBeforeFarAhead) => checks[2].1 &= !checks[4].1,
        Some(Fault::FarAheadLast) => checks[2..].rotate_left(1),
        Some(Fault::FarAheadAsLapsed) => checks[2].0 = 21,
        Some(Fault::FarAheadAsHad) => checks[2].0 = 22,
        Some(Fault::FarAheadAsTooHigh) => checks[2].0 = 24,
        _ => {}
    }
    checks
}
