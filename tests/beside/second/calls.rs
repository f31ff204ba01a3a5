//! Receive and clock: the source's codes 5 and 11, with document 01's refusals in front. The call
//! that sets a clock back is in `floor.rs`.

use super::ahead::misplaced;
use super::delivery::raise;
use super::faults::{planted, which, Fault};
use super::floor::{During, Of};
use super::log::Log;
use super::version::{cut, lower};
use super::{accepted, first, refused, Answer, Message, Panel, OUTPUT, WAITING};

/// The checks of the state, in their order: the number, and whether it applies.
pub type Checks = [(u8, bool); 5];

/// Whether an output is too short.
pub fn short(output: &[u8]) -> bool {
    let least = match which() {
        Some(Fault::OutputOneByteShortTaken) => OUTPUT - 1,
        Some(Fault::OutputAsItWas) => 1254,
        _ => OUTPUT,
    };
    output.len() < least
}

impl Panel {
    /// Receives a frame.
    pub fn receive(&mut self, frame: &[u8], output: &mut [u8]) -> Answer {
        let reading = Message::read(frame);
        let turned_down = reading.as_ref().err().copied().unwrap_or(0);
        let mut checks = [
            (26, self.broken()),
            (10, short(output)),
            (turned_down, reading.is_err()),
        ];
        if planted(Fault::FrameBeforeShortOutput) {
            checks.swap(1, 2);
        }
        if self.refused_too_soon(frame, &reading) {
            return refused(32);
        }
        let message = match (first(checks), reading) {
            (Some(number), _) | (None, Err(number)) => return refused(number),
            (None, Ok(message)) => message,
        };
        let ready = self.test(&message).ready;
        match first(self.state_checks(&message, ready)) {
            Some(number) => {
                self.change_by_refusal(&message, number);
                refused(number)
            }
            None => self.accept(|panel| panel.take(message, ready, output)),
        }
    }

    /// What planted faults change by a refusal.
    fn change_by_refusal(&mut self, message: &Message, number: u8) {
        match (which(), number) {
            (Some(Fault::RefusedLapsedRaisesMark), 21) => {
                raise(&mut self.delivered, message.source, message.deadline)
            }
            (Some(Fault::RefusedLapsedRemoves), 21)
            | (Some(Fault::RefusedCopyRemoves), 22)
            | (Some(Fault::RefusedForRoomRemoves), 23) => self.remove_carried(message),
            (Some(Fault::RefusedRaisesFloor), 21) => self.floor = self.floor.max(message.deadline),
            (_, 32) => self.change_by_far_ahead(message),
            _ => {}
        }
    }

    /// Sets the time.
    pub fn clock(&mut self, reading: u64, output: &mut [u8]) -> Answer {
        let back = match which() {
            Some(Fault::SameReadingRefused) => reading <= self.time,
            Some(Fault::ClockGoesBack) => false,
            Some(Fault::SetBackWithoutFloor) => reading < self.time && self.keeps_floor,
            Some(Fault::ClockBackIn32Bits) => lower(reading) < lower(self.time),
            _ => reading < self.time,
        };
        match first([(26, self.broken()), (10, short(output)), (25, back)]) {
            Some(number) => refused(number),
            None => self.accept(|panel| panel.set_time(reading, output)),
        }
    }

    /// Changes the record by a call that is not refused.
    pub fn accept(&mut self, call: impl FnOnce(&mut Panel) -> Answer) -> Answer {
        match planted(Fault::RecordAsItCame) {
            true => call(&mut self.clone()),
            false => call(self),
        }
    }

    /// Codes 5 and 11: a message that is ready is handed, and any other waits. Then the panel
    /// settles.
    fn take(&mut self, message: Message, ready: bool, output: &mut [u8]) -> Answer {
        let mut log = Log::new(output);
        self.during = During::Receive;
        self.take_version_down(&message);
        if planted(Fault::SettledBeforeHanding) {
            self.check_pending_messages(&mut log);
        }
        let ready =
            ready && !planted(Fault::EveryMessageHeldBack) && !self.wrongly_held_back(&message);
        let on_arrival =
            planted(Fault::HandedOnArrival) || self.old_with(Fault::OldMakeHandsOnArrival);
        let asked = planted(Fault::RemovedByTheReceived);
        self.received = asked.then(|| message.predecessors.clone());
        match ready || on_arrival {
            true if planted(Fault::ReadyEntersTheList) => self.wait(message),
            true => self.perform_delivery(&message, &mut log),
            false => {
                if planted(Fault::WaitingRemoves) {
                    self.remove_carried(&message);
                }
                if planted(Fault::WaitingRaisesFloor) {
                    self.raise_floor(&message);
                }
                self.wait(message);
            }
        }
        self.drop_far_ahead(Fault::ReceiveDropsFarAhead);
        self.check_pending_messages(&mut log);
        self.received = None;
        accepted(log.count(), 0)
    }

    /// Whether the deadline of a message is at most its source's mark.
    pub fn logged(&self, message: &Message) -> bool {
        let mark = self.delivered.get(&message.source).copied().unwrap_or(0);
        match which() {
            Some(Fault::LoggedCopyTaken) => message.deadline < mark,
            Some(Fault::HadIn32Bits) => lower(message.deadline) <= lower(mark),
            Some(Fault::LoggedVersionsAreTwo) if self.taken_otherwise(message) => false,
            _ => message.deadline <= mark,
        }
    }

    /// Whether a message is waiting already.
    pub fn waits(&self, message: &Message) -> bool {
        let same = |one: u64, other: u64| match planted(Fault::WaitingIn32Bits) {
            true => lower(one) == lower(other),
            false => one == other,
        };
        let mut waiting = self.pending.iter().map(|pending| &pending.message);
        let waiting = waiting.any(|waiting| {
            waiting.source == message.source && same(waiting.deadline, message.deadline)
        });
        let two = planted(Fault::WaitingVersionsAreTwo) && self.taken_otherwise(message);
        waiting && !planted(Fault::WaitingCopyTaken) && !two || self.wrongly_had(message)
    }

    /// Why a readable message is turned down because of the state: the checks, in their order.
    pub fn state_checks(&self, message: &Message, ready: bool) -> Checks {
        let limits = self.limits_for(message.source);
        let lapsed = limits.lapsed(Of::Received, message.deadline);
        let full = self.pending.len() + self.lost_places >= WAITING
            || planted(Fault::FullWithPlacesFree)
            || planted(Fault::FullWithThirtyOne) && self.pending.len() + 1 == WAITING;
        misplaced([
            (
                20,
                message.source == self.own && !planted(Fault::OwnSourceTaken),
            ),
            (21, lapsed),
            (32, self.too_far_ahead(message, ready)),
            (22, self.logged(message) || self.waits(message)),
            (23, full && (!ready || planted(Fault::FullBeforeReady))),
        ])
    }

    /// Sets the time, drops the lapsed waiting messages and settles.
    fn set_time(&mut self, reading: u64, output: &mut [u8]) -> Answer {
        self.time = cut(reading, Fault::TimeCut);
        self.during = During::Clock;
        let mut log = Log::new(output);
        if planted(Fault::DroppedAfterSettling) {
            self.forget_expired_messages();
            self.check_pending_messages(&mut log);
        }
        self.drop_lapsed(&mut log);
        self.change_by_clock();
        self.forget_expired_messages();
        if !planted(Fault::ClockDoesNotSettle) {
            self.check_pending_messages(&mut log);
        }
        accepted(log.count(), 0)
    }

    /// The source's discard notice: lapsed waiting messages are dropped, and not handed.
    fn drop_lapsed(&mut self, log: &mut Log) {
        let limits = self.limits();
        let lapsed = |message: &Message| limits.lapsed(Of::Waiting, message.deadline);
        if planted(Fault::LapsedNotDropped) {
            return;
        }
        let waiting = self.pending.iter().map(|pending| &pending.message);
        let dropped: Vec<Message> = waiting.filter(|message| lapsed(message)).cloned().collect();
        self.pending.retain(|pending| !lapsed(&pending.message));
        for message in &dropped {
            match which() {
                Some(Fault::DroppedIsHanded) => self.perform_delivery(message, log),
                Some(Fault::DroppedRemoves) => self.remove_carried(message),
                Some(Fault::DroppedRaisesFloor) => self.floor = self.floor.max(message.deadline),
                Some(Fault::DroppedNeverTaken | Fault::TakenAgainHeldBack) => {
                    self.turned_down.push((message.source, message.deadline))
                }
                _ => {}
            }
        }
    }
}
