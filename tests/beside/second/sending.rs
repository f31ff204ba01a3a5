//! Send and beacon: the source's code 9, with document 01's refusals in front.

use super::calls::short;
use super::faults::{planted, which, Fault};
use super::floor::During;
use super::log::Log;
use super::version::lower;
use super::{accepted, first, refused, Answer, Message, Panel, Version};
use super::{BEACON_LIFETIME, DEFAULT_LIFETIME, FRAME, LOG_RECORD, PAYLOAD};

/// The last deadline. Document 02, W-208: "24, and case 6 with it, now stand at
/// 18,446,744,073,709,551,615."
const LAST: u128 = 18_446_744_073_709_551_615;

/// What is sent. That it is a beacon makes a difference to planted faults only.
struct Note<'payload> {
    payload: &'payload [u8],
    lifetime: u16,
    beacon: bool,
}

impl Note<'_> {
    /// Whether this is a beacon, with this fault planted.
    fn wrong(&self, fault: Fault) -> bool {
        self.beacon && planted(fault)
    }

    /// The payload, which may be too long.
    fn payload(&self) -> &[u8] {
        match self.wrong(Fault::BeaconPayloadCut) {
            true => &self.payload[..self.payload.len().min(PAYLOAD)],
            false => self.payload,
        }
    }
}

/// How many seconds a lifetime stands for.
fn seconds(lifetime: u16) -> u64 {
    let meant = match lifetime {
        0 if planted(Fault::LifetimeZeroMeansZero) => 0,
        0 if planted(Fault::DefaultAsItWas) => 1200,
        0 => DEFAULT_LIFETIME,
        _ if planted(Fault::ShorterThanDefaultRaised) => lifetime.max(DEFAULT_LIFETIME),
        _ => lifetime,
    };
    u64::from(meant)
}

impl Panel {
    /// Sends a payload.
    pub fn send(
        &mut self,
        payload: &[u8],
        lifetime: u16,
        output: &mut [u8],
        frame: &mut [u8],
    ) -> Answer {
        let lifetime = match lifetime {
            BEACON_LIFETIME if planted(Fault::TwelveHundredMeansDefault) => DEFAULT_LIFETIME,
            _ => lifetime,
        };
        let note = Note {
            payload,
            lifetime,
            beacon: false,
        };
        self.send_note(&note, output, frame)
    }

    /// Sends the status beacon.
    pub fn beacon(&mut self, payload: &[u8], output: &mut [u8], frame: &mut [u8]) -> Answer {
        let lifetime = match planted(Fault::BeaconHasTheDefault) {
            true => 0,
            false => BEACON_LIFETIME,
        };
        let note = Note {
            payload,
            lifetime,
            beacon: true,
        };
        self.send_note(&note, output, frame)
    }

    fn send_note(&mut self, note: &Note, output: &mut [u8], frame: &mut [u8]) -> Answer {
        let deadline = self.next_deadline(note);
        let last = match which() {
            Some(Fault::LastDeadlineRefused) => LAST - 1,
            Some(Fault::DeadlinePastLastSent) => LAST + 1,
            Some(Fault::LastDeadlineAsItWas) => u128::from(u32::MAX),
            _ => LAST,
        };
        let longest = PAYLOAD + usize::from(planted(Fault::PayloadThirtyThreeSent));
        let number = first([
            (26, self.broken() && !note.wrong(Fault::BrokenSendsBeacons)),
            (10, self.short_of_room(note, output, frame)),
            (9, note.payload().len() > longest),
            (24, deadline > last),
            (32, self.wrongly_refused(note.beacon, deadline)),
        ]);
        match number {
            Some(number) => refused(number),
            None => self.accept(|panel| panel.broadcast(note, deadline as u64, output, frame)),
        }
    }

    /// Whether a buffer is too short.
    fn short_of_room(&self, note: &Note, output: &[u8], frame: &[u8]) -> bool {
        let least_frame = match which() {
            Some(Fault::BeaconFrameJustFits) if note.beacon => {
                Version::Two.length(self.barrier.len(), note.payload.len())
            }
            Some(Fault::FrameBufferOneByteShortTaken) => FRAME - 1,
            Some(Fault::FrameBufferAsItWas) => 307,
            _ => FRAME,
        };
        let short_output = match note.wrong(Fault::BeaconOutputOfOneRecord) {
            true => output.len() < LOG_RECORD,
            false => short(output),
        };
        short_output || frame.len() < least_frame
    }

    /// The deadline of a message sent now, without wrapping: it may be past the last.
    fn next_deadline(&self, note: &Note) -> u128 {
        let lifetime = seconds(note.lifetime);
        let by_clock = match which() {
            Some(Fault::DeadlineWraps) => u128::from(self.time.wrapping_add(lifetime)),
            Some(Fault::DeadlineIn32Bits) => u128::from(lower(self.time.wrapping_add(lifetime))),
            _ => u128::from(self.time) + u128::from(lifetime),
        };
        if planted(Fault::DeadlineByTheClockAlone) || note.wrong(Fault::BeaconByTheClockAlone) {
            return by_clock;
        }
        let above_high = match which() {
            Some(Fault::DeadlineNotAboveHigh) => u128::from(self.high),
            Some(Fault::AboveHighWraps) => u128::from(self.high.wrapping_add(1)),
            _ => u128::from(self.high) + 1,
        };
        let deadline = self.mistaken_deadline(by_clock.max(above_high), by_clock);
        match note.wrong(Fault::BeaconStopsAtTheLast) {
            true => deadline.min(LAST),
            false => deadline,
        }
    }

    /// The message sent now: its predecessors are the barrier as it is.
    fn next_message(&mut self, note: &Note, deadline: u64) -> Message {
        if planted(Fault::BarrierEmptiedBeforeFrame) || note.wrong(Fault::BeaconWithoutEntries) {
            self.barrier.clear();
        }
        let mut predecessors = std::mem::take(&mut self.left_over);
        predecessors.extend(&self.barrier);
        if planted(Fault::LapsedEntriesStripped) {
            predecessors.retain(|_, entry| !self.lapsed(*entry));
        }
        if planted(Fault::FloorEntriesStripped) {
            predecessors.retain(|_, entry| *entry > self.floor);
        }
        if planted(Fault::FarAheadEntriesStripped) {
            predecessors.retain(|_, entry| !self.far_ahead(*entry));
        }
        if planted(Fault::OwnMessageInItsBarrier) {
            predecessors.insert(self.own, deadline);
        }
        if planted(Fault::OwnEntryLeftOut) {
            predecessors.remove(&self.own);
        }
        let message = Message {
            source: self.own,
            deadline,
            predecessors,
            payload: note.payload().to_vec(),
            version: Version::Two,
        };
        let version = self.version_sent(note, &message);
        Message { version, ..message }
    }

    /// The version that a message is sent in: the second, but for planted faults.
    fn version_sent(&self, note: &Note, message: &Message) -> Version {
        match which() {
            Some(Fault::VersionOneSent) => Version::One,
            Some(Fault::BeaconOfVersionOne) if note.beacon => Version::One,
            Some(Fault::VersionOneSentWhereItFits) if message.fits_version_one() => Version::One,
            Some(Fault::VersionOfTheLastSent) => self.last_version,
            _ => Version::Two,
        }
    }

    /// Codes 2 and 9: writes the frame, empties the barrier, hands the own message and settles.
    fn broadcast(
        &mut self,
        note: &Note,
        deadline: u64,
        output: &mut [u8],
        frame: &mut [u8],
    ) -> Answer {
        let message = self.next_message(note, deadline);
        let bytes = message.frame();
        if planted(Fault::FrameBufferCleared) {
            frame.fill(0);
        }
        let written = bytes.len().min(frame.len());
        frame[..written].copy_from_slice(&bytes[..written]);
        if !planted(Fault::BarrierNotEmptied) {
            self.barrier.clear();
        }
        let mut log = Log::new(output);
        self.during = match note.beacon {
            true => During::Beacon,
            false => During::Send,
        };
        if planted(Fault::OwnMessageLast) {
            self.check_pending_messages(&mut log);
        }
        self.hand_own(note, &message, &mut log);
        self.drop_far_ahead(Fault::SendDropsFarAhead);
        if !planted(Fault::SendDoesNotSettle) && !note.wrong(Fault::BeaconDoesNotSettle) {
            self.check_pending_messages(&mut log);
        }
        accepted(log.count(), bytes.len())
    }

    /// Hands the own message.
    fn hand_own(&mut self, note: &Note, message: &Message, log: &mut Log) {
        let high = self.high;
        match note.wrong(Fault::BeaconNotLogged) {
            _ if note.wrong(Fault::BeaconNotHanded) => {}
            _ if planted(Fault::LapsedSendNotHanded) && self.lapsed(message.deadline) => {}
            true => self.perform_delivery(message, &mut Log::new(&mut [])),
            false => self.perform_delivery(message, log),
        }
        if planted(Fault::SendResetsFloor) {
            self.floor = 0;
        }
        if note.wrong(Fault::BeaconLeavesHigh) {
            self.high = high;
        }
        if note.wrong(Fault::BeaconLeavesBarrier) {
            self.barrier.clone_from(&message.predecessors);
        }
        if note.wrong(Fault::BeaconNotInBarrier) {
            self.barrier.remove(&self.own);
        }
    }
}
