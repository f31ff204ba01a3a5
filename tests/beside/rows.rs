//! Counts that show that the lists do what they should, in rows.

use crate::calls::Call;
use crate::compose;
use crate::lists::Done;
use crate::module::Record;
use crate::second::Answer;
use crate::shadow::Seen;
use crate::words::Floors;

/// Counts, their words, and whether they have to come up in many calls.
pub type Rows = Vec<(u64, &'static str, bool)>;

/// What was seen beside shadows.
#[derive(Default)]
pub struct BesideShadows {
    calls: u64,
    /// Calls at panels that had been brought from one make to the other.
    brought: u64,
    frames: u64,
    /// Frames that were shorter than the shadow's, and by how many bytes.
    shorter: u64,
    bytes_less: u64,
    /// Calls that left a barrier entry that was neither the shadow's nor removed.
    lower: u64,
}

impl BesideShadows {
    pub fn add(&mut self, seen: &Seen) {
        let bytes_less = seen.shorter.unwrap_or(0);
        self.calls += 1;
        self.brought += u64::from(seen.brought);
        self.frames += u64::from(seen.shorter.is_some());
        self.shorter += u64::from(bytes_less > 0);
        self.bytes_less += bytes_less as u64;
        self.lower += u64::from(seen.lower);
    }

    pub fn rows(&self, forged: bool) -> Rows {
        vec![
            (self.calls, "calls", true),
            (
                self.brought,
                "calls at panels brought to the other make",
                true,
            ),
            (self.frames, "frames sent", true),
            (self.shorter, "frames shorter than the shadow's", true),
            (self.bytes_less, "bytes shorter, all together", true),
            (
                self.lower,
                "calls that left a lower barrier entry than the shadow's",
                forged,
            ),
        ]
    }
}

/// What was seen of floors in all parts, by the module's records before and after each call.
#[derive(Default)]
pub struct OfRecords {
    /// Calls that raised the floor: sends, beacons, receives and clock calls.
    rises: [u64; 4],
    /// Waiting messages that were dropped by the floor alone.
    dropped: u64,
}

impl OfRecords {
    pub fn add(&mut self, call: &Call, answer: Answer, before: &Record, after: &Record) {
        let kind = match call {
            Call::Send { .. } => 0,
            Call::Beacon { .. } => 1,
            Call::Receive { .. } => 2,
            Call::Clock { .. } => 3,
            Call::Trace { .. } | Call::SetBack { .. } => return,
        };
        self.rises[kind] += u64::from(after.floor > before.floor);
        if let (Call::Clock { reading, .. }, 0) = (call, answer.number) {
            let waiting = (0..before.count).map(|place| before.waiting(place));
            let deadlines = waiting.map(compose::deadline_of);
            let by_floor =
                deadlines.filter(|deadline| (*reading..=before.floor).contains(deadline));
            self.dropped += by_floor.count() as u64;
        }
    }

    pub fn rows(&self) -> Rows {
        let [in_send, in_beacon, in_receive, in_clock] = self.rises;
        vec![
            (in_send, "sends that raised the floor", true),
            (in_beacon, "beacons that raised the floor", true),
            (in_receive, "receives that raised the floor", true),
            (in_clock, "clock calls that raised the floor", true),
            (
                self.dropped,
                "waiting messages dropped by the floor alone",
                true,
            ),
        ]
    }
}

/// What set backs and floors came to in lists of demand 3.
pub fn of_floors(floors: Floors) -> Rows {
    vec![
        (floors.lowered, "set backs that lowered the time", true),
        (floors.left, "set backs that left it", true),
        (
            floors.risen_in_receive,
            "receives that raised the floor",
            true,
        ),
        (
            floors.risen_in_clock,
            "clock calls that raised the floor",
            true,
        ),
        (
            floors.refused,
            "messages refused with 21 by the floor alone",
            true,
        ),
        (floors.met, "entries met by the floor alone", true),
        (floors.dropped, "messages dropped while waiting", true),
        (floors.taken_again, "of them taken again", true),
    ]
}

/// What was done in lists.
pub fn of_lists(done: &Done) -> Rows {
    vec![
        (done.lists, "lists", false),
        (done.calls, "calls", false),
        (done.old_calls, "calls on panels of the old make", true),
        (
            done.no_floor_calls,
            "calls on panels that keep no floor",
            true,
        ),
        (done.brought, "panels brought to the other make", true),
        (
            done.new_took_old,
            "messages of old panels taken at new ones",
            true,
        ),
        (
            done.old_took_new,
            "messages of new panels taken at old ones",
            true,
        ),
        (done.sent_far_ahead, "messages sent far ahead", true),
        (done.taken_later, "messages taken after a 32", true),
        (done.claim_checks, "checks of demand 3's claims", false),
        (
            done.spoken.messages,
            "messages at panels that the last check of each list spoke of",
            false,
        ),
        (done.spoken.waiting, "of them waiting for others", false),
    ]
}

/// What was done in lists with frames of both versions.
pub fn of_versions(done: &Done) -> Rows {
    vec![
        (
            done.across_border,
            "messages sent above 4,294,967,295 that name one at most that",
            true,
        ),
        (done.version_1_taken, "messages taken in version 1", true),
        (
            done.other_version_waiting,
            "waiting messages refused with 22 in the other version",
            true,
        ),
        (
            done.other_version_logged,
            "logged messages refused with 22 in the other version",
            true,
        ),
    ]
}
