//! A second implementation of the message module, written from document 01 with the changes of
//! document 02 and, for the algorithm, from codes 1 to 13 of source document 004. It shares nothing
//! with the module. Simple and slow code is preferred here over clever code.

mod ahead;
pub mod bundle;
mod calls;
mod delivery;
pub mod faults;
mod floor;
mod listing;
pub mod log;
mod message;
mod panel;
mod planting;
mod removal;
mod sending;
mod tracing;
mod version;

pub use listing::listing;
pub use message::{Barrier, Message};
pub use panel::{fresh, Panel};
pub use removal::Make;
pub use version::Version;

use faults::exchanged;
use std::fmt;

/// Panels of a farm, numbered from 0.
pub const PANELS: u8 = 64;
/// Messages that may wait at a panel.
pub const WAITING: usize = 32;
/// Bytes of the longest payload.
pub const PAYLOAD: usize = 32;
/// Bytes of a log record, those that an output has at least, and those that the frame buffer of a
/// send has at least and the longest frame has. Document 02, W-208: "A log record has 42 bytes; an
/// output needs 1,386 bytes and a frame buffer 567."
pub const LOG_RECORD: usize = 42;
pub const OUTPUT: usize = 1386;
pub const FRAME: usize = 567;
/// What lifetime 0 means. Document 02, W-203: "From now on 0 means 7,200."
pub const DEFAULT_LIFETIME: u16 = 7200;
/// The lifetime of a beacon. Document 02, W-203: "give it a call of its own, which answers in
/// everything as a send with lifetime 1,200".
pub const BEACON_LIFETIME: u16 = 1200;
/// How many seconds a received deadline may be above the time. Document 02, W-205: "A received
/// deadline above time + 1,209,600 (14 days) is now refused."
pub const FARTHEST_AHEAD: u64 = 1_209_600;

/// What the test for ready answers: whether the message is ready, and how many of its entries were
/// visited.
#[derive(Clone, Copy, Debug, PartialEq, Eq)]
pub struct Test {
    pub ready: bool,
    pub visited: usize,
}

/// What a call answers: 0 or the number of its refusal, how many log records stand in the output,
/// and how many bytes of a frame in the frame buffer. A trace answers its test for ready too.
#[derive(Clone, Copy, Debug, PartialEq, Eq)]
pub struct Answer {
    pub number: u8,
    pub count: usize,
    pub length: usize,
    pub test: Option<Test>,
}

impl fmt::Display for Answer {
    fn fmt(&self, text: &mut fmt::Formatter) -> fmt::Result {
        let Answer {
            number,
            count,
            length,
            test,
        } = self;
        match test {
            Some(Test { ready, visited }) => {
                write!(
                    text,
                    "trace: number {number}, ready {ready}, visited {visited}"
                )
            }
            None => write!(text, "number {number}, count {count}, length {length}"),
        }
    }
}

/// The answer of a call that is not refused.
fn accepted(count: usize, length: usize) -> Answer {
    Answer {
        number: 0,
        count,
        length,
        test: None,
    }
}

/// The answer of a refusal: every count and length beside the number is 0.
fn refused(number: u8) -> Answer {
    Answer {
        number,
        count: 0,
        length: 0,
        test: None,
    }
}

/// The number of the first check that applies. The checks stand in document 01's order.
fn first<const MANY: usize>(mut checks: [(u8, bool); MANY]) -> Option<u8> {
    if let Some((earlier, later)) = exchanged() {
        let mut places = 0..MANY;
        let one = places.find(|place| checks[*place].0 == earlier);
        let other = places.find(|place| checks[*place].0 == later);
        if let (Some(one), Some(other)) = (one, other) {
            checks.swap(one, other);
        }
    }
    let found = checks.iter().find(|(_, applies)| *applies);
    found.map(|(number, _)| *number)
}
