//! The panels of a farm, each with what it needs to take part in a list.

use crate::bits::Bits;
use crate::calls::Call;
use crate::second::{Make, FARTHEST_AHEAD};
use crate::side::Kind;
use std::collections::HashMap;

/// A panel of the farm, with its clock and the frames that it can pass on.
pub struct Member<Panel> {
    pub panel: Panel,
    pub number: u8,
    pub make: Make,
    pub keeps_floor: bool,
    pub time: u64,
    /// What the panel's clock shows. It may go another way than that of other panels.
    pub clock: u64,
    /// What it would show, where it shows a wrong year.
    pub right: Option<u64>,
    pub held: Vec<usize>,
    holds: Bits,
    /// Frames that were refused here as far ahead.
    pub refused: Vec<usize>,
    /// The version in which a frame was taken here last.
    pub taken_in: HashMap<usize, u16>,
}

impl<Panel> Member<Panel> {
    pub fn new(panel: Panel, number: u8, kind: Kind, clock: u64) -> Self {
        Member {
            panel,
            number,
            make: kind.make,
            keeps_floor: kind.keeps_floor,
            time: 0,
            clock,
            right: None,
            held: Vec::new(),
            holds: Bits::default(),
            refused: Vec::new(),
            taken_in: HashMap::new(),
        }
    }

    pub fn holds(&self, frame: usize) -> bool {
        self.holds.has(frame)
    }

    pub fn hold(&mut self, frame: usize) {
        if !self.holds.has(frame) {
            self.holds.insert(frame);
            self.held.push(frame);
        }
    }

    /// A set back to a reading. A panel that keeps no floor has no such call: in its place comes a
    /// clock call that is refused, or leaves the time.
    pub fn set_back(&self, reading: u64) -> Call {
        match self.keeps_floor {
            true => Call::set_back(reading),
            false => Call::clock(reading.min(self.time)),
        }
    }

    /// Whether a deadline is far ahead at this panel.
    pub fn far_ahead(&self, deadline: u64) -> bool {
        deadline.saturating_sub(self.time) > FARTHEST_AHEAD
    }
}
