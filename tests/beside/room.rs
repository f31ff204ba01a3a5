//! The bytes that are lent to a call.

use crate::calls::Call;
use crate::random::Random;
use crate::second::LOG_RECORD;
use std::ops::Range;

/// Bytes before and behind the lent ones, at least.
const MARGIN: usize = 64;
const NAMES: [&str; 3] = ["input", "output", "frame buffer"];
const OUTPUT: usize = 1;
const FRAME: usize = 2;

/// A room in which input, output and frame buffer of a call lie, in any order and close together.
/// Nobody may touch the rest of the room.
#[derive(Clone, Default)]
pub struct Room {
    bytes: Vec<u8>,
    parts: [Range<usize>; 3],
}

impl Room {
    /// Makes room for a call: all is filled with random bytes, but for the input.
    pub fn lend(&mut self, call: &Call, random: &mut Random) {
        let lengths = [call.input().len(), call.output(), call.frame()];
        let mut order = [0, 1, 2];
        random.shuffle(&mut order);
        let mut place = MARGIN;
        for part in order {
            let start = place + random.below(9);
            place = start + lengths[part];
            self.parts[part] = start..place;
        }
        self.bytes.resize(place + MARGIN, 0);
        random.fill(&mut self.bytes);
        self.bytes[self.parts[0].clone()].copy_from_slice(call.input());
    }

    /// The same room again.
    pub fn lend_as(&mut self, other: &Room) {
        self.parts.clone_from(&other.parts);
        self.bytes.clone_from(&other.bytes);
    }

    pub fn output(&self) -> &[u8] {
        &self.bytes[self.parts[OUTPUT].clone()]
    }

    pub fn frame(&self) -> &[u8] {
        &self.bytes[self.parts[FRAME].clone()]
    }

    /// Input, output and frame buffer.
    pub fn lent(&mut self) -> [&mut [u8]; 3] {
        let mut order = [0, 1, 2];
        order.sort_by_key(|part| (self.parts[*part].start, self.parts[*part].end));
        let mut lent: [&mut [u8]; 3] = [&mut [], &mut [], &mut []];
        let (mut rest, mut place) = (&mut self.bytes[..], 0);
        for part in order {
            let Range { start, end } = self.parts[part].clone();
            let (before, behind) = rest.split_at_mut(end - place);
            lent[part] = &mut before[start - place..];
            (rest, place) = (behind, end);
        }
        lent
    }

    /// The words for the first byte in which the module's room, this one, differs from the second
    /// implementation's.
    pub fn difference(&self, second: &Room) -> Option<String> {
        if self.bytes == second.bytes {
            return None;
        }
        let mut pairs = self.bytes.iter().zip(&second.bytes);
        let place = pairs.position(|(one, other)| one != other)?;
        let bytes = format!(
            "module {:02x}, second {:02x}",
            self.bytes[place], second.bytes[place]
        );
        let part = (0..3).find(|part| self.parts[*part].contains(&place));
        let Some(part) = part else {
            return Some(format!("a byte beside the lent ones: {bytes}"));
        };
        let within = place - self.parts[part].start;
        Some(match part {
            OUTPUT => format!(
                "output byte {within}, log record {}: {bytes}",
                within / LOG_RECORD
            ),
            _ => format!("{} byte {within}: {bytes}", NAMES[part]),
        })
    }
}
