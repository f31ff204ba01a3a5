//! Bundles: runs of frames, each behind its length in 16 bits.

use super::faults::{planted, Fault};
use super::message::number;

/// What the reader of a bundle gives.
#[derive(Clone, Copy, Debug, PartialEq, Eq)]
pub enum Kind {
    Frame,
    End,
    Broken,
}

/// A step of the reader: what it gives, the part that the frame occupies, and the place after it.
#[derive(Clone, Copy, Debug, PartialEq, Eq)]
pub struct Step {
    pub kind: Kind,
    pub start: usize,
    pub length: usize,
    pub next: usize,
}

/// The step of a reader at this place that gives no frame: the place stays.
fn without_frame(bundle: &[u8], kind: Kind, place: usize) -> Step {
    let moved = planted(Fault::BrokenMovesThePlace) && kind == Kind::Broken;
    Step {
        kind,
        start: 0,
        length: 0,
        next: if moved { bundle.len() } else { place },
    }
}

/// The step of a reader at this place.
pub fn step(bundle: &[u8], place: usize) -> Step {
    let end = match planted(Fault::EndIsBroken) {
        true => Kind::Broken,
        false => Kind::End,
    };
    let past = match planted(Fault::PlacePastTheEndIsEnd) {
        true => Kind::End,
        false => Kind::Broken,
    };
    if place >= bundle.len() {
        let kind = if place == bundle.len() { end } else { past };
        return without_frame(bundle, kind, place);
    }
    let left = &bundle[place..];
    if left.len() < 2 {
        return without_frame(bundle, Kind::Broken, place);
    }
    let length = number(&left[..2]) as usize;
    let empty = length == 0 && planted(Fault::EmptyFrameIsBroken);
    if left.len() - 2 < length || empty {
        return without_frame(bundle, Kind::Broken, place);
    }
    let start = place + 2;
    Step {
        kind: Kind::Frame,
        start,
        length,
        next: start + length,
    }
}
