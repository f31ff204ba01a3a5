//! Frames of both versions through the frame check, and through a receive with its trace: damaged
//! at every byte, cut, extended, and random ones of every length.

use crate::calls::Call;
use crate::compare::Both;
use crate::compose::{self, BORDER};
use crate::module;
use crate::random::Random;
use crate::second::{Message, FARTHEST_AHEAD};
use crate::side::Found;
use std::collections::BTreeSet;

/// Bytes of the longest random frame.
const LONGEST: usize = 600;

pub fn run(both: &mut Both, seed: u64, rounds: u64) -> Result<(), Found> {
    for round in 0..rounds {
        let mut random = Random::new(seed, round);
        for length in 0..=LONGEST {
            let mut bytes = random.bytes(length);
            tried(both, &bytes, &mut random)?;
            let numbers = [9, 1 << 20, BORDER, u64::MAX];
            let start = compose::readable(round as u8 % 64, &numbers, &mut random);
            let start = compose::in_any_version(start, &mut random);
            let known = random.below(start.len() + 1).min(length);
            bytes[..known].copy_from_slice(&start[..known]);
            tried(both, &bytes, &mut random)?;
        }
        for entries in [0, 4, 64] {
            let of_version_1 = compose::in_version_1(&sample(entries, BORDER, &mut random));
            let of_version_2 = sample(entries, u64::MAX, &mut random);
            for frame in of_version_1.into_iter().chain([of_version_2]) {
                damaged_everywhere(both, &frame, &mut random)?;
                damaged_twice(both, &frame, &mut random)?;
            }
        }
    }
    Ok(())
}

/// A readable frame with about so many entries, and a deadline up to the last.
fn sample(many: usize, last: u64, random: &mut Random) -> Vec<u8> {
    let deadline = random.pick(&[2, 1000, 1 << 24, last]);
    let mut entries = Vec::new();
    for panel in 0..64 {
        if random.below(64) < many {
            entries.push((panel, random.any_size() % (deadline - 1) + 1));
        }
    }
    let source = random.below(64) as u8;
    compose::frame(source, deadline, &entries, &compose::payload(random))
}

/// What a byte is changed to.
fn changed(byte: u8) -> BTreeSet<u8> {
    let near = [byte ^ 1, byte ^ 128, byte.wrapping_add(1)];
    let all = [0, 1, 32, 33, 63, 64, 255].into_iter().chain(near);
    all.filter(|changed| *changed != byte).collect()
}

/// Each byte changed in several ways, each cut, and some bytes more.
fn damaged_everywhere(both: &mut Both, frame: &[u8], random: &mut Random) -> Result<(), Found> {
    tried(both, frame, random)?;
    for place in 0..frame.len() {
        tried(both, &frame[..place], random)?;
        for changed in changed(frame[place]) {
            let mut bytes = frame.to_vec();
            bytes[place] = changed;
            tried(both, &bytes, random)?;
        }
    }
    // The last is as long as the frame if only 16 bits of the length were looked at.
    for more in (1..20).chain([65_536]) {
        let mut bytes = frame.to_vec();
        bytes.extend(random.bytes(more));
        tried(both, &bytes, random)?;
    }
    Ok(())
}

/// Two of the reading's numbers apply, in each of their pairs.
fn damaged_twice(both: &mut Both, frame: &[u8], random: &mut Random) -> Result<(), Found> {
    for one in 1..=8 {
        for other in 1..one {
            for _ in 0..4 {
                let once = compose::damaged(frame, one, random);
                if once.len() >= frame.len() {
                    tried(both, &compose::damaged(&once, other, random), random)?;
                }
            }
        }
    }
    Ok(())
}

/// The frame check and a receive of these bytes, with its trace. The panel's time is 0 or, so that
/// high deadlines are taken too, near a deadline that can be read.
fn tried(both: &mut Both, bytes: &[u8], random: &mut Random) -> Result<(), Found> {
    let by_module = module::frame_check(bytes);
    let reading = Message::read(bytes);
    let by_second = reading.as_ref().err().copied().unwrap_or(0);
    both.counts.check(by_module);
    let call = Call::receive(bytes);
    if by_module != by_second {
        let what = format!("frame check: module {by_module}, second {by_second}");
        return Err(Found::new(what).within(call));
    }
    if reading.is_ok_and(|message| message.frame() != bytes) {
        let what = "the second reads a message, and writes other bytes for it in the same version";
        return Err(Found::new(what).within(call));
    }
    let mut pair = both.fresh(random.below(64) as u8)?;
    if by_module == 0 && random.chance(80) {
        let before = random.pick(&[0, 1, 100, FARTHEST_AHEAD, FARTHEST_AHEAD + 1]);
        let reading = compose::deadline_of(bytes).saturating_sub(before);
        both.call(&mut pair, &Call::clock(reading))?;
    }
    let answer = both.call(&mut pair, &call)?;
    let refused_by_state = answer.number >= 20;
    match by_module == answer.number || by_module == 0 && refused_by_state {
        true => Ok(()),
        false => {
            let what = format!("frame check {by_module}, but receive {}", answer.number);
            Err(Found::new(what).within(call))
        }
    }
}
