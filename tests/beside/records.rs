//! Calls on records that no list need ever reach: whatever 26 lets through, and records broken in
//! each of its ways.

use crate::beacons;
use crate::calls::Call;
use crate::compare::Both;
use crate::compose;
use crate::kept::Kept;
use crate::module::{LIKE_A_SLOT, SLOT};
use crate::random::Random;
use crate::second::{FARTHEST_AHEAD, FRAME, OUTPUT, WAITING};
use crate::side::Found;

/// The ways in which a record is broken.
const WAYS: u64 = 15;
/// The kinds of calls: send, beacon, receive, clock and set back.
const KINDS: usize = 5;
/// Lifetimes of interest.
const LIFETIMES: [u16; 11] = [0, 1, 2, 3, 1199, 1200, 1201, 7199, 7200, 7201, u16::MAX];

/// So many records that 26 lets through, with some calls on each, and as many broken ones.
pub fn run(both: &mut Both, seed: u64, records: u64) -> Result<(), Found> {
    for number in 0..=u8::MAX {
        both.fresh(number)?;
    }
    for round in 0..records {
        let mut random = Random::new(seed, round);
        let numbers = numbers(&mut random);
        let mut kept = sound(&numbers, &mut random);
        let mut pair = both.kept(&kept);
        for _ in 0..random.between(1, 4) {
            let call = any_call(random.below(KINDS), &kept, &numbers, &mut random);
            beacons::call(both, &mut pair, &call)
                .map_err(|found| found.within(format!("record {round}")))?;
        }
        let way = round % WAYS;
        damage(&mut kept, way, &mut random);
        let mut pair = both.kept(&kept);
        for kind in 0..KINDS {
            let call = any_call(kind, &kept, &numbers, &mut random);
            let answer = both
                .call(&mut pair, &call)
                .map_err(|found| found.within(format!("record {round}, broken in way {way}")))?;
            if answer.number != 26 {
                let what = format!("{} instead of 26 for {kept}", answer.number);
                return Err(Found::new(what));
            }
        }
    }
    Ok(())
}

/// A few times and deadlines, some next to each other and some about 14 days apart.
fn numbers(random: &mut Random) -> Vec<u64> {
    let before = random.pick(&[0, 0, 1200, 7200, FARTHEST_AHEAD, FARTHEST_AHEAD]);
    let middle = match random.below(4) {
        0 => random.below(10) as u64,
        1 => u64::MAX - before - random.below(10) as u64,
        2 => compose::BORDER - before + random.below(10) as u64 - 5,
        _ => random.any_size(),
    };
    let near = |change: usize| middle.saturating_add(change as u64).saturating_sub(3);
    let mut numbers: Vec<u64> = (0..4).map(|_| near(random.below(7))).collect();
    numbers.push(random.any_size());
    numbers.push(middle.saturating_add(random.below(9000) as u64));
    let lifetime = random.pick(&LIFETIMES);
    numbers.push(middle.saturating_add(u64::from(lifetime)));
    if random.chance(50) {
        numbers.push(near(FARTHEST_AHEAD as usize + random.below(7)));
    }
    numbers
}

/// 64 numbers up to high.
fn entries(numbers: &[u64], high: u64, random: &mut Random) -> [u64; 64] {
    let often = random.pick(&[0, 10, 50, 100]);
    [0; 64].map(|none| match random.chance(often) {
        true => random.pick(numbers).min(high),
        false => none,
    })
}

/// A floor: none, one near the time or a deadline, or any other, which may be above all of them.
fn any_floor(time: u64, numbers: &[u64], random: &mut Random) -> u64 {
    let change = random.pick(&[0, 0, 1, 2]);
    match random.below(12) {
        0..=4 => 0,
        5 => time.saturating_sub(change),
        6 => time.saturating_add(change),
        7 => random.pick(&[u64::MAX, LIKE_A_SLOT]),
        8 => random.pick(numbers).saturating_sub(change),
        _ => random.pick(numbers),
    }
}

/// A record that 26 lets through.
fn sound(numbers: &[u64], random: &mut Random) -> Kept {
    let high = random.pick(numbers);
    let count = match random.below(4) {
        0 => random.below(3),
        1 => random.between(31, 32),
        _ => random.below(WAITING + 1),
    };
    let time = random.pick(numbers);
    let mut kept = Kept {
        own: random.below(64) as u8,
        time,
        high,
        marks: entries(numbers, high, random),
        barrier: entries(numbers, high, random),
        floor: any_floor(time, numbers, random),
        count,
        frames: Vec::new(),
    };
    if random.chance(20) {
        kept.frames = chain(kept.time, count, random);
        return kept;
    }
    for place in 0..count {
        let frame = any_frame(&kept, numbers, random);
        let frame = match place > 0 && random.chance(15) {
            true => kept.frames[random.below(place)].clone(),
            false => frame,
        };
        kept.frames.push(frame);
    }
    kept
}

/// Messages each of which waits for the one before it, and the first for one of panel 62, in any
/// order.
fn chain(time: u64, count: usize, random: &mut Random) -> Vec<Vec<u8>> {
    let mut before = (62, time.max(1));
    let mut frames = Vec::new();
    for _ in 0..count {
        let (source, deadline) = (random.below(62) as u8, before.1.saturating_add(1));
        let entries = if before.1 < deadline {
            vec![before]
        } else {
            vec![]
        };
        frames.push(compose::frame(
            source,
            deadline,
            &entries,
            &compose::payload(random),
        ));
        before = (source, deadline);
    }
    random.shuffle(&mut frames);
    frames
}

/// A readable frame, at times with the source and the deadline of one that is waiting.
fn any_frame(kept: &Kept, numbers: &[u64], random: &mut Random) -> Vec<u8> {
    let few = random.pick(&[2, 8, 64]);
    let source = match random.chance(5) {
        true => kept.own,
        false => random.below(few) as u8,
    };
    let mut frame = compose::readable(source, numbers, random);
    let waiting = kept.frames.last().filter(|waiting| waiting.len() >= 23);
    if let (true, Some(waiting)) = (random.chance(10), waiting) {
        let (source, deadline) = compose::name_of(waiting);
        frame = compose::frame(source, deadline, &[], b"");
    }
    frame
}

/// A payload, at times too long.
fn any_payload(random: &mut Random) -> Vec<u8> {
    let length = random.between(33, 40);
    match random.chance(10) {
        true => random.bytes(length),
        false => compose::payload(random),
    }
}

/// A clock reading, near the time or another number.
fn any_reading(kept: &Kept, numbers: &[u64], random: &mut Random) -> u64 {
    let near = [kept.time, random.pick(numbers)];
    let change = random.pick(&[0, 0, 1, u64::MAX]);
    random.pick(&near).wrapping_add(change)
}

/// A call of this kind.
fn any_call(kind: usize, kept: &Kept, numbers: &[u64], random: &mut Random) -> Call {
    let call = match kind {
        0 => Call::send(&any_payload(random), random.pick(&LIFETIMES)),
        1 => Call::beacon(&any_payload(random)),
        2 => {
            let frame = compose::in_any_version(any_frame(kept, numbers, random), random);
            match random.below(12) {
                // The one that a chain waits for.
                10 | 11 => Call::receive(&compose::frame(62, kept.time.max(1), &[], b"")),
                0 => {
                    let way = random.between(1, 8) as u8;
                    Call::receive(&compose::damaged(&frame, way, random))
                }
                1 if !kept.frames.is_empty() => {
                    let waiting = kept.frames[random.below(kept.frames.len())].clone();
                    Call::receive(&compose::in_any_version(waiting, random))
                }
                _ => Call::receive(&frame),
            }
        }
        3 => Call::clock(any_reading(kept, numbers, random)),
        _ => Call::set_back(any_reading(kept, numbers, random)),
    };
    let output = compose::buffer_length(OUTPUT, random);
    call.lent(output, compose::buffer_length(FRAME, random))
}

/// Breaks a record in one of the ways.
fn damage(kept: &mut Kept, way: u64, random: &mut Random) {
    let most = u64::MAX - 1;
    kept.high = kept.high.min(most);
    kept.marks = kept.marks.map(|mark| mark.min(most));
    kept.barrier = kept.barrier.map(|entry| entry.min(most));
    let panel = random.below(64);
    let above = random.pick(&[kept.high + 1, u64::MAX]);
    match way {
        0 => {
            let any = random.between(64, 255) as u8;
            kept.own = random.pick(&[64, 65, 128, 255, any]);
        }
        1 => kept.marks[panel] = above,
        2 => kept.barrier[panel] = above,
        3 => {
            let wrapped = usize::MAX / SLOT + 1;
            let huge = [1 << 16, 1 << 32, wrapped, 1 << 63, usize::MAX];
            kept.count = match random.below(3) {
                0 => 33,
                1 => random.between(34, 70),
                _ => random.pick(&huge),
            };
        }
        _ => damage_waiting(kept, way, random),
    }
    while kept.frames.len() < kept.count.min(WAITING) {
        kept.frames.push(compose::readable(1, &[5, 9], random));
    }
}

/// Makes a waiting message one that no readable frame carries: for each of the reading's numbers,
/// for a length that no slot has room for, as a readable frame of version 1, and for no bytes at
/// all.
fn damage_waiting(kept: &mut Kept, way: u64, random: &mut Random) {
    if kept.frames.is_empty() {
        kept.frames.push(Vec::new());
        kept.count = 1;
    }
    let any = random.below(kept.frames.len());
    let place = random.pick(&[0, kept.frames.len() - 1, any]);
    kept.frames[place] = match way {
        4..=11 => {
            let entries = [(3, 4), (9, 5), (63, 6)];
            let frame = compose::frame(7, 8, &entries, &compose::payload(random));
            compose::damaged(&frame, (way - 3) as u8, random)
        }
        12 => {
            let entries: Vec<(u8, u64)> = (0..64).map(|panel| (panel, 1)).collect();
            let mut frame = compose::frame(7, 9, &entries, &[1; 32]);
            frame.resize(random.pick(&[568, 569, 570, 1023, 1024, 65_535]), 0);
            frame
        }
        13 => {
            let entries = [(3, 4), (9, 5), (63, 6)];
            let entries = &entries[random.below(4)..];
            let frame = compose::frame(7, 8, entries, &compose::payload(random));
            compose::in_version_1(&frame).unwrap_or_default()
        }
        _ => Vec::new(),
    };
}
