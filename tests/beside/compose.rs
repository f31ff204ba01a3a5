//! Frames composed for the tests, readable ones and ones that a reading turns down; and what stands
//! in frames and log records.

use crate::random::Random;
use crate::second::log::{LENGTH_AT, PAYLOAD_AT};

/// Where the version of a frame stands, and its deadline.
const VERSION_AT: usize = 3;
const DEADLINE_AT: usize = 6;
/// Bytes of the shortest frame of version 2.
const SHORTEST: usize = 23;
/// The last deadline that version 1 has room for.
pub const BORDER: u64 = 4_294_967_295;

/// The bytes of a frame of version 2. The entries stand lowest panel first.
pub fn frame(source: u8, deadline: u64, entries: &[(u8, u64)], payload: &[u8]) -> Vec<u8> {
    composed(2, (source, deadline), entries, payload)
}

/// The bytes of a frame of this version.
fn composed(
    version: u16,
    (source, deadline): (u8, u64),
    entries: &[(u8, u64)],
    payload: &[u8],
) -> Vec<u8> {
    let width = width_in(version);
    let mut bytes = vec![0x44, 0x52, 0x59];
    bytes.extend(version.to_be_bytes());
    bytes.push(source);
    bytes.extend(&deadline.to_be_bytes()[8 - width..]);
    let mask = entries.iter().map(|(panel, _)| 1u64 << panel).sum::<u64>();
    bytes.extend(mask.to_be_bytes());
    for (_, entry) in entries {
        bytes.extend(&entry.to_be_bytes()[8 - width..]);
    }
    bytes.push(payload.len() as u8);
    bytes.extend(payload);
    bytes
}

/// The frame of version 1 of the same message, if version 1 has room for its deadline, and so for
/// its entries.
pub fn in_version_1(frame: &[u8]) -> Option<Vec<u8>> {
    if frame.len() < SHORTEST || version_of(frame) != 2 || deadline_of(frame) > BORDER {
        return None;
    }
    let payload = frame.get(length_at(frame) + 1..)?;
    Some(composed(1, name_of(frame), &entries_of(frame), payload))
}

/// The frame in each version that has room for it, version 1 first.
pub fn versions(frame: &[u8]) -> Vec<Vec<u8>> {
    let of_version_1 = in_version_1(frame).into_iter();
    of_version_1.chain([frame.to_vec()]).collect()
}

/// The frame, or in half of all cases that of version 1, if there is one.
pub fn in_any_version(frame: Vec<u8>, random: &mut Random) -> Vec<u8> {
    match random.chance(50) {
        true => in_version_1(&frame).unwrap_or(frame),
        false => frame,
    }
}

/// The 64 numbers of these entries.
pub fn numbers(entries: &[(u8, u64)]) -> [u64; 64] {
    let mut numbers = [0; 64];
    for (panel, entry) in entries {
        numbers[usize::from(*panel)] = *entry;
    }
    numbers
}

/// A number of several bytes, the highest first.
fn number(bytes: &[u8]) -> u64 {
    bytes
        .iter()
        .fold(0, |number, byte| number << 8 | u64::from(*byte))
}

/// Bytes of a deadline and of an entry in a version.
fn width_in(version: u16) -> usize {
    match version {
        2 => 8,
        _ => 4,
    }
}

fn width(frame: &[u8]) -> usize {
    width_in(version_of(frame))
}

/// The version of a frame.
pub fn version_of(frame: &[u8]) -> u16 {
    u16::from_be_bytes([frame[VERSION_AT], frame[VERSION_AT + 1]])
}

/// The deadline of a frame.
pub fn deadline_of(frame: &[u8]) -> u64 {
    number(&frame[DEADLINE_AT..DEADLINE_AT + width(frame)])
}

/// Source and deadline of a frame, by which its message is known.
pub fn name_of(frame: &[u8]) -> (u8, u64) {
    (frame[5], deadline_of(frame))
}

/// The entries of a frame: the panels of its mask, lowest first, each with its entry.
pub fn entries_of(frame: &[u8]) -> Vec<(u8, u64)> {
    let mask = mask_of(frame);
    let panels = (0..64).filter(|panel| mask >> panel & 1 == 1);
    let entries = frame[entries_at(frame)..].chunks_exact(width(frame));
    panels.zip(entries.map(number)).collect()
}

fn mask_of(frame: &[u8]) -> u64 {
    let end = entries_at(frame);
    number(&frame[end - 8..end])
}

/// Where the entries of a frame stand.
fn entries_at(frame: &[u8]) -> usize {
    DEADLINE_AT + width(frame) + 8
}

/// How many entries a frame has.
pub fn entries(frame: &[u8]) -> usize {
    mask_of(frame).count_ones() as usize
}

/// Where the length byte of a frame stands.
fn length_at(frame: &[u8]) -> usize {
    entries_at(frame) + width(frame) * entries(frame)
}

/// Source and deadline of a log record.
pub fn name_logged(record: &[u8]) -> (u8, u64) {
    let (source, deadline, _) = logged(record);
    (source, deadline)
}

/// Source, deadline and payload of a log record.
pub fn logged(record: &[u8]) -> (u8, u64, &[u8]) {
    let length = usize::from(record[LENGTH_AT]);
    let payload = &record[PAYLOAD_AT..];
    let deadline = number(&record[1..LENGTH_AT]);
    (record[0], deadline, &payload[..length.min(payload.len())])
}

/// A payload of a length of interest.
pub fn payload(random: &mut Random) -> Vec<u8> {
    let length = match random.below(4) {
        0 => 0,
        1 => 32,
        _ => random.below(33),
    };
    random.bytes(length)
}

/// The length of a lent buffer: too short, exactly enough, or longer.
pub fn buffer_length(enough: usize, random: &mut Random) -> usize {
    match random.below(40) {
        0..=3 => 0,
        4..=7 => enough - 1,
        8..=11 => random.below(enough),
        12..=19 => enough + random.below(100),
        // Short if only 16 bits of the length were looked at.
        20 => 65_536 + random.below(enough),
        _ => enough,
    }
}

/// A readable frame of this source: its deadline and its entries are of the given numbers, or next
/// to them.
pub fn readable(source: u8, numbers: &[u64], random: &mut Random) -> Vec<u8> {
    let near = |random: &mut Random| {
        let change = random.pick(&[0, 0, 0, 1, u64::MAX]);
        random.pick(numbers).wrapping_add(change)
    };
    let deadline = near(random).max(1);
    let many = random.pick(&[0, 1, 1, 2, 3, 5, 64]);
    let mut entries = Vec::new();
    for panel in 0..64 {
        let entry = near(random);
        if random.below(64) < many && 0 < entry && entry < deadline {
            entries.push((panel, entry));
        }
    }
    frame(source, deadline, &entries, &payload(random))
}

/// The bytes of a frame with damage that a reading is bound to notice. The way is the number that
/// it answers; where the frame has no entries, 6 is as 1.
pub fn damaged(frame: &[u8], way: u8, random: &mut Random) -> Vec<u8> {
    let mut bytes = frame.to_vec();
    let (width, length_at) = (width(frame), length_at(frame));
    match way {
        2 => bytes[random.below(3)] ^= random.between(1, 255) as u8,
        3 => {
            let any = random.between(3, 65_535) as u16;
            let version: u16 = random.pick(&[0, 3, 256, 257, 258, 512, any]);
            bytes[VERSION_AT..VERSION_AT + 2].copy_from_slice(&version.to_be_bytes());
        }
        4 => bytes[5] |= random.pick(&[64, 128, 192]),
        5 => bytes[DEADLINE_AT..DEADLINE_AT + width].fill(0),
        6 if entries(frame) > 0 => {
            let entry = entries_at(frame) + width * random.below(entries(frame));
            let above = deadline_of(frame).saturating_add(random.below(2) as u64);
            let wrong = random.pick(&[0, above, u64::MAX]).to_be_bytes();
            bytes[entry..entry + width].copy_from_slice(&wrong[8 - width..]);
        }
        7 => bytes[length_at] = random.between(33, 255) as u8,
        8 => {
            let more = random.between(1, 9);
            bytes.extend(random.bytes(more));
        }
        _ => bytes.truncate(random.below(frame.len())),
    }
    bytes
}
