//! The record that the module's calls work on, with the layout that panel.h gives.

use crate::compose;
use crate::kept::Kept;
use crate::random::Random;
use crate::second::{FRAME, WAITING};
use std::mem::{offset_of, size_of, size_of_val};
use std::slice;

/// Bytes of a slot: the length of a frame, then the frame.
pub const SLOT: usize = 2 + FRAME;
const SLOTS: usize = WAITING * SLOT;
/// Bytes around the record that no call may touch.
const MARGIN: usize = 576;

/// The record, all bytes of it named, between two margins.
#[repr(C)]
#[derive(Clone)]
pub struct Record {
    margin_before: [u8; MARGIN],
    pub own: u8,
    between_own_and_time: [u8; 7],
    pub time: u64,
    pub high: u64,
    pub count: usize,
    pub marks: [u64; 64],
    pub barrier: [u64; 64],
    pub slots: [u8; SLOTS],
    pub floor: u64,
    margin_behind: [u8; MARGIN],
}

const _: () = assert!(offset_of!(Record, time) == MARGIN + 8);
const _: () = assert!(offset_of!(Record, high) == MARGIN + 16);
const _: () = assert!(offset_of!(Record, count) == MARGIN + 24);
const _: () = assert!(offset_of!(Record, marks) == MARGIN + 32);
const _: () = assert!(offset_of!(Record, barrier) == MARGIN + 544);
const _: () = assert!(offset_of!(Record, slots) == MARGIN + 1056);
const _: () = assert!(offset_of!(Record, floor) == MARGIN + 19_264);
const _: () = assert!(size_of::<Record>() == 2 * MARGIN + 19_272);

/// The floor whose bytes, where a slot behind the last one would be, are those of a length and of a
/// frame's start, up to the source. A kept record has the rest of that frame behind it.
pub const LIKE_A_SLOT: u64 = u64::from_ne_bytes([0, 23, 0x44, 0x52, 0x59, 0, 2, 1]);

impl Record {
    /// A record of random bytes.
    pub fn random(random: &mut Random) -> Box<Record> {
        let mut record = Box::new(Record {
            margin_before: [0; MARGIN],
            own: 0,
            between_own_and_time: [0; 7],
            time: 0,
            high: 0,
            count: 0,
            marks: [0; 64],
            barrier: [0; 64],
            slots: [0; SLOTS],
            floor: 0,
            margin_behind: [0; MARGIN],
        });
        random.fill(record.bytes_mut());
        record
    }

    /// A kept record. All bytes that are no part of it are random, but for a readable frame behind
    /// the last slot, of which the floor may be the start: a module that goes on reading there is
    /// to be noticed.
    pub fn kept(kept: &Kept, random: &mut Random) -> Box<Record> {
        let mut record = Record::random(random);
        let one_more = compose::frame(1, 9, &[], b"");
        let rest = &one_more[size_of_val(&record.floor) - 2..];
        record.margin_behind[..rest.len()].copy_from_slice(rest);
        (record.own, record.time, record.high) = (kept.own, kept.time, kept.high);
        (record.marks, record.barrier) = (kept.marks, kept.barrier);
        record.floor = kept.floor;
        record.count = kept.count;
        for (slot, frame) in record.slots.chunks_mut(SLOT).zip(&kept.frames) {
            slot[..2].copy_from_slice(&(frame.len() as u16).to_be_bytes());
            let room = frame.len().min(FRAME);
            slot[2..2 + room].copy_from_slice(&frame[..room]);
        }
        record
    }

    /// Every byte of the record, of what lies between its fields, and of the margins.
    pub fn bytes(&self) -> &[u8] {
        // There are no bytes but those of the fields, and any bytes are a value of each.
        unsafe { slice::from_raw_parts((self as *const Record).cast(), size_of::<Record>()) }
    }

    pub fn bytes_mut(&mut self) -> &mut [u8] {
        unsafe { slice::from_raw_parts_mut((self as *mut Record).cast(), size_of::<Record>()) }
    }

    /// Takes over every byte of another record, without a copy on the way.
    pub fn copy_from(&mut self, other: &Record) {
        self.bytes_mut().copy_from_slice(other.bytes());
    }

    /// The bytes that belong to no field.
    pub fn outside(&self) -> [&[u8]; 3] {
        [
            &self.margin_before,
            &self.between_own_and_time,
            &self.margin_behind,
        ]
    }

    /// The frame in this slot.
    pub fn waiting(&self, place: usize) -> &[u8] {
        let slot = &self.slots[place * SLOT..(place + 1) * SLOT];
        let length = usize::from(u16::from_be_bytes([slot[0], slot[1]]));
        &slot[2..2 + length.min(FRAME)]
    }

    /// What stands at this place of `bytes`.
    pub fn name_of(place: usize) -> String {
        let slots = offset_of!(Record, slots);
        let fields = [
            (offset_of!(Record, margin_behind), "the margin behind"),
            (offset_of!(Record, floor), "floor"),
            (slots, "slots"),
            (offset_of!(Record, barrier), "barrier"),
            (offset_of!(Record, marks), "marks"),
            (offset_of!(Record, count), "count"),
            (offset_of!(Record, high), "high"),
            (offset_of!(Record, time), "time"),
            (
                offset_of!(Record, between_own_and_time),
                "between own and time",
            ),
            (offset_of!(Record, own), "own"),
            (0, "the margin before"),
        ];
        let of_place = fields.iter().find(|(start, _)| *start <= place);
        let (start, name) = of_place.copied().unwrap_or((0, ""));
        let within = place - start;
        match name {
            "slots" => format!("slot {} byte {}", within / SLOT, within % SLOT),
            "marks" | "barrier" => format!("{name} {} byte {}", within / 8, within % 8),
            _ => format!("{name} byte {within}"),
        }
    }
}
