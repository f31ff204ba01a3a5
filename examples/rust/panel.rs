//! The calls of libpanel.a for Rust, safe to use. panel.h says what each call does.
//!
//! What that header asks of a caller holds here by the types: a slice is never null and has its
//! true length; output and frame buffer are made anew for each call, with the room that it asks
//! for; a `Panel` is lent for the time of a call, and can't be copied, so that nobody goes on with
//! an older record. One thing is left: the stack. A call takes `STACK_BYTES` at most, and what it
//! returns 2 KB; a `Panel` has 19 KB, twice that while `Panel::fresh` makes it. Nothing is
//! allocated.
//!
//! In a frame of version 1 the deadline and each entry have 4 bytes, in one of version 2 they have
//! 8. `Panel::send` and `Panel::beacon` write version 2; `Panel::receive`, `Panel::trace` and
//! `frame_check` read both. Both versions of a message are one message: the one that comes second
//! is refused with `Refusal::HadAlready`. Coming from version 0.7 of this wrapper, times and
//! deadlines are `u64`, and logs that it kept are not read, as a log record is longer.
//!
//! Panels of versions 0.5 to 0.7 can share a farm with these. They send and read version 1 alone,
//! and refuse the frames of these with `Refusal::FrameVersion`. Those of 0.6 have no floor, and
//! their clocks can't be set back; those of 0.5 also remove no barrier entries when they hand a
//! message, and so send longer frames. In all else they are the same. No setting is needed, and the
//! causal order of the logs holds in every mixture.
//!
//! Frames may come in any order, and any number of times. Where panels sent them, no other call
//! comes between them, and none is refused with `Refusal::ListFull`, a panel ends with the same log
//! records and the same waiting messages, whatever the order; only their places differ.
#![no_std]

use core::fmt;
use core::iter::FusedIterator;
use core::ops::Deref;

/// The stack that a call of the archive needs, at most.
pub const STACK_BYTES: usize = 8192;
/// Panels of a farm, numbered from 0.
pub const PANELS: usize = 64;
/// Messages that may wait at a panel.
pub const WAITING_MAX: usize = 32;
/// Bytes of a payload.
pub const PAYLOAD_MAX: usize = 32;
/// Seconds that a lifetime of 0 means.
pub const LIFETIME_DEFAULT: u16 = 7200;
/// Seconds of a beacon's lifetime.
pub const LIFETIME_BEACON: u16 = 1200;
/// The last deadline.
pub const DEADLINE_MAX: u64 = u64::MAX;
/// Seconds that a received deadline may be ahead of the time: 14 days.
pub const FARTHEST_AHEAD: u64 = 1_209_600;
/// Bytes of the longest frame, of version 2.
pub const FRAME_MAX: usize = 567;
/// Where the 8 bytes of the mask stand in a frame of version 2.
pub const FRAME_MASK_AT: usize = 14;
/// Where they stand in one of version 1.
pub const FRAME_1_MASK_AT: usize = 10;
/// Bytes of a log record.
pub const LOG_RECORD: usize = LOG_PAYLOAD_AT + PAYLOAD_MAX;
/// Where the payload stands in a log record: behind source, deadline and length.
const LOG_PAYLOAD_AT: usize = 1 + 8 + 1;
/// Bytes of the output: a log record of the message sent or received, and of each that waited.
const OUTPUT: usize = (WAITING_MAX + 1) * LOG_RECORD;
/// Bytes of the waiting list: each slot has the length of a frame in 16 bits, and the frame.
const SLOTS: usize = WAITING_MAX * (2 + FRAME_MAX);

/// The archive as it is.
mod archive {
    use super::{PANELS, SLOTS};
    use core::mem::{offset_of, size_of};

    #[cfg(not(all(
        target_arch = "x86_64",
        target_os = "linux",
        target_pointer_width = "64"
    )))]
    compile_error!("libpanel.a is for x86-64 System V (64-bit Linux)");

    #[repr(C)]
    pub struct Answer {
        pub count: usize,
        pub length: usize,
        pub number: u8,
    }

    #[repr(C)]
    pub struct Trace {
        pub visited: usize,
        pub ready: bool,
        pub number: u8,
    }

    #[repr(C)]
    pub struct LogFields {
        pub deadline: u64,
        pub source: u8,
        pub length: u8,
    }

    #[repr(C)]
    pub struct BundleStep {
        pub start: usize,
        pub length: usize,
        pub next: usize,
        pub kind: u8,
    }

    /// Asserts the size of a struct and the place of each of its fields.
    macro_rules! layout {
        ($type:ty, $size:expr, $($field:ident $place:expr),+) => {
            const _: () = assert!(size_of::<$type>() == $size);
            $(const _: () = assert!(offset_of!($type, $field) == $place);)+
        };
    }

    layout!(Answer, 24, count 0, length 8, number 16);
    layout!(Trace, 16, visited 0, ready 8, number 9);
    layout!(LogFields, 16, deadline 0, source 8, length 9);
    layout!(BundleStep, 32, start 0, length 8, next 16, kind 24);

    #[link(name = "panel", kind = "static")]
    extern "C" {
        pub fn panel_fresh_parts(
            number: u8,
            own: &mut u8,
            time: &mut u64,
            high: &mut u64,
            count: &mut usize,
            marks: &mut [u64; PANELS],
            barrier: &mut [u64; PANELS],
            slots: &mut [u8; SLOTS],
            floor: &mut u64,
        ) -> u8;
        pub fn panel_send_parts(
            own: u8,
            time: u64,
            high: &mut u64,
            count: &mut usize,
            marks: &mut [u64; PANELS],
            barrier: &mut [u64; PANELS],
            slots: &mut [u8; SLOTS],
            floor: &mut u64,
            payload: *const u8,
            payload_length: usize,
            lifetime: u16,
            output: *mut u8,
            output_length: usize,
            frame: *mut u8,
            frame_length: usize,
        ) -> Answer;
        pub fn panel_beacon_parts(
            own: u8,
            time: u64,
            high: &mut u64,
            count: &mut usize,
            marks: &mut [u64; PANELS],
            barrier: &mut [u64; PANELS],
            slots: &mut [u8; SLOTS],
            floor: &mut u64,
            payload: *const u8,
            payload_length: usize,
            output: *mut u8,
            output_length: usize,
            frame: *mut u8,
            frame_length: usize,
        ) -> Answer;
        pub fn panel_receive_parts(
            own: u8,
            time: u64,
            high: &mut u64,
            count: &mut usize,
            marks: &mut [u64; PANELS],
            barrier: &mut [u64; PANELS],
            slots: &mut [u8; SLOTS],
            floor: &mut u64,
            frame: *const u8,
            frame_length: usize,
            output: *mut u8,
            output_length: usize,
        ) -> Answer;
        pub fn panel_clock_parts(
            own: u8,
            time: &mut u64,
            high: &mut u64,
            count: &mut usize,
            marks: &mut [u64; PANELS],
            barrier: &mut [u64; PANELS],
            slots: &mut [u8; SLOTS],
            floor: &mut u64,
            reading: u64,
            output: *mut u8,
            output_length: usize,
        ) -> Answer;
        pub fn panel_set_back_parts(
            own: u8,
            time: &mut u64,
            high: u64,
            count: usize,
            marks: &[u64; PANELS],
            barrier: &[u64; PANELS],
            slots: &[u8; SLOTS],
            floor: u64,
            reading: u64,
        ) -> u8;
        pub fn panel_trace_parts(
            own: u8,
            time: u64,
            high: u64,
            count: usize,
            marks: &[u64; PANELS],
            barrier: &[u64; PANELS],
            slots: &[u8; SLOTS],
            floor: u64,
            frame: *const u8,
            frame_length: usize,
        ) -> Trace;
        pub fn frame_check(frame: *const u8, length: usize) -> u8;
        pub fn panel_log_fields(log: *const u8, length: usize, index: usize) -> LogFields;
        pub fn panel_bundle_step(bundle: *const u8, length: usize, place: usize) -> BundleStep;
    }
}

/// Why a call was refused, with the number of document 01 or 02. A refusal changes nothing.
#[derive(Clone, Copy, Debug, PartialEq, Eq)]
#[repr(u8)]
pub enum Refusal {
    FrameShort = 1,
    FrameMark = 2,
    FrameVersion = 3,
    FrameSource = 4,
    FrameDeadline = 5,
    FrameEntry = 6,
    FramePayloadLength = 7,
    FrameLeftOver = 8,
    PayloadLong = 9,
    BufferShort = 10,
    PanelNumber = 11,
    OwnSource = 20,
    Lapsed = 21,
    HadAlready = 22,
    ListFull = 23,
    DeadlineTooHigh = 24,
    ClockBack = 25,
    RecordBroken = 26,
    TooFarAhead = 32,
}

impl Refusal {
    /// Every refusal, in the order of the numbers.
    pub const ALL: [Refusal; 19] = [
        Refusal::FrameShort,
        Refusal::FrameMark,
        Refusal::FrameVersion,
        Refusal::FrameSource,
        Refusal::FrameDeadline,
        Refusal::FrameEntry,
        Refusal::FramePayloadLength,
        Refusal::FrameLeftOver,
        Refusal::PayloadLong,
        Refusal::BufferShort,
        Refusal::PanelNumber,
        Refusal::OwnSource,
        Refusal::Lapsed,
        Refusal::HadAlready,
        Refusal::ListFull,
        Refusal::DeadlineTooHigh,
        Refusal::ClockBack,
        Refusal::RecordBroken,
        Refusal::TooFarAhead,
    ];

    /// The number of document 01 or 02.
    pub fn number(self) -> u8 {
        self as u8
    }
}

impl fmt::Display for Refusal {
    fn fmt(&self, formatter: &mut fmt::Formatter<'_>) -> fmt::Result {
        formatter.write_str(match self {
            Refusal::FrameShort => {
                "fewer than 19 bytes, or in version 2 fewer than 23, or too few for the entries \
                 and the length byte, or too few for the payload"
            }
            Refusal::FrameMark => "mark: not hexadecimal 44 52 59",
            Refusal::FrameVersion => "version: not 1 or 2",
            Refusal::FrameSource => "source: not 0 to 63",
            Refusal::FrameDeadline => "deadline 0",
            Refusal::FrameEntry => "entries: not each 1 or more and below the deadline",
            Refusal::FramePayloadLength => "payload length: not 0 to 32",
            Refusal::FrameLeftOver => "bytes left over",
            Refusal::PayloadLong => "payload to send longer than 32",
            Refusal::BufferShort => {
                "output under 1,386 bytes, or the frame buffer of a send under 567"
            }
            Refusal::PanelNumber => "a panel number above 63 asked of a fresh panel",
            Refusal::OwnSource => "the frame's source is the own number",
            Refusal::Lapsed => {
                "the message has lapsed: its deadline is below the time or at most the floor"
            }
            Refusal::HadAlready => {
                "its deadline is at most its source's mark, or it is waiting already"
            }
            Refusal::ListFull => "32 are waiting and this one is not ready",
            Refusal::DeadlineTooHigh => {
                "the deadline of a send would pass 18,446,744,073,709,551,615"
            }
            Refusal::ClockBack => "the clock reading is below the panel's time",
            Refusal::RecordBroken => {
                "the record has an own number above 63, a mark or barrier entry above high, over \
                 32 waiting, or a waiting message that no readable frame carries"
            }
            Refusal::TooFarAhead => "its deadline is above time + 1,209,600",
        })
    }
}

impl core::error::Error for Refusal {}

/// The number of an answer: 0, or that of a refusal. The archive answers no other.
fn accepted(number: u8) -> Result<(), Refusal> {
    if number == 0 {
        return Ok(());
    }
    match Refusal::ALL
        .iter()
        .find(|refusal| refusal.number() == number)
    {
        Some(refusal) => Err(*refusal),
        None => unreachable!("{number} is no number of panel.h"),
    }
}

/// A frame that was sent: the bytes that it derefs to.
pub struct Frame {
    bytes: [u8; FRAME_MAX],
    length: usize,
}

impl Frame {
    fn new() -> Frame {
        Frame {
            bytes: [0; FRAME_MAX],
            length: 0,
        }
    }
}

impl Deref for Frame {
    type Target = [u8];

    fn deref(&self) -> &[u8] {
        &self.bytes[..self.length]
    }
}

/// The log records that a call wrote, at most 33.
pub struct Log {
    bytes: [u8; OUTPUT],
    count: usize,
}

impl Log {
    fn new() -> Log {
        Log {
            bytes: [0; OUTPUT],
            count: 0,
        }
    }

    /// Their bytes, `LOG_RECORD` for each, to be kept. `log_records` reads them.
    pub fn bytes(&self) -> &[u8] {
        &self.bytes[..self.count * LOG_RECORD]
    }

    /// The log records in the order of handing.
    pub fn records(&self) -> LogRecords<'_> {
        log_records(self.bytes())
    }

    pub fn len(&self) -> usize {
        self.count
    }

    pub fn is_empty(&self) -> bool {
        self.count == 0
    }
}

/// What a panel would do with a frame.
#[derive(Clone, Copy, Debug, PartialEq, Eq)]
pub struct Trace {
    /// That of `Panel::receive` with this frame, or none.
    pub refusal: Option<Refusal>,
    /// Whether the message is ready: each of its entries is met.
    pub ready: bool,
    /// How many entries the test for ready visited, at most 64: lowest panel first, up to the first
    /// that is not met, that one included, or all.
    pub visited: usize,
}

/// One log record.
#[derive(Clone, Copy, Debug, PartialEq, Eq)]
pub struct LogRecord<'a> {
    pub source: u8,
    pub deadline: u64,
    pub payload: &'a [u8],
}

/// The log record of that index in the bytes of a log; none if no whole record has that index, or
/// if its bytes are none that a call wrote.
pub fn log_record(log: &[u8], index: usize) -> Option<LogRecord<'_>> {
    // SAFETY: the log is a slice, passed with its length.
    let fields = unsafe { archive::panel_log_fields(log.as_ptr(), log.len(), index) };
    if fields.deadline == 0 {
        return None;
    }
    let start = index * LOG_RECORD + LOG_PAYLOAD_AT;
    Some(LogRecord {
        source: fields.source,
        deadline: fields.deadline,
        payload: &log[start..start + usize::from(fields.length)],
    })
}

/// The log records in the bytes of a log, up to the first place where there is none.
pub fn log_records(log: &[u8]) -> LogRecords<'_> {
    LogRecords { log, index: 0 }
}

/// The log records of a log, one after another.
#[derive(Clone)]
pub struct LogRecords<'a> {
    log: &'a [u8],
    index: usize,
}

impl<'a> Iterator for LogRecords<'a> {
    type Item = LogRecord<'a>;

    fn next(&mut self) -> Option<LogRecord<'a>> {
        let record = log_record(self.log, self.index)?;
        self.index += 1;
        Some(record)
    }
}

impl FusedIterator for LogRecords<'_> {}

/// The frames of a bundle, one after another. The last item is an error if the bundle is broken.
#[derive(Clone)]
pub struct Bundle<'a> {
    bytes: &'a [u8],
    place: usize,
    broken: bool,
}

impl<'a> Bundle<'a> {
    /// A reader at the start of a bundle.
    pub fn new(bytes: &'a [u8]) -> Bundle<'a> {
        Bundle {
            bytes,
            place: 0,
            broken: false,
        }
    }
}

impl<'a> Iterator for Bundle<'a> {
    type Item = Result<&'a [u8], BundleBroken>;

    fn next(&mut self) -> Option<Result<&'a [u8], BundleBroken>> {
        if self.broken {
            return None;
        }
        // SAFETY: the bundle is a slice, passed with its length.
        let step = unsafe {
            archive::panel_bundle_step(self.bytes.as_ptr(), self.bytes.len(), self.place)
        };
        match step.kind {
            0 => {
                self.place = step.next;
                Some(Ok(&self.bytes[step.start..step.start + step.length]))
            }
            1 => None,
            _ => {
                self.broken = true;
                Some(Err(BundleBroken))
            }
        }
    }
}

impl FusedIterator for Bundle<'_> {}

/// A bundle has fewer bytes left than a length or its frame needs.
#[derive(Clone, Copy, Debug, PartialEq, Eq)]
pub struct BundleBroken;

impl fmt::Display for BundleBroken {
    fn fmt(&self, formatter: &mut fmt::Formatter<'_>) -> fmt::Result {
        formatter.write_str("the bundle is broken")
    }
}

impl core::error::Error for BundleBroken {}

/// A panel: its record, as the last call left it.
pub struct Panel {
    own: u8,
    time: u64,
    high: u64,
    count: usize,
    marks: [u64; PANELS],
    barrier: [u64; PANELS],
    slots: [u8; SLOTS],
    floor: u64,
}

impl Panel {
    /// A fresh panel of that number, at time 0. Give it the clock reading before the first frame:
    /// until then it refuses each deadline above `FARTHEST_AHEAD`.
    pub fn fresh(number: u8) -> Result<Panel, Refusal> {
        let mut panel = Panel {
            own: 0,
            time: 0,
            high: 0,
            count: 0,
            marks: [0; PANELS],
            barrier: [0; PANELS],
            slots: [0; SLOTS],
            floor: 0,
        };
        // SAFETY: all that is lent are fields of one record.
        accepted(unsafe {
            archive::panel_fresh_parts(
                number,
                &mut panel.own,
                &mut panel.time,
                &mut panel.high,
                &mut panel.count,
                &mut panel.marks,
                &mut panel.barrier,
                &mut panel.slots,
                &mut panel.floor,
            )
        })?;
        Ok(panel)
    }

    /// Sends a payload of at most 32 bytes; a lifetime of 0 means `LIFETIME_DEFAULT`. The frame, of
    /// version 2, has 23 bytes, 8 for each barrier entry, and the payload; then the barrier is
    /// emptied. The first of the log records is that of the message sent. Its deadline is above the
    /// largest in the log: if that puts it further ahead than `FARTHEST_AHEAD`, the other panels
    /// refuse it until their time is near enough.
    pub fn send(&mut self, payload: &[u8], lifetime: u16) -> Result<(Frame, Log), Refusal> {
        let mut frame = Frame::new();
        let mut log = Log::new();
        // SAFETY: the payload is a slice, output and frame buffer are arrays of this function; all
        // are passed with their lengths, and none overlaps another or the record.
        let answer = unsafe {
            archive::panel_send_parts(
                self.own,
                self.time,
                &mut self.high,
                &mut self.count,
                &mut self.marks,
                &mut self.barrier,
                &mut self.slots,
                &mut self.floor,
                payload.as_ptr(),
                payload.len(),
                lifetime,
                log.bytes.as_mut_ptr(),
                log.bytes.len(),
                frame.bytes.as_mut_ptr(),
                frame.bytes.len(),
            )
        };
        accepted(answer.number)?;
        frame.length = answer.length;
        log.count = answer.count;
        Ok((frame, log))
    }

    /// Sends a status beacon, such as "fan 2 runs": in everything as `send` with lifetime
    /// `LIFETIME_BEACON`, whatever a lifetime of 0 means. Its deadline, as that of every send, is
    /// above the largest in the log: after a note with a longer lifetime, sent or received, the
    /// beacon lapses just after that note, not `LIFETIME_BEACON` seconds from now.
    pub fn beacon(&mut self, payload: &[u8]) -> Result<(Frame, Log), Refusal> {
        let mut frame = Frame::new();
        let mut log = Log::new();
        // SAFETY: as in `send`.
        let answer = unsafe {
            archive::panel_beacon_parts(
                self.own,
                self.time,
                &mut self.high,
                &mut self.count,
                &mut self.marks,
                &mut self.barrier,
                &mut self.slots,
                &mut self.floor,
                payload.as_ptr(),
                payload.len(),
                log.bytes.as_mut_ptr(),
                log.bytes.len(),
                frame.bytes.as_mut_ptr(),
                frame.bytes.len(),
            )
        };
        accepted(answer.number)?;
        frame.length = answer.length;
        log.count = answer.count;
        Ok((frame, log))
    }

    /// Receives the bytes of a frame of either version, whole or damaged. A deadline above the time
    /// and `FARTHEST_AHEAD` is refused with `Refusal::TooFarAhead`. Such a frame may be received
    /// again, and is taken once the time is near enough. One that was refused with
    /// `Refusal::Lapsed` may be received again after a set back, if its deadline is above the
    /// floor.
    pub fn receive(&mut self, frame: &[u8]) -> Result<Log, Refusal> {
        let mut log = Log::new();
        // SAFETY: the frame is a slice, the output an array of this function; both are passed with
        // their lengths, and neither overlaps the other or the record.
        let answer = unsafe {
            archive::panel_receive_parts(
                self.own,
                self.time,
                &mut self.high,
                &mut self.count,
                &mut self.marks,
                &mut self.barrier,
                &mut self.slots,
                &mut self.floor,
                frame.as_ptr(),
                frame.len(),
                log.bytes.as_mut_ptr(),
                log.bytes.len(),
            )
        };
        accepted(answer.number)?;
        log.count = answer.count;
        Ok(log)
    }

    /// Sets the time, drops what has lapsed, and settles. A time that is wrong and above the right
    /// one is lowered by `set_back`.
    pub fn clock(&mut self, time: u64) -> Result<Log, Refusal> {
        let mut log = Log::new();
        // SAFETY: the output is an array of this function, passed with its length.
        let answer = unsafe {
            archive::panel_clock_parts(
                self.own,
                &mut self.time,
                &mut self.high,
                &mut self.count,
                &mut self.marks,
                &mut self.barrier,
                &mut self.slots,
                &mut self.floor,
                time,
                log.bytes.as_mut_ptr(),
                log.bytes.len(),
            )
        };
        accepted(answer.number)?;
        log.count = answer.count;
        Ok(log)
    }

    /// Lowers the time to the reading, for a technician who finds a panel deaf: its clock was once
    /// set to a wrong year, and it refuses with `Refusal::Lapsed` whatever comes. A reading above
    /// the time leaves it as it is. Nothing is handed and nothing is dropped. A message with a
    /// deadline of at most the floor is still refused, one above it is taken, also if it was
    /// dropped. Own deadlines stay above the largest in the log.
    pub fn set_back(&mut self, reading: u64) -> Result<(), Refusal> {
        // SAFETY: all that is lent are fields of one record.
        accepted(unsafe {
            archive::panel_set_back_parts(
                self.own,
                &mut self.time,
                self.high,
                self.count,
                &self.marks,
                &self.barrier,
                &self.slots,
                self.floor,
                reading,
            )
        })
    }

    /// Tells a technician what would become of a frame, whole or damaged, and changes nothing.
    /// Whatever the refusal is, the message is ready or not by marks, time and floor; bytes that
    /// `frame_check` turns down are not ready, with no entry visited. Where a message is not ready,
    /// the entry at which the test stopped is the `visited`-th set bit of the frame's mask (from
    /// `FRAME_MASK_AT` or `FRAME_1_MASK_AT` on), counted from the lowest.
    pub fn trace(&self, frame: &[u8]) -> Trace {
        // SAFETY: the frame is a slice, passed with its length; nothing that is lent is written.
        let trace = unsafe {
            archive::panel_trace_parts(
                self.own,
                self.time,
                self.high,
                self.count,
                &self.marks,
                &self.barrier,
                &self.slots,
                self.floor,
                frame.as_ptr(),
                frame.len(),
            )
        };
        Trace {
            refusal: accepted(trace.number).err(),
            ready: trace.ready,
            visited: trace.visited,
        }
    }

    /// The own number.
    pub fn own(&self) -> u8 {
        self.own
    }

    /// The last clock reading that was accepted, or the lower reading of a set back since; at first
    /// 0.
    pub fn time(&self) -> u64 {
        self.time
    }

    /// The largest deadline of a message that comes before one of the log in cause and is not in it,
    /// or 0. A deadline has lapsed if it is below the time or at most the floor.
    pub fn floor(&self) -> u64 {
        self.floor
    }

    /// How many messages are waiting.
    pub fn waiting(&self) -> usize {
        self.count
    }
}

/// Whether the bytes are those of a frame, of version 1 or 2; the refusal is one of 1 to 8.
pub fn frame_check(frame: &[u8]) -> Result<(), Refusal> {
    // SAFETY: the frame is a slice, passed with its length.
    accepted(unsafe { archive::frame_check(frame.as_ptr(), frame.len()) })
}
