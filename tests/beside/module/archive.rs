//! The functions of libpanel.a, as panel.h declares them at its end, declared here anew.

#[repr(C)]
pub struct PartsAnswer {
    pub count: usize,
    pub length: usize,
    pub number: u8,
}

/// What a trace answers.
#[repr(C)]
pub struct Trace {
    pub visited: usize,
    pub ready: bool,
    pub number: u8,
}

/// The numbers of a log record.
#[repr(C)]
#[derive(Clone, Copy, Debug, Default, PartialEq, Eq)]
pub struct LogFields {
    pub deadline: u64,
    pub source: u8,
    pub length: u8,
}

/// A step of a bundle's reader.
#[repr(C)]
#[derive(Clone, Copy, Debug, PartialEq, Eq)]
pub struct BundleStep {
    pub start: usize,
    pub length: usize,
    pub next: usize,
    pub kind: u8,
}

#[rustfmt::skip]
#[link(name = "panel", kind = "static")]
extern "C" {
    pub fn panel_fresh_parts(number: u8, own: *mut u8, time: *mut u64, high: *mut u64,
        count: *mut usize, marks: *mut u64, barrier: *mut u64, slots: *mut u8,
        floor: *mut u64) -> u8;
    pub fn panel_send_parts(own: u8, time: u64, high: *mut u64, count: *mut usize,
        marks: *mut u64, barrier: *mut u64, slots: *mut u8, floor: *mut u64, payload: *const u8,
        payload_length: usize, lifetime: u16, output: *mut u8, output_length: usize,
        frame: *mut u8, frame_length: usize) -> PartsAnswer;
    pub fn panel_beacon_parts(own: u8, time: u64, high: *mut u64, count: *mut usize,
        marks: *mut u64, barrier: *mut u64, slots: *mut u8, floor: *mut u64, payload: *const u8,
        payload_length: usize, output: *mut u8, output_length: usize, frame: *mut u8,
        frame_length: usize) -> PartsAnswer;
    pub fn panel_receive_parts(own: u8, time: u64, high: *mut u64, count: *mut usize,
        marks: *mut u64, barrier: *mut u64, slots: *mut u8, floor: *mut u64, frame: *const u8,
        frame_length: usize, output: *mut u8, output_length: usize) -> PartsAnswer;
    pub fn panel_trace_parts(own: u8, time: u64, high: u64, count: usize, marks: *const u64,
        barrier: *const u64, slots: *const u8, floor: u64, frame: *const u8,
        frame_length: usize) -> Trace;
    pub fn panel_clock_parts(own: u8, time: *mut u64, high: *mut u64, count: *mut usize,
        marks: *mut u64, barrier: *mut u64, slots: *mut u8, floor: *mut u64, reading: u64,
        output: *mut u8, output_length: usize) -> PartsAnswer;
    pub fn panel_set_back_parts(own: u8, time: *mut u64, high: u64, count: usize,
        marks: *const u64, barrier: *const u64, slots: *const u8, floor: u64,
        reading: u64) -> u8;
    #[link_name = "frame_check"]
    fn panel_frame_check(frame: *const u8, length: usize) -> u8;
    fn panel_log_fields(log: *const u8, length: usize, index: usize) -> LogFields;
    fn panel_bundle_step(bundle: *const u8, length: usize, place: usize) -> BundleStep;
}

/// 0, or the number of the refusal.
pub fn frame_check(bytes: &[u8]) -> u8 {
    // The pointer and the length are those of a slice, here and below.
    unsafe { panel_frame_check(bytes.as_ptr(), bytes.len()) }
}

/// The log record of this index, as `panel_log_record` of panel.h has it: deadline 0 says that
/// there is none, and source and length are then 0.
pub fn log_fields(log: &[u8], index: usize) -> LogFields {
    let fields = unsafe { panel_log_fields(log.as_ptr(), log.len(), index) };
    match fields.deadline {
        0 => LogFields::default(),
        _ => fields,
    }
}

pub fn bundle_step(bundle: &[u8], place: usize) -> BundleStep {
    unsafe { panel_bundle_step(bundle.as_ptr(), bundle.len(), place) }
}
