//! The wrapper for Rust: frames of both versions, and deadlines of 64 bits.

use crate::{frame, frame_1, records};
use panel::{frame_check, Panel, Refusal, DEADLINE_MAX, FRAME_1_MASK_AT, FRAME_MAX};

/// The last deadline that a frame of version 1 has room for.
const LAST_OF_1: u64 = 4_294_967_295;

pub fn run() -> Result<(), Refusal> {
    one_message()?;
    wide_deadlines()?;
    longest_frame()
}

/// Both versions of a message are one, while it waits and in the log; what comes in version 1 is
/// sent on by the next frame in version 2.
fn one_message() -> Result<(), Refusal> {
    let had = Some(Refusal::HadAlready);
    let (first, first_1) = (frame(1, 100, 0, &[]), frame_1(1, 100, 0, &[]));
    let (next, next_1) = (frame(5, 200, 2, &[100]), frame_1(5, 200, 2, &[100]));
    assert_eq!(
        next_1[FRAME_1_MASK_AT..FRAME_1_MASK_AT + 8],
        2u64.to_be_bytes()
    );
    assert_eq!((frame_check(&next_1), frame_check(&next)), (Ok(()), Ok(())));
    for (next, other) in [(&next, &next_1), (&next_1, &next)] {
        let mut two = Panel::fresh(2)?;
        assert!(two.receive(next)?.is_empty());
        assert_eq!(two.receive(other).err(), had);
        assert_eq!(two.waiting(), 1);
        let log = two.receive(&first_1)?;
        assert_eq!(records(&log), [(1, 100, &b""[..]), (5, 200, &b""[..])]);
        assert_eq!(two.receive(&first).err(), had);
        assert_eq!(two.receive(other).err(), had);
        assert_eq!(two.send(b"", 300)?.0[..], frame(2, 300, 1 << 5, &[200]));
    }
    let other_version = [&first[..4], &[3], &first[5..]].concat();
    assert_eq!(frame_check(&other_version), Err(Refusal::FrameVersion));
    assert_eq!(Refusal::FrameVersion.to_string(), "version: not 1 or 2");
    Ok(())
}

/// Deadlines on both sides of the last that version 1 has room for, and the last of all.
fn wide_deadlines() -> Result<(), Refusal> {
    let mut one = Panel::fresh(1)?;
    one.clock(LAST_OF_1 - 1)?;
    let (last_of_1, _) = one.send(b"", 1)?;
    assert_eq!(last_of_1[..], frame(1, LAST_OF_1, 0, &[]));
    let (above, log) = one.send(b"", 1)?;
    assert_eq!(above[..], frame(1, LAST_OF_1 + 1, 2, &[LAST_OF_1]));
    assert_eq!(records(&log), [(1, LAST_OF_1 + 1, &b""[..])]);
    let mut two = Panel::fresh(2)?;
    two.clock(LAST_OF_1)?;
    assert!(two.receive(&above)?.is_empty());
    assert_eq!(records(&two.clock(LAST_OF_1 + 1)?), records(&log));
    assert_eq!((two.time(), two.floor()), (LAST_OF_1 + 1, LAST_OF_1));
    two.set_back(LAST_OF_1)?;
    let lapsed = Some(Refusal::Lapsed);
    assert_eq!(two.receive(&frame_1(1, LAST_OF_1, 0, &[])).err(), lapsed);
    assert_eq!(DEADLINE_MAX, 18_446_744_073_709_551_615);
    one.clock(DEADLINE_MAX - 1)?;
    assert_eq!(records(&one.send(b"", 1)?.1), [(1, DEADLINE_MAX, &b""[..])]);
    assert_eq!(one.send(b"", 1).err(), Some(Refusal::DeadlineTooHigh));
    Ok(())
}

/// A frame with all entries and the longest payload.
fn longest_frame() -> Result<(), Refusal> {
    let mut zero = Panel::fresh(0)?;
    zero.send(b"", 1)?;
    for source in 1..64 {
        zero.receive(&frame(source, 1, 0, &[]))?;
    }
    let (sent, log) = zero.send(&[9; 32], 2)?;
    assert_eq!(sent.len(), FRAME_MAX);
    assert_eq!(records(&log), [(0, 2, &[9; 32][..])]);
    assert_eq!(frame_check(&sent), Ok(()));
    Ok(())
}
