//! The wrapper for Rust: each call and each reader, and what they refuse. The tests in C test the
//! calls in full.
#![forbid(unsafe_code)]

mod versions;

use panel::{
    frame_check, log_record, log_records, Bundle, BundleBroken, LogRecord, Panel, Refusal, Trace,
    DEADLINE_MAX, FARTHEST_AHEAD, FRAME_MASK_AT, LIFETIME_BEACON, LIFETIME_DEFAULT, LOG_RECORD,
};

/// The records of a call that was accepted: source, deadline and payload of each.
fn records(log: &panel::Log) -> Vec<(u8, u64, &[u8])> {
    assert_eq!(log.len(), log.records().count());
    assert_eq!(log.is_empty(), log.records().count() == 0);
    log.records()
        .map(|record| (record.source, record.deadline, record.payload))
        .collect()
}

/// A frame of this version without payload, with so many bytes for each number.
fn written(version: u8, bytes: usize, name: (u8, u64), mask: u64, entries: &[u64]) -> Vec<u8> {
    let mut frame = vec![0x44, 0x52, 0x59, 0, version, name.0];
    frame.extend(&name.1.to_be_bytes()[8 - bytes..]);
    frame.extend(mask.to_be_bytes());
    for entry in entries {
        frame.extend(&entry.to_be_bytes()[8 - bytes..]);
    }
    frame.push(0);
    frame
}

/// A frame of version 2 without payload.
fn frame(source: u8, deadline: u64, mask: u64, entries: &[u64]) -> Vec<u8> {
    written(2, 8, (source, deadline), mask, entries)
}

/// The same of version 1.
fn frame_1(source: u8, deadline: u64, mask: u64, entries: &[u64]) -> Vec<u8> {
    written(1, 4, (source, deadline), mask, entries)
}

/// Bench cases 1 and 2.
fn sends() -> Result<(), Refusal> {
    let mut three = Panel::fresh(3)?;
    assert!(three.clock(100)?.is_empty());
    let (sent, log) = three.send(b"OK", 0)?;
    assert_eq!(sent[..6], [0x44, 0x52, 0x59, 0, 2, 3]);
    assert_eq!(sent[6..14], [0, 0, 0, 0, 0, 0, 0x1c, 0x84]);
    assert_eq!(sent[FRAME_MASK_AT..], *b"\0\0\0\0\0\0\0\0\x02OK");
    assert_eq!(sent.len(), 25);
    assert_eq!(records(&log), [(3, 7300, &b"OK"[..])]);
    let (sent, log) = three.send(b"", 0)?;
    assert_eq!(sent[..], frame(3, 7301, 8, &[7300]));
    assert_eq!(sent[FRAME_MASK_AT..FRAME_MASK_AT + 8], 8u64.to_be_bytes());
    assert_eq!(sent.len(), 31);
    assert_eq!(records(&log), [(3, 7301, &b""[..])]);
    assert_eq!((three.own(), three.time(), three.waiting()), (3, 100, 0));
    Ok(())
}

/// At panel 3 and time 100, and after a note with the lifetime that 0 stands for.
fn beacons() -> Result<(), Refusal> {
    let mut three = Panel::fresh(3)?;
    three.clock(100)?;
    let (sent, log) = three.beacon(b"OK")?;
    assert_eq!(sent[..6], [0x44, 0x52, 0x59, 0, 2, 3]);
    assert_eq!(sent[6..14], [0, 0, 0, 0, 0, 0, 5, 0x14]);
    assert_eq!(sent[FRAME_MASK_AT..], *b"\0\0\0\0\0\0\0\0\x02OK");
    assert_eq!(records(&log), [(3, 1300, &b"OK"[..])]);
    let mut four = Panel::fresh(4)?;
    four.send(b"", 0)?;
    let note = u64::from(LIFETIME_DEFAULT);
    assert_eq!(four.beacon(b"")?.0[..], frame(4, note + 1, 16, &[note]));
    let mut five = Panel::fresh(5)?;
    let lapses = u64::from(LIFETIME_BEACON);
    assert_eq!(records(&five.beacon(b"")?.1), [(5, lapses, &b""[..])]);
    Ok(())
}

/// Marks tell what is ready and what was had; the barrier, which a send empties, does not.
fn receives() -> Result<(), Refusal> {
    let mut two = Panel::fresh(2)?;
    let first = frame(1, 100, 0, &[]);
    assert_eq!(records(&two.receive(&first)?), [(1, 100, &b""[..])]);
    assert_eq!(two.send(b"", 1000)?.0[..], frame(2, 1000, 2, &[100]));
    assert_eq!(two.receive(&first).err(), Some(Refusal::HadAlready));
    let log = two.receive(&frame(5, 200, 2, &[100]))?;
    assert_eq!(records(&log), [(5, 200, &b""[..])]);
    assert!(two.receive(&frame(9, 500, 0x12, &[100, 50]))?.is_empty());
    assert_eq!(two.waiting(), 1);
    assert_eq!(records(&two.clock(51)?), [(9, 500, &b""[..])]);
    assert_eq!((two.time(), two.waiting()), (51, 0));
    let (sent, _) = two.send(b"", 1200)?;
    assert_eq!(
        sent[..],
        frame(2, 1251, 1 << 2 | 1 << 5 | 1 << 9, &[1000, 200, 500])
    );
    Ok(())
}

fn refusals() -> Result<(), Refusal> {
    let mut three = Panel::fresh(3)?;
    assert_eq!(Panel::fresh(64).err(), Some(Refusal::PanelNumber));
    assert_eq!(three.send(&[0; 33], 0).err(), Some(Refusal::PayloadLong));
    assert_eq!(three.beacon(&[0; 33]).err(), Some(Refusal::PayloadLong));
    assert_eq!(three.receive(&[]).err(), Some(Refusal::FrameShort));
    let own = frame(3, 9, 0, &[]);
    assert_eq!(three.receive(&own).err(), Some(Refusal::OwnSource));
    three.clock(DEADLINE_MAX)?;
    assert_eq!(three.clock(0).err(), Some(Refusal::ClockBack));
    assert_eq!(three.send(b"", 0).err(), Some(Refusal::DeadlineTooHigh));
    assert_eq!(three.beacon(b"").err(), Some(Refusal::DeadlineTooHigh));
    let late = frame(4, 9, 0, &[]);
    assert_eq!(three.receive(&late).err(), Some(Refusal::Lapsed));
    assert_eq!(frame_check(&late), Ok(()));
    assert_eq!(frame_check(&late[..22]), Err(Refusal::FrameShort));
    assert_eq!(
        frame_check(&frame(64, 9, 0, &[])),
        Err(Refusal::FrameSource)
    );
    Ok(())
}

/// At time 0, and a second later; what high forces above the sum is sent, and refused by others.
fn far_ahead() -> Result<(), Refusal> {
    let refused = Some(Refusal::TooFarAhead);
    let mut two = Panel::fresh(2)?;
    let farthest = frame(1, FARTHEST_AHEAD, 0, &[]);
    let above = frame(1, FARTHEST_AHEAD + 1, 0, &[]);
    assert_eq!(two.receive(&above).err(), refused);
    assert_eq!(two.trace(&above).refusal, refused);
    assert_eq!(two.receive(&farthest)?.len(), 1);
    let (sent, _) = two.send(b"", 0)?;
    assert_eq!(sent[..], frame(2, FARTHEST_AHEAD + 1, 2, &[FARTHEST_AHEAD]));
    assert_eq!(Panel::fresh(4)?.receive(&sent).err(), refused);
    two.clock(1)?;
    assert_eq!(two.trace(&above).refusal, None);
    assert_eq!(two.receive(&above)?.len(), 1);
    assert_eq!(Refusal::TooFarAhead.number(), 32);
    assert_eq!(
        Refusal::TooFarAhead.to_string(),
        "its deadline is above time + 1,209,600"
    );
    Ok(())
}

/// Panel 2 hands a message without that of panel 1 that it names, and drops one; in a wrong year it
/// is deaf. Set back, it refuses the first by the floor, and takes what it dropped and what is
/// later, in order.
fn set_backs() -> Result<(), Refusal> {
    let lapsed = Some(Refusal::Lapsed);
    let mut two = Panel::fresh(2)?;
    assert_eq!(two.floor(), 0);
    let dropped = frame(4, 150, 1 << 6, &[140]);
    assert!(two.receive(&frame(5, 200, 2, &[100]))?.is_empty());
    assert!(two.receive(&dropped)?.is_empty());
    assert_eq!(records(&two.clock(160)?), [(5, 200, &b""[..])]);
    assert_eq!((two.time(), two.waiting(), two.floor()), (160, 0, 100));
    two.clock(31_536_000)?;
    assert_eq!(two.receive(&frame(1, 700, 0, &[])).err(), lapsed);
    assert_eq!(two.clock(60).err(), Some(Refusal::ClockBack));
    two.set_back(31_536_001)?;
    assert_eq!(two.time(), 31_536_000);
    two.set_back(60)?;
    assert_eq!((two.time(), two.waiting(), two.floor()), (60, 0, 100));
    assert_eq!(two.receive(&frame(1, 100, 0, &[])).err(), lapsed);
    assert_eq!(two.trace(&frame(1, 100, 0, &[])).refusal, lapsed);
    assert!(two.receive(&dropped)?.is_empty());
    assert_eq!(two.receive(&frame(1, 101, 0, &[]))?.len(), 1);
    let log = two.receive(&frame(6, 140, 0, &[]))?;
    assert_eq!(records(&log), [(6, 140, &b""[..]), (4, 150, &b""[..])]);
    assert_eq!(two.trace(&frame(9, 200, 2, &[100])).refusal, None);
    assert!(two.trace(&frame(9, 200, 8, &[100])).ready);
    assert!(!two.trace(&frame(9, 200, 8, &[101])).ready);
    two.set_back(0)?;
    assert_eq!((two.time(), two.floor()), (0, 100));
    assert_eq!(
        Refusal::Lapsed.to_string(),
        "the message has lapsed: its deadline is below the time or at most the floor"
    );
    Ok(())
}

/// A receive raises the floor, and so do a send and a beacon that settle a message.
fn floor_rises() -> Result<(), Refusal> {
    let mut two = Panel::fresh(2)?;
    two.clock(160)?;
    assert_eq!(two.receive(&frame(7, 500, 1 << 8, &[120]))?.len(), 1);
    assert_eq!(two.floor(), 120);
    let after_send = frame(9, 2000, 1 << 2 | 1 << 10, &[1160, 130]);
    assert!(two.receive(&after_send)?.is_empty());
    assert_eq!(two.send(b"", 1000)?.1.len(), 2);
    assert_eq!(two.floor(), 130);
    let after_beacon = frame(11, 3000, 1 << 2 | 1 << 12, &[2001, 140]);
    assert!(two.receive(&after_beacon)?.is_empty());
    assert_eq!(two.beacon(b"")?.1.len(), 2);
    assert_eq!(two.floor(), 140);
    Ok(())
}

/// Panels 0 to 3 of a busy yard: each takes the notes before it and sends one, which names the last
/// of them alone. The last stays the same where the third comes from an old panel, and first.
fn shorter_barriers() -> Result<(), Refusal> {
    let mut notes: Vec<Vec<u8>> = Vec::new();
    for own in 0..4 {
        let mut panel = Panel::fresh(own)?;
        for note in &notes {
            assert_eq!(panel.receive(note)?.len(), 1);
        }
        let (sent, _) = panel.send(b"", 100 * u16::from(own + 1))?;
        notes.push(sent.to_vec());
    }
    assert_eq!(notes[0], frame(0, 100, 0, &[]));
    assert_eq!(notes[1], frame(1, 200, 1, &[100]));
    assert_eq!(notes[2], frame(2, 300, 2, &[200]));
    assert_eq!(notes[3], frame(3, 400, 4, &[300]));
    let mut three = Panel::fresh(3)?;
    assert!(three.receive(&frame(2, 300, 3, &[100, 200]))?.is_empty());
    assert!(three.receive(&notes[1])?.is_empty());
    assert_eq!(three.receive(&notes[0])?.len(), 3);
    assert_eq!(three.send(b"", 400)?.0[..], notes[3]);
    Ok(())
}

/// 32 wait for a message of panel 1; the 33rd is refused, and then all are handed by one call.
fn full_list() -> Result<(), Refusal> {
    let mut seven = Panel::fresh(7)?;
    for deadline in 100..132 {
        assert!(seven.receive(&frame(2, deadline, 2, &[50]))?.is_empty());
    }
    let one_more = frame(2, 132, 2, &[50]);
    assert_eq!(seven.receive(&one_more).err(), Some(Refusal::ListFull));
    let log = seven.receive(&frame(1, 50, 0, &[]))?;
    let deadlines: Vec<u64> = log.records().map(|record| record.deadline).collect();
    let expected: Vec<u64> = std::iter::once(50).chain(100..132).collect();
    assert_eq!(deadlines, expected);
    assert_eq!(log.bytes().len(), 33 * LOG_RECORD);
    Ok(())
}

/// A message after those of panels 3, 7 and 9, as they come in one after another; refusals; a frame
/// that is cut short. A trace changes nothing: what is traced is received afterwards.
fn traces() -> Result<(), Refusal> {
    let mut two = Panel::fresh(2)?;
    let later = frame(20, 1000, 1 << 3 | 1 << 7 | 1 << 9, &[100, 101, 102]);
    let traced = |refusal, ready, visited| Trace {
        refusal,
        ready,
        visited,
    };
    assert_eq!(two.trace(&later), traced(None, false, 1));
    two.receive(&frame(3, 100, 0, &[]))?;
    assert_eq!(two.trace(&later), traced(None, false, 2));
    two.receive(&frame(7, 101, 0, &[]))?;
    assert_eq!(two.trace(&later), traced(None, false, 3));
    two.clock(103)?; // the third has lapsed
    assert_eq!(two.trace(&later), traced(None, true, 3));
    assert_eq!(two.receive(&later)?.len(), 1);
    let had = Some(Refusal::HadAlready);
    assert_eq!(two.trace(&later), traced(had, true, 3));
    let own = frame(2, 1000, 1, &[500]);
    assert_eq!(two.trace(&own), traced(Some(Refusal::OwnSource), false, 1));
    let late = frame(4, 9, 0, &[]);
    assert_eq!(two.trace(&late), traced(Some(Refusal::Lapsed), true, 0));
    let cut = traced(Some(Refusal::FrameShort), false, 0);
    assert_eq!(two.trace(&later[..later.len() - 1]), cut);
    assert_eq!(two.trace(&[]), cut);
    Ok(())
}

fn logs() {
    let mut log = [0; 2 * LOG_RECORD];
    log[..12].copy_from_slice(b"\x03\0\0\0\x01\0\0\x05\x14\x02OK");
    log[LOG_RECORD..LOG_RECORD + 10].copy_from_slice(b"\x04\0\0\0\0\0\0\x05\x15\0");
    let first = LogRecord {
        source: 3,
        deadline: (1 << 32) + 1300,
        payload: b"OK",
    };
    assert_eq!(log_record(&log, 0), Some(first));
    assert_eq!(log_record(&log, 2), None);
    assert_eq!(log_record(&log, usize::MAX), None);
    assert_eq!(log_records(&log).count(), 2);
    assert_eq!(log_records(&log[..2 * LOG_RECORD - 1]).count(), 1);
    assert_eq!(log_records(&[]).count(), 0);
    log[LOG_RECORD + 9] = 33;
    assert_eq!(log_records(&log).count(), 1);
}

/// A broken bundle gives an error once, and nothing after it.
fn bundles() {
    let frames = |bytes: &'static [u8]| Bundle::new(bytes).collect::<Vec<_>>();
    assert_eq!(frames(b""), []);
    assert_eq!(frames(b"\0"), [Err(BundleBroken)]);
    assert_eq!(frames(b"\0\x01a\0\0"), [Ok(&b"a"[..]), Ok(&b""[..])]);
    assert_eq!(
        frames(b"\0\x01a\0\x02b"),
        [Ok(&b"a"[..]), Err(BundleBroken)]
    );
}

fn main() -> Result<(), Refusal> {
    sends()?;
    beacons()?;
    receives()?;
    refusals()?;
    far_ahead()?;
    versions::run()?;
    set_backs()?;
    floor_rises()?;
    shorter_barriers()?;
    full_list()?;
    traces()?;
    logs();
    bundles();
    Ok(())
}
