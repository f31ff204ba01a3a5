//! Document 01's bench cases, with the values of documents 01 and 02, on both implementations.

use crate::beacons;
use crate::bundles::printed;
use crate::calls::Call;
use crate::compare::{Both, Pair};
use crate::compose::{deadline_of, frame, logged, numbers, versions};
use crate::second::{listing, FRAME, LOG_RECORD, OUTPUT};
use crate::side::Found;
use crate::traces;
use std::path::Path;

/// Messages of a log: source, deadline and payload.
pub type Log<'log> = &'log [(u8, u64, &'log [u8])];

/// All cases. Those of the text need the program `list`.
pub fn run(both: &mut Both, program: &Path) -> Result<(), Found> {
    let cases: [fn(&mut Both) -> Result<(), Found>; 12] = [
        cases_1_to_3,
        case_4,
        case_5,
        case_6,
        case_7,
        case_8,
        case_9,
        case_10,
        case_11,
        sizes,
        beacons::run,
        traces::run,
    ];
    for case in cases {
        case(both)?;
    }
    texts_of_3_and_12(program)
}

/// A call that is accepted and hands these messages; the frame of a send or beacon.
pub fn hands(both: &mut Both, pair: &mut Pair, call: Call, log: Log) -> Result<Vec<u8>, Found> {
    let answer = beacons::call(both, pair, &call)?;
    let records = both.output().chunks_exact(LOG_RECORD).take(answer.count);
    let given: Vec<_> = records.map(logged).collect();
    if answer.number != 0 || given != log {
        let what = format!(
            "bench case: {} with {given:?}, expected 0 with {log:?}",
            answer.number
        );
        return Err(Found::new(what).with(both.script(pair)));
    }
    Ok(both.frame()[..answer.length].to_vec())
}

/// A call that is refused with this number.
pub fn refuses(both: &mut Both, pair: &mut Pair, call: Call, number: u8) -> Result<(), Found> {
    let answer = beacons::call(both, pair, &call)?;
    match answer.number == number {
        true => Ok(()),
        false => {
            let what = format!("bench case: {}, expected {number}", answer.number);
            Err(Found::new(what).with(both.script(pair)))
        }
    }
}

pub fn is(name: &str, holds: bool) -> Result<(), Found> {
    match holds {
        true => Ok(()),
        false => Err(Found::new(format!("bench case: not so: {name}"))),
    }
}

/// The bytes of the frames of cases 1 and 2.
fn first_frames() -> [Vec<u8>; 2] {
    let one = b"\x44\x52\x59\0\x02\x03\0\0\0\0\0\0\x1c\x84\0\0\0\0\0\0\0\0\x02\x4f\x4b";
    let two = b"\x44\x52\x59\0\x02\x03\0\0\0\0\0\0\x1c\x85\0\0\0\0\0\0\0\x08\
        \0\0\0\0\0\0\x1c\x84\0";
    [one.to_vec(), two.to_vec()]
}

fn cases_1_to_3(both: &mut Both) -> Result<(), Found> {
    let mut three = both.fresh(3)?;
    hands(both, &mut three, Call::clock(100), &[])?;
    let one = hands(both, &mut three, Call::send(b"OK", 0), &[(3, 7300, b"OK")])?;
    let two = hands(both, &mut three, Call::send(b"", 0), &[(3, 7301, b"")])?;
    let lengths = (one.len(), two.len()) == (25, 31);
    let mut zero = both.fresh(0)?;
    hands(both, &mut zero, Call::receive(&two), &[])?;
    let log: Log = &[(3, 7300, b"OK"), (3, 7301, b"")];
    hands(both, &mut zero, Call::receive(&one), log)?;
    is(
        "the frames of cases 1 and 2",
        lengths && [one, two] == first_frames(),
    )
}

fn texts_of_3_and_12(program: &Path) -> Result<(), Found> {
    let [one, two] = first_frames();
    let bundle = [&[0, 31], &two[..], &[0, 25], &one[..]].concat();
    let three = "frame 1 taken\nframe 2 taken\nhand 3 7300 4f4b\nhand 3 7301 -\nend\n";
    for (input, text) in [(&bundle[..], three), (b"", "end\n"), (b"\0", "broken\n")] {
        is(
            "the text of list in cases 3 and 12",
            printed(program, input)? == text,
        )?;
        is(
            "the second implementation's text of list in cases 3 and 12",
            listing(input) == text,
        )?;
    }
    Ok(())
}

fn case_4(both: &mut Both) -> Result<(), Found> {
    let (mut one, mut two) = (both.fresh(1)?, both.fresh(2)?);
    hands(both, &mut one, Call::clock(1000), &[])?;
    let first = hands(both, &mut one, Call::send(b"", 100), &[(1, 1100, b"")])?;
    hands(both, &mut two, Call::clock(500), &[])?;
    hands(both, &mut two, Call::receive(&first), &[(1, 1100, b"")])?;
    hands(both, &mut two, Call::send(b"", 50), &[(2, 1101, b"")]).map(|_| ())
}

fn case_5(both: &mut Both) -> Result<(), Found> {
    let message = frame(1, 700, &[], b"");
    let (mut alive, mut lapsed) = (both.fresh(2)?, both.fresh(2)?);
    hands(both, &mut alive, Call::clock(700), &[])?;
    hands(both, &mut alive, Call::receive(&message), &[(1, 700, b"")])?;
    hands(both, &mut lapsed, Call::clock(701), &[])?;
    refuses(both, &mut lapsed, Call::receive(&message), 21)
}

fn case_6(both: &mut Both) -> Result<(), Found> {
    const LAST: u64 = 18_446_744_073_709_551_615;
    let mut panel = both.fresh(0)?;
    hands(both, &mut panel, Call::clock(LAST - 1), &[])?;
    let sent = hands(both, &mut panel, Call::send(b"", 1), &[(0, LAST, b"")])?;
    is("the last deadline", deadline_of(&sent) == LAST)?;
    refuses(both, &mut panel, Call::send(b"", 1), 24)
}

fn case_7(both: &mut Both) -> Result<(), Found> {
    for sources in [[5, 9], [9, 5]] {
        let mut panel = both.fresh(0)?;
        for source in sources {
            let waiting = frame(source, 900, &[(1, 800)], b"");
            hands(both, &mut panel, Call::receive(&waiting), &[])?;
        }
        let arrival = Call::receive(&frame(1, 800, &[], b""));
        hands(
            both,
            &mut panel,
            arrival,
            &[(1, 800, b""), (5, 900, b""), (9, 900, b"")],
        )?;
        let marks = numbers(&[(1, 800), (5, 900), (9, 900)]);
        is("the marks of case 7", panel.module.marks == marks)?;
        let barrier = numbers(&[(5, 900), (9, 900)]);
        is("the barrier of case 7", panel.module.barrier == barrier)?;
    }
    Ok(())
}

fn case_8(both: &mut Both) -> Result<(), Found> {
    let mut panel = both.fresh(0)?;
    let waiting = frame(5, 900, &[(1, 800)], b"");
    hands(both, &mut panel, Call::receive(&waiting), &[])?;
    hands(both, &mut panel, Call::clock(901), &[])?;
    is("nothing waits in case 8", panel.module.count == 0)
}

fn case_9(both: &mut Both) -> Result<(), Found> {
    let mut panel = both.fresh(0)?;
    for deadline in 100..132 {
        let waiting = frame(5, deadline, &[(1, 50)], b"");
        hands(both, &mut panel, Call::receive(&waiting), &[])?;
    }
    let not_ready = Call::receive(&frame(6, 200, &[(1, 50)], b""));
    refuses(both, &mut panel, not_ready, 23)?;
    let ready = Call::receive(&frame(2, 300, &[], b""));
    hands(both, &mut panel, ready, &[(2, 300, b"")])?;
    let mut log: Vec<(u8, u64, &[u8])> = vec![(1, 50, b"")];
    log.extend((100..132).map(|deadline| (5, deadline, &b""[..])));
    hands(
        both,
        &mut panel,
        Call::receive(&frame(1, 50, &[], b"")),
        &log,
    )
    .map(|_| ())
}

fn case_10(both: &mut Both) -> Result<(), Found> {
    let mut panel = both.fresh(0)?;
    hands(
        both,
        &mut panel,
        Call::send(&[7; 32], 5),
        &[(0, 5, &[7; 32])],
    )?;
    refuses(both, &mut panel, Call::send(&[7; 33], 5), 9)?;
    refuses(both, &mut panel, Call::receive(b""), 1)
}

fn case_11(both: &mut Both) -> Result<(), Found> {
    let mut panel = both.fresh(0)?;
    hands(both, &mut panel, Call::clock(60), &[])?;
    hands(both, &mut panel, Call::clock(60), &[])?;
    refuses(both, &mut panel, Call::clock(59), 25)
}

/// The sizes that documents 01 and 02 give: frames of 23 to 567 bytes, of version 1 of 19 to 307,
/// received and sent, and 33 log records of 42 bytes in an output of 1,386.
fn sizes(both: &mut Both) -> Result<(), Found> {
    let entries: Vec<(u8, u64)> = (0..64).map(|panel| (panel, 1)).collect();
    let frames = [frame(1, 1, &[], b""), frame(1, 2, &entries, &[9; 32])];
    let frames = frames.map(|frame| versions(&frame)).concat();
    let lengths: Vec<_> = frames.iter().map(Vec::len).collect();
    is("the lengths of frames", lengths == [19, 23, 307, 567])?;
    is("33 log records fill an output", 33 * LOG_RECORD == OUTPUT)?;
    is("567 and 1,386 bytes", (FRAME, OUTPUT) == (567, 1386))?;
    for bytes in frames {
        let mut panel = both.fresh(63)?;
        both.call(&mut panel, &Call::receive(&bytes))?;
        refuses(both, &mut panel, Call::receive(&bytes), 22)?;
    }
    let mut panel = both.fresh(0)?;
    for source in 1..64 {
        let message = Call::receive(&frame(source, 1, &[], b""));
        hands(both, &mut panel, message, &[(source, 1, b"")])?;
    }
    let short = hands(both, &mut panel, Call::send(b"", 1), &[(0, 2, b"")])?;
    for source in 1..64 {
        let message = Call::receive(&frame(source, 2, &[], b""));
        hands(both, &mut panel, message, &[(source, 2, b"")])?;
    }
    let long = hands(
        both,
        &mut panel,
        Call::send(&[9; 32], 1),
        &[(0, 3, &[9; 32])],
    )?;
    is(
        "frames of 63 and of 64 entries",
        (short.len(), long.len()) == (527, 567),
    )
}
