//! Traces: the number that a receive would answer, ready, and the visits as document 02 has them in
//! W-202: "the set bits up to the first entry that is not met, that one included, or all of them".

use crate::calls::Call;
use crate::compare::Both;
use crate::compose::{frame, numbers, versions};
use crate::kept::Kept;
use crate::second::{Answer, Test};
use crate::side::Found;

/// What a trace has to answer: number, ready and visited.
pub type Expected = (u8, bool, usize);

/// Entries of a frame, or marks of a record: panel and deadline.
pub type Entries<'entries> = &'entries [(u8, u64)];

pub fn run(both: &mut Both) -> Result<(), Found> {
    written_out(both)?;
    met_and_not_met(both)?;
    ends_of_the_mask(both)?;
    long_masks(both)?;
    unreadable(both)?;
    broken(both)?;
    refused(both)?;
    waiting(both)?;
    full(both)
}

/// Panel 0 at this time, with these marks.
pub fn panel(time: u64, marks: Entries) -> Kept {
    Kept {
        high: highest(marks),
        marks: numbers(marks),
        ..Kept::at(0, time)
    }
}

/// The highest of these entries, 0 for none.
pub fn highest(entries: Entries) -> u64 {
    entries.iter().map(|(_, entry)| *entry).max().unwrap_or(0)
}

/// Panel 0 at time 50, with marks of panels 3, 7 and 9.
fn zero() -> Kept {
    panel(50, &[(3, 60), (7, 70), (9, 90)])
}

/// The same, where these frames are waiting.
fn zero_with(frames: Vec<Vec<u8>>) -> Kept {
    Kept {
        count: frames.len(),
        frames,
        ..zero()
    }
}

/// A trace of a frame on this record answers as expected, in each version that has room for it.
pub fn answers(
    both: &mut Both,
    kept: &Kept,
    frame: &[u8],
    expected: Expected,
) -> Result<(), Found> {
    let mut versions = versions(frame).into_iter();
    versions.try_for_each(|bytes| traced(both, kept, &bytes, expected))
}

/// A trace of these bytes on this record answers as expected. A receive is then made too, and with
/// it the trace once more.
pub fn traced(both: &mut Both, kept: &Kept, bytes: &[u8], expected: Expected) -> Result<(), Found> {
    let (number, ready, visited) = expected;
    let expected = Answer {
        number,
        count: 0,
        length: 0,
        test: Some(Test { ready, visited }),
    };
    let mut pair = both.kept(kept);
    let answer = both.call(&mut pair, &Call::trace(bytes))?;
    if answer != expected {
        let what = format!("bench case: {answer}, expected {expected}");
        return Err(Found::new(what).with(both.script(&pair)));
    }
    both.call(&mut pair, &Call::receive(bytes)).map(|_| ())
}

/// Frames of source 5 with deadline 100 and these entries.
fn each(both: &mut Both, kept: &Kept, cases: &[(Entries, Expected)]) -> Result<(), Found> {
    cases.iter().try_for_each(|(entries, expected)| {
        answers(both, kept, &frame(5, 100, entries, b"up"), *expected)
    })
}

/// The bytes of a frame with entries of panels 3, 7 and 9: the mask is 8 + 128 + 512.
fn written_out(both: &mut Both) -> Result<(), Found> {
    let mut bytes = *b"\x44\x52\x59\0\x02\x05\0\0\0\0\0\0\0\x64\0\0\0\0\0\0\x02\x88\
        \0\0\0\0\0\0\0\x3c\0\0\0\0\0\0\0\x46\0\0\0\0\0\0\0\x5a\0";
    answers(both, &zero(), &bytes, (0, true, 3))?;
    bytes[37] = 0x47;
    answers(both, &zero(), &bytes, (0, false, 2))
}

/// An entry is met that its mark reaches, or that has lapsed (here the floor is 0). Each counts as
/// a visit.
fn met_and_not_met(both: &mut Both) -> Result<(), Found> {
    let cases: &[(Entries, Expected)] = &[
        (&[], (0, true, 0)),
        (&[(3, 59)], (0, true, 1)),
        (&[(3, 60)], (0, true, 1)),
        (&[(3, 61)], (0, false, 1)),
        (&[(4, 49)], (0, true, 1)),
        (&[(4, 50)], (0, false, 1)),
        (&[(3, 60), (7, 71), (9, 91)], (0, false, 2)),
        (&[(3, 60), (7, 70), (9, 90)], (0, true, 3)),
        (&[(3, 61), (7, 70), (9, 90)], (0, false, 1)),
        (&[(3, 60), (7, 70), (9, 91)], (0, false, 3)),
        (&[(2, 49), (3, 60), (4, 1), (8, 99)], (0, false, 4)),
        (&[(2, 49), (4, 50), (8, 49), (9, 91)], (0, false, 2)),
        (&[(2, 1), (4, 49), (8, 48)], (0, true, 3)),
    ];
    each(both, &zero(), cases)
}

/// Entries of panels 0 and 63.
fn ends_of_the_mask(both: &mut Both) -> Result<(), Found> {
    let cases: &[(Entries, Expected)] = &[
        (&[(0, 60), (63, 60)], (0, true, 2)),
        (&[(0, 61), (63, 60)], (0, false, 1)),
        (&[(0, 60), (63, 61)], (0, false, 2)),
        (&[(0, 60)], (0, true, 1)),
        (&[(0, 61)], (0, false, 1)),
        (&[(63, 60)], (0, true, 1)),
        (&[(63, 61)], (0, false, 1)),
    ];
    each(both, &panel(50, &[(0, 60), (63, 60)]), cases)
}

/// 64 entries and 63, all of them met, or all but one.
fn long_masks(both: &mut Both) -> Result<(), Found> {
    let entries: Vec<(u8, u64)> = (0..64).map(|panel| (panel, 60)).collect();
    let all_met = panel(50, &entries);
    let cases: &[(Entries, Expected)] = &[
        (&entries, (0, true, 64)),
        (&entries[1..], (0, true, 63)),
        (&entries[..63], (0, true, 63)),
    ];
    each(both, &all_met, cases)?;
    for not_met in 0..64 {
        let mut kept = all_met.clone();
        kept.marks[not_met] = 59;
        each(both, &kept, &[(&entries, (0, false, not_met + 1))])?;
    }
    Ok(())
}

/// Bytes that read as no message, for each of the reading's numbers, in both versions.
fn unreadable(both: &mut Both) -> Result<(), Found> {
    let whole = versions(&frame(5, 100, &[(3, 60), (7, 70)], b"up"));
    let broken = Kept { own: 64, ..zero() };
    for (whole, width) in whole.iter().zip([4, 8]) {
        for (number, bytes) in unreadable_like(whole, width) {
            traced(both, &zero(), &bytes, (number, false, 0))?;
            traced(both, &broken, &bytes, (26, false, 0))?;
        }
    }
    Ok(())
}

/// A frame with two entries, and deadlines and entries of so many bytes: damaged, with the number
/// that it is turned down with.
fn unreadable_like(whole: &[u8], width: usize) -> [(u8, Vec<u8>); 10] {
    let changed = |place: usize, byte: u8| {
        let mut bytes = whole.to_vec();
        bytes[place] = byte;
        bytes
    };
    let entries_at = 14 + width;
    let length_at = entries_at + 2 * width;
    [
        (1, Vec::new()),
        (1, whole[..entries_at].to_vec()),
        (1, whole[..whole.len() - 1].to_vec()),
        (2, changed(0, 0x45)),
        (3, changed(4, 3)),
        (4, changed(5, 64)),
        (5, changed(5 + width, 0)),
        (6, changed(length_at - 1, 100)),
        (7, changed(length_at, 33)),
        (8, [whole, b"!"].concat()),
    ]
}

/// A broken record has marks and a time too.
fn broken(both: &mut Both) -> Result<(), Found> {
    let mut high_barrier = zero();
    high_barrier.barrier[1] = 91;
    let broken = [
        Kept { own: 64, ..zero() },
        Kept { high: 89, ..zero() },
        Kept {
            count: 33,
            ..zero()
        },
        zero_with(vec![frame(64, 80, &[], b"")]),
        high_barrier,
    ];
    let cases: &[(Entries, Expected)] = &[
        (&[], (26, true, 0)),
        (&[(3, 60), (7, 71), (9, 91)], (26, false, 2)),
        (&[(3, 60), (4, 49), (9, 90)], (26, true, 3)),
    ];
    for kept in broken {
        each(both, &kept, cases)?;
        // 21 applies as well, and 20 where the own number is 0.
        answers(both, &kept, &frame(0, 49, &[], b""), (26, true, 0))?;
    }
    Ok(())
}

/// 20, 21 and 22, in their order. A message that has lapsed is ready, as its entries are below its
/// deadline.
fn refused(both: &mut Both) -> Result<(), Found> {
    let kept = panel(50, &[(0, 45), (3, 60), (7, 70)]);
    let cases: &[(u8, u64, Entries, Expected)] = &[
        (0, 100, &[(3, 60), (4, 50), (7, 71)], (20, false, 2)),
        (0, 100, &[(3, 60), (7, 70)], (20, true, 2)),
        (0, 45, &[(3, 44)], (20, true, 1)),
        (5, 49, &[(3, 48), (4, 1), (7, 2)], (21, true, 3)),
        (5, 50, &[(3, 48), (4, 49)], (0, true, 2)),
        (3, 49, &[], (21, true, 0)),
        (3, 59, &[(4, 49), (7, 58)], (22, true, 2)),
        (3, 60, &[(4, 50), (7, 59)], (22, false, 1)),
        (3, 61, &[(3, 60), (4, 50)], (0, false, 2)),
    ];
    cases
        .iter()
        .try_for_each(|(source, deadline, entries, expected)| {
            answers(
                both,
                &kept,
                &frame(*source, *deadline, entries, b""),
                *expected,
            )
        })
}

/// 22 for a message that is waiting already, whatever its entries. A message that could leave the
/// list does not do so before the test.
fn waiting(both: &mut Both) -> Result<(), Found> {
    let waits = frame(5, 100, &[(3, 60), (4, 55), (9, 91)], b"");
    let kept = zero_with(vec![waits.clone()]);
    answers(both, &kept, &waits, (22, false, 2))?;
    each(both, &kept, &[(&[], (22, true, 0))])?;
    answers(both, &kept, &frame(6, 100, &[(9, 90)], b""), (0, true, 1))?;
    answers(both, &kept, &frame(5, 101, &[(9, 91)], b""), (0, false, 1))?;
    let could_leave = zero_with(vec![frame(4, 55, &[], b"")]);
    each(both, &could_leave, &[(&[(3, 60), (4, 55)], (0, false, 2))])?;
    // One that has lapsed, as no clock call leaves it.
    let lapsed = zero_with(vec![frame(5, 49, &[(4, 48)], b"")]);
    answers(both, &lapsed, &frame(5, 49, &[(4, 48)], b""), (21, true, 1))
}

/// 23 where 32 are waiting and the message is not ready; with 31 there is a place.
fn full(both: &mut Both) -> Result<(), Found> {
    let wait = |many: u64| {
        let frames = (0..many).map(|more| frame(5, 200 + more, &[(4, 55)], b""));
        zero_with(frames.collect())
    };
    let cases: &[(Entries, Expected)] = &[
        (&[(3, 60), (7, 71), (9, 90)], (23, false, 2)),
        (&[(3, 60), (7, 70), (9, 91)], (23, false, 3)),
        (&[(3, 60), (7, 70), (9, 90)], (0, true, 3)),
        (&[], (0, true, 0)),
    ];
    each(both, &wait(32), cases)?;
    answers(
        both,
        &wait(32),
        &frame(5, 231, &[(4, 55)], b""),
        (22, false, 1),
    )?;
    each(both, &wait(31), &[(&[(3, 60), (7, 71)], (0, false, 2))])
}
