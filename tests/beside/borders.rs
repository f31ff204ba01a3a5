//! Numbers of 64 bits beside each other, as document 02 has them in W-208: "Time, high, floor, marks,
//! entries and deadlines become 64 bits." They lie on both sides of 4,294,967,295, or their lower 32
//! bits stand the other way round.

use crate::calls::Call;
use crate::cases::{hands, is, refuses, Log};
use crate::compare::Both;
use crate::compose::{frame, versions, BORDER};
use crate::floors::{floored, has, raises, waiting};
use crate::kept::Kept;
use crate::side::Found;
use crate::traces::{answers, panel, Entries, Expected};
use crate::wide::{ABOVE, LAST};

pub fn run(both: &mut Both) -> Result<(), Found> {
    lapsed(both)?;
    met_and_had(both)?;
    waiting_apart(both)?;
    settled_in_order(both)?;
    clocks(both)?;
    floor_rises(both)?;
    broken(both)
}

/// Frames of source 1 without entries: time, floor, deadline and number.
fn lapsed(both: &mut Both) -> Result<(), Found> {
    let cases = [
        (BORDER, 0, BORDER - 1, 21),
        (BORDER, 0, BORDER, 0),
        (BORDER, 0, ABOVE, 0),
        (ABOVE, 0, BORDER, 21),
        (ABOVE, 0, ABOVE, 0),
        (ABOVE + 1, 0, ABOVE, 21),
        (BORDER - 9, BORDER, BORDER, 21),
        (BORDER - 9, BORDER, ABOVE, 0),
        (BORDER - 9, ABOVE, ABOVE, 21),
        (BORDER - 9, ABOVE, ABOVE + 1, 0),
        (ABOVE + 5, 0, 10, 21),
        (10, 0, ABOVE + 5, 32),
        (10, 0, ABOVE + 15, 32),
        (10, ABOVE + 5, 20, 21),
        (ABOVE, 20, ABOVE + 5, 0),
    ];
    for (time, floor, deadline, number) in cases {
        let kept = floored(time, floor, &[]);
        answers(
            both,
            &kept,
            &frame(1, deadline, &[], b""),
            (number, true, 0),
        )?;
    }
    Ok(())
}

/// Entries and deadlines beside marks.
fn met_and_had(both: &mut Both) -> Result<(), Found> {
    let marks: Entries = &[(3, BORDER), (4, ABOVE), (7, 10), (9, ABOVE + 5)];
    let kept = panel(BORDER - 9, marks);
    let cases: &[(u8, u64, Entries, Expected)] = &[
        (5, ABOVE + 9, marks, (0, true, 4)),
        (5, ABOVE + 9, &[(3, ABOVE)], (0, false, 1)),
        (5, ABOVE + 9, &[(4, BORDER), (9, BORDER)], (0, true, 2)),
        (5, ABOVE + 9, &[(4, ABOVE + 1)], (0, false, 1)),
        (5, ABOVE + 9, &[(7, ABOVE + 5)], (0, false, 1)),
        (5, ABOVE + 9, &[(7, 10), (9, BORDER - 1)], (0, true, 2)),
        (7, ABOVE + 5, &[], (0, true, 0)),
        (9, BORDER, &[], (22, true, 0)),
        (9, ABOVE + 5, &[], (22, true, 0)),
        (9, ABOVE + 6, &[], (0, true, 0)),
        (3, BORDER, &[], (22, true, 0)),
        (3, ABOVE, &[], (0, true, 0)),
    ];
    for (source, deadline, entries, expected) in cases {
        let bytes = frame(*source, *deadline, entries, b"");
        answers(both, &kept, &bytes, *expected)?;
    }
    Ok(())
}

/// A message waits whose deadline differs in the upper 32 bits alone, as after a set back: another
/// one is taken.
fn waiting_apart(both: &mut Both) -> Result<(), Found> {
    let far = frame(5, ABOVE + 1000, &[(4, ABOVE + 900)], b"");
    let kept = waiting(Kept::at(0, 500), &[far]);
    let near = frame(5, 1000, &[(4, 900)], b"");
    answers(both, &kept, &near, (0, false, 1))?;
    let mut zero = both.kept(&kept);
    hands(both, &mut zero, Call::receive(&near), &[])?;
    has(both, &zero, (500, 0, 2))
}

/// Of two messages that one arrival makes ready, that below the border goes first.
fn settled_in_order(both: &mut Both) -> Result<(), Found> {
    let frames = [
        frame(5, ABOVE, &[(1, BORDER - 5)], b""),
        frame(6, BORDER, &[(1, BORDER - 5)], b""),
    ];
    let kept = waiting(Kept::at(0, BORDER - 9), &frames);
    for arrival in versions(&frame(1, BORDER - 5, &[], b"")) {
        let log: Log = &[(1, BORDER - 5, b""), (6, BORDER, b""), (5, ABOVE, b"")];
        let mut zero = both.kept(&kept);
        hands(both, &mut zero, Call::receive(&arrival), log)?;
    }
    Ok(())
}

/// Clock calls and set backs from one side of the border to the other.
fn clocks(both: &mut Both) -> Result<(), Found> {
    let mut zero = both.kept(&Kept::at(0, 10));
    for reading in [BORDER, ABOVE, ABOVE + 5] {
        hands(both, &mut zero, Call::clock(reading), &[])?;
        has(both, &zero, (reading, 0, 0))?;
    }
    for reading in [20, BORDER, ABOVE + 4] {
        refuses(both, &mut zero, Call::clock(reading), 25)?;
    }
    for (reading, time) in [
        (LAST, ABOVE + 5),
        (ABOVE, ABOVE),
        (BORDER, BORDER),
        (ABOVE + 3, BORDER),
    ] {
        hands(both, &mut zero, Call::set_back(reading), &[])?;
        has(both, &zero, (time, 0, 0))?;
    }
    hands(both, &mut zero, Call::clock(ABOVE + 9), &[])?;
    hands(both, &mut zero, Call::set_back(20), &[])?;
    has(both, &zero, (20, 0, 0))
}

/// The floor rises to entries on both sides, as a message is received and in a clock call.
fn floor_rises(both: &mut Both) -> Result<(), Found> {
    let kept = floored(ABOVE + 9, BORDER - 1, &[]);
    let cases: &[(Entries, u64)] = &[
        (&[(3, BORDER - 2)], BORDER - 1),
        (&[(3, BORDER)], BORDER),
        (&[(3, ABOVE)], ABOVE),
        (&[(3, ABOVE + 8), (4, BORDER)], ABOVE + 8),
        (&[(3, 5), (4, ABOVE + 1)], ABOVE + 1),
    ];
    for (entries, then) in cases {
        let call = Call::receive(&frame(5, ABOVE + 20, entries, b""));
        raises(both, &kept, call, &[(5, ABOVE + 20, b"")], *then)?;
    }
    let waits = frame(5, ABOVE + 20, &[(3, BORDER), (4, ABOVE)], b"");
    let kept = waiting(Kept::at(0, BORDER - 9), &[waits]);
    raises(both, &kept, Call::clock(ABOVE), &[], 0)?;
    raises(
        both,
        &kept,
        Call::clock(ABOVE + 1),
        &[(5, ABOVE + 20, b"")],
        ABOVE,
    )
}

/// A mark or a barrier entry above high, whatever the lower 32 bits say.
fn broken(both: &mut Both) -> Result<(), Found> {
    for (entry, high, number) in [
        (BORDER, ABOVE, 0),
        (ABOVE, ABOVE, 0),
        (10, ABOVE + 5, 0),
        (ABOVE + 1, ABOVE, 26),
        (ABOVE, BORDER, 26),
        (ABOVE + 5, 10, 26),
        (LAST, LAST - 1, 26),
        (LAST, LAST, 0),
    ] {
        let at = Kept {
            high,
            ..Kept::at(0, 100)
        };
        let (mut marked, mut barred) = (at.clone(), at);
        (marked.marks[9], barred.barrier[9]) = (entry, entry);
        for kept in [marked, barred] {
            let mut zero = both.kept(&kept);
            let answer = both.call(&mut zero, &Call::clock(100))?;
            is("26 by the larger of two numbers", answer.number == number)?;
        }
    }
    Ok(())
}
