//! What raises the floor, as document 02 has it in W-207: "At handing, the floor rises to the
//! largest of the message's entries that had lapsed and that the mark of the entry's panel, before
//! this handing, had not reached."

use crate::calls::Call;
use crate::cases::{hands, refuses, Log};
use crate::compare::Both;
use crate::compose::{frame, numbers};
use crate::floors::{floored, has, raises, waiting};
use crate::side::Found;
use crate::traces::{highest, panel, Entries};

pub fn run(both: &mut Both) -> Result<(), Found> {
    raised_on_arrival(both)?;
    by_its_own_panel(both)?;
    while_settling(both)?;
    reached_meanwhile(both)?;
    in_a_clock_call(both)?;
    not_handed(both)?;
    by_a_send(both)
}

/// The floor rises to the largest entry that has lapsed and that its mark has not reached, and
/// never falls. The barrier is not asked.
fn raised_on_arrival(both: &mut Both) -> Result<(), Found> {
    let cases: &[(u64, Entries, u64)] = &[
        (0, &[], 0),
        (0, &[(4, 99)], 99),
        (0, &[(4, 1)], 1),
        (0, &[(3, 59)], 0),
        (0, &[(3, 60)], 0),
        (0, &[(3, 61)], 61),
        (0, &[(3, 60), (4, 50)], 50),
        (0, &[(3, 98), (4, 97), (6, 96)], 98),
        (0, &[(3, 96), (4, 98), (6, 97)], 98),
        (0, &[(3, 96), (4, 97), (6, 98)], 98),
        (0, &[(4, 70), (7, 120)], 70),
        (80, &[(4, 79)], 80),
        (80, &[(4, 80)], 80),
        (80, &[(4, 81)], 81),
        (150, &[(4, 99)], 150),
        (150, &[(4, 149)], 150),
        (150, &[(4, 150), (6, 20)], 150),
    ];
    for (floor, entries, then) in cases {
        let mut kept = floored(100, *floor, &[(3, 60), (7, 120)]);
        kept.barrier = numbers(&[(3, 50), (4, 99), (6, 98)]);
        let call = Call::receive(&frame(5, 200, entries, b""));
        raises(both, &kept, call, &[(5, 200, b"")], *then)?;
    }
    Ok(())
}

/// The mark is asked as it was before the message raises it.
fn by_its_own_panel(both: &mut Both) -> Result<(), Found> {
    for (entry, then) in [(69, 0), (70, 0), (71, 71), (99, 99)] {
        let call = Call::receive(&frame(5, 200, &[(5, entry)], b""));
        let kept = floored(100, 0, &[(5, 70)]);
        raises(both, &kept, call, &[(5, 200, b"")], then)?;
    }
    Ok(())
}

/// Messages that are handed one after another raise the floor each, or leave it.
fn while_settling(both: &mut Both) -> Result<(), Found> {
    let frames = [
        frame(8, 320, &[(6, 310), (9, 95)], b""),
        frame(6, 310, &[(5, 300), (7, 97)], b""),
        frame(5, 300, &[(1, 200), (4, 93)], b""),
    ];
    let log: Log = &[(1, 200, b""), (5, 300, b""), (6, 310, b""), (8, 320, b"")];
    for many in 1..=3 {
        let kept = waiting(floored(100, 0, &[]), &frames[3 - many..]);
        let call = Call::receive(&frame(1, 200, &[(2, 91)], b""));
        let then = [93, 97, 97][many - 1];
        raises(both, &kept, call, &log[..=many], then)?;
    }
    Ok(())
}

/// A mark that an earlier handing of the same call raised has reached the entry.
fn reached_meanwhile(both: &mut Both) -> Result<(), Found> {
    let frames = [
        frame(5, 300, &[(4, 90), (6, 200)], b""),
        frame(6, 200, &[(4, 130)], b""),
    ];
    let log: Log = &[(4, 130, b""), (6, 200, b""), (5, 300, b"")];
    let call = Call::receive(&frame(4, 130, &[], b""));
    raises(both, &waiting(panel(100, &[]), &frames), call, log, 0)
}

/// An entry that a clock call lets lapse raises the floor, and one that is equal to the time does
/// not.
fn in_a_clock_call(both: &mut Both) -> Result<(), Found> {
    let frames = [
        frame(5, 300, &[(4, 150)], b""),
        frame(6, 310, &[(5, 300), (7, 160)], b""),
        frame(8, 320, &[(6, 310), (9, 155)], b""),
    ];
    let log: Log = &[(5, 300, b""), (6, 310, b""), (8, 320, b"")];
    let kept = waiting(panel(100, &[]), &frames);
    for (reading, many, then) in [(150, 0, 0), (151, 1, 150), (160, 1, 150), (161, 3, 160)] {
        raises(both, &kept, Call::clock(reading), &log[..many], then)?;
    }
    Ok(())
}

/// A message that waits raises nothing, and neither does one that is refused or dropped, or a
/// trace.
fn not_handed(both: &mut Both) -> Result<(), Found> {
    let mut zero = both.kept(&panel(100, &[(3, 200)]));
    let waits = frame(5, 150, &[(4, 120), (7, 90)], b"");
    both.call(&mut zero, &Call::trace(&frame(5, 150, &[(7, 90)], b"")))?;
    hands(both, &mut zero, Call::receive(&waits), &[])?;
    refuses(both, &mut zero, Call::receive(&waits), 22)?;
    let lapsed = Call::receive(&frame(6, 99, &[(7, 98)], b""));
    refuses(both, &mut zero, lapsed, 21)?;
    let logged = Call::receive(&frame(3, 200, &[(7, 98)], b""));
    refuses(both, &mut zero, logged, 22)?;
    has(both, &zero, (100, 0, 1))?;
    hands(both, &mut zero, Call::clock(151), &[])?;
    has(both, &zero, (151, 0, 0))
}

/// The own message is handed too. On a record that no list reaches the barrier has entries that
/// their marks have not reached; and a message may wait for the one that is sent.
fn by_a_send(both: &mut Both) -> Result<(), Found> {
    let cases: &[(Entries, Entries, u64)] = &[
        (&[(4, 90)], &[], 90),
        (&[(4, 90)], &[(4, 89)], 90),
        (&[(4, 90)], &[(4, 90)], 0),
        (&[(4, 99), (6, 100)], &[], 99),
        (&[(4, 100)], &[], 0),
        (&[(0, 95)], &[], 95),
        (&[(4, 90), (5, 95), (6, 93)], &[], 95),
        (&[(4, 95), (5, 90), (6, 93)], &[(4, 95)], 93),
    ];
    for (barrier, marks, then) in cases {
        let mut kept = panel(100, marks);
        (kept.barrier, kept.high) = (numbers(barrier), highest(barrier));
        raises(both, &kept, Call::send(b"", 10), &[(0, 110, b"")], *then)?;
        raises(both, &kept, Call::beacon(b""), &[(0, 1300, b"")], *then)?;
    }
    let waits = frame(5, 300, &[(0, 110), (4, 90)], b"");
    let kept = waiting(panel(100, &[]), &[waits]);
    let log: Log = &[(0, 110, b""), (5, 300, b"")];
    raises(both, &kept, Call::send(b"", 10), log, 90)
}
