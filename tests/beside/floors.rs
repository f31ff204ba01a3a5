//! What the floor decides, as document 02 has it in W-207: "Lapsed now means a deadline below the
//! time or at most the floor, and an entry is met in the same sense." Many records here are such as
//! no list reaches.

use crate::ahead::DAYS;
use crate::calls::Call;
use crate::cases::{hands, refuses, Log};
use crate::compare::{Both, Pair};
use crate::compose::frame;
use crate::kept::Kept;
use crate::rises;
use crate::second::{FRAME, OUTPUT};
use crate::set_backs;
use crate::side::Found;
use crate::traces::{answers, panel, Entries, Expected};

pub fn run(both: &mut Both) -> Result<(), Found> {
    lapsed(both)?;
    about_the_half(both)?;
    met(both)?;
    below_the_time(both)?;
    other_refusals(both)?;
    lapsed_as_it_is_sent(both)?;
    dropped_by_the_floor(both)?;
    whatever_the_floor(both)?;
    rises::run(both)?;
    set_backs::run(both)
}

/// Panel 0 at this time, with this floor and these marks.
pub fn floored(time: u64, floor: u64, marks: Entries) -> Kept {
    Kept {
        floor,
        ..panel(time, marks)
    }
}

/// The same record, where these frames are waiting.
pub fn waiting(kept: Kept, frames: &[Vec<u8>]) -> Kept {
    Kept {
        count: frames.len(),
        frames: frames.to_vec(),
        ..kept
    }
}

/// A panel has this time and this floor, and so many messages wait there.
pub fn has(both: &Both, pair: &Pair, expected: (u64, u64, usize)) -> Result<(), Found> {
    let given = (pair.module.time, pair.module.floor, pair.module.count);
    match given == expected {
        true => Ok(()),
        false => {
            let what = format!("time, floor and waiting {given:?}, expected {expected:?}");
            Err(Found::new(format!("the floor: {what}")).with(both.script(pair)))
        }
    }
}

/// Makes a call that hands these messages; the panel has this floor then.
pub fn raises(both: &mut Both, kept: &Kept, call: Call, log: Log, floor: u64) -> Result<(), Found> {
    let mut pair = both.kept(kept);
    hands(both, &mut pair, call, log)?;
    let (time, count) = (pair.module.time, pair.module.count);
    has(both, &pair, (time, floor, count))
}

/// Frames of source 1 without entries: time, floor and deadline, and what they are answered with.
fn each(both: &mut Both, cases: &[(u64, u64, u64, u8)]) -> Result<(), Found> {
    cases
        .iter()
        .try_for_each(|(time, floor, deadline, number)| {
            let kept = floored(*time, *floor, &[]);
            let bytes = frame(1, *deadline, &[], b"");
            answers(both, &kept, &bytes, (*number, true, 0))
        })
}

/// A deadline equal to the floor has lapsed, and one above it is alive, as far as the time goes.
fn lapsed(both: &mut Both) -> Result<(), Found> {
    let cases = [
        (100, 200, 199, 21),
        (100, 200, 200, 21),
        (100, 200, 201, 0),
        (100, 100, 100, 21),
        (100, 100, 101, 0),
        (100, 99, 99, 21),
        (100, 99, 100, 0),
        (100, 50, 99, 21),
        (0, 0, 1, 0),
        (0, 1, 1, 21),
        (0, 1, 2, 0),
        (0, u64::MAX, 1, 21),
        (u64::MAX, u64::MAX, u64::MAX, 21),
        (u64::MAX, u64::MAX - 1, u64::MAX, 0),
        (u64::MAX - 1, u64::MAX - 1, u64::MAX - 1, 21),
    ];
    each(both, &cases)
}

/// Floors and deadlines below and above 2 to the power 31, 32 and 63: none of them has a sign, and
/// all their bits are compared.
fn about_the_half(both: &mut Both) -> Result<(), Found> {
    for half in [1 << 31, 1 << 32, 1 << 63] {
        let cases = [
            (half - 9, half + 5, half - 1, 21),
            (half - 9, half + 5, half + 5, 21),
            (half - 9, half + 5, half + 6, 0),
            (half - 9, half - 5, half - 5, 21),
            (half - 9, half - 5, half + 5, 0),
        ];
        each(both, &cases)?;
    }
    Ok(())
}

/// An entry is met that is at most the floor, whatever the time and the mark are. Each counts as a
/// visit.
fn met(both: &mut Both) -> Result<(), Found> {
    let cases: &[(Entries, Expected)] = &[
        (&[(4, 99)], (0, true, 1)),
        (&[(4, 100)], (0, true, 1)),
        (&[(4, 200)], (0, true, 1)),
        (&[(4, 201)], (0, false, 1)),
        (&[(3, 151)], (0, true, 1)),
        (&[(3, 201)], (0, false, 1)),
        (&[(3, 150), (4, 200), (7, 250)], (0, true, 3)),
        (&[(3, 151), (4, 200), (7, 251)], (0, false, 3)),
        (&[(3, 200), (4, 201), (7, 250)], (0, false, 2)),
    ];
    let kept = floored(100, 200, &[(3, 150), (7, 250)]);
    cases.iter().try_for_each(|(entries, expected)| {
        answers(both, &kept, &frame(5, 300, entries, b""), *expected)
    })?;
    let full = (0..32).map(|more| frame(6, 400 + more, &[(4, 300)], b""));
    let full = waiting(kept, &full.collect::<Vec<_>>());
    answers(both, &full, &frame(5, 300, &[(4, 200)], b""), (0, true, 1))?;
    answers(
        both,
        &full,
        &frame(5, 300, &[(4, 201)], b""),
        (23, false, 1),
    )
}

/// A floor below the time decides nothing: so it is as long as no clock is set back.
fn below_the_time(both: &mut Both) -> Result<(), Found> {
    let cases: &[(u64, Entries, Expected)] = &[
        (98, &[], (21, true, 0)),
        (99, &[(4, 98)], (21, true, 1)),
        (100, &[(4, 99)], (0, true, 1)),
        (200, &[(3, 150), (4, 99)], (0, true, 2)),
        (200, &[(3, 151), (4, 99)], (0, false, 1)),
        (200, &[(3, 150), (4, 100)], (0, false, 2)),
    ];
    for floor in [0, 1, 50, 98, 99] {
        let kept = floored(100, floor, &[(3, 150)]);
        for (deadline, entries, expected) in cases {
            answers(both, &kept, &frame(5, *deadline, entries, b""), *expected)?;
        }
    }
    Ok(())
}

/// 20 comes before 21 by the floor, and 32 and 22 behind it. It is the time that a message is far
/// ahead of, and not the floor.
fn other_refusals(both: &mut Both) -> Result<(), Found> {
    let kept = floored(0, 2 * DAYS, &[(0, 50), (1, 50)]);
    let cases = [
        (0, 50, 20),
        (0, 2 * DAYS, 20),
        (1, 50, 21),
        (1, 51, 21),
        (2, DAYS, 21),
        (2, DAYS + 1, 21),
        (2, 2 * DAYS, 21),
        (2, 2 * DAYS + 1, 32),
    ];
    for (source, deadline, number) in cases {
        let bytes = frame(source, deadline, &[], b"");
        answers(both, &kept, &bytes, (number, true, 0))?;
    }
    let lapsed = frame(2, 90, &[], b"");
    let mut zero = both.kept(&kept);
    let short = Call::receive(&lapsed).lent(OUTPUT - 1, FRAME);
    refuses(both, &mut zero, short, 10)?;
    let cut_short = Call::receive(&lapsed[..lapsed.len() - 1]);
    refuses(both, &mut zero, cut_short, 1)?;
    let broken = Kept { own: 64, ..kept };
    answers(both, &broken, &lapsed, (26, true, 0))
}

/// An own message that has lapsed by the floor is handed all the same, and the floor has no part in
/// its deadline.
fn lapsed_as_it_is_sent(both: &mut Both) -> Result<(), Found> {
    for floor in [109, 110, 111, 5000, u64::MAX] {
        let kept = floored(100, floor, &[]);
        raises(both, &kept, Call::send(b"", 10), &[(0, 110, b"")], floor)?;
        raises(both, &kept, Call::beacon(b""), &[(0, 1300, b"")], floor)?;
    }
    Ok(())
}

/// A clock call drops what has lapsed by the floor, before it settles. A receive hands it, as it is
/// ready.
fn dropped_by_the_floor(both: &mut Both) -> Result<(), Found> {
    let frames = [
        frame(5, 199, &[(4, 150)], b""),
        frame(5, 200, &[(4, 150)], b""),
        frame(6, 201, &[(4, 200)], b""),
        frame(6, 202, &[(4, 201)], b""),
    ];
    let kept = waiting(floored(100, 200, &[]), &frames);
    let mut zero = both.kept(&kept);
    hands(both, &mut zero, Call::clock(100), &[(6, 201, b"")])?;
    has(both, &zero, (100, 200, 1))?;
    let call = Call::receive(&frame(7, 300, &[], b""));
    let log: Log = &[(7, 300, b""), (5, 199, b""), (5, 200, b""), (6, 201, b"")];
    raises(both, &kept, call, log, 200)
}

/// 26 does not look at the floor: below and above the time and high, up to the last, all calls go.
fn whatever_the_floor(both: &mut Both) -> Result<(), Found> {
    for floor in [0, 99, 100, 101, 300, 301, u64::MAX] {
        let kept = floored(100, floor, &[(3, 300)]);
        let mut zero = both.kept(&kept);
        hands(both, &mut zero, Call::set_back(90), &[])?;
        hands(both, &mut zero, Call::clock(110), &[])?;
        hands(both, &mut zero, Call::send(b"", 1), &[(0, 301, b"")])?;
        hands(both, &mut zero, Call::beacon(b""), &[(0, 1310, b"")])?;
        let number = if floor < 302 { 0 } else { 21 };
        answers(both, &kept, &frame(1, 302, &[], b""), (number, true, 0))?;
    }
    Ok(())
}
