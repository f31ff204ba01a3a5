//! Deadlines far ahead, as document 02 has them in W-205: "A received deadline above time +
//! 1,209,600 (14 days) is now refused", with "32: deadline above that sum, taken without wrapping;
//! directly after 21".

use crate::bundles::{bundle_of, printed};
use crate::calls::Call;
use crate::cases::{hands, is, refuses};
use crate::compare::Both;
use crate::compose::{frame, BORDER};
use crate::kept::Kept;
use crate::second::{listing, FRAME, OUTPUT};
use crate::side::Found;
use crate::stays;
use crate::traces::{answers, panel, Entries, Expected};
use std::path::Path;

/// The seconds of 14 days.
pub const DAYS: u64 = 1_209_600;
/// A deadline that is far ahead at time 1000.
pub const FAR: u64 = 5_000_000;

/// All cases. Those of the text need the program `list`.
pub fn run(both: &mut Both, program: &Path) -> Result<(), Found> {
    farthest(both)?;
    last_deadlines(both)?;
    taken_later(both)?;
    visits(both)?;
    other_refusals_of_the_state(both)?;
    refusals_before_the_state(both)?;
    full(both)?;
    stays::run(both)?;
    texts(program)
}

/// Panel 0 at time 1000, where these frames are waiting.
pub fn with(frames: &[Vec<u8>]) -> Kept {
    Kept {
        count: frames.len(),
        frames: frames.to_vec(),
        ..Kept::at(0, 1000)
    }
}

/// Frames of source 1 without entries, each at a panel 0 of its own.
fn each(both: &mut Both, cases: &[(u64, u64, u8)]) -> Result<(), Found> {
    cases.iter().try_for_each(|(time, deadline, number)| {
        let bytes = frame(1, *deadline, &[], b"");
        answers(both, &Kept::at(0, *time), &bytes, (*number, true, 0))
    })
}

/// A deadline equal to time + 1,209,600 is taken, and one more is 32. A fresh panel is at time 0.
fn farthest(both: &mut Both) -> Result<(), Found> {
    let mut fresh = both.fresh(0)?;
    let far = Call::receive(&frame(1, 1_209_601, &[], b""));
    refuses(both, &mut fresh, far, 32)?;
    let near = Call::receive(&frame(1, 1_209_600, &[], b""));
    hands(both, &mut fresh, near, &[(1, 1_209_600, b"")])?;
    for time in [0, 1, 1000, DAYS, 1 << 31, BORDER - DAYS, BORDER, 1 << 63] {
        let sum = time + DAYS;
        let far = [sum + 1, sum + 2, sum + DAYS, time + (1 << 32), u64::MAX];
        each(both, &far.map(|deadline| (time, deadline, 32)))?;
        let near = [time.max(1), sum - 1, sum];
        each(both, &near.map(|deadline| (time, deadline, 0)))?;
    }
    Ok(())
}

/// Within 14 days of the last deadline nothing is far ahead.
fn last_deadlines(both: &mut Both) -> Result<(), Found> {
    let cases = [
        (18_446_744_073_708_342_014, 18_446_744_073_709_551_615, 32),
        (18_446_744_073_708_342_014, 18_446_744_073_709_551_614, 0),
        (18_446_744_073_708_342_015, 18_446_744_073_709_551_615, 0),
        (18_446_744_073_708_342_016, 18_446_744_073_709_551_615, 0),
        (18_446_744_073_708_342_016, 18_446_744_073_709_551_614, 0),
        (18_446_744_073_708_342_016, 18_446_744_073_708_342_015, 21),
        (18_446_744_073_709_551_614, 18_446_744_073_709_551_615, 0),
        (18_446_744_073_709_551_615, 18_446_744_073_709_551_615, 0),
        (18_446_744_073_709_551_615, 18_446_744_073_709_551_614, 21),
        (18_446_744_073_709_551_615, 1, 21),
    ];
    each(both, &cases)
}

/// Refused, however often it comes, and taken one second later.
fn taken_later(both: &mut Both) -> Result<(), Found> {
    let mut two = both.fresh(2)?;
    let message = || Call::receive(&frame(1, 101 + DAYS, &[], b""));
    refuses(both, &mut two, message(), 32)?;
    hands(both, &mut two, Call::clock(100), &[])?;
    refuses(both, &mut two, message(), 32)?;
    hands(both, &mut two, Call::clock(100), &[])?;
    refuses(both, &mut two, message(), 32)?;
    hands(both, &mut two, Call::clock(101), &[])?;
    hands(both, &mut two, message(), &[(1, 101 + DAYS, b"")])?;
    refuses(both, &mut two, message(), 22)
}

/// Ready and visits beside 32 are those of the test. It is the deadline that is far ahead, whatever
/// the entries are.
fn visits(both: &mut Both) -> Result<(), Found> {
    let kept = panel(1000, &[(3, 1060), (7, 1070)]);
    let cases: &[(u64, Entries, Expected)] = &[
        (1001 + DAYS, &[], (32, true, 0)),
        (1001 + DAYS, &[(3, 1060), (4, 999)], (32, true, 2)),
        (1001 + DAYS, &[(3, 1060), (4, 1000)], (32, false, 2)),
        (1001 + DAYS, &[(3, 1061), (4, 1000)], (32, false, 1)),
        (1001 + DAYS, &[(3, 1000 + DAYS)], (32, false, 1)),
        (FAR, &[(3, 1060), (7, 1070), (9, FAR - 1)], (32, false, 3)),
        (1000 + DAYS, &[(3, 1060), (9, 999 + DAYS)], (0, false, 2)),
        (1000 + DAYS, &[(3, 1060), (7, 1070)], (0, true, 2)),
    ];
    cases.iter().try_for_each(|(deadline, entries, expected)| {
        answers(both, &kept, &frame(5, *deadline, entries, b""), *expected)
    })
}

/// 20 comes before 32, and 22 behind it: a copy of a message that is far ahead in the log is 32. No
/// message is both lapsed and far ahead.
fn other_refusals_of_the_state(both: &mut Both) -> Result<(), Found> {
    let kept = panel(1000, &[(0, FAR), (1, FAR)]);
    let cases = [
        (0, FAR + 1, 20),
        (0, FAR, 20),
        (0, 1001 + DAYS, 20),
        (0, 999, 20),
        (1, 999, 21),
        (1, 1000, 22),
        (1, 1000 + DAYS, 22),
        (1, 1001 + DAYS, 32),
        (1, FAR, 32),
        (1, FAR + 1, 32),
        (2, 1000 + DAYS, 0),
    ];
    cases.iter().try_for_each(|(source, deadline, number)| {
        let bytes = frame(*source, *deadline, &[], b"");
        answers(both, &kept, &bytes, (*number, true, 0))
    })
}

/// 26, 10 and 1 to 8 come before 32.
fn refusals_before_the_state(both: &mut Both) -> Result<(), Found> {
    let far = frame(5, FAR, &[(3, 2000)], b"up");
    let broken = Kept::at(64, 1000);
    answers(both, &broken, &far, (26, false, 1))?;
    let mut zero = both.kept(&Kept::at(0, 1000));
    let short = Call::receive(&far).lent(OUTPUT - 1, FRAME);
    refuses(both, &mut zero, short, 10)?;
    let changed = |place: usize, byte: u8| {
        let mut bytes = far.clone();
        bytes[place] = byte;
        bytes
    };
    let frames = [
        (1, far[..far.len() - 1].to_vec()),
        (2, changed(0, 0x45)),
        (3, changed(4, 3)),
        (4, changed(5, 64)),
        (6, changed(22, 0xff)),
        (7, changed(30, 33)),
        (8, [&far[..], b"!"].concat()),
    ];
    frames
        .iter()
        .try_for_each(|(number, bytes)| refuses(both, &mut zero, Call::receive(bytes), *number))
}

/// With 32 waiting a message far ahead is 32, ready or not.
fn full(both: &mut Both) -> Result<(), Found> {
    let frames: Vec<Vec<u8>> = (0..32)
        .map(|more| frame(6, 3000 + more, &[(4, 2000)], b""))
        .collect();
    let kept = with(&frames);
    let not_ready: Entries = &[(4, 2000)];
    let cases: &[(u64, Entries, Expected)] = &[
        (1001 + DAYS, not_ready, (32, false, 1)),
        (1001 + DAYS, &[], (32, true, 0)),
        (1000 + DAYS, not_ready, (23, false, 1)),
        (1000 + DAYS, &[], (0, true, 0)),
    ];
    cases.iter().try_for_each(|(deadline, entries, expected)| {
        answers(both, &kept, &frame(5, *deadline, entries, b""), *expected)
    })
}

/// `list` feeds a panel at time 0.
fn texts(program: &Path) -> Result<(), Found> {
    let frames = [(1, DAYS + 1), (1, DAYS), (1, DAYS), (0, DAYS + 1), (2, 1)];
    let frames = frames.map(|(source, deadline)| frame(source, deadline, &[], b""));
    let bundle = bundle_of(&frames);
    let text = "frame 1 32\nframe 2 taken\nhand 1 1209600 -\nframe 3 22\nframe 4 20\n\
        frame 5 taken\nhand 2 1 -\nend\n";
    is(
        "the text of list with deadlines far ahead",
        printed(program, &bundle)? == text,
    )?;
    is(
        "the second implementation's text of list with deadlines far ahead",
        listing(&bundle) == text,
    )
}
