//! Deadlines of 64 bits, sent and received on both sides of 4,294,967,295, which is the last
//! deadline of version 1; and the last of all, as document 02 has it in W-208: "24, and case 6 with
//! it, now stand at 18,446,744,073,709,551,615."

use crate::borders;
use crate::calls::Call;
use crate::cases::{hands, is, refuses, Log};
use crate::compare::Both;
use crate::compose::{frame, numbers, versions, BORDER};
use crate::kept::Kept;
use crate::second::LOG_RECORD;
use crate::side::Found;
use crate::traces::panel;

/// The last deadline.
pub const LAST: u64 = 18_446_744_073_709_551_615;
/// The first deadline that version 1 has no room for.
pub const ABOVE: u64 = 1 << 32;

pub fn run(both: &mut Both) -> Result<(), Found> {
    sent_across(both)?;
    received_across(both)?;
    last_by_time(both)?;
    last_by_high(both)?;
    borders::run(both)
}

/// Three sends of panel 1, the first with the last deadline of version 1: the bytes of the second
/// frame and of its log record, and the record in the end.
fn sent_across(both: &mut Both) -> Result<(), Found> {
    let mut one = both.fresh(1)?;
    hands(both, &mut one, Call::clock(BORDER - 1), &[])?;
    let first = hands(both, &mut one, Call::send(b"", 1), &[(1, BORDER, b"")])?;
    let second = hands(both, &mut one, Call::send(b"", 1), &[(1, ABOVE, b"")])?;
    let record = b"\x01\0\0\0\x01\0\0\0\0\0";
    let (written, zeros) = both.output()[..LOG_RECORD].split_at(record.len());
    is("the log record", written == record && zeros == [0; 32])?;
    let third = hands(
        both,
        &mut one,
        Call::beacon(b""),
        &[(1, BORDER + 1199, b"")],
    )?;
    is("the first frame", first == frame(1, BORDER, &[], b""))?;
    let bytes = b"\x44\x52\x59\0\x02\x01\0\0\0\x01\0\0\0\0\0\0\0\0\0\0\0\x02\
        \0\0\0\0\xff\xff\xff\xff\0";
    is("the second frame", second == bytes)?;
    is(
        "the third frame",
        third == frame(1, BORDER + 1199, &[(1, ABOVE)], b""),
    )?;
    let entries = numbers(&[(1, BORDER + 1199)]);
    let record = (one.module.high, one.module.marks, one.module.barrier);
    is(
        "high, mark and barrier",
        record == (BORDER + 1199, entries, entries),
    )
}

/// Messages on both sides of the border, the later first; what version 1 has room for comes in
/// either version.
fn received_across(both: &mut Both) -> Result<(), Found> {
    let log: Log = &[(1, BORDER, b"a"), (2, ABOVE, b"b"), (1, ABOVE + 1, b"c")];
    let last = frame(1, ABOVE + 1, &[(1, BORDER), (2, ABOVE)], b"c");
    let next = frame(2, ABOVE, &[(1, BORDER)], b"b");
    is("version 1 has no room", versions(&next).len() == 1)?;
    for first in versions(&frame(1, BORDER, &[], b"a")) {
        let mut zero = both.kept(&Kept::at(0, BORDER - 9));
        hands(both, &mut zero, Call::receive(&last), &[])?;
        hands(both, &mut zero, Call::receive(&next), &[])?;
        hands(both, &mut zero, Call::receive(&first), log)?;
        let sent = hands(both, &mut zero, Call::send(b"", 1), &[(0, ABOVE + 2, b"")])?;
        is(
            "the next frame",
            sent == frame(0, ABOVE + 2, &[(1, ABOVE + 1)], b""),
        )?;
    }
    Ok(())
}

/// The last deadline is sent by the time, and one more is 24; not so at 4,294,967,295.
fn last_by_time(both: &mut Both) -> Result<(), Found> {
    for (lifetime, seconds) in [(0, 7200), (1, 1), (1200, 1200), (u16::MAX, 65_535)] {
        for last in [BORDER, LAST] {
            let mut three = both.kept(&Kept::at(3, last - seconds));
            hands(
                both,
                &mut three,
                Call::send(b"", lifetime),
                &[(3, last, b"")],
            )?;
        }
        let mut three = both.kept(&Kept::at(3, BORDER - seconds + 1));
        hands(
            both,
            &mut three,
            Call::send(b"", lifetime),
            &[(3, ABOVE, b"")],
        )?;
        for time in [LAST - seconds + 1, LAST] {
            let mut three = both.kept(&Kept::at(3, time));
            refuses(both, &mut three, Call::send(b"", lifetime), 24)?;
        }
    }
    Ok(())
}

/// The same by high, for sends and beacons.
fn last_by_high(both: &mut Both) -> Result<(), Found> {
    for call in [Call::send(b"", 0), Call::beacon(b"")] {
        for (high, number) in [(BORDER, 0), (ABOVE, 0), (LAST - 1, 0), (LAST, 24)] {
            let kept = panel(100, &[(5, high)]);
            let mut zero = both.kept(&kept);
            match number {
                0 => _ = hands(both, &mut zero, call.clone(), &[(0, high + 1, b"")])?,
                _ => refuses(both, &mut zero, call.clone(), number)?,
            }
        }
    }
    Ok(())
}
