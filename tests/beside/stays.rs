//! What is far ahead already, or is sent so. Document 02, W-205: "Messages already waiting or
//! logged stay. A send may still pass that distance when high forces it, and other panels can take
//! it once their time is near enough." Most records here are such as a set back leaves.

use crate::ahead::{with, DAYS, FAR};
use crate::calls::Call;
use crate::cases::{hands, is, refuses, Log};
use crate::compare::{Both, Pair};
use crate::compose::frame;
use crate::side::Found;
use crate::traces::{answers, panel};

pub fn run(both: &mut Both) -> Result<(), Found> {
    copies(both)?;
    waiting_stays(both)?;
    waiting_is_handed(both)?;
    logged_stays(both)?;
    sent_far_ahead(both)
}

/// A message far ahead that waits for this one.
fn waits_for(panel: u8, deadline: u64) -> Vec<u8> {
    frame(5, FAR, &[(panel, deadline)], b"far")
}

/// So many messages are waiting.
fn waiting(pair: &Pair, many: usize) -> Result<(), Found> {
    is("how many are waiting", pair.module.count == many)
}

/// A copy of a waiting message that is far ahead is 32, and 22 once the time is near enough.
fn copies(both: &mut Both) -> Result<(), Found> {
    let message = waits_for(4, FAR - 10);
    let kept = with(&[message.clone()]);
    answers(both, &kept, &message, (32, false, 1))?;
    answers(both, &kept, &frame(5, FAR, &[], b""), (32, true, 0))?;
    let mut zero = both.kept(&kept);
    refuses(both, &mut zero, Call::receive(&message), 32)?;
    hands(both, &mut zero, Call::clock(FAR - DAYS - 1), &[])?;
    refuses(both, &mut zero, Call::receive(&message), 32)?;
    hands(both, &mut zero, Call::clock(FAR - DAYS), &[])?;
    refuses(both, &mut zero, Call::receive(&message), 22)
}

/// A waiting message that is far ahead stays, whatever is called, until it has lapsed. What it
/// waits for may be far ahead too.
fn waiting_stays(both: &mut Both) -> Result<(), Found> {
    for message in [waits_for(4, 2000), waits_for(4, FAR - 1)] {
        let mut zero = both.kept(&with(&[message]));
        hands(both, &mut zero, Call::clock(1000), &[])?;
        waiting(&zero, 1)?;
        hands(both, &mut zero, Call::clock(1500), &[])?;
        waiting(&zero, 1)?;
        hands(both, &mut zero, Call::send(b"", 10), &[(0, 1510, b"")])?;
        waiting(&zero, 1)?;
        hands(both, &mut zero, Call::beacon(b""), &[(0, 2700, b"")])?;
        waiting(&zero, 1)?;
        let ready = Call::receive(&frame(6, 1600, &[], b""));
        hands(both, &mut zero, ready, &[(6, 1600, b"")])?;
        waiting(&zero, 1)?;
        let not_ready = Call::receive(&frame(6, 3000, &[(4, 1999)], b""));
        hands(both, &mut zero, not_ready, &[])?;
        waiting(&zero, 2)?;
        hands(both, &mut zero, Call::clock(FAR + 1), &[])?;
        waiting(&zero, 0)?;
    }
    Ok(())
}

/// It is handed once what it waits for is received or sent, or has lapsed.
fn waiting_is_handed(both: &mut Both) -> Result<(), Found> {
    let handed: (u8, u64, &[u8]) = (5, FAR, b"far");
    let four = Call::receive(&frame(4, 2000, &[], b""));
    let cases = [
        (4, 2000, four, Some((4, 2000, &b""[..]))),
        (4, 2000, Call::clock(2001), None),
        (0, 1010, Call::send(b"", 10), Some((0, 1010, b""))),
        (0, 2200, Call::beacon(b""), Some((0, 2200, b""))),
    ];
    for (panel, deadline, call, first) in cases {
        let mut zero = both.kept(&with(&[waits_for(panel, deadline)]));
        let log: Vec<_> = first.into_iter().chain([handed]).collect();
        hands(both, &mut zero, call, &log)?;
        waiting(&zero, 0)?;
        // It stays in the log: the next deadline is above it.
        hands(both, &mut zero, Call::send(b"", 10), &[(0, FAR + 1, b"")])?;
    }
    Ok(())
}

/// Marks, barrier entries and high that are far ahead stay.
fn logged_stays(both: &mut Both) -> Result<(), Found> {
    let mut kept = panel(1000, &[(5, FAR)]);
    kept.barrier[5] = FAR;
    let mut zero = both.kept(&kept);
    hands(both, &mut zero, Call::clock(1500), &[])?;
    let (marks, high) = (zero.module.marks, zero.module.high);
    is("a mark far ahead", (marks[5], high) == (FAR, FAR))?;
    let after = Call::receive(&frame(6, 3000, &[(5, 2500)], b""));
    hands(both, &mut zero, after, &[(6, 3000, b"")])?;
    let sent = hands(both, &mut zero, Call::send(b"", 10), &[(0, FAR + 1, b"")])?;
    let entries = [(5, FAR), (6, 3000)];
    is(
        "a frame far ahead",
        sent == frame(0, FAR + 1, &entries, b""),
    )?;
    let sent = hands(both, &mut zero, Call::beacon(b""), &[(0, FAR + 2, b"")])?;
    is(
        "a beacon's frame far ahead",
        sent == frame(0, FAR + 2, &[(0, FAR + 1)], b""),
    )
}

/// A send passes the distance when high forces it: panel 1 takes the farthest deadline, and what it
/// sends then is 32 at panel 2, which takes it one second later. With a beacon it is the same.
fn sent_far_ahead(both: &mut Both) -> Result<(), Found> {
    let (mut one, mut two) = (both.fresh(1)?, both.fresh(2)?);
    let mut three = both.fresh(3)?;
    hands(both, &mut one, Call::clock(1000), &[])?;
    hands(both, &mut two, Call::clock(1000), &[])?;
    hands(both, &mut three, Call::clock(DAYS), &[])?;
    let log: Log = &[
        (3, 1000 + DAYS, b""),
        (1, 1001 + DAYS, b"note"),
        (1, 1002 + DAYS, b"OK"),
    ];
    let first = hands(both, &mut three, Call::send(b"", 1000), &log[..1])?;
    hands(both, &mut one, Call::receive(&first), &log[..1])?;
    let note = hands(both, &mut one, Call::send(b"note", 0), &log[1..2])?;
    let beacon = hands(both, &mut one, Call::beacon(b"OK"), &log[2..])?;
    refuses(both, &mut two, Call::receive(&note), 32)?;
    refuses(both, &mut two, Call::receive(&beacon), 32)?;
    hands(both, &mut two, Call::clock(1001), &[])?;
    refuses(both, &mut two, Call::receive(&beacon), 32)?;
    hands(both, &mut two, Call::receive(&note), &[])?;
    hands(both, &mut two, Call::receive(&first), &log[..2])?;
    hands(both, &mut two, Call::clock(1002), &[])?;
    hands(both, &mut two, Call::receive(&beacon), &log[2..]).map(|_| ())
}
