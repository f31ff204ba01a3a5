//! Beacons and lifetimes, as document 02 has them in W-203: 0 means 7,200, and a beacon "answers in
//! everything as a send with lifetime 1,200".

use crate::calls::Call;
use crate::cases::{hands, is, refuses, Log};
use crate::compare::{Both, Pair};
use crate::compose::frame;
use crate::kept::Kept;
use crate::second::{Answer, FRAME, OUTPUT};
use crate::side::Found;

/// Makes a call; of a beacon, the send on an equal panel too, which has to answer the same.
pub fn call(both: &mut Both, pair: &mut Pair, call: &Call) -> Result<Answer, Found> {
    match call {
        Call::Beacon {
            payload,
            output,
            frame,
        } => {
            let send = Call::send(payload, 1200).lent(*output, *frame);
            both.call_as(pair, call, &send)
        }
        _ => both.call(pair, call),
    }
}

pub fn run(both: &mut Both) -> Result<(), Found> {
    lifetimes(both)?;
    first_beacon(both)?;
    beacon_after_note(both)?;
    note_after_beacon(both)?;
    beacon_hands(both)?;
    last_beacon(both)?;
    refused_beacons(both)
}

/// Panel 3 at this time.
fn three_at(both: &mut Both, time: u64) -> Result<Pair, Found> {
    let mut three = both.fresh(3)?;
    hands(both, &mut three, Call::clock(time), &[])?;
    Ok(three)
}

/// 0 means 7,200, and each other lifetime itself.
fn lifetimes(both: &mut Both) -> Result<(), Found> {
    for lifetime in [0, 1, 1199, 1200, 1201, 7199, 7200, 7201, u16::MAX] {
        let seconds = match lifetime {
            0 => 7200,
            _ => u64::from(lifetime),
        };
        let mut three = three_at(both, 100)?;
        let log: Log = &[(3, 100 + seconds, b"")];
        hands(both, &mut three, Call::send(b"", lifetime), log)?;
    }
    Ok(())
}

/// Panel 3, time 100: the beacon has deadline 1300, and another panel takes its frame.
fn first_beacon(both: &mut Both) -> Result<(), Found> {
    let mut three = three_at(both, 100)?;
    let sent = hands(both, &mut three, Call::beacon(b"OK"), &[(3, 1300, b"OK")])?;
    let bytes = b"\x44\x52\x59\0\x02\x03\0\0\0\0\0\0\x05\x14\0\0\0\0\0\0\0\0\x02\x4f\x4b";
    is("the frame of a beacon", sent == bytes)?;
    let mut zero = both.fresh(0)?;
    hands(both, &mut zero, Call::receive(&sent), &[(3, 1300, b"OK")]).map(|_| ())
}

/// After case 1 a beacon has deadline high + 1, and carries the barrier.
fn beacon_after_note(both: &mut Both) -> Result<(), Found> {
    let mut three = three_at(both, 100)?;
    hands(both, &mut three, Call::send(b"OK", 0), &[(3, 7300, b"OK")])?;
    let sent = hands(both, &mut three, Call::beacon(b""), &[(3, 7301, b"")])?;
    is(
        "the frame of a beacon after a note",
        sent == frame(3, 7301, &[(3, 7300)], b""),
    )
}

/// After a beacon a note has the default lifetime, and its frame carries the beacon.
fn note_after_beacon(both: &mut Both) -> Result<(), Found> {
    let mut three = three_at(both, 100)?;
    hands(both, &mut three, Call::beacon(b"OK"), &[(3, 1300, b"OK")])?;
    let sent = hands(both, &mut three, Call::send(b"", 0), &[(3, 7300, b"")])?;
    is(
        "the frame of a note after a beacon",
        sent == frame(3, 7300, &[(3, 1300)], b""),
    )
}

/// A beacon hands what waited for it.
fn beacon_hands(both: &mut Both) -> Result<(), Found> {
    let mut three = three_at(both, 100)?;
    let waiting = frame(1, 1400, &[(3, 1300)], b"up");
    hands(both, &mut three, Call::receive(&waiting), &[])?;
    let log: Log = &[(3, 1300, b"OK"), (1, 1400, b"up")];
    hands(both, &mut three, Call::beacon(b"OK"), log).map(|_| ())
}

/// The last second in which a beacon can be sent.
fn last_beacon(both: &mut Both) -> Result<(), Found> {
    let mut three = three_at(both, u64::MAX - 1200)?;
    refuses(both, &mut three, Call::send(b"", 0), 24)?;
    hands(both, &mut three, Call::beacon(b""), &[(3, u64::MAX, b"")])?;
    refuses(both, &mut three, Call::beacon(b""), 24)?;
    let mut three = three_at(both, u64::MAX - 1199)?;
    refuses(both, &mut three, Call::beacon(b""), 24)
}

/// The refusals of a beacon, in their order.
fn refused_beacons(both: &mut Both) -> Result<(), Found> {
    let mut three = three_at(both, u64::MAX)?;
    let long = || Call::beacon(&[7; 33]);
    refuses(both, &mut three, long(), 9)?;
    refuses(both, &mut three, long().lent(OUTPUT - 1, FRAME), 10)?;
    refuses(both, &mut three, long().lent(OUTPUT, FRAME - 1), 10)?;
    let mut broken = both.kept(&Kept::at(64, 100));
    refuses(both, &mut broken, long().lent(OUTPUT - 1, FRAME), 26)
}
