//! Shorter barriers, as document 02 has them in W-204: "When a message is handed, each barrier
//! entry that is at most the entry this message carries for the same panel is removed, before the
//! message's own goes in." Each case is written out for both makes.

use crate::calls::Call;
use crate::compare::Both;
use crate::compose::{frame, numbers};
use crate::kept::Kept;
use crate::mixed::{Mixed, Panel};
use crate::second::Make;
use crate::side::{Found, Side};
use crate::traces::{highest, Entries};

pub fn run(both: &mut Both) -> Result<(), Found> {
    let mut mixed = Mixed::new(both, 0);
    busy_yard(&mut mixed)?;
    brought(&mut mixed)?;
    borders(&mut mixed)?;
    about_the_half(&mut mixed)?;
    own_panel(&mut mixed)?;
    ends_of_the_mask(&mut mixed)?;
    while_settling(&mut mixed)?;
    by_a_clock_call(&mut mixed)?;
    by_a_send(&mut mixed)?;
    after_a_later_one(&mut mixed)?;
    only_when_handed(&mut mixed)
}

/// What the calls of a case have to leave as the barrier: at a panel of the new make, and at one of
/// the old make.
struct Left<'case> {
    new: Entries<'case>,
    old: Entries<'case>,
}

/// A panel at this time in whose log the newest messages of some panels are these, none of them
/// before its last send.
fn logged(own: u8, time: u64, entries: Entries) -> Kept {
    Kept {
        high: highest(entries),
        marks: numbers(entries),
        barrier: numbers(entries),
        ..Kept::at(own, time)
    }
}

/// Makes calls that are all accepted on a panel of each make.
fn leaves(mixed: &mut Mixed, kept: &Kept, calls: &[Call], left: &Left) -> Result<(), Found> {
    let calls: Vec<_> = calls.iter().map(|call| (call.clone(), 0)).collect();
    answers_and_leaves(mixed, kept, &calls, left)
}

/// Makes calls on a panel of each make, which are answered with these numbers.
fn answers_and_leaves(
    mixed: &mut Mixed,
    kept: &Kept,
    calls: &[(Call, u8)],
    left: &Left,
) -> Result<(), Found> {
    for (make, barrier) in [(Make::New, left.new), (Make::Old, left.old)] {
        let mut panel = mixed.kept(kept, make);
        for (call, number) in calls {
            answers(mixed, &mut panel, call, *number)?;
        }
        has(mixed, &panel, barrier)?;
    }
    Ok(())
}

/// What a case came to that is not as expected.
fn wrong(what: String) -> Found {
    Found::new(format!("shorter barriers: {what}"))
}

/// A panel's barrier has these entries, and no others.
fn has(mixed: &Mixed, panel: &Panel, entries: Entries) -> Result<(), Found> {
    let given = panel.barrier();
    match given == numbers(entries) {
        true => Ok(()),
        false => {
            let given: Vec<_> = (0..64).zip(given).filter(|(_, entry)| *entry > 0).collect();
            let what = format!("barrier {given:?}, expected {entries:?}");
            Err(wrong(what).with(mixed.script(panel)))
        }
    }
}

/// A call that is accepted; the frame of a send.
fn accepted(mixed: &mut Mixed, panel: &mut Panel, call: &Call) -> Result<Vec<u8>, Found> {
    answers(mixed, panel, call, 0)
}

/// A call that is answered with this number; the frame of a send.
fn answers(
    mixed: &mut Mixed,
    panel: &mut Panel,
    call: &Call,
    number: u8,
) -> Result<Vec<u8>, Found> {
    let answer = mixed.call(panel, call)?;
    match answer.number == number {
        true => Ok(mixed.frame()[..answer.length].to_vec()),
        false => {
            let what = format!("{}, expected {number}", answer.number);
            Err(wrong(what).with(mixed.script(panel)))
        }
    }
}

/// What a send at time 0 has to come to: deadline, which is its lifetime, entries and length.
type Sent<'case> = (u16, Entries<'case>, usize);

/// A fresh panel takes these frames and sends an empty payload; the frame.
fn sends(
    mixed: &mut Mixed,
    (number, make): (u8, Make),
    heard: &[&[u8]],
    (lifetime, entries, length): Sent,
) -> Result<Vec<u8>, Found> {
    let mut panel = mixed.kept(&Kept::at(number, 0), make);
    for frame in heard {
        accepted(mixed, &mut panel, &Call::receive(frame))?;
    }
    let sent = accepted(mixed, &mut panel, &Call::send(b"", lifetime))?;
    let expected = frame(number, u64::from(lifetime), entries, b"");
    match sent == expected && sent.len() == length {
        true => Ok(sent),
        false => {
            let what = format!("{sent:?}, expected {expected:?}");
            Err(wrong(what).with(mixed.script(&panel)))
        }
    }
}

/// Four panels at time 0, each of which takes what those before it sent: A, B, C and D. Only the
/// makes of the last two make a difference.
fn busy_yard(mixed: &mut Mixed) -> Result<(), Found> {
    let (short_c, long_c): (Sent, Sent) =
        ((300, &[(1, 200)], 31), (300, &[(0, 100), (1, 200)], 39));
    let short_d: Sent = (400, &[(2, 300)], 31);
    let long_d: Sent = (400, &[(0, 100), (1, 200), (2, 300)], 47);
    let yards = [
        (Make::New, short_c, Make::New, short_d),
        (Make::New, short_c, Make::Old, long_d),
        (Make::Old, long_c, Make::New, short_d),
        (Make::Old, long_c, Make::Old, long_d),
    ];
    for (two, c, three, d) in yards {
        for first in [Make::New, Make::Old] {
            let a = sends(mixed, (0, first), &[], (100, &[], 23))?;
            let b = sends(mixed, (1, first), &[&a], (200, &[(0, 100)], 31))?;
            let c = sends(mixed, (2, two), &[&a, &b], c)?;
            sends(mixed, (3, three), &[&a, &b, &c], d)?;
        }
    }
    let bytes = b"\x44\x52\x59\0\x02\x03\0\0\0\0\0\0\x01\x90\0\0\0\0\0\0\0\x04\
        \0\0\0\0\0\0\x01\x2c\0";
    match frame(3, 400, short_d.1, b"") == bytes {
        true => Ok(()),
        false => Err(wrong("frame D has other bytes".to_string())),
    }
}

/// A panel takes A and B, is brought to the other make, and takes C, which a panel of either make
/// has sent. What the old make kept is removed only by what C carries.
fn brought(mixed: &mut Mixed) -> Result<(), Found> {
    let heard = [frame(0, 100, &[], b""), frame(1, 200, &[(0, 100)], b"")];
    let short_c = frame(2, 300, &[(1, 200)], b"");
    let long_c = frame(2, 300, &[(0, 100), (1, 200)], b"");
    let cases: [(Make, &[u8], Entries); 4] = [
        (Make::New, &short_c, &[(0, 100), (2, 300)]),
        (Make::New, &long_c, &[(2, 300)]),
        (Make::Old, &short_c, &[(1, 200), (2, 300)]),
        (Make::Old, &long_c, &[(1, 200), (2, 300)]),
    ];
    for (make, c, barrier) in cases {
        let mut panel = mixed.kept(&Kept::at(3, 0), make.other());
        for frame in &heard {
            accepted(mixed, &mut panel, &Call::receive(frame))?;
        }
        mixed.bring(&mut panel, make);
        accepted(mixed, &mut panel, &Call::receive(c))?;
        has(mixed, &panel, barrier)?;
    }
    Ok(())
}

/// An entry equal to the carried one goes, one above it stays, one below it goes, and one for which
/// the message has no entry stays. The entry carried for panel 5 has lapsed, and removes all the
/// same. The mark of panel 6 is above its barrier entry, as frames that nobody sent may leave it.
fn borders(mixed: &mut Mixed) -> Result<(), Found> {
    let entries: Entries = &[(0, 100), (4, 101), (5, 50), (6, 70), (8, 80)];
    let carried: Entries = &[(0, 100), (4, 100), (5, 60), (8, 79)];
    let left = Left {
        new: &[(1, 200), (4, 101), (6, 70), (8, 80)],
        old: &[(0, 100), (1, 200), (4, 101), (5, 50), (6, 70), (8, 80)],
    };
    let mut kept = logged(3, 61, entries);
    kept.marks[6] = 90;
    let call = Call::receive(&frame(1, 200, carried, b""));
    leaves(mixed, &kept, &[call], &left)
}

/// Entries below and above 2 to the power 31, 32 and 63, all of which have lapsed: none of them has
/// a sign, and all their bits are compared.
fn about_the_half(mixed: &mut Mixed) -> Result<(), Found> {
    for half in [1 << 31, 1 << 32, 1u64 << 63] {
        let entries = [-9, 9, 7, -7, 8].map(|more| half.wrapping_add_signed(more));
        let carried = [5, -5, 7, -7, 7].map(|more| half.wrapping_add_signed(more));
        let numbered = |entries: [u64; 5]| (4..).zip(entries).collect::<Vec<(u8, u64)>>();
        let (entries, carried) = (numbered(entries), numbered(carried));
        let own = (1, half + 100);
        let left = Left {
            new: &[own, entries[1], entries[4]],
            old: &[&[own], &entries[..]].concat(),
        };
        let call = Call::receive(&frame(own.0, own.1, &carried, b""));
        leaves(mixed, &logged(3, half + 50, &entries), &[call], &left)?;
    }
    Ok(())
}

/// The entry of the message's own panel, removed or not, is the message's in the end.
fn own_panel(mixed: &mut Mixed) -> Result<(), Found> {
    let left = Left {
        new: &[(1, 300)],
        old: &[(1, 300)],
    };
    for carried in [&[(1, 200)][..], &[(1, 199)], &[]] {
        let call = Call::receive(&frame(1, 300, carried, b""));
        leaves(mixed, &logged(3, 0, &[(1, 200)]), &[call], &left)?;
    }
    Ok(())
}

/// Entries of panels 0 and 63, and of all 64.
fn ends_of_the_mask(mixed: &mut Mixed) -> Result<(), Found> {
    let all: Vec<(u8, u64)> = (0..64).map(|panel| (panel, 60)).collect();
    let mut then = all.clone();
    then[7].1 = 90;
    let cases: [(Entries, Entries); 2] = [
        (&[(0, 60), (63, 60)], &[(0, 60), (7, 90), (63, 60)]),
        (&all, &then),
    ];
    cases.iter().try_for_each(|(entries, old)| {
        let new = &[(7, 90)];
        let call = Call::receive(&frame(7, 90, entries, b""));
        leaves(mixed, &logged(3, 0, entries), &[call], &Left { new, old })
    })
}

/// Three messages wait for each other: once the first comes, each removes the one before it. Then
/// two that wait for the same one: both stay.
fn while_settling(mixed: &mut Mixed) -> Result<(), Found> {
    let calls = [
        Call::receive(&frame(4, 400, &[(1, 100), (2, 300)], b"")),
        Call::receive(&frame(2, 300, &[(9, 200)], b"")),
        Call::receive(&frame(9, 200, &[(1, 100)], b"")),
        Call::receive(&frame(1, 100, &[], b"")),
    ];
    let left = Left {
        new: &[(4, 400)],
        old: &[(1, 100), (2, 300), (4, 400), (9, 200)],
    };
    leaves(mixed, &Kept::at(0, 0), &calls, &left)?;
    let calls = [
        Call::receive(&frame(9, 900, &[(7, 800)], b"")),
        Call::receive(&frame(5, 900, &[(7, 800)], b"")),
        Call::receive(&frame(7, 800, &[], b"")),
    ];
    let left = Left {
        new: &[(5, 900), (9, 900)],
        old: &[(5, 900), (7, 800), (9, 900)],
    };
    leaves(mixed, &Kept::at(0, 0), &calls, &left)
}

/// A clock call hands a message whose missing entry lapses: the lapsed entry removes too. A lapsed
/// barrier entry stays where none is carried.
fn by_a_clock_call(mixed: &mut Mixed) -> Result<(), Found> {
    let calls = [
        Call::receive(&frame(5, 100, &[(1, 55), (4, 60)], b"")),
        Call::clock(56),
    ];
    let left = Left {
        new: &[(2, 53), (5, 100), (6, 70)],
        old: &[(1, 54), (2, 53), (4, 60), (5, 100), (6, 70)],
    };
    let kept = logged(0, 50, &[(1, 54), (2, 53), (4, 60), (6, 70)]);
    leaves(mixed, &kept, &calls, &left)
}

/// A send empties the barrier, at either make. What waited for the own message removes its entry.
fn by_a_send(mixed: &mut Mixed) -> Result<(), Found> {
    let kept = logged(0, 50, &[(4, 60), (6, 70)]);
    let left = Left {
        new: &[(0, 150)],
        old: &[(0, 150)],
    };
    leaves(mixed, &kept, &[Call::send(b"", 100)], &left)?;
    let calls = [
        Call::receive(&frame(5, 160, &[(0, 150), (4, 60)], b"")),
        Call::send(b"", 100),
    ];
    let left = Left {
        new: &[(5, 160)],
        old: &[(0, 150), (5, 160)],
    };
    leaves(mixed, &kept, &calls, &left)
}

/// A message is handed behind a later one of its panel, and its own goes in where the later one's
/// was removed: so an entry is neither the old rule's nor removed. Nobody could have sent these
/// frames, as the second of panel 2 does not name the first.
fn after_a_later_one(mixed: &mut Mixed) -> Result<(), Found> {
    let calls = [
        Call::receive(&frame(2, 300, &[(1, 100)], b"")),
        Call::receive(&frame(2, 400, &[], b"")),
        Call::receive(&frame(5, 500, &[(2, 400)], b"")),
        Call::receive(&frame(1, 100, &[], b"")),
    ];
    let left = Left {
        new: &[(2, 300), (5, 500)],
        old: &[(1, 100), (2, 400), (5, 500)],
    };
    leaves(mixed, &Kept::at(3, 0), &calls, &left)
}

/// A message that waits removes nothing yet, and neither does one that a clock call drops, one that
/// is refused, or a trace.
fn only_when_handed(mixed: &mut Mixed) -> Result<(), Found> {
    let entries: Entries = &[(3, 80), (4, 60), (6, 70), (7, 45)];
    let kept = logged(0, 50, entries);
    let left = Left {
        new: entries,
        old: entries,
    };
    let of_five = |deadline, entries: Entries| Call::receive(&frame(5, deadline, entries, b""));
    let waits = of_five(100, &[(1, 90), (4, 60)]);
    let dropped = of_five(65, &[(1, 62), (4, 60)]);
    let logged = Call::receive(&frame(3, 80, &[(6, 70)], b""));
    let traced = Call::trace(&frame(5, 100, &[(4, 60)], b""));
    let cases: [&[(Call, u8)]; 5] = [
        &[(waits.clone(), 0), (waits.clone(), 22)],
        &[(dropped, 0), (Call::clock(66), 0)],
        &[(of_five(49, &[(7, 45)]), 21)],
        &[(logged, 22)],
        &[(traced, 0)],
    ];
    for calls in cases {
        answers_and_leaves(mixed, &kept, calls, &left)?;
    }
    let waiting = (101..133).map(|deadline| frame(5, deadline, &[(1, 90)], b""));
    let full = Kept {
        count: 32,
        frames: waiting.collect(),
        ..kept
    };
    answers_and_leaves(mixed, &full, &[(waits, 23)], &left)
}
