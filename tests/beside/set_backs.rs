//! Setting a clock back, as document 02 has it in W-207: "a service call that sets the time to the
//! lower of its own and the reading, and hands and drops nothing".

use crate::ahead::DAYS;
use crate::calls::Call;
use crate::cases::{hands, is, refuses, Log};
use crate::compare::Both;
use crate::compose::{frame, numbers, BORDER};
use crate::floors::{floored, has, waiting};
use crate::kept::Kept;
use crate::mixed::{Mixed, Panel};
use crate::second::Make;
use crate::side::{Found, Kind, Side};
use crate::traces::panel;

pub fn run(both: &mut Both) -> Result<(), Found> {
    readings(both)?;
    nothing_handed_nothing_dropped(both)?;
    broken(both)?;
    clock_keeps_25(both)?;
    deaf_no_longer(both)?;
    taken_again(both)?;
    missed_for_good(both)?;
    alive_again(both)?;
    far_ahead_again(both)?;
    both_makes(both)?;
    without_a_floor(both)
}

/// The time becomes the lower of its own and the reading, which is never refused.
fn readings(both: &mut Both) -> Result<(), Found> {
    for time in [0, 1, 500, BORDER + 501, u64::MAX] {
        for reading in [
            0,
            1,
            499,
            500,
            501,
            BORDER,
            BORDER + 1,
            u64::MAX - 1,
            u64::MAX,
        ] {
            let mut zero = both.kept(&floored(time, 7, &[(3, 450)]));
            hands(both, &mut zero, Call::set_back(reading), &[])?;
            has(both, &zero, (time.min(reading), 7, 0))?;
            hands(both, &mut zero, Call::set_back(reading), &[])?;
            has(both, &zero, (time.min(reading), 7, 0))?;
        }
    }
    Ok(())
}

/// Messages that are ready, that have lapsed, or that wait for an entry stay in the list; the next
/// clock call drops and settles. All else in the record stays too.
fn nothing_handed_nothing_dropped(both: &mut Both) -> Result<(), Found> {
    let frames = [
        frame(5, 50, &[], b"ready"),
        frame(6, 30, &[], b"lapsed"),
        frame(7, 200, &[(4, 150)], b"waits"),
        frame(8, 200, &[(4, 99)], b""),
    ];
    let mut kept = waiting(floored(100, 20, &[(3, 60), (9, 70)]), &frames);
    kept.barrier = numbers(&[(3, 50), (9, 70)]);
    for reading in [0, 40, 99, 100, 101, u64::MAX] {
        let mut zero = both.kept(&kept);
        hands(both, &mut zero, Call::set_back(reading), &[])?;
        has(both, &zero, (reading.min(100), 20, 4))?;
    }
    let mut zero = both.kept(&kept);
    hands(both, &mut zero, Call::set_back(40), &[])?;
    hands(both, &mut zero, Call::clock(40), &[(5, 50, b"ready")])?;
    has(both, &zero, (40, 20, 2))
}

/// 26 comes first, whatever the reading.
fn broken(both: &mut Both) -> Result<(), Found> {
    let records = [
        Kept::at(64, 100),
        Kept {
            high: 59,
            ..panel(100, &[(3, 60)])
        },
        Kept {
            count: 33,
            ..Kept::at(0, 100)
        },
        waiting(panel(100, &[]), &[frame(64, 200, &[], b"")]),
    ];
    for kept in records {
        for reading in [0, 99, 100, 101] {
            let mut pair = both.kept(&kept);
            refuses(both, &mut pair, Call::set_back(reading), 26)?;
        }
    }
    Ok(())
}

/// The ordinary clock call sets no time back, also after a set back.
fn clock_keeps_25(both: &mut Both) -> Result<(), Found> {
    let mut zero = both.kept(&floored(500, 300, &[]));
    refuses(both, &mut zero, Call::clock(499), 25)?;
    hands(both, &mut zero, Call::set_back(100), &[])?;
    refuses(both, &mut zero, Call::clock(99), 25)?;
    hands(both, &mut zero, Call::clock(100), &[])?;
    hands(both, &mut zero, Call::clock(101), &[])?;
    refuses(both, &mut zero, Call::clock(100), 25)?;
    has(both, &zero, (101, 300, 0))
}

/// A panel with a wrong year refuses all that comes, and takes it once it is set back. Its own
/// messages stay above high.
fn deaf_no_longer(both: &mut Both) -> Result<(), Found> {
    const YEAR: u64 = 31_536_000;
    let note = Call::receive(&frame(1, 1000, &[], b"note"));
    let mut two = both.fresh(2)?;
    hands(both, &mut two, Call::clock(100), &[])?;
    hands(both, &mut two, Call::send(b"", 50), &[(2, 150, b"")])?;
    hands(both, &mut two, Call::clock(YEAR), &[])?;
    refuses(both, &mut two, note.clone(), 21)?;
    hands(both, &mut two, Call::set_back(200), &[])?;
    hands(both, &mut two, note, &[(1, 1000, b"note")])?;
    has(both, &two, (200, 0, 0))?;
    let sent = hands(both, &mut two, Call::send(b"", 50), &[(2, 1001, b"")])?;
    is(
        "a frame after a set back",
        sent == frame(2, 1001, &[(1, 1000), (2, 150)], b""),
    )
}

/// A message that was dropped is taken again, waits again, and is handed behind what it waits for.
fn taken_again(both: &mut Both) -> Result<(), Found> {
    let waits = || Call::receive(&frame(5, 300, &[(4, 200)], b"waits"));
    let mut zero = both.fresh(0)?;
    hands(both, &mut zero, Call::clock(100), &[])?;
    hands(both, &mut zero, waits(), &[])?;
    hands(both, &mut zero, Call::clock(1000), &[])?;
    has(both, &zero, (1000, 0, 0))?;
    refuses(both, &mut zero, waits(), 21)?;
    hands(both, &mut zero, Call::set_back(100), &[])?;
    hands(both, &mut zero, waits(), &[])?;
    refuses(both, &mut zero, waits(), 22)?;
    has(both, &zero, (100, 0, 1))?;
    let log: Log = &[(4, 200, b""), (5, 300, b"waits")];
    hands(
        both,
        &mut zero,
        Call::receive(&frame(4, 200, &[], b"")),
        log,
    )?;
    refuses(both, &mut zero, waits(), 22)?;
    has(both, &zero, (100, 0, 0))
}

/// What a handed message named and the panel had missed stays refused, however far the clock is set
/// back; later messages are taken, and those that name it too.
fn missed_for_good(both: &mut Both) -> Result<(), Found> {
    let missed = || Call::receive(&frame(1, 500, &[], b""));
    let of = |source, deadline, entries: &[(u8, u64)]| {
        Call::receive(&frame(source, deadline, entries, b""))
    };
    let mut two = both.fresh(2)?;
    hands(both, &mut two, Call::clock(100), &[])?;
    hands(both, &mut two, Call::clock(1000), &[])?;
    let first = of(3, 1100, &[(1, 500)]);
    hands(both, &mut two, first, &[(3, 1100, b"")])?;
    has(both, &two, (1000, 500, 0))?;
    hands(both, &mut two, Call::set_back(100), &[])?;
    refuses(both, &mut two, missed(), 21)?;
    refuses(both, &mut two, of(4, 499, &[]), 21)?;
    hands(both, &mut two, of(4, 501, &[]), &[(4, 501, b"")])?;
    hands(both, &mut two, of(1, 800, &[(1, 500)]), &[(1, 800, b"")])?;
    let last = of(6, 900, &[(1, 800), (4, 501), (5, 500)]);
    hands(both, &mut two, last, &[(6, 900, b"")])?;
    hands(both, &mut two, of(7, 950, &[(5, 501)]), &[])?;
    has(both, &two, (100, 500, 1))?;
    hands(both, &mut two, Call::send(b"", 10), &[(2, 1101, b"")])?;
    hands(both, &mut two, Call::clock(150), &[])?;
    refuses(both, &mut two, missed(), 21)?;
    hands(both, &mut two, Call::set_back(0), &[])?;
    refuses(both, &mut two, missed(), 21)?;
    hands(both, &mut two, Call::clock(502), &[(7, 950, b"")])?;
    has(both, &two, (502, 501, 0))
}

/// An entry that had lapsed and is alive again is waited for again, but where the floor has risen
/// to it meanwhile.
fn alive_again(both: &mut Both) -> Result<(), Found> {
    let four = || Call::receive(&frame(4, 1500, &[], b""));
    let waits = Call::receive(&frame(5, 2000, &[(1, 500), (4, 1500)], b""));
    let mut zero = both.fresh(0)?;
    hands(both, &mut zero, Call::clock(100), &[])?;
    hands(both, &mut zero, waits, &[])?;
    hands(both, &mut zero, Call::clock(1000), &[])?;
    let mut other = zero.clone();
    hands(both, &mut zero, Call::set_back(100), &[])?;
    hands(both, &mut zero, four(), &[(4, 1500, b"")])?;
    has(both, &zero, (100, 0, 1))?;
    let log: Log = &[(1, 500, b""), (5, 2000, b"")];
    hands(
        both,
        &mut zero,
        Call::receive(&frame(1, 500, &[], b"")),
        log,
    )?;
    has(both, &zero, (100, 0, 0))?;
    let misses = Call::receive(&frame(3, 1100, &[(1, 500)], b""));
    hands(both, &mut other, misses, &[(3, 1100, b"")])?;
    hands(both, &mut other, Call::set_back(100), &[])?;
    let log: Log = &[(4, 1500, b""), (5, 2000, b"")];
    hands(both, &mut other, four(), log)?;
    has(both, &other, (100, 500, 0))
}

/// After a set back a message may be far ahead that was not, and stays where it waits.
fn far_ahead_again(both: &mut Both) -> Result<(), Found> {
    let waits = frame(5, 1000 + DAYS, &[(4, 1000)], b"");
    let mut zero = both.fresh(0)?;
    hands(both, &mut zero, Call::clock(1000), &[])?;
    hands(both, &mut zero, Call::receive(&waits), &[])?;
    hands(both, &mut zero, Call::set_back(999), &[])?;
    refuses(both, &mut zero, Call::receive(&waits), 32)?;
    has(both, &zero, (999, 0, 1))?;
    let log: Log = &[(4, 1000, b""), (5, 1000 + DAYS, b"")];
    let missing = Call::receive(&frame(4, 1000, &[], b""));
    hands(both, &mut zero, missing, log).map(|_| ())
}

/// A panel of the old make has the same floor, and is set back in the same way; with its floor it
/// is brought to the other make.
fn both_makes(both: &mut Both) -> Result<(), Found> {
    let mut mixed = Mixed::new(both, 0);
    let missed = frame(1, 500, &[], b"");
    let calls = [
        (Call::clock(1000), 0),
        (Call::receive(&frame(3, 1100, &[(1, 500)], b"")), 0),
        (Call::set_back(100), 0),
        (Call::receive(&missed), 21),
        (Call::receive(&frame(4, 501, &[(6, 499)], b"")), 0),
    ];
    for make in [Make::New, Make::Old] {
        let mut panel = mixed.kept(&Kept::at(2, 100), make);
        for (call, number) in &calls {
            answers(&mut mixed, &mut panel, call, *number)?;
        }
        mixed.bring(&mut panel, make.other());
        answers(&mut mixed, &mut panel, &Call::receive(&missed), 21)?;
        answers(&mut mixed, &mut panel, &Call::set_back(0), 0)?;
        answers(&mut mixed, &mut panel, &Call::receive(&missed), 21)?;
        is("the floor at both makes", mixed.floor(&panel) == Some(500))?;
    }
    Ok(())
}

/// A panel that keeps no floor, of either make and brought to the other, can't be set back: what it
/// missed stays below its time.
fn without_a_floor(both: &mut Both) -> Result<(), Found> {
    let mut mixed = Mixed::new(both, 0);
    let calls = [
        (Call::clock(1000), 0),
        (Call::receive(&frame(3, 1100, &[(1, 500)], b"")), 0),
        (Call::clock(100), 25),
        (Call::receive(&frame(1, 500, &[], b"")), 21),
    ];
    for make in [Make::New, Make::Old] {
        let kind = Kind {
            make,
            keeps_floor: false,
            shadow: None,
        };
        let mut panel = mixed.fresh(2, kind)?;
        for (call, number) in &calls {
            answers(&mut mixed, &mut panel, call, *number)?;
        }
        mixed.bring(&mut panel, make.other());
        for (call, number) in &calls[2..] {
            answers(&mut mixed, &mut panel, call, *number)?;
        }
    }
    Ok(())
}

fn answers(mixed: &mut Mixed, panel: &mut Panel, call: &Call, number: u8) -> Result<(), Found> {
    let answer = mixed.call(panel, call)?;
    match answer.number == number {
        true => Ok(()),
        false => {
            let what = format!("set back: {}, expected {number}", answer.number);
            Err(Found::new(what).with(mixed.script(panel)))
        }
    }
}
