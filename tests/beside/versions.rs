//! Frames of both versions, as document 02 has them in W-208: "Version 1 is still read, with the
//! same values; sends write version 2, and a record keeps no version."

use crate::bundles::{bundle_of, printed};
use crate::calls::Call;
use crate::cases::{hands, is, refuses, Log};
use crate::compare::Both;
use crate::compose::{frame, versions};
use crate::floors::waiting;
use crate::hexadecimal;
use crate::kept::Kept;
use crate::module;
use crate::second::{listing, Message};
use crate::side::Found;
use crate::traces::{panel, traced};
use crate::wide;
use std::path::Path;

/// All cases. Those of the text need the program `list`.
pub fn run(both: &mut Both, program: &Path) -> Result<(), Found> {
    every_length(both)?;
    one_message(both)?;
    sent_after_each(both)?;
    in_a_slot(both)?;
    too_short(both)?;
    other_versions(both)?;
    wide::run(both)?;
    text(program)
}

/// A message in both versions: the highest bit of its deadline is set, and no two of its bytes are
/// the same.
struct Sample {
    entries: Vec<(u8, u64)>,
    payload: Vec<u8>,
    frames: Vec<Vec<u8>>,
}

impl Sample {
    const SOURCE: u8 = 5;
    const DEADLINE: u64 = 0xf1e2_d3c4;
    const TIME: u64 = Sample::DEADLINE - 1000;

    /// One with so many entries, of the highest panels, and a payload of so many bytes.
    fn new(entries: usize, payload: usize) -> Sample {
        let panels = (0..64).skip(64 - entries);
        let entries: Vec<_> = panels
            .map(|panel| (panel, Sample::DEADLINE - 1 - 5 * u64::from(panel)))
            .collect();
        let payload: Vec<u8> = (1..).take(payload).collect();
        let whole = frame(Sample::SOURCE, Sample::DEADLINE, &entries, &payload);
        Sample {
            entries,
            payload,
            frames: versions(&whole),
        }
    }

    /// Each version is handed where the marks reach its entries, with the same log record, and
    /// leaves the same record.
    fn handed(&self, both: &mut Both) -> Result<(), Found> {
        let log: Log = &[(Sample::SOURCE, Sample::DEADLINE, &self.payload)];
        self.leaves_one_record(both, &panel(Sample::TIME, &self.entries), log)
    }

    /// Each version waits where an entry is not met, as the same bytes: those of version 2.
    fn waits(&self, both: &mut Both) -> Result<(), Found> {
        self.leaves_one_record(both, &panel(Sample::TIME, &[]), &[])
    }

    fn leaves_one_record(&self, both: &mut Both, kept: &Kept, log: Log) -> Result<(), Found> {
        let mut records = Vec::new();
        for bytes in &self.frames {
            let mut pair = both.kept(kept);
            hands(both, &mut pair, Call::receive(bytes), log)?;
            let as_version_2 = pair.module.count == 1 && pair.module.waiting(0) == self.frames[1];
            is(
                "it is in the log, or waits as version 2",
                log.is_empty() == as_version_2,
            )?;
            records.push(pair.kept());
        }
        is("both versions leave one record", records[0] == records[1])
    }
}

/// Frames of every length, of version 1 and of version 2.
fn every_length(both: &mut Both) -> Result<(), Found> {
    for (version, width, shortest, longest) in [(0, 4, 19, 307), (1, 8, 23, 567)] {
        for length in shortest..=longest {
            let entries = ((length - shortest) / width).min(64);
            let sample = Sample::new(entries, length - shortest - entries * width);
            is(
                "a frame of this length",
                sample.frames[version].len() == length,
            )?;
            sample.handed(both)?;
            if entries > 0 {
                sample.waits(both)?;
            }
        }
    }
    Ok(())
}

/// Both versions are one message, whichever comes first: while it waits, once it stands in the log,
/// and below the mark of its source.
fn one_message(both: &mut Both) -> Result<(), Found> {
    let below = versions(&frame(1, 499, &[], b""));
    let ready = versions(&frame(1, 500, &[], b"one"));
    let waits = versions(&frame(5, 900, &[(1, 500)], b"five"));
    for first in [0, 1] {
        let mut zero = both.fresh(0)?;
        hands(both, &mut zero, Call::receive(&waits[first]), &[])?;
        for copy in &waits {
            refuses(both, &mut zero, Call::receive(copy), 22)?;
        }
        is("it waits once", zero.module.count == 1)?;
        let log: Log = &[(1, 500, b"one"), (5, 900, b"five")];
        hands(both, &mut zero, Call::receive(&ready[first]), log)?;
        for copy in ready.iter().chain(&waits).chain(&below) {
            refuses(both, &mut zero, Call::receive(copy), 22)?;
        }
    }
    Ok(())
}

/// A send writes version 2, whatever version was received, and so does a beacon.
fn sent_after_each(both: &mut Both) -> Result<(), Found> {
    for bytes in versions(&frame(1, 500, &[], b"")) {
        let mut two = both.fresh(2)?;
        hands(both, &mut two, Call::receive(&bytes), &[(1, 500, b"")])?;
        let sent = hands(both, &mut two, Call::send(b"", 600), &[(2, 600, b"")])?;
        is("a send", sent == frame(2, 600, &[(1, 500)], b""))?;
        let sent = hands(both, &mut two, Call::beacon(b""), &[(2, 1200, b"")])?;
        is("a beacon", sent == frame(2, 1200, &[(2, 600)], b""))?;
    }
    Ok(())
}

/// A record in which a frame of version 1 waits, at whatever place, is broken. With that of version
/// 2 it is not.
fn in_a_slot(both: &mut Both) -> Result<(), Found> {
    let of = |source| versions(&frame(source, 900, &[(1, 500)], b"waits"));
    let calls = [
        Call::send(b"", 0),
        Call::beacon(b""),
        Call::receive(&frame(1, 500, &[], b"")),
        Call::clock(100),
        Call::set_back(0),
    ];
    for place in 0..3 {
        let mut frames: Vec<_> = (5..8).map(|source| of(source)[1].clone()).collect();
        let whole = waiting(Kept::at(0, 100), &frames);
        frames[place] = of(5 + place as u8)[0].clone();
        let broken = waiting(Kept::at(0, 100), &frames);
        for call in &calls {
            let mut pair = both.kept(&broken);
            refuses(both, &mut pair, call.clone(), 26)?;
            let mut pair = both.kept(&whole);
            let answer = both.call(&mut pair, call)?;
            is("version 2 may wait", answer.number == 0)?;
        }
        traced(both, &broken, &of(9)[0], (26, false, 1))?;
    }
    Ok(())
}

/// Bytes that the frame check answers with this number, and so a receive.
fn read_with(both: &mut Both, bytes: &[u8], number: u8) -> Result<(), Found> {
    let by_module = module::frame_check(bytes);
    let by_second = Message::read(bytes).err().unwrap_or(0);
    let mut zero = both.fresh(0)?;
    let answer = both.call(&mut zero, &Call::receive(bytes))?;
    match (by_module, by_second, answer.number) == (number, number, number) {
        true => Ok(()),
        false => {
            let what = format!("frame check {by_module} and {by_second}, expected {number}");
            Err(Found::new(what).within(hexadecimal::write(bytes)))
        }
    }
}

/// The frame with this version, whatever it was.
fn with_version(frame: &[u8], version: u16) -> Vec<u8> {
    [&frame[..3], &version.to_be_bytes(), &frame[5..]].concat()
}

/// "at least 23 bytes; fewer are 1, directly after the version check": so 2 and 3 come first, and 4
/// and 5 do not. Version 1 is read on.
fn too_short(both: &mut Both) -> Result<(), Found> {
    for (source, deadline) in [(1, 700), (64, 700), (1, 0), (255, 0)] {
        let whole = frame(source, deadline, &[], b"");
        for length in 0..23 {
            let cut = &whole[..length];
            read_with(both, cut, 1)?;
            if length >= 19 {
                read_with(both, &with_version(cut, 3), 3)?;
                read_with(both, &[b"dry", &cut[3..]].concat(), 2)?;
                read_with(both, &[b"dry", &with_version(cut, 3)[3..]].concat(), 2)?;
            }
        }
    }
    for (source, deadline, number) in [(1, 700, 0), (64, 700, 4), (1, 0, 5), (255, 0, 4)] {
        for payload in 0..4 {
            let whole = &versions(&frame(source, deadline, &[], &[7; 3][..payload]))[0];
            is("version 1 of 19 to 22 bytes", whole.len() == 19 + payload)?;
            read_with(both, whole, number)?;
        }
    }
    Ok(())
}

/// Any other version is 3, in the form of either version, and before what is wrong behind it. Some
/// have a byte that is 1 or 2.
fn other_versions(both: &mut Both) -> Result<(), Found> {
    for version in [0, 3, 4, 255, 256, 257, 258, 512, 513, 65_535] {
        for source in [1, 64] {
            for whole in versions(&frame(source, 700, &[(3, 600)], b"up")) {
                let other = with_version(&whole, version);
                for length in [19, 22, 23, whole.len()] {
                    read_with(both, &other[..length], 3)?;
                }
            }
        }
    }
    Ok(())
}

/// `list` reads both versions.
fn text(program: &Path) -> Result<(), Found> {
    let one = versions(&frame(3, 7300, &[], b"OK"));
    let two = versions(&frame(3, 7301, &[(3, 7300)], b""));
    let short = one[1][..22].to_vec();
    let frames = [
        &two[0],
        &two[1],
        &short,
        &with_version(&one[1], 3),
        &one[1],
        &one[0],
    ];
    let bundle = bundle_of(&frames.map(Vec::clone));
    let text = "frame 1 taken\nframe 2 22\nframe 3 1\nframe 4 3\nframe 5 taken\n\
        hand 3 7300 4f4b\nhand 3 7301 -\nframe 6 22\nend\n";
    is(
        "the text of list with both versions",
        printed(program, &bundle)? == text,
    )?;
    is(
        "the second implementation's text of list with both versions",
        listing(&bundle) == text,
    )
}
