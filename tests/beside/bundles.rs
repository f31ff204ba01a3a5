//! Bundles at every place, logs at every index, and what the program `list` prints.

use crate::compare::Both;
use crate::compose;
use crate::hexadecimal;
use crate::module;
use crate::random::Random;
use crate::second::bundle::{step, Kind};
use crate::second::log::{fields, LENGTH_AT};
use crate::second::{listing, FARTHEST_AHEAD, LOG_RECORD};
use crate::side::Found;
use std::io::Write;
use std::path::Path;
use std::process::{Command, Stdio};
use std::thread;

/// Bundles and logs through the readers.
pub fn readers(both: &mut Both, seed: u64, rounds: u64) -> Result<(), Found> {
    for round in 0..rounds {
        let mut random = Random::new(seed, round);
        let bundle = short_bundle(&mut random);
        let past = [1 << 16, 1 << 32, 1 << 63, usize::MAX - 1, usize::MAX];
        for place in (0..bundle.len() + 4).chain(past) {
            same_step(both, &bundle, place)?;
        }
        let log = log(LOG_RECORD - 1 - round as usize % LOG_RECORD, &mut random);
        let wrapped = usize::MAX / LOG_RECORD;
        let past = [1 << 32, wrapped, wrapped + 1, 1 << 63, usize::MAX];
        for index in (0..log.len() / LOG_RECORD + 3).chain(past) {
            same_fields(both, &log, index)?;
        }
    }
    long_bundle(both, &mut Random::new(seed, rounds))
}

/// A bundle of more than 65,536 bytes, read frame by frame, whole and with its last bytes cut off.
fn long_bundle(both: &mut Both, random: &mut Random) -> Result<(), Found> {
    let frames = [65_535, 0, 65_534, 1].map(|length| random.bytes(length));
    let bundle = bundle_of(&frames);
    for cut in 0..5 {
        let bundle = &bundle[..bundle.len() - cut];
        let mut place = 0;
        for _ in 0..6 {
            same_step(both, bundle, place)?;
            place = step(bundle, place).next;
        }
    }
    Ok(())
}

/// Random lengths and bytes, some of them cut off.
fn short_bundle(random: &mut Random) -> Vec<u8> {
    let mut bundle = Vec::new();
    for _ in 0..random.below(6) {
        let length = random.pick(&[0, 1, 2, 19, 255, 256, 300]);
        bundle.extend((length as u16).to_be_bytes());
        bundle.extend(random.bytes(length));
    }
    if random.chance(50) {
        bundle.truncate(random.below(bundle.len() + 1));
    }
    bundle
}

/// Log records, some of them none that a call wrote, and so many bytes more.
fn log(more: usize, random: &mut Random) -> Vec<u8> {
    let mut log = Vec::new();
    for _ in 0..random.below(6) {
        let mut record = random.bytes(LOG_RECORD);
        record[LENGTH_AT] = random.pick(&[0, 1, 31, 32, 33, 255]);
        let (zeros, end) = random.pick(&[(1, LENGTH_AT), (1, 5), (5, LENGTH_AT), (1, 1)]);
        record[zeros..end].fill(0);
        log.extend(record);
    }
    let mut cut_off = random.bytes(more);
    if let Some(length) = cut_off.get_mut(LENGTH_AT) {
        *length %= 33;
    }
    log.extend(cut_off);
    log
}

fn same_step(both: &mut Both, bundle: &[u8], place: usize) -> Result<(), Found> {
    both.counts.bundle_steps += 1;
    let module = module::bundle_step(bundle, place);
    let second = step(bundle, place);
    let kind = match second.kind {
        Kind::Frame => 0,
        Kind::End => 1,
        Kind::Broken => 2,
    };
    let start = match second.kind {
        Kind::Frame => module.start == second.start,
        // The empty part may start anywhere in the bundle.
        Kind::End | Kind::Broken => module.start <= bundle.len(),
    };
    match start && (module.kind, module.length, module.next) == (kind, second.length, second.next) {
        true => Ok(()),
        false => {
            let what = format!("bundle step at {place}: module {module:?}, second {second:?}");
            Err(Found::new(what).within(format!("bundle {}", hexadecimal::write(bundle))))
        }
    }
}

fn same_fields(both: &mut Both, log: &[u8], index: usize) -> Result<(), Found> {
    both.counts.log_reads += 1;
    let module = module::log_fields(log, index);
    let second = fields(log, index);
    let same = (module.source, module.deadline, module.length)
        == (second.source, second.deadline, second.length);
    match same {
        true => Ok(()),
        false => {
            let what = format!("log record {index}: module {module:?}, second {second:?}");
            Err(Found::new(what).within(format!("log {}", hexadecimal::write(log))))
        }
    }
}

/// Random bundles through the program, and some of a length of interest.
pub fn listings(both: &mut Both, seed: u64, rounds: u64, program: &Path) -> Result<(), Found> {
    for round in 0..rounds {
        let mut random = Random::new(seed, round);
        let bundle = match round {
            0 | 1 => sized_bundle(65_535 + round as usize, &mut random),
            2 => sized_bundle(70_000, &mut random),
            3 => random.bytes(1),
            _ => listed_bundle(&mut random),
        };
        let (printed, expected) = (printed(program, &bundle)?, listing(&bundle));
        both.counts.listings += 1;
        if printed != expected {
            let mut lines = printed.lines().zip(expected.lines());
            let (printed, expected) = lines.find(|(one, other)| one != other).unwrap_or(("", ""));
            let what = format!("list prints \"{printed}\", expected \"{expected}\"");
            return Err(Found::new(what).within(format!("bundle {}", hexadecimal::write(&bundle))));
        }
    }
    Ok(())
}

pub fn bundle_of(frames: &[Vec<u8>]) -> Vec<u8> {
    let with_length = |frame: &Vec<u8>| [&(frame.len() as u16).to_be_bytes()[..], frame].concat();
    frames.iter().flat_map(with_length).collect()
}

/// Frames that wait for each other, copies and damaged ones among them. In some bundles the
/// deadlines are about as high as a panel at time 0 takes them.
fn listed_bundle(random: &mut Random) -> Vec<u8> {
    let sources = random.pick(&[2, 6, 64]);
    let least = random.pick(&[0, 0, FARTHEST_AHEAD - 15]);
    let numbers: Vec<u64> = (0..8).map(|_| least + random.below(30) as u64).collect();
    let mut frames: Vec<Vec<u8>> = Vec::new();
    for place in 0..random.below(90) {
        let frame = compose::readable(random.below(sources) as u8, &numbers, random);
        let frame = compose::in_any_version(frame, random);
        frames.push(match random.below(20) {
            0 => compose::damaged(&frame, random.between(1, 8) as u8, random),
            1 if place > 0 => frames[random.below(place)].clone(),
            2 => Vec::new(),
            _ => frame,
        });
    }
    let mut bundle = bundle_of(&frames);
    if random.chance(30) {
        bundle.truncate(random.below(bundle.len() + 1));
    }
    bundle
}

/// A bundle of so many bytes, the last of which may be cut off.
fn sized_bundle(length: usize, random: &mut Random) -> Vec<u8> {
    let mut bundle = Vec::new();
    while bundle.len() < length {
        let frame = compose::readable(random.between(1, 5) as u8, &[7, 3, 1 << 30], random);
        let frame = compose::in_any_version(frame, random);
        bundle.extend(bundle_of(&[frame]));
    }
    bundle.truncate(length);
    bundle
}

/// What the program prints for this input.
pub fn printed(program: &Path, input: &[u8]) -> Result<String, Found> {
    let failed = |error| Found::new(format!("{} does not run: {error}", program.display()));
    let mut child = Command::new(program)
        .stdin(Stdio::piped())
        .stdout(Stdio::piped())
        .spawn()
        .map_err(failed)?;
    let stdin = child.stdin.take();
    thread::scope(|scope| {
        // The program need not read all of a bundle that is too long.
        scope.spawn(move || stdin.map(|mut stdin| stdin.write_all(input)));
        let output = child.wait_with_output().map_err(failed)?;
        match output.status.success() {
            true => Ok(String::from_utf8_lossy(&output.stdout).into_owned()),
            false => Err(Found::new(format!(
                "{} ended with {}",
                program.display(),
                output.status
            ))),
        }
    })
}
