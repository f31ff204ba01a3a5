//! A second implementation beside the module: makes the same calls on both and compares them, and
//! checks the claims of demand 3 on what the module wrote, panels of the old make beside it, and
//! that arrival order makes no difference.

mod ahead;
mod arrivals;
mod barriers;
mod beacons;
mod bits;
mod borders;
mod bundles;
mod calls;
mod cases;
mod claims;
mod compare;
mod compose;
mod counts;
mod ends;
mod farm;
mod floors;
mod frames;
mod hexadecimal;
mod kept;
mod lists;
mod member;
mod mixed;
mod module;
mod noticing;
mod orders;
mod passing;
mod plan;
mod random;
mod records;
mod rises;
mod room;
mod rows;
mod same;
mod script;
mod second;
mod set_backs;
mod shadow;
mod side;
mod stays;
mod traces;
mod trials;
mod versions;
mod wide;
mod words;
mod yards;
mod years;

use compare::Both;
use lists::Lists;
use mixed::Mixed;
use random::Random;
use side::Found;
use std::path::PathBuf;
use std::process::ExitCode;
use std::{env, fs};

const USAGE: &str = "\
usage: beside [--seed N] [--calls N] [--list PATH] [--faults | --replay FILE | --barriers]

Makes the same calls on the module and on a second implementation, and compares numbers, records
and all bytes of the lent buffers; checks the claims of demand 3 on the logs that the module wrote,
and on those of panels of the old make that share its lists; and receives the same frames in two
orders, which have to end alike.

  --seed N       other random calls; 1 if not given
  --calls N      calls in lists, with which the other parts grow; 1000000 if not given
  --list PATH    the program list; crates/list/out/list if not given
  --faults       plants faults in the second implementation, one at a time, and fails if one goes
                 unnoticed
  --replay FILE  makes the calls of a file, as a difference prints them
  --barriers     prints the table of docs/BARRIERS.md, without the module: how long frames are with
                 panels of the old make and of the new make
";

/// What is to be done.
enum Task {
    Compare,
    Faults,
    Replay(PathBuf),
    Barriers,
}

struct Options {
    seed: u64,
    calls: u64,
    list: PathBuf,
    task: Task,
}

/// Reads the options, or gives none if they are wrong.
fn options() -> Option<Options> {
    let mut options = Options {
        seed: 1,
        calls: 1_000_000,
        list: PathBuf::from("crates/list/out/list"),
        task: Task::Compare,
    };
    let mut arguments = env::args().skip(1);
    while let Some(argument) = arguments.next() {
        match argument.as_str() {
            "--seed" => options.seed = arguments.next()?.parse().ok()?,
            "--calls" => options.calls = arguments.next()?.parse().ok()?,
            "--list" => options.list = PathBuf::from(arguments.next()?),
            "--faults" => options.task = Task::Faults,
            "--replay" => options.task = Task::Replay(PathBuf::from(arguments.next()?)),
            "--barriers" => options.task = Task::Barriers,
            _ => return None,
        }
    }
    Some(options)
}

/// Says what a part does. What it finds is then named by it.
fn part(name: &'static str, words: &str) -> impl Fn(Found) -> Found {
    println!("{name}: {words}");
    move |found| found.within(format!("part {name}"))
}

/// The parts that make random lists; how many of these took a frame that nobody had sent. Those of
/// the first part are other lists than those of the second.
fn in_lists(options: &Options, both: &mut Both) -> Result<u64, Found> {
    let (seed, calls) = (options.seed, options.calls);
    let named = part(
        "arrivals",
        "two orders of receiving the same frames, on records that lists of demand 3 reach",
    );
    let mut mixed = Mixed::new(both, !seed);
    let arrivals = lists::run(&mut mixed, !seed, calls / 6, Lists::WithArrivals).map_err(named)?;
    let named = part(
        "lists",
        "random lists of calls over 2 to 64 panels, of both makes in some, with demand 3's claims",
    );
    let mut mixed = Mixed::new(both, seed);
    let lists = lists::run(&mut mixed, seed, calls, Lists::Any).map_err(named)?;
    both.counts.lists(&lists, &arrivals);
    Ok(lists.void + arrivals.void)
}

/// All parts, without faults: those that are soon done come first.
fn compare_all(options: &Options, both: &mut Both) -> Result<(), Found> {
    let (seed, calls, list) = (options.seed, options.calls, &options.list);
    let named = part("cases", "bench cases 1 to 12, beacons and traces");
    cases::run(both, list).map_err(named)?;
    let named = part("ahead", "deadlines far ahead");
    ahead::run(both, list).map_err(named)?;
    let named = part("barriers", "shorter barriers, at panels of both makes");
    barriers::run(both).map_err(named)?;
    let named = part("floors", "the floor, and clocks that are set back");
    floors::run(both).map_err(named)?;
    let named = part(
        "versions",
        "frames of both versions, and deadlines of 64 bits",
    );
    versions::run(both, list).map_err(named)?;
    let named = part("bundles", "bundles at every place, and logs at every index");
    bundles::readers(both, seed, calls / 1_000 + 1).map_err(named)?;
    let named = part(
        "frames",
        "damaged and random frames through the frame check, trace and receive",
    );
    frames::run(both, seed, calls / 100_000 + 1).map_err(named)?;
    let named = part("listings", "random bundles through the program list");
    bundles::listings(both, seed, calls / 5_000 + 10, list).map_err(named)?;
    let named = part("records", "calls on any records, whole and broken");
    records::run(both, seed, calls / 25 + 1).map_err(named)?;
    let void = in_lists(options, both)?;
    print!("{}", both.counts.table());
    match (void, both.counts.wrong()) {
        (0, wrong) if wrong.is_empty() => Ok(()),
        (0, wrong) => Err(Found::new(wrong.join(", "))),
        (void, _) => Err(Found::new(format!(
            "{void} lists took a frame that nobody had sent, against their plan"
        ))),
    }
}

/// Makes the calls of a file, and prints each answer.
fn replay(file: &PathBuf, both: &mut Both) -> Result<(), Found> {
    let text = fs::read_to_string(file)
        .map_err(|error| Found::new(format!("{}: {error}", file.display())))?;
    let scripts = script::read(&text)
        .map_err(|line| Found::new(format!("{}: this line is no call: {line}", file.display())))?;
    for script in scripts {
        script.run(both, |call, answer| println!("{call}\n    {answer}"))?;
    }
    Ok(())
}

/// Prints what a run found.
fn print(found: Found, seed: u64) {
    eprint!("beside: seed {seed}\n{}", found.place);
    if let Some(script) = &found.script {
        eprint!("the calls on this panel, as --replay reads them:\n{script}");
    }
    eprintln!("{}", found.what);
    let Some(script) = found.script else {
        return;
    };
    let many = script.calls.len();
    match script.shortened() {
        (shorter, Some(difference)) if shorter.calls.len() < many => {
            eprint!("these calls are enough:\n{shorter}");
            eprintln!("{}", difference.what);
        }
        _ => {}
    }
}

fn main() -> ExitCode {
    let Some(options) = options() else {
        eprint!("{USAGE}");
        return ExitCode::from(2);
    };
    let mut both = Both::new(Random::new(options.seed, 0));
    let result = match &options.task {
        Task::Compare => compare_all(&options, &mut both),
        Task::Faults => trials::run(options.seed, &options.list),
        Task::Replay(file) => replay(file, &mut both),
        Task::Barriers => yards::table().map(|table| print!("{table}")),
    };
    match result {
        Ok(()) => ExitCode::SUCCESS,
        Err(found) => {
            print(found, options.seed);
            ExitCode::FAILURE
        }
    }
}
