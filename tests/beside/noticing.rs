//! Whether a planted fault is noticed: by comparing, by the claims of demand 3 alone, and by
//! receiving the same frames in two orders alone.

use crate::compare::Both;
use crate::lists::Lists;
use crate::mixed::Mixed;
use crate::random::Random;
use crate::second::faults::{plant, Fault};
use crate::side::{Alone, Found};
use crate::{ahead, barriers, bundles, cases, floors, frames, lists, records, versions};
use std::path::Path;

/// Calls of lists after which the claims have to have noticed a fault.
const CLAIM_CALLS: u64 = 300_000;
/// Calls of lists beside which arrivals have to have noticed one.
const ARRIVAL_CALLS: u64 = 200_000;

/// How a fault was noticed: the part, and after how many calls.
pub struct Noticed {
    pub part: &'static str,
    pub calls: u64,
}

/// A part of the run, so long.
fn run_part(part: &str, long: u64, both: &mut Both, seed: u64, list: &Path) -> Result<(), Found> {
    match part {
        "cases" => cases::run(both, list),
        "ahead" => ahead::run(both, list),
        "barriers" => barriers::run(both),
        "floors" => floors::run(both),
        "versions" => versions::run(both, list),
        "frames" => frames::run(both, seed, long),
        "records" => records::run(both, seed ^ long, long),
        "bundles" => bundles::readers(both, seed, long),
        "listings" => bundles::listings(both, seed, long, list),
        _ => lists::run(&mut Mixed::new(both, seed), seed, long, Lists::Any).map(|_| ()),
    }
}

/// Runs both implementations, with the fault in the second, until they differ. What notices quickly
/// comes first.
pub fn compared(fault: Option<Fault>, seed: u64, list: &Path) -> Option<Noticed> {
    let parts = [
        ("cases", 1),
        ("ahead", 1),
        ("barriers", 1),
        ("floors", 1),
        ("versions", 1),
        ("bundles", 80),
        ("frames", 1),
        ("lists", 2_000),
        ("records", 500),
        ("listings", 12),
        ("lists", 30_000),
        ("records", 10_000),
        ("lists", 300_000),
    ];
    plant(fault);
    let mut both = Both::new(Random::new(seed, 0));
    let noticed = parts
        .into_iter()
        .find(|(part, long)| run_part(part, *long, &mut both, seed, list).is_err());
    plant(None);
    let calls = both.counts.calls();
    noticed.map(|(part, _)| Noticed { part, calls })
}

/// Makes lists with the second implementation alone, until a claim does not hold.
pub fn claimed(fault: Option<Fault>, seed: u64) -> Option<u64> {
    plant(fault);
    let mut alone = Alone::new(Random::new(seed, 0));
    let found = lists::run(&mut alone, seed, CLAIM_CALLS, Lists::Lawful);
    plant(None);
    found.err().map(|_| alone.calls)
}

/// Makes lists with both implementations, until they differ or a claim does not hold; what was
/// found, and after how many calls.
pub fn found_where_mixed(fault: Option<Fault>, seed: u64) -> Option<(Found, u64)> {
    plant(fault);
    let mut both = Both::new(Random::new(seed, 0));
    let mut mixed = Mixed::new(&mut both, seed).claims_alone();
    let found = lists::run(&mut mixed, seed, CLAIM_CALLS, Lists::Lawful).err();
    let calls = mixed.calls();
    plant(None);
    found.map(|found| (found, calls))
}

/// After how many of these calls a claim does not hold. The fault is one of old panels, which are
/// compared with nothing here.
pub fn claimed_where_mixed(fault: Fault, seed: u64) -> Option<u64> {
    let (found, calls) = found_where_mixed(Some(fault), seed)?;
    found.what.starts_with("demand 3").then_some(calls)
}

/// Makes lists with the second implementation alone, until frames that are received in two orders
/// beside them are not as W-206 has it; what was found, and after how many calls.
pub fn arrived(fault: Option<Fault>, seed: u64) -> Option<(Found, u64)> {
    plant(fault);
    let mut alone = Alone::new(Random::new(seed, 0));
    let found = lists::run(&mut alone, seed, ARRIVAL_CALLS, Lists::WithArrivals);
    plant(None);
    found.err().map(|found| (found, alone.calls))
}
