//! Which planted faults have to be noticed by what, and whether they are.

use crate::noticing::{
    arrived, claimed, claimed_where_mixed, compared, found_where_mixed, Noticed,
};
use crate::second::faults::{Fault, FAULTS};
use crate::side::Found;
use std::path::Path;
use std::sync::atomic::{AtomicUsize, Ordering};
use std::sync::Mutex;
use std::thread;

/// Threads that the faults are tried on.
const THREADS: usize = 2;

/// Faults that break demand 3 in lists of so many calls, as far as seeds were tried: the claims
/// alone have to notice them too, without the module.
const BREAK_DEMAND_3: &[Fault] = &[
    Fault::OnePassOverTheList,
    Fault::BarrierEmptiedBeforeFrame,
    Fault::EveryMessageHeldBack,
    Fault::HandedOnArrival,
    Fault::OneReadingForAll,
    Fault::RecordAsItCame,
    Fault::DroppedAtEqualTime,
    Fault::DroppedIsHanded,
    Fault::EntryMetAtEqualTime,
    Fault::EntryMetByEqualMarkOnly,
    Fault::LapsedEntryWaitedFor,
    Fault::LowestEntryTestedOnly,
    Fault::LowestBitNotTested,
    Fault::HighestBitNotTested,
    Fault::SettlingStopsAfterOne,
    Fault::ClockDoesNotSettle,
    Fault::BarrierNotRaisedByReceived,
    Fault::BarrierNotRaisedByOwn,
    Fault::LapsedEntriesStripped,
    Fault::OwnEntryLeftOut,
    Fault::EntryOneAboveRemoved,
    Fault::EntryAboveRemoved,
    Fault::RemovedByTheMark,
    Fault::RemovedByTheHighest,
    Fault::RemovedByTheFirst,
    Fault::RemovedByTheDeadline,
    Fault::NotCarriedRemoved,
    Fault::RemovedPlaceByPlace,
    Fault::PlaceTakenForPanel,
    Fault::LapsedEntriesRemoved,
    Fault::WaitingRemoves,
    Fault::RefusedCopyRemoves,
    Fault::RemovedFromTheMarks,
    Fault::DeadlineByTheClockAlone,
    Fault::DeadlineNotAboveHigh,
    Fault::AboveHighWraps,
    Fault::DeadlinePastLastSent,
    Fault::BeaconByTheClockAlone,
    Fault::BeaconStopsAtTheLast,
    Fault::BeaconNotHanded,
    Fault::BeaconNotLogged,
    Fault::BeaconWithoutEntries,
    Fault::BeaconLeavesBarrier,
    Fault::BeaconNotInBarrier,
    Fault::FarAheadWaits,
    Fault::RefusedFarAheadRaisesMark,
    Fault::SendStopsFarAhead,
    Fault::FarAheadHighLeftOut,
    Fault::FarAheadEntriesStripped,
    Fault::FloorNotAsked,
    Fault::FloorNotAskedOfReceived,
    Fault::FloorNotAskedOfEntries,
    Fault::FloorItselfAlive,
    Fault::OneAboveFloorLapsed,
    Fault::LapsedByBoth,
    Fault::FloorForEachSource,
    Fault::FloorNeverRises,
    Fault::ReachedRaisesFloor,
    Fault::EqualToMarkRaisesFloor,
    Fault::EachEntryRaisesFloor,
    Fault::BarrierAskedForFloor,
    Fault::MarkAfterHandingAsked,
    Fault::SmallestMissed,
    Fault::FirstMissed,
    Fault::LastMissed,
    Fault::FloorOverwritten,
    Fault::FloorRisesToDeadline,
    Fault::FloorRisesToTime,
    Fault::FloorStaysOnArrival,
    Fault::FloorStaysWhileSettling,
    Fault::FloorStaysInClock,
    Fault::RefusedRaisesFloor,
    Fault::DroppedRaisesFloor,
    Fault::ClockResetsFloor,
    Fault::SendResetsFloor,
    Fault::SetBackRaisesTime,
    Fault::SetBackLeavesTime,
    Fault::SetBackDropsAll,
    Fault::SetBackResetsFloor,
    Fault::SetBackLowersFloor,
    Fault::SetBackRaisesFloor,
    Fault::SetBackForgetsMarks,
    Fault::SetBackWithoutFloor,
    Fault::TakenAgainHeldBack,
    Fault::FloorEntriesStripped,
    Fault::WaitingCopyTaken,
    Fault::LoggedCopyTaken,
    Fault::MaskFromTheTop,
    Fault::EntriesHighestPanelFirst,
    Fault::EntriesWrittenHighestPanelFirst,
    Fault::MaskWhereItWas,
    Fault::DeadlineReadCut,
    Fault::EntriesReadCut,
    Fault::VersionOneSent,
    Fault::VersionOfTheLastSent,
    Fault::BeaconOfVersionOne,
    Fault::DeadlineWrittenCut,
    Fault::EntriesWrittenCut,
    Fault::WideningLosesHighestByte,
    Fault::WideningShifts,
    Fault::WaitingVersionsAreTwo,
    Fault::LoggedVersionsAreTwo,
    Fault::LapsedIn32Bits,
    Fault::FloorIn32Bits,
    Fault::MetIn32Bits,
    Fault::TimeCut,
    Fault::SetBackCut,
    Fault::MarkCut,
    Fault::BarrierCut,
    Fault::FloorCut,
    Fault::LogDeadlineCut,
    Fault::LogDeadlineInFour,
];

/// The faults of panels of the old make that break demand 3: the claims have to notice them where
/// these panels share a farm with the module's.
const BREAK_DEMAND_3_WHERE_MIXED: &[Fault] = &[
    Fault::OldMakeDropsTheLapsed,
    Fault::OldMakeEmptiesAsItReceives,
    Fault::OldMakeLeavesReceivedOut,
    Fault::OldMakeKeepsTheHighest,
    Fault::OldMakeHandsOnArrival,
    Fault::OldMakeDoesNotSettle,
    Fault::OldMakeAsksNoFloor,
    Fault::OldMakeFloorStays,
    Fault::OldMakeNotSetBack,
];

/// Faults with which two orders of receiving the same frames are not as W-206 has it, beside lists
/// of so many calls, as far as seeds were tried: arrivals alone have to notice them too, without the
/// module and the claims.
const BREAK_W_206: &[Fault] = &[
    Fault::OnePassOverTheList,
    Fault::BarrierEmptiedBeforeFrame,
    Fault::OwnMessageInItsBarrier,
    Fault::HandedOnArrival,
    Fault::EveryFrameTurnedDown,
    Fault::OneReadingForAll,
    Fault::CountOneTooHigh,
    Fault::RecordAsItCame,
    Fault::EntryMetAtEqualTime,
    Fault::EntryMetByEqualMarkOnly,
    Fault::LowestEntryTestedOnly,
    Fault::LowestBitNotTested,
    Fault::HighestBitNotTested,
    Fault::SettlingStopsAfterOne,
    Fault::BarrierNotRaisedByOwn,
    Fault::HighNotRaisedByReceived,
    Fault::LapsedMarksForgotten,
    Fault::LapsedEntriesStripped,
    Fault::OwnEntryLeftOut,
    Fault::EntryOneAboveRemoved,
    Fault::EntryAboveRemoved,
    Fault::RemovedByTheMark,
    Fault::RemovedByTheHighest,
    Fault::RemovedByTheFirst,
    Fault::RemovedByTheDeadline,
    Fault::NotCarriedRemoved,
    Fault::RemovedPlaceByPlace,
    Fault::PlaceTakenForPanel,
    Fault::LapsedEntriesRemoved,
    Fault::SettlingRemovesNothing,
    Fault::OnlySettlingRemoves,
    Fault::RemovedByTheReceived,
    Fault::WaitingRemoves,
    Fault::RefusedCopyRemoves,
    Fault::RemovedFromTheMarks,
    Fault::RemovedIsZero,
    Fault::RemovedBitStays,
    Fault::RemovedBytesStay,
    Fault::OldMakeEmptiesAsItReceives,
    Fault::OldMakeKeepsTheHighest,
    Fault::OldMakeHandsOnArrival,
    Fault::OldMakeDoesNotSettle,
    Fault::DeadlineByTheClockAlone,
    Fault::DeadlineNotAboveHigh,
    Fault::DeadlinePastLastSent,
    Fault::BeaconByTheClockAlone,
    Fault::BeaconStopsAtTheLast,
    Fault::BeaconNotHanded,
    Fault::BeaconLeavesHigh,
    Fault::BeaconWithoutEntries,
    Fault::BeaconLeavesBarrier,
    Fault::BeaconNotInBarrier,
    Fault::FarAheadOfHigh,
    Fault::FarAheadReadyTaken,
    Fault::FarAheadAsTooHigh,
    Fault::RefusedFarAheadRaisesMark,
    Fault::FarAheadHighLowered,
    Fault::FarAheadMarkIsBroken,
    Fault::SendStopsFarAhead,
    Fault::FarAheadHighLeftOut,
    Fault::FarAheadEntriesStripped,
    Fault::FloorNotAskedOfReceived,
    Fault::OneAboveFloorLapsed,
    Fault::FloorForEachSource,
    Fault::EachEntryRaisesFloor,
    Fault::MarkAfterHandingAsked,
    Fault::FloorOverwritten,
    Fault::FloorRisesToDeadline,
    Fault::FloorStaysOnArrival,
    Fault::FloorStaysWhileSettling,
    Fault::SetBackForgetsMarks,
    Fault::FloorAboveTimeIsBroken,
    Fault::WaitingCopyTaken,
    Fault::LoggedCopyTaken,
    Fault::RefusedLapsedRaisesMark,
    Fault::PayloadThirtyThreeSent,
    Fault::MaskFromTheTop,
    Fault::EntriesHighestPanelFirst,
    Fault::EntriesWrittenHighestPanelFirst,
    Fault::LowestByteFirst,
    Fault::VersionOneNotRead,
    Fault::VersionTwoNotRead,
    Fault::ShortestOfTwoForBoth,
    Fault::VersionOneDeadlineInEight,
    Fault::VersionOneEntriesInEight,
    Fault::VersionTwoEntriesInFour,
    Fault::MaskWhereItWas,
    Fault::DeadlineReadCut,
    Fault::EntriesReadCut,
    Fault::VersionOneSent,
    Fault::DeadlineWrittenCut,
    Fault::EntriesWrittenCut,
    Fault::VersionOneKept,
    Fault::WidenedVersionStays,
    Fault::WideningShifts,
    Fault::WaitingVersionsAreTwo,
    Fault::LoggedVersionsAreTwo,
    Fault::FloorIn32Bits,
    Fault::BrokenIn32Bits,
    Fault::HighCut,
    Fault::MarkCut,
    Fault::BarrierCut,
    Fault::LogZerosMissing,
];

/// What came of a fault: how comparing noticed it, and after how many calls the claims and the
/// arrivals.
struct Tried {
    fault: Fault,
    compared: Option<Noticed>,
    claimed: Option<u64>,
    arrived: Option<u64>,
}

/// After how many calls the claims notice a fault that breaks demand 3.
fn claimed_if_breaking(fault: Fault, seed: u64) -> Option<u64> {
    if BREAK_DEMAND_3.contains(&fault) {
        return claimed(Some(fault), seed);
    }
    if BREAK_DEMAND_3_WHERE_MIXED.contains(&fault) {
        return claimed_where_mixed(fault, seed);
    }
    None
}

/// After how many calls arrivals notice a fault that breaks W-206.
fn arrived_if_breaking(fault: Fault, seed: u64) -> Option<u64> {
    match BREAK_W_206.contains(&fault) {
        true => arrived(Some(fault), seed).map(|(_, calls)| calls),
        false => None,
    }
}

/// Tries the faults on several threads. The results are in the order of the faults.
fn tried(seed: u64, list: &Path) -> Vec<Tried> {
    let next = AtomicUsize::new(0);
    let all = Mutex::new(Vec::new());
    let try_next = || loop {
        let place = next.fetch_add(1, Ordering::Relaxed);
        let Some(fault) = FAULTS.get(place).copied() else {
            return;
        };
        let tried = Tried {
            fault,
            compared: compared(Some(fault), seed, list),
            claimed: claimed_if_breaking(fault, seed),
            arrived: arrived_if_breaking(fault, seed),
        };
        if let Ok(mut all) = all.lock() {
            all.push((place, tried));
        }
    };
    thread::scope(|scope| {
        for _ in 0..THREADS {
            scope.spawn(try_next);
        }
    });
    let mut all = all.into_inner().unwrap_or_default();
    all.sort_by_key(|(place, _)| *place);
    all.into_iter().map(|(_, tried)| tried).collect()
}

/// Prints what came of a fault; what went unnoticed.
fn print(tried: &Tried) -> Vec<String> {
    let Tried {
        fault,
        compared,
        claimed,
        arrived,
    } = tried;
    let or_none = |calls: Option<u64>| calls.map_or("-".to_string(), |calls| calls.to_string());
    let part = compared.as_ref().map_or("-", |noticed| noticed.part);
    let calls = or_none(compared.as_ref().map(|noticed| noticed.calls));
    let (claims, arrivals) = (or_none(*claimed), or_none(*arrived));
    println!(
        "{part:>8} {calls:>6} {claims:>6} {arrivals:>6}  {fault:?}: {}",
        fault.words()
    );
    let mut unnoticed = Vec::new();
    if compared.is_none() {
        unnoticed.push(format!("{fault:?} went unnoticed"));
    }
    let mut breaking = BREAK_DEMAND_3.iter().chain(BREAK_DEMAND_3_WHERE_MIXED);
    if claimed.is_none() && breaking.any(|breaking| breaking == fault) {
        unnoticed.push(format!("{fault:?} went unnoticed by the claims"));
    }
    if arrived.is_none() && BREAK_W_206.contains(fault) {
        unnoticed.push(format!("{fault:?} went unnoticed by arrivals"));
    }
    unnoticed
}

/// Whether nothing is noticed without a fault.
fn without_a_fault(seed: u64, list: &Path) -> Result<(), Found> {
    println!("without a fault: nothing may be noticed");
    if let Some(noticed) = compared(None, seed, list) {
        let what = format!("the part {} fails without a fault", noticed.part);
        return Err(Found::new(what));
    }
    if claimed(None, seed).is_some() {
        return Err(Found::new("a claim does not hold, without a fault"));
    }
    if let Some((found, _)) = found_where_mixed(None, seed) {
        return Err(found.within("in lists of both makes, without a fault"));
    }
    match arrived(None, seed) {
        Some((found, _)) => Err(found.within("in two orders, without a fault")),
        None => Ok(()),
    }
}

/// Tries all faults. The error names those that went unnoticed.
pub fn run(seed: u64, list: &Path) -> Result<(), Found> {
    without_a_fault(seed, list)?;
    println!(
        "faults: {} planted in the second implementation, one at a time. The part that noticed",
        FAULTS.len()
    );
    println!("it, after how many calls, and after how many the claims and the arrivals did, each");
    println!("on their own:");
    let all = tried(seed, list);
    let unnoticed: Vec<String> = all.iter().flat_map(print).collect();
    let many = |noticed: fn(&Tried) -> bool| all.iter().filter(|tried| noticed(tried)).count();
    println!(
        "noticed: {} of {}, {} by the claims alone, {} by the arrivals alone",
        many(|tried| tried.compared.is_some()),
        FAULTS.len(),
        many(|tried| tried.claimed.is_some()),
        many(|tried| tried.arrived.is_some())
    );
    match unnoticed.is_empty() && all.len() == FAULTS.len() {
        true => Ok(()),
        false => Err(Found::new(unnoticed.join(", "))),
    }
}
