//! Every fault but those of states is noticed by the checks within a bounded number
//! of random runs, and the right model passes the very same runs. `clauses` has the
//! faults of states.

use compare::examine::{examine, Checks};
use compare::fault::{Fault, ALL, OF_STATES, PREVIEWS};
use compare::random;
use compare::types::Step;

/// Runs within which a fault must be noticed.
const BOUND: u64 = 200;

const RULES: Checks = Checks { rules: true, ..Checks::NONE };
const FLAT: Checks = Checks { flat: true, ..Checks::NONE };
const FORWARDED: Checks = Checks { forwarded: true, ..Checks::NONE };
const PREVIEWED: Checks = Checks { previews: true, ..Checks::NONE };
const DROPPED: Checks = Checks { dropped: true, ..Checks::NONE };

/// The first seed at which the checks notice something, and what.
fn noticed(step: Step, checks: Checks) -> Option<(u64, String)> {
    (0..BOUND).find_map(|seed| {
        let run = random::run(seed);
        let failure = examine(&run, step, checks).err()?;
        Some((seed, failure.to_string()))
    })
}

#[test]
fn right_model_passes_these_runs() {
    assert_eq!(noticed(Fault::None.step(), Checks::ALL), None);
}

#[test]
fn rules_notice_every_fault() {
    assert_eq!(missed(RULES, ALL), OF_STATES);
}

/// Those of the faults that these checks alone do not notice.
fn missed(checks: Checks, faults: &[Fault]) -> Vec<Fault> {
    let passes = |fault: &Fault| {
        let found = noticed(fault.step(), checks);
        println!("{fault:?}: {found:?}");
        found.is_none()
    };
    faults.iter().copied().filter(passes).collect()
}

#[test]
fn demand_2_alone_notices() {
    let faults = [
        Fault::LoadAlwaysWaits,
        Fault::CopiesOnlyAtFlush,
        Fault::AnswersAlike,
        Fault::ChangesNothing,
        Fault::BypassFromYounger,
        Fault::EvictWithoutWriteBack,
        Fault::FlushMissesWriteBack,
        Fault::FillKeepsByte,
        Fault::DrainPassesLoad,
        Fault::DrainLeavesClean,
        Fault::RetryFromYounger,
        Fault::ForwardFromOldest,
        Fault::ForwardWholeOnly,
        Fault::AddressWraps,
        Fault::AbortKeepsLast,
        Fault::DrainMarksNextWord,
        Fault::DrainForgetsMarks,
        Fault::EvictMissesWord,
        Fault::FlushMissesWord,
        Fault::FlushClearsMarks,
        Fault::RequestedHidesStores,
        Fault::ThroughLeavesLine,
        Fault::ThroughLeavesMemory,
        Fault::CheckpointAtLast,
        Fault::CheckpointTakesNumber,
        Fault::RestoreByRank,
        Fault::RestoreOneHigh,
        Fault::RestoreAnswersNumber,
        Fault::RestoreKeepsLast,
        Fault::RestoreKeepsEntries,
    ];
    assert_eq!(missed(FLAT, &faults), []);
}

#[test]
fn demand_3_alone_notices() {
    let faults = [
        Fault::BypassFromYounger,
        Fault::LoadChangesAges,
        Fault::FlushRefusedForUncommitted,
        Fault::DroppedNumberOnly,
        Fault::DroppedKept,
        Fault::RequestForUncommitted,
        Fault::RetryFromYounger,
        Fault::RetryUsesUncommitted,
        Fault::AbortKeepsLast,
        Fault::AbortForgetsAtNumber,
        Fault::CheckpointTakesNumber,
        Fault::RestoreKeepsCheckpoint,
        Fault::RestoreForgetsByNumber,
        Fault::RestoreForgetsEarlier,
        Fault::RestoreForgetsNames,
        Fault::RestoreByRank,
        Fault::RestoreOneHigh,
        Fault::RestoreKeepsLast,
        Fault::RestoreKeepsEntries,
        Fault::RestoreFreesRegister,
        Fault::RestoreUsesLines,
        Fault::AbortForgetsForwarded,
        Fault::AbortLeavesForwarded,
        Fault::ForwardedOutlives,
        Fault::PreviewUsesListed,
    ];
    assert_eq!(missed(DROPPED, &faults), []);
}

/// What the marks of forwarded loads alone tell. (`RetryPartlyUnused`, `CommitKeepsForwarded`
/// and `DrainDropsForwarded` leave every mark and the lines of every commit as they are.)
#[test]
fn forwarded_loads_alone_notice() {
    let faults = [
        Fault::NeverForwarded,
        Fault::AlwaysForwarded,
        Fault::ForwardedByAnyByte,
        Fault::ForwardedByFirstByte,
        Fault::ForwardedByLastByte,
        Fault::ForwardedByOneStore,
        Fault::ForwardedByWord,
        Fault::ForwardedByCommitted,
        Fault::ForwardedIfAbsent,
        Fault::WaitsForwarded,
        Fault::WaitsForwardedKept,
        // It lists a load that held stores have whole, and an inquiry asks about it.
        Fault::LoadAlwaysWaits,
        Fault::RetryForwards,
        Fault::RetryForwardsInPart,
        Fault::RetryForwardsYounger,
        Fault::ForwardedIgnored,
        Fault::ForwardedExchanged,
        Fault::ForwardedAtCommit,
        Fault::ForwardedUsesDrained,
        Fault::ForwardedHidesOthers,
        Fault::DrainForgetsForwarded,
        Fault::CommitForgetsForwarded,
        Fault::AbortForgetsForwarded,
        Fault::CommitLeavesForwarded,
        Fault::AbortLeavesForwarded,
        Fault::ForwardedOutlives,
        Fault::ThroughNeverForwarded,
    ];
    assert_eq!(missed(FORWARDED, &faults), []);
}

/// What the reply on a copy alone tells: every fault of previews but those of states, and
/// those of replies that do otherwise than is told.
#[test]
fn previews_alone_notice() {
    assert_eq!(missed(PREVIEWED, &PREVIEWS), OF_STATES[OF_STATES.len() - 2..]);
    let faults = [
        Fault::ReplyRefuses,
        Fault::EvictWithoutWriteBack,
        Fault::EvictMissesWord,
        Fault::FillWithoutUse,
        Fault::AnswersAlike,
    ];
    assert_eq!(missed(PREVIEWED, &faults), []);
}
