//! Long scripts and struck stretches: the right model agrees with itself however
//! a script is cut, and what the scripts are there to notice is noticed.

use compare::counts::Counts;
use compare::fault::{self, Fault};
use compare::long;
use compare::met;
use compare::program::Player;
use compare::struck::{self, Pair};

/// What a machine prints for a script in pieces.
fn printed(fault: Fault, script: &[u8], piece: usize) -> Vec<u8> {
    Player::Machine(fault.step()).play(script, piece).unwrap()
}

#[test]
fn cuts_do_not_matter() {
    for seed in 0..3 {
        let script = long::script(seed, 2_000);
        let whole = printed(Fault::None, &script, 1 << 20);
        for piece in [1, 63, 64, 65, 4096] {
            assert!(printed(Fault::None, &script, piece) == whole, "seed {seed}, piece {piece}");
        }
    }
}

#[test]
fn long_scripts_meet_enough() {
    let mut counts = Counts::default();
    for seed in 0..3 {
        met::count_script(&mut counts, &long::script(seed, 60_000));
    }
    assert_eq!(counts.lacking_of(&met::NEEDED, counts.calls), Vec::<String>::new());
}

/// Faults that no script tells: what an empty cache holds, which invalid way is
/// filled, what memory holds under a dirty word, what a load is marked while it waits
/// or once its place is free, and what counts as well formed.
const UNSEEN: [Fault; 11] = [
    Fault::VictimPassesInvalid,
    Fault::VictimHighestInvalid,
    Fault::BackWritesMemory,
    Fault::StartKeepsCache,
    Fault::ShowFirstWay,
    Fault::TakesFifthMark,
    Fault::TakesCleanWord,
    Fault::WaitsForwarded,
    Fault::AbortLeavesForwarded,
    Fault::TakesWaitingForwarded,
    Fault::TakesFreeForwarded,
];

#[test]
fn long_scripts_notice_faults() {
    let scripts = (0..4).map(|seed| long::script(seed, 20_000));
    let played = scripts.map(|script| (printed(Fault::None, &script, 4096), script));
    let played: Vec<(Vec<u8>, Vec<u8>)> = played.collect();
    let missed = |fault: &Fault| {
        played.iter().all(|(right, script)| printed(*fault, script, 4096) == *right)
    };
    let missed: Vec<Fault> = fault::ALL.iter().copied().filter(missed).collect();
    let no_script = [&fault::THROUGH[..], &fault::CHECKPOINTS, &fault::PREVIEWS].concat();
    assert_eq!(missed, [&UNSEEN[..], &no_script].concat());
}

/// Faults that leave a trace of what is dropped where a script can see it.
const TRACES: [Fault; 9] = [
    Fault::BypassFromYounger,
    Fault::LoadChangesAges,
    Fault::FlushRefusedForUncommitted,
    Fault::DroppedKept,
    Fault::RequestForUncommitted,
    Fault::RetryFromYounger,
    Fault::RetryUsesUncommitted,
    Fault::AbortKeepsLast,
    Fault::ForwardedOutlives,
];

#[test]
fn struck_stretches_notice_faults() {
    let mut counts = Counts::default();
    let pairs: Vec<Pair> = (0..8).map(|seed| struck::pair(seed, 40, &mut counts)).collect();
    let differs = |fault: Fault, pair: &Pair| {
        let [whole, struck] = [&pair.whole, &pair.struck].map(|one| printed(fault, one, 4096));
        pair.difference(&whole, &struck).is_some()
    };
    assert_eq!(counts.lacking_of(&struck::NEEDED, counts.of("stretch struck")), [""; 0]);
    assert!(!pairs.iter().any(|pair| differs(Fault::None, pair)));
    for fault in TRACES {
        assert!(pairs.iter().any(|pair| differs(fault, pair)), "{fault:?}");
    }
}
