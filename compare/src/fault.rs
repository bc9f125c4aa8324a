//! The named ways of being wrong. Each is a machine of its own in `faulty`; a row
//! here names it, and the compiler asks for the machine.

use crate::faulty;
use crate::model::{Machine, Right};
use crate::types::Step;

/// Names the faults of something: there is a right one, `Right`, and in `faulty` one for
/// each fault, and all of them have the function.
macro_rules! faults {
    (
        $(#[$said:meta])*
        fn $function:ident -> $kind:ty;
        $($(#[$doc:meta])* $name:ident),* $(,)?
    ) => {
        /// A way of being wrong.
        #[derive(Clone, Copy, Debug, PartialEq, Eq)]
        pub enum Fault {
            /// None: the right one.
            None,
            $($(#[$doc])* $name),*
        }

        /// Every fault.
        pub const ALL: &[Fault] = &[$(Fault::$name),*];

        impl Fault {
            $(#[$said])*
            pub fn $function(self) -> $kind {
                match self {
                    Fault::None => Right::$function,
                    $(Fault::$name => faulty::$name::$function),*
                }
            }
        }
    };
}

pub(crate) use faults;

faults! {
    /// The machine that has this fault.
    fn step -> Step;

    /// Sham: a load waits without looking.
    LoadAlwaysWaits,
    /// Sham: fills and drains are pretended, bytes move at a flush only.
    CopiesOnlyAtFlush,
    /// Sham: every call after the start gets one and the same answer.
    AnswersAlike,
    /// Sham: every call after the start is refused.
    RefusesAll,
    /// Sham: the answers are right and nothing changes after the start.
    ChangesNothing,
    /// Sham: a flush answers a made-up count.
    InventsFlushCount,

    /// Bypass from the youngest store, even one younger than the load.
    BypassFromYounger,
    /// An uncommitted load that finds its line changes the ages.
    LoadChangesAges,
    /// An uncommitted store makes the flush refuse.
    FlushRefusedForUncommitted,
    /// A dirty victim is not written to memory.
    EvictWithoutWriteBack,
    /// An abort clears the numbers of the dropped entries and keeps the rest.
    DroppedNumberOnly,
    /// An abort keeps the dropped entries whole.
    DroppedKept,

    /// A commit uses the lines in reversed order.
    CommitUsesReversed,
    /// A commit uses no line.
    CommitWithoutUse,
    /// A commit leaves the answered loads listed.
    CommitKeepsLoads,
    /// A flush writes the first dirty line only, and counts them all.
    FlushMissesWriteBack,
    /// A flush leaves the words dirty.
    FlushLeavesDirty,
    /// An uncommitted waiting load makes a request.
    RequestForUncommitted,
    /// The request goes to the highest number.
    RequestHighest,
    /// A reply is always refused.
    ReplyRefuses,
    /// A reply leaves the register as it is.
    ReplyKeepsRequest,
    /// The victim is the way of least age.
    VictimLeastAge,
    /// The greatest age decides, though a way is invalid.
    VictimPassesInvalid,
    /// The highest invalid way is filled.
    VictimHighestInvalid,
    /// A fill keeps the last byte that stood there.
    FillKeepsByte,
    /// A fill does not use the line.
    FillWithoutUse,
    /// A store drains past an older waiting load.
    DrainPassesLoad,
    /// A drained line is not marked dirty.
    DrainLeavesClean,
    /// A drain does not use the line.
    DrainWithoutUse,
    /// Write-back drains to an absent line, to memory alone.
    BackNeedsNoLine,
    /// Write-back writes a drained store to memory too.
    BackWritesMemory,
    /// An inquiry takes bytes from stores above its number.
    RetryFromYounger,
    /// An inquiry answered for an uncommitted load uses the line.
    RetryUsesUncommitted,
    /// An inquiry answered for a committed load leaves it listed.
    RetryKeepsCommitted,
    /// A use adds 1 to every other age of the set.
    UseAgesAll,
    /// Bytes come from the oldest covering store.
    ForwardFromOldest,
    /// A store is forwarded only when it covers the whole load.
    ForwardWholeOnly,
    /// Address + width wraps at 32 bits.
    AddressWraps,
    /// A full store queue is judged before the input checks.
    FullBeforeInput,
    /// An abort leaves the last number as it is.
    AbortKeepsLast,
    /// A commit below the committed number is accepted.
    CommitFallsBack,
    /// A start keeps the cache bytes it finds.
    StartKeepsCache,
    /// Show line gives the set's first way.
    ShowFirstWay,

    /// A drain marks the next word of the line.
    DrainMarksNextWord,
    /// A drain marks every word of the line.
    DrainMarksLine,
    /// A drain's mark takes the place of the others.
    DrainForgetsMarks,
    /// A drain that leaves every byte as it was leaves the marks as they were.
    DrainMarksChanged,
    /// A filled line keeps the marks of the line evicted.
    FillKeepsMarks,
    /// An eviction misses the last dirty word.
    EvictMissesWord,
    /// A flush misses the last dirty word of each line, and counts it.
    FlushMissesWord,
    /// A flush counts the dirty words and clears their marks, and writes none.
    FlushClearsMarks,
    /// A flush answers the number of lines.
    FlushCountsLines,
    /// A record with a fifth mark counts as well formed.
    TakesFifthMark,
    /// A clean word beside a dirty one counts as well formed, whatever memory holds.
    TakesCleanWord,

    /// A load that waits says "waits-requested" while any line is requested.
    RequestedByAny,
    /// It does so while a line of its set is requested.
    RequestedBySet,
    /// It does so by the line numbers divided by the sets.
    RequestedByTag,
    /// It does so by the low six bits of the line numbers.
    RequestedByLowBits,
    /// It does so only at the requested line's first address.
    RequestedByAddress,
    /// A request for line 0 counts as none.
    RequestedNeverZero,
    /// The two words are exchanged.
    WaitsExchanged,
    /// No load that waits says "waits-requested".
    NeverRequested,
    /// Only inquiries do.
    LoadNeverRequested,
    /// Only load calls do.
    RetryNeverRequested,
    /// Only committed loads do.
    RequestedOfCommitted,
    /// Only the lowest committed load of the line does.
    RequestedOfFirst,
    /// A line that is requested for a store alone counts as not requested.
    RequestedForLoads,
    /// A load with a byte in a held store says "waits" though its line is requested.
    RequestedUnlessCovered,
    /// A committed load says "waits-requested" whatever is requested.
    RequestedWhenCommitted,
    /// A line counts as requested once a committed load wants it.
    RequestedWhenWanted,
    /// A line counts as requested once two loads wait for it.
    RequestedBySecondLoad,
    /// A line counts as requested while a held store writes to it.
    RequestedByStore,
    /// A load of a requested line waits though held stores have all its bytes.
    RequestedHidesStores,
    /// A load call that says "waits-requested" leaves its load marked answered.
    RequestedAnswersLoad,
    /// "waits-requested" has the requested line's first address.
    RequestedTellsAddress,

    /// No load is marked forwarded.
    NeverForwarded,
    /// Every load that its call answers is.
    AlwaysForwarded,
    /// One byte in a held store is enough.
    ForwardedByAnyByte,
    /// The first byte alone decides.
    ForwardedByFirstByte,
    /// The last byte alone decides.
    ForwardedByLastByte,
    /// One store must have all the bytes.
    ForwardedByOneStore,
    /// Held stores must have the whole aligned word.
    ForwardedByWord,
    /// Only committed stores count.
    ForwardedByCommitted,
    /// Only a load whose line is absent is marked.
    ForwardedIfAbsent,
    /// A load that waits with a byte in a held store is marked until it is answered.
    WaitsForwarded,
    /// It is marked and keeps the mark: it does not use its line.
    WaitsForwardedKept,
    /// An inquiry marks every load that it answers: a committed one does not use its line.
    RetryForwards,
    /// It does so where a held store has a byte.
    RetryForwardsInPart,
    /// It does so where held stores have all bytes, younger ones too.
    RetryForwardsYounger,
    /// A committed load with a byte in a held store does not use its line at an inquiry.
    RetryPartlyUnused,
    /// A commit uses the lines of forwarded loads too, as 01 says.
    ForwardedIgnored,
    /// It uses the lines of forwarded loads alone.
    ForwardedExchanged,
    /// It asks the stores that are held then.
    ForwardedAtCommit,
    /// It uses the line of a forwarded load none of whose bytes is held any more.
    ForwardedUsesDrained,
    /// It uses no line when one of its loads is forwarded.
    ForwardedHidesOthers,
    /// It leaves forwarded loads listed.
    CommitKeepsForwarded,
    /// A drain takes the mark of the loads that its store gave a byte.
    DrainForgetsForwarded,
    /// It takes forwarded loads off the list.
    DrainDropsForwarded,
    /// A commit takes the marks of the loads that stay.
    CommitForgetsForwarded,
    /// An abort takes the marks of the loads that stay.
    AbortForgetsForwarded,
    /// A commit moves the loads up and leaves the marks where they were.
    CommitLeavesForwarded,
    /// An abort leaves the marks of the dropped loads in their places.
    AbortLeavesForwarded,
    /// It does, and the next load there that is answered is marked.
    ForwardedOutlives,
    /// A load that waits and is marked counts as well formed.
    TakesWaitingForwarded,
    /// A mark in a free place counts as well formed.
    TakesFreeForwarded,

    /// Write-through leaves the cached line as it is.
    ThroughLeavesLine,
    /// Write-through leaves memory as it is.
    ThroughLeavesMemory,
    /// Write-through marks the cached line dirty.
    ThroughMarksDirty,
    /// Write-through brings in the line of a store that misses (write-allocate).
    ThroughAllocates,
    /// Write-through drains to present lines only, and requests the others.
    ThroughNeedsLine,
    /// Write-through does not use the line of a drained store.
    ThroughWithoutUse,
    /// Write-through requests no line of a waiting load.
    ThroughForgetsLoads,
    /// Write-through drains no store to a line that is requested.
    ThroughAwaitsReply,
    /// Write-through frees the register when it drains a store to the requested line.
    ThroughFreesRegister,
    /// A start is in write-back, whatever it chooses.
    ThroughForgotten,
    /// In write-through a dirty line counts as well formed.
    ThroughTakesDirty,
    /// In write-through the oldest store's line may be requested.
    ThroughWantsForStore,
    /// In write-through no load says "waits-requested".
    ThroughNeverRequested,
    /// In write-through no load is marked forwarded.
    ThroughNeverForwarded,

    /// An abort n forgets marks at n too.
    AbortForgetsAtNumber,
    /// An abort forgets no mark.
    AbortKeepsCheckpoints,
    /// A commit keeps a mark at the committed number.
    CommitKeepsAtNumber,
    /// A commit forgets no mark.
    CommitKeepsCheckpoints,
    /// A commit forgets every mark.
    CommitForgetsAll,
    /// A commit leaves the ranks of the other marks as they were.
    CommitKeepsRanks,
    /// A commit leaves the places of the forgotten marks free before the others.
    CommitLeavesHole,
    /// A mark remembers the last number.
    CheckpointAtLast,
    /// A mark that is set has its rank counted from 0.
    CheckpointRankFromZero,
    /// Setting a mark takes a number.
    CheckpointTakesNumber,
    /// Setting a mark whose name is in use moves it.
    CheckpointMoves,
    /// A mark of the name 9 is set.
    CheckpointTakesNine,
    /// A set is refused by 21 before its name is looked at.
    CheckpointEndBeforeName,
    /// A set is refused by 21 before 20.
    CheckpointEndBeforeUse,
    /// A set whose name is in use is refused by 21.
    CheckpointUsedGives21,
    /// A return keeps its mark.
    RestoreKeepsCheckpoint,
    /// A return keeps marks set later at the same number.
    RestoreForgetsByNumber,
    /// A return forgets marks set earlier at the same number.
    RestoreForgetsEarlier,
    /// A return clears the names of the forgotten marks and keeps the rest.
    RestoreForgetsNames,
    /// A return to a name in use goes to the mark of that rank.
    RestoreByRank,
    /// A return drops from the number above that of its mark.
    RestoreOneHigh,
    /// A return answers the number of its mark.
    RestoreAnswersNumber,
    /// A return leaves the last number as it is.
    RestoreKeepsLast,
    /// A return forgets marks and drops nothing else.
    RestoreKeepsEntries,
    /// A return frees the register.
    RestoreFreesRegister,
    /// A return uses the lines of the dropped loads that were answered.
    RestoreUsesLines,
    /// A return is refused when no number is left.
    RestoreRefusedAtEnd,
    /// A return to a name outside 1 to 8 is refused by 21.
    RestoreUseBeforeName,
    /// A return to a name not in use is refused by 20.
    RestoreUnusedGives20,
    /// A free place of the marks that is not zero counts as well formed.
    TakesFreeCheckpoint,
    /// A mark behind a free place counts as well formed.
    TakesCheckpointBehindFree,
    /// A mark with a name above 8 counts as well formed.
    TakesNinthName,
    /// Two marks of one name count as well formed.
    TakesNameTwice,
    /// A mark at the committed number or below counts as well formed.
    TakesCommittedCheckpoint,
    /// A mark above last + 1 counts as well formed.
    TakesCheckpointAhead,
    /// Marks that fall in order of setting count as well formed.
    TakesFallingCheckpoints,
    /// Marks with other ranks count as well formed.
    TakesOtherRanks,

    /// A preview tells the ages before the reply.
    PreviewAgesBefore,
    /// It tells them with 0 for its way, and the others as they are.
    PreviewAgesVictim,
    /// It adds 1 to every other age of the set.
    PreviewAgesAll,
    /// It tells the ages from the last way to the first.
    PreviewAgesReversed,
    /// It tells the ways in order of age.
    PreviewOrder,
    /// It tells the ages of the first set.
    PreviewAgesOfFirst,
    /// It tells every word of a line that has a dirty one.
    PreviewAllWords,
    /// It tells no word.
    PreviewNoWords,
    /// It tells the words that are not to be written back.
    PreviewCleanWords,
    /// It tells how many words there are.
    PreviewCountsWords,
    /// It tells the words from the last to the first.
    PreviewWordsReversed,
    /// It tells the number of the record as its way.
    PreviewGivesRecord,
    /// It counts the ways from 1.
    PreviewFromOne,
    /// It takes the way of least age.
    PreviewLeastAge,
    /// It takes the way of greatest age, though one is invalid.
    PreviewPassesInvalid,
    /// It takes the highest invalid way.
    PreviewHighestInvalid,
    /// It tells line 0 where none is evicted.
    PreviewEvictsZero,
    /// It tells the requested line as the one evicted.
    PreviewEvictsRequested,
    /// It tells the first address of the line evicted.
    PreviewGivesAddress,
    /// It tells no clean line.
    PreviewHidesClean,
    /// It counts the lines of answered loads that are listed as used.
    PreviewUsesListed,
    /// It tells the words whose bytes are not memory's.
    PreviewChangedWords,
    /// A preview is accepted while the register is free, and tells of line 0.
    PreviewOfFree,
    /// It is always refused.
    PreviewRefuses,
    /// It is refused where no line is evicted.
    PreviewRefusesInvalid,
    /// It is refused by 17 before 10.
    PreviewFreeBeforeFormed,
    /// It is accepted of an ill-formed state.
    PreviewTakesIllFormed,
    /// A preview frees the register.
    PreviewFreesRegister,
    /// It leaves the ages that it tells.
    PreviewUses,
    /// It makes the reply.
    PreviewReplies,
    /// It writes the words that it tells to memory.
    PreviewWritesBack,
    /// It marks them clean.
    PreviewMarksClean,
}

/// The faults of write-through alone. Scripts keep to write-back.
pub const THROUGH: [Fault; 14] = [
    Fault::ThroughLeavesLine,
    Fault::ThroughLeavesMemory,
    Fault::ThroughMarksDirty,
    Fault::ThroughAllocates,
    Fault::ThroughNeedsLine,
    Fault::ThroughWithoutUse,
    Fault::ThroughForgetsLoads,
    Fault::ThroughAwaitsReply,
    Fault::ThroughFreesRegister,
    Fault::ThroughForgotten,
    Fault::ThroughTakesDirty,
    Fault::ThroughWantsForStore,
    Fault::ThroughNeverRequested,
    Fault::ThroughNeverForwarded,
];

/// The faults of marks alone. No script has a letter for them.
pub const CHECKPOINTS: [Fault; 37] = [
    Fault::AbortForgetsAtNumber,
    Fault::AbortKeepsCheckpoints,
    Fault::CommitKeepsAtNumber,
    Fault::CommitKeepsCheckpoints,
    Fault::CommitForgetsAll,
    Fault::CommitKeepsRanks,
    Fault::CommitLeavesHole,
    Fault::CheckpointAtLast,
    Fault::CheckpointRankFromZero,
    Fault::CheckpointTakesNumber,
    Fault::CheckpointMoves,
    Fault::CheckpointTakesNine,
    Fault::CheckpointEndBeforeName,
    Fault::CheckpointEndBeforeUse,
    Fault::CheckpointUsedGives21,
    Fault::RestoreKeepsCheckpoint,
    Fault::RestoreForgetsByNumber,
    Fault::RestoreForgetsEarlier,
    Fault::RestoreForgetsNames,
    Fault::RestoreByRank,
    Fault::RestoreOneHigh,
    Fault::RestoreAnswersNumber,
    Fault::RestoreKeepsLast,
    Fault::RestoreKeepsEntries,
    Fault::RestoreFreesRegister,
    Fault::RestoreUsesLines,
    Fault::RestoreRefusedAtEnd,
    Fault::RestoreUseBeforeName,
    Fault::RestoreUnusedGives20,
    Fault::TakesFreeCheckpoint,
    Fault::TakesCheckpointBehindFree,
    Fault::TakesNinthName,
    Fault::TakesNameTwice,
    Fault::TakesCommittedCheckpoint,
    Fault::TakesCheckpointAhead,
    Fault::TakesFallingCheckpoints,
    Fault::TakesOtherRanks,
];

/// The faults of previews alone. No script has a letter for them.
pub const PREVIEWS: [Fault; 32] = [
    Fault::PreviewAgesBefore,
    Fault::PreviewAgesVictim,
    Fault::PreviewAgesAll,
    Fault::PreviewAgesReversed,
    Fault::PreviewOrder,
    Fault::PreviewAgesOfFirst,
    Fault::PreviewAllWords,
    Fault::PreviewNoWords,
    Fault::PreviewCleanWords,
    Fault::PreviewCountsWords,
    Fault::PreviewWordsReversed,
    Fault::PreviewGivesRecord,
    Fault::PreviewFromOne,
    Fault::PreviewLeastAge,
    Fault::PreviewPassesInvalid,
    Fault::PreviewHighestInvalid,
    Fault::PreviewEvictsZero,
    Fault::PreviewEvictsRequested,
    Fault::PreviewGivesAddress,
    Fault::PreviewHidesClean,
    Fault::PreviewUsesListed,
    Fault::PreviewChangedWords,
    Fault::PreviewOfFree,
    Fault::PreviewRefuses,
    Fault::PreviewRefusesInvalid,
    Fault::PreviewFreeBeforeFormed,
    Fault::PreviewTakesIllFormed,
    Fault::PreviewFreesRegister,
    Fault::PreviewUses,
    Fault::PreviewReplies,
    Fault::PreviewWritesBack,
    Fault::PreviewMarksClean,
];

/// The faults that ill-formed states alone tell, and no run after a start.
pub const OF_STATES: [Fault; 16] = [
    Fault::TakesFifthMark,
    Fault::TakesCleanWord,
    Fault::TakesWaitingForwarded,
    Fault::TakesFreeForwarded,
    Fault::ThroughTakesDirty,
    Fault::ThroughWantsForStore,
    Fault::TakesFreeCheckpoint,
    Fault::TakesCheckpointBehindFree,
    Fault::TakesNinthName,
    Fault::TakesNameTwice,
    Fault::TakesCommittedCheckpoint,
    Fault::TakesCheckpointAhead,
    Fault::TakesFallingCheckpoints,
    Fault::TakesOtherRanks,
    Fault::PreviewFreeBeforeFormed,
    Fault::PreviewTakesIllFormed,
];
