//! The faults of a study, by name. Each is a planner of its own in `faulty`; a row here
//! names it, and the compiler asks for the planner.
//!
//! Left out, since they answer as the right study: a victim of greatest age though a way
//! is invalid, or the highest invalid way (until a set is full its invalid ways have the
//! greatest ages, and no answer tells a way); a use that adds 1 to every other age where
//! ages have room for it (they keep the order of use). Left out, since they answer as
//! `AgesStartAtZero`: a use that leaves the other ages, or adds 1 to the larger ones (in a
//! full set all are 0 then).

use super::{faulty, Hits, Planner, Planning, Right};
use crate::fault::faults;

/// The hits of each item of a list that is allowed.
pub type ByItem = fn(items: &[u32], sets: u32) -> Vec<Hits>;

impl Fault {
    /// The study that has this fault.
    pub fn study(self) -> Planning {
        self.planned()().study
    }

    /// The hits of each item with this fault.
    pub fn by_item(self) -> ByItem {
        self.planned()().by_item
    }
}

/// The two functions of a planner.
pub struct Planned {
    study: Planning,
    by_item: ByItem,
}

/// Every planner has both.
trait Plans: Planner {
    fn planned() -> Planned {
        Planned { study: Self::study, by_item: Self::by_item }
    }
}

impl<P: Planner> Plans for P {}

faults! {
    /// Gives the functions of the planner that has this fault.
    fn planned -> fn() -> Planned;

    /// Hits with w ways are those in the ways below w of one cache of four.
    HitsByWayNumber,
    /// The counts of w ways stand at w + 1.
    HitsShifted,
    /// The counts stand from 4 ways to 1.
    HitsReversed,
    /// An item counts with the fewest ways that it hits with, and with no more.
    HitsOfFewestWays,
    /// Misses are counted.
    MissesCounted,
    /// Three ways are taken for two.
    ThreeWaysAsTwo,
    /// Three ways are taken for four.
    ThreeWaysAsFour,
    /// The last item is not run.
    LastItemForgotten,

    /// Every age is 0 at first.
    AgesStartAtZero,
    /// The tags begin with what the scratch holds.
    TagsFromScratch,
    /// An invalid record counts as one of line 0.
    InvalidHoldsLineZero,
    /// Lines are told apart by all bits but the highest.
    LinesByLowBits,
    /// A line's set is its number divided by the sets, modulo sets.
    SetByDivision,
    /// There is one set, whatever the set count.
    SetsIgnored,

    /// A hit does not use its line.
    HitWithoutUse,
    /// A fetched line is not used.
    FetchWithoutUse,
    /// A use adds 1 to every other age that is below 3.
    UseAgesAll,
    /// A hit fetches its line once more, beside itself.
    HitFetchesAgain,
    /// The victim is the way of least age.
    VictimLeastAge,
    /// A line is fetched into invalid ways only.
    FetchNeverEvicts,

    /// Rates are rounded down.
    RateRoundedDown,
    /// Rates are rounded up.
    RateRoundedUp,
    /// A half is rounded down.
    RateHalfDown,
    /// A half is rounded to the even neighbour.
    RateHalfEven,
    /// Rates are of one item more.
    RateOfOneMore,
    /// Rates are of one item fewer.
    RateOfOneFewer,
    /// Rates are whole percents, times ten.
    RateOfPercents,
    /// Rates are those of the misses.
    RateOfMisses,
    /// Rates are of a length in 16 bits.
    RateOfShortLength,
    /// The empty list gives rates of a thousand.
    EmptyGivesThousand,

    /// The empty list leaves the scratch as it was.
    EmptyLeavesScratch,
    /// The last number of the scratch is not zeroed.
    ScratchKeepsLast,
    /// The scratch is zeroed only where the sets in use have their records.
    ScratchKeepsUnused,
    /// The scratch keeps the tags.
    ScratchKeepsTags,
    /// The scratch is put back as it was found.
    ScratchPutBack,

    /// 65,537 items are taken.
    TakesLongerList,
    /// 65,536 items are refused.
    RefusesLongestList,
    /// The empty list is refused.
    RefusesEmptyList,
    /// Item 4,096 is taken.
    TakesItem4096,
    /// Item 4,095 is refused.
    RefusesItem4095,
    /// The first item is not checked.
    TakesAnyFirstItem,
    /// The last item is not checked.
    TakesAnyLastItem,
    /// Items are checked by their low 16 bits.
    TakesHighItems,
    /// A set count of 0 is taken.
    TakesNoSets,
    /// Three sets are taken.
    TakesThreeSets,
    /// Every set count from 1 to 64 is taken.
    TakesOddSets,
    /// 128 sets are taken.
    Takes128Sets,
    /// 64 sets are refused.
    Refuses64Sets,
    /// A scratch of 639 is taken.
    TakesScratch639,
    /// A scratch of 641 is taken.
    TakesScratch641,
    /// A scratch of 256 is taken.
    TakesScratch256,
    /// Every scratch of 640 or more is taken.
    TakesLongerScratch,
    /// A scratch of no numbers is taken.
    TakesNoScratch,
    /// With no items every set count and scratch is taken.
    TakesAnyWithoutItems,

    /// A refusal zeroes the scratch.
    RefusalZeroesScratch,
    /// A bad item is refused when its turn comes, and the scratch keeps the tags.
    RefusalAtItem,
    /// A bad set count or scratch is refused by 1.
    RefusalByOne,
}
