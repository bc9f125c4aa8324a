//! The faulty planners: each is the right one with one step made wrong. `fault` says what
//! each does.

use super::random::ONE_CACHE;
use super::{
    age, present, ways, Hits, Planner, Right, Study, AGE, LINES, LINE_UNIT, MAX_ITEMS, MAX_SETS,
    PER_THOUSAND, RECORDS, SCRATCH, WAYS,
};

// The counts.

pub struct HitsByWayNumber;

impl Planner for HitsByWayNumber {
    fn item_hits(set: &mut [u32], line: u32) -> Hits {
        let way = Right::find(ways::<WAYS>(set), line);
        Right::item_hits(set, line);
        [1, 2, 3, 4].map(|ways| way.is_some_and(|way| way < ways))
    }
}

pub struct HitsShifted;

impl Planner for HitsShifted {
    fn item_hits(set: &mut [u32], line: u32) -> Hits {
        let [one, two, three, _] = Right::item_hits(set, line);
        [false, one, two, three]
    }
}

pub struct HitsReversed;

impl Planner for HitsReversed {
    fn item_hits(set: &mut [u32], line: u32) -> Hits {
        let [one, two, three, four] = Right::item_hits(set, line);
        [four, three, two, one]
    }
}

pub struct HitsOfFewestWays;

impl Planner for HitsOfFewestWays {
    fn item_hits(set: &mut [u32], line: u32) -> Hits {
        let [one, two, three, four] = Right::item_hits(set, line);
        [one, two && !one, three && !two, four && !three]
    }
}

pub struct MissesCounted;

impl Planner for MissesCounted {
    fn item_hits(set: &mut [u32], line: u32) -> Hits {
        Right::item_hits(set, line).map(|hit| !hit)
    }
}

pub struct ThreeWaysAsTwo;

impl Planner for ThreeWaysAsTwo {
    fn item_hits(set: &mut [u32], line: u32) -> Hits {
        let [one, two, _, four] = Right::item_hits(set, line);
        [one, two, two, four]
    }
}

pub struct ThreeWaysAsFour;

impl Planner for ThreeWaysAsFour {
    fn item_hits(set: &mut [u32], line: u32) -> Hits {
        let [one, two, _, four] = Right::item_hits(set, line);
        [one, two, four, four]
    }
}

pub struct LastItemForgotten;

impl Planner for LastItemForgotten {
    fn run(items: &[u32], sets: u32, scratch: &mut [u32], tell: impl FnMut(Hits)) {
        let run = items.split_last().map_or(items, |(_, before)| before);
        Right::run(run, sets, scratch, tell);
    }
}

// The tags.

pub struct AgesStartAtZero;

impl Planner for AgesStartAtZero {
    fn empty(records: &mut [u32]) {
        records.fill(0);
    }
}

pub struct TagsFromScratch;

impl Planner for TagsFromScratch {
    fn begin(_: &mut [u32]) {}
}

pub struct InvalidHoldsLineZero;

impl Planner for InvalidHoldsLineZero {
    fn find(records: &[u32], line: u32) -> Option<usize> {
        records.iter().position(|record| record / LINE_UNIT == line)
    }
}

pub struct LinesByLowBits;

impl Planner for LinesByLowBits {
    fn item_hits(set: &mut [u32], line: u32) -> Hits {
        Right::item_hits(set, line % (LINES / 2))
    }
}

pub struct SetByDivision;

impl Planner for SetByDivision {
    fn set_of(line: u32, sets: u32) -> usize {
        (line / sets % sets) as usize
    }
}

pub struct SetsIgnored;

impl Planner for SetsIgnored {
    fn set_of(_: u32, _: u32) -> usize {
        0
    }
}

// Use and victim.

pub struct HitWithoutUse;

impl Planner for HitWithoutUse {
    fn hit(_: &mut [u32], _: usize) {}
}

pub struct FetchWithoutUse;

impl Planner for FetchWithoutUse {
    fn fetch(records: &mut [u32], line: u32) {
        let way = Right::victim(records);
        records[way] = present(line) | age(records[way]);
    }
}

pub struct UseAgesAll;

impl Planner for UseAgesAll {
    fn use_way(records: &mut [u32], way: usize) {
        for record in records.iter_mut() {
            *record += u32::from(age(*record) < AGE);
        }
        records[way] &= !AGE;
    }
}

pub struct HitFetchesAgain;

impl Planner for HitFetchesAgain {
    fn item<const W: usize>(records: &mut [u32; W], line: u32) -> bool {
        let hit = Right::find(records, line).is_some();
        Right::fetch(records, line);
        hit
    }
}

pub struct VictimLeastAge;

impl Planner for VictimLeastAge {
    fn oldest_way(records: &[u32]) -> usize {
        records.iter().position(|record| age(*record) == 0).unwrap_or(0)
    }
}

pub struct FetchNeverEvicts;

impl Planner for FetchNeverEvicts {
    fn fetch(records: &mut [u32], line: u32) {
        if Right::invalid_way(records).is_some() {
            Right::fetch(records, line);
        }
    }
}

// The rates.

pub struct RateRoundedDown;

impl Planner for RateRoundedDown {
    fn rate(hits: u32, items: u32) -> u32 {
        (PER_THOUSAND * hits).checked_div(items).unwrap_or(0)
    }
}

pub struct RateRoundedUp;

impl Planner for RateRoundedUp {
    fn rate(hits: u32, items: u32) -> u32 {
        (PER_THOUSAND * hits).div_ceil(items.max(1))
    }
}

pub struct RateHalfDown;

impl Planner for RateHalfDown {
    fn rate(hits: u32, items: u32) -> u32 {
        Right::rate(hits, items) - u32::from(at_half(hits, items))
    }
}

pub struct RateHalfEven;

impl Planner for RateHalfEven {
    fn rate(hits: u32, items: u32) -> u32 {
        let up = Right::rate(hits, items);
        up - u32::from(at_half(hits, items) && up % 2 == 1)
    }
}

/// Does a rate lie at an exact half?
fn at_half(hits: u32, items: u32) -> bool {
    items != 0 && 2 * (PER_THOUSAND * hits % items) == items
}

pub struct RateOfOneMore;

impl Planner for RateOfOneMore {
    fn rate(hits: u32, items: u32) -> u32 {
        Right::rate(hits, items + 1)
    }
}

pub struct RateOfOneFewer;

impl Planner for RateOfOneFewer {
    fn rate(hits: u32, items: u32) -> u32 {
        Right::rate(hits, items.saturating_sub(1))
    }
}

pub struct RateOfPercents;

impl Planner for RateOfPercents {
    fn rate(hits: u32, items: u32) -> u32 {
        (Right::rate(hits, items) + 5) / 10 * 10
    }
}

pub struct RateOfMisses;

impl Planner for RateOfMisses {
    fn rate(hits: u32, items: u32) -> u32 {
        Right::rate(items - hits, items)
    }
}

pub struct RateOfShortLength;

impl Planner for RateOfShortLength {
    fn rate(hits: u32, items: u32) -> u32 {
        Right::rate(hits, u32::from(items as u16))
    }
}

pub struct EmptyGivesThousand;

impl Planner for EmptyGivesThousand {
    fn rate(hits: u32, items: u32) -> u32 {
        match items {
            0 => PER_THOUSAND,
            _ => Right::rate(hits, items),
        }
    }
}

// The scratch afterwards.

pub struct EmptyLeavesScratch;

impl Planner for EmptyLeavesScratch {
    fn accepted(items: &[u32], sets: u32, scratch: &mut [u32]) -> Study {
        if items.is_empty() {
            return Study::default();
        }
        Right::accepted(items, sets, scratch)
    }
}

pub struct ScratchKeepsLast;

impl Planner for ScratchKeepsLast {
    fn accepted(items: &[u32], sets: u32, scratch: &mut [u32]) -> Study {
        let last = scratch[SCRATCH - 1];
        let study = Right::accepted(items, sets, scratch);
        scratch[SCRATCH - 1] = last;
        study
    }
}

pub struct ScratchKeepsUnused;

impl Planner for ScratchKeepsUnused {
    fn accepted(items: &[u32], sets: u32, scratch: &mut [u32]) -> Study {
        scratch[..sets as usize * RECORDS].fill(0);
        Right::accepted(items, sets, &mut [0; SCRATCH])
    }
}

pub struct ScratchKeepsTags;

impl Planner for ScratchKeepsTags {
    fn end(_: &mut [u32]) {}
}

pub struct ScratchPutBack;

impl Planner for ScratchPutBack {
    fn accepted(items: &[u32], sets: u32, _: &mut [u32]) -> Study {
        Right::accepted(items, sets, &mut [0; SCRATCH])
    }
}

// The figures.

/// A planner that is wrong about the figures alone. What it takes from outside them it
/// brings inside.
pub trait Taking {
    fn list(items: &[u32]) -> bool {
        Right::list_allowed(items)
    }

    fn items(items: &[u32]) -> bool {
        Right::items_allowed(items)
    }

    fn sets(sets: u32) -> bool {
        Right::sets_allowed(sets)
    }

    fn scratch(length: usize) -> bool {
        length == SCRATCH
    }
}

impl<T: Taking> Planner for T {
    fn refusal(items: &[u32], sets: u32, scratch: &[u32]) -> Option<u32> {
        let taken = T::list(items) && T::items(items) && T::sets(sets) && T::scratch(scratch.len());
        (!taken).then_some(super::REFUSAL)
    }

    fn accepted(items: &[u32], sets: u32, scratch: &mut [u32]) -> Study {
        let items: Vec<u32> = items.iter().take(MAX_ITEMS).map(|item| item % LINES).collect();
        let sets = if Right::sets_allowed(sets) { sets } else { MAX_SETS };
        scratch.fill(0);
        Right::accepted(&items, sets, &mut [0; SCRATCH])
    }
}

pub struct TakesLongerList;

impl Taking for TakesLongerList {
    fn list(items: &[u32]) -> bool {
        items.len() <= MAX_ITEMS + 1
    }
}

pub struct RefusesLongestList;

impl Taking for RefusesLongestList {
    fn list(items: &[u32]) -> bool {
        items.len() < MAX_ITEMS
    }
}

pub struct RefusesEmptyList;

impl Taking for RefusesEmptyList {
    fn list(items: &[u32]) -> bool {
        !items.is_empty() && Right::list_allowed(items)
    }
}

pub struct TakesItem4096;

impl Taking for TakesItem4096 {
    fn items(items: &[u32]) -> bool {
        items.iter().all(|item| *item <= LINES)
    }
}

pub struct RefusesItem4095;

impl Taking for RefusesItem4095 {
    fn items(items: &[u32]) -> bool {
        items.iter().all(|item| *item < LINES - 1)
    }
}

pub struct TakesAnyFirstItem;

impl Taking for TakesAnyFirstItem {
    fn items(items: &[u32]) -> bool {
        items.iter().skip(1).all(|item| *item < LINES)
    }
}

pub struct TakesAnyLastItem;

impl Taking for TakesAnyLastItem {
    fn items(items: &[u32]) -> bool {
        items.iter().rev().skip(1).all(|item| *item < LINES)
    }
}

pub struct TakesHighItems;

impl Taking for TakesHighItems {
    fn items(items: &[u32]) -> bool {
        items.iter().all(|item| u32::from(*item as u16) < LINES)
    }
}

pub struct TakesNoSets;

impl Taking for TakesNoSets {
    fn sets(sets: u32) -> bool {
        sets == 0 || Right::sets_allowed(sets)
    }
}

pub struct TakesThreeSets;

impl Taking for TakesThreeSets {
    fn sets(sets: u32) -> bool {
        sets == 3 || Right::sets_allowed(sets)
    }
}

pub struct TakesOddSets;

impl Taking for TakesOddSets {
    fn sets(sets: u32) -> bool {
        (1..=MAX_SETS).contains(&sets)
    }
}

pub struct Takes128Sets;

impl Taking for Takes128Sets {
    fn sets(sets: u32) -> bool {
        sets == 2 * MAX_SETS || Right::sets_allowed(sets)
    }
}

pub struct Refuses64Sets;

impl Taking for Refuses64Sets {
    fn sets(sets: u32) -> bool {
        sets != MAX_SETS && Right::sets_allowed(sets)
    }
}

pub struct TakesScratch639;

impl Taking for TakesScratch639 {
    fn scratch(length: usize) -> bool {
        length == SCRATCH - 1 || length == SCRATCH
    }
}

pub struct TakesScratch641;

impl Taking for TakesScratch641 {
    fn scratch(length: usize) -> bool {
        length == SCRATCH || length == SCRATCH + 1
    }
}

pub struct TakesScratch256;

impl Taking for TakesScratch256 {
    fn scratch(length: usize) -> bool {
        length == ONE_CACHE || length == SCRATCH
    }
}

pub struct TakesLongerScratch;

impl Taking for TakesLongerScratch {
    fn scratch(length: usize) -> bool {
        length >= SCRATCH
    }
}

pub struct TakesNoScratch;

impl Taking for TakesNoScratch {
    fn scratch(length: usize) -> bool {
        length == 0 || length == SCRATCH
    }
}

pub struct TakesAnyWithoutItems;

impl Planner for TakesAnyWithoutItems {
    fn study(items: &[u32], sets: u32, scratch: &mut [u32]) -> Result<Study, u32> {
        if items.is_empty() {
            scratch.fill(0);
            return Ok(Study::default());
        }
        Right::study(items, sets, scratch)
    }
}

// Refusals.

pub struct RefusalZeroesScratch;

impl Planner for RefusalZeroesScratch {
    fn study(items: &[u32], sets: u32, scratch: &mut [u32]) -> Result<Study, u32> {
        let answer = Right::study(items, sets, scratch);
        scratch.fill(0);
        answer
    }
}

/// Runs the items before a bad one, where all else is allowed.
fn run_before_bad(items: &[u32], sets: u32, scratch: &mut [u32]) {
    let good = items.iter().take_while(|item| **item < LINES).count();
    if Right::list_allowed(items) && Right::refusal(&items[..good], sets, scratch).is_none() {
        Right::run(&items[..good], sets, scratch, |_| {});
    }
}

pub struct RefusalAtItem;

impl Planner for RefusalAtItem {
    fn study(items: &[u32], sets: u32, scratch: &mut [u32]) -> Result<Study, u32> {
        run_before_bad(items, sets, scratch);
        Right::study(items, sets, scratch)
    }
}

pub struct RefusalByOne;

impl Planner for RefusalByOne {
    fn study(items: &[u32], sets: u32, scratch: &mut [u32]) -> Result<Study, u32> {
        let shape = Right::refusal(&[], sets, scratch).map_or(Ok(()), |_| Err(1));
        shape.and_then(|()| Right::study(items, sets, scratch))
    }
}
