//! The machines that are wrong about loads fed from held stores: which loads are marked
//! forwarded, when that is decided, and what the mark does.

use super::without;
use crate::check;
use crate::forwarded::without_forwarded;
use crate::model::{leaves, line_of, Due, Found, Loaded, Machine, Right};
use crate::types::{Answer, LoadEntry, State, StoreEntry};

/// Checks 1 and 10 of a machine that does not ask for the marks of the loads that a test
/// picks. What passes with them passes without.
fn unasked(
    state: &State,
    cache: &[u8],
    memory: &[u8],
    picks: fn(&LoadEntry) -> bool,
) -> Option<u32> {
    Right::refusal(state, cache, memory)?;
    let mut unmarked = state.clone();
    forget(&mut unmarked, picks);
    Right::refusal(&unmarked, cache, memory)
}

/// The bits of a load that no older held store has.
fn missing(state: &State, load: &LoadEntry) -> u32 {
    Right::forward(state, load.number, load.address, load.width).1
}

/// Does an older held store have a byte of a load?
fn in_part(state: &State, load: &LoadEntry) -> bool {
    missing(state, load) != check::word_mask(load.address, load.width)
}

/// Clears the marks of the loads that a test picks.
fn forget(state: &mut State, picks: impl Fn(&LoadEntry) -> bool) {
    let picked = state.loads.iter_mut().filter(|load| picks(load));
    picked.for_each(|load| load.forwarded = false);
}

/// Marks a load by what some held stores alone have of it.
fn by_stores<'a>(
    stores: impl Iterator<Item = &'a StoreEntry>,
    number: u32,
    address: u32,
    width: u32,
) -> bool {
    Right::overlay(stores, number, address, width).1 == 0
}

// Which loads are marked.

/// A machine that is wrong about the mark of a load that is answered.
macro_rules! marks {
    ($($name:ident |$state:ident, $number:ident, $address:ident, $width:ident, $missing:ident|
        $marked:expr),* $(,)?) => {
        $(
            pub struct $name;

            impl Machine for $name {
                fn forwarded(
                    $state: &State,
                    $number: u32,
                    $address: u32,
                    $width: u32,
                    $missing: u32,
                ) -> bool {
                    $marked
                }
            }
        )*
    };
}

marks! {
    NeverForwarded |_s, _n, _a, _w, _m| false,
    AlwaysForwarded |_s, _n, _a, _w, _m| true,
    ForwardedByAnyByte |_s, _n, address, width, missing| {
        missing != check::word_mask(address, width)
    },
    ForwardedByFirstByte |_s, _n, address, _w, missing| {
        missing & check::word_mask(address, 1) == 0
    },
    ForwardedByLastByte |_s, _n, address, width, missing| {
        missing & check::word_mask(address + width - 1, 1) == 0
    },
    ForwardedByOneStore |state, number, address, width, _m| {
        let mut stores = check::held(state).iter();
        stores.any(|store| by_stores([store].into_iter(), number, address, width))
    },
    ForwardedByWord |state, number, address, _w, _m| {
        by_stores(check::held(state).iter(), number, address / 4 * 4, 4)
    },
    ForwardedByCommitted |state, number, address, width, _m| {
        let committed = |store: &&StoreEntry| store.number <= state.committed;
        by_stores(check::held(state).iter().filter(committed), number, address, width)
    },
    ForwardedIfAbsent |state, _n, address, _w, missing| {
        missing == 0 && Right::record(state, line_of(address)).is_none()
    },
    ThroughNeverForwarded |state, _n, _a, _w, missing| {
        missing == 0 && !check::writes_through(state)
    },
}

// Loads that wait, and inquiries.

/// Lists a load that waits as forwarded when an older held store has a byte of it.
fn mark_waiting(state: &mut State, address: u32, width: u32, found: Found) -> Answer {
    let answer = Right::list_load(state, address, width, found);
    let place = check::listed(state).len() - 1;
    if found.is_err() {
        state.loads[place].forwarded = in_part(state, &state.loads[place]);
    }
    answer
}

pub struct WaitsForwarded;

impl Machine for WaitsForwarded {
    fn refusal(state: &State, cache: &[u8], memory: &[u8]) -> Option<u32> {
        unasked(state, cache, memory, |_| true)
    }

    fn list_load(state: &mut State, address: u32, width: u32, found: Found) -> Answer {
        mark_waiting(state, address, width, found)
    }

    fn answer_load(state: &mut State, place: usize) {
        state.loads[place].forwarded = false;
        Right::answer_load(state, place);
    }
}

pub struct WaitsForwardedKept;

impl Machine for WaitsForwardedKept {
    fn refusal(state: &State, cache: &[u8], memory: &[u8]) -> Option<u32> {
        unasked(state, cache, memory, |_| true)
    }

    fn list_load(state: &mut State, address: u32, width: u32, found: Found) -> Answer {
        mark_waiting(state, address, width, found)
    }

    fn answer_load(state: &mut State, place: usize) {
        let marked = state.loads[place].forwarded;
        answer_marked(state, place, marked);
    }
}

/// An inquiry answers a load with a mark: a committed one then does not use its line.
fn answer_marked(state: &mut State, place: usize, marked: bool) {
    let (tags, committed) = (state.tags, state.loads[place].number <= state.committed);
    Right::answer_load(state, place);
    match (marked, committed) {
        (true, true) => state.tags = tags,
        (true, false) => state.loads[place].forwarded = true,
        (false, _) => {}
    }
}

pub struct RetryForwards;

impl Machine for RetryForwards {
    fn answer_load(state: &mut State, place: usize) {
        answer_marked(state, place, true);
    }
}

pub struct RetryForwardsInPart;

impl Machine for RetryForwardsInPart {
    fn answer_load(state: &mut State, place: usize) {
        let marked = in_part(state, &state.loads[place]);
        answer_marked(state, place, marked);
    }
}

pub struct RetryForwardsYounger;

impl Machine for RetryForwardsYounger {
    fn answer_load(state: &mut State, place: usize) {
        let any = LoadEntry { number: u32::MAX, ..state.loads[place] };
        let marked = missing(state, &any) == 0;
        answer_marked(state, place, marked);
    }
}

pub struct RetryPartlyUnused;

impl Machine for RetryPartlyUnused {
    fn answer_load(state: &mut State, place: usize) {
        let committed = state.loads[place].number <= state.committed;
        let marked = committed && in_part(state, &state.loads[place]);
        answer_marked(state, place, marked);
    }
}

// What a commit does.

pub struct ForwardedIgnored;

impl Machine for ForwardedIgnored {
    fn uses_line(_: &State, _: &LoadEntry) -> bool {
        true
    }
}

pub struct ForwardedExchanged;

impl Machine for ForwardedExchanged {
    fn uses_line(_: &State, load: &LoadEntry) -> bool {
        load.forwarded
    }
}

pub struct ForwardedAtCommit;

impl Machine for ForwardedAtCommit {
    fn uses_line(state: &State, load: &LoadEntry) -> bool {
        missing(state, load) != 0
    }
}

pub struct ForwardedUsesDrained;

impl Machine for ForwardedUsesDrained {
    fn uses_line(state: &State, load: &LoadEntry) -> bool {
        !load.forwarded || !in_part(state, load)
    }
}

pub struct ForwardedHidesOthers;

impl Machine for ForwardedHidesOthers {
    fn use_leaving(state: &mut State, k: u32) {
        if !state.loads.iter().any(|load| leaves(load, k) && load.forwarded) {
            Right::use_leaving(state, k);
        }
    }
}

pub struct CommitKeepsForwarded;

impl Machine for CommitKeepsForwarded {
    fn refusal(state: &State, cache: &[u8], memory: &[u8]) -> Option<u32> {
        without(check::committed_loads_wait, state, cache, memory)
    }

    fn remove_leaving(state: &mut State, k: u32) {
        let mut marked = state.loads;
        marked.iter_mut().filter(|load| load.forwarded).for_each(|load| load.answered = false);
        state.loads = marked;
        Right::remove_leaving(state, k);
        let marked = state.loads.iter_mut().filter(|load| load.forwarded);
        marked.for_each(|load| load.answered = true);
    }
}

// The mark while its load is listed, and behind it.

pub struct DrainForgetsForwarded;

impl Machine for DrainForgetsForwarded {
    fn drain(state: &mut State, cache: &mut [u8], memory: &mut [u8], due: Due) -> Answer {
        let answer = Right::drain(state, cache, memory, due);
        let stores = [due.store];
        forget(state, |load| {
            let LoadEntry { number, address, width, .. } = *load;
            let wanted = check::word_mask(address, width.max(1));
            Right::overlay(stores.iter(), number, address, width.max(1)).1 != wanted
        });
        answer
    }
}

pub struct DrainDropsForwarded;

impl Machine for DrainDropsForwarded {
    fn drain(state: &mut State, cache: &mut [u8], memory: &mut [u8], due: Due) -> Answer {
        let answer = Right::drain(state, cache, memory, due);
        *state = without_forwarded(state);
        answer
    }
}

pub struct CommitForgetsForwarded;

impl Machine for CommitForgetsForwarded {
    fn remove_leaving(state: &mut State, k: u32) {
        Right::remove_leaving(state, k);
        forget(state, |_| true);
    }
}

pub struct AbortForgetsForwarded;

impl Machine for AbortForgetsForwarded {
    fn remove_from(state: &mut State, n: u32) {
        Right::remove_from(state, n);
        forget(state, |_| true);
    }
}

/// A step that moves or clears loads and leaves the marks where they were.
fn leave_marks(state: &mut State, step: impl FnOnce(&mut State)) {
    let marks = state.loads.map(|load| load.forwarded);
    step(state);
    for (load, mark) in state.loads.iter_mut().zip(marks) {
        load.forwarded = mark;
    }
}

pub struct CommitLeavesForwarded;

impl Machine for CommitLeavesForwarded {
    fn refusal(state: &State, cache: &[u8], memory: &[u8]) -> Option<u32> {
        unasked(state, cache, memory, |_| true)
    }

    fn remove_leaving(state: &mut State, k: u32) {
        leave_marks(state, |state| Right::remove_leaving(state, k));
    }
}

pub struct AbortLeavesForwarded;

impl Machine for AbortLeavesForwarded {
    fn refusal(state: &State, cache: &[u8], memory: &[u8]) -> Option<u32> {
        unasked(state, cache, memory, |_| true)
    }

    fn remove_from(state: &mut State, n: u32) {
        leave_marks(state, |state| Right::remove_from(state, n));
    }
}

pub struct ForwardedOutlives;

impl Machine for ForwardedOutlives {
    fn refusal(state: &State, cache: &[u8], memory: &[u8]) -> Option<u32> {
        unasked(state, cache, memory, |_| true)
    }

    fn remove_from(state: &mut State, n: u32) {
        leave_marks(state, |state| Right::remove_from(state, n));
    }

    fn list_load(state: &mut State, address: u32, width: u32, found: Found) -> Answer {
        let left = state.loads[check::listed(state).len()].forwarded;
        let marked = |loaded: Loaded| Loaded { forwarded: left || loaded.forwarded, ..loaded };
        Right::list_load(state, address, width, found.map(marked))
    }
}

// What counts as well formed.

pub struct TakesWaitingForwarded;

impl Machine for TakesWaitingForwarded {
    fn refusal(state: &State, cache: &[u8], memory: &[u8]) -> Option<u32> {
        without(check::waiting_loads_not_forwarded, state, cache, memory)
    }
}

pub struct TakesFreeForwarded;

impl Machine for TakesFreeForwarded {
    fn refusal(state: &State, cache: &[u8], memory: &[u8]) -> Option<u32> {
        unasked(state, cache, memory, |load| load.number == 0)
    }
}
