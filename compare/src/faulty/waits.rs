//! The machines that are wrong about a load that waits: which of the two words it says,
//! and what a requested line changes beside the word.

use super::without;
use crate::check;
use crate::model::{line_of, Found, Machine, Right};
use crate::types::{Answer, Call, LoadEntry, Lookup, Request, State, LINE};

/// A machine that is wrong about the word alone.
pub trait Wording {
    /// Does a load that waits say "waits-requested"? It stands in the list, and its call
    /// changed neither the register nor a record, so that the state after it tells.
    fn requested(state: &State, load: LoadEntry) -> bool;
}

impl<W: Wording> Machine for W {
    fn step(state: &mut State, cache: &mut [u8], memory: &mut [u8], call: Call) -> Answer {
        let answer = Right::step(state, cache, memory, call);
        let listed = check::listed(state).iter().copied();
        let waiting = listed.filter(|load| answer.waits() == Some(load.number));
        match waiting.map(|load| W::requested(state, load)).next() {
            Some(true) => answer.waits().map_or(answer, Answer::WaitsRequested),
            Some(false) => plain(answer),
            None => answer,
        }
    }
}

/// An answer with "waits" for either word.
fn plain(answer: Answer) -> Answer {
    answer.waits().map_or(answer, Answer::Waits)
}

/// Is the line of a load requested?
fn right(state: &State, load: LoadEntry) -> bool {
    Right::lookup(state, line_of(load.address)) == Lookup::Requested
}

/// Does a line that is requested agree with that of a load?
fn agrees(state: &State, load: LoadEntry, same: impl Fn(u32, u32) -> bool) -> bool {
    matches!(state.request, Request::Line(line) if same(line, line_of(load.address)))
}

/// The committed waiting loads of a load's line, in number order.
fn wanting(state: &State, load: LoadEntry) -> impl Iterator<Item = &LoadEntry> {
    check::wanting(state, line_of(load.address))
}

// What is compared with the register.

pub struct RequestedByAny;

impl Wording for RequestedByAny {
    fn requested(state: &State, _: LoadEntry) -> bool {
        state.request != Request::Free
    }
}

pub struct RequestedBySet;

impl Wording for RequestedBySet {
    fn requested(state: &State, load: LoadEntry) -> bool {
        let sets = state.figures.sets;
        agrees(state, load, |requested, line| requested % sets == line % sets)
    }
}

pub struct RequestedByTag;

impl Wording for RequestedByTag {
    fn requested(state: &State, load: LoadEntry) -> bool {
        let sets = state.figures.sets;
        agrees(state, load, |requested, line| requested / sets == line / sets)
    }
}

pub struct RequestedByLowBits;

impl Wording for RequestedByLowBits {
    fn requested(state: &State, load: LoadEntry) -> bool {
        agrees(state, load, |requested, line| requested % 64 == line % 64)
    }
}

pub struct RequestedByAddress;

impl Wording for RequestedByAddress {
    fn requested(state: &State, load: LoadEntry) -> bool {
        agrees(state, load, |requested, _| requested * LINE as u32 == load.address)
    }
}

pub struct RequestedNeverZero;

impl Wording for RequestedNeverZero {
    fn requested(state: &State, load: LoadEntry) -> bool {
        right(state, load) && state.request != Request::Line(0)
    }
}

// Which loads say it.

pub struct WaitsExchanged;

impl Wording for WaitsExchanged {
    fn requested(state: &State, load: LoadEntry) -> bool {
        !right(state, load)
    }
}

pub struct NeverRequested;

impl Wording for NeverRequested {
    fn requested(_: &State, _: LoadEntry) -> bool {
        false
    }
}

pub struct ThroughNeverRequested;

impl Wording for ThroughNeverRequested {
    fn requested(state: &State, load: LoadEntry) -> bool {
        right(state, load) && !check::writes_through(state)
    }
}

pub struct LoadNeverRequested;

impl Machine for LoadNeverRequested {
    fn load(state: &mut State, cache: &[u8], memory: &[u8], address: u32, width: u32) -> Answer {
        plain(Right::load(state, cache, memory, address, width))
    }
}

pub struct RetryNeverRequested;

impl Machine for RetryNeverRequested {
    fn retry(state: &mut State, cache: &[u8], memory: &[u8], number: u32) -> Answer {
        plain(Right::retry(state, cache, memory, number))
    }
}

pub struct RequestedOfCommitted;

impl Wording for RequestedOfCommitted {
    fn requested(state: &State, load: LoadEntry) -> bool {
        right(state, load) && load.number <= state.committed
    }
}

pub struct RequestedOfFirst;

impl Wording for RequestedOfFirst {
    fn requested(state: &State, load: LoadEntry) -> bool {
        right(state, load) && wanting(state, load).next() == Some(&load)
    }
}

pub struct RequestedForLoads;

impl Wording for RequestedForLoads {
    fn requested(state: &State, load: LoadEntry) -> bool {
        right(state, load) && wanting(state, load).next().is_some()
    }
}

pub struct RequestedUnlessCovered;

impl Wording for RequestedUnlessCovered {
    fn requested(state: &State, load: LoadEntry) -> bool {
        let (_, missing) = Right::forward(state, load.number, load.address, load.width);
        right(state, load) && missing == check::word_mask(load.address, load.width)
    }
}

// What counts as a request.

pub struct RequestedWhenCommitted;

impl Wording for RequestedWhenCommitted {
    fn requested(state: &State, load: LoadEntry) -> bool {
        right(state, load) || load.number <= state.committed
    }
}

pub struct RequestedWhenWanted;

impl Wording for RequestedWhenWanted {
    fn requested(state: &State, load: LoadEntry) -> bool {
        right(state, load) || wanting(state, load).next().is_some()
    }
}

pub struct RequestedBySecondLoad;

impl Wording for RequestedBySecondLoad {
    fn requested(state: &State, load: LoadEntry) -> bool {
        let waiting = check::listed(state).iter().filter(|one| !one.answered);
        let of_line = waiting.filter(|one| line_of(one.address) == line_of(load.address));
        right(state, load) || of_line.count() > 1
    }
}

pub struct RequestedByStore;

impl Wording for RequestedByStore {
    fn requested(state: &State, load: LoadEntry) -> bool {
        let of_line = |address: u32| line_of(address) == line_of(load.address);
        let mut stores = state.stores.iter().filter(|store| store.number != 0);
        right(state, load) || stores.any(|store| of_line(store.address))
    }
}

// What a requested line changes beside the word.

pub struct RequestedHidesStores;

impl Machine for RequestedHidesStores {
    fn refusal(state: &State, cache: &[u8], memory: &[u8]) -> Option<u32> {
        without(check::waiting_loads_lack_a_byte, state, cache, memory)
    }

    fn gather(state: &State, cache: &[u8], number: u32, address: u32, width: u32) -> Found {
        match Right::lookup(state, line_of(address)) {
            Lookup::Requested => Err(Lookup::Requested),
            _ => Right::gather(state, cache, number, address, width),
        }
    }
}

pub struct RequestedAnswersLoad;

impl Machine for RequestedAnswersLoad {
    fn list_load(state: &mut State, address: u32, width: u32, found: Found) -> Answer {
        let answer = Right::list_load(state, address, width, found);
        if matches!(answer, Answer::WaitsRequested(_)) {
            let place = check::listed(state).len() - 1;
            state.loads[place].answered = true;
        }
        answer
    }
}

pub struct RequestedTellsAddress;

impl Machine for RequestedTellsAddress {
    fn step(state: &mut State, cache: &mut [u8], memory: &mut [u8], call: Call) -> Answer {
        let answer = Right::step(state, cache, memory, call);
        match (answer, state.request) {
            (Answer::WaitsRequested(_), Request::Line(line)) => {
                Answer::WaitsRequested(line * LINE as u32)
            }
            _ => answer,
        }
    }
}
