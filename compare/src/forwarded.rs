//! Loads fed from held stores, over a whole run: which listed loads are marked forwarded,
//! told by the calls, their answers and the stores held at them, and that a commit does
//! to the lines what it would do without those loads.

use std::collections::BTreeMap;

use crate::flat::in_store;
use crate::types::{Answer, Call, LoadEntry, Snapshot, State, Step};

/// What a run has done so far.
#[derive(Default)]
pub struct Forwarded {
    /// Of each number, whether held stores had every byte of its latest accepted load
    /// when that was answered by its own call.
    fed: BTreeMap<u32, bool>,
}

/// How many bytes of a load are in held stores older than it.
pub fn bytes_in_stores(state: &State, number: u32, address: u32, width: u32) -> u32 {
    let held = |k: &u32| in_store(state, number, u64::from(address) + u64::from(*k));
    (0..width).filter(held).count() as u32
}

/// A state without its forwarded loads.
pub fn without_forwarded(state: &State) -> State {
    let mut fewer = state.clone();
    let left = state.loads.iter().filter(|load| load.number != 0 && !load.forwarded);
    fewer.loads = [LoadEntry::default(); 8];
    fewer.loads.iter_mut().zip(left).for_each(|(place, load)| *place = *load);
    fewer
}

/// An accepted commit is accepted, and leaves records, cache and memory alike, on a copy that
/// had its forwarded loads taken off the list before.
fn same_lines(step: Step, before: Snapshot, call: Call, after: Snapshot) -> Result<(), String> {
    if !before.state.loads.iter().any(|load| load.forwarded) {
        return Ok(());
    }
    let mut fewer = without_forwarded(before.state);
    let (mut cache, mut memory) = (before.cache.to_vec(), before.memory.to_vec());
    let answer = step(&mut fewer, &mut cache, &mut memory, call);
    if !answer.accepted() {
        return Err(format!("without its forwarded loads a commit answers {answer:?}"));
    }
    if fewer.tags != after.state.tags || cache != after.cache || memory != after.memory {
        return Err("a commit of forwarded loads changed the lines".to_string());
    }
    Ok(())
}

/// No load that an inquiry asks about has every byte in older held stores: it waits since
/// it lacked one, and no older store is held that was not held then.
fn never_fed(before: Snapshot, number: u32) -> Result<(), String> {
    let fed = |load: &LoadEntry| {
        bytes_in_stores(before.state, number, load.address, load.width) == load.width
    };
    match before.state.loads.iter().find(|load| load.number == number) {
        Some(load) if fed(load) => Err(format!("held stores have all of waiting load {number}")),
        _ => Ok(()),
    }
}

impl Forwarded {
    /// Takes in a call and its answer; an error tells what is not as it should be.
    pub fn observe(
        &mut self,
        step: Step,
        before: Snapshot,
        call: Call,
        answer: Answer,
        after: Snapshot,
    ) -> Result<(), String> {
        match (call, answer) {
            (Call::Load { address, width }, Answer::Value { number, .. }) => {
                let held = bytes_in_stores(before.state, number, address, width);
                self.fed.insert(number, held == width);
            }
            (Call::Load { .. }, Answer::Waits(number) | Answer::WaitsRequested(number)) => {
                self.fed.insert(number, false);
            }
            (Call::Retry { number }, _) if answer.accepted() => never_fed(before, number)?,
            (Call::Commit { .. }, Answer::Committed(_)) => same_lines(step, before, call, after)?,
            _ => {}
        }
        self.same_marks(after.state)
    }

    /// The listed loads are marked by how their own calls were answered, and by nothing
    /// since; what is not listed is not marked.
    fn same_marks(&self, state: &State) -> Result<(), String> {
        for load in &state.loads {
            let fed = load.number != 0 && self.fed.get(&load.number) == Some(&true);
            if load.forwarded != fed {
                return Err(format!("forwarded: expected {fed}, seen {load:?}"));
            }
        }
        Ok(())
    }
}
