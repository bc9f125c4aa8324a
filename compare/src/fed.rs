//! What runs and scripts met of loads fed from held stores, told call by call.

use std::collections::{BTreeMap, BTreeSet};

use crate::check;
use crate::counts::Counts;
use crate::fault::Fault;
use crate::forwarded::bytes_in_stores;
use crate::model::{leaves, line_of};
use crate::plain::covers;
use crate::types::{Answer, Call, LoadEntry, Snapshot, State};

/// How a load was answered.
#[derive(Clone, Copy)]
struct Answered {
    /// Its bytes that were in held stores.
    held: u32,
    /// Was its line present?
    present: bool,
}

/// What 01 alone makes of a run from a commit on that left it other ages.
struct Old {
    state: State,
    cache: Vec<u8>,
    memory: Vec<u8>,
}

/// A run being counted.
#[derive(Default)]
pub struct Fed {
    answered: BTreeMap<u32, Answered>,
    old: Option<Old>,
}

/// Is the line of a load present?
fn present(state: &State, load: &LoadEntry) -> bool {
    check::find(state, line_of(load.address)).is_some()
}

/// The loads that leave at a commit of k and whose lines are present.
fn leaving(state: &State, k: u32) -> impl Iterator<Item = &LoadEntry> {
    check::listed(state).iter().filter(move |load| leaves(load, k) && present(state, load))
}

/// Is a forwarded load numbered n or more listed?
fn any_from(state: &State, n: u64) -> bool {
    state.loads.iter().any(|load| load.forwarded && u64::from(load.number) >= n)
}

/// Was the load listed last forwarded?
pub fn last_forwarded(state: &State) -> bool {
    check::listed(state).last().is_some_and(|load| load.forwarded)
}

/// The load that a call makes or asks about, by the state before it.
fn load_of(before: &State, call: Call, number: u32) -> Option<LoadEntry> {
    match call {
        Call::Load { address, width } => {
            Some(LoadEntry { number, address, width, ..LoadEntry::default() })
        }
        _ => before.loads.iter().copied().find(|load| load.number == number),
    }
}

/// How many held stores have a byte of a load.
fn stores_of(state: &State, load: &LoadEntry) -> usize {
    let bytes = (0..load.width).map(|k| u64::from(load.address) + u64::from(k));
    let gives = |at: u64| check::held(state).iter().rposition(|s| covers(s, at));
    bytes.filter_map(gives).collect::<BTreeSet<_>>().len()
}

impl Fed {
    /// Takes in a call by the state before it and what stands after it.
    pub fn take(
        &mut self,
        counts: &mut Counts,
        before: &State,
        call: Call,
        answer: Answer,
        after: Snapshot,
    ) {
        match (call, answer) {
            (Call::Load { .. } | Call::Retry { .. }, _) => {
                self.load(counts, before, call, answer);
            }
            (Call::Commit { number }, Answer::Committed(_)) => self.commit(counts, before, number),
            (Call::Abort { number }, Answer::Kept(_)) => {
                counts.met("forwarded load aborted", any_from(before, u64::from(number)));
            }
            (Call::Restore { .. }, Answer::Kept(last)) => {
                let dropped = any_from(before, u64::from(last) + 1);
                counts.met("forwarded load dropped by a return", dropped);
            }
            _ => {}
        }
        self.beside_old(counts, before, call, after);
    }

    /// A load or an inquiry.
    fn load(&mut self, counts: &mut Counts, before: &State, call: Call, answer: Answer) {
        let (number, waits) = match answer {
            Answer::Value { number, .. } => (number, false),
            Answer::Waits(number) | Answer::WaitsRequested(number) => (number, true),
            _ => return,
        };
        let Some(load) = load_of(before, call, number) else {
            return;
        };
        let held = bytes_in_stores(before, number, load.address, load.width);
        let (retried, in_part) = (matches!(call, Call::Retry { .. }), held > 0);
        if waits {
            counts.met("load waits, a byte in a store", !retried && in_part);
            return;
        }
        self.answered.insert(number, Answered { held, present: present(before, &load) });
        let committed = number <= before.committed;
        let fed = !retried && held == load.width;
        counts.met("load forwarded", fed);
        counts.met("load forwarded by several stores", fed && stores_of(before, &load) > 1);
        let of_both = retried && in_part;
        counts.met("inquiry answered, committed, a byte in a store", of_both && committed);
        counts.met("inquiry answered, uncommitted, a byte in a store", of_both && !committed);
    }

    /// A commit of k.
    fn commit(&mut self, counts: &mut Counts, before: &State, k: u32) {
        for load in leaving(before, k) {
            let Some(&then) = self.answered.get(&load.number) else {
                continue;
            };
            let held = bytes_in_stores(before, load.number, load.address, load.width);
            let fed = load.forwarded;
            let in_part = 0 < held && held < load.width;
            counts.met("forwarded load committed, stores held", fed && held == load.width);
            counts.met("forwarded load committed, stores drained", fed && held == 0);
            counts.met("forwarded load committed, a store drained", fed && in_part);
            counts.met("forwarded load committed, line filled since", fed && !then.present);
            counts.met("forwarded load committed, line there before", fed && then.present);
            counts.met("load partly of stores committed", !fed && then.held > 0);
        }
        let set = |load: &LoadEntry| line_of(load.address) % before.figures.sets;
        let beside = |fed: &LoadEntry| {
            leaving(before, k).any(|other| !other.forwarded && set(other) == set(fed))
        };
        let both = leaving(before, k).any(|load| load.forwarded && beside(load));
        let several = before.figures.ways > 1;
        counts.met("commit of forwarded and other loads of a set", several && both);
    }

    /// Sets what 01 alone does beside the run, from a commit on that leaves it other ages
    /// to the first eviction of another line, or until the ages are the same again.
    fn beside_old(&mut self, counts: &mut Counts, before: &State, call: Call, after: Snapshot) {
        let begins = match call {
            Call::Commit { number } => leaving(before, number).any(|load| load.forwarded),
            _ => false,
        };
        let beside = self.old.is_some();
        if begins && !beside {
            let (cache, memory) = (after.cache.to_vec(), after.memory.to_vec());
            self.old = Some(Old { state: before.clone(), cache, memory });
        }
        let Some(old) = &mut self.old else {
            return;
        };
        Fault::ForwardedIgnored.step()(&mut old.state, &mut old.cache, &mut old.memory, call);
        let mut records = old.state.tags.iter().zip(&after.state.tags);
        let other = records.any(|(old, new)| (old.valid, old.line) != (new.valid, new.line));
        let same = old.state.tags == after.state.tags;
        counts.met("commit with other ages than by 01 alone", !beside && !same);
        counts.met("eviction of another line than by 01 alone", other);
        if other || same {
            self.old = None;
        }
    }
}
