//! Demand 2 over a whole run: values and waits by flat memory, memory after a
//! flush, and the flat memory of each state with its held stores on top.

use std::collections::BTreeMap;

use crate::plain::covers;
use crate::types::{Answer, Call, Snapshot, State, StoreEntry};

/// What a run has done so far, told by its calls and answers alone.
pub struct Flat {
    /// Memory as found.
    found: Vec<u8>,
    /// The number that the next accepted load or store gets.
    next: u64,
    committed: u64,
    /// Accepted stores that no abort or return has dropped.
    stores: BTreeMap<u32, StoreEntry>,
    /// Address and width of the latest accepted load of each number.
    loads: BTreeMap<u32, (u32, u32)>,
    /// The number that the latest accepted setting of each name answered.
    marks: BTreeMap<u32, u32>,
}

/// Applies a store whole, byte k of its value at address + k.
fn apply(memory: &mut [u8], store: &StoreEntry) {
    for k in 0..store.width {
        let byte = store.value as u64 / 256u64.pow(k) % 256;
        if let Some(place) = memory.get_mut(store.address as usize + k as usize) {
            *place = byte as u8;
        }
    }
}

/// Two memories are equal, or the first place where they differ.
fn same(what: &str, expected: &[u8], seen: &[u8]) -> Result<(), String> {
    if expected == seen {
        return Ok(());
    }
    let at = (0..expected.len()).find(|at| expected.get(*at) != seen.get(*at));
    let at = at.unwrap_or(expected.len());
    Err(format!("{what} at {at}: expected {:?}, seen {:?}", expected.get(at), seen.get(at)))
}

/// Is the line of an address present?
fn line_present(now: Snapshot, address: u64) -> bool {
    let mut tags = now.state.tags.iter();
    tags.any(|tag| tag.valid && tag.line as u64 == address / 16)
}

/// Some byte is in no held store older than the load and its line is absent.
fn must_wait(now: Snapshot, number: u32, address: u32, width: u32) -> bool {
    (0..width as u64).any(|k| {
        let at = address as u64 + k;
        !in_store(now.state, number, at) && !line_present(now, at)
    })
}

/// Is a byte in a held store older than load `number`?
pub fn in_store(state: &State, number: u32, address: u64) -> bool {
    let older = |s: &&StoreEntry| s.number != 0 && s.number < number;
    state.stores.iter().filter(older).any(|s| covers(s, address))
}

/// Memory overlaid with the bytes of the valid lines.
pub fn flat_of_state(now: Snapshot) -> Vec<u8> {
    let mut flat = now.memory.to_vec();
    for (tag, bytes) in now.state.tags.iter().zip(now.cache.chunks(16)) {
        let first = tag.line as usize * 16;
        if tag.valid && first < flat.len() {
            flat[first..first + 16].copy_from_slice(bytes);
        }
    }
    flat
}

impl Flat {
    /// At the beginning: memory as found, the next number and the committed one.
    pub fn new(found: &[u8], next: u64, committed: u64) -> Flat {
        Flat {
            found: found.to_vec(),
            next,
            committed,
            stores: BTreeMap::new(),
            loads: BTreeMap::new(),
            marks: BTreeMap::new(),
        }
    }

    /// Memory as found with the stores below a number applied in order.
    fn flat(&self, below: u64) -> Vec<u8> {
        let mut flat = self.found.clone();
        for (number, store) in &self.stores {
            if (*number as u64) < below {
                apply(&mut flat, store);
            }
        }
        flat
    }

    /// What flat memory holds at an access of load `number`.
    fn value(&self, number: u32, address: u32, width: u32) -> u32 {
        let flat = self.flat(number as u64);
        let byte = |k: u32| flat[address as usize + k as usize] as u64 * 256u64.pow(k);
        (0..width).map(byte).sum::<u64>() as u32
    }

    /// Takes in a call and its answer; an error tells what is not as it should be.
    pub fn observe(
        &mut self,
        before: Snapshot,
        call: Call,
        answer: Answer,
        after: Snapshot,
    ) -> Result<(), String> {
        if answer.accepted() {
            self.accepted(before, call, answer, after)?;
        }
        self.held_on_top(after)
    }

    /// An accepted call.
    fn accepted(
        &mut self,
        before: Snapshot,
        call: Call,
        answer: Answer,
        after: Snapshot,
    ) -> Result<(), String> {
        match (call, answer) {
            (
                Call::Load { address, width },
                Answer::Value { number, .. }
                | Answer::Waits(number)
                | Answer::WaitsRequested(number),
            ) => {
                self.take_number(number)?;
                self.loads.insert(number, (address, width));
                self.judge_load(before, number, answer)
            }
            (
                Call::Retry { number },
                Answer::Value { .. } | Answer::Waits(_) | Answer::WaitsRequested(_),
            ) => self.judge_load(before, number, answer),
            (Call::Store { .. }, Answer::Stored(number)) => self.stored(call, number),
            (Call::Commit { number }, Answer::Committed(_)) => {
                self.committed = number as u64;
                Ok(())
            }
            (Call::Abort { number }, Answer::Kept(_)) => self.aborted(number),
            (Call::Checkpoint { name }, Answer::Checkpointed(number)) => self.set(name, number),
            (Call::Restore { name }, Answer::Kept(last)) => self.returned(name, last),
            (Call::Flush, Answer::Flushed(_)) => self.flushed(after),
            (Call::Preview, Answer::Previewed(_)) => Ok(()),
            (Call::Idle | Call::Reply | Call::ShowLine { .. }, _) => Ok(()),
            _ => Err(format!("{answer:?} is no answer to {call:?}")),
        }
    }

    /// An accepted abort.
    fn aborted(&mut self, n: u32) -> Result<(), String> {
        self.stores.retain(|number, _| *number < n);
        self.loads.retain(|number, _| *number < n);
        self.next = n as u64;
        Ok(())
    }

    /// An accepted setting of a mark answers the next number.
    fn set(&mut self, name: u32, number: u32) -> Result<(), String> {
        if self.next != number as u64 {
            return Err(format!("mark {name}: expected {}, seen {number}", self.next));
        }
        self.marks.insert(name, number);
        Ok(())
    }

    /// An accepted return to a mark: an abort at the number that its setting answered.
    fn returned(&mut self, name: u32, last: u32) -> Result<(), String> {
        let Some(&number) = self.marks.get(&name) else {
            return Err(format!("no accepted setting of {name}"));
        };
        if last as u64 + 1 != number as u64 {
            return Err(format!("return to {number}: last {last}"));
        }
        self.aborted(number)
    }

    /// An accepted load or store has the next number.
    fn take_number(&mut self, number: u32) -> Result<(), String> {
        if self.next != number as u64 {
            return Err(format!("number: expected {}, seen {number}", self.next));
        }
        self.next += 1;
        Ok(())
    }

    /// An accepted store.
    fn stored(&mut self, call: Call, number: u32) -> Result<(), String> {
        self.take_number(number)?;
        if let Call::Store { address, width, value } = call {
            let entry = StoreEntry { number, address, width, value };
            if address as u64 + width as u64 > self.found.len() as u64 {
                return Err(format!("a store outside memory was accepted: {entry:?}"));
            }
            self.stores.insert(number, entry);
        }
        Ok(())
    }

    /// The answer of a load or an inquiry, by flat memory and the waiting rule, for which
    /// either word is "waits".
    fn judge_load(&self, before: Snapshot, number: u32, answer: Answer) -> Result<(), String> {
        let Some(&(address, width)) = self.loads.get(&number) else {
            return Err(format!("no accepted load {number}"));
        };
        if address as u64 + width as u64 > self.found.len() as u64 {
            return Err(format!("a load outside memory was accepted: {address}"));
        }
        let expected = if must_wait(before, number, address, width) {
            Answer::Waits(number)
        } else {
            let value = self.value(number, address, width);
            Answer::Value { number, value }
        };
        let seen = answer.waits().map_or(answer, Answer::Waits);
        if expected != seen {
            return Err(format!("flat: expected {expected:?}, seen {answer:?}"));
        }
        Ok(())
    }

    /// After a flush memory has exactly the committed stores applied.
    fn flushed(&self, after: Snapshot) -> Result<(), String> {
        same("memory after a flush", &self.flat(self.committed + 1), after.memory)
    }

    /// The state's flat memory with its held stores on top has every store that no
    /// abort or return has dropped.
    fn held_on_top(&self, after: Snapshot) -> Result<(), String> {
        let mut seen = flat_of_state(after);
        for store in after.state.stores.iter().filter(|s| s.number != 0) {
            apply(&mut seen, store);
        }
        same("flat memory with the held stores", &self.flat(u64::MAX), &seen)
    }
}
