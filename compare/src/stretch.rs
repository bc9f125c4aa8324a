//! The kinds of dropped stretches: what opens and ends one, told by a run's calls
//! and answers alone, and which of its calls are struck.

use std::collections::BTreeMap;
use std::fmt;

use crate::types::{Answer, Call};

/// What one call gave: its answer and, for show line, the bytes shown.
#[derive(Clone, Debug, PartialEq, Eq)]
pub struct Given {
    pub call: Call,
    pub answer: Answer,
    pub bytes: Vec<u8>,
}

/// A kind of stretch.
pub struct Kind {
    /// The names under which such a stretch is counted: any, one with a load and a
    /// drain inside, one with a load and a reply, one with a load and an eviction, one
    /// with a forwarded load, one with a load and a preview.
    pub name: &'static str,
    pub with_drain: &'static str,
    pub with_reply: &'static str,
    pub with_eviction: &'static str,
    pub with_forwarded: &'static str,
    pub with_preview: &'static str,
    /// Every stretch of this kind in a run whose first number is this.
    pub find: fn(u64, &[Given]) -> Vec<Stretch>,
    /// Is a call inside a stretch for n struck from it?
    pub struck: fn(Call, u32) -> bool,
}

impl fmt::Debug for Kind {
    fn fmt(&self, f: &mut fmt::Formatter) -> fmt::Result {
        f.write_str(self.name)
    }
}

/// A dropped stretch for n: the calls from `first` to `end`, that one included.
#[derive(Clone, Copy, Debug)]
pub struct Stretch {
    pub kind: &'static Kind,
    pub first: usize,
    pub end: usize,
    pub n: u32,
}

impl Stretch {
    /// Is the call at a place of the run struck?
    pub fn strikes(&self, place: usize, call: Call) -> bool {
        (self.first..=self.end).contains(&place) && (self.kind.struck)(call, self.n)
    }
}

/// From a place where the next number is n to an accepted abort naming n.
pub const PLAIN: Kind = Kind {
    name: "dropped stretch",
    with_drain: "dropped stretch, load and drain inside",
    with_reply: "dropped stretch, load and reply inside",
    with_eviction: "dropped stretch, load and eviction inside",
    with_forwarded: "dropped stretch, forwarded load inside",
    with_preview: "dropped stretch, load and preview inside",
    find: plain_stretches,
    struck: struck_from_plain,
};

/// From an accepted setting of a mark, which answered n, to the accepted return to it.
pub const MARK: Kind = Kind {
    name: "mark stretch",
    with_drain: "mark stretch, load and drain inside",
    with_reply: "mark stretch, load and reply inside",
    with_eviction: "mark stretch, load and eviction inside",
    with_forwarded: "mark stretch, forwarded load inside",
    with_preview: "mark stretch, load and preview inside",
    find: mark_stretches,
    struck: struck_from_mark,
};

/// Every kind.
pub const KINDS: &[&Kind] = &[&PLAIN, &MARK];

/// Every stretch of every kind in a run whose first number is this.
pub fn stretches(first: u64, given: &[Given]) -> Vec<Stretch> {
    KINDS.iter().flat_map(|kind| (kind.find)(first, given)).collect()
}

/// The next operation number before each call.
fn next_numbers(first: u64, given: &[Given]) -> Vec<u64> {
    let mut next = first;
    let mut before = Vec::with_capacity(given.len());
    for one in given {
        before.push(next);
        match one.call {
            Call::Load { .. } | Call::Store { .. } if one.answer.accepted() => next += 1,
            Call::Abort { number } if one.answer.accepted() => next = number as u64,
            Call::Restore { .. } => next = returned(one).unwrap_or(next),
            _ => {}
        }
    }
    before
}

/// The next number after an accepted return to a mark.
fn returned(one: &Given) -> Option<u64> {
    match one.answer {
        Answer::Kept(last) => Some(last as u64 + 1),
        _ => None,
    }
}

/// Does a call set a mark or return to one?
fn of_marks(call: Call) -> bool {
    matches!(call, Call::Checkpoint { .. } | Call::Restore { .. })
}

/// The number that an accepted abort names.
fn aborted(one: &Given) -> Option<u32> {
    match one.call {
        Call::Abort { number } if one.answer.accepted() => Some(number),
        _ => None,
    }
}

/// For each accepted abort naming n, each place before it, back to an accepted abort
/// that names less or to a call that sets a mark or returns to one, where the next
/// number is n. The abort alone is one of them when the next number is n already.
fn plain_stretches(first: u64, given: &[Given]) -> Vec<Stretch> {
    let next = next_numbers(first, given);
    let mut found = Vec::new();
    for end in 0..given.len() {
        let Some(n) = aborted(&given[end]) else {
            continue;
        };
        for first in (0..=end).rev() {
            let below = aborted(&given[first]).is_some_and(|named| named < n);
            if below || of_marks(given[first].call) {
                break;
            }
            if next[first] == n as u64 {
                found.push(Stretch { kind: &PLAIN, first, end, n });
            }
        }
    }
    found
}

/// Loads, stores, and inquiries and aborts about n or more.
fn struck_from_plain(call: Call, n: u32) -> bool {
    match call {
        Call::Load { .. } | Call::Store { .. } => true,
        Call::Retry { number } | Call::Abort { number } => number >= n,
        _ => false,
    }
}

/// For each accepted return to a mark the latest accepted setting of its name before it,
/// which is that of the mark returned to.
fn mark_stretches(_: u64, given: &[Given]) -> Vec<Stretch> {
    let mut set: BTreeMap<u32, (usize, u32)> = BTreeMap::new();
    let mut found = Vec::new();
    for (place, one) in given.iter().enumerate() {
        match (one.call, one.answer) {
            (Call::Checkpoint { name }, Answer::Checkpointed(n)) => {
                set.insert(name, (place, n));
            }
            (Call::Restore { name }, answer) if answer.accepted() => {
                let latest = set.get(&name).map(|(first, n)| (*first, *n));
                let stretch = |(first, n)| Stretch { kind: &MARK, first, end: place, n };
                found.extend(latest.map(stretch));
            }
            _ => {}
        }
    }
    found
}

/// What is struck from a plain one, and every call that sets a mark or returns to one.
fn struck_from_mark(call: Call, n: u32) -> bool {
    of_marks(call) || struck_from_plain(call, n)
}
