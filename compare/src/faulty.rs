//! The faulty machines: each is the right one with one step made wrong, and some
//! do not know the clause of well-formedness that they would else stop at.
//! `fault` says what each does. `checkpoints` has those that are wrong about branch
//! marks, `forwarded` those that are wrong about loads fed from held stores, `preview`
//! those that are wrong about previews, `waits` those that are wrong about loads that
//! wait.

mod checkpoints;
mod forwarded;
mod preview;
mod waits;

use std::ops::Range;

use crate::check::{self, Clause};
use crate::model::{
    committed_store, leaves, line_bytes, line_of, mark_of, record_bytes, remove_oldest_store,
    write_back, write_value, Due, Found, Machine, Right,
};
use crate::types::{
    Answer, Call, Figures, Lookup, Part, Request, State, StoreEntry, Tag, WritePolicy, ALL_DIRTY,
    LINE, LOADS, STORES, WORD,
};

pub use checkpoints::*;
pub use forwarded::*;
pub use preview::*;
pub use waits::*;

/// Checks 1 and 10 of a machine that does not know one of the clauses.
fn without(unknown: Clause, state: &State, cache: &[u8], memory: &[u8]) -> Option<u32> {
    let no = check::refusal(state, cache, memory)?;
    let broken = |clause: Clause| !clause(state, cache, memory);
    let all_broken = check::CLAUSES.iter().filter(|(_, clause)| broken(*clause));
    if no == 10 && broken(unknown) && all_broken.count() == 1 {
        return None;
    }
    Some(no)
}

/// A step after which all ages are what they were.
fn without_use(state: &mut State, step: impl FnOnce(&mut State) -> Answer) -> Answer {
    let old = state.tags;
    let answer = step(state);
    for (tag, old) in state.tags.iter_mut().zip(old) {
        tag.age = old.age;
    }
    answer
}

// The shams.

pub struct LoadAlwaysWaits;

impl Machine for LoadAlwaysWaits {
    fn refusal(state: &State, cache: &[u8], memory: &[u8]) -> Option<u32> {
        without(check::waiting_loads_lack_a_byte, state, cache, memory)
    }

    fn list_load(state: &mut State, address: u32, width: u32, _: Found) -> Answer {
        Right::list_load(state, address, width, Err(Lookup::Absent))
    }
}

/// Pretends to fill and to drain.
struct Pretends;

impl Machine for Pretends {
    fn refusal(state: &State, cache: &[u8], memory: &[u8]) -> Option<u32> {
        without(check::clean_words_equal_memory, state, cache, memory)
    }

    fn fill(_: &mut [u8], _: &[u8]) {}

    fn drain(_: &mut State, _: &mut [u8], _: &mut [u8], due: Due) -> Answer {
        Answer::Drained(due.store.number)
    }
}

pub struct CopiesOnlyAtFlush;

impl CopiesOnlyAtFlush {
    fn copy_all(state: &mut State, cache: &mut [u8], memory: &mut [u8]) -> Answer {
        if let Some(no) = Pretends::refusal(state, cache, memory) {
            return Answer::Refused(no);
        }
        let mut written = 0;
        while let Some(store) = committed_store(state) {
            write_value(memory, store.address as usize, store);
            remove_oldest_store(state);
            written += 1;
        }
        for record in (0..cache.len() / LINE).filter(|record| state.tags[*record].valid) {
            let line = state.tags[record].line;
            cache[record_bytes(record)].copy_from_slice(&memory[line_bytes(line)]);
        }
        Answer::Flushed(written)
    }
}

impl Machine for CopiesOnlyAtFlush {
    fn step(state: &mut State, cache: &mut [u8], memory: &mut [u8], call: Call) -> Answer {
        match call {
            Call::Flush => Self::copy_all(state, cache, memory),
            _ => Pretends::step(state, cache, memory, call),
        }
    }
}

pub struct AnswersAlike;

impl Machine for AnswersAlike {
    fn step(state: &mut State, cache: &mut [u8], memory: &mut [u8], call: Call) -> Answer {
        let answer = Right::step(state, cache, memory, call);
        match call {
            Call::Start { .. } => answer,
            _ => Answer::Idle,
        }
    }
}

pub struct RefusesAll;

impl Machine for RefusesAll {
    fn step(state: &mut State, cache: &mut [u8], memory: &mut [u8], call: Call) -> Answer {
        match call {
            Call::Start { .. } => Right::step(state, cache, memory, call),
            _ => Answer::Refused(10),
        }
    }
}

pub struct ChangesNothing;

impl Machine for ChangesNothing {
    fn step(state: &mut State, cache: &mut [u8], memory: &mut [u8], call: Call) -> Answer {
        match call {
            Call::Start { .. } => Right::step(state, cache, memory, call),
            _ => Right::step(&mut state.clone(), &mut cache.to_vec(), &mut memory.to_vec(), call),
        }
    }
}

pub struct InventsFlushCount;

impl Machine for InventsFlushCount {
    fn write_dirty(state: &mut State, cache: &[u8], memory: &mut [u8]) -> u32 {
        Right::write_dirty(state, cache, memory);
        1
    }
}

// The falsehoods of the paper.

pub struct BypassFromYounger;

impl Machine for BypassFromYounger {
    fn forwards(store: &StoreEntry, _: u32, address: u32) -> bool {
        store.address / 4 == address / 4
    }
}

pub struct LoadChangesAges;

impl Machine for LoadChangesAges {
    fn list_load(state: &mut State, address: u32, width: u32, found: Found) -> Answer {
        if found.is_ok() {
            Right::use_line(state, line_of(address));
        }
        Right::list_load(state, address, width, found)
    }
}

pub struct FlushRefusedForUncommitted;

impl Machine for FlushRefusedForUncommitted {
    fn flush_refusal(state: &State) -> Option<u32> {
        (state.stores[0].number != 0).then_some(18)
    }
}

pub struct EvictWithoutWriteBack;

impl Machine for EvictWithoutWriteBack {
    fn evict(_: &State, _: &[u8], _: &mut [u8], _: usize) {}
}

pub struct DroppedNumberOnly;

impl Machine for DroppedNumberOnly {
    fn refusal(state: &State, cache: &[u8], memory: &[u8]) -> Option<u32> {
        without(check::free_places_zero, state, cache, memory)
    }

    fn remove_from(state: &mut State, n: u32) {
        let stores = state.stores.iter_mut().map(|store| &mut store.number);
        let loads = state.loads.iter_mut().map(|load| &mut load.number);
        stores.chain(loads).filter(|number| **number >= n).for_each(|number| *number = 0);
    }
}

pub struct DroppedKept;

impl Machine for DroppedKept {
    fn remove_from(_: &mut State, _: u32) {}
}

// Commit.

pub struct CommitUsesReversed;

impl Machine for CommitUsesReversed {
    fn use_leaving(state: &mut State, k: u32) {
        for place in (0..LOADS).rev() {
            let load = state.loads[place];
            if leaves(&load, k) && Right::uses_line(state, &load) {
                Right::use_line(state, line_of(load.address));
            }
        }
    }
}

pub struct CommitWithoutUse;

impl Machine for CommitWithoutUse {
    fn use_leaving(_: &mut State, _: u32) {}
}

pub struct CommitKeepsLoads;

impl Machine for CommitKeepsLoads {
    fn refusal(state: &State, cache: &[u8], memory: &[u8]) -> Option<u32> {
        without(check::committed_loads_wait, state, cache, memory)
    }

    fn remove_leaving(_: &mut State, _: u32) {}
}

pub struct CommitFallsBack;

impl Machine for CommitFallsBack {
    fn commit_refusal(state: &State, k: u32) -> Option<u32> {
        (k > state.last).then_some(15)
    }
}

// Flush.

pub struct FlushMissesWriteBack;

impl Machine for FlushMissesWriteBack {
    fn refusal(state: &State, cache: &[u8], memory: &[u8]) -> Option<u32> {
        without(check::clean_words_equal_memory, state, cache, memory)
    }

    fn write_dirty(state: &mut State, cache: &[u8], memory: &mut [u8]) -> u32 {
        if let Some(first) = state.tags.iter().position(|tag| tag.dirty != 0) {
            write_back(state.tags[first], first, cache, memory);
        }
        Right::write_dirty(state, cache, &mut memory.to_vec())
    }
}

pub struct FlushLeavesDirty;

impl Machine for FlushLeavesDirty {
    fn write_dirty(state: &mut State, cache: &[u8], memory: &mut [u8]) -> u32 {
        Right::write_dirty(&mut state.clone(), cache, memory)
    }
}

// Idle.

pub struct RequestForUncommitted;

impl Machine for RequestForUncommitted {
    fn refusal(state: &State, cache: &[u8], memory: &[u8]) -> Option<u32> {
        without(check::request_wanted, state, cache, memory)
    }

    fn missing_line(state: &State) -> Option<u32> {
        let waiting = check::listed(state).iter().filter(|load| !load.answered);
        let mut lines = waiting.map(|load| line_of(load.address));
        lines.find(|line| Right::record(state, *line).is_none())
    }
}

pub struct RequestHighest;

impl Machine for RequestHighest {
    fn missing_line(state: &State) -> Option<u32> {
        let mut loads = check::listed(state).iter().rev();
        loads.find(|load| Right::lacks_line(state, load)).map(|load| line_of(load.address))
    }
}

pub struct DrainPassesLoad;

impl Machine for DrainPassesLoad {
    fn idle(state: &mut State, cache: &mut [u8], memory: &mut [u8]) -> Answer {
        let passing = committed_store(state).map(|store| Right::due(state, store));
        match passing.filter(|due| Right::can_drain(state, *due)) {
            Some(due) if Right::refusal(state, cache, memory).is_none() => {
                Right::drain(state, cache, memory, due)
            }
            _ => Right::idle(state, cache, memory),
        }
    }
}

pub struct DrainLeavesClean;

impl Machine for DrainLeavesClean {
    fn refusal(state: &State, cache: &[u8], memory: &[u8]) -> Option<u32> {
        without(check::clean_words_equal_memory, state, cache, memory)
    }

    fn mark(dirty: u8, _: u32) -> u8 {
        dirty
    }
}

pub struct DrainWithoutUse;

impl Machine for DrainWithoutUse {
    fn drain(state: &mut State, cache: &mut [u8], memory: &mut [u8], due: Due) -> Answer {
        without_use(state, |state| Right::drain(state, cache, memory, due))
    }
}

// Reply.

pub struct ReplyRefuses;

impl Machine for ReplyRefuses {
    fn reply(state: &mut State, cache: &mut [u8], memory: &mut [u8]) -> Answer {
        Answer::Refused(Right::refusal(state, cache, memory).unwrap_or(17))
    }
}

pub struct ReplyKeepsRequest;

impl Machine for ReplyKeepsRequest {
    fn reply(state: &mut State, cache: &mut [u8], memory: &mut [u8]) -> Answer {
        let request = state.request;
        let answer = Right::reply(state, cache, memory);
        state.request = request;
        answer
    }
}

pub struct VictimLeastAge;

impl Machine for VictimLeastAge {
    fn oldest_record(state: &State, mut set: Range<usize>) -> Option<usize> {
        set.find(|record| state.tags[*record].age == 0)
    }
}

pub struct VictimPassesInvalid;

impl Machine for VictimPassesInvalid {
    fn invalid_record(_: &State, _: Range<usize>) -> Option<usize> {
        None
    }
}

pub struct VictimHighestInvalid;

impl Machine for VictimHighestInvalid {
    fn invalid_record(state: &State, set: Range<usize>) -> Option<usize> {
        set.rev().find(|record| !state.tags[*record].valid)
    }
}

pub struct FillKeepsByte;

impl Machine for FillKeepsByte {
    fn refusal(state: &State, cache: &[u8], memory: &[u8]) -> Option<u32> {
        without(check::clean_words_equal_memory, state, cache, memory)
    }

    fn fill(into: &mut [u8], from: &[u8]) {
        into[..LINE - 1].copy_from_slice(&from[..LINE - 1]);
    }
}

pub struct FillWithoutUse;

impl Machine for FillWithoutUse {
    fn reply(state: &mut State, cache: &mut [u8], memory: &mut [u8]) -> Answer {
        without_use(state, |state| Right::reply(state, cache, memory))
    }
}

pub struct UseAgesAll;

impl Machine for UseAgesAll {
    fn use_record(state: &mut State, record: usize) {
        let ways = state.figures.ways as usize;
        let base = record / ways * ways;
        state.tags[base..base + ways].iter_mut().for_each(|tag| tag.age += 1);
        state.tags[record].age = 0;
    }
}

// Inquiry.

pub struct RetryFromYounger;

impl Machine for RetryFromYounger {
    // A load has the highest number, so this is seen by inquiries alone.
    fn gather(state: &State, cache: &[u8], _: u32, address: u32, width: u32) -> Found {
        Right::gather(state, cache, u32::MAX, address, width)
    }
}

pub struct RetryUsesUncommitted;

impl Machine for RetryUsesUncommitted {
    fn answer_load(state: &mut State, place: usize) {
        Right::use_line(state, line_of(state.loads[place].address));
        Right::answer_load(state, place);
    }
}

pub struct RetryKeepsCommitted;

impl Machine for RetryKeepsCommitted {
    fn refusal(state: &State, cache: &[u8], memory: &[u8]) -> Option<u32> {
        without(check::committed_loads_wait, state, cache, memory)
    }

    fn answer_load(state: &mut State, place: usize) {
        let load = state.loads[place];
        if load.number <= state.committed {
            Right::use_line(state, line_of(load.address));
        }
        state.loads[place].answered = true;
    }
}

// The write profiles.

pub struct ThroughLeavesLine;

impl Machine for ThroughLeavesLine {
    fn refusal(state: &State, cache: &[u8], memory: &[u8]) -> Option<u32> {
        without(check::clean_words_equal_memory, state, cache, memory)
    }

    fn drain(state: &mut State, cache: &mut [u8], memory: &mut [u8], due: Due) -> Answer {
        if check::writes_through(state) {
            return Right::drain(state, &mut cache.to_vec(), memory, due);
        }
        Right::drain(state, cache, memory, due)
    }
}

pub struct ThroughLeavesMemory;

impl Machine for ThroughLeavesMemory {
    fn refusal(state: &State, cache: &[u8], memory: &[u8]) -> Option<u32> {
        without(check::clean_words_equal_memory, state, cache, memory)
    }

    fn drain(state: &mut State, cache: &mut [u8], memory: &mut [u8], due: Due) -> Answer {
        Right::drain(state, cache, &mut memory.to_vec(), due)
    }
}

pub struct ThroughMarksDirty;

impl Machine for ThroughMarksDirty {
    fn refusal(state: &State, cache: &[u8], memory: &[u8]) -> Option<u32> {
        without(check::none_dirty, state, cache, memory)
    }

    fn drain(state: &mut State, cache: &mut [u8], memory: &mut [u8], due: Due) -> Answer {
        let answer = Right::drain(state, cache, memory, due);
        if let Some(record) = due.record {
            state.tags[record].dirty |= mark_of(due.store.address);
        }
        answer
    }
}

pub struct ThroughAllocates;

impl Machine for ThroughAllocates {
    fn drain(state: &mut State, cache: &mut [u8], memory: &mut [u8], due: Due) -> Answer {
        let answer = Right::drain(state, cache, memory, due);
        if due.record.is_none() {
            Right::install(state, cache, memory, line_of(due.store.address));
        }
        answer
    }
}

pub struct ThroughNeedsLine;

impl Machine for ThroughNeedsLine {
    fn refusal(state: &State, cache: &[u8], memory: &[u8]) -> Option<u32> {
        without(check::request_wanted, state, cache, memory)
    }

    fn can_drain(_: &State, due: Due) -> bool {
        due.record.is_some()
    }
}

pub struct ThroughWithoutUse;

impl Machine for ThroughWithoutUse {
    fn drain(state: &mut State, cache: &mut [u8], memory: &mut [u8], due: Due) -> Answer {
        if check::writes_through(state) {
            return without_use(state, |state| Right::drain(state, cache, memory, due));
        }
        Right::drain(state, cache, memory, due)
    }
}

pub struct ThroughForgetsLoads;

impl Machine for ThroughForgetsLoads {
    fn missing_line(state: &State) -> Option<u32> {
        Right::missing_line(state).filter(|_| !check::writes_through(state))
    }
}

/// Is the store's line requested, in write-through?
fn requested(state: &State, store: StoreEntry) -> bool {
    let line = store.address / LINE as u32;
    check::writes_through(state) && state.request == Request::Line(line)
}

pub struct ThroughAwaitsReply;

impl Machine for ThroughAwaitsReply {
    fn can_drain(state: &State, due: Due) -> bool {
        Right::can_drain(state, due) && !requested(state, due.store)
    }
}

pub struct ThroughFreesRegister;

impl Machine for ThroughFreesRegister {
    fn drain(state: &mut State, cache: &mut [u8], memory: &mut [u8], due: Due) -> Answer {
        if requested(state, due.store) {
            state.request = Request::Free;
        }
        Right::drain(state, cache, memory, due)
    }
}

pub struct ThroughForgotten;

impl Machine for ThroughForgotten {
    fn start(figures: Figures, cache: &mut [u8], memory: &[u8]) -> (State, Answer) {
        Right::start(figures.with_policy(WritePolicy::WriteBack), cache, memory)
    }
}

pub struct ThroughTakesDirty;

impl Machine for ThroughTakesDirty {
    fn refusal(state: &State, cache: &[u8], memory: &[u8]) -> Option<u32> {
        without(check::none_dirty, state, cache, memory)
    }
}

pub struct ThroughWantsForStore;

impl Machine for ThroughWantsForStore {
    fn refusal(state: &State, cache: &[u8], memory: &[u8]) -> Option<u32> {
        let figures = state.figures.with_policy(WritePolicy::WriteBack);
        if check::request_wanted(&State { figures, ..state.clone() }, cache, memory) {
            return without(check::request_wanted, state, cache, memory);
        }
        Right::refusal(state, cache, memory)
    }
}

pub struct BackNeedsNoLine;

impl Machine for BackNeedsNoLine {
    fn can_drain(_: &State, _: Due) -> bool {
        true
    }

    fn drain(state: &mut State, cache: &mut [u8], memory: &mut [u8], due: Due) -> Answer {
        if due.record.is_none() {
            write_value(memory, due.store.address as usize, due.store);
        }
        Right::drain(state, cache, memory, due)
    }
}

pub struct BackWritesMemory;

impl Machine for BackWritesMemory {
    fn drain(state: &mut State, cache: &mut [u8], memory: &mut [u8], due: Due) -> Answer {
        write_value(memory, due.store.address as usize, due.store);
        Right::drain(state, cache, memory, due)
    }
}

// The dirty words.

pub struct DrainMarksNextWord;

impl Machine for DrainMarksNextWord {
    fn refusal(state: &State, cache: &[u8], memory: &[u8]) -> Option<u32> {
        without(check::clean_words_equal_memory, state, cache, memory)
    }

    fn mark(dirty: u8, address: u32) -> u8 {
        Right::mark(dirty, address + WORD as u32)
    }
}

pub struct DrainMarksLine;

impl Machine for DrainMarksLine {
    fn mark(_: u8, _: u32) -> u8 {
        ALL_DIRTY
    }
}

pub struct DrainForgetsMarks;

impl Machine for DrainForgetsMarks {
    fn refusal(state: &State, cache: &[u8], memory: &[u8]) -> Option<u32> {
        without(check::clean_words_equal_memory, state, cache, memory)
    }

    fn mark(_: u8, address: u32) -> u8 {
        mark_of(address)
    }
}

pub struct DrainMarksChanged;

impl Machine for DrainMarksChanged {
    fn drain(state: &mut State, cache: &mut [u8], memory: &mut [u8], due: Due) -> Answer {
        let (old_tags, old_cache) = (state.tags, cache.to_vec());
        let answer = Right::drain(state, cache, memory, due);
        if let Some(record) = due.record.filter(|_| cache == old_cache) {
            state.tags[record].dirty = old_tags[record].dirty;
        }
        answer
    }
}

pub struct FillKeepsMarks;

impl Machine for FillKeepsMarks {
    fn install(state: &mut State, cache: &mut [u8], memory: &mut [u8], line: u32) {
        let record = Right::victim(state, line);
        let dirty = state.tags[record].dirty;
        Right::install(state, cache, memory, line);
        state.tags[record].dirty = dirty;
    }
}

/// Some marks without that of the last word.
fn but_last(dirty: u8) -> u8 {
    dirty.checked_ilog2().map_or(0, |last| dirty ^ 1 << last)
}

pub struct EvictMissesWord;

impl Machine for EvictMissesWord {
    fn evict(state: &State, cache: &[u8], memory: &mut [u8], record: usize) {
        let tag = state.tags[record];
        write_back(Tag { dirty: but_last(tag.dirty), ..tag }, record, cache, memory);
    }
}

pub struct FlushMissesWord;

impl Machine for FlushMissesWord {
    fn refusal(state: &State, cache: &[u8], memory: &[u8]) -> Option<u32> {
        without(check::clean_words_equal_memory, state, cache, memory)
    }

    fn write_dirty(state: &mut State, cache: &[u8], memory: &mut [u8]) -> u32 {
        let mut fewer = state.clone();
        fewer.tags.iter_mut().for_each(|tag| tag.dirty = but_last(tag.dirty));
        Right::write_dirty(&mut fewer, cache, memory);
        Right::write_dirty(state, cache, &mut memory.to_vec())
    }
}

pub struct FlushClearsMarks;

impl Machine for FlushClearsMarks {
    fn refusal(state: &State, cache: &[u8], memory: &[u8]) -> Option<u32> {
        without(check::clean_words_equal_memory, state, cache, memory)
    }

    fn write_dirty(state: &mut State, cache: &[u8], memory: &mut [u8]) -> u32 {
        Right::write_dirty(state, cache, &mut memory.to_vec())
    }
}

pub struct FlushCountsLines;

impl Machine for FlushCountsLines {
    fn write_dirty(state: &mut State, cache: &[u8], memory: &mut [u8]) -> u32 {
        let lines = state.tags.iter().filter(|tag| tag.dirty != 0).count();
        Right::write_dirty(state, cache, memory);
        lines as u32
    }
}

pub struct TakesFifthMark;

impl Machine for TakesFifthMark {
    fn refusal(state: &State, cache: &[u8], memory: &[u8]) -> Option<u32> {
        without(check::four_dirty_marks, state, cache, memory)
    }
}

pub struct TakesCleanWord;

impl Machine for TakesCleanWord {
    fn refusal(state: &State, cache: &[u8], memory: &[u8]) -> Option<u32> {
        let mut marked = state.clone();
        let dirty = marked.tags.iter_mut().filter(|tag| tag.dirty & ALL_DIRTY != 0);
        dirty.for_each(|tag| tag.dirty |= ALL_DIRTY);
        if check::clean_words_equal_memory(&marked, cache, memory) {
            return without(check::clean_words_equal_memory, state, cache, memory);
        }
        Right::refusal(state, cache, memory)
    }
}

// Loads, stores and the rest.

pub struct ForwardFromOldest;

impl Machine for ForwardFromOldest {
    fn forward(state: &State, number: u32, address: u32, width: u32) -> (u32, u32) {
        Right::overlay(check::held(state).iter(), number, address, width)
    }
}

pub struct ForwardWholeOnly;

impl Machine for ForwardWholeOnly {
    fn forward(state: &State, number: u32, address: u32, width: u32) -> (u32, u32) {
        let wanted = check::word_mask(address, width);
        let whole = |s: &&StoreEntry| wanted & !check::word_mask(s.address, s.width) == 0;
        Right::overlay(check::held(state).iter().rev().filter(whole), number, address, width)
    }
}

pub struct AddressWraps;

impl Machine for AddressWraps {
    fn access(state: &State, address: u32, width: u32) -> Option<u32> {
        if address.wrapping_add(width) <= state.memory_length {
            return check::access(u32::MAX, address, width).filter(|no| *no != 4);
        }
        Right::access(state, address, width)
    }
}

pub struct FullBeforeInput;

impl Machine for FullBeforeInput {
    fn store_refusal(state: &State, address: u32, width: u32, value: u32) -> Option<u32> {
        let full = state.stores[STORES - 1].number != 0;
        full.then_some(11).or_else(|| Right::store_refusal(state, address, width, value))
    }
}

pub struct AbortKeepsLast;

impl Machine for AbortKeepsLast {
    fn abort(state: &mut State, cache: &[u8], memory: &[u8], n: u32) -> Answer {
        let last = state.last;
        let answer = Right::abort(state, cache, memory, n);
        state.last = last;
        answer
    }
}

pub struct StartKeepsCache;

impl Machine for StartKeepsCache {
    fn start(figures: Figures, cache: &mut [u8], memory: &[u8]) -> (State, Answer) {
        Right::start(figures, &mut cache.to_vec(), memory)
    }
}

pub struct ShowFirstWay;

impl Machine for ShowFirstWay {
    fn show_line(state: &State, cache: &[u8], memory: &[u8], address: u32) -> Part {
        let part = Right::show_line(state, cache, memory, address);
        let set = state.figures.ways.max(1) as usize * LINE;
        Part { place: part.place / set * set, ..part }
    }
}
