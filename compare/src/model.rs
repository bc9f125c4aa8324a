//! The machine: thirteen calls in place on a lent state, cache and memory, and the steps
//! that they are made of. Each call does its own checks in the paper's order and
//! changes nothing when it refuses.
//!
//! `Right` is this machine and nothing else. Every call asks for its steps by
//! `Self`, so that another machine can have one of them otherwise: `Unchecked` does
//! not make checks 1 and 10.

use std::cmp::Ordering;
use std::ops::Range;

use crate::check;
use crate::types::{
    Answer, Call, Checkpoint, Figures, LoadEntry, Lookup, Part, Preview, Request, State,
    StoreEntry, Tag, CHECKPOINTS, LINE, LOADS, STORES, WAYS, WORD, WORDS,
};

/// The right machine.
pub struct Right;

impl Machine for Right {}

/// The right machine without checks 1 and 10, which no call of a run after a start
/// fails: on a well-formed state the two are one. It is there to be timed.
pub struct Unchecked;

impl Machine for Unchecked {
    fn refusal(_: &State, _: &[u8], _: &[u8]) -> Option<u32> {
        None
    }
}

/// The line number of an address.
pub fn line_of(address: u32) -> u32 {
    address / LINE as u32
}

/// The bytes of a record in the cache.
pub fn record_bytes(record: usize) -> Range<usize> {
    record * LINE..record * LINE + LINE
}

/// The bytes of a line in memory.
pub fn line_bytes(line: u32) -> Range<usize> {
    let first = line as usize * LINE;
    first..first + LINE
}

/// The bytes of a word: of a record in the cache, of a line in memory.
pub fn word_bytes(line: usize, word: usize) -> Range<usize> {
    let first = line.saturating_mul(LINE).saturating_add(word * WORD);
    first..first.saturating_add(WORD)
}

/// The dirty mark of the word that an address lies in.
pub fn mark_of(address: u32) -> u8 {
    1 << (address as usize % LINE / WORD)
}

/// The records of a line's set.
pub fn set_of(state: &State, line: u32) -> Range<usize> {
    let ways = state.figures.ways as usize;
    let base = (line % state.figures.sets) as usize * ways;
    base..base + ways
}

/// The record of a line in a way of its set.
fn record_of(state: &State, line: u32, way: usize) -> usize {
    set_of(state, line).start + way
}

/// The records of the set that a record is in.
fn set_around(state: &State, record: usize) -> Range<usize> {
    let ways = state.figures.ways as usize;
    let base = record / ways * ways;
    base..base + ways
}

/// The age of a record once one of its set is used, by the two ages before. The ages of a
/// set differ, so that the record of the used age is the one used.
fn aged(age: u32, used: u32) -> u32 {
    match age.cmp(&used) {
        Ordering::Less => age + 1,
        Ordering::Equal => 0,
        Ordering::Greater => age,
    }
}

/// The aligned word of the cache that holds an address of a record's line.
fn cached_word(cache: &[u8], record: usize, address: u32) -> u32 {
    let at = record * LINE + address as usize % LINE / WORD * WORD;
    u32::from_le_bytes([cache[at], cache[at + 1], cache[at + 2], cache[at + 3]])
}

/// Takes a place out of the load queue; the free place behind is zero.
fn remove_load(state: &mut State, place: usize) {
    state.loads.copy_within(place + 1.., place);
    state.loads[LOADS - 1] = LoadEntry::default();
}

/// Takes the oldest store out of the store queue.
pub fn remove_oldest_store(state: &mut State) {
    state.stores.copy_within(1.., 0);
    state.stores[STORES - 1] = StoreEntry::default();
}

/// Writes a store's bytes, lowest first, to where its address stands.
pub fn write_value(bytes: &mut [u8], at: usize, store: StoreEntry) {
    let width = store.width as usize;
    bytes[at..at + width].copy_from_slice(&store.value.to_le_bytes()[..width]);
}

/// Writes the dirty words of a record back to memory and counts them. A word outside
/// the cache or the memory is not written.
pub fn write_back(tag: Tag, record: usize, cache: &[u8], memory: &mut [u8]) -> u32 {
    let mut written = 0;
    for word in (0..WORDS).filter(|word| check::is_dirty(tag, *word)) {
        let from = cache.get(word_bytes(record, word));
        let into = memory.get_mut(word_bytes(tag.line as usize, word));
        if let (Some(from), Some(into)) = (from, into) {
            into.copy_from_slice(from);
            written += 1;
        }
    }
    written
}

/// The oldest held store, if it is committed.
pub fn committed_store(state: &State) -> Option<StoreEntry> {
    let oldest = state.stores[0];
    let committed = oldest.number != 0 && oldest.number <= state.committed;
    committed.then_some(oldest)
}

/// The oldest held store, if it is committed and no older load waits.
fn ready_store(state: &State) -> Option<StoreEntry> {
    committed_store(state).filter(|store| !check::waits_before(state, store.number))
}

/// A store to be drained, and the record of its line where that is present.
#[derive(Clone, Copy)]
pub struct Due {
    pub store: StoreEntry,
    pub record: Option<usize>,
}

/// What answers a load: its value, and whether held stores gave all of its bytes.
#[derive(Clone, Copy, Debug, PartialEq, Eq)]
pub struct Loaded {
    pub value: u32,
    pub forwarded: bool,
}

/// What a load finds: its answer, or what the lookup says of the line that it lacks.
pub type Found = Result<Loaded, Lookup>;

/// Does a load leave the queue at a commit of k?
pub fn leaves(load: &LoadEntry, k: u32) -> bool {
    load.answered && load.number <= k
}

/// Sets the register to a line.
fn request(state: &mut State, line: u32) -> Answer {
    state.request = Request::Line(line);
    Answer::Requested(line * LINE as u32)
}

/// Keeps those of the marks that a test lets stay, in their order; the free places behind
/// them are zero.
pub fn keep_checkpoints(state: &mut State, stays: impl Fn(&Checkpoint) -> bool) {
    let mut kept = 0;
    for place in 0..CHECKPOINTS {
        let mark = state.checkpoints[place];
        if mark.name != 0 && stays(&mark) {
            state.checkpoints[kept] = mark;
            kept += 1;
        }
    }
    state.checkpoints[kept..].fill(Checkpoint::default());
}

/// Ranks the marks anew, in order of setting.
pub fn rank_checkpoints(state: &mut State) {
    let marks = state.checkpoints.iter_mut().filter(|mark| mark.name != 0);
    for (mark, rank) in marks.zip(1..) {
        mark.rank = rank;
    }
}

/// A machine. What stands here is right.
pub trait Machine {
    // The checks.

    /// Checks 1 and 10.
    fn refusal(state: &State, cache: &[u8], memory: &[u8]) -> Option<u32> {
        check::refusal(state, cache, memory)
    }

    /// Input checks of an access: 2, 3, 4.
    fn access(state: &State, address: u32, width: u32) -> Option<u32> {
        check::access(state.memory_length, address, width)
    }

    /// The checks of a load.
    fn load_refusal(state: &State, address: u32, width: u32) -> Option<u32> {
        Self::access(state, address, width)
            .or_else(|| (state.last == u32::MAX).then_some(13))
            .or_else(|| (state.loads[LOADS - 1].number != 0).then_some(12))
    }

    /// The checks of a store.
    fn store_refusal(state: &State, address: u32, width: u32, value: u32) -> Option<u32> {
        Self::access(state, address, width)
            .or_else(|| check::value(width, value))
            .or_else(|| (state.last == u32::MAX).then_some(13))
            .or_else(|| (state.stores[STORES - 1].number != 0).then_some(11))
    }

    /// The check of a commit.
    fn commit_refusal(state: &State, k: u32) -> Option<u32> {
        (k < state.committed || k > state.last).then_some(15)
    }

    /// The check of an abort.
    fn abort_refusal(state: &State, n: u32) -> Option<u32> {
        let above = u64::from(n) > u64::from(state.last) + 1;
        (n <= state.committed || above).then_some(16)
    }

    /// The check of a flush.
    fn flush_refusal(state: &State) -> Option<u32> {
        committed_store(state).map(|_| 18)
    }

    /// The checks of setting a mark.
    fn checkpoint_refusal(state: &State, name: u32) -> Option<u32> {
        check::name(name)
            .or_else(|| check::checkpoint_of(state, name).map(|_| 20))
            .or_else(|| (state.last == u32::MAX).then_some(21))
    }

    /// The checks of returning to a mark.
    fn restore_refusal(state: &State, name: u32) -> Option<u32> {
        let unused = check::checkpoint_of(state, name).is_none();
        check::name(name).or_else(|| unused.then_some(21))
    }

    // The tag lookup.

    /// Where a line stands: present in a way of its set, requested, or neither. A present
    /// line is present whatever the register says.
    fn lookup(state: &State, line: u32) -> Lookup {
        match check::find(state, line) {
            Some(way) => Lookup::Present(way),
            None if state.request == Request::Line(line) => Lookup::Requested,
            None => Lookup::Absent,
        }
    }

    /// The record of a line, if the line is present.
    fn record(state: &State, line: u32) -> Option<usize> {
        match Self::lookup(state, line) {
            Lookup::Present(way) => Some(record_of(state, line, way)),
            Lookup::Requested | Lookup::Absent => None,
        }
    }

    // The steps of loads and inquiries.

    /// Does a held store give bytes to load `number`?
    fn forwards(store: &StoreEntry, number: u32, address: u32) -> bool {
        store.number < number && store.address / 4 == address / 4
    }

    /// The bytes of an access that held stores give load `number` (bypass): the
    /// aligned word that they make, and the bits still missing in it.
    fn forward(state: &State, number: u32, address: u32, width: u32) -> (u32, u32) {
        let youngest_first = check::held(state).iter().rev();
        Self::overlay(youngest_first, number, address, width)
    }

    /// The same of stores in the order in which they are asked.
    fn overlay<'a>(
        stores: impl Iterator<Item = &'a StoreEntry>,
        number: u32,
        address: u32,
        width: u32,
    ) -> (u32, u32) {
        let (mut word, mut missing) = (0, check::word_mask(address, width));
        for store in stores {
            if Self::forwards(store, number, address) {
                word |= (store.value << (8 * (store.address % 4))) & missing;
                missing &= !check::word_mask(store.address, store.width);
            }
        }
        (word, missing)
    }

    /// Did held stores give all the bytes of a load, by the bits that they left missing?
    /// It is asked when the load is answered, and never again; its number, its address and
    /// its width do not matter then.
    fn forwarded(_: &State, _: u32, _: u32, _: u32, missing: u32) -> bool {
        missing == 0
    }

    /// The value of an access as load `number` sees it. When a byte is in no older
    /// held store and the line is not present, what the lookup says of the line.
    fn gather(state: &State, cache: &[u8], number: u32, address: u32, width: u32) -> Found {
        let (mut word, missing) = Self::forward(state, number, address, width);
        if missing != 0 {
            let line = line_of(address);
            match Self::lookup(state, line) {
                Lookup::Present(way) => {
                    let record = record_of(state, line, way);
                    word |= cached_word(cache, record, address) & missing;
                }
                lacking => return Err(lacking),
            }
        }
        let wanted = check::word_mask(address, width);
        let value = (word & wanted) >> (8 * (address % 4));
        let forwarded = Self::forwarded(state, number, address, width, missing);
        Ok(Loaded { value, forwarded })
    }

    /// What load `number` answers by what it found.
    fn load_answer(number: u32, found: Found) -> Answer {
        match found {
            Ok(Loaded { value, .. }) => Answer::Value { number, value },
            Err(Lookup::Requested) => Answer::WaitsRequested(number),
            Err(_) => Answer::Waits(number),
        }
    }

    /// Lists a load with what it found. It takes last + 1.
    fn list_load(state: &mut State, address: u32, width: u32, found: Found) -> Answer {
        let number = state.last + 1;
        let place = check::listed(state).len();
        let (answered, forwarded) = (found.is_ok(), found.is_ok_and(|loaded| loaded.forwarded));
        state.loads[place] = LoadEntry { number, address, width, answered, forwarded };
        state.last = number;
        Self::load_answer(number, found)
    }

    /// A waiting load is answered: it uses its line and leaves if it is committed. It has
    /// a byte that no older held store covers, so that its line gave one: it is not
    /// forwarded.
    fn answer_load(state: &mut State, place: usize) {
        let load = state.loads[place];
        if load.number <= state.committed {
            Self::use_line(state, line_of(load.address));
            remove_load(state, place);
        } else {
            state.loads[place].answered = true;
        }
    }

    // The steps of the lines.

    /// Use: age 0 for the record, 1 more for each smaller age of its set.
    fn use_record(state: &mut State, record: usize) {
        let (set, old) = (set_around(state, record), state.tags[record].age);
        for tag in &mut state.tags[set] {
            if tag.age < old {
                tag.age += 1;
            }
        }
        state.tags[record].age = 0;
    }

    /// Uses a line if it is present.
    fn use_line(state: &mut State, line: u32) {
        if let Some(record) = Self::record(state, line) {
            Self::use_record(state, record);
        }
    }

    /// The lowest invalid record of a set.
    fn invalid_record(state: &State, mut set: Range<usize>) -> Option<usize> {
        set.find(|record| !state.tags[*record].valid)
    }

    /// The record of greatest age of a set.
    fn oldest_record(state: &State, mut set: Range<usize>) -> Option<usize> {
        set.find(|record| state.tags[*record].age == state.figures.ways - 1)
    }

    /// The record that a fill of a line takes: the lowest invalid way of the
    /// set, else the way of greatest age.
    fn victim(state: &State, line: u32) -> usize {
        let set = set_of(state, line);
        let base = set.start;
        let invalid = Self::invalid_record(state, set.clone());
        invalid.or_else(|| Self::oldest_record(state, set)).unwrap_or(base)
    }

    /// Eviction: the dirty words of a record are written back.
    fn evict(state: &State, cache: &[u8], memory: &mut [u8], record: usize) {
        write_back(state.tags[record], record, cache, memory);
    }

    /// Fill: copies the line's bytes out of memory into the record's bytes.
    fn fill(into: &mut [u8], from: &[u8]) {
        into.copy_from_slice(from);
    }

    /// Brings a line in: evicts its victim, fills and uses it. The record is clean.
    fn install(state: &mut State, cache: &mut [u8], memory: &mut [u8], line: u32) {
        let record = Self::victim(state, line);
        Self::evict(state, cache, memory, record);
        Self::fill(&mut cache[record_bytes(record)], &memory[line_bytes(line)]);
        state.tags[record] = Tag { valid: true, dirty: 0, line, ..state.tags[record] };
        Self::use_record(state, record);
    }

    /// Writes every dirty word back, marks it clean and counts them.
    fn write_dirty(state: &mut State, cache: &[u8], memory: &mut [u8]) -> u32 {
        let mut written = 0;
        for (record, tag) in state.tags[..cache.len() / LINE].iter_mut().enumerate() {
            written += write_back(*tag, record, cache, memory);
            tag.dirty = 0;
        }
        written
    }

    // The steps of the preview.

    /// The ages of a record's set once the record is used, by way.
    fn ages_after(state: &State, record: usize) -> [u32; WAYS] {
        let (set, used) = (set_around(state, record), state.tags[record].age);
        let mut ages = [0; WAYS];
        for (age, tag) in ages.iter_mut().zip(&state.tags[set]) {
            *age = aged(tag.age, used);
        }
        ages
    }

    /// What a reply that takes a record would do. An invalid record has no dirty marks.
    fn preview_at(state: &State, record: usize) -> Preview {
        let Tag { valid, dirty, line, .. } = state.tags[record];
        Preview {
            way: (record - set_around(state, record).start) as u32,
            evicted: valid.then_some(line),
            words: dirty,
            ages: Self::ages_after(state, record),
        }
    }

    /// What a reply with a line would do.
    fn preview_of(state: &State, line: u32) -> Preview {
        Self::preview_at(state, Self::victim(state, line))
    }

    // The steps of idle.

    /// A store with the record of its line.
    fn due(state: &State, store: StoreEntry) -> Due {
        Due { store, record: Self::record(state, line_of(store.address)) }
    }

    /// Does case (a) apply to a store that is ready? Write-through needs no line present.
    fn can_drain(state: &State, due: Due) -> bool {
        check::writes_through(state) || due.record.is_some()
    }

    /// The dirty marks of a record once write-back has drained a store to it.
    fn mark(dirty: u8, address: u32) -> u8 {
        dirty | mark_of(address)
    }

    /// Case (a), once it applies: the store is written in write-through to memory, and
    /// to its record, where it has one, whose word write-back marks dirty.
    fn drain(state: &mut State, cache: &mut [u8], memory: &mut [u8], due: Due) -> Answer {
        let Due { store, record } = due;
        let through = check::writes_through(state);
        if through {
            write_value(memory, store.address as usize, store);
        }
        if let Some(record) = record {
            write_value(cache, record * LINE + store.address as usize % LINE, store);
            if !through {
                state.tags[record].dirty = Self::mark(state.tags[record].dirty, store.address);
            }
            Self::use_record(state, record);
        }
        remove_oldest_store(state);
        Answer::Drained(store.number)
    }

    /// Is a load committed, does it wait, and is its line absent?
    fn lacks_line(state: &State, load: &LoadEntry) -> bool {
        load.number <= state.committed
            && !load.answered
            && Self::record(state, line_of(load.address)).is_none()
    }

    /// Case (b): the line of the lowest committed waiting load whose line is absent.
    fn missing_line(state: &State) -> Option<u32> {
        let mut loads = check::listed(state).iter();
        loads.find(|load| Self::lacks_line(state, load)).map(|load| line_of(load.address))
    }

    // The steps of commit and abort.

    /// Does a load that leaves at a commit use its line? Not when it was forwarded,
    /// whatever has become of the stores since.
    fn uses_line(_: &State, load: &LoadEntry) -> bool {
        !load.forwarded
    }

    /// The uses of a commit: answered loads numbered k or less, in number order.
    fn use_leaving(state: &mut State, k: u32) {
        for place in 0..LOADS {
            let load = state.loads[place];
            if leaves(&load, k) && Self::uses_line(state, &load) {
                Self::use_line(state, line_of(load.address));
            }
        }
    }

    /// Takes the answered loads numbered k or less out of the load queue.
    fn remove_leaving(state: &mut State, k: u32) {
        let mut kept = 0;
        for place in 0..LOADS {
            let load = state.loads[place];
            if !leaves(&load, k) {
                state.loads[kept] = load;
                kept += 1;
            }
        }
        state.loads[kept..].fill(LoadEntry::default());
    }

    /// Clears the entries numbered n or more (squash).
    fn remove_from(state: &mut State, n: u32) {
        for store in state.stores.iter_mut().filter(|s| s.number >= n) {
            *store = StoreEntry::default();
        }
        for load in state.loads.iter_mut().filter(|l| l.number >= n) {
            *load = LoadEntry::default();
        }
    }

    /// Squashes from n on: entries numbered n or more go, and the next one is n.
    fn drop_from(state: &mut State, n: u32) -> Answer {
        Self::remove_from(state, n);
        state.last = n - 1;
        Answer::Kept(n - 1)
    }

    // The steps of the marks.

    /// The mark that is set: the next number, and the rank behind those in force.
    fn new_checkpoint(state: &State, name: u32) -> Checkpoint {
        let rank = check::in_force(state).count() as u32 + 1;
        Checkpoint { name, number: state.last + 1, rank }
    }

    /// Abort n forgets marks above n: they were set last.
    fn forget_above(state: &mut State, n: u32) {
        keep_checkpoints(state, |mark| mark.number <= n);
    }

    /// A commit of k forgets marks at or below k, and the others are ranked anew.
    fn forget_committed(state: &mut State, k: u32) {
        keep_checkpoints(state, |mark| mark.number > k);
        rank_checkpoints(state);
    }

    /// The number that a return to a mark drops from.
    fn restored_number(mark: Checkpoint) -> u32 {
        mark.number
    }

    /// A return forgets its mark and all set later.
    fn forget_from(state: &mut State, place: usize) {
        state.checkpoints[place..].fill(Checkpoint::default());
    }

    // The thirteen calls.

    /// Start. Refused, it hands back the all-zero state and leaves the cache.
    fn start(figures: Figures, cache: &mut [u8], memory: &[u8]) -> (State, Answer) {
        let mut state = State::zero();
        let allowed = check::figures_allowed(figures, memory.len());
        if !allowed || cache.len() != check::cache_length(figures) {
            return (state, Answer::Refused(1));
        }
        state.figures = figures;
        state.memory_length = memory.len() as u32;
        for set in state.tags[..cache.len() / LINE].chunks_exact_mut(figures.ways as usize) {
            for (tag, age) in set.iter_mut().zip(0..) {
                tag.age = age;
            }
        }
        cache.fill(0);
        (state, Answer::Ready)
    }

    /// Load: takes last + 1 and joins the load queue.
    fn load(state: &mut State, cache: &[u8], memory: &[u8], address: u32, width: u32) -> Answer {
        let refused = Self::refusal(state, cache, memory)
            .or_else(|| Self::load_refusal(state, address, width));
        if let Some(no) = refused {
            return Answer::Refused(no);
        }
        let found = Self::gather(state, cache, state.last + 1, address, width);
        Self::list_load(state, address, width, found)
    }

    /// Store: takes last + 1 and joins the store queue, uncommitted.
    fn store(
        state: &mut State,
        cache: &[u8],
        memory: &[u8],
        address: u32,
        width: u32,
        value: u32,
    ) -> Answer {
        let refused = Self::refusal(state, cache, memory)
            .or_else(|| Self::store_refusal(state, address, width, value));
        if let Some(no) = refused {
            return Answer::Refused(no);
        }
        let number = state.last + 1;
        let place = check::held(state).len();
        state.stores[place] = StoreEntry { number, address, width, value };
        state.last = number;
        Answer::Stored(number)
    }

    /// Retry (the inquiry of the paper): tries a waiting load again.
    fn retry(state: &mut State, cache: &[u8], memory: &[u8], number: u32) -> Answer {
        if let Some(no) = Self::refusal(state, cache, memory) {
            return Answer::Refused(no);
        }
        let waiting = |load: &LoadEntry| load.number == number && !load.answered;
        let Some(place) = check::listed(state).iter().position(waiting) else {
            return Answer::Refused(14);
        };
        let LoadEntry { address, width, .. } = state.loads[place];
        let found = Self::gather(state, cache, number, address, width);
        if found.is_ok() {
            Self::answer_load(state, place);
        }
        Self::load_answer(number, found)
    }

    /// Commit k.
    fn commit(state: &mut State, cache: &[u8], memory: &[u8], k: u32) -> Answer {
        let refused =
            Self::refusal(state, cache, memory).or_else(|| Self::commit_refusal(state, k));
        if let Some(no) = refused {
            return Answer::Refused(no);
        }
        state.committed = k;
        Self::use_leaving(state, k);
        Self::remove_leaving(state, k);
        Self::forget_committed(state, k);
        Answer::Committed(k)
    }

    /// Abort n (squash): drops every store and load numbered n or more, and the marks
    /// above n.
    fn abort(state: &mut State, cache: &[u8], memory: &[u8], n: u32) -> Answer {
        let refused = Self::refusal(state, cache, memory).or_else(|| Self::abort_refusal(state, n));
        if let Some(no) = refused {
            return Answer::Refused(no);
        }
        Self::forget_above(state, n);
        Self::drop_from(state, n)
    }

    /// Idle: the first of its four cases that applies. In write-through (a) applies
    /// wherever (c) would.
    fn idle(state: &mut State, cache: &mut [u8], memory: &mut [u8]) -> Answer {
        if let Some(no) = Self::refusal(state, cache, memory) {
            return Answer::Refused(no);
        }
        let ready = ready_store(state).map(|store| Self::due(state, store));
        if let Some(due) = ready.filter(|due| Self::can_drain(state, *due)) {
            return Self::drain(state, cache, memory, due);
        }
        if state.request != Request::Free {
            return Answer::Idle;
        }
        if let Some(line) = Self::missing_line(state) {
            return request(state, line);
        }
        match ready {
            Some(due) => request(state, line_of(due.store.address)),
            None => Answer::Idle,
        }
    }

    /// Reply: fills the requested line, with write back of the victim's dirty words.
    fn reply(state: &mut State, cache: &mut [u8], memory: &mut [u8]) -> Answer {
        if let Some(no) = Self::refusal(state, cache, memory) {
            return Answer::Refused(no);
        }
        let Request::Line(line) = state.request else {
            return Answer::Refused(17);
        };
        Self::install(state, cache, memory, line);
        state.request = Request::Free;
        Answer::Filled(line * LINE as u32)
    }

    /// Flush: writes every dirty word back and counts them.
    fn flush(state: &mut State, cache: &[u8], memory: &mut [u8]) -> Answer {
        let refused = Self::refusal(state, cache, memory).or_else(|| Self::flush_refusal(state));
        match refused {
            Some(no) => Answer::Refused(no),
            None => Answer::Flushed(Self::write_dirty(state, cache, memory)),
        }
    }

    /// Show line: where the present line's bytes stand in the lent cache.
    fn show_line(state: &State, cache: &[u8], memory: &[u8], address: u32) -> Part {
        let outside = address >= state.memory_length;
        if outside || Self::refusal(state, cache, memory).is_some() {
            return Part::default();
        }
        match Self::record(state, line_of(address)) {
            Some(record) => Part { place: record * LINE, length: LINE },
            None => Part::default(),
        }
    }

    /// Checkpoint: sets a mark at the next number. One of the eight places is free, as the
    /// name is.
    fn checkpoint(state: &mut State, cache: &[u8], memory: &[u8], name: u32) -> Answer {
        let refused =
            Self::refusal(state, cache, memory).or_else(|| Self::checkpoint_refusal(state, name));
        if let Some(no) = refused {
            return Answer::Refused(no);
        }
        let (mark, place) = (Self::new_checkpoint(state, name), check::in_force(state).count());
        state.checkpoints[place] = mark;
        Answer::Checkpointed(mark.number)
    }

    /// Restore: returns to a mark. It drops what an abort at the mark's number does, and
    /// forgets the mark and all set later.
    fn restore(state: &mut State, cache: &[u8], memory: &[u8], name: u32) -> Answer {
        let refused =
            Self::refusal(state, cache, memory).or_else(|| Self::restore_refusal(state, name));
        if let Some(no) = refused {
            return Answer::Refused(no);
        }
        let Some(place) = check::checkpoint_of(state, name) else {
            return Answer::Refused(21);
        };
        let number = Self::restored_number(state.checkpoints[place]);
        Self::forget_from(state, place);
        Self::drop_from(state, number)
    }

    /// Preview: tells of a reply, which it does not make, and is refused as that is.
    fn preview(state: &State, cache: &[u8], memory: &[u8]) -> Answer {
        if let Some(no) = Self::refusal(state, cache, memory) {
            return Answer::Refused(no);
        }
        match state.request {
            Request::Line(line) => Answer::Previewed(Self::preview_of(state, line)),
            Request::Free => Answer::Refused(17),
        }
    }

    /// The bytes that show line gives: that part of the lent cache.
    fn shown_bytes<'a>(state: &State, cache: &'a [u8], memory: &[u8], address: u32) -> &'a [u8] {
        let part = Self::show_line(state, cache, memory, address);
        &cache[part.place..part.place + part.length]
    }

    /// One call out of the thirteen.
    fn step(state: &mut State, cache: &mut [u8], memory: &mut [u8], call: Call) -> Answer {
        match call {
            Call::Start { figures } => {
                let (next, answer) = Self::start(figures, cache, memory);
                *state = next;
                answer
            }
            Call::Load { address, width } => Self::load(state, cache, memory, address, width),
            Call::Store { address, width, value } => {
                Self::store(state, cache, memory, address, width, value)
            }
            Call::Retry { number } => Self::retry(state, cache, memory, number),
            Call::Commit { number } => Self::commit(state, cache, memory, number),
            Call::Abort { number } => Self::abort(state, cache, memory, number),
            Call::Idle => Self::idle(state, cache, memory),
            Call::Reply => Self::reply(state, cache, memory),
            Call::Flush => Self::flush(state, cache, memory),
            Call::ShowLine { address } => {
                Answer::Shown(Self::show_line(state, cache, memory, address))
            }
            Call::Checkpoint { name } => Self::checkpoint(state, cache, memory, name),
            Call::Restore { name } => Self::restore(state, cache, memory, name),
            Call::Preview => Self::preview(state, cache, memory),
        }
    }
}
