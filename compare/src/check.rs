//! The checks before a call: figures and lengths (1), well-formedness (10),
//! with one function for each clause, and the input checks (2, 3, 4, 5).

use crate::types::{
    Checkpoint, Figures, LoadEntry, Request, State, StoreEntry, Tag, WritePolicy, ALL_DIRTY,
    CHECKPOINTS, LINE, RECORDS, WORD,
};

/// Refusal 1 or 10, in that order, or none.
pub fn refusal(state: &State, cache: &[u8], memory: &[u8]) -> Option<u32> {
    if !figures_agree(state, cache, memory) {
        return Some(1);
    }
    if !well_formed(state, cache, memory) {
        return Some(10);
    }
    None
}

/// The figures and the memory length are allowed ones.
pub fn figures_allowed(figures: Figures, memory_length: usize) -> bool {
    figures.sets.is_power_of_two()
        && figures.sets <= 64
        && (1..=4).contains(&figures.ways)
        && (16..=65536).contains(&memory_length)
        && memory_length.is_multiple_of(LINE)
}

/// Cache bytes that go with the figures.
pub fn cache_length(figures: Figures) -> usize {
    (figures.sets as usize).saturating_mul(figures.ways as usize).saturating_mul(LINE)
}

/// Check 1: the state's figures are allowed and the lent lengths agree.
pub fn figures_agree(state: &State, cache: &[u8], memory: &[u8]) -> bool {
    figures_allowed(state.figures, memory.len())
        && state.memory_length as usize == memory.len()
        && cache_length(state.figures) == cache.len()
}

/// Refusal 2, 3 or 4 of an access, in that order, or none.
pub fn access(memory_length: u32, address: u32, width: u32) -> Option<u32> {
    if !matches!(width, 1 | 2 | 4) {
        return Some(2);
    }
    if address & (width - 1) != 0 {
        return Some(3);
    }
    if u64::from(address) + u64::from(width) > u64::from(memory_length) {
        return Some(4);
    }
    None
}

/// Refusal 5 of a stored value whose width is allowed, or none.
pub fn value(width: u32, value: u32) -> Option<u32> {
    let fits = u64::from(value) >> (8 * width) == 0;
    if fits {
        None
    } else {
        Some(5)
    }
}

/// Refusal 19 of a mark's name, or none.
pub fn name(name: u32) -> Option<u32> {
    let known = (1..=CHECKPOINTS as u32).contains(&name);
    if known {
        None
    } else {
        Some(19)
    }
}

/// A clause of well-formedness. It is asked only when check 1 has passed.
pub type Clause = fn(&State, &[u8], &[u8]) -> bool;

/// All the clauses with their names, in the order of the paper.
pub const CLAUSES: [(&str, Clause); 31] = [
    ("committed at most last", committed_at_most_last),
    ("unused records zero", unused_records_zero),
    ("free places zero", free_places_zero),
    ("ages complete", ages_complete),
    ("valid lines in memory", valid_lines_in_memory),
    ("valid lines in own set", valid_lines_in_own_set),
    ("valid lines once", valid_lines_once),
    ("only valid lines dirty", only_valid_lines_dirty),
    ("invalid records zero", invalid_records_zero),
    ("invalid bytes zero", invalid_bytes_zero),
    ("clean words equal memory", clean_words_equal_memory),
    ("none dirty in write-through", none_dirty),
    ("four dirty marks", four_dirty_marks),
    ("numbers rising", numbers_rising),
    ("numbers up to last", numbers_up_to_last),
    ("numbers in one list", numbers_in_one_list),
    ("accesses pass checks", accesses_pass_checks),
    ("committed loads wait", committed_loads_wait),
    ("waiting loads lack a byte", waiting_loads_lack_a_byte),
    ("waiting loads not forwarded", waiting_loads_not_forwarded),
    ("request absent", request_absent),
    ("request in memory", request_in_memory),
    ("request wanted", request_wanted),
    ("free checkpoints zero", free_checkpoints_zero),
    ("free checkpoints last", free_checkpoints_last),
    ("checkpoint names 1 to 8", checkpoint_names),
    ("checkpoint names distinct", checkpoint_names_distinct),
    ("checkpoints above committed", checkpoints_above_committed),
    ("checkpoints up to last + 1", checkpoints_up_to_next),
    ("checkpoints never fall", checkpoints_never_fall),
    ("checkpoint ranks in order", checkpoint_ranks),
];

/// The clauses on the records in use, by their places in `CLAUSES`.
const OF_RECORDS: std::ops::Range<usize> = 3..13;
/// The clauses on the marks, which are the last ones.
const OF_CHECKPOINTS: std::ops::Range<usize> = 23..CLAUSES.len();

/// All clauses together, those on the records in one pass and those on the marks in
/// another. It is asked only when check 1 has passed.
pub fn well_formed(state: &State, cache: &[u8], memory: &[u8]) -> bool {
    let behind = &CLAUSES[OF_RECORDS.end..OF_CHECKPOINTS.start];
    let mut others = CLAUSES[..OF_RECORDS.start].iter().chain(behind);
    others.all(|(_, clause)| clause(state, cache, memory))
        && checkpoints_good(state)
        && records_good(state, cache, memory)
}

/// The clauses on the marks.
fn checkpoints_good(state: &State) -> bool {
    let used = state.checkpoints.iter().take_while(|mark| mark.name != 0).count();
    let (set, free) = state.checkpoints.split_at(used);
    let (mut lowest, next) = (u64::from(state.committed) + 1, u64::from(state.last) + 1);
    let mut names = 0u32;
    free.iter().all(|mark| *mark == Checkpoint::default())
        && set.iter().zip(1u32..).all(|(mark, rank)| {
            let (bit, number) = (1u32 << mark.name.min(31), u64::from(mark.number));
            let rises = (lowest..=next).contains(&number);
            let good = name(mark.name).is_none() && names & bit == 0 && mark.rank == rank;
            (names, lowest) = (names | bit, number);
            good && rises
        })
}

/// The clauses on the records in use, set by set.
fn records_good(state: &State, cache: &[u8], memory: &[u8]) -> bool {
    let all = (1u32 << state.figures.ways.min(31)) - 1;
    let lines = cache.chunks_exact(LINE * state.figures.ways.max(1) as usize);
    by_set(state).zip(lines).zip(0u32..).all(|((set, bytes), index)| {
        let mut ages = 0;
        let mut records = set.iter().zip(bytes.chunks_exact(LINE)).enumerate();
        records.all(|(way, (tag, bytes))| {
            ages |= 1u32 << tag.age.min(31);
            if tag.valid {
                line_good(state, &set[..way], *tag, index, bytes, memory)
            } else {
                tag.dirty == 0 && tag.line == 0 && bytes == [0; LINE]
            }
        }) && ages == all
    })
}

/// The clauses on a valid line, with the records before it in its set.
fn line_good(
    state: &State,
    before: &[Tag],
    tag: Tag,
    set: u32,
    bytes: &[u8],
    memory: &[u8],
) -> bool {
    let first = (tag.line as usize).saturating_mul(LINE);
    let behind = memory.get(first..first.saturating_add(LINE));
    tag.line & state.figures.sets.wrapping_sub(1) == set
        && !before.iter().any(|other| other.valid && other.line == tag.line)
        && (tag.dirty == 0 || !writes_through(state))
        && tag.dirty <= ALL_DIRTY
        && behind.is_some_and(|found| clean_words_equal(tag, bytes, found))
}

/// Is the write profile of a state write-through?
pub fn writes_through(state: &State) -> bool {
    state.figures.policy == WritePolicy::WriteThrough
}

/// Is a word of a record marked dirty?
pub fn is_dirty(tag: Tag, word: usize) -> bool {
    tag.dirty & 1 << word != 0
}

/// Is every word of a line that is not marked dirty the one found in memory? A line
/// with no mark is compared whole, which is quicker.
fn clean_words_equal(tag: Tag, bytes: &[u8], found: &[u8]) -> bool {
    if tag.dirty == 0 {
        return bytes == found;
    }
    let mut words = bytes.chunks_exact(WORD).zip(found.chunks_exact(WORD)).enumerate();
    words.all(|(word, (cached, behind))| is_dirty(tag, word) || cached == behind)
}

/// Tag records in use.
fn used(state: &State) -> &[Tag] {
    let records = (state.figures.sets as usize).saturating_mul(state.figures.ways as usize);
    &state.tags[..records.min(RECORDS)]
}

/// The used tag records set by set.
fn by_set(state: &State) -> impl Iterator<Item = &[Tag]> {
    used(state).chunks_exact(state.figures.ways.max(1) as usize)
}

/// The held stores: the places before the first free one.
pub fn held(state: &State) -> &[StoreEntry] {
    let count = state.stores.iter().take_while(|s| s.number != 0).count();
    &state.stores[..count]
}

/// The listed loads: the places before the first free one.
pub fn listed(state: &State) -> &[LoadEntry] {
    let count = state.loads.iter().take_while(|l| l.number != 0).count();
    &state.loads[..count]
}

/// The committed waiting loads of a line, in number order.
pub fn wanting(state: &State, line: u32) -> impl Iterator<Item = &LoadEntry> {
    let wants = |load: &&LoadEntry| !load.answered && load.number <= state.committed;
    let of_line = move |load: &&LoadEntry| load.address / LINE as u32 == line;
    listed(state).iter().filter(wants).filter(of_line)
}

/// The way that holds a line, looked for in the line's own set.
pub fn find(state: &State, line: u32) -> Option<usize> {
    let set = line & state.figures.sets.wrapping_sub(1); // sets is a power of two
    let base = (set as usize).saturating_mul(state.figures.ways as usize);
    let mut ways = state.tags.iter().skip(base).take(state.figures.ways as usize);
    ways.position(|tag| tag.valid && tag.line == line)
}

/// The marks in force, in order of setting: the places that have a name.
pub fn in_force(state: &State) -> impl Iterator<Item = &Checkpoint> {
    state.checkpoints.iter().filter(|mark| mark.name != 0)
}

/// The place of the mark of a name, if one is in force; the name is not 0, which free
/// places have.
pub fn checkpoint_of(state: &State, name: u32) -> Option<usize> {
    state.checkpoints.iter().position(|mark| mark.name == name)
}

/// A listed load that waits and has a smaller number than the one given.
pub fn waits_before(state: &State, number: u32) -> bool {
    listed(state).iter().any(|load| !load.answered && load.number < number)
}

/// The bits of an aligned word that an access of 1, 2 or 4 bytes covers.
pub fn word_mask(address: u32, width: u32) -> u32 {
    let low = u32::MAX >> (32 - 8 * width);
    low << (8 * (address % 4))
}

/// "h never exceeds last".
pub fn committed_at_most_last(state: &State, _: &[u8], _: &[u8]) -> bool {
    state.committed <= state.last
}

/// "unused records are all zero".
pub fn unused_records_zero(state: &State, _: &[u8], _: &[u8]) -> bool {
    let unused = &state.tags[used(state).len()..];
    let flags = |tag: &Tag| u64::from(tag.valid) | u64::from(tag.dirty);
    let bits = |tag: &Tag| u64::from(tag.line) << 32 | u64::from(tag.age) | flags(tag);
    unused.iter().fold(0, |seen, tag| seen | bits(tag)) == 0
}

/// "Free places are zero"; they stand behind all the listed ones.
pub fn free_places_zero(state: &State, _: &[u8], _: &[u8]) -> bool {
    let stores = &state.stores[held(state).len()..];
    let loads = &state.loads[listed(state).len()..];
    stores.iter().all(|s| *s == StoreEntry::default())
        && loads.iter().all(|l| *l == LoadEntry::default())
}

/// "each set has ages 0 to ways - 1 once each".
pub fn ages_complete(state: &State, _: &[u8], _: &[u8]) -> bool {
    let all = (1u32 << state.figures.ways.min(31)) - 1;
    by_set(state).all(|set| {
        let seen = set.iter().fold(0, |seen, tag| seen | 1u32 << tag.age.min(31));
        seen == all
    })
}

/// "a valid line lies in memory".
pub fn valid_lines_in_memory(state: &State, _: &[u8], _: &[u8]) -> bool {
    let lines = state.memory_length / LINE as u32;
    used(state).iter().all(|tag| !tag.valid || tag.line < lines)
}

/// "is in its own set".
pub fn valid_lines_in_own_set(state: &State, _: &[u8], _: &[u8]) -> bool {
    let mask = state.figures.sets.wrapping_sub(1); // sets is a power of two
    by_set(state)
        .zip(0u32..)
        .all(|(set, index)| set.iter().all(|tag| !tag.valid || tag.line & mask == index))
}

/// "is there only once". A copy in another set breaks the clause above.
pub fn valid_lines_once(state: &State, _: &[u8], _: &[u8]) -> bool {
    by_set(state).all(|set| {
        set.iter().enumerate().all(|(way, tag)| {
            let mut others = set[..way].iter();
            !tag.valid || !others.any(|other| other.valid && other.line == tag.line)
        })
    })
}

/// "only valid lines are dirty".
pub fn only_valid_lines_dirty(state: &State, _: &[u8], _: &[u8]) -> bool {
    used(state).iter().all(|tag| tag.valid || tag.dirty == 0)
}

/// "an invalid record is zero but for its age". Its dirty marks are the clause above.
pub fn invalid_records_zero(state: &State, _: &[u8], _: &[u8]) -> bool {
    used(state).iter().all(|tag| tag.valid || tag.line == 0)
}

/// "with zero cache bytes".
pub fn invalid_bytes_zero(state: &State, cache: &[u8], _: &[u8]) -> bool {
    let lines = cache.chunks_exact(LINE);
    used(state).iter().zip(lines).all(|(tag, bytes)| tag.valid || bytes == [0; LINE])
}

/// "A clean word must equal memory". A line outside memory breaks a clause above.
pub fn clean_words_equal_memory(state: &State, cache: &[u8], memory: &[u8]) -> bool {
    let lines = cache.chunks_exact(LINE);
    used(state).iter().zip(lines).all(|(tag, bytes)| {
        let first = (tag.line as usize).saturating_mul(LINE);
        let behind = memory.get(first..first.saturating_add(LINE));
        !tag.valid || behind.is_none_or(|found| clean_words_equal(*tag, bytes, found))
    })
}

/// "no line is dirty", in write-through.
pub fn none_dirty(state: &State, _: &[u8], _: &[u8]) -> bool {
    !writes_through(state) || used(state).iter().all(|tag| tag.dirty == 0)
}

/// "Each record gets four dirty marks": no other bit is set. Unused records are zero.
pub fn four_dirty_marks(state: &State, _: &[u8], _: &[u8]) -> bool {
    used(state).iter().all(|tag| tag.dirty <= ALL_DIRTY)
}

/// "listed numbers are strictly rising", in each list.
pub fn numbers_rising(state: &State, _: &[u8], _: &[u8]) -> bool {
    let stores = held(state).windows(2);
    let loads = listed(state).windows(2);
    stores.into_iter().all(|w| w[0].number < w[1].number)
        && loads.into_iter().all(|w| w[0].number < w[1].number)
}

/// "from 1 to last". A number 0 marks a free place.
pub fn numbers_up_to_last(state: &State, _: &[u8], _: &[u8]) -> bool {
    held(state).iter().all(|s| s.number <= state.last)
        && listed(state).iter().all(|l| l.number <= state.last)
}

/// "no number is in both lists".
pub fn numbers_in_one_list(state: &State, _: &[u8], _: &[u8]) -> bool {
    let stores = held(state);
    listed(state).iter().all(|load| stores.iter().all(|store| store.number != load.number))
}

/// "listed accesses pass the input checks".
pub fn accesses_pass_checks(state: &State, _: &[u8], _: &[u8]) -> bool {
    let length = state.memory_length;
    let stores = held(state).iter().all(|store| {
        access(length, store.address, store.width).is_none()
            && value(store.width, store.value).is_none()
    });
    stores && listed(state).iter().all(|load| access(length, load.address, load.width).is_none())
}

/// "a load numbered h or less is listed only while it waits".
pub fn committed_loads_wait(state: &State, _: &[u8], _: &[u8]) -> bool {
    listed(state).iter().all(|load| !load.answered || load.number > state.committed)
}

/// "a waiting load has a byte that no older held store covers". Accesses that
/// fail the input checks break a clause above.
pub fn waiting_loads_lack_a_byte(state: &State, _: &[u8], _: &[u8]) -> bool {
    let sound = |width: u32| matches!(width, 1 | 2 | 4);
    let waiting = listed(state).iter().filter(|l| !l.answered && sound(l.width));
    waiting.into_iter().all(|load| {
        let covered = held(state)
            .iter()
            .filter(|s| s.number < load.number && s.address / 4 == load.address / 4)
            .filter(|s| sound(s.width))
            .fold(0, |bits, s| bits | word_mask(s.address, s.width));
        word_mask(load.address, load.width) & !covered != 0
    })
}

/// A load that waits is not yet answered, so that nothing says how it was.
pub fn waiting_loads_not_forwarded(state: &State, _: &[u8], _: &[u8]) -> bool {
    listed(state).iter().all(|load| load.answered || !load.forwarded)
}

/// "a requested line is absent".
pub fn request_absent(state: &State, _: &[u8], _: &[u8]) -> bool {
    match state.request {
        Request::Free => true,
        Request::Line(line) => find(state, line).is_none(),
    }
}

/// "lies in memory".
pub fn request_in_memory(state: &State, _: &[u8], _: &[u8]) -> bool {
    match state.request {
        Request::Free => true,
        Request::Line(line) => line < state.memory_length / LINE as u32,
    }
}

/// "is wanted by a committed waiting load or by the oldest store, committed and
/// with no older waiting load"; in write-through by such a load only.
pub fn request_wanted(state: &State, _: &[u8], _: &[u8]) -> bool {
    let Request::Line(line) = state.request else {
        return true;
    };
    let by_load = wanting(state, line).next().is_some();
    let by_store = held(state).first().is_some_and(|store| {
        store.number <= state.committed
            && store.address / LINE as u32 == line
            && !waits_before(state, store.number)
    });
    by_load || by_store && !writes_through(state)
}

/// A free place of the marks is zero.
pub fn free_checkpoints_zero(state: &State, _: &[u8], _: &[u8]) -> bool {
    let mut free = state.checkpoints.iter().filter(|mark| mark.name == 0);
    free.all(|mark| *mark == Checkpoint::default())
}

/// The free places of the marks stand behind those in use.
pub fn free_checkpoints_last(state: &State, _: &[u8], _: &[u8]) -> bool {
    state.checkpoints.windows(2).all(|w| w[0].name != 0 || w[1].name == 0)
}

/// "A mark has a name 1 to 8".
pub fn checkpoint_names(state: &State, _: &[u8], _: &[u8]) -> bool {
    in_force(state).all(|mark| name(mark.name).is_none())
}

/// "have distinct names".
pub fn checkpoint_names_distinct(state: &State, _: &[u8], _: &[u8]) -> bool {
    let mut marks = state.checkpoints.iter().enumerate().filter(|(_, mark)| mark.name != 0);
    marks.all(|(place, mark)| checkpoint_of(state, mark.name) == Some(place))
}

/// "marks lie above h".
pub fn checkpoints_above_committed(state: &State, _: &[u8], _: &[u8]) -> bool {
    in_force(state).all(|mark| mark.number > state.committed)
}

/// "at most at last + 1".
pub fn checkpoints_up_to_next(state: &State, _: &[u8], _: &[u8]) -> bool {
    let next = u64::from(state.last) + 1;
    in_force(state).all(|mark| u64::from(mark.number) <= next)
}

/// "never fall in order of setting".
pub fn checkpoints_never_fall(state: &State, _: &[u8], _: &[u8]) -> bool {
    in_force(state).zip(in_force(state).skip(1)).all(|(one, next)| one.number <= next.number)
}

/// "ranks 1, 2 and so on".
pub fn checkpoint_ranks(state: &State, _: &[u8], _: &[u8]) -> bool {
    in_force(state).zip(1u32..).all(|(mark, rank)| mark.rank == rank)
}
