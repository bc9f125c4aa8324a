//! The second, plain statement of what a state means: lists and maps read out of
//! it, or the clause of well-formedness that it breaks. Slow and simple.

use std::collections::{BTreeMap, BTreeSet};

use crate::types::{
    Checkpoint, Figures, LoadEntry, Request, Snapshot, State, StoreEntry, Tag, WritePolicy,
};

/// A line that is present.
#[derive(Clone, Debug, PartialEq, Eq)]
pub struct Present {
    pub set: usize,
    pub way: usize,
    /// The dirty words, from the lowest address on.
    pub dirty: [bool; 4],
    pub bytes: Vec<u8>,
}

/// A branch mark in force.
#[derive(Clone, Copy, Debug, PartialEq, Eq)]
pub struct Mark {
    pub name: u32,
    pub number: u64,
}

/// A well-formed state with its cache and memory. Two of them are equal exactly
/// when state, cache and memory are.
#[derive(Clone, Debug, PartialEq, Eq)]
pub struct View {
    pub figures: Figures,
    pub last: u64,
    pub committed: u64,
    pub request: Option<u32>,
    pub stores: Vec<StoreEntry>,
    pub loads: Vec<LoadEntry>,
    /// The marks in force. The rank of each is its place, counted from 1.
    pub marks: Vec<Mark>,
    /// The present lines by line number.
    pub present: BTreeMap<u32, Present>,
    /// For each set its ways, from the one used last to the one used first.
    pub recency: Vec<Vec<usize>>,
    pub memory: Vec<u8>,
}

/// Check 1: figures allowed and lengths in agreement.
pub fn figures_agree(now: Snapshot) -> bool {
    let state = now.state;
    start_allowed(state.figures, now.cache.len(), now.memory.len())
        && state.memory_length as u64 == now.memory.len() as u64
}

/// The figures and lengths with which a start is accepted.
pub fn start_allowed(figures: Figures, cache: usize, memory: usize) -> bool {
    let Figures { sets, ways, .. } = figures;
    [1, 2, 4, 8, 16, 32, 64].contains(&sets)
        && [1, 2, 3, 4].contains(&ways)
        && (16..=65536).contains(&memory)
        && memory.is_multiple_of(16)
        && cache as u64 == sets as u64 * ways as u64 * 16
}

/// Does a store cover the byte at an address?
pub fn covers(store: &StoreEntry, address: u64) -> bool {
    let first = store.address as u64;
    (first..first + store.width as u64).contains(&address)
}

/// The first of the refusals 2, 3, 4 and, with a value, 5.
pub fn input_refusal(length: u64, address: u32, width: u32, value: Option<u32>) -> Option<u32> {
    if ![1, 2, 4].contains(&width) {
        return Some(2);
    }
    if !address.is_multiple_of(width) {
        return Some(3);
    }
    if address as u64 + width as u64 > length {
        return Some(4);
    }
    if value.is_some_and(|value| value as u64 >= 256u64.pow(width)) {
        return Some(5);
    }
    None
}

/// Reads a state whose figures and lengths agree; an error names the clause of
/// well-formedness that it breaks.
pub fn read(now: Snapshot) -> Result<View, &'static str> {
    let state = now.state;
    let mut view = View {
        figures: state.figures,
        last: state.last as u64,
        committed: state.committed as u64,
        request: match state.request {
            Request::Free => None,
            Request::Line(line) => Some(line),
        },
        stores: Vec::new(),
        loads: Vec::new(),
        marks: Vec::new(),
        present: BTreeMap::new(),
        recency: Vec::new(),
        memory: now.memory.to_vec(),
    };
    if view.committed > view.last {
        return Err("h never exceeds last");
    }
    read_lists(state, &mut view)?;
    read_marks(state, &mut view)?;
    read_tags(now, &mut view)?;
    numbers(&view)?;
    accesses(&view)?;
    waiting_loads(&view)?;
    request(&view)?;
    marks_in_force(&view)?;
    Ok(view)
}

/// The two lists, with nothing but zero in and between the free places.
fn read_lists(state: &State, view: &mut View) -> Result<(), &'static str> {
    view.stores = state.stores.to_vec();
    view.stores.retain(|store| store.number != 0);
    let mut stores = view.stores.clone();
    stores.resize(16, StoreEntry::default());
    view.loads = state.loads.to_vec();
    view.loads.retain(|load| load.number != 0);
    let mut loads = view.loads.clone();
    loads.resize(8, LoadEntry::default());
    if stores != state.stores || loads != state.loads {
        return Err("free places are zero");
    }
    Ok(())
}

/// The marks with their ranks, and nothing but zero in the free places, which come last.
fn read_marks(state: &State, view: &mut View) -> Result<(), &'static str> {
    let mut free = false;
    for (place, &Checkpoint { name, number, rank }) in state.checkpoints.iter().enumerate() {
        match name {
            0 if number != 0 || rank != 0 => return Err("a free place of the marks is zero"),
            0 => free = true,
            _ if free => return Err("free places of the marks are last"),
            _ if rank as usize != place + 1 => return Err("marks have ranks 1, 2 and so on"),
            _ => view.marks.push(Mark { name, number: number as u64 }),
        }
    }
    Ok(())
}

/// The names and the numbers of the marks.
fn marks_in_force(view: &View) -> Result<(), &'static str> {
    let names: BTreeSet<u32> = view.marks.iter().map(|mark| mark.name).collect();
    let numbers: Vec<u64> = view.marks.iter().map(|mark| mark.number).collect();
    let mut sorted = numbers.clone();
    sorted.sort();
    if names.iter().any(|name| ![1, 2, 3, 4, 5, 6, 7, 8].contains(name)) {
        return Err("marks have names 1 to 8");
    }
    if names.len() != numbers.len() {
        return Err("marks have distinct names");
    }
    if numbers.iter().any(|number| *number <= view.committed) {
        return Err("marks lie above h");
    }
    if numbers.iter().any(|number| *number > view.last + 1) {
        return Err("marks lie at most at last + 1");
    }
    if sorted != numbers {
        return Err("marks never fall in order of setting");
    }
    Ok(())
}

/// The tag records: ages, present lines, invalid and unused records.
fn read_tags(now: Snapshot, view: &mut View) -> Result<(), &'static str> {
    for set in 0..view.sets() {
        let mut by_age = BTreeMap::new();
        for way in 0..view.ways() {
            let record = set * view.ways() + way;
            by_age.insert(now.state.tags[record].age as usize, way);
            read_record(now, view, set, way, record)?;
        }
        if by_age.keys().copied().collect::<Vec<_>>() != (0..view.ways()).collect::<Vec<_>>() {
            return Err("each set has ages 0 to ways - 1 once each");
        }
        view.recency.push(by_age.into_values().collect());
    }
    for tag in &now.state.tags[view.sets() * view.ways()..] {
        if *tag != Tag::default() {
            return Err("unused records are all zero");
        }
    }
    Ok(())
}

/// One record: a present line, or nothing at all.
fn read_record(
    now: Snapshot,
    view: &mut View,
    set: usize,
    way: usize,
    record: usize,
) -> Result<(), &'static str> {
    let Tag { valid, dirty, line, .. } = now.state.tags[record];
    let dirty = marks(dirty)?;
    let bytes = now.cache[record * 16..record * 16 + 16].to_vec();
    if !valid {
        return nothing_there(dirty, line, &bytes);
    }
    let first = line as usize * 16;
    if first + 16 > now.memory.len() {
        return Err("a valid line lies in memory");
    }
    if line as usize % view.sets() != set {
        return Err("a valid line is in its own set");
    }
    if dirty.contains(&true) && view.figures.policy == WritePolicy::WriteThrough {
        return Err("in write-through no line is dirty");
    }
    if (0..16).any(|at| !dirty[at / 4] && bytes[at] != now.memory[first + at]) {
        return Err("clean words equal memory");
    }
    match view.present.insert(line, Present { set, way, dirty, bytes }) {
        Some(_) => Err("a valid line is there only once"),
        None => Ok(()),
    }
}

/// The dirty words of a record: the mark of word q weighs 2 to the power q.
fn marks(dirty: u8) -> Result<[bool; 4], &'static str> {
    if dirty >= 16 {
        return Err("a record has four dirty marks");
    }
    Ok([0, 1, 2, 3].map(|word| dirty / 2u8.pow(word) % 2 == 1))
}

/// An invalid record.
fn nothing_there(dirty: [bool; 4], line: u32, bytes: &[u8]) -> Result<(), &'static str> {
    if dirty != [false; 4] {
        return Err("only valid lines are dirty");
    }
    if line != 0 || bytes != [0; 16] {
        return Err("an invalid record is zero but for its age");
    }
    Ok(())
}

/// The numbers of the two lists.
fn numbers(view: &View) -> Result<(), &'static str> {
    let stores: Vec<u64> = view.stores.iter().map(|s| s.number as u64).collect();
    let loads: Vec<u64> = view.loads.iter().map(|l| l.number as u64).collect();
    for list in [&stores, &loads] {
        let rising: BTreeSet<u64> = list.iter().copied().collect();
        if rising.into_iter().collect::<Vec<_>>() != *list {
            return Err("listed numbers are strictly rising");
        }
        if list.iter().any(|number| *number > view.last) {
            return Err("listed numbers are from 1 to last");
        }
    }
    if stores.iter().any(|number| loads.contains(number)) {
        return Err("no number is in both lists");
    }
    Ok(())
}

/// The accesses of the two lists.
fn accesses(view: &View) -> Result<(), &'static str> {
    let length = view.memory.len() as u64;
    let refused = |a, w, v| input_refusal(length, a, w, v).is_some();
    let stores = &view.stores;
    let loads = &view.loads;
    if stores.iter().any(|s| refused(s.address, s.width, Some(s.value)))
        || loads.iter().any(|l| refused(l.address, l.width, None))
    {
        return Err("listed accesses pass the input checks");
    }
    Ok(())
}

/// The loads that wait, and the committed ones.
fn waiting_loads(view: &View) -> Result<(), &'static str> {
    for load in &view.loads {
        if load.number as u64 <= view.committed && load.answered {
            return Err("a load numbered h or less is listed only while it waits");
        }
        let mut bytes = (0..load.width).map(|k| load.address as u64 + k as u64);
        let older: Vec<_> = view.stores.iter().filter(|s| s.number < load.number).collect();
        let lacks = bytes.any(|byte| !older.iter().any(|store| covers(store, byte)));
        if !load.answered && !lacks {
            return Err("a waiting load has a byte that no older held store covers");
        }
        if load.forwarded && !load.answered {
            return Err("a waiting load is not fed from held stores");
        }
    }
    Ok(())
}

/// The requested line.
fn request(view: &View) -> Result<(), &'static str> {
    let Some(line) = view.request else {
        return Ok(());
    };
    if view.present.contains_key(&line) {
        return Err("a requested line is absent");
    }
    if line as usize * 16 + 16 > view.memory.len() {
        return Err("a requested line lies in memory");
    }
    if !view.wanted().contains(&line) {
        return Err("a requested line is wanted");
    }
    Ok(())
}

impl View {
    pub fn sets(&self) -> usize {
        self.figures.sets as usize
    }

    pub fn ways(&self) -> usize {
        self.figures.ways as usize
    }

    /// The lines that can be requested, present ones too, first those of the committed
    /// waiting loads: write-back wants that of the oldest store besides.
    pub fn wanted(&self) -> Vec<u32> {
        let waiting = self.loads.iter().filter(|load| !load.answered);
        let committed = waiting.filter(|load| load.number as u64 <= self.committed);
        let mut lines: Vec<u32> = committed.map(|load| load.address / 16).collect();
        match self.figures.policy {
            WritePolicy::WriteBack => {
                lines.extend(self.ready_store().map(|store| store.address / 16))
            }
            WritePolicy::WriteThrough => {}
        }
        lines
    }

    /// The oldest store, when it is committed and no waiting load is older.
    pub fn ready_store(&self) -> Option<StoreEntry> {
        let oldest = *self.stores.first()?;
        let late = oldest.number as u64 > self.committed;
        let blocked = self.loads.iter().any(|load| !load.answered && load.number < oldest.number);
        if late || blocked {
            None
        } else {
            Some(oldest)
        }
    }
}
