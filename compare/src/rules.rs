//! The second, plain statement of each call's rule, as a relation between what
//! stood before, the call, its answer and what stands after. It shares nothing
//! but data types with the model.

use std::collections::BTreeMap;

use crate::plain::{self, covers, input_refusal, Mark, Present, View};
use crate::types::{
    Answer, Call, Figures, LoadEntry, Part, Preview, Snapshot, State, StoreEntry, WritePolicy,
};

/// Where a byte of a load comes from.
#[derive(Clone, Copy, Debug, PartialEq, Eq, PartialOrd, Ord)]
pub enum Source {
    /// The held store of this number.
    Store(u32),
    /// The cached line.
    Line,
}

/// Holds when the answer and all that stands after are what the rules say.
pub fn judge(before: Snapshot, call: Call, answer: Answer, after: Snapshot) -> Result<(), String> {
    if let Call::Start { figures } = call {
        return judge_start(before, figures, answer, after);
    }
    let view = match admitted(before, call) {
        Ok(view) => view,
        Err(no) => {
            same_answer(refused(no, call), answer)?;
            return unchanged(before, after);
        }
    };
    let (expected, next) = outcome(view, call);
    same_answer(expected, answer)?;
    if !plain::figures_agree(after) {
        return Err("figures or lengths changed".to_string());
    }
    let seen = plain::read(after).map_err(|clause| format!("not well formed after: {clause}"))?;
    same_view(&next, &seen)
}

/// Start: way w has age w, all else is zero, memory stays as found.
fn judge_start(
    before: Snapshot,
    figures: Figures,
    answer: Answer,
    after: Snapshot,
) -> Result<(), String> {
    if !plain::start_allowed(figures, before.cache.len(), before.memory.len()) {
        same_answer(Answer::Refused(1), answer)?;
        return unchanged(Snapshot { state: &State::zero(), ..before }, after);
    }
    same_answer(Answer::Ready, answer)?;
    if !plain::figures_agree(after) || after.cache.iter().any(|byte| *byte != 0) {
        return Err("figures or cache bytes".to_string());
    }
    same_view(&started(figures, before.memory), &plain::read(after)?)
}

/// What an accepted start leaves.
fn started(figures: Figures, memory: &[u8]) -> View {
    View {
        figures,
        last: 0,
        committed: 0,
        request: None,
        stores: vec![],
        loads: vec![],
        marks: vec![],
        present: Default::default(),
        recency: vec![(0..figures.ways as usize).collect(); figures.sets as usize],
        memory: memory.to_vec(),
    }
}

/// The state read, or the first refusal in the paper's order that applies.
fn admitted(before: Snapshot, call: Call) -> Result<View, u32> {
    if !plain::figures_agree(before) {
        return Err(1);
    }
    let view = plain::read(before).map_err(|_| 10u32)?;
    match conditions(&view, call).into_iter().flatten().next() {
        Some(no) => Err(no),
        None => Ok(view),
    }
}

/// The first refusal that applies to a call other than a start, if any.
pub fn first_refusal(before: Snapshot, call: Call) -> Option<u32> {
    admitted(before, call).err()
}

/// The answer that a refused call gives.
fn refused(no: u32, call: Call) -> Answer {
    match call {
        Call::ShowLine { .. } => Answer::Shown(Part::default()),
        _ => Answer::Refused(no),
    }
}

/// The refusals that apply to a call on a well-formed state, in order.
fn conditions(view: &View, call: Call) -> Vec<Option<u32>> {
    let length = view.memory.len() as u64;
    let spent = when(13, view.last == 4294967295);
    match call {
        Call::Load { address, width } => {
            let full = when(12, view.loads.len() == 8);
            vec![input_refusal(length, address, width, None), spent, full]
        }
        Call::Store { address, width, value } => {
            let full = when(11, view.stores.len() == 16);
            vec![input_refusal(length, address, width, Some(value)), spent, full]
        }
        Call::Retry { number } => {
            let mut waiting = view.loads.iter().filter(|load| !load.answered);
            vec![when(14, !waiting.any(|load| load.number == number))]
        }
        Call::Commit { number } => {
            let allowed = view.committed..=view.last;
            vec![when(15, !allowed.contains(&(number as u64)))]
        }
        Call::Abort { number } => {
            let allowed = view.committed + 1..=view.last + 1;
            vec![when(16, !allowed.contains(&(number as u64)))]
        }
        Call::Reply | Call::Preview => vec![when(17, view.request.is_none())],
        Call::Flush => {
            let mut held = view.stores.iter().map(|store| store.number as u64);
            vec![when(18, held.any(|number| number <= view.committed))]
        }
        Call::Checkpoint { name } => {
            let spent = when(21, view.last == 4294967295);
            vec![when(19, !named(name)), when(20, is_set(view, name)), spent]
        }
        Call::Restore { name } => vec![when(19, !named(name)), when(21, !is_set(view, name))],
        Call::Idle | Call::ShowLine { .. } | Call::Start { .. } => vec![],
    }
}

/// Is it the name of a mark?
fn named(name: u32) -> bool {
    [1, 2, 3, 4, 5, 6, 7, 8].contains(&name)
}

/// Is a mark of this name in force?
fn is_set(view: &View, name: u32) -> bool {
    view.marks.iter().any(|mark| mark.name == name)
}

/// A refusal under its condition.
fn when(no: u32, applies: bool) -> Option<u32> {
    if applies {
        Some(no)
    } else {
        None
    }
}

/// What an accepted call answers and leaves.
fn outcome(view: View, call: Call) -> (Answer, View) {
    match call {
        Call::Load { address, width } => load(view, address, width),
        Call::Store { address, width, value } => store(view, address, width, value),
        Call::Retry { number } => retry(view, number),
        Call::Commit { number } => commit(view, number),
        Call::Abort { number } => abort(view, number),
        Call::Idle => idle(view),
        Call::Reply => reply(view),
        Call::Flush => flush(view),
        Call::ShowLine { address } => (Answer::Shown(shown(&view, address)), view),
        Call::Checkpoint { name } => checkpoint(view, name),
        Call::Restore { name } => restore(view, name),
        Call::Preview => (Answer::Previewed(preview(&view)), view),
        Call::Start { .. } => (Answer::Ready, view),
    }
}

/// Where load `number` finds the byte at an address: the youngest held store
/// with a smaller number that covers it, else the cached line.
pub fn source(view: &View, number: u32, address: u32) -> Option<Source> {
    let mut youngest = None;
    for held in &view.stores {
        if held.number < number && covers(held, address as u64) {
            youngest = Some(Source::Store(held.number));
        }
    }
    let line = view.present.get(&(address / 16)).map(|_| Source::Line);
    youngest.or(line)
}

/// That byte itself.
fn byte(view: &View, number: u32, address: u32) -> Option<u8> {
    match source(view, number, address)? {
        Source::Line => Some(view.present[&(address / 16)].bytes[address as usize % 16]),
        Source::Store(found) => {
            let held = view.stores.iter().find(|s| s.number == found)?;
            Some((held.value as u64 / 256u64.pow(address - held.address) % 256) as u8)
        }
    }
}

/// The value that load `number` has, unless a byte is missing.
fn value(view: &View, number: u32, address: u32, width: u32) -> Option<u32> {
    let mut sum = 0;
    for k in 0..width {
        sum += byte(view, number, address + k)? as u64 * 256u64.pow(k);
    }
    Some(sum as u32)
}

/// Does load `number` find every byte in held stores?
fn fed(view: &View, number: u32, address: u32, width: u32) -> bool {
    let mut sources = (0..width).map(|k| source(view, number, address + k));
    sources.all(|found| matches!(found, Some(Source::Store(_))))
}

/// Use: the line's way becomes the most recent of its set.
fn use_line(view: &mut View, line: u32) {
    let Some(present) = view.present.get(&line) else {
        return;
    };
    let order = &mut view.recency[present.set];
    order.retain(|way| *way != present.way);
    order.insert(0, present.way);
}

/// A load that leaves the list uses its line, unless held stores had all its bytes when it
/// was answered. An inquiry never finds it so, which the rule does not lean on.
fn use_unless_fed(view: &mut View, load: LoadEntry) {
    if !load.forwarded {
        use_line(view, load.address / 16);
    }
}

/// The answer of a load or an inquiry about an address, by the state before the call. The
/// register alone tells the two words apart, since the line of a load that waits is absent.
fn load_answer(view: &View, number: u32, address: u32, found: Option<u32>) -> Answer {
    match found {
        Some(value) => Answer::Value { number, value },
        None if view.request == Some(address / 16) => Answer::WaitsRequested(number),
        None => Answer::Waits(number),
    }
}

fn load(mut view: View, address: u32, width: u32) -> (Answer, View) {
    let number = view.last as u32 + 1;
    let found = value(&view, number, address, width);
    let answer = load_answer(&view, number, address, found);
    let forwarded = fed(&view, number, address, width);
    view.loads.push(LoadEntry { number, address, width, answered: found.is_some(), forwarded });
    view.last += 1;
    (answer, view)
}

fn store(mut view: View, address: u32, width: u32, value: u32) -> (Answer, View) {
    let number = view.last as u32 + 1;
    view.stores.push(StoreEntry { number, address, width, value });
    view.last += 1;
    (Answer::Stored(number), view)
}

fn retry(mut view: View, number: u32) -> (Answer, View) {
    let asked = |load: &LoadEntry| load.number == number;
    let entry = *view.loads.iter().find(|l| asked(l)).expect("it waits");
    let found = value(&view, number, entry.address, entry.width);
    let answer = load_answer(&view, number, entry.address, found);
    let forwarded = fed(&view, number, entry.address, entry.width);
    if found.is_some() && number as u64 <= view.committed {
        view.loads.retain(|load| !asked(load));
        use_unless_fed(&mut view, LoadEntry { forwarded, ..entry });
    } else if found.is_some() {
        for load in view.loads.iter_mut().filter(|l| asked(l)) {
            *load = LoadEntry { answered: true, forwarded, ..*load };
        }
    }
    (answer, view)
}

fn commit(mut view: View, k: u32) -> (Answer, View) {
    view.committed = k as u64;
    let leaving = |load: &LoadEntry| load.answered && load.number <= k;
    for load in view.loads.clone().into_iter().filter(leaving) {
        use_unless_fed(&mut view, load);
    }
    view.loads.retain(|load| !leaving(load));
    view.marks.retain(|mark| mark.number > view.committed);
    (Answer::Committed(k), view)
}

fn abort(mut view: View, n: u32) -> (Answer, View) {
    view.stores.retain(|store| store.number < n);
    view.loads.retain(|load| load.number < n);
    view.marks.retain(|mark| mark.number <= n as u64);
    view.last = n as u64 - 1;
    (Answer::Kept(n - 1), view)
}

fn checkpoint(mut view: View, name: u32) -> (Answer, View) {
    let number = view.last + 1;
    view.marks.push(Mark { name, number });
    (Answer::Checkpointed(number as u32), view)
}

/// An abort at the mark's number, after which the marks set before it are left.
fn restore(mut view: View, name: u32) -> (Answer, View) {
    let mut earlier = view.marks.clone();
    while earlier.iter().any(|mark| mark.name == name) {
        earlier.pop();
    }
    let number = view.marks[earlier.len()].number;
    view.marks = earlier;
    abort(view, number as u32)
}

fn idle(mut view: View) -> (Answer, View) {
    if let Some(store) = view.ready_store() {
        let drains = match view.figures.policy {
            WritePolicy::WriteBack => view.present.contains_key(&(store.address / 16)),
            WritePolicy::WriteThrough => true,
        };
        if drains {
            return drain(view, store);
        }
    }
    if view.request.is_some() {
        return (Answer::Idle, view);
    }
    let mut wanted = view.wanted();
    wanted.retain(|line| !view.present.contains_key(line));
    match wanted.first() {
        None => (Answer::Idle, view),
        Some(&line) => {
            view.request = Some(line);
            (Answer::Requested(line * 16), view)
        }
    }
}

/// Case (a) of idle: the oldest store is written to its line, if that is present, and
/// in write-through to memory. Write-back leaves the word dirty that each byte is in.
fn drain(mut view: View, store: StoreEntry) -> (Answer, View) {
    let line = store.address / 16;
    let through = view.figures.policy == WritePolicy::WriteThrough;
    for k in 0..store.width {
        let at = store.address as usize + k as usize;
        let byte = (store.value as u64 / 256u64.pow(k) % 256) as u8;
        if let Some(present) = view.present.get_mut(&line) {
            present.bytes[at % 16] = byte;
            present.dirty[at % 16 / 4] = !through;
        }
        if through {
            view.memory[at] = byte;
        }
    }
    use_line(&mut view, line);
    view.stores.remove(0);
    (Answer::Drained(store.number), view)
}

fn reply(mut view: View) -> (Answer, View) {
    let line = view.request.take().expect("a line is requested");
    let set = line as usize % view.sets();
    let mut holders: BTreeMap<usize, u32> = BTreeMap::new();
    for (held, present) in view.present.iter().filter(|(_, p)| p.set == set) {
        holders.insert(present.way, *held);
    }
    let invalid = (0..view.ways()).find(|way| !holders.contains_key(way));
    let way = invalid.unwrap_or(view.recency[set][view.ways() - 1]);
    if let Some(old) = holders.get(&way) {
        let gone = view.present.remove(old).expect("it is held");
        written(&mut view.memory, *old, &gone);
    }
    let bytes = view.memory[line as usize * 16..][..16].to_vec();
    view.present.insert(line, Present { set, way, dirty: [false; 4], bytes });
    use_line(&mut view, line);
    (Answer::Filled(line * 16), view)
}

/// A preview: the reply is made on a copy, and what it did is read off the two views. The
/// words are those that were dirty where the requested line then is.
fn preview(view: &View) -> Preview {
    let line = view.request.expect("a line is requested");
    let (_, after) = reply(view.clone());
    let Present { set, way, .. } = after.present[&line];
    let gone = view.present.keys().find(|old| !after.present.contains_key(old));
    let there = view.present.values().find(|old| (old.set, old.way) == (set, way));
    let dirty = there.map_or([false; 4], |old| old.dirty);
    let mut ages = [0; 4];
    for (age, way) in after.recency[set].iter().enumerate() {
        ages[*way] = age as u32;
    }
    let words = (0..4).filter(|word| dirty[*word]).map(|word| 2u8.pow(word as u32)).sum();
    Preview { way: way as u32, evicted: gone.copied(), words, ages }
}

/// Memory gets the bytes of a line that are in its dirty words.
fn written(memory: &mut [u8], line: u32, present: &Present) {
    for (at, byte) in present.bytes.iter().enumerate() {
        if present.dirty[at / 4] {
            memory[line as usize * 16 + at] = *byte;
        }
    }
}

fn flush(mut view: View) -> (Answer, View) {
    let marks = view.present.values().flat_map(|present| present.dirty);
    let dirty = marks.filter(|dirty| *dirty).count();
    for (line, present) in &mut view.present {
        written(&mut view.memory, *line, present);
        present.dirty = [false; 4];
    }
    (Answer::Flushed(dirty as u32), view)
}

fn shown(view: &View, address: u32) -> Part {
    if address as usize >= view.memory.len() {
        return Part::default();
    }
    match view.present.get(&(address / 16)) {
        None => Part::default(),
        Some(p) => Part { place: (p.set * view.ways() + p.way) * 16, length: 16 },
    }
}

/// The answers agree.
fn same_answer(expected: Answer, seen: Answer) -> Result<(), String> {
    if expected == seen {
        return Ok(());
    }
    Err(format!("answer: expected {expected:?}, seen {seen:?}"))
}

/// Nothing changed.
fn unchanged(before: Snapshot, after: Snapshot) -> Result<(), String> {
    if before == after {
        return Ok(());
    }
    Err("a refused call changed the state, the cache or the memory".to_string())
}

/// What stands after agrees, field by field.
fn same_view(expected: &View, seen: &View) -> Result<(), String> {
    let (e, s) = (expected, seen);
    agree("figures", &e.figures, &s.figures)?;
    agree("last", &e.last, &s.last)?;
    agree("committed", &e.committed, &s.committed)?;
    agree("request", &e.request, &s.request)?;
    agree("stores", &e.stores, &s.stores)?;
    agree("loads", &e.loads, &s.loads)?;
    agree("marks", &e.marks, &s.marks)?;
    agree("lines present", &e.present, &s.present)?;
    agree("order of uses", &e.recency, &s.recency)?;
    let differs = (0..e.memory.len()).find(|at| e.memory.get(*at) != s.memory.get(*at));
    match differs {
        Some(at) => agree(&format!("memory at {at}"), &e.memory.get(at), &s.memory.get(at)),
        None => Ok(()),
    }
}

/// One field agrees.
fn agree<T: PartialEq + std::fmt::Debug>(what: &str, e: &T, s: &T) -> Result<(), String> {
    if e == s {
        return Ok(());
    }
    Err(format!("{what}: expected {e:?}, seen {s:?}"))
}
