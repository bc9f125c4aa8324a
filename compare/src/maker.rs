//! Makes the calls of random runs: crowded addresses, all the calls with bad ones
//! among them, and turns that lead into rich situations. One table says how often
//! each is made where. `forwarded` has the turns of loads fed from held stores.

mod forwarded;

use crate::check;
use crate::model::{Machine, Right};
use crate::random::{Rng, Run};
use crate::types::{
    Answer, Call, LoadEntry, Request, State, WritePolicy, CHECKPOINTS, LINE, LOADS, STORES,
};

/// Where calls and turns are drawn.
#[derive(Clone, Copy, Debug, PartialEq, Eq)]
pub enum Mix {
    /// One call of any kind but those on marks.
    Single,
    /// Inside a dropped stretch.
    Inside,
    /// Inside a mark stretch.
    Marked,
    /// Short runs: many refusals, and much that is dropped.
    Short,
    /// Short runs with many marks in force: a quarter of the calls set one or return.
    Branches,
    /// Long scripts: mostly accepted calls, with much work for the cache.
    Long,
    /// Scripts that stretches are struck from: much is dropped.
    Struck,
    /// Accepted calls for the most part: accesses, commits, fills, drains, aborts.
    Accepted,
}

use Mix::{Accepted, Branches, Inside, Long, Marked, Short, Single, Struck};

/// A call or turn, and how often it is made where; elsewhere never.
struct Row {
    make: fn(&mut Maker),
    weights: &'static [(Mix, u64)],
}

const fn row(make: fn(&mut Maker), weights: &'static [(Mix, u64)]) -> Row {
    Row { make, weights }
}

impl Row {
    fn weight(&self, mix: Mix) -> u64 {
        self.weights.iter().filter(|(of, _)| *of == mix).map(|(_, weight)| weight).sum()
    }
}

/// Every call but the preview, which `random` puts among the others, then every turn of
/// several calls. The calls on marks are for short runs alone: no script has a letter for
/// them.
const ROWS: &[Row] = &[
    row(Maker::load, &[(Single, 9), (Inside, 3), (Marked, 3), (Branches, 6)]),
    row(Maker::store, &[(Single, 6), (Inside, 2), (Marked, 2), (Branches, 6)]),
    row(Maker::retry, &[(Single, 4), (Inside, 1), (Marked, 1), (Branches, 1)]),
    row(Maker::commit, &[(Single, 4), (Inside, 1), (Marked, 2), (Branches, 4)]),
    row(Maker::abort, &[(Single, 2), (Branches, 4)]),
    row(Maker::idle, &[(Single, 6)]),
    row(Maker::reply, &[(Single, 3)]),
    row(Maker::flush, &[(Single, 1), (Inside, 1), (Marked, 1), (Branches, 4)]),
    row(Maker::show, &[(Single, 5), (Inside, 1), (Marked, 1), (Branches, 1)]),
    row(Maker::checkpoint, &[(Marked, 3), (Short, 1), (Branches, 10)]),
    row(Maker::restore, &[(Marked, 2), (Short, 1), (Branches, 8)]),
    row(Maker::single, &[(Short, 14), (Branches, 6), (Long, 24), (Struck, 8), (Accepted, 20)]),
    row(
        Maker::progress,
        &[
            (Inside, 2),
            (Marked, 5),
            (Short, 3),
            (Branches, 3),
            (Long, 20),
            (Struck, 8),
            (Accepted, 20),
        ],
    ),
    row(Maker::store_and_commit, &[(Short, 2), (Long, 14), (Struck, 6), (Accepted, 20)]),
    row(
        Maker::dropped,
        &[
            (Inside, 1),
            (Marked, 2),
            (Short, 3),
            (Branches, 3),
            (Long, 8),
            (Struck, 10),
            (Accepted, 3),
        ],
    ),
    row(Maker::marked, &[(Marked, 1), (Short, 5), (Branches, 8)]),
    row(Maker::several_marks, &[(Short, 2), (Branches, 3)]),
    row(Maker::mark_at_the_end, &[(Short, 2), (Branches, 3)]),
    row(Maker::late_return, &[(Short, 2), (Branches, 2)]),
    row(Maker::settle, &[(Short, 2), (Long, 4), (Struck, 2), (Accepted, 1)]),
    row(Maker::bad_call, &[(Short, 6), (Long, 1), (Struck, 1)]),
    row(Maker::late_retry, &[(Short, 5), (Long, 8), (Struck, 6), (Accepted, 1)]),
    row(Maker::crowd_queue, &[(Short, 1), (Branches, 1), (Long, 1), (Struck, 1)]),
    row(Maker::store_between_loads, &[(Short, 8)]),
    row(Maker::loads_beside_request, &[(Short, 3)]),
    row(Maker::forwarded_load, &[(Short, 3), (Branches, 2), (Long, 3), (Struck, 2)]),
    row(Maker::forwarded_victim, &[(Short, 2), (Branches, 1), (Long, 2)]),
];

/// Dropped stretches within each other.
const DEEPEST: usize = 3;

/// Makes the calls of a run, looking at what the right machine does with them.
pub struct Maker {
    pub run: Run,
    rng: Rng,
    state: State,
    cache: Vec<u8>,
    memory: Vec<u8>,
    /// The lines that most addresses lie in.
    crowded: Vec<u32>,
    /// The numbers of the dropped stretches that the next call is inside of.
    open: Vec<u32>,
    /// The names of the mark stretches among those.
    branches: Vec<u32>,
}

/// The calls.
impl Maker {
    pub fn new(run: Run, mut rng: Rng) -> Maker {
        let (state, cache, memory) = run.begin(Right::step);
        let lines = (run.found.len() / LINE) as u64;
        let set = rng.below(lines.min(u64::from(run.figures.sets)));
        let mut crowded: Vec<u32> = (0..u64::from(run.figures.ways) + 2)
            .map(|k| (set + k * u64::from(run.figures.sets)) as u32)
            .filter(|line| u64::from(*line) < lines)
            .collect();
        crowded.push(rng.below(lines) as u32);
        let (open, branches) = (Vec::new(), Vec::new());
        Maker { run, rng, state, cache, memory, crowded, open, branches }
    }

    /// Makes turns until the run is long enough.
    pub fn make(mut self, length: usize, mix: Mix) -> Maker {
        if self.run.numbered != 0 && self.rng.one_in(2) {
            self.mark_at_the_end();
        }
        while self.run.calls.len() < length {
            self.draw(mix);
        }
        self
    }

    /// Makes one of the rows, each as often as its weight says.
    fn draw(&mut self, mix: Mix) {
        let mut at = self.rng.below(ROWS.iter().map(|row| row.weight(mix)).sum());
        for row in ROWS {
            if at < row.weight(mix) {
                return (row.make)(self);
            }
            at -= row.weight(mix);
        }
    }

    /// Adds a call and plays it.
    fn push(&mut self, call: Call) -> Answer {
        self.run.calls.push(call);
        Right::step(&mut self.state, &mut self.cache, &mut self.memory, call)
    }

    /// An address of a width, mostly in few words of the crowded lines.
    fn address(&mut self, width: u32) -> u32 {
        let lines = (self.memory.len() / LINE) as u64;
        let line = match (self.rng.below(10), self.state.request) {
            (0, _) => self.rng.below(lines) as u32,
            (1..=4, Request::Line(line)) => line,
            _ => self.crowded[self.rng.below(self.crowded.len() as u64) as usize],
        };
        let word = self.rng.pick(&[0, 0, 0, 4, 4, 8, 12]);
        let byte = self.rng.below(4) as u32 / width * width;
        line * LINE as u32 + word + byte
    }

    /// A load, and its answer.
    fn any_load(&mut self) -> Answer {
        let width = self.rng.pick(&[1, 2, 4, 4]);
        let address = self.address(width);
        self.push(Call::Load { address, width })
    }

    /// A store, now and then over the bytes of a load in the list, and now and then of
    /// the value that stands there, and its answer.
    fn any_store(&mut self) -> Answer {
        let width = self.rng.pick(&[1, 1, 2, 4]);
        let load = self.state.loads[self.rng.below(4) as usize];
        let address = if load.number != 0 && self.rng.one_in(4) {
            load.address / width * width
        } else {
            self.address(width)
        };
        // The high bits choose, the low ones are another value.
        let any = self.rng.word();
        let stands = Right::gather(&self.state, &self.cache, u32::MAX, address, width);
        let value = match stands {
            Ok(loaded) if any >> 61 == 0 => loaded.value,
            _ => (any as u32) >> (32 - 8 * width),
        };
        self.push(Call::Store { address, width, value })
    }

    /// An inquiry, mostly about a load that waits.
    fn retry(&mut self) {
        let waits = |load: &&LoadEntry| load.number != 0 && !load.answered;
        let waiting: Vec<u32> = self.state.loads.iter().filter(waits).map(|l| l.number).collect();
        if waiting.is_empty() && !self.rng.one_in(4) {
            return self.load();
        }
        let number = if waiting.is_empty() || self.rng.one_in(8) {
            self.some_number()
        } else {
            self.rng.pick(&waiting)
        };
        self.push(Call::Retry { number });
    }

    /// A number about the ones in use.
    fn some_number(&mut self) -> u32 {
        let low = u64::from(self.state.committed).saturating_sub(2);
        let high = u64::from(self.state.last) + 3;
        let number = low + self.rng.below(high - low);
        number.min(u64::from(u32::MAX)) as u32
    }

    /// A commit; inside a dropped stretch one that leaves it to be aborted.
    fn commit(&mut self) {
        match self.open.last() {
            Some(n) => self.commit_below(*n),
            None => self.commit_outside(),
        }
    }

    /// A commit, mostly of what may be committed and not of all of it.
    fn commit_outside(&mut self) {
        let (low, high) = (self.state.committed, self.state.last);
        let room = u64::from(high - low) + 1;
        let number = match self.rng.below(8) {
            0 => self.some_number(),
            1 | 2 => high,
            _ => low + self.rng.below(room) as u32,
        };
        self.push(Call::Commit { number });
    }

    /// A commit that leaves n to be aborted.
    fn commit_below(&mut self, n: u32) {
        let low = self.state.committed;
        if low < n {
            let number = low + self.rng.below(u64::from(n - low)) as u32;
            self.push(Call::Commit { number });
        }
    }

    fn abort(&mut self) {
        let next = u64::from(self.state.last) + 1;
        let room = next - u64::from(self.state.committed);
        let number = match self.rng.below(6) {
            0 => u64::from(self.some_number()),
            1 => next,
            _ => next - self.rng.below(room.min(6)),
        };
        let number = number.min(u64::from(u32::MAX)) as u32;
        self.push(Call::Abort { number });
    }

    fn show(&mut self) {
        let address = match self.rng.below(8) {
            0 => self.memory.len() as u32 + self.rng.below(20) as u32,
            1 => self.rng.word() as u32,
            _ => self.address(1),
        };
        self.push(Call::ShowLine { address });
    }

    /// A name that no mark in force has.
    fn free_name(&mut self) -> Option<u32> {
        let names = 1..=CHECKPOINTS as u32;
        let in_use = |name: &u32| check::checkpoint_of(&self.state, *name).is_some();
        let free: Vec<u32> = names.filter(|name| !in_use(name)).collect();
        (!free.is_empty()).then(|| self.rng.pick(&free))
    }

    /// Any name of a mark, or none at all.
    fn any_name(&mut self) -> u32 {
        let name = 1 + self.rng.below(CHECKPOINTS as u64) as u32;
        self.rng.pick(&[name, name, name, 0, 9, u32::MAX])
    }

    /// The marks in force, inside a mark stretch those set in it.
    fn names_inside(&self) -> Vec<u32> {
        let names = check::in_force(&self.state).map(|mark| mark.name);
        let names: Vec<u32> = names.collect();
        let branch = names.iter().position(|name| Some(name) == self.branches.last());
        names[branch.map_or(0, |place| place + 1)..].to_vec()
    }

    /// Sets a mark, mostly of a free name.
    fn checkpoint(&mut self) {
        let name = match self.free_name() {
            Some(name) if !self.rng.one_in(4) => name,
            _ => self.any_name(),
        };
        self.push(Call::Checkpoint { name });
    }

    /// Returns to a mark, inside a mark stretch mostly to one set in it.
    fn restore(&mut self) {
        let names = self.names_inside();
        let name = match self.rng.below(8) {
            0 => self.any_name(),
            1..=5 if !names.is_empty() => self.rng.pick(&names),
            _ => self.free_name().unwrap_or(0),
        };
        self.push(Call::Restore { name });
    }

    fn load(&mut self) {
        self.any_load();
    }

    fn store(&mut self) {
        self.any_store();
    }

    fn idle(&mut self) {
        self.push(Call::Idle);
    }

    fn reply(&mut self) {
        self.push(Call::Reply);
    }

    fn flush(&mut self) {
        self.push(Call::Flush);
    }
}

/// The turns.
impl Maker {
    /// One call of any kind.
    fn single(&mut self) {
        self.draw(Mix::Single);
    }

    /// A few calls that carry the committed work on.
    fn progress(&mut self) {
        for _ in 0..2 + self.rng.below(7) {
            let filled = self.state.request != Request::Free && !self.rng.one_in(6);
            let answer = self.push(if filled { Call::Reply } else { Call::Idle });
            if self.rng.one_in(3) || answer == Answer::Idle {
                self.retry();
            }
            if answer == Answer::Idle && !self.rng.one_in(4) {
                break;
            }
        }
    }

    /// Commits all, carries it on as far as it goes and flushes.
    fn settle(&mut self) {
        let number = self.state.last;
        self.push(Call::Commit { number });
        for _ in 0..60 {
            let waiting = self.state.loads[0].number;
            let filled = self.state.request != Request::Free;
            let call = if filled { Call::Reply } else { Call::Idle };
            if self.push(call) != Answer::Idle {
                continue;
            }
            if waiting == 0 {
                break;
            }
            self.push(Call::Retry { number: waiting });
        }
        if self.rng.one_in(3) {
            self.store();
        }
        self.push(Call::Flush);
    }

    /// Some stores and loads, committed, so that fills and drains are due.
    fn store_and_commit(&mut self) {
        for _ in 0..1 + self.rng.below(3) {
            self.store();
            if self.rng.one_in(3) {
                self.load();
            }
        }
        let number = self.state.last;
        self.push(Call::Commit { number });
    }

    /// A dropped stretch, often with fills due inside it and others within it.
    fn dropped(&mut self) {
        if self.open.len() == DEEPEST {
            return self.show();
        }
        if self.rng.one_in(2) {
            self.store_and_commit();
        }
        let Some(n) = self.state.last.checked_add(1) else {
            return self.single();
        };
        self.open.push(n);
        for _ in 0..1 + self.rng.below(5) {
            self.draw(Mix::Inside);
        }
        self.open.pop();
        self.push(Call::Abort { number: n });
    }

    /// A mark stretch, often with older work inside that is committed, or carried on.
    fn marked(&mut self) {
        let name = self.free_name().filter(|_| self.open.len() < DEEPEST);
        let Some(name) = name else {
            return self.restore();
        };
        if self.open.is_empty() && self.rng.one_in(2) {
            self.store_and_commit();
        }
        for _ in 0..self.rng.below(3) {
            self.any_store();
        }
        let Answer::Checkpointed(n) = self.push(Call::Checkpoint { name }) else {
            return self.single();
        };
        self.open.push(n);
        self.branches.push(name);
        if self.rng.one_in(4) {
            self.second_mark(name);
        }
        for _ in 0..2 + self.rng.below(5) {
            self.draw(Mix::Marked);
        }
        self.branches.pop();
        self.open.pop();
        self.push(Call::Restore { name });
    }

    /// A second mark at the number of the first, and a set and a return that are refused.
    fn second_mark(&mut self, first: u32) {
        self.checkpoint();
        self.push(Call::Checkpoint { name: first });
        let name = self.free_name().unwrap_or(0);
        self.push(Call::Restore { name });
    }

    /// Marks at several numbers, and a commit or an abort among them.
    fn several_marks(&mut self) {
        let low = self.state.last;
        for _ in 0..2 + self.rng.below(3) {
            self.checkpoint();
            self.any_store();
        }
        let room = u64::from(self.state.last - low) + 1;
        let number = low + self.rng.below(room) as u32;
        let commits = self.rng.one_in(2);
        self.push(if commits { Call::Commit { number } } else { Call::Abort { number } });
    }

    /// Where few numbers are left, a mark, all of them, sets that are refused, by 20 too,
    /// and the return to the mark.
    fn mark_at_the_end(&mut self) {
        let name = self.free_name().filter(|_| self.state.last > u32::MAX - STORES as u32);
        let Some(name) = name else {
            return self.single();
        };
        if !self.push(Call::Checkpoint { name }).accepted() {
            return;
        }
        while self.any_store().accepted() {}
        while self.any_load().accepted() {}
        self.push(Call::Checkpoint { name });
        self.checkpoint();
        self.push(Call::Restore { name });
    }

    /// An uncommitted load that waits while its line and another are filled is answered
    /// late and mostly aborted.
    fn late_retry(&mut self) {
        let first = self.two_fills_due();
        let answer = self.load_beside_fills(first);
        if let Some(number) = answer.waits() {
            self.push(Call::Retry { number });
            if !self.rng.one_in(4) {
                self.push(Call::Abort { number });
            }
        }
    }

    /// Such a load behind a mark that is returned to.
    fn late_return(&mut self) {
        let Some(name) = self.free_name() else {
            return self.restore();
        };
        let first = self.two_fills_due();
        self.push(Call::Checkpoint { name });
        self.load_beside_fills(first);
        self.push(Call::Restore { name });
    }

    /// Two lines to be filled, for stores or in write-through for loads, all committed;
    /// an address in the first.
    fn two_fills_due(&mut self) -> u32 {
        let (first, second) = (self.address(1), self.address(1));
        for address in [first, second] {
            let (width, value) = (1, self.rng.below(256) as u32);
            self.push(match self.run.figures.policy {
                WritePolicy::WriteBack => Call::Store { address, width, value },
                WritePolicy::WriteThrough => Call::Load { address, width },
            });
        }
        let last = self.state.last;
        self.push(Call::Commit { number: last });
        first
    }

    /// A load of that line, now and then with a younger store there, its answer, and calls
    /// that carry the fills on.
    fn load_beside_fills(&mut self, first: u32) -> Answer {
        let (address, width) = (first ^ 8, 1);
        let answer = self.push(Call::Load { address, width });
        if self.rng.one_in(3) {
            self.feed(address, width);
        }
        for _ in 0..8 {
            let filled = self.state.request != Request::Free;
            self.push(if filled { Call::Reply } else { Call::Idle });
        }
        answer
    }

    /// A store between two loads, the later one of its line, all committed: once that
    /// line is requested for the later load, the first one is answered, and the store
    /// can drain.
    fn store_between_loads(&mut self) {
        let (first, second) = (self.address(1), self.address(1));
        let (width, value) = (1, self.rng.below(256) as u32);
        let answer = self.push(Call::Load { address: first, width });
        self.push(Call::Store { address: second, width, value });
        self.push(Call::Load { address: second ^ 8, width });
        let last = self.state.last;
        for call in [Call::Commit { number: last }, Call::Idle, Call::Reply, Call::Idle] {
            self.push(call);
        }
        if let Some(number) = answer.waits() {
            self.push(Call::Retry { number });
        }
        for call in [Call::Idle, Call::Reply, Call::Idle] {
            self.push(call);
        }
    }

    /// While a line is requested, loads of it and of lines whose numbers differ from its
    /// own in one bit, inquiries among them, and mostly the abort that drops these loads.
    fn loads_beside_request(&mut self) {
        if self.state.request == Request::Free {
            self.load();
            let number = self.state.last;
            self.push(Call::Commit { number });
            self.idle();
        }
        let next = self.state.last.checked_add(1);
        let (Request::Line(line), Some(number)) = (self.state.request, next) else {
            return self.single();
        };
        for _ in 0..2 + self.rng.below(3) {
            let address = self.near_address(line);
            self.push(Call::Load { address, width: 1 });
            self.retry();
        }
        if !self.rng.one_in(4) {
            self.push(Call::Abort { number });
        }
    }

    /// An address in a line whose number differs from that of another in one of its four
    /// highest bits, or now and then in that line.
    fn near_address(&mut self, line: u32) -> u32 {
        let lines = (self.memory.len() / LINE) as u32;
        let near = line ^ lines.next_power_of_two() >> (1 + self.rng.below(4));
        let line = if near < lines && !self.rng.one_in(4) { near } else { line };
        line * LINE as u32 + self.rng.below(LINE as u64) as u32
    }

    /// Fills one of the queues until it refuses.
    fn crowd_queue(&mut self) {
        let stores = self.rng.one_in(2);
        for _ in 0..17 {
            let answer = if stores { self.any_store() } else { self.any_load() };
            if !answer.accepted() {
                break;
            }
        }
    }

    /// A load or store with a bad width, address or value, or several.
    fn bad_call(&mut self) {
        let mut width = self.rng.pick(&[1, 2, 4]);
        let mut address = self.address(width);
        let mut value = self.rng.below(1 << (8 * width)) as u32;
        let length = self.memory.len() as u32;
        let bad = 1 + self.rng.below(15);
        if bad & 1 != 0 {
            value = self.rng.pick(&[256, 65536, u32::MAX, value]);
        }
        if bad & 2 != 0 {
            let over = u32::MAX - self.rng.below(8) as u32;
            address = self.rng.pick(&[length, length - 1, length + 4, over, 0xFFFF_FFFC]);
        }
        if bad & 4 != 0 {
            address = address.saturating_add(self.rng.below(4) as u32);
        }
        if bad == 8 {
            width = self.rng.pick(&[0, 3, 5, 8, 16, 256, u32::MAX]);
        }
        let call = if self.rng.one_in(2) {
            Call::Load { address, width }
        } else {
            Call::Store { address, width, value }
        };
        self.push(call);
    }
}

/// The end of a run that tells the state.
impl Maker {
    /// The lists and the register, the work left over, presence and ages of the
    /// lines, and their bytes.
    pub fn tell(&mut self) {
        let last = self.state.last;
        for number in last.saturating_sub(30)..=last + 1 {
            self.push(Call::Retry { number });
        }
        self.push(Call::Reply);
        self.settle();
        let number = self.state.committed + 1;
        self.push(Call::Abort { number });
        let lines = (self.memory.len() / LINE).min(24) as u32;
        self.look(lines);
        for line in (0..lines).chain((0..lines).rev()) {
            self.bring(line);
        }
        self.push(Call::Flush);
    }

    /// Loads a word of each line and drops the loads again.
    fn look(&mut self, lines: u32) {
        let number = self.state.last + 1;
        for line in 0..lines {
            let full = line % LOADS as u32 == 0;
            if full {
                self.push(Call::Abort { number });
            }
            self.push(Call::Load { address: line * LINE as u32, width: 4 });
        }
        self.push(Call::Abort { number });
    }

    /// Loads a line whole, brought in if it is absent.
    fn bring(&mut self, line: u32) {
        let address = line * LINE as u32;
        if let Some(number) = self.push(Call::Load { address, width: 4 }).waits() {
            for call in [Call::Commit { number }, Call::Idle, Call::Reply, Call::Retry { number }] {
                self.push(call);
            }
        }
        for word in [4, 8, 12] {
            self.push(Call::Load { address: address + word, width: 4 });
        }
        let number = self.state.last;
        self.push(Call::Commit { number });
    }
}
