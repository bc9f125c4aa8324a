//! One run under all the checks, with counts of what it met.

use std::collections::BTreeSet;

use crate::check;
use crate::counts::{self, Counts};
use crate::dropped::{self, given, Played};
use crate::fed::{last_forwarded, Fed};
use crate::flat::Flat;
use crate::forwarded::Forwarded;
use crate::plain;
use crate::preview::{self, Previews};
use crate::random::Run;
use crate::rules::{self, Source};
use crate::stretch::{self, Given, Stretch, MARK, PLAIN};
use crate::traffic::Dirty;
use crate::types::{
    Answer, Call, Checkpoint, Request, Snapshot, State, Step, StoreEntry, WritePolicy, LINE,
};

/// The checks to make.
#[derive(Clone, Copy, Debug, PartialEq, Eq)]
pub struct Checks {
    /// Each step by the plain rules, and well-formedness after it.
    pub rules: bool,
    /// Demand 2 over the run.
    pub flat: bool,
    /// The marks of forwarded loads over the run, and each commit without them.
    pub forwarded: bool,
    /// Each preview beside the reply on a copy.
    pub previews: bool,
    /// Demand 3 for every dropped stretch.
    pub dropped: bool,
}

impl Checks {
    pub const ALL: Checks = Checks::each(true);
    pub const NONE: Checks = Checks::each(false);

    const fn each(made: bool) -> Checks {
        Checks { rules: made, flat: made, forwarded: made, previews: made, dropped: made }
    }
}

/// A run that fails, where and how.
#[derive(Clone, Debug, PartialEq, Eq)]
pub struct Failure {
    pub seed: u64,
    /// The place of the call in the run, or the run's length for its end.
    pub place: usize,
    pub call: Option<Call>,
    pub what: String,
}

impl std::fmt::Display for Failure {
    fn fmt(&self, f: &mut std::fmt::Formatter) -> std::fmt::Result {
        let Failure { seed, place, call, what } = self;
        match call {
            Some(call) => write!(f, "seed {seed}, call {place} {call:?}: {what}"),
            None => write!(f, "seed {seed}, call {place}: {what}"),
        }
    }
}

/// The names under which a load that waits is counted, and an inquiry: any, one whose line
/// is requested, one beside the request of another line.
const LOAD_WAITS: [&str; 3] =
    ["load waits", "load waits, its line requested", "load waits, another line requested"];
const INQUIRY_WAITS: [&str; 3] =
    ["inquiry waits", "inquiry waits, its line requested", "inquiry waits, another line requested"];

/// A run being examined.
struct Examiner<'a> {
    run: &'a Run,
    step: Step,
    checks: Checks,
    flat: Flat,
    forwarded: Forwarded,
    previews: Previews,
    counts: Counts,
    fed: Fed,
    /// The numbers given out so far, and those given out more than once.
    used: BTreeSet<u32>,
    again: BTreeSet<u32>,
    /// The calls that evicted a line, in write-back a dirty one.
    evicting: BTreeSet<usize>,
    /// The calls before which a mark is in force at the next number.
    at_mark: BTreeSet<usize>,
    /// The commits that raised h.
    raising: BTreeSet<usize>,
    /// The loads that were forwarded.
    forwarding: BTreeSet<usize>,
}

/// Plays a run on a machine under the checks. The checks of runs after a start
/// are made of runs from a state made by hand as well.
pub fn examine(run: &Run, step: Step, checks: Checks) -> Result<Counts, Failure> {
    let first = u64::from(run.numbered);
    let mut examiner = Examiner {
        run,
        step,
        checks,
        flat: Flat::new(&run.found, first + 1, first),
        forwarded: Forwarded::default(),
        previews: Previews::default(),
        counts: Counts::one_run(run.calls.len()),
        fed: Fed::default(),
        used: BTreeSet::new(),
        again: BTreeSet::new(),
        evicting: BTreeSet::new(),
        at_mark: BTreeSet::new(),
        raising: BTreeSet::new(),
        forwarding: BTreeSet::new(),
    };
    examiner.start()?;
    let whole = examiner.steps()?;
    examiner.stretches(&whole)?;
    examiner.counts.met("run after a start", run.numbered == 0);
    examiner.counts.met("run from a well-formed state", run.numbered != 0);
    Ok(examiner.counts)
}

/// The model's own well-formedness holds; the plain one is part of the rules.
fn well_formed(now: Snapshot) -> Result<(), String> {
    match check::refusal(now.state, now.cache, now.memory) {
        Some(no) => Err(format!("the state after the call would be refused by {no}")),
        None => Ok(()),
    }
}

/// Address and width of load `number`, which a call makes or asks about.
fn access_of(before: Snapshot, call: Call, number: u32) -> Option<(u32, u32)> {
    let mut loads = before.state.loads.iter();
    match call {
        Call::Load { address, width } => Some((address, width)),
        _ => loads.find(|load| load.number == number).map(|load| (load.address, load.width)),
    }
}

/// The checks.
impl Examiner<'_> {
    fn failure(&self, place: usize, what: String) -> Failure {
        let call = self.run.calls.get(place).copied();
        Failure { seed: self.run.seed, place, call, what }
    }

    /// The start before the run.
    fn start(&mut self) -> Result<(), Failure> {
        let Run { figures, ref found, .. } = *self.run;
        let call = Call::Start { figures };
        let (zero, old_cache) = (State::zero(), self.run.found_cache());
        let before = Snapshot { state: &zero, cache: &old_cache, memory: found };
        let (mut state, mut cache, mut memory) = (zero.clone(), old_cache.clone(), found.clone());
        let answer = (self.step)(&mut state, &mut cache, &mut memory, call);
        let after = Snapshot { state: &state, cache: &cache, memory: &memory };
        if !self.checks.rules {
            return Ok(());
        }
        rules::judge(before, call, answer, after)
            .map_err(|what| self.failure(0, format!("the start before it: {what}")))
    }

    /// Each call of the run.
    fn steps(&mut self) -> Result<Played, Failure> {
        let (mut state, mut cache, mut memory) = self.run.begin(self.step);
        let mut all = Vec::with_capacity(self.run.calls.len());
        for (place, &call) in self.run.calls.iter().enumerate() {
            let old = (state.clone(), cache.clone(), memory.clone());
            let answer = (self.step)(&mut state, &mut cache, &mut memory, call);
            let before = Snapshot { state: &old.0, cache: &old.1, memory: &old.2 };
            let after = Snapshot { state: &state, cache: &cache, memory: &memory };
            self.judge(before, call, answer, after).map_err(|what| self.failure(place, what))?;
            self.count(place, before, answer, after);
            all.push(given(call, answer, &cache));
        }
        Ok(Played { given: all, state, cache, memory })
    }

    /// One call under the checks of steps and of demand 2.
    fn judge(
        &mut self,
        before: Snapshot,
        call: Call,
        answer: Answer,
        after: Snapshot,
    ) -> Result<(), String> {
        if self.checks.rules {
            rules::judge(before, call, answer, after)?;
            well_formed(after)?;
        }
        if self.checks.flat {
            self.flat.observe(before, call, answer, after)?;
        }
        if self.checks.forwarded {
            self.forwarded.observe(self.step, before, call, answer, after)?;
        }
        if self.checks.previews {
            self.previews.observe(self.step, before, call, answer, after)?;
        }
        Ok(())
    }

    /// Demand 3 for every dropped stretch.
    fn stretches(&mut self, whole: &Played) -> Result<(), Failure> {
        if !self.checks.dropped {
            return Ok(());
        }
        let first = u64::from(self.run.numbered) + 1;
        for stretch in stretch::stretches(first, &whole.given) {
            dropped::compare(self.run, self.step, whole, stretch)
                .map_err(|(place, what)| self.failure(place, what))?;
            self.count_stretch(&whole.given, stretch);
        }
        Ok(())
    }
}

/// The counts.
impl Examiner<'_> {
    /// Counts what a call met.
    fn count(&mut self, place: usize, before: Snapshot, answer: Answer, after: Snapshot) {
        let call = self.run.calls[place];
        match answer {
            Answer::Refused(no) => self.count_refusal(before, call, no),
            Answer::Value { number, .. } => self.count_value(before, call, number),
            Answer::Waits(number) => self.count_wait(before, call, number, false),
            Answer::WaitsRequested(number) => self.count_wait(before, call, number, true),
            Answer::Drained(_) => self.count_drain(before, after),
            Answer::Idle => self.counts.met("idle with nothing to do", true),
            Answer::Filled(_) => self.count_fill(place, before, after),
            Answer::Flushed(_) => self.counts.met("flush", true),
            Answer::Shown(part) => self.counts.met("line shown", part.length > 0),
            Answer::Checkpointed(_) => self.counts.met("mark set", true),
            Answer::Previewed(_) => preview::count(&mut self.counts, before),
            Answer::Kept(_) | Answer::Committed(_) => self.count_marks(place, before, after),
            _ => {}
        }
        let next = u64::from(before.state.last) + 1;
        if check::in_force(before.state).any(|mark| u64::from(mark.number) == next) {
            self.at_mark.insert(place);
        }
        self.counts.met_dirty(answer, Dirty::of(before.state), Dirty::of(after.state));
        self.count_fed(place, before, answer, after);
        let numbered = matches!(call, Call::Load { .. } | Call::Store { .. });
        if numbered && answer.accepted() && !self.used.insert(after.state.last) {
            self.again.insert(after.state.last);
        }
    }

    /// Counts what a call met of loads fed from held stores.
    fn count_fed(&mut self, place: usize, before: Snapshot, answer: Answer, after: Snapshot) {
        let call = self.run.calls[place];
        self.fed.take(&mut self.counts, before.state, call, answer, after);
        let made = matches!(call, Call::Load { .. }) && answer.accepted();
        if made && last_forwarded(after.state) {
            self.forwarding.insert(place);
        }
    }

    /// Counts a refusal.
    fn count_refusal(&mut self, before: Snapshot, call: Call, no: u32) {
        let set = matches!(call, Call::Checkpoint { .. });
        let spent = set && before.state.last == u32::MAX;
        self.counts.met(counts::refused(no), true);
        self.counts.met("preview refused by 17", call == Call::Preview && no == 17);
        self.counts.met("set refused by 21", set && no == 21);
        self.counts.met("set refused by 20 when no number is left", spent && no == 20);
    }

    /// Counts what a commit, an abort or a return met of the marks.
    fn count_marks(&mut self, place: usize, before: Snapshot, after: Snapshot) {
        let (old, left) = (before.state, check::in_force(after.state).count());
        let gone = check::in_force(old).count() > left;
        let at = |number: u32| check::in_force(after.state).any(|mark| mark.number == number);
        match self.run.calls[place] {
            Call::Commit { number } => {
                if number > old.committed {
                    self.raising.insert(place);
                }
                self.counts.met("commit that forgets marks and keeps others", gone && left > 0);
            }
            Call::Abort { number } => {
                self.counts.met("abort that forgets a mark", gone);
                self.counts.met("abort at the number of a mark", at(number));
            }
            Call::Restore { name } => self.count_return(old, name, at),
            _ => {}
        }
    }

    /// Counts what a return met, by the numbers that marks have after it.
    fn count_return(&mut self, old: &State, name: u32, kept: impl Fn(u32) -> bool) {
        let marks: Vec<Checkpoint> = check::in_force(old).copied().collect();
        let Some(place) = marks.iter().position(|mark| mark.name == name) else {
            return;
        };
        let number = marks[place].number;
        let later = marks[place + 1..].iter().any(|mark| mark.number == number);
        self.counts.met("return to a mark", true);
        self.counts.met("return that forgets a later mark at its number", later);
        self.counts.met("return that keeps an earlier mark at its number", kept(number));
        self.counts.met("return when no number is left", old.last == u32::MAX);
    }

    /// Counts what a drain met.
    fn count_drain(&mut self, before: Snapshot, after: Snapshot) {
        let line = before.state.stores[0].address / LINE as u32;
        let present = check::find(before.state, line).is_some();
        self.counts.met("drain to a present line", present);
        self.counts.met("drain to an absent line", !present);
        self.counts.met("drain to a requested line", before.state.request == Request::Line(line));
        let marks = Dirty::of(before.state) != Dirty::of(after.state);
        let changes = before.cache != after.cache;
        self.counts.met("drain that marks a word and changes no byte", marks && !changes);
    }

    /// Counts what a fill met.
    fn count_fill(&mut self, place: usize, before: Snapshot, after: Snapshot) {
        let mut records = before.state.tags.iter().zip(&after.state.tags);
        let gone = records.find(|(old, new)| old.valid && old.line != new.line);
        let dirty = gone.map(|(old, _)| old.dirty != 0);
        let previewed = place > 0 && self.run.calls[place - 1] == Call::Preview;
        self.counts.met("fill", true);
        self.counts.met("reply behind its preview", previewed);
        self.counts.met("eviction of a clean line", dirty == Some(false));
        if dirty == Some(self.run.figures.policy == WritePolicy::WriteBack) {
            self.evicting.insert(place);
        }
    }

    /// Counts what a load or an inquiry that waits met, by its word.
    fn count_wait(&mut self, before: Snapshot, call: Call, number: u32, requested: bool) {
        let retried = matches!(call, Call::Retry { .. });
        let [waits, for_line, beside] = if retried { INQUIRY_WAITS } else { LOAD_WAITS };
        let (state, sets) = (before.state, self.run.figures.sets);
        self.counts.met(waits, true);
        self.counts.met(for_line, requested);
        self.counts.met(beside, !requested && state.request != Request::Free);
        let Some((address, width)) = access_of(before, call, number) else {
            return;
        };
        let line = address / LINE as u32;
        let in_set = |other: u32| sets > 1 && other != line && other % sets == line % sets;
        let one_set = matches!(state.request, Request::Line(other) if in_set(other));
        self.counts.met("wait beside a request in its set", one_set);
        let older = |store: &&StoreEntry| store.number != 0 && store.number < number;
        let gives = |s: &StoreEntry| (0..width).any(|k| plain::covers(s, u64::from(address + k)));
        let covered = requested && state.stores.iter().filter(older).any(gives);
        self.counts.met("wait for a requested line, a byte in a store", covered);
        let for_store = requested && check::wanting(state, line).next().is_none();
        self.counts.met("wait for a line requested for a store", for_store);
    }

    /// Counts what a value met.
    fn count_value(&mut self, before: Snapshot, call: Call, number: u32) {
        let access = access_of(before, call, number);
        let retried = matches!(call, Call::Retry { .. });
        let again =
            if retried { self.again.contains(&number) } else { self.used.contains(&number) };
        let committed = number <= before.state.committed;
        self.counts.met("value", true);
        self.counts.met("value of a number used again", again);
        let requested = access.map(|(address, _)| Request::Line(address / LINE as u32));
        let of_stores = requested == Some(before.state.request);
        self.counts.met("value of stores alone, its line requested", of_stores);
        self.counts.met("inquiry answered, committed", retried && committed);
        self.counts.met("inquiry answered, uncommitted", retried && !committed);
        if before.state.stores[1].number == 0 {
            return;
        }
        if let (Some((address, width)), Ok(view)) = (access, plain::read(before)) {
            let sources: BTreeSet<_> =
                (0..width).map(|k| rules::source(&view, number, address + k)).collect();
            let mixed = sources.len() > 2 && sources.contains(&Some(Source::Line));
            self.counts.met("value of several stores and the cache", mixed);
        }
    }

    /// Counts what a dropped stretch has in it.
    fn count_stretch(&mut self, all: &[Given], stretch: Stretch) {
        let inside = &all[stretch.first..=stretch.end];
        let load =
            inside.iter().any(|one| matches!(one.call, Call::Load { .. }) && one.answer.accepted());
        let drain = inside.iter().any(|one| matches!(one.answer, Answer::Drained(_)));
        let reply = inside.iter().any(|one| matches!(one.answer, Answer::Filled(_)));
        let preview = inside.iter().any(|one| matches!(one.answer, Answer::Previewed(_)));
        let evicts = self.evicting.range(stretch.first..=stretch.end).next().is_some();
        self.counts.met(stretch.kind.name, true);
        self.counts.met(stretch.kind.with_drain, load && drain);
        self.counts.met(stretch.kind.with_reply, load && reply);
        self.counts.met(stretch.kind.with_eviction, load && evicts);
        self.counts.met(stretch.kind.with_preview, load && preview);
        let forwarded = self.forwarding.range(stretch.first..=stretch.end).next().is_some();
        self.counts.met(stretch.kind.with_forwarded, forwarded);
        if stretch.kind.name == PLAIN.name {
            let at_mark = load && self.at_mark.contains(&stretch.first);
            self.counts.met("dropped stretch at a mark, load inside", at_mark);
        }
        if stretch.kind.name == MARK.name {
            self.count_mark_stretch(inside, stretch, evicts);
        }
    }

    /// Counts what a mark stretch has in it besides.
    fn count_mark_stretch(&mut self, inside: &[Given], stretch: Stretch, evicts: bool) {
        let has = |wanted: fn(&Given) -> bool| inside.iter().any(wanted);
        let waits =
            has(|one| matches!(one.call, Call::Load { .. }) && one.answer.waits().is_some());
        let second = inside[1..].iter().any(|one| one.answer == Answer::Checkpointed(stretch.n));
        let refused_set =
            has(|one| matches!(one.call, Call::Checkpoint { .. }) && !one.answer.accepted());
        let refused_return =
            has(|one| matches!(one.call, Call::Restore { .. }) && !one.answer.accepted());
        let raises = self.raising.range(stretch.first..=stretch.end).next().is_some();
        self.counts.met("mark stretch, waiting load and eviction inside", waits && evicts);
        let both = refused_set && refused_return;
        self.counts.met("mark stretch, second mark and refusals inside", second && both);
        self.counts.met("mark stretch, older work committed inside", raises);
    }
}
