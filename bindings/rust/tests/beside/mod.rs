//! The library beside the Rust model: benches, states as images, and calls
//! played on both and compared.
#![allow(dead_code)]

pub mod layout;
pub mod refused;

use compare::check;
use compare::counts::{Counts, Needed};
use compare::model::{Machine, Right};
use compare::random::{self, Rng, Run};
use compare::types::{
    Answer, Call, Checkpoint, Figures, LoadEntry, Part, Preview, Request, Setup, State, StoreEntry,
    Tag, WritePolicy,
};
use layout::{
    CHECKPOINTS_AT, COMMITTED, ENTRY, FORWARDED, LAST, LOADS_AT, PROFILE, REQUESTED,
    REQUESTED_LINE, TAG, TAGS_AT, UNUSED, WAITING,
};
use nicoisetarn::{Image, Refusal, CHECKPOINTS, LINE, LOADS, RECORDS, STORES};

/// The write policies, by the numbers of their profiles.
pub const POLICIES: [WritePolicy; 2] = [WritePolicy::WriteBack, WritePolicy::WriteThrough];

/// Setups, each in every write profile.
pub fn in_each_profile(setups: &[Setup]) -> impl Iterator<Item = Setup> + '_ {
    let in_profiles = |setup: Setup| {
        POLICIES.map(|policy| Setup { figures: setup.figures.with_policy(policy), ..setup })
    };
    setups.iter().copied().flat_map(in_profiles)
}

/// An image with what is lent to it.
#[derive(Clone, Debug, PartialEq, Eq)]
pub struct Bench {
    pub image: Image,
    pub cache: Vec<u8>,
    pub memory: Vec<u8>,
}

/// How many times the usual number of calls is to be made: NICOISETARN_TIMES.
pub fn times() -> u64 {
    let named = std::env::var("NICOISETARN_TIMES").ok();
    named.and_then(|value| value.parse().ok()).unwrap_or(1).max(1)
}

/// Prints what was met, and fails where it is too little out of the calls.
pub fn judge(what: &str, counts: &Counts, needed: &Needed) {
    println!("{what}: {} calls\n{}", counts.calls, counts.rows(needed));
    let lacking = counts.lacking_of(needed, counts.calls);
    assert!(lacking.is_empty(), "{what}: too little met: {}", lacking.join(", "));
}

/// The 32 bits that stand so far into the bytes of an image.
fn word(bytes: &[u8], at: usize) -> u32 {
    u32::from_ne_bytes([bytes[at], bytes[at + 1], bytes[at + 2], bytes[at + 3]])
}

/// The number of two bytes that stands so far into some bytes.
fn half(bytes: &[u8], at: usize) -> u16 {
    u16::from_ne_bytes([bytes[at], bytes[at + 1]])
}

/// The image with another number that stands so far into its bytes.
pub fn with_word(image: &Image, at: usize, word: u32) -> Image {
    let mut bytes = image.to_bytes();
    bytes[at..at + 4].copy_from_slice(&word.to_ne_bytes());
    Image::from_bytes(bytes)
}

/// The image with another byte that stands so far into its bytes.
pub fn with_byte(image: &Image, at: usize, byte: u8) -> Image {
    let mut bytes = image.to_bytes();
    bytes[at] = byte;
    Image::from_bytes(bytes)
}

/// There is such a profile, every flag is 0 or 1, a free register has no line, unused
/// bytes are 0. The dirty marks may be any byte, and the checkpoints any numbers: some make
/// an ill-formed state.
pub fn stands(image: &Image) -> bool {
    let bytes = image.to_bytes();
    let profile = (word(&bytes, PROFILE) as usize) < POLICIES.len();
    let register = match word(&bytes, REQUESTED) {
        0 => word(&bytes, REQUESTED_LINE) == 0,
        flag => flag == 1,
    };
    let mut loads = bytes[LOADS_AT..CHECKPOINTS_AT].chunks_exact(ENTRY);
    let mut tags = bytes[TAGS_AT..].chunks_exact(TAG);
    profile
        && register
        && loads.all(|load| half(load, WAITING) <= 1 && half(load, FORWARDED) <= 1)
        && tags.all(|tag| tag[0] <= 1 && tag[UNUSED] == 0)
}

/// The checkpoints of an image in force, as its accessor tells them.
pub fn in_force(image: &Image) -> impl Iterator<Item = nicoisetarn::Checkpoint> + '_ {
    image.checkpoints().iter().copied().filter(|mark| mark.name != 0)
}

/// The tag records of an image by their numbers, as its accessor tells them.
pub fn tags(image: &Image) -> impl Iterator<Item = (usize, nicoisetarn::Tag)> + '_ {
    (0..RECORDS).filter_map(|record| image.tag(record).map(|tag| (record, tag)))
}

/// Figures of the model as those of the library.
pub fn library_figures(figures: Figures) -> nicoisetarn::Figures {
    let policy = match figures.policy {
        WritePolicy::WriteBack => nicoisetarn::WritePolicy::WriteBack,
        WritePolicy::WriteThrough => nicoisetarn::WritePolicy::WriteThrough,
    };
    nicoisetarn::Figures::new(figures.sets, figures.ways).with_policy(policy)
}

/// The figures of an image as those of the model.
pub fn figures_of(image: &Image) -> Figures {
    let figures = image.figures();
    let policy = match figures.policy {
        nicoisetarn::WritePolicy::WriteBack => WritePolicy::WriteBack,
        nicoisetarn::WritePolicy::WriteThrough => WritePolicy::WriteThrough,
    };
    Figures::new(figures.sets, figures.ways).with_policy(policy)
}

/// The state that an image stands for, as its accessors tell it.
pub fn state_of(image: &Image) -> Option<State> {
    if !stands(image) {
        return None;
    }
    let mut state = State::zero();
    state.figures = figures_of(image);
    state.memory_length = image.memory_length();
    (state.last, state.committed) = (image.last(), image.committed());
    state.request = image.requested().map_or(Request::Free, Request::Line);
    state.stores = image.stores().map(|store| StoreEntry {
        number: store.number,
        address: store.address,
        width: store.width,
        value: store.value,
    });
    // The model has "answered" where the image has "waiting"; a free place has neither.
    state.loads = image.loads().map(|load| LoadEntry {
        number: load.number,
        address: load.address,
        width: load.width,
        answered: load.waiting == (load.number == 0),
        forwarded: load.forwarded,
    });
    state.checkpoints = image.checkpoints().map(|mark| Checkpoint {
        name: mark.name,
        number: mark.number,
        rank: mark.rank,
    });
    for (into, (_, tag)) in state.tags.iter_mut().zip(tags(image)) {
        *into = Tag { valid: tag.valid, dirty: tag.dirty, line: tag.line, age: tag.age };
    }
    Some(state)
}

/// The image of a state whose records keep the widths of an image.
pub fn image_of(state: &State) -> Image {
    let (requested, line) = match state.request {
        Request::Free => (0, 0),
        Request::Line(line) => (1, line),
    };
    let Figures { sets, ways, policy } = state.figures;
    let figures = [sets, ways, policy as u32];
    let numbers = [state.memory_length, state.last, state.committed, requested, line];
    let stores = state.stores.iter().flat_map(|s| [s.number, s.address, s.width, s.value]);
    let loads = state.loads.iter().flat_map(|load| {
        let waiting = load.answered == (load.number == 0);
        let flags = u32::from(waiting) | u32::from(load.forwarded) << 16;
        [load.number, load.address, load.width, flags]
    });
    let checkpoints = state.checkpoints.iter().flat_map(|mark| [mark.name, mark.number, mark.rank]);
    let queues = stores.chain(loads).chain(checkpoints);
    let words = figures.into_iter().chain(numbers).chain(queues);
    let mut bytes = [0; Image::SIZE];
    for (into, word) in bytes[..TAGS_AT].chunks_exact_mut(4).zip(words) {
        into.copy_from_slice(&word.to_ne_bytes());
    }
    for (into, tag) in bytes[TAGS_AT..].chunks_exact_mut(TAG).zip(&state.tags) {
        let line = u16::try_from(tag.line).unwrap().to_ne_bytes();
        let age = u8::try_from(tag.age).unwrap();
        into.copy_from_slice(&[tag.valid.into(), tag.dirty, line[0], line[1], age, 0]);
    }
    Image::from_bytes(bytes)
}

/// A call of the model as one of the library; a start has none.
pub fn call_of(call: Call) -> Option<nicoisetarn::Call> {
    use nicoisetarn::Call as Ours;
    Some(match call {
        Call::Start { .. } => return None,
        Call::Load { address, width } => Ours::Load(address, width),
        Call::Store { address, width, value } => Ours::Store(address, width, value),
        Call::Retry { number } => Ours::Retry(number),
        Call::Commit { number } => Ours::Commit(number),
        Call::Abort { number } => Ours::Abort(number),
        Call::Idle => Ours::Idle,
        Call::Reply => Ours::Reply,
        Call::Flush => Ours::Flush,
        Call::ShowLine { address } => Ours::ShowLine(address),
        Call::Checkpoint { name } => Ours::Checkpoint(name),
        Call::Restore { name } => Ours::Restore(name),
        Call::Preview => Ours::Preview,
    })
}

/// What the library told as an answer of the model.
pub fn answer_of(told: Result<nicoisetarn::Answer, Refusal>) -> Answer {
    use nicoisetarn::Answer as Ours;
    let accepted = match told {
        Ok(answer) => answer,
        Err(refusal) => return Answer::Refused(refusal.number()),
    };
    match accepted {
        Ours::Stored(number) => Answer::Stored(number),
        Ours::Value { number, value } => Answer::Value { number, value },
        Ours::Waits(number) => Answer::Waits(number),
        Ours::WaitsRequested(number) => Answer::WaitsRequested(number),
        Ours::Committed(number) => Answer::Committed(number),
        Ours::Kept(number) => Answer::Kept(number),
        Ours::Drained(number) => Answer::Drained(number),
        Ours::Requested(address) => Answer::Requested(address),
        Ours::Idle => Answer::Idle,
        Ours::Filled(address) => Answer::Filled(address),
        Ours::Flushed(words) => Answer::Flushed(words),
        Ours::Shown { place, length } => {
            Answer::Shown(Part { place: place as usize, length: length as usize })
        }
        Ours::Ready => Answer::Ready,
        Ours::Checkpointed(number) => Answer::Checkpointed(number),
        Ours::Previewed(preview) => Answer::Previewed(preview_of(preview)),
    }
}

/// What the library previewed as a preview of the model.
pub fn preview_of(preview: nicoisetarn::Preview) -> Preview {
    let nicoisetarn::Preview { way, evicted, words, ages } = preview;
    Preview { way, evicted, words, ages }
}

/// One call of the library.
fn library_call(image: &mut Image, cache: &mut [u8], memory: &mut [u8], call: Call) -> Answer {
    answer_of(match (call, call_of(call)) {
        (_, Some(call)) => image.call(cache, memory, call),
        (Call::Start { figures }, None) => image.restart(library_figures(figures), cache, memory),
        (_, None) => panic!("{call:?} has no number"),
    })
}

/// The library as a machine of `compare`, on states that keep the widths of an image.
pub fn library_step(state: &mut State, cache: &mut [u8], memory: &mut [u8], call: Call) -> Answer {
    let mut image = image_of(state);
    let answer = library_call(&mut image, cache, memory, call);
    *state = state_of(&image).unwrap();
    answer
}

impl Bench {
    /// One call of the library.
    pub fn call(&mut self, call: Call) -> Answer {
        library_call(&mut self.image, &mut self.cache, &mut self.memory, call)
    }

    /// A list of calls, without the starts among them, by the crate's batch.
    pub fn run(&mut self, calls: &[Call]) -> Vec<Answer> {
        let Bench { image, cache, memory } = self;
        let calls: Vec<nicoisetarn::Call> = calls.iter().copied().filter_map(call_of).collect();
        image.run(cache, memory, &calls).into_iter().map(answer_of).collect()
    }

    /// A start over a memory that is found with byte a + 1 at a.
    pub fn start(setup: Setup) -> Bench {
        let figures = library_figures(setup.figures);
        let memory: Vec<u8> = (1..=setup.memory).map(|byte| byte as u8).collect();
        let mut cache = vec![0; figures.cache_length()];
        let image = Image::start(figures, &mut cache, &memory).unwrap();
        Bench { image, cache, memory }
    }

    /// What a run begins with: a start on the library, which is the model's.
    pub fn begin(run: &Run) -> Bench {
        let (mut cache, memory) = (run.found_cache(), run.found.clone());
        let figures = library_figures(run.figures);
        let mut image = Image::start(figures, &mut cache, &memory).unwrap();
        if run.numbered != 0 {
            for at in [LAST, COMMITTED] {
                image = with_word(&image, at, run.numbered);
            }
        }
        let begun = Bench { image, cache, memory };
        let (state, cache, memory) = run.begin(Right::step);
        let expected = Bench { image: image_of(&state), cache, memory };
        assert!(begun == expected, "seed {}: not the model's start", run.seed);
        begun
    }

    /// What the run of a seed has led to somewhere on its way, on the model.
    pub fn on_the_way(seed: u64, rng: &mut Rng) -> Bench {
        let run = random::run(seed);
        let (mut state, mut cache, mut memory) = run.begin(Right::step);
        let played = rng.below(run.calls.len() as u64 + 1) as usize;
        for &call in &run.calls[..played] {
            Right::step(&mut state, &mut cache, &mut memory, call);
        }
        Bench { image: image_of(&state), cache, memory }
    }

    /// What it leads to after each of its calls.
    pub fn along_the_way(seed: u64) -> impl Iterator<Item = Bench> {
        let run = random::run(seed);
        let (mut state, mut cache, mut memory) = run.begin(Right::step);
        run.calls.into_iter().map(move |call| {
            Right::step(&mut state, &mut cache, &mut memory, call);
            Bench { image: image_of(&state), cache: cache.clone(), memory: memory.clone() }
        })
    }
}

/// A bench of the library, and the same in the model: no state where the image
/// stands for none.
#[derive(Clone, Debug)]
pub struct Beside {
    pub library: Bench,
    state: Option<State>,
    cache: Vec<u8>,
    memory: Vec<u8>,
}

impl Beside {
    pub fn new(bench: &Bench) -> Beside {
        Beside {
            library: bench.clone(),
            state: state_of(&bench.image),
            cache: bench.cache.clone(),
            memory: bench.memory.clone(),
        }
    }

    /// Back to a bench with the same lengths.
    pub fn reset(&mut self, bench: &Bench) {
        self.library.clone_from(bench);
        self.state = state_of(&bench.image);
        self.cache.copy_from_slice(&bench.cache);
        self.memory.copy_from_slice(&bench.memory);
    }

    /// The model's call.
    fn model(&mut self, call: Call) -> Answer {
        let Beside { library, state, cache, memory } = self;
        match (call, state) {
            (Call::Start { figures }, state) => {
                let (started, answer) = Right::start(figures, cache, memory);
                if answer.accepted() {
                    *state = Some(started);
                }
                answer
            }
            (_, Some(state)) => Right::step(state, cache, memory, call),
            (Call::ShowLine { .. }, None) => Answer::Shown(Part::default()),
            (_, None) => Answer::Refused(if figures_agree(library) { 10 } else { 1 }),
        }
    }

    /// Plays a call on both and compares answer, image, cache and memory.
    pub fn play(&mut self, call: Call) -> Result<Answer, String> {
        let before = self.library.image.clone();
        let expected = self.model(call);
        let seen = self.library.call(call);
        if seen != expected {
            return Err(format!("{call:?}: expected {expected:?}, seen {seen:?}"));
        }
        let image = match &self.state {
            Some(state) if expected.accepted() => image_of(state),
            _ => before,
        };
        let Bench { image: left, cache, memory } = &self.library;
        if *left != image || *cache != self.cache || *memory != self.memory {
            return Err(format!("{call:?}: {seen:?}, but image, cache or memory differs"));
        }
        if let Call::ShowLine { address } = call {
            self.compare_shown(address)?;
        }
        Ok(seen)
    }

    /// The bytes of show line and their place, on both.
    fn compare_shown(&self, address: u32) -> Result<(), String> {
        let shown = match &self.state {
            Some(state) => Right::shown_bytes(state, &self.cache, &self.memory, address),
            None => &[],
        };
        let Bench { image, cache, memory } = &self.library;
        let base = cache.as_ptr() as usize;
        let part = image.show_line(cache, memory, address);
        let place = part.bytes.as_ptr() as usize - base;
        if part.bytes != shown || place != part.place {
            return Err(format!("show line {address}: expected {shown:?}, seen {part:?}"));
        }
        Ok(())
    }
}

/// Plays calls on both, one by one, and then in one list, which leaves the same.
pub fn played(bench: &Bench, calls: &[Call]) -> (Vec<Answer>, Bench) {
    let mut beside = Beside::new(bench);
    let answers: Vec<Answer> = calls.iter().map(|call| beside.play(*call).unwrap()).collect();
    let mut listed = bench.clone();
    assert_eq!(listed.run(calls), answers);
    assert!(listed == beside.library, "one list: not as one by one");
    (answers, listed)
}

/// The figures of an image are allowed and the lent lengths agree with them.
pub fn figures_agree(bench: &Bench) -> bool {
    let mut state = State::zero();
    state.figures = figures_of(&bench.image);
    state.memory_length = bench.image.memory_length();
    check::figures_agree(&state, &bench.cache, &bench.memory)
}

/// An access to the first lines of a memory.
fn access(memory: u32, rng: &mut Rng) -> Call {
    let (address, width) =
        (rng.below(u64::from(memory.min(256))) as u32 & !3, rng.pick(&[1, 2, 4]));
    match rng.one_in(2) {
        true => Call::Load { address, width },
        false => Call::Store { address, width, value: rng.below(256) as u32 },
    }
}

/// A run with marks put between its calls: some that its commits and aborts forget, and
/// stretches from a mark to the return to it. A stretch has accesses of its own and the
/// run's background work inside, and leaves the numbers that the run goes on with.
pub fn with_marks(run: Run, rng: &mut Rng) -> Run {
    let stretch = CHECKPOINTS as u32;
    let (memory, mut calls, mut inside) = (run.found.len() as u32, Vec::new(), false);
    for &call in &run.calls {
        let numbers = matches!(
            call,
            Call::Load { .. } | Call::Store { .. } | Call::Commit { .. } | Call::Abort { .. }
        );
        if inside && numbers {
            calls.push(Call::Restore { name: stretch });
            inside = false;
        }
        calls.push(call);
        if !inside && rng.one_in(16) {
            calls.push(Call::Checkpoint { name: stretch });
            calls.extend((0..1 + rng.below(3)).map(|_| access(memory, rng)));
            inside = true;
        }
        if rng.one_in(16) {
            calls.push(Call::Checkpoint { name: 1 + rng.below(u64::from(stretch) - 1) as u32 });
        }
    }
    Run { calls, ..run }
}

/// A run with previews put between its calls: before replies often, elsewhere now and then.
pub fn previews_between(run: Run, rng: &mut Rng) -> Run {
    let mut calls = Vec::new();
    for &call in &run.calls {
        if rng.one_in(if call == Call::Reply { 2 } else { 16 }) {
            calls.push(Call::Preview);
        }
        calls.push(call);
    }
    Run { calls, ..run }
}

/// A number that is likely to matter somewhere.
pub fn odd_number(rng: &mut Rng) -> u32 {
    let any = rng.word() as u32;
    rng.pick(&[0, 1, 2, 3, 4, 5, 7, 8, 15, 16, 17, 255, 256, 65536, u32::MAX - 1, u32::MAX, any])
}

/// An operation number about those of an image.
fn near_number(image: &Image, rng: &mut Rng) -> u32 {
    let (last, h) = (image.last(), image.committed());
    let store = image.stores()[rng.below(STORES as u64) as usize].number;
    let load = image.loads()[rng.below(LOADS as u64) as usize].number;
    let next = last.wrapping_add(1);
    let mark = image.checkpoints()[rng.below(4) as usize].number;
    rng.pick(&[store, load, load, load, mark, last, next, h, h.wrapping_add(1)])
}

/// A name, often that of a checkpoint of an image.
fn near_name(image: &Image, rng: &mut Rng) -> u32 {
    let mark = image.checkpoints()[rng.below(4) as usize].name;
    let name = 1 + rng.below(CHECKPOINTS as u64) as u32;
    rng.pick(&[mark, mark, name, name, name, 0, 9])
}

/// An address about those of an image.
fn near_address(image: &Image, rng: &mut Rng) -> u32 {
    let store = image.stores()[rng.below(4) as usize].address;
    let load = image.loads()[rng.below(4) as usize].address;
    let Figures { sets, ways, .. } = figures_of(image);
    let used = sets.wrapping_mul(ways).clamp(1, RECORDS as u32);
    let line = image.tag(rng.below(u64::from(used)) as usize).map_or(0, |tag| tag.line);
    let inside = rng.below(u64::from(image.memory_length().max(1))) as u32;
    let address = rng.pick(&[store, load, line * LINE as u32, inside]);
    address & rng.pick(&[!3, !3, !1, u32::MAX])
}

/// One call of each kind, mostly with operands about those of an image.
pub fn each_call(image: &Image, rng: &mut Rng) -> [Call; 13] {
    let odd_ones = rng.one_in(4);
    let operand = |near: fn(&Image, &mut Rng) -> u32| {
        move |rng: &mut Rng| match odd_ones {
            true => odd_number(rng),
            false => near(image, rng),
        }
    };
    let (number, address, name) = (operand(near_number), operand(near_address), operand(near_name));
    let odd = odd_number(rng);
    let width = rng.pick(&[1, 1, 2, 4, odd]);
    let value = rng.pick(&[0, 1, 200, odd]);
    let figures = image.figures();
    let (sets, ways) = (rng.pick(&[figures.sets, 1, 2, odd]), rng.pick(&[figures.ways, 1, odd]));
    let policy = rng.pick(&POLICIES);
    [
        Call::ShowLine { address: address(rng) },
        Call::Load { address: address(rng), width },
        Call::Store { address: address(rng), width, value },
        Call::Retry { number: number(rng) },
        Call::Commit { number: number(rng) },
        Call::Abort { number: number(rng) },
        Call::Idle,
        Call::Preview,
        Call::Reply,
        Call::Flush,
        Call::Checkpoint { name: name(rng) },
        Call::Restore { name: name(rng) },
        Call::Start { figures: Figures::new(sets, ways).with_policy(policy) },
    ]
}
