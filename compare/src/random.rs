//! Random runs: many figures and found memories. `maker` makes their calls; previews are
//! put among these.

use crate::check;
use crate::maker::Maker;
pub use crate::maker::Mix;
use crate::model::{Machine, Right};
use crate::script::line_of;
use crate::types::{Call, Figures, Request, Setup, State, Step, WritePolicy, LINE};

/// A small generator of random numbers (splitmix64).
#[derive(Clone, Debug)]
pub struct Rng(u64);

impl Rng {
    pub fn new(seed: u64) -> Rng {
        Rng(seed)
    }

    /// The next 64 bits.
    pub fn word(&mut self) -> u64 {
        self.0 = self.0.wrapping_add(0x9E37_79B9_7F4A_7C15);
        let mut z = self.0;
        z = (z ^ (z >> 30)).wrapping_mul(0xBF58_476D_1CE4_E5B9);
        z = (z ^ (z >> 27)).wrapping_mul(0x94D0_49BB_1331_11EB);
        z ^ (z >> 31)
    }

    /// A number below a limit that is not 0.
    pub fn below(&mut self, limit: u64) -> u64 {
        self.word() % limit
    }

    /// True once in so many times.
    pub fn one_in(&mut self, times: u64) -> bool {
        self.below(times) == 0
    }

    /// One of the choices.
    pub fn pick<T: Copy>(&mut self, choices: &[T]) -> T {
        choices[self.below(choices.len() as u64) as usize]
    }
}

/// A run with its beginning.
#[derive(Clone, Debug)]
pub struct Run {
    pub seed: u64,
    pub figures: Figures,
    /// Memory as found.
    pub found: Vec<u8>,
    /// 0 for a run after a start. Otherwise the run begins with a well-formed
    /// state made by hand: what a start leaves, with last and committed set to
    /// this number.
    pub numbered: u32,
    pub calls: Vec<Call>,
}

impl Run {
    /// State, cache and memory at the beginning. The cache is found full of
    /// other bytes, which the start has to zero.
    pub fn begin(&self, step: Step) -> (State, Vec<u8>, Vec<u8>) {
        let mut state = State::zero();
        let mut cache = self.found_cache();
        let mut memory = self.found.clone();
        let figures = self.figures;
        step(&mut state, &mut cache, &mut memory, Call::Start { figures });
        state.last = self.numbered;
        state.committed = self.numbered;
        (state, cache, memory)
    }

    /// The cache bytes before the start.
    pub fn found_cache(&self) -> Vec<u8> {
        vec![0xA5; check::cache_length(self.figures)]
    }

    /// What a script begins the run with, over zeroed memory.
    pub fn setup(&self) -> Setup {
        Setup { figures: self.figures, memory: self.found.len() as u32 }
    }
}

/// The figures of a run.
fn figures(rng: &mut Rng) -> Figures {
    let sets = rng.pick(&[1, 1, 1, 2, 2, 2, 4, 4, 8, 16, 32, 64]);
    let ways = 1 + rng.below(4) as u32;
    Figures::new(sets, ways)
        .with_policy(rng.pick(&[WritePolicy::WriteBack, WritePolicy::WriteThrough]))
}

/// Makes the run of a seed.
pub fn run(seed: u64) -> Run {
    let mut rng = Rng::new(seed);
    let figures = figures(&mut rng);
    let lines = match rng.below(64) {
        0 | 1 => 1,
        2 => rng.pick(&[4096, 1024, 4095]),
        3..=10 => 1 + rng.below(300),
        _ => 1 + rng.below(u64::from(figures.sets * 3 + 8)),
    };
    let mut found = vec![0; lines as usize * LINE];
    if !rng.one_in(3) {
        found.iter_mut().for_each(|byte| *byte = rng.word() as u8);
    }
    let near_end = rng.one_in(12);
    let numbered = if near_end { u32::MAX - rng.below(24) as u32 } else { 0 };
    let run = Run { seed, figures, found, numbered, calls: Vec::new() };
    let length = 20 + rng.below(201) as usize;
    let branches = rng.one_in(if near_end { 2 } else { 4 });
    let mix = if branches { Mix::Branches } else { Mix::Short };
    let mut run = Maker::new(run, rng).make(length, mix).run;
    run.calls.truncate(length);
    with_previews(run)
}

/// One preview for so many calls, while a line is requested and while the register is free.
const EACH_REQUESTED: u64 = 2;
const EACH_FREE: u64 = 24;

/// Puts previews among the calls of a run, inside stretches and outside. They change
/// nothing, so that the other calls do what they did without them.
fn with_previews(run: Run) -> Run {
    let mut rng = Rng::new(!run.seed);
    let (mut state, mut cache, mut memory) = run.begin(Right::step);
    let mut calls = Vec::new();
    for &call in &run.calls {
        let each = if state.request == Request::Free { EACH_FREE } else { EACH_REQUESTED };
        if rng.one_in(each) {
            calls.push(Call::Preview);
        }
        Right::step(&mut state, &mut cache, &mut memory, call);
        calls.push(call);
    }
    Run { calls, ..run }
}

/// Begins a run over zeroed memory, as a script can have it: after a start.
fn script_maker(rng: &mut Rng, setup: Setup) -> Maker {
    let seed = rng.word();
    let found = vec![0; setup.memory as usize];
    let run = Run { seed, figures: setup.figures, found, numbered: 0, calls: Vec::new() };
    Maker::new(run, Rng::new(seed))
}

/// Makes a run of a script: of calls that have a line, and of about so many.
pub fn script_run(rng: &mut Rng, setup: Setup, length: usize, mix: Mix) -> Run {
    let mut run = script_maker(rng, setup).make(length, mix).run;
    run.calls.retain(|call| line_of(*call).is_some());
    run
}

/// Makes such a run with calls at its end that tell, as far as a script can,
/// the state that was reached; the number of calls before those.
pub fn told_run(rng: &mut Rng, setup: Setup, length: usize, mix: Mix) -> (Run, usize) {
    let mut maker = script_maker(rng, setup).make(length, mix);
    maker.run.calls.retain(|call| line_of(*call).is_some());
    let before = maker.run.calls.len();
    maker.tell();
    (maker.run, before)
}
