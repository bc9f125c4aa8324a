//! Times the calls of the proved library beside those of the Rust model, which
//! makes the same checks at each call, and prints the tables; then lists of calls
//! (`batches`) and the ways study (`studies`).
//!
//! `cargo bench -- [--rounds N] [--calls N] [--runs N]`: the best of so many rounds,
//! which alternate, of so many calls each; for lists the medians of so many runs.

mod batches;
#[path = "../tests/beside/mod.rs"]
mod beside;
#[path = "../tests/numbered/mod.rs"]
mod numbered;
mod studies;

use std::hint::black_box;
use std::ops::Range;
use std::process::ExitCode;
use std::time::Instant;

use compare::arguments;
use compare::check;
use compare::model::{Machine as _, Right};
use compare::random::{script_run, Mix, Rng};
use compare::types::{Answer, Call, Setup, State, WritePolicy};
use nicoisetarn::Image;

/// A small cache, and the largest one.
const SETUPS: [Setup; 2] = [Setup::new(2, 2, 256), Setup::new(64, 4, 65536)];

/// Calls of a mixed run, and of its pieces, which are timed one by one.
const MIXED: usize = 8_000;
const PIECE: usize = 250;

/// The one row of a call that is refused.
const REFUSED: &str = "load refused by 2: the checks alone";

/// The row of the library alone.
const NO_CALL: &str = "no such call: nothing is looked at";

/// The command line.
struct Arguments {
    rounds: u64,
    calls: u64,
    runs: u64,
}

/// Reads the command line; cargo adds a word of its own.
fn read() -> Result<Arguments, String> {
    let mut read = Arguments { rounds: 100, calls: 250, runs: 5 };
    let words = std::env::args().skip(1).filter(|word| word != "--bench");
    arguments::numbers(words, |word, value| {
        match word {
            "--rounds" => read.rounds = value.max(1),
            "--calls" => read.calls = value.max(1),
            "--runs" => read.runs = value.max(1),
            _ => return false,
        }
        true
    })?;
    Ok(read)
}

/// A machine that is timed: its calls, and its state at the beginning.
trait Machine: Clone {
    type Call: Copy;
    fn call_of(call: Call) -> Self::Call;
    fn unstarted() -> Self;
    /// One call; whether it was accepted.
    fn step(&mut self, cache: &mut [u8], memory: &mut [u8], call: Self::Call) -> bool;
}

/// A call of the library.
#[derive(Clone, Copy)]
enum Made {
    Start(nicoisetarn::Figures),
    Call(nicoisetarn::Call),
    /// A number that no call has.
    NoCall,
}

impl Machine for Image {
    type Call = Made;

    fn call_of(call: Call) -> Made {
        match (call, beside::call_of(call)) {
            (_, Some(call)) => Made::Call(call),
            (Call::Start { figures }, None) => Made::Start(beside::library_figures(figures)),
            (_, None) => Made::NoCall,
        }
    }

    fn unstarted() -> Image {
        Image::from_bytes([0; Image::SIZE])
    }

    fn step(&mut self, cache: &mut [u8], memory: &mut [u8], call: Made) -> bool {
        match call {
            Made::Start(figures) => black_box(self.restart(figures, cache, memory)).is_ok(),
            Made::Call(nicoisetarn::Call::ShowLine(address)) => {
                black_box(self.show_line(cache, memory, address));
                true
            }
            Made::Call(call) => black_box(self.call(cache, memory, call)).is_ok(),
            Made::NoCall => {
                let told = black_box(numbered::step(self, cache, memory, numbered::CALLS, [0; 3]));
                told != numbered::NO_SUCH_CALL
            }
        }
    }
}

impl Machine for State {
    type Call = Call;

    fn call_of(call: Call) -> Call {
        call
    }

    fn unstarted() -> State {
        State::zero()
    }

    fn step(&mut self, cache: &mut [u8], memory: &mut [u8], call: Call) -> bool {
        black_box(Right::step(self, cache, memory, call)).accepted()
    }
}

/// The calls that lead to a state, made on the model.
struct Way {
    calls: Vec<Call>,
    state: State,
    cache: Vec<u8>,
    memory: Vec<u8>,
}

impl Way {
    /// After a start.
    fn new(setup: Setup) -> Way {
        let Setup { figures, memory } = setup;
        let (cache, memory) = (vec![0; check::cache_length(figures)], vec![0; memory as usize]);
        let mut way = Way { calls: Vec::new(), state: State::zero(), cache, memory };
        way.push(Call::Start { figures });
        way
    }

    fn push(&mut self, call: Call) -> Answer {
        self.calls.push(call);
        Right::step(&mut self.state, &mut self.cache, &mut self.memory, call)
    }

    /// Commits all and fills the line of the load that waits; its number.
    fn request(&mut self, line: u32) -> u32 {
        self.push(Call::Load { address: 16 * line, width: 4 });
        let number = self.state.last;
        self.push(Call::Commit { number });
        self.push(Call::Idle);
        number
    }

    /// Fills the cache and makes a word of every other line dirty.
    fn filled(mut self) -> Way {
        let lines = (self.cache.len() / 16) as u32;
        for line in 0..lines {
            let number = self.request(line);
            self.push(Call::Reply);
            self.push(Call::Retry { number });
        }
        for line in (0..lines).step_by(2) {
            self.push(Call::Store { address: 16 * line + 4, width: 4, value: line + 1 });
            let number = self.state.last;
            self.push(Call::Commit { number });
            self.push(Call::Idle);
        }
        self
    }

    /// Adds four stores and two answered loads, uncommitted.
    fn busy(mut self) -> Way {
        for (address, width) in [(0, 1), (20, 4), (18, 2), (36, 4)] {
            self.push(Call::Store { address, width, value: 77 });
        }
        for address in [16, 0] {
            self.push(Call::Load { address, width: 4 });
        }
        self
    }
}

/// A state to call on, and the call.
struct Case {
    name: &'static str,
    way: Way,
    call: Call,
}

/// The thirteen calls, each on a state in which it does its work, a drain under each write
/// policy, and a refused one.
fn cases(setup: Setup) -> Vec<Case> {
    let figures = setup.figures;
    let filled = || Way::new(setup).filled();
    let absent = figures.sets * figures.ways;
    let busy = |name, call: fn(&State) -> Call| {
        let way = filled().busy();
        let call = call(&way.state);
        Case { name, way, call }
    };
    let committed = |figures| {
        let mut way = Way::new(Setup { figures, ..setup }).filled().busy();
        let number = way.state.last;
        way.push(Call::Commit { number });
        way
    };
    let through = figures.with_policy(WritePolicy::WriteThrough);
    let requested = || {
        let mut way = filled();
        way.request(absent);
        way.busy()
    };
    let mut marked = filled();
    marked.push(Call::Checkpoint { name: 1 });
    let restore = Call::Restore { name: 1 };
    let mut waiting = filled();
    let number = waiting.request(absent);
    waiting.push(Call::Reply);
    vec![
        Case { name: "start", way: filled().busy(), call: Call::Start { figures } },
        busy("load: a value from stores and a line", |_| Call::Load { address: 16, width: 4 }),
        busy("store", |_| Call::Store { address: 40, width: 4, value: 5 }),
        Case { name: "retry: a value", way: waiting.busy(), call: Call::Retry { number } },
        busy("commit: two loads leave", |state| Call::Commit { number: state.last }),
        busy("abort: six entries dropped", |state| Call::Abort { number: state.last - 5 }),
        busy("checkpoint", |_| Call::Checkpoint { name: 1 }),
        Case { name: "restore: six entries dropped", way: marked.busy(), call: restore },
        Case { name: "idle: a store drained", way: committed(figures), call: Call::Idle },
        Case { name: "idle: .. in write-through", way: committed(through), call: Call::Idle },
        Case { name: "preview: a dirty line evicted", way: requested(), call: Call::Preview },
        Case { name: "reply: a dirty line evicted", way: requested(), call: Call::Reply },
        busy("flush: half of the lines dirty", |_| Call::Flush),
        busy("show line", |_| Call::ShowLine { address: 20 }),
        busy(REFUSED, |_| Call::Load { address: 0, width: 3 }),
    ]
}

/// A machine brought to a case's state, and what its call changes.
struct Prepared<M: Machine> {
    machine: M,
    cache: Vec<u8>,
    memory: Vec<u8>,
    call: M::Call,
    cache_changes: Vec<Range<usize>>,
    memory_changes: Vec<Range<usize>>,
}

/// The lines in which two lists of bytes differ.
fn differing(before: &[u8], after: &[u8]) -> Vec<Range<usize>> {
    let lines = (0..before.len()).step_by(16).map(|at| at..at + 16);
    lines.filter(|line| before[line.clone()] != after[line.clone()]).collect()
}

impl<M: Machine> Prepared<M> {
    fn new(case: &Case) -> Result<Prepared<M>, String> {
        let mut machine = M::unstarted();
        let (mut cache, mut memory) = (case.way.cache.clone(), vec![0; case.way.memory.len()]);
        for &call in &case.way.calls {
            machine.step(&mut cache, &mut memory, M::call_of(call));
        }
        if cache != case.way.cache || memory != case.way.memory {
            return Err(format!("{}: the machines do not agree", case.name));
        }
        let call = M::call_of(case.call);
        let (mut again, mut cached, mut stored) = (machine.clone(), cache.clone(), memory.clone());
        let accepted = again.step(&mut cached, &mut stored, call);
        if accepted == (case.name == REFUSED) {
            return Err(format!("{}: accepted is {accepted}", case.name));
        }
        let cache_changes = differing(&cache, &cached);
        let memory_changes = differing(&memory, &stored);
        Ok(Prepared { machine, cache, memory, call, cache_changes, memory_changes })
    }

    /// Nanoseconds for each round trip: the call, if it is made, and the way back
    /// to the state before it.
    fn timed(&self, calls: u64, made: bool) -> f64 {
        let mut machine = self.machine.clone();
        let (mut cache, mut memory) = (self.cache.clone(), self.memory.clone());
        let begun = Instant::now();
        for _ in 0..calls {
            if made {
                machine.step(&mut cache, &mut memory, black_box(self.call));
            }
            machine.clone_from(black_box(&self.machine));
            for line in &self.cache_changes {
                cache[line.clone()].copy_from_slice(&self.cache[line.clone()]);
            }
            for line in &self.memory_changes {
                memory[line.clone()].copy_from_slice(&self.memory[line.clone()]);
            }
            black_box((&mut machine, &mut cache, &mut memory));
        }
        begun.elapsed().as_nanos() as f64 / calls as f64
    }

    /// The round trip with the call and the one without it.
    fn both(&self, calls: u64) -> [f64; 2] {
        [self.timed(calls, true), self.timed(calls, false)]
    }
}

/// Keeps the better times.
fn keep(best: &mut [f64; 2], seen: [f64; 2]) {
    *best = [best[0].min(seen[0]), best[1].min(seen[1])];
}

/// A case on both machines, with the best times so far.
struct Pair {
    name: &'static str,
    library: Prepared<Image>,
    model: Prepared<State>,
    of_library: [f64; 2],
    of_model: [f64; 2],
}

impl Pair {
    fn new(case: &Case) -> Result<Pair, String> {
        let (library, model) = (Prepared::new(case)?, Prepared::new(case)?);
        let worst = [f64::MAX; 2];
        Ok(Pair { name: case.name, library, model, of_library: worst, of_model: worst })
    }

    /// One round.
    fn round(&mut self, calls: u64) {
        keep(&mut self.of_library, self.library.both(calls));
        keep(&mut self.of_model, self.model.both(calls));
    }

    /// Nanoseconds of the call on the library and on the model.
    fn times(&self) -> [f64; 2] {
        [self.of_library, self.of_model].map(|[with, without]| with - without)
    }
}

/// The cases of a geometry in rounds, so that each is timed now and then; the last
/// is a call number that there is not, for the library: the image is handed in and
/// out, and nothing is looked at.
fn measure(read: &Arguments, setup: Setup) -> Result<Vec<Pair>, String> {
    let cases = cases(setup);
    let mut pairs = cases.iter().map(Pair::new).collect::<Result<Vec<Pair>, String>>()?;
    for case in cases.iter().filter(|case| case.name == REFUSED) {
        let mut pair = Pair::new(case)?;
        pair.name = NO_CALL;
        pair.library.call = Made::NoCall;
        pairs.push(pair);
    }
    for _ in 0..read.rounds {
        pairs.iter_mut().for_each(|pair| pair.round(read.calls));
    }
    Ok(pairs)
}

/// A run of all calls, with a show line after every sixteenth. The refused calls
/// are left out: they change nothing, so the others are answered as before.
fn mixed_calls(setup: Setup) -> Vec<Call> {
    let run = script_run(&mut Rng::new(1), setup, MIXED, Mix::Accepted);
    let mut way = Way::new(setup);
    let mut mixed = way.calls.clone();
    let mut address = 0;
    for (place, call) in run.calls.into_iter().enumerate() {
        if way.push(call).accepted() {
            mixed.push(call);
        }
        if let Call::Load { address: at, .. } | Call::Store { address: at, .. } = call {
            address = at;
        }
        if place % 16 == 15 {
            mixed.push(Call::ShowLine { address });
        }
    }
    mixed
}

/// Plays a run piece by piece and keeps the better time of each piece; the calls
/// accepted, and the memory left.
fn play<M: Machine>(setup: Setup, calls: &[Call], best: &mut [f64]) -> (usize, Vec<u8>) {
    let calls: Vec<M::Call> = calls.iter().map(|call| M::call_of(*call)).collect();
    let mut machine = M::unstarted();
    let mut cache = vec![0; check::cache_length(setup.figures)];
    let mut memory = vec![0; setup.memory as usize];
    let mut accepted = 0;
    for (piece, best) in calls.chunks(PIECE).zip(best) {
        let begun = Instant::now();
        for &call in piece {
            accepted += usize::from(machine.step(&mut cache, &mut memory, call));
        }
        *best = best.min(begun.elapsed().as_nanos() as f64);
    }
    (accepted, memory)
}

/// Nanoseconds a call of a mixed run on both.
fn measure_mixed(read: &Arguments, setup: Setup) -> Result<[f64; 2], String> {
    let calls = mixed_calls(setup);
    let pieces = calls.len().div_ceil(PIECE);
    let (mut of_library, mut of_model) = (vec![f64::MAX; pieces], vec![f64::MAX; pieces]);
    for _ in 0..read.rounds.div_ceil(4) {
        let library = play::<Image>(setup, &calls, &mut of_library);
        let model = play::<State>(setup, &calls, &mut of_model);
        if library != model || library.0 != calls.len() {
            return Err("mixed run: the machines do not agree, or refuse".to_string());
        }
    }
    let each = |pieces: Vec<f64>| pieces.iter().sum::<f64>() / calls.len() as f64;
    Ok([each(of_library), each(of_model)])
}

/// Prints a row.
fn row(what: &str, [library, model]: [f64; 2]) {
    println!("| {what} | {library:.0} | {model:.0} | {:.2} |", library / model);
}

/// Prints the table of a geometry.
fn table(read: &Arguments, setup: Setup) -> Result<(), String> {
    let Setup { figures, memory } = setup;
    let (sets, ways) = (figures.sets, figures.ways);
    println!(
        "\n| {sets} sets, {ways} ways, {memory} bytes | library, ns | Rust model, ns | ratio |"
    );
    println!("|---|---|---|---|");
    for pair in measure(read, setup)? {
        match pair.name {
            NO_CALL => println!("| {NO_CALL} | {:.0} | – | – |", pair.times()[0]),
            name => row(name, pair.times()),
        }
    }
    row("mixed run", measure_mixed(read, setup)?);
    Ok(())
}

fn tables(read: &Arguments) -> Result<(), String> {
    println!(
        "Nanoseconds a call by the clock, the best of {} alternating rounds of {} calls: short\n\
         rounds, so that some of them run undisturbed. Each call is made on the same state again\n\
         and again: after it, state, cache and memory are set back (the state whole, of the bytes\n\
         the lines that the call changes), and the time of setting back alone, measured the same\n\
         way on each side, is taken off. A mixed run of about {MIXED} calls is played whole from its\n\
         start, nothing is set back, and the best of each piece of {PIECE} calls counts.",
        read.rounds, read.calls
    );
    SETUPS.into_iter().try_for_each(|setup| table(read, setup))?;
    batches::tables(read)?;
    studies::table(read)
}

fn main() -> ExitCode {
    arguments::end(read().and_then(|read| tables(&read)))
}
