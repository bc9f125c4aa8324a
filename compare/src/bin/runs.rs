//! Plays random runs on the right model under all the checks, prints what they met and
//! the bytes that they wrote back, and fails where a check fails or too little was met.
//!
//! `runs [--runs N] [--seed S]` plays the runs of the seeds S, S + 1, and so on;
//! `runs --only SEED` plays the run of one seed and prints its calls with their answers.

use std::process::ExitCode;

use compare::arguments;
use compare::counts::ByProfile;
use compare::dropped;
use compare::examine::{examine, Checks};
use compare::fault::Fault;
use compare::random;

/// Runs played when the command line names no number.
const RUNS: u64 = 2500;

/// The numbers of the command line.
struct Arguments {
    runs: u64,
    seed: u64,
    only: Option<u64>,
}

/// Reads the command line.
fn read() -> Result<Arguments, String> {
    let mut read = Arguments { runs: RUNS, seed: 1, only: None };
    let words = std::env::args().skip(1);
    arguments::numbers(words, |word, value| {
        match word {
            "--runs" => read.runs = value,
            "--seed" => read.seed = value,
            "--only" => read.only = Some(value),
            _ => return false,
        }
        true
    })?;
    Ok(read)
}

/// Plays one run and tells its calls.
fn play_only(seed: u64) -> Result<(), String> {
    let run = random::run(seed);
    println!(
        "seed {seed}: sets {}, ways {}, policy {:?}, memory {}, first last {}",
        run.figures.sets,
        run.figures.ways,
        run.figures.policy,
        run.found.len(),
        run.numbered
    );
    let step = Fault::None.step();
    let whole = dropped::play(&run, step, run.calls.iter().copied());
    for (place, one) in whole.given.iter().enumerate() {
        println!("{place} {:?}: {:?}", one.call, one.answer);
    }
    let met = examine(&run, step, Checks::ALL);
    met.map(|_| println!("no check fails")).map_err(|failure| failure.to_string())
}

/// Plays many runs and tells what they met.
fn play_many(runs: u64, seed: u64) -> Result<(), String> {
    let mut counts = ByProfile::default();
    for at in 0..runs {
        let run = random::run(seed.wrapping_add(at));
        let met = examine(&run, Fault::None.step(), Checks::ALL);
        counts.add(run.figures.policy, &met.map_err(|failure| failure.to_string())?);
    }
    print!("{counts}{}", counts.traffic());
    let lacking = counts.lacking();
    if !lacking.is_empty() {
        return Err(format!("seed {seed}: too little met: {}", lacking.join(", ")));
    }
    println!("all checks hold in {runs} runs from seed {seed}");
    Ok(())
}

fn main() -> ExitCode {
    arguments::end(read().and_then(|read| match read.only {
        Some(seed) => play_only(seed),
        None => play_many(read.runs, read.seed),
    }))
}
