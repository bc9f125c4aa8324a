//! Sets a program that plays scripts beside the model: long random scripts, byte
//! for byte, and scripts with dropped stretches struck from them.
//!
//! `beside PROGRAM [--seconds N] [--seed S]` goes on for so long from seed S and
//! fails at a difference, or where too little was met; `beside PROGRAM --print
//! SEED` writes the long script of a seed.

use std::io::Write;
use std::process::ExitCode;
use std::time::{Duration, Instant};

use compare::arguments;
use compare::counts::Counts;
use compare::long;
use compare::met;
use compare::program::{difference, Player};
use compare::script;
use compare::struck;

/// Sizes of the pieces that scripts are fed in, with the lines of those scripts.
const PIECES: [(usize, usize); 5] =
    [(1, 4_000), (63, 20_000), (65, 30_000), (4096, 60_000), (65537, 60_000)];

/// Runs of the scripts that stretches are struck from.
const RUNS: usize = 25;

/// The command line.
struct Arguments {
    player: Player,
    seconds: u64,
    seed: u64,
    print: bool,
}

/// Reads the command line.
fn read() -> Result<Arguments, String> {
    let mut words = std::env::args().skip(1);
    let program = words.next().ok_or("wanted: PROGRAM [--seconds N] [--seed S]")?;
    let player = Player::Program(program);
    let mut read = Arguments { player, seconds: 5, seed: 1, print: false };
    arguments::numbers(words, |word, value| {
        match word {
            "--seconds" => read.seconds = value,
            "--seed" => read.seed = value,
            "--print" => (read.seed, read.print) = (value, true),
            _ => return false,
        }
        true
    })?;
    Ok(read)
}

/// The size of the pieces for a seed, and its script.
fn script_of(seed: u64) -> (usize, Vec<u8>) {
    let (piece, lines) = PIECES[(seed % PIECES.len() as u64) as usize];
    (piece, long::script(seed, lines))
}

/// Plays the long script of a seed.
fn play_long(player: &Player, seed: u64, counts: &mut Counts) -> Result<(), String> {
    let (piece, script) = script_of(seed);
    let seen = player.play(&script, piece)?;
    if let Some(found) = difference(&script, &script::play(&script), &seen) {
        return Err(format!("seed {seed}, in pieces of {piece}: {found}"));
    }
    met::count_script(counts, &script);
    Ok(())
}

/// Plays the scripts of a seed with and without the struck stretches.
fn play_struck(player: &Player, seed: u64, counts: &mut Counts) -> Result<(), String> {
    let pair = struck::pair(seed, RUNS, counts);
    let whole = player.play(&pair.whole, 4096)?;
    if let Some(found) = difference(&pair.whole, &script::play(&pair.whole), &whole) {
        return Err(format!("seed {seed}, before stretches are struck: {found}"));
    }
    match pair.difference(&whole, &player.play(&pair.struck, 4096)?) {
        Some(found) => Err(format!("seed {seed}, with stretches struck: {found}")),
        None => Ok(()),
    }
}

/// Plays until the time is over, and each size of pieces at least once.
fn play(read: &Arguments) -> Result<(), String> {
    let (mut long, mut struck) = (Counts::default(), Counts::default());
    let begun = Instant::now();
    for at in 0.. {
        let over = begun.elapsed() >= Duration::from_secs(read.seconds);
        if over && at >= PIECES.len() as u64 {
            break;
        }
        let seed = read.seed.wrapping_add(at);
        play_long(&read.player, seed, &mut long)?;
        play_struck(&read.player, seed, &mut struck)?;
    }
    println!("{:<44}{:>12}\n{:<44}{:>12}", "scripts", long.runs, "lines", long.calls);
    print!("{}{}", long.rows(&met::NEEDED), struck.rows(&struck::NEEDED));
    let stretches = struck.of("stretch struck");
    let mut lacking = long.lacking_of(&met::NEEDED, long.calls);
    lacking.extend(struck.lacking_of(&struck::NEEDED, stretches));
    if !lacking.is_empty() {
        return Err(format!("seed {}: too little met: {}", read.seed, lacking.join(", ")));
    }
    println!("every answer agrees, from seed {}", read.seed);
    Ok(())
}

/// Writes the long script of a seed.
fn print(seed: u64) -> Result<(), String> {
    let written = std::io::stdout().write_all(&script_of(seed).1);
    written.map_err(|error| error.to_string())
}

fn main() -> ExitCode {
    arguments::end(read().and_then(|read| if read.print { print(read.seed) } else { play(&read) }))
}
