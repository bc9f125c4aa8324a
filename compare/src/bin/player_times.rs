//! Times a program that plays scripts beside the Rust player, with its checks and
//! without checks 1 and 10, and compares their outputs byte for byte. All read a
//! file and write a file. The time is the processor's, so that other work on the
//! machine disturbs it little.
//!
//! `player_times PROGRAM [--lines N] [--rounds N]` prints the tables: the medians of
//! so many rounds, in which the players take turns. The Rust players are this
//! program itself, started once more as `player_times --play` and `--play-unchecked`.
//! Fewer lines than a million are for trying it out: the processor's time comes in
//! steps of 0.01 s.

use std::fs::{self, File};
use std::io;
use std::path::{Path, PathBuf};
use std::process::{Command, ExitCode, Stdio};
use std::time::Instant;

use compare::arguments;
use compare::long::plain_script;
use compare::model::{Machine, Right, Unchecked};
use compare::program::difference;
use compare::random::{script_run, Mix, Rng};
use compare::script;
use compare::times::Times;
use compare::types::{Setup, Step};

/// A small cache that is crowded, and the largest one.
const SETUPS: [Setup; 2] = [Setup::new(2, 2, 256), Setup::new(64, 4, 65536)];

/// From the smallest to the largest.
const GEOMETRIES: [Setup; 4] =
    [Setup::new(1, 1, 16), Setup::new(4, 2, 1024), Setup::new(16, 4, 16384), SETUPS[1]];

/// The words by which this program is a Rust player, and its machine.
const CHECKED: (&str, Step) = ("--play", Right::step);
const UNCHECKED: (&str, Step) = ("--play-unchecked", Unchecked::step);

/// How often an empty script is played to learn what a player takes to begin and end.
const EMPTY_PLAYS: usize = 200;

/// The command line.
struct Arguments {
    program: PathBuf,
    lines: usize,
    rounds: u64,
}

/// Reads the command line.
fn read() -> Result<Arguments, String> {
    let mut words = std::env::args().skip(1);
    let program = words.next().ok_or("wanted: PROGRAM [--lines N] [--rounds N]")?;
    let mut read = Arguments { program: program.into(), lines: 1_000_000, rounds: 5 };
    arguments::numbers(words, |word, value| {
        match word {
            "--lines" => read.lines = value.max(1) as usize,
            "--rounds" => read.rounds = value.max(1),
            _ => return false,
        }
        true
    })?;
    Ok(read)
}

/// Processor seconds of the programs that have ended, in steps of 0.01, where the
/// system tells them.
fn ended_seconds() -> Option<f64> {
    let told = fs::read_to_string("/proc/self/stat").ok()?;
    let fields = told.rsplit_once(')')?.1.split_whitespace();
    let steps: Option<f64> = fields.skip(13).take(2).map(|field| field.parse::<f64>().ok()).sum();
    Some(steps? / 100.0)
}

/// Files of one measurement, in a folder of their own.
struct Files {
    folder: PathBuf,
    input: PathBuf,
    output: PathBuf,
}

impl Files {
    fn new() -> io::Result<Files> {
        let folder = std::env::temp_dir().join(format!("player_times_{}", std::process::id()));
        fs::create_dir_all(&folder)?;
        Ok(Files { input: folder.join("script"), output: folder.join("output"), folder })
    }

    /// Runs a player over the script in the input file.
    fn play(&self, player: &Path, word: Option<&str>) -> io::Result<()> {
        let (input, output) = (File::open(&self.input)?, File::create(&self.output)?);
        let mut command = Command::new(player);
        command.args(word).stdin(Stdio::from(input)).stdout(Stdio::from(output));
        match command.status()? {
            status if status.success() => Ok(()),
            status => Err(io::Error::other(format!("{}: {status}", player.display()))),
        }
    }

    /// Runs it so often: seconds for each time, and the output.
    fn timed(&self, player: &Path, word: Option<&str>, plays: usize) -> io::Result<(f64, Vec<u8>)> {
        let (begun, ended) = (Instant::now(), ended_seconds());
        for _ in 0..plays {
            self.play(player, word)?;
        }
        let on_clock = begun.elapsed().as_secs_f64();
        let seconds = ended_seconds().zip(ended).map_or(on_clock, |(now, then)| now - then);
        Ok((seconds / plays as f64, fs::read(&self.output)?))
    }
}

impl Drop for Files {
    fn drop(&mut self) {
        // What cannot be removed stays in the folder for such files.
        let _ = fs::remove_dir_all(&self.folder);
    }
}

/// Seconds of each player for each play of a script, in rounds.
fn measure(
    read: &Arguments,
    files: &Files,
    script: &[u8],
    plays: usize,
) -> Result<Vec<Times>, String> {
    let told = |error: io::Error| error.to_string();
    fs::write(&files.input, script).map_err(told)?;
    let this = std::env::current_exe().map_err(told)?;
    let mut rounds = Vec::new();
    for _ in 0..read.rounds {
        let (ours, seen) = files.timed(&read.program, None, plays).map_err(told)?;
        let (checked, expected) = files.timed(&this, Some(CHECKED.0), plays).map_err(told)?;
        let (unchecked, other) = files.timed(&this, Some(UNCHECKED.0), plays).map_err(told)?;
        for seen in [seen, other] {
            if let Some(found) = difference(script, &expected, &seen) {
                return Err(found.to_string());
            }
        }
        rounds.push(Times { ours, checked, unchecked });
    }
    Ok(rounds)
}

/// What is measured, and with what.
struct Measuring {
    read: Arguments,
    files: Files,
    /// Seconds of each player for an empty script.
    empty: Times,
}

impl Measuring {
    fn new(read: Arguments) -> Result<Measuring, String> {
        let files = Files::new().map_err(|error| error.to_string())?;
        let empty = Times::medians(&measure(&read, &files, b"", EMPTY_PLAYS)?);
        Ok(Measuring { read, files, empty })
    }

    /// Nanoseconds of each player a line of a script, in rounds. It is played so
    /// often that the steps of the processor's time matter little.
    fn line_times(&self, script: &[u8], lines: usize) -> Result<Vec<Times>, String> {
        let plays = (4 * self.read.lines).div_ceil(lines);
        let rounds = measure(&self.read, &self.files, script, plays)?;
        let each = |seconds: f64, empty: f64| (seconds - empty) * 1e9 / lines as f64;
        let of = |round: &Times| Times {
            ours: each(round.ours, self.empty.ours),
            checked: each(round.checked, self.empty.checked),
            unchecked: each(round.unchecked, self.empty.unchecked),
        };
        Ok(rounds.iter().map(of).collect())
    }

    /// Measures a script and prints its row.
    fn row(&self, what: &str, script: &[u8]) -> Result<(), String> {
        let lines = script.iter().filter(|byte| **byte == b'\n').count();
        let rounds = self.line_times(script, lines)?;
        let (Times { ours, checked, unchecked }, [to_checked, to_unchecked]) =
            (Times::medians(&rounds), Times::ratios(&rounds));
        println!(
            "| {what} | {lines} | {:.2} | {ours:.0} | {checked:.0} | {to_checked:.2} | \
             {unchecked:.0} | {to_unchecked:.2} |",
            ours * lines as f64 / 1e9
        );
        Ok(())
    }
}

/// The mix of a run.
fn mixed(setup: Setup, lines: usize) -> Vec<u8> {
    // Show lines are taken out of the run: some more calls make up for them.
    plain_script(&script_run(&mut Rng::new(1), setup, lines + lines / 20, Mix::Accepted))
}

/// A run that fills the cache, then one line again and again.
fn repeated(setup: Setup, line: &str, lines: usize) -> Vec<u8> {
    let mut script = script::begin_line(setup) + "\n";
    for number in 1..=setup.figures.sets * setup.figures.ways {
        script += &format!("L {} 1\nC {number}\nI\nR\nA {number}\n", 16 * (number - 1));
    }
    (script + &format!("{line}\n").repeat(lines)).into_bytes()
}

/// The head of a table.
fn head(what: &str) {
    println!(
        "\n| {what} | lines | program, s | program, ns a line | Rust, ns a line | ratio | \
         unchecked Rust, ns a line | ratio |\n|---|---|---|---|---|---|---|---|"
    );
}

/// A geometry in words.
fn name(setup: Setup) -> String {
    let Setup { figures, memory } = setup;
    format!("{} sets, {} ways, {memory} bytes", figures.sets, figures.ways)
}

/// One line again and again, on each of the two caches.
fn repeated_table(measuring: &Measuring) -> Result<(), String> {
    let lines = measuring.read.lines;
    let parts = [
        ("malformed: read and answered", "S 16 4 7 x", lines * 4),
        ("refused: well-formedness too", "L 16 3", lines / 2),
        ("idle: nothing to do", "I", lines / 2),
    ];
    head("one line again and again");
    for setup in SETUPS {
        for (what, line, lines) in parts {
            let script = repeated(setup, line, lines);
            measuring.row(&format!("{}; {what}", name(setup)), &script)?;
        }
    }
    Ok(())
}

/// How the cost of a line goes with the number of lines and with the geometry.
fn growth_tables(measuring: &Measuring) -> Result<(), String> {
    let lines = measuring.read.lines;
    head("mixed calls: by the number of lines");
    for setup in SETUPS {
        for part in [100, 10, 1] {
            measuring.row(&name(setup), &mixed(setup, (lines / part).max(1)))?;
        }
    }
    head("mixed calls: by the geometry");
    for setup in GEOMETRIES {
        measuring.row(&name(setup), &mixed(setup, lines))?;
    }
    Ok(())
}

/// Prints the tables.
fn tables(read: Arguments) -> Result<(), String> {
    let measuring = Measuring::new(read)?;
    let Times { ours, checked, unchecked } = measuring.empty;
    println!(
        "Medians of {} rounds. Taken off: an empty script, {:.2} ms of the program, {:.2} and \
         {:.2} of Rust.",
        measuring.read.rounds,
        1e3 * ours,
        1e3 * checked,
        1e3 * unchecked
    );
    head("mixed calls");
    for setup in SETUPS {
        measuring.row(&name(setup), &mixed(setup, measuring.read.lines))?;
    }
    repeated_table(&measuring)?;
    growth_tables(&measuring)
}

fn main() -> ExitCode {
    let word = std::env::args().nth(1).unwrap_or_default();
    for (player, step) in [CHECKED, UNCHECKED] {
        if word == player {
            return arguments::end(script::play_standard(step).map_err(|error| error.to_string()));
        }
    }
    arguments::end(read().and_then(tables))
}
