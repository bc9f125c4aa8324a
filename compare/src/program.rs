//! What plays a script: a program fed through pipes in pieces of any size, or
//! the model in this process; and the first line where two outputs differ.

use std::fmt;
use std::io::{self, BufReader, ErrorKind, Read, Write};
use std::process::{Command, Stdio};

use crate::model::{Machine, Right};
use crate::script;
use crate::types::Step;

/// A player of scripts.
#[derive(Clone, Debug)]
pub enum Player {
    /// A machine in this process, the model for one.
    Machine(Step),
    /// The program of this path, from standard input to standard output.
    Program(String),
}

impl Player {
    /// The model in this process.
    pub const MODEL: Player = Player::Machine(Right::step);

    /// Plays a script that comes in pieces of so many bytes.
    pub fn play(&self, script: &[u8], piece: usize) -> Result<Vec<u8>, String> {
        match self {
            Player::Machine(step) => {
                let mut output = Vec::new();
                let input = BufReader::with_capacity(piece, script);
                script::play_stream(*step, input, &mut output)
                    .map_err(|error| error.to_string())?;
                Ok(output)
            }
            Player::Program(path) => {
                run(path, script, piece).map_err(|error| format!("{path}: {error}"))
            }
        }
    }
}

/// Runs a program over a script and gives its output.
fn run(path: &str, script: &[u8], piece: usize) -> io::Result<Vec<u8>> {
    let mut child = Command::new(path).stdin(Stdio::piped()).stdout(Stdio::piped()).spawn()?;
    let (input, output) = (child.stdin.take(), child.stdout.take());
    let mut seen = Vec::new();
    std::thread::scope(|scope| {
        let feeder = scope.spawn(move || input.map_or(Ok(()), |pipe| feed(pipe, script, piece)));
        output.map_or(Ok(0), |mut pipe| pipe.read_to_end(&mut seen))?;
        feeder.join().unwrap_or(Ok(()))
    })?;
    let status = child.wait()?;
    if !status.success() {
        return Err(io::Error::other(format!("the program ended with {status}")));
    }
    Ok(seen)
}

/// Writes a script in pieces; a program that has stopped reading is no error here.
fn feed(mut pipe: impl Write, script: &[u8], piece: usize) -> io::Result<()> {
    for part in script.chunks(piece) {
        match pipe.write_all(part) {
            Err(error) if error.kind() == ErrorKind::BrokenPipe => return Ok(()),
            written => written?,
        }
    }
    Ok(())
}

/// The first line where two outputs of a script differ.
#[derive(Clone, Debug, PartialEq, Eq)]
pub struct Difference {
    /// Counted from 1.
    pub line: usize,
    /// The line of the script, then what answers it: nothing where none does.
    pub asked: String,
    pub expected: String,
    pub seen: String,
}

impl fmt::Display for Difference {
    fn fmt(&self, f: &mut fmt::Formatter) -> fmt::Result {
        let Difference { line, asked, expected, seen } = self;
        write!(f, "line {line} \"{asked}\": expected \"{expected}\", seen \"{seen}\"")
    }
}

/// A line with its LF, made readable and cut short.
fn shown(line: Option<&[u8]>) -> String {
    let line = line.unwrap_or_default();
    let cut = &line[..line.len().min(80)];
    let dots = if cut.len() < line.len() { ".." } else { "" };
    format!("{}{dots}", cut.escape_ascii())
}

/// Where two outputs of a script differ first, if they do.
pub fn difference(script: &[u8], expected: &[u8], seen: &[u8]) -> Option<Difference> {
    if expected == seen {
        return None;
    }
    let ends = |byte: &u8| *byte == b'\n';
    let mut asked = script.split_inclusive(ends);
    let (mut wanted, mut given) = (expected.split_inclusive(ends), seen.split_inclusive(ends));
    for line in 1.. {
        let (asked, expected, seen) = (asked.next(), wanted.next(), given.next());
        if expected != seen {
            let [asked, expected, seen] = [asked, expected, seen].map(shown);
            return Some(Difference { line, asked, expected, seen });
        }
    }
    None
}
