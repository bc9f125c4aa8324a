//! The script player: lines of a letter and numbers in, one answer line each out.

use std::io::{self, BufRead, BufReader, BufWriter, ErrorKind, Write};

use crate::check;
use crate::model::{Machine, Right};
use crate::types::{Answer, Call, Setup, Snapshot, State, Step, WritePolicy};

/// Bytes a line may have before its LF.
const LONGEST: usize = 64;

/// The part of a line that a piece of the input ended in: its first bytes and
/// its length.
struct Held {
    bytes: [u8; LONGEST],
    length: usize,
}

impl Held {
    fn push(&mut self, more: &[u8]) {
        if let Some(room) = self.bytes.get_mut(self.length..) {
            let taken = room.len().min(more.len());
            room[..taken].copy_from_slice(&more[..taken]);
        }
        self.length = self.length.saturating_add(more.len());
    }

    /// The whole line, unless it is too long; the next one begins.
    fn take(&mut self) -> Option<&[u8]> {
        let length = std::mem::take(&mut self.length);
        self.bytes.get(..length)
    }

    /// Hands over each line that ends in a piece of the input and holds the rest.
    fn lines(
        &mut self,
        mut piece: &[u8],
        mut answer: impl FnMut(Option<&[u8]>) -> io::Result<()>,
    ) -> io::Result<()> {
        while let Some(end) = piece.iter().position(|byte| *byte == b'\n') {
            let (line, rest) = (&piece[..end], &piece[end + 1..]);
            if self.length == 0 {
                answer(Some(line))?;
            } else {
                self.push(line);
                answer(self.take())?;
            }
            piece = rest;
        }
        self.push(piece);
        Ok(())
    }
}

/// A line that is well written.
#[derive(Clone, Copy, Debug, PartialEq, Eq)]
pub enum Command {
    /// G: sets, ways, memory length.
    Begin(Setup),
    Step(Call),
}

/// An unsigned decimal of 32 bits; leading zeros are allowed.
fn number(digits: &[u8]) -> Option<u32> {
    if digits.is_empty() {
        return None;
    }
    digits.iter().try_fold(0u32, |sum, digit| {
        let digit = digit.is_ascii_digit().then(|| u32::from(digit - b'0'))?;
        sum.checked_mul(10)?.checked_add(digit)
    })
}

/// The numbers of a line, each after one space, and how many there are.
fn numbers(rest: &[u8]) -> Option<([u32; 3], usize)> {
    let mut found = [0; 3];
    let mut count = 0;
    if rest.is_empty() {
        return Some((found, count));
    }
    for digits in rest.strip_prefix(b" ")?.split(|byte| *byte == b' ') {
        *found.get_mut(count)? = number(digits)?;
        count += 1;
    }
    Some((found, count))
}

/// A line's command, or none when the line is malformed.
pub fn command(line: &[u8]) -> Option<Command> {
    if line.len() > LONGEST {
        return None;
    }
    let (letter, rest) = line.split_first()?;
    let (n, count) = numbers(rest)?;
    let call = match (letter, count) {
        (b'G', 3) => return Some(Command::Begin(Setup::new(n[0], n[1], n[2]))),
        (b'S', 3) => Call::Store { address: n[0], width: n[1], value: n[2] },
        (b'L', 2) => Call::Load { address: n[0], width: n[1] },
        (b'A', 1) => Call::Retry { number: n[0] },
        (b'C', 1) => Call::Commit { number: n[0] },
        (b'X', 1) => Call::Abort { number: n[0] },
        (b'I', 0) => Call::Idle,
        (b'R', 0) => Call::Reply,
        (b'F', 0) => Call::Flush,
        _ => return None,
    };
    Some(Command::Step(call))
}

/// The G that begins a run, which must be in write-back.
pub fn begin_line(setup: Setup) -> String {
    let Setup { figures, memory } = setup;
    assert_eq!(figures.policy, WritePolicy::WriteBack, "no script has another write profile");
    format!("G {} {} {memory}", figures.sets, figures.ways)
}

/// A call as a script line; a start, show line, the two calls on marks and the preview have
/// none: the player keeps its letters. Scripts are made of the other calls.
pub fn line_of(call: Call) -> Option<String> {
    Some(match call {
        Call::Start { .. } | Call::ShowLine { .. } => return None,
        Call::Checkpoint { .. } | Call::Restore { .. } | Call::Preview => return None,
        Call::Load { address, width } => format!("L {address} {width}"),
        Call::Store { address, width, value } => format!("S {address} {width} {value}"),
        Call::Retry { number } => format!("A {number}"),
        Call::Commit { number } => format!("C {number}"),
        Call::Abort { number } => format!("X {number}"),
        Call::Idle => "I".to_string(),
        Call::Reply => "R".to_string(),
        Call::Flush => "F".to_string(),
    })
}

/// A run that goes on.
struct Going {
    state: State,
    cache: Vec<u8>,
    memory: Vec<u8>,
}

/// A script in play on a machine: the run that goes on, once a G was accepted.
pub struct Playing {
    step: Step,
    going: Option<Going>,
}

impl Playing {
    pub fn new(step: Step) -> Playing {
        Playing { step, going: None }
    }

    /// State, cache and memory, once a G was accepted.
    pub fn now(&self) -> Option<Snapshot<'_>> {
        let run = self.going.as_ref()?;
        Some(Snapshot { state: &run.state, cache: &run.cache, memory: &run.memory })
    }

    /// G: a new run over zeroed memory; refused, the run going on stays.
    fn begin(&mut self, setup: Setup) -> Answer {
        let (figures, length) = (setup.figures, setup.memory as usize);
        if !check::figures_allowed(figures, length) {
            return Answer::Refused(1);
        }
        let (mut state, mut memory) = (State::zero(), vec![0; length]);
        let mut cache = vec![0; check::cache_length(figures)];
        let answer = (self.step)(&mut state, &mut cache, &mut memory, Call::Start { figures });
        if answer.accepted() {
            self.going = Some(Going { state, cache, memory });
        }
        answer
    }

    /// The answer to a line; none stands for one that is too long.
    pub fn answer(&mut self, line: Option<&[u8]>) -> Answer {
        match (line.and_then(command), &mut self.going) {
            (Some(Command::Begin(setup)), _) => self.begin(setup),
            (Some(Command::Step(call)), Some(run)) => {
                (self.step)(&mut run.state, &mut run.cache, &mut run.memory, call)
            }
            _ => Answer::Refused(6),
        }
    }
}

/// The word of an answer and its numbers.
fn words(answer: Answer) -> (&'static str, Option<u32>, Option<u32>) {
    match answer {
        Answer::Ready => ("ready", None, None),
        Answer::Stored(number) => ("stored", Some(number), None),
        Answer::Value { number, value } => ("value", Some(number), Some(value)),
        Answer::Waits(number) => ("waits", Some(number), None),
        Answer::WaitsRequested(number) => ("waits-requested", Some(number), None),
        Answer::Committed(number) => ("committed", Some(number), None),
        Answer::Kept(number) => ("kept", Some(number), None),
        Answer::Requested(address) => ("request", Some(address), None),
        Answer::Filled(address) => ("filled", Some(address), None),
        Answer::Drained(number) => ("drained", Some(number), None),
        Answer::Idle => ("idle", None, None),
        Answer::Flushed(words) => ("flushed", Some(words), None),
        Answer::Refused(no) => ("refused", Some(no), None),
        // No letter of the script shows a line, sets a mark or previews a reply.
        Answer::Shown(_) | Answer::Checkpointed(_) | Answer::Previewed(_) => ("", None, None),
    }
}

/// The bytes of an output line from its end backwards. The longest ones are "value" with
/// its two numbers and the LF, 28 bytes, and "waits-requested" with its number, 27.
struct Text {
    bytes: [u8; 32],
    first: usize,
}

impl Text {
    fn push(&mut self, byte: u8) {
        self.first -= 1;
        self.bytes[self.first] = byte;
    }

    /// A space and a number.
    fn push_number(&mut self, mut number: u32) {
        loop {
            self.push(b'0' + (number % 10) as u8);
            number /= 10;
            if number == 0 {
                break;
            }
        }
        self.push(b' ');
    }
}

/// Writes an answer as its output line.
fn write_answer(output: &mut impl Write, answer: Answer) -> io::Result<()> {
    let (word, first, second) = words(answer);
    let mut text = Text { bytes: [b'\n'; 32], first: 31 };
    for number in [second, first].into_iter().flatten() {
        text.push_number(number);
    }
    let first = text.first - word.len();
    text.bytes[first..text.first].copy_from_slice(word.as_bytes());
    output.write_all(&text.bytes[first..])
}

/// Plays a script from a reader to a writer, line by line, on a machine.
pub fn play_stream(step: Step, mut input: impl BufRead, mut output: impl Write) -> io::Result<()> {
    let mut playing = Playing::new(step);
    let mut held = Held { bytes: [0; LONGEST], length: 0 };
    loop {
        let piece = match input.fill_buf() {
            Err(error) if error.kind() == ErrorKind::Interrupted => continue,
            piece => piece?,
        };
        let read = piece.len();
        if read == 0 {
            break;
        }
        held.lines(piece, |line| write_answer(&mut output, playing.answer(line)))?;
        input.consume(read);
    }
    if held.length > 0 {
        write_answer(&mut output, Answer::Refused(6))?;
    }
    output.flush()
}

/// Plays standard input to standard output on a machine.
pub fn play_standard(step: Step) -> io::Result<()> {
    let input = BufReader::with_capacity(1 << 16, io::stdin().lock());
    let output = BufWriter::with_capacity(1 << 16, io::stdout().lock());
    play_stream(step, input, output)
}

/// Plays a script held in memory on the right model. Any bytes are a script.
pub fn play(script: &[u8]) -> Vec<u8> {
    let mut output = Vec::new();
    // A slice and a Vec never fail to read and to write.
    let _ = play_stream(Right::step, script, &mut output);
    output
}
