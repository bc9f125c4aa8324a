//! Demand 3 as scripts show it: a script of many runs, and the same script with a
//! dropped stretch struck from each. What answers the remaining lines is the same.

use crate::counts::Counts;
use crate::dropped;
use crate::long::{lines_of, setup};
use crate::met::{Teller, Told};
use crate::program::{difference, Difference};
use crate::random::{told_run, Mix, Rng, Run};
use crate::script::Command;
use crate::stretch::{self, Given, Stretch};
use crate::types::{Answer, Call};

/// Stretches struck from one run, each from a copy of its own.
const STRETCHES: u64 = 3;

/// What struck stretches must have in them, out of so many stretches.
pub const NEEDED: [(&str, u64); 10] = [
    ("stretch struck", 1),
    ("load struck", 3),
    ("waiting load struck", 4),
    ("answered inquiry struck", 20),
    ("store struck", 8),
    ("waiting load struck, request remains", 20),
    ("waiting load struck, drain remains", 10),
    ("waiting load struck, reply remains", 6),
    ("waiting load struck, dirty eviction remains", 15),
    ("forwarded load struck", 25),
];

/// A script and the same with stretches struck.
#[derive(Default)]
pub struct Pair {
    pub whole: Vec<u8>,
    pub struck: Vec<u8>,
    /// The lines of the whole script that remain, counted from 0.
    kept: Vec<usize>,
    /// Lines of the whole script.
    lines: usize,
}

impl Pair {
    /// Adds a run, and the same run with a stretch struck.
    fn add(&mut self, lines: &[String], given: &[Given], stretch: Stretch) {
        self.whole.extend(lines.concat().as_bytes());
        let calls = dropped::remaining(given, stretch).into_iter().map(|place| place + 1);
        for place in std::iter::once(0).chain(calls) {
            self.struck.extend(lines[place].as_bytes());
            self.kept.push(self.lines + place);
        }
        self.lines += lines.len();
    }

    /// Where the answers to the remaining lines differ first, if they do.
    pub fn difference(&self, whole: &[u8], struck: &[u8]) -> Option<Difference> {
        let lines: Vec<&[u8]> = whole.split_inclusive(|byte| *byte == b'\n').collect();
        let remaining = self.kept.iter().filter_map(|place| lines.get(*place));
        let expected: Vec<u8> = remaining.flat_map(|line| line.iter().copied()).collect();
        difference(&self.struck, &expected, struck)
    }
}

/// The lines of a run with their LFs, and what the model says of them.
fn told(run: &Run) -> (Vec<String>, Vec<Told>) {
    let mut teller = Teller::default();
    let lines = lines_of(run).map(|line| {
        teller.line(line.as_bytes());
        line + "\n"
    });
    (lines.collect(), teller.told)
}

/// What a line of a run gave; none for its G.
fn given(told: &Told) -> Option<Given> {
    match told.command {
        Some(Command::Step(call)) => Some(Given { call, answer: told.answer, bytes: Vec::new() }),
        _ => None,
    }
}

/// What is in a stretch, in the order of `NEEDED`.
fn inside(told: &[Told], stretch: Stretch) -> [bool; 10] {
    let lines = &told[1..][stretch.first..=stretch.end];
    let given: Vec<(Call, Answer)> =
        lines.iter().filter_map(given).map(|one| (one.call, one.answer)).collect();
    let has = |wanted: &dyn Fn(&(Call, Answer)) -> bool| given.iter().any(wanted);
    let answers = |wanted: fn(&Answer) -> bool| given.iter().any(|(_, answer)| wanted(answer));
    let waits =
        has(&|(call, answer)| matches!(call, Call::Load { .. }) && answer.waits().is_some());
    let struck = |call: Call| (stretch.kind.struck)(call, stretch.n);
    let inquiry = has(&|one| match one {
        (Call::Retry { .. }, Answer::Value { .. }) => struck(one.0),
        _ => false,
    });
    [
        true,
        has(&|(call, answer)| matches!(call, Call::Load { .. }) && answer.accepted()),
        waits,
        inquiry,
        answers(|answer| matches!(answer, Answer::Stored(_))),
        waits && answers(|answer| matches!(answer, Answer::Requested(_))),
        waits && answers(|answer| matches!(answer, Answer::Drained(_))),
        waits && answers(|answer| matches!(answer, Answer::Filled(_))),
        waits && lines.iter().any(Told::evicts),
        lines.iter().any(|line| line.forwarded),
    ]
}

/// One of the stretches, mostly one with a reply beside a waiting load.
fn choose(rng: &mut Rng, told: &[Told], stretches: &[Stretch]) -> Option<Stretch> {
    let rich = |stretch: &Stretch| inside(told, *stretch)[7];
    let chosen: Vec<Stretch> = stretches.iter().copied().filter(rich).collect();
    match (chosen.is_empty(), stretches.is_empty()) {
        (_, true) => None,
        (false, _) if !rng.one_in(3) => Some(rng.pick(&chosen)),
        _ => Some(rng.pick(stretches)),
    }
}

/// Makes the pair of a seed out of so many runs, and counts what is struck.
pub fn pair(seed: u64, runs: usize, counts: &mut Counts) -> Pair {
    let mut rng = Rng::new(seed);
    let mut pair = Pair::default();
    for _ in 0..runs {
        let (setup, length) = (setup(&mut rng), 20 + rng.below(150) as usize);
        let (run, before) = told_run(&mut rng, setup, length, Mix::Struck);
        let (lines, told) = told(&run);
        let given: Vec<Given> = told.iter().filter_map(given).collect();
        let mut stretches = stretch::stretches(1, &given);
        stretches.retain(|stretch| stretch.end < before);
        for _ in 0..STRETCHES {
            let Some(stretch) = choose(&mut rng, &told, &stretches) else { break };
            pair.add(&lines, &given, stretch);
            for ((name, _), met) in NEEDED.iter().zip(inside(&told, stretch)) {
                counts.met(name, met);
            }
        }
    }
    pair
}
