//! A mixed run in lists of calls: the library beside the Rust model, with its checks
//! and without checks 1 and 10.

use std::hint::black_box;
use std::time::Instant;

use compare::check;
use compare::model::{Machine, Right, Unchecked};
use compare::times::Times;
use compare::types::{Call, Setup};
use nicoisetarn::{Batch, Image};

use crate::{beside, mixed_calls, Arguments, PIECE, SETUPS};

/// Calls of a list.
const LISTS: [usize; 3] = [250, 16, 1];

/// From the smallest to the largest.
const GEOMETRIES: [Setup; 4] =
    [Setup::new(1, 1, 16), Setup::new(4, 2, 1024), Setup::new(16, 4, 16384), SETUPS[1]];

/// A run after its start, in pieces that are timed one by one.
struct Run {
    setup: Setup,
    /// The calls of each piece, for the model.
    calls: Vec<Vec<Call>>,
    /// The same in lists, for the library.
    lists: Vec<Vec<Batch>>,
}

/// Nanoseconds of each piece, then cache and memory at the end.
type Played = (Vec<f64>, [Vec<u8>; 2]);

/// Nanoseconds that something takes.
fn timed(what: impl FnOnce()) -> f64 {
    let begun = Instant::now();
    what();
    begun.elapsed().as_nanos() as f64
}

impl Run {
    fn new(setup: Setup, list: usize) -> Run {
        // A piece has whole lists, and the start is in none.
        let piece = list * PIECE.div_ceil(list);
        let calls: Vec<Vec<Call>> =
            mixed_calls(setup)[1..].chunks(piece).map(<[Call]>::to_vec).collect();
        let listed = |calls: &[Call]| calls.iter().copied().filter_map(beside::call_of).collect();
        let lists = calls.iter().map(|piece| piece.chunks(list).map(listed).collect()).collect();
        Run { setup, calls, lists }
    }

    /// Cache and memory before the start.
    fn lent(&self) -> [Vec<u8>; 2] {
        [vec![0; check::cache_length(self.setup.figures)], vec![0; self.setup.memory as usize]]
    }

    fn library(&mut self) -> Played {
        let [mut cache, mut memory] = self.lent();
        let figures = beside::library_figures(self.setup.figures);
        let mut image = Image::start(figures, &mut cache, &memory).unwrap();
        let pieces = self.lists.iter_mut().map(|lists| {
            timed(|| {
                for list in lists {
                    image.run_batch(&mut cache, &mut memory, black_box(list));
                }
            })
        });
        (pieces.collect(), [cache, memory])
    }

    fn model<M: Machine>(&self) -> Played {
        let [mut cache, mut memory] = self.lent();
        let (mut state, _) = M::start(self.setup.figures, &mut cache, &memory);
        let pieces = self.calls.iter().map(|calls| {
            timed(|| {
                for &call in calls {
                    black_box(M::step(&mut state, &mut cache, &mut memory, call));
                }
            })
        });
        (pieces.collect(), [cache, memory])
    }

    /// The answers in lists are those of the model.
    fn agree(&mut self) -> Result<(), String> {
        self.library();
        let [mut cache, mut memory] = self.lent();
        let (mut state, _) = Right::start(self.setup.figures, &mut cache, &memory);
        let calls = self.calls.iter().flatten();
        let expected = calls.map(|call| Right::step(&mut state, &mut cache, &mut memory, *call));
        let lists = self.lists.iter().flatten();
        match lists.flat_map(Batch::answers).map(beside::answer_of).eq(expected) {
            true => Ok(()),
            false => Err("lists: the answers are not the model's".to_string()),
        }
    }

    /// Nanoseconds a call: of each piece the best of so many rounds, in which the
    /// three take turns.
    fn best(&mut self, rounds: u64) -> Result<Times, String> {
        let mut best = vec![[f64::MAX; 3]; self.calls.len()];
        for _ in 0..rounds {
            let played = [self.library(), self.model::<Right>(), self.model::<Unchecked>()];
            if played.iter().any(|(_, left)| *left != played[1].1) {
                return Err("lists: the machines do not agree".to_string());
            }
            for (who, (pieces, _)) in played.iter().enumerate() {
                for (best, seen) in best.iter_mut().zip(pieces) {
                    best[who] = best[who].min(*seen);
                }
            }
        }
        let calls: usize = self.calls.iter().map(Vec::len).sum();
        let each = |who: usize| best.iter().map(|piece| piece[who]).sum::<f64>() / calls as f64;
        Ok(Times { ours: each(0), checked: each(1), unchecked: each(2) })
    }
}

/// Measures a geometry in lists of so many calls and prints the row.
fn row(read: &Arguments, setup: Setup, list: usize) -> Result<(), String> {
    let mut run = Run::new(setup, list);
    run.agree()?;
    let best = |_| run.best(read.rounds.div_ceil(4));
    let rounds = (0..read.runs).map(best).collect::<Result<Vec<Times>, String>>()?;
    let Times { ours, checked, unchecked } = Times::medians(&rounds);
    let [to_checked, to_unchecked] = Times::ratios(&rounds);
    let Setup { figures, memory } = setup;
    println!(
        "| {} sets, {} ways, {memory} bytes | {list} | {ours:.0} | {checked:.0} | \
         {to_checked:.2} | {unchecked:.0} | {to_unchecked:.2} |",
        figures.sets, figures.ways
    );
    Ok(())
}

/// The head of a table.
fn head(what: &str) {
    println!(
        "\n| {what} | calls in a list | library, ns | Rust model, ns | ratio | \
         unchecked Rust model, ns | ratio |\n|---|---|---|---|---|---|---|"
    );
}

/// Prints the tables.
pub fn tables(read: &Arguments) -> Result<(), String> {
    println!(
        "\nThe mixed run in lists of calls, nanoseconds a call: medians of {} runs, in each of\n\
         which the three take turns and the best of {} rounds counts for each piece. The library\n\
         checks the state once for a list; the Rust model at each call, and the unchecked one never.",
        read.runs,
        read.rounds.div_ceil(4)
    );
    head("mixed run in lists");
    for setup in SETUPS {
        LISTS.into_iter().try_for_each(|list| row(read, setup, list))?;
    }
    head("mixed run in lists: by the geometry");
    GEOMETRIES.into_iter().try_for_each(|setup| row(read, setup, LISTS[0]))
}
