//! The ways study of the library beside the Rust model's, which simulates four caches.

use std::hint::black_box;
use std::time::Instant;

use compare::random::Rng;
use compare::study::study;
use nicoisetarn::{study_ways, STUDY_ITEMS, STUDY_LINES, STUDY_SCRATCH, STUDY_WAYS};

use crate::Arguments;

/// Set counts.
const SETS: [u32; 2] = [1, 64];

/// Makes the next line number for so many sets, from the one before.
type Next = fn(&mut Rng, u32, u32) -> u32;

/// The lists, by what is in them.
const LISTS: [(&str, Next); 3] = [
    ("any line", |rng, _, _| rng.below(STUDY_LINES.into()) as u32),
    ("as many lines as four ways hold", |rng, sets, _| {
        rng.below(u64::from(sets) * STUDY_WAYS as u64) as u32
    }),
    ("the same line or a near one", |rng, _, before| match rng.below(4) {
        0 => (before + 1) % STUDY_LINES,
        1 => before.saturating_sub(rng.below(8) as u32),
        _ => before,
    }),
];

/// The longest list.
fn list(next: Next, sets: u32) -> Vec<u32> {
    let mut rng = Rng::new(1);
    let mut line = 0;
    let mut items = || {
        line = next(&mut rng, sets, line);
        line
    };
    (0..STUDY_ITEMS).map(|_| items()).collect()
}

/// What a study gives, and nanoseconds an item.
fn timed<R>(made: impl FnOnce() -> R) -> (R, f64) {
    let begun = Instant::now();
    let given = black_box(made());
    (given, begun.elapsed().as_nanos() as f64 / STUDY_ITEMS as f64)
}

/// The best of so many rounds, in which both take turns; both must give the same.
fn best(items: &[u32], sets: u32, rounds: u64) -> Result<[f64; 2], String> {
    let mut scratch = [0; STUDY_SCRATCH];
    let mut best = [f64::MAX; 2];
    for _ in 0..rounds {
        let (library, of_library) = timed(|| study_ways(black_box(items), sets, &mut scratch));
        let (model, of_model) = timed(|| study(black_box(items), sets, &mut scratch));
        match (library, model) {
            (Ok(ours), Ok(theirs)) if (ours.hits, ours.rates) == (theirs.hits, theirs.rates) => {}
            _ => return Err("studies: the two do not agree".to_string()),
        }
        best = [best[0].min(of_library), best[1].min(of_model)];
    }
    Ok(best)
}

/// Prints the table.
pub fn table(read: &Arguments) -> Result<(), String> {
    let rounds = read.rounds;
    println!(
        "\nThe ways study of {STUDY_ITEMS} items, nanoseconds an item: the best of {rounds} rounds.\n"
    );
    println!("| list | sets | library, ns | Rust study, ns | ratio |\n|---|---|---|---|---|");
    for (what, next) in LISTS {
        for sets in SETS {
            let [library, model] = best(&list(next, sets), sets, rounds)?;
            println!("| {what} | {sets} | {library:.1} | {model:.1} | {:.2} |", library / model);
        }
    }
    Ok(())
}
