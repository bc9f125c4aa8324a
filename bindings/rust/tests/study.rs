//! The ways study of the library beside that of the Rust model: random lists, set counts
//! and scratches, the refused ones among them, and the limits one by one. Each result is
//! compared whole, and every number of the list and of the scratch.

mod numbered;

use compare::counts::Counts;
use compare::study::random::{self, Input};
use compare::study::{self, counts, plain};
use nicoisetarn::{study_ways, Refusal, Study, STUDY_ITEMS, STUDY_LINES, STUDY_SCRATCH};
use numbered::{StudyNumbers, STUDY_REFUSED};

/// Random inputs of a test.
const INPUTS: u64 = 20_000;

/// What the library must give where the model answers this.
fn numbers(answer: Result<study::Study, u32>) -> StudyNumbers {
    match answer {
        Ok(study) => StudyNumbers { refusal: 0, hits: study.hits, rates: study.rates },
        Err(refusal) => StudyNumbers { refusal, ..STUDY_REFUSED },
    }
}

/// Studies an input by both, and compares the results and what is left of the numbers.
fn compared(input: &Input) -> StudyNumbers {
    let (expected, left) = input.play(study::study);
    let (items, mut scratch) = (input.items.clone(), input.scratch.clone());
    let told = numbered::study(&items, input.sets, &mut scratch);
    assert_eq!(told, numbers(expected), "seed {}", input.seed);
    assert!(scratch == left, "seed {}: the scratch", input.seed);
    assert!(items == input.items, "seed {}: the items", input.seed);
    told
}

#[test]
fn random_lists_are_studied_as_by_the_model() {
    let mut met = Counts::default();
    for seed in 0..INPUTS {
        let input = random::input(seed);
        compared(&input);
        met.add(&counts::count(&input, &plain::expected(&input)));
    }
    assert_eq!(counts::lacking(&met), Vec::<String>::new());
}

/// An input with a scratch of so many numbers that are not 0.
fn input(items: Vec<u32>, sets: u32, scratch: usize) -> Input {
    Input { seed: 0, items, sets, scratch: (1..=scratch as u32).collect() }
}

/// Items that are allowed.
const LINES: [u32; 4] = [0, 5, 0, STUDY_LINES - 1];

#[test]
fn set_counts_alone_refuse() {
    for sets in (0..130).chain([256, 1 << 31, u32::MAX]) {
        let allowed = sets.is_power_of_two() && sets <= 64;
        let told = compared(&input(LINES.to_vec(), sets, STUDY_SCRATCH));
        assert_eq!(told == STUDY_REFUSED, !allowed, "{sets} sets");
    }
}

#[test]
fn scratches_alone_refuse() {
    for scratch in 0..2 * STUDY_SCRATCH {
        let told = compared(&input(LINES.to_vec(), 1, scratch));
        assert_eq!(told == STUDY_REFUSED, scratch != STUDY_SCRATCH, "scratch of {scratch}");
    }
}

#[test]
fn items_alone_refuse() {
    let bad = [STUDY_LINES, STUDY_LINES + 1, 1 << 16, 1 << 31, u32::MAX];
    for (place, item) in (0..4).flat_map(|place| bad.map(|item| (place, item))) {
        let mut items = LINES.to_vec();
        items[place] = item;
        let told = compared(&input(items, 1, STUDY_SCRATCH));
        assert_eq!(told, STUDY_REFUSED, "item {item} at {place}");
    }
}

#[test]
fn lengths_of_lists() {
    let longest = compared(&input(vec![7; STUDY_ITEMS], 64, STUDY_SCRATCH));
    assert_eq!((longest.hits, longest.rates), ([STUDY_ITEMS as u32 - 1; 4], [1000; 4]));
    assert_eq!(compared(&input(vec![7; STUDY_ITEMS + 1], 64, STUDY_SCRATCH)), STUDY_REFUSED);
    assert_eq!(compared(&input(Vec::new(), 64, STUDY_SCRATCH)).rates, [0; 4]);
}

/// The function of the crate says the same.
#[test]
fn the_crate_tells_a_study_or_its_refusal() {
    let mut scratch = [9; STUDY_SCRATCH + 1];
    let refused = study_ways(&[1], 1, &mut scratch);
    assert_eq!((refused, scratch), (Err(Refusal::Study), [9; STUDY_SCRATCH + 1]));
    let told = study_ways(&[1, 2, 1], 1, &mut scratch[..STUDY_SCRATCH]);
    assert_eq!(told, Ok(Study { hits: [0, 1, 1, 1], rates: [0, 333, 333, 333] }));
    assert!(scratch[..STUDY_SCRATCH].iter().all(|number| *number == 0));
    assert_eq!(scratch[STUDY_SCRATCH], 9);
}
