//! The ways study: examples worked by hand, edges, random inputs beside the plain
//! statement, and every switched fault noticed.

use std::sync::OnceLock;

use compare::counts::Counts;
use compare::study::counts;
use compare::study::fault::{Fault, ALL};
use compare::study::plain::{self, Expected};
use compare::study::random::{self, Input};
use compare::study::{
    study, Planner, Right, Study, LINES, MAX_ITEMS, MAX_SETS, REFUSAL, SCRATCH, WAYS,
};

/// The set counts of the paper.
const SETS: [u32; 7] = [1, 2, 4, 8, 16, 32, 64];

/// Inputs within which a fault must be noticed.
const BOUND: u64 = 800;

/// A study in a scratch full of other numbers, which must be zero afterwards.
fn studied(items: &[u32], sets: u32) -> Study {
    let mut scratch = [0xA5A5_A5A5; SCRATCH];
    let found = study(items, sets, &mut scratch).unwrap();
    assert_eq!(scratch, [0; SCRATCH]);
    found
}

/// Holds when the study is refused and the scratch left as it was.
fn is_refused(items: &[u32], sets: u32, length: usize) -> bool {
    let mut scratch = vec![0xA5A5_A5A5; length];
    let answer = study(items, sets, &mut scratch);
    answer == Err(REFUSAL) && scratch == vec![0xA5A5_A5A5; length]
}

#[test]
fn worked_by_hand() {
    assert_eq!(studied(&[0, 1, 0, 1], 1).hits, [0, 2, 2, 2]);
    assert_eq!(studied(&[0, 1, 0, 1], 1).rates, [0, 500, 500, 500]);
    // Each goes to a set of its own.
    assert_eq!(studied(&[0, 1, 0, 1], 2).hits, [2, 2, 2, 2]);
    assert_eq!(studied(&[0, 2, 0, 2], 2).hits, [0, 2, 2, 2]);
    // Four other lines since: evicted with four ways too.
    assert_eq!(studied(&[0, 1, 2, 3, 4, 0], 1), Study::default());
    assert_eq!(studied(&[0, 1, 2, 3, 0], 1).hits, [0, 0, 0, 1]);
    assert_eq!(studied(&[0, 1, 2, 0], 1).hits, [0, 0, 1, 1]);
    assert_eq!(studied(&[0, 1, 0], 1).hits, [0, 1, 1, 1]);
    assert_eq!(studied(&[0, 0], 1).hits, [1, 1, 1, 1]);
    // Different lines count, not uses.
    assert_eq!(studied(&[0, 1, 1, 1, 1, 1, 0], 1).hits, [4, 5, 5, 5]);
    // A hit uses its line: with two ways 2 evicts 1.
    assert_eq!(studied(&[0, 1, 0, 2, 0, 1], 1).hits, [0, 2, 3, 3]);
    // The first and the last line, before which nothing is present.
    assert_eq!(studied(&[0], 1).hits, [0; WAYS]);
    assert_eq!(studied(&[LINES - 1, 0, LINES - 1], 64).hits, [1; WAYS]);
}

#[test]
fn items_by_hand() {
    let hits = Right::by_item(&[5, 6, 5, 7, 8, 5, 9, 6, 6], 1);
    let (none, all) = ([false; WAYS], [true; WAYS]);
    let (two, three) = ([false, true, true, true], [false, false, true, true]);
    assert_eq!(hits, [none, none, two, none, none, three, none, none, all]);
}

#[test]
fn rates_by_hand() {
    // One hit in 16 is 62.5, three are 187.5.
    let mut items: Vec<u32> = (0..16).collect();
    assert_eq!(studied(&items, 1).rates, [0; WAYS]);
    items[1] = 0;
    let one = Study { hits: [1; WAYS], rates: [63; WAYS] };
    assert_eq!(studied(&items, 1), one);
    items[2..4].fill(0);
    assert_eq!(studied(&items, 1), Study { hits: [3; WAYS], rates: [188; WAYS] });
    // One in 17 is 58.8, one in 15 is 66.7, one in three 333.3, two in three 666.7.
    let once = |length: u32| studied(&[&[0][..], &Vec::from_iter(0..length)].concat(), 1).rates;
    assert_eq!((once(16), once(14)), ([59; WAYS], [67; WAYS]));
    assert_eq!((once(2), studied(&[7, 7, 7], 1).rates), ([333; WAYS], [667; WAYS]));
    // One in 2,000 is a half; one in 2,001 is less.
    assert_eq!((once(1999), once(2000)), ([1; WAYS], [0; WAYS]));
}

#[test]
fn empty_list() {
    for sets in SETS {
        assert_eq!(studied(&[], sets), Study::default());
    }
}

#[test]
fn longest_list() {
    for sets in SETS {
        let same = Study { hits: [65_535; WAYS], rates: [1000; WAYS] };
        assert_eq!(studied(&vec![LINES - 1; MAX_ITEMS], sets), same);
        // All lines in turn: never again before four others of the set.
        let turns: Vec<u32> = (0..MAX_ITEMS as u32).map(|at| at % LINES).collect();
        assert_eq!(studied(&turns, sets), Study::default());
    }
    let pairs: Vec<u32> = (0..MAX_ITEMS as u32).map(|at| at % 2).collect();
    let rates = [0, 1000, 1000, 1000];
    assert_eq!(studied(&pairs, 1), Study { hits: [0, 65_534, 65_534, 65_534], rates });
}

/// A list that is too long, beside the longest.
#[test]
fn lists_outside() {
    assert_eq!((MAX_ITEMS, LINES, MAX_SETS, SCRATCH, REFUSAL), (65_536, 4_096, 64, 640, 22));
    assert!(is_refused(&vec![0; 65_537], 1, 640));
    assert_eq!(studied(&vec![0; 65_536], 1).hits, [65_535; WAYS]);
}

/// Items that are no line, at each place, beside the last line.
#[test]
fn items_outside() {
    let bad = [4_096, 4_097, 65_536, u32::MAX];
    for (bad, at) in bad.into_iter().flat_map(|bad| [0, 1, 2].map(|at| (bad, at))) {
        let mut items = [4_095; 3];
        items[at] = bad;
        assert!(is_refused(&items, 1, 640), "{bad} at {at}");
    }
    assert_eq!(studied(&[4_095; 3], 1).hits, [2; WAYS]);
}

/// A list that is empty, and one that is not.
const LISTS: [&[u32]; 2] = [&[], &[0, 1, 0]];

/// Every set count is one of the paper's, or refused.
#[test]
fn set_counts_outside() {
    let counts = (0..300).chain([1 << 31, u32::MAX]);
    for (sets, items) in counts.flat_map(|sets| LISTS.map(|items| (sets, items))) {
        assert_eq!(is_refused(items, sets, 640), !SETS.contains(&sets), "{sets} sets");
    }
}

/// Every other length of the scratch is refused.
#[test]
fn scratches_outside() {
    for (length, items) in (0..1_300).flat_map(|length| LISTS.map(|items| (length, items))) {
        assert_eq!(is_refused(items, 1, length), length != 640, "scratch of {length}");
    }
}

/// Every list of at most seven items of five lines, with one set and with two.
#[test]
fn every_short_list() {
    const LONGEST: u32 = 7;
    let mut scratch = [0; SCRATCH];
    for (length, sets) in (0..=LONGEST).flat_map(|length| [(length, 1), (length, 2)]) {
        for number in 0..5u32.pow(length) {
            let items: Vec<u32> = (0..length).map(|at| number / 5u32.pow(at) % 5).collect();
            let plain = plain::hits(&items, sets);
            assert_eq!(Right::by_item(&items, sets), plain, "{items:?}, {sets} sets");
            let counts = [0, 1, 2, 3].map(|at| plain.iter().filter(|item| item[at]).count());
            let found = study(&items, sets, &mut scratch).unwrap();
            assert_eq!(found.hits.map(|hits| hits as usize), counts, "{items:?}, {sets} sets");
        }
    }
}

/// The rate of every short list and of some long ones, at most a half off.
#[test]
fn rates_by_their_inequalities() {
    let lengths = (0..=420).chain([1_999, 2_000, 2_001, 65_535, 65_536]);
    for (items, hits) in lengths.flat_map(|items| {
        let step = 1 + items / 500;
        (0..=items).step_by(step).map(move |hits| (items, hits))
    }) {
        let rate = plain::rate(hits, items);
        assert_eq!(Right::rate(hits as u32, items as u32), rate, "{hits} of {items}");
        let near = |rate: u32| (2000 * hits as u64).abs_diff(2 * u64::from(rate) * items as u64);
        assert!(near(rate) <= items as u64, "{hits} of {items}");
    }
}

/// Random inputs with what the card says of them.
fn inputs() -> &'static [(Input, Expected)] {
    static INPUTS: OnceLock<Vec<(Input, Expected)>> = OnceLock::new();
    INPUTS.get_or_init(|| {
        let judged = |input: Input| (input.clone(), plain::expected(&input));
        (0..BOUND).map(random::input).map(judged).collect()
    })
}

/// The first seed at which a study is noticed, and by what.
fn noticed(fault: Fault) -> Option<(u64, String)> {
    inputs().iter().find_map(|(input, expected)| {
        let (answer, scratch) = input.play(fault.study());
        Some((input.seed, expected.judge(&answer, &scratch).err()?))
    })
}

#[test]
fn right_study_passes() {
    let mut met = Counts::default();
    for seed in 1_000_000..1_002_000 {
        let input = random::input(seed);
        let expected = plain::expected(&input);
        let (answer, scratch) = input.play(study);
        let judged = expected.judge(&answer, &scratch);
        assert_eq!(judged, Ok(()), "seed {seed}");
        if answer.is_ok() {
            let hits = Right::by_item(&input.items, input.sets);
            assert_eq!(expected.judge_items(&hits), Ok(()), "seed {seed}");
            assert_eq!(plain::not_included(&hits), None, "seed {seed}");
        }
        met.add(&counts::count(&input, &expected));
    }
    println!("items {}\n{}", met.calls, met.rows(counts::NEEDED));
    assert_eq!(counts::lacking(&met), Vec::<String>::new());
}

#[test]
fn a_seed_makes_one_input() {
    assert_eq!(random::input(5), random::input(5));
    assert_ne!(random::input(5).items, random::input(6).items);
}

#[test]
fn every_fault_is_noticed() {
    assert_eq!(noticed(Fault::None), None);
    let passes = |fault: &Fault| {
        let found = noticed(*fault);
        println!("{fault:?}: {found:?}");
        found.is_none()
    };
    let missed: Vec<Fault> = ALL.iter().copied().filter(passes).collect();
    assert_eq!(missed, []);
}

/// What is noticed by the card's last claim alone: an item that hits with some ways and
/// not with more.
#[test]
fn inclusion_alone_notices() {
    let excludes = |fault: Fault| {
        let allowed = inputs().iter().filter(|(_, expected)| expected.answer.is_ok());
        let mut hits = allowed.map(|(input, _)| fault.by_item()(&input.items, input.sets));
        hits.any(|hits| plain::not_included(&hits).is_some())
    };
    assert!(!excludes(Fault::None));
    for fault in [
        Fault::HitsReversed,
        Fault::HitsOfFewestWays,
        Fault::MissesCounted,
        Fault::HitWithoutUse,
        Fault::UseAgesAll,
    ] {
        assert!(excludes(fault), "{fault:?}");
    }
}
