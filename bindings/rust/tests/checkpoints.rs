//! Checkpoints (02: marks) through the boundary: set, returned to and forgotten; the
//! refusals; stretches that leave no trace; and images whose checkpoints no run leads to,
//! each answered as the Rust model answers it.
//!
//! NICOISETARN_TIMES=N in the environment makes N times as many runs.

mod beside;

use beside::refused::{all_refused, answers};
use beside::{in_each_profile, in_force, judge, layout, library_step, played};
use beside::{state_of, times, with_byte, with_word, Bench, Beside};
use compare::check::CLAUSES;
use compare::counts::Counts;
use compare::examine::{examine, Checks};
use compare::random;
use compare::types::{Answer as Told, Call, Part, Preview, Setup, WritePolicy};
use nicoisetarn::{Answer, Checkpoint, Figures, Image, Refusal, Unit, CHECKPOINTS};

/// A start of one set of one way over two lines.
fn started() -> Unit {
    Unit::start(Figures::new(1, 1), vec![0; 32]).unwrap()
}

/// The names and numbers of the checkpoints in force; their ranks are 1, 2 and so on, and
/// the places behind them are zero.
fn marks(image: &Image) -> Vec<(u32, u32)> {
    let marks: Vec<Checkpoint> = in_force(image).collect();
    let (set, free) = image.checkpoints().split_at(marks.len());
    assert_eq!(set, marks);
    assert!(set.iter().zip(1..).all(|(mark, rank)| mark.rank == rank), "{set:?}");
    assert!(free.iter().all(|mark| *mark == Checkpoint::default()), "{free:?}");
    marks.iter().map(|mark| (mark.name, mark.number)).collect()
}

/// A call is refused so, and all stays as it was.
fn refuses(unit: &Unit, refusal: Refusal, call: impl Fn(&mut Unit) -> Result<Answer, Refusal>) {
    let mut after = unit.clone();
    assert_eq!(call(&mut after), Err(refusal));
    assert_eq!(after, *unit, "{refusal}");
}

// ---- set, returned to and forgotten

#[test]
fn set_and_returned_to() -> Result<(), Refusal> {
    let mut unit = started();
    assert_eq!(marks(unit.image()), []);
    unit.store(4, 1, 7)?;
    let before = unit.clone();
    assert_eq!(unit.checkpoint(3)?, Answer::Checkpointed(2));
    assert_eq!(unit.store(4, 1, 8)?, Answer::Stored(2));
    assert_eq!(unit.load(4, 1)?, Answer::Value { number: 3, value: 8 });
    assert_eq!(unit.checkpoint(1)?, Answer::Checkpointed(4));
    assert_eq!(marks(unit.image()), [(3, 2), (1, 4)]);
    assert_eq!(unit.restore(3)?, Answer::Kept(1));
    assert_eq!(unit, before);
    refuses(&unit, Refusal::NoCheckpoint, |u| u.restore(3));
    refuses(&unit, Refusal::NoCheckpoint, |u| u.restore(1));
    assert_eq!(unit.load(4, 1)?, Answer::Value { number: 2, value: 7 });
    Ok(())
}

/// A return forgets by order of setting, not by number, and answers as the abort does.
#[test]
fn returns_keep_what_was_set_earlier() -> Result<(), Refusal> {
    let mut unit = started();
    for (names, number) in [(vec![5, 3], 1), (vec![8, 1, 6], 2), (vec![2], 3)] {
        for name in names {
            assert_eq!(unit.checkpoint(name)?, Answer::Checkpointed(number));
        }
        unit.store(0, 1, number)?;
    }
    assert_eq!(marks(unit.image()), [(5, 1), (3, 1), (8, 2), (1, 2), (6, 2), (2, 3)]);
    let mut aborted = unit.clone();
    assert_eq!((aborted.abort(2)?, unit.restore(1)?), (Answer::Kept(1), Answer::Kept(1)));
    assert_eq!(marks(aborted.image()), [(5, 1), (3, 1), (8, 2), (1, 2), (6, 2)]);
    assert_eq!(marks(unit.image()), [(5, 1), (3, 1), (8, 2)]);
    assert_eq!(unit.image().stores(), aborted.image().stores());
    assert_eq!(unit.restore(3)?, Answer::Kept(0));
    assert_eq!(marks(unit.image()), [(5, 1)]);
    assert_eq!(unit.restore(5)?, Answer::Kept(0));
    assert_eq!(unit, started());
    Ok(())
}

/// A commit forgets marks up to its number and closes the ranks up, an abort marks above
/// its number.
#[test]
fn commits_and_aborts_forget() -> Result<(), Refusal> {
    let mut unit = started();
    for number in 1..=8 {
        assert_eq!(unit.checkpoint(9 - number)?, Answer::Checkpointed(number));
        assert_eq!(unit.store(0, 1, number)?, Answer::Stored(number));
    }
    for n in 0..=8 {
        let mut committed = unit.clone();
        assert_eq!(committed.commit(n)?, Answer::Committed(n));
        let above: Vec<(u32, u32)> = (n + 1..=8).map(|number| (9 - number, number)).collect();
        assert_eq!(marks(committed.image()), above);
        let mut aborted = unit.clone();
        assert_eq!(aborted.abort(n + 1)?, Answer::Kept(n));
        let up_to: Vec<(u32, u32)> =
            (1..=8.min(n + 1)).map(|number| (9 - number, number)).collect();
        assert_eq!(marks(aborted.image()), up_to);
    }
    // What was forgotten can be set anew.
    unit.commit(1)?;
    refuses(&unit, Refusal::NoCheckpoint, |u| u.restore(8));
    assert_eq!(unit.checkpoint(8)?, Answer::Checkpointed(9));
    let last = Checkpoint { name: 8, number: 9, rank: 8 };
    assert_eq!(unit.image().checkpoints()[CHECKPOINTS - 1], last);
    Ok(())
}

#[test]
fn refusals_of_names() -> Result<(), Refusal> {
    let mut unit = started();
    for name in [3, 8, 1, 6, 2, 7, 5, 4] {
        refuses(&unit, Refusal::NoCheckpoint, |u| u.restore(name));
        assert_eq!(unit.checkpoint(name)?, Answer::Checkpointed(1));
        for name in [0, 9, 10, 256, 1 << 31 | 1, u32::MAX] {
            refuses(&unit, Refusal::Name, |u| u.checkpoint(name));
            refuses(&unit, Refusal::Name, |u| u.restore(name));
        }
        refuses(&unit, Refusal::NameInUse, |u| u.checkpoint(name));
    }
    for name in 1..=8 {
        refuses(&unit, Refusal::NameInUse, |u| u.checkpoint(name));
        assert_eq!(unit.clone().restore(name)?, Answer::Kept(0));
    }
    assert_eq!(Refusal::Name.to_string(), "refused 19: name outside 1 to 8");
    assert_eq!(Refusal::NameInUse.to_string(), "refused 20: set: name in use");
    let words = "refused 21: return: name not in use, or set when last is 4294967295";
    assert_eq!(Refusal::NoCheckpoint.to_string(), words);
    Ok(())
}

/// Where no number is left none can be set; a return still goes.
#[test]
fn marks_at_the_last_number() -> Result<(), Refusal> {
    let (image, cache, memory) = started().into_parts();
    let image = with_word(&image, layout::LAST, u32::MAX - 2);
    let image = with_word(&image, layout::COMMITTED, u32::MAX - 2);
    let mut unit = Unit::from_parts(image, cache, memory);
    assert_eq!(unit.checkpoint(1)?, Answer::Checkpointed(u32::MAX - 1));
    unit.store(0, 1, 1)?;
    assert_eq!(unit.checkpoint(2)?, Answer::Checkpointed(u32::MAX));
    unit.store(0, 1, 2)?;
    refuses(&unit, Refusal::NoCheckpoint, |u| u.checkpoint(3));
    refuses(&unit, Refusal::NameInUse, |u| u.checkpoint(2));
    refuses(&unit, Refusal::Name, |u| u.checkpoint(0));
    refuses(&unit, Refusal::NoCheckpoint, |u| u.restore(3));
    assert_eq!(unit.clone().restore(1)?, Answer::Kept(u32::MAX - 2));
    assert_eq!(unit.restore(2)?, Answer::Kept(u32::MAX - 1));
    assert_eq!(unit.checkpoint(3)?, Answer::Checkpointed(u32::MAX));
    Ok(())
}

// ---- stretches

/// One set of one way over three lines.
const SETUP: Setup = Setup::new(1, 1, 48);

fn set(name: u32) -> Call {
    Call::Checkpoint { name }
}

fn back(name: u32) -> Call {
    Call::Restore { name }
}

/// Line 0 present, load 2 of line 2 that waits, store 3 to line 1, marks 7 and 8.
fn before_the_stretch(setup: Setup) -> Bench {
    let calls = [
        Call::Load { address: 0, width: 1 },
        Call::Commit { number: 1 },
        Call::Idle,
        Call::Reply,
        Call::Retry { number: 1 },
        set(7),
        Call::Load { address: 32, width: 1 },
        set(8),
        Call::Store { address: 16, width: 1, value: 200 },
    ];
    let (answers, bench) = played(&Bench::start(setup), &calls);
    assert!(answers.iter().all(Told::accepted), "{answers:?}");
    assert_eq!(marks(&bench.image), [(7, 2), (8, 3)]);
    bench
}

/// A stretch from a mark to the return to it, each call with whether it remains when the
/// stretch is struck. Inside: a second mark at the same number, a set and a return that are
/// refused, a commit of older work, replies that evict, each behind its preview, and a load
/// that waits and, in write-back, is answered late.
const STRETCH: [(Call, bool); 21] = [
    (Call::Checkpoint { name: 1 }, false),
    (Call::Checkpoint { name: 2 }, false),
    (Call::Checkpoint { name: 1 }, false),
    (Call::Restore { name: 3 }, false),
    (Call::Load { address: 20, width: 1 }, false),
    (Call::Commit { number: 3 }, true),
    (Call::Idle, true),
    (Call::Preview, true),
    (Call::Reply, true),
    (Call::Retry { number: 2 }, true),
    (Call::Idle, true),
    (Call::Preview, true),
    (Call::Reply, true),
    (Call::Store { address: 4, width: 1, value: 1 }, false),
    (Call::Retry { number: 4 }, false),
    (Call::Checkpoint { name: 4 }, false),
    (Call::Abort { number: 5 }, false),
    (Call::Store { address: 24, width: 4, value: 1 }, false),
    (Call::Idle, true),
    (Call::Restore { name: 1 }, false),
    (Call::ShowLine { address: 16 }, true),
];

/// What a reply to the one way evicts, where the line is clean.
const fn evicts(line: u32) -> Told {
    Told::Previewed(Preview { way: 0, evicted: Some(line), words: 0, ages: [0; 4] })
}

/// What the stretch answers in write-back.
const IN_WRITE_BACK: [Told; 21] = [
    Told::Checkpointed(4),
    Told::Checkpointed(4),
    Told::Refused(20),
    Told::Refused(21),
    Told::Waits(4),
    Told::Committed(3),
    Told::Requested(32),
    evicts(0),
    Told::Filled(32),
    Told::Value { number: 2, value: 33 },
    Told::Requested(16),
    evicts(2),
    Told::Filled(16),
    Told::Stored(5),
    Told::Value { number: 4, value: 21 },
    Told::Checkpointed(6),
    Told::Kept(4),
    Told::Stored(5),
    Told::Drained(3),
    Told::Kept(3),
    Told::Shown(Part { place: 0, length: 16 }),
];

/// Struck, the stretch leaves the answers that remain, and all that it led to.
#[test]
fn stretches_leave_no_trace() {
    for setup in in_each_profile(&[SETUP]) {
        let found = before_the_stretch(setup);
        let (answers, left) = played(&found, &STRETCH.map(|(call, _)| call));
        if setup.figures.policy == WritePolicy::WriteBack {
            assert_eq!(answers, IN_WRITE_BACK);
        }
        let kept = STRETCH.iter().zip(answers).filter(|((_, remains), _)| *remains);
        let (calls, answers): (Vec<Call>, Vec<Told>) =
            kept.map(|((call, _), answer)| (*call, answer)).unzip();
        assert_eq!(played(&found, &calls), (answers, left));
    }
}

/// The library under the checks of `compare`: the plain rules at every call, flat memory,
/// and stretches of both kinds struck from the runs.
#[test]
fn runs_under_the_plain_rules() {
    let mut counts = Counts::default();
    for seed in 0..120 * times() {
        match examine(&random::run(seed ^ 0xC4EC_0000), library_step, Checks::ALL) {
            Ok(met) => counts.add(&met),
            Err(failure) => panic!("{failure}"),
        }
    }
    let needed = [
        ("mark set", 100),
        ("return to a mark", 100),
        ("dropped stretch", 100),
        ("mark stretch", 100),
        ("mark stretch, load and drain inside", 1_000),
        ("mark stretch, load and eviction inside", 2_000),
        ("mark stretch, second mark and refusals inside", 2_000),
        ("mark stretch, older work committed inside", 2_000),
        ("dropped stretch at a mark, load inside", 4_000),
        ("preview", 100),
        ("preview refused by 17", 500),
        ("reply behind its preview", 500),
        ("dropped stretch, load and preview inside", 1_000),
        ("mark stretch, load and preview inside", 2_000),
        ("load waits, its line requested", 400),
        ("load waits, another line requested", 500),
        ("inquiry waits, its line requested", 400),
        ("inquiry waits, another line requested", 700),
        ("wait beside a request in its set", 1_000),
        ("wait for a requested line, a byte in a store", 4_000),
        ("wait for a line requested for a store", 5_000),
        ("value of stores alone, its line requested", 1_000),
    ];
    judge("runs under the plain rules", &counts, &needed);
}

// ---- images whose checkpoints no run leads to

/// The name, the number and the rank of a checkpoint.
type Numbers = [u32; 3];

/// The checkpoints of `three_marks`: at h + 1, between, and at last + 1.
const THREE: [Numbers; 3] = [[5, 2, 1], [3, 3, 2], [8, 5, 3]];

/// h is 1 and last 4: load 1 waits, and its line is requested; stores 2, 3 and 4 are held;
/// three checkpoints are in force.
fn three_marks(setup: Setup) -> Bench {
    let store = Call::Store { address: 4, width: 1, value: 9 };
    let load = Call::Load { address: 16, width: 1 };
    let calls =
        [load, Call::Commit { number: 1 }, Call::Idle, set(5), store, set(3), store, store, set(8)];
    let (answers, bench) = played(&Bench::start(setup), &calls);
    assert!(answers.iter().all(Told::accepted), "{answers:?}");
    assert_eq!(marks(&bench.image), THREE.map(|[name, number, _]| (name, number)));
    bench
}

/// A call of each kind, all of which `three_marks` takes.
const CALLS: [Call; 12] = [
    Call::ShowLine { address: 0 },
    Call::Load { address: 4, width: 1 },
    Call::Store { address: 0, width: 1, value: 9 },
    Call::Retry { number: 1 },
    Call::Commit { number: 2 },
    Call::Abort { number: 3 },
    Call::Idle,
    Call::Reply,
    Call::Flush,
    Call::Checkpoint { name: 4 },
    Call::Restore { name: 3 },
    Call::Preview,
];

/// The bench with these checkpoints in place of its own.
fn with_checkpoints(bench: &Bench, checkpoints: &[Numbers]) -> Bench {
    let mut bytes = bench.image.to_bytes();
    let places = &mut bytes[layout::CHECKPOINTS_AT..layout::TAGS_AT];
    places.fill(0);
    for (into, number) in places.chunks_exact_mut(4).zip(checkpoints.iter().flatten()) {
        into.copy_from_slice(&number.to_ne_bytes());
    }
    Bench { image: Image::from_bytes(bytes), ..bench.clone() }
}

/// The clauses that the state of a bench breaks, by the model.
fn broken(bench: &Bench) -> Vec<&'static str> {
    let state = state_of(&bench.image).unwrap();
    let broken = CLAUSES.iter().filter(|(_, clause)| !clause(&state, &bench.cache, &bench.memory));
    broken.map(|(name, _)| *name).collect()
}

/// Checkpoints that break one clause alone, with its name in the model.
const ILL_FORMED: [(&str, &[Numbers]); 27] = [
    // A name 0 in a place in use, and a free place with a number or a rank.
    ("free checkpoints zero", &[[5, 2, 1], [3, 3, 2], [0, 5, 3]]),
    ("free checkpoints zero", &[[0, 2, 1]]),
    ("free checkpoints zero", &[[5, 2, 1], [0, 2, 0]]),
    ("free checkpoints zero", &[[5, 2, 1], [0, 0, 2]]),
    // A free place before a mark.
    ("free checkpoints last", &[[0, 0, 0], [5, 2, 1]]),
    ("free checkpoints last", &[[5, 2, 1], [0, 0, 0], [8, 5, 2]]),
    ("free checkpoints last", &[[5, 2, 1], [0, 0, 0], [0, 0, 0], [8, 5, 2]]),
    ("checkpoint names 1 to 8", &[[9, 2, 1]]),
    ("checkpoint names 1 to 8", &[[5, 2, 1], [256, 3, 2], [8, 5, 3]]),
    ("checkpoint names 1 to 8", &[[5, 2, 1], [3, 3, 2], [u32::MAX, 5, 3]]),
    ("checkpoint names 1 to 8", &[[1 << 31 | 5, 2, 1]]),
    ("checkpoint names distinct", &[[5, 2, 1], [5, 3, 2]]),
    ("checkpoint names distinct", &[[5, 2, 1], [3, 3, 2], [5, 5, 3]]),
    ("checkpoints above committed", &[[5, 1, 1], [3, 3, 2]]),
    ("checkpoints above committed", &[[5, 0, 1]]),
    ("checkpoints up to last + 1", &[[5, 6, 1]]),
    ("checkpoints up to last + 1", &[[5, 2, 1], [3, u32::MAX, 2]]),
    ("checkpoints never fall", &[[5, 3, 1], [3, 2, 2], [8, 5, 3]]),
    ("checkpoints never fall", &[[5, 2, 1], [3, 5, 2], [8, 4, 3]]),
    ("checkpoint ranks in order", &[[5, 2, 0]]),
    ("checkpoint ranks in order", &[[5, 2, 2]]),
    ("checkpoint ranks in order", &[[5, 2, 1], [3, 3, 3], [8, 5, 4]]),
    ("checkpoint ranks in order", &[[5, 2, 1], [3, 3, 1], [8, 5, 2]]),
    ("checkpoint ranks in order", &[[5, 2, 2], [3, 3, 1], [8, 5, 3]]),
    ("checkpoint ranks in order", &[[5, 2, 0], [3, 3, 1], [8, 5, 2]]),
    ("checkpoint ranks in order", &[[5, 2, 1], [3, 3, 2], [8, 5, 0]]),
    ("checkpoint ranks in order", &[[5, 2, u32::MAX]]),
];

/// Checkpoints that break several.
const ILL_FORMED_TWICE: [&[Numbers]; 6] = [
    &[[0, 2, 1], [3, 3, 2], [8, 5, 3]],
    &[[5, 2, 1], [0, 3, 2], [8, 5, 3]],
    &[[5, 2, 1], [1, 0, 0]],
    &[[5, 2, 1], [0, 0, 0], [8, 5, 3]],
    &[[9, 1, 0]],
    &[[u32::MAX; 3]; 8],
];

/// Every clause on checkpoints, broken alone and with others: every call is refused by 10,
/// and all stays.
#[test]
fn ill_formed_checkpoints() {
    for setup in in_each_profile(&[SETUP]) {
        let found = three_marks(setup);
        for (clause, checkpoints) in ILL_FORMED {
            let bench = with_checkpoints(&found, checkpoints);
            assert_eq!(broken(&bench), [clause], "{checkpoints:?}");
            all_refused(&bench, &CALLS, &format!("{checkpoints:?}"));
        }
        for checkpoints in ILL_FORMED_TWICE {
            let bench = with_checkpoints(&found, checkpoints);
            assert!(broken(&bench).len() > 1, "{checkpoints:?}");
            all_refused(&bench, &CALLS, &format!("{checkpoints:?}"));
        }
    }
}

/// The model has eight clauses on checkpoints, and each is among those broken alone.
#[test]
fn every_clause_on_checkpoints() {
    let names = CLAUSES.iter().map(|(name, _)| *name).filter(|name| name.contains("checkpoint"));
    let names: Vec<&str> = names.collect();
    assert_eq!(names.len(), 8);
    for name in names {
        assert!(ILL_FORMED.iter().any(|(clause, _)| *clause == name), "{name}");
    }
}

/// Checkpoints that a state may have: none, eight at one number, at any number above h
/// and up to last + 1, also where no number is left.
#[test]
fn well_formed_checkpoints() {
    let eight: Vec<Numbers> = (1..=8).map(|rank| [9 - rank, 2, rank]).collect();
    let taken: [&[Numbers]; 5] =
        [&[], &THREE, &[[8, 2, 1], [1, 2, 2]], &[[1, 5, 1], [2, 5, 2], [3, 5, 3]], &eight];
    for setup in in_each_profile(&[SETUP]) {
        let found = three_marks(setup);
        assert!(answers(&found, &CALLS).iter().all(Told::accepted));
        for checkpoints in taken {
            let bench = with_checkpoints(&found, checkpoints);
            assert!(broken(&bench).is_empty(), "{checkpoints:?}");
            assert_eq!(answers(&bench, &[Call::Idle, Call::Reply])[0], Told::Idle);
        }
        let image = with_word(&found.image, layout::LAST, u32::MAX);
        let spent = Bench { image, ..found };
        let spent = with_checkpoints(&spent, &[[5, 2, 1], [3, u32::MAX - 1, 2], [8, u32::MAX, 3]]);
        let expected = [Told::Idle, Told::Refused(21), Told::Kept(u32::MAX - 1)];
        assert_eq!(answers(&spent, &[Call::Idle, set(1), back(8)]), expected);
    }
}

/// What an idle call says of a bench, on the library and the model: is it taken?
fn taken(bench: &Bench) -> bool {
    let mut beside = Beside::new(bench);
    let answer = beside.play(Call::Idle).unwrap();
    assert!(answer == Told::Idle || answer == Told::Refused(10), "{answer:?}");
    assert!(beside.library == *bench, "{answer:?}: something has changed");
    answer == Told::Idle
}

/// Each byte of the checkpoints, with every other value. Taken are names that are free, and
/// numbers between those of the neighbours, h + 1 and last + 1: 3 × 5, and 1 + 3 + 2.
#[test]
fn bytes_of_checkpoints() {
    let found = three_marks(SETUP);
    let bytes = &found.image.to_bytes()[layout::CHECKPOINTS_AT..layout::TAGS_AT];
    let mut left = 0;
    for (at, old) in (layout::CHECKPOINTS_AT..).zip(bytes) {
        for byte in (0..=u8::MAX).filter(|byte| byte != old) {
            let image = with_byte(&found.image, at, byte);
            left += usize::from(taken(&Bench { image, ..found.clone() }));
        }
    }
    assert_eq!(left, 21);
}

/// Two places with every choice of some names, numbers and ranks. Taken are none, the names 1
/// and 8 alone at one of three numbers, and the two in either order at numbers that do not
/// fall: 1 + 2 × 3 + 2 × 6.
#[test]
fn two_checkpoints_of_any_numbers() {
    let found = three_marks(SETUP);
    let choices = || {
        let numbered = |name| [0, 1, 2, 3, 5, 6].map(|number| [name, number]);
        let ranked = |[name, number]: [u32; 2]| [0, 1, 2, 3].map(|rank| [name, number, rank]);
        [0, 1, 8, 9].into_iter().flat_map(numbered).flat_map(ranked)
    };
    let mut left = 0;
    for first in choices() {
        for second in choices() {
            left += usize::from(taken(&with_checkpoints(&found, &[first, second])));
        }
    }
    assert_eq!(left, 19);
}
