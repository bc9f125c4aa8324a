//! Lists of calls: random runs, whole and cut anywhere, beside the same calls one by
//! one, which are those of the Rust model; numbers that no call has; lengths that do
//! not fit; a line shown on the way.
//!
//! NICOISETARN_TIMES=N in the environment makes N times as many calls.

mod beside;
mod numbered;

use beside::{in_each_profile, previews_between, times, with_marks, Bench, Beside};
use compare::random::{self, Mix, Rng, Run};
use compare::types::{Answer, Setup};
use nicoisetarn::{Answer as Ours, Batch, Call as Made, Figures, Image, Refusal, Unit};
use numbered::{Listed, CALLS, NO_CALLS, UNKNOWN, UNTOUCHED};

/// What a run led to, call by call on the library and on the model.
fn one_by_one(run: &Run) -> Result<(Vec<Answer>, Bench), String> {
    let mut beside = Beside::new(&Bench::begin(run));
    let answers = run.calls.iter().map(|call| beside.play(*call)).collect::<Result<_, String>>()?;
    Ok((answers, beside.library))
}

/// The same in lists of the lengths that are drawn, the last one shorter.
fn in_lists(run: &Run, mut draw: impl FnMut() -> usize) -> (Vec<Answer>, Bench) {
    let mut bench = Bench::begin(run);
    let (mut answers, mut left) = (Vec::new(), &run.calls[..]);
    while !left.is_empty() {
        let (list, rest) = left.split_at(draw().min(left.len()));
        answers.extend(bench.run(list));
        left = rest;
    }
    (answers, bench)
}

/// A run in one list and in lists of any lengths, empty ones among them.
fn check_run(run: &Run, rng: &mut Rng, longest: u64) -> Result<(), String> {
    let expected = one_by_one(run)?;
    if in_lists(run, || run.calls.len()) != expected {
        return Err("one list: not as one by one".to_string());
    }
    if in_lists(run, || rng.below(longest + 1) as usize) != expected {
        return Err("lists cut anywhere: not as one by one".to_string());
    }
    Ok(())
}

#[test]
fn short_runs_in_lists() {
    for seed in 0..1_000 * times() {
        let mut rng = Rng::new(seed ^ 0xBA7C_0000);
        if let Err(what) = check_run(&random::run(seed ^ 0xBA7C_4000), &mut rng, 20) {
            panic!("seed {seed}: {what}");
        }
    }
}

#[test]
fn long_runs_in_lists() {
    let setups = [Setup::new(1, 1, 16), Setup::new(4, 3, 512), Setup::new(64, 4, 65536)];
    let mut rng = Rng::new(0x10_BA7C);
    for setup in in_each_profile(&setups.repeat(times() as usize)) {
        let run = random::script_run(&mut rng, setup, 6_500, Mix::Accepted);
        let run = previews_between(with_marks(run, &mut rng), &mut rng);
        if let Err(what) = check_run(&run, &mut rng, 1_000) {
            panic!("{setup:?}, {what}");
        }
    }
}

/// Six numbers that are no call.
fn no_call(rng: &mut Rng) -> Listed {
    let any = |rng: &mut Rng| rng.word() as u32;
    let (not_zero, known) = (any(rng).max(1), rng.below(CALLS.into()) as u32);
    let operands = [any(rng), rng.pick(&[1, 2, 4]), rng.pick(&[0, 1])];
    let (number, fifth, sixth) = match rng.below(4) {
        0 => (rng.pick(&NO_CALLS), 0, 0),
        1 => (known, rng.pick(&[1, not_zero]), 0),
        2 => (known, 0, rng.pick(&[1, not_zero])),
        _ => (any(rng).max(CALLS), any(rng), any(rng)),
    };
    let [x, y, z] = operands;
    [number, x, y, z, fifth, sixth]
}

/// Runs with such numbers among the calls: each is answered so in its place, and
/// all else is as without them.
#[test]
fn numbers_of_no_call_in_a_list() {
    for seed in 0..500 * times() {
        let mut rng = Rng::new(seed ^ 0x0ca1_1000);
        let run = random::run(seed ^ 0x0ca1_2000);
        let (answers, left) = one_by_one(&run).unwrap();
        let (mut list, mut expected) = (Vec::new(), Vec::new());
        for (call, answer) in run.calls.iter().zip(answers) {
            while rng.one_in(4) {
                list.push(no_call(&mut rng));
                expected.push(UNKNOWN);
            }
            list.push(numbered::call_of(*call).unwrap());
            expected.push(numbered::answer_of(answer));
        }
        let Bench { mut image, mut cache, mut memory } = Bench::begin(&run);
        let seen = numbered::run_list(&mut image, &mut cache, &mut memory, &list);
        assert_eq!(seen, expected, "seed {seed}");
        assert!(Bench { image, cache, memory } == left, "seed {seed}: not as without them");
    }
}

/// One set of one way over 32 bytes, byte a + 1 at a.
fn started() -> Unit {
    Unit::start(Figures::new(1, 1), (1..=32).collect()).unwrap()
}

/// Where the lengths do not fit nothing changes, the answers neither.
#[test]
fn lengths_that_do_not_fit() {
    let (image, cache, memory) = started().into_parts();
    let calls = [1, 0, 1, 5, 0, 0].repeat(4);
    for (called, answered) in (0..=24).flat_map(|called| (0..=24).map(move |it| (called, it))) {
        let (mut after, mut cached, mut stored) = (image.clone(), cache.clone(), memory.clone());
        let mut answers = vec![UNTOUCHED; answered];
        let list = &calls[..called];
        let told = numbered::run(&mut after, list, &mut answers, &mut cached, &mut stored);
        if called % 6 == 0 && answered == called {
            assert_eq!((told, after.last() as usize), (numbered::RAN, called / 6));
            continue;
        }
        assert_eq!(told, numbered::NO_SUCH_CALL, "{called} {answered}");
        assert_eq!((&after, &cached, &stored), (&image, &cache, &memory));
        assert_eq!(answers, vec![UNTOUCHED; answered], "{called}");
    }
}

/// An empty list runs and changes nothing, whatever the image is.
#[test]
fn empty_lists() {
    let (_, cache, memory) = started().into_parts();
    let rubbish = Unit::from_parts(Image::from_bytes([0xA5; Image::SIZE]), cache, memory);
    for unit in [started(), rubbish] {
        let mut after = unit.clone();
        assert_eq!(after.run(&[]), []);
        after.run_batch(&mut Batch::default());
        assert_eq!(after, unit);
    }
}

/// The answer to a show line is that of its moment, though the part of the cache
/// that it names is written later in the list.
#[test]
fn line_shown_on_the_way() {
    let mut unit = started();
    let fill = |address, number| {
        let load = [Made::Load(address, 1), Made::Commit(number), Made::Idle, Made::Reply];
        load.into_iter().chain([Made::ShowLine(0), Made::Retry(number), Made::ShowLine(16)])
    };
    let calls: Vec<Made> = fill(0, 1).chain(fill(16, 2)).collect();
    let shown = |length| Ok(Ours::Shown { place: 0, length });
    let answers = unit.run(&calls);
    assert_eq!([answers[4], answers[6]], [shown(16), shown(0)]);
    assert_eq!([answers[11], answers[13]], [shown(0), shown(16)]);
    assert_eq!(answers[5], Ok(Ours::Value { number: 1, value: 1 }));
    // Line 1 stands there now.
    assert_eq!(unit.cache(), &unit.memory()[16..]);
}

/// Operands that a call does not take are not looked at.
#[test]
fn operands_not_taken_in_a_list() {
    let taken = [2, 3, 1, 1, 1, 0, 0, 0, 1, 1, 1, 0];
    for (call, taken) in (0..).zip(taken) {
        let made = [0, u32::MAX].map(|not_taken| {
            let (mut image, mut cache, mut memory) = started().into_parts();
            let mut numbers = [call, not_taken, not_taken, not_taken, 0, 0];
            numbers[1..=taken].fill(1);
            let answers = numbered::run_list(&mut image, &mut cache, &mut memory, &[numbers]);
            (answers, image, cache, memory)
        });
        assert_ne!(made[0].0, [UNKNOWN]);
        assert_eq!(made[0], made[1], "{call}");
    }
}

/// A batch is run again and again, grows and begins anew.
#[test]
fn batch_again_and_again() {
    let mut unit = started();
    let mut batch: Batch = [Made::Store(0, 1, 9), Made::Load(0, 2)].into_iter().collect();
    assert_eq!(batch.answers().len(), 0);
    for number in [1, 3, 5] {
        unit.run_batch(&mut batch);
        let answers: Vec<_> = batch.answers().collect();
        assert_eq!(answers, [Ok(Ours::Stored(number)), Ok(Ours::Waits(number + 1))]);
    }
    batch.push(Made::Commit(7));
    assert_eq!(batch.answers().len(), 0);
    unit.run_batch(&mut batch);
    assert_eq!(batch.answers().last(), Some(Ok(Ours::Committed(7))));
    batch.clear();
    batch.push(Made::Commit(6));
    let (mut image, mut cache, mut memory) = unit.into_parts();
    image.run_batch(&mut cache, &mut memory, &mut batch);
    assert!(batch.answers().eq([Err(Refusal::Commit)]));
}
