//! Random runs on the right model under all the checks, and the dropped
//! stretches of small runs made by hand.

use compare::counts::ByProfile;
use compare::dropped;
use compare::examine::{examine, Checks};
use compare::fault::Fault;
use compare::model::{Machine, Right, Unchecked};
use compare::random::{self, Run};
use compare::stretch::{self, Stretch};
use compare::traffic::Traffic;
use compare::types::{Call, Figures};

#[test]
fn right_model_passes() {
    let mut counts = ByProfile::default();
    for seed in 1_000_000..1_000_400 {
        let run = random::run(seed);
        match examine(&run, Fault::None.step(), Checks::ALL) {
            Ok(met) => counts.add(run.figures.policy, &met),
            Err(failure) => panic!("{failure}"),
        }
    }
    assert_eq!(counts.lacking(), Vec::<String>::new());
    let Traffic { evicted, flushed } = counts.traffic();
    // A dirty word is at least a quarter of its line, so that each band begins above that.
    let bands = [("evictions", evicted, 0.28..0.36), ("flushes", flushed, 0.38..0.48)];
    for (what, written, band) in bands {
        let ratio = written.word_bytes() as f64 / written.line_bytes() as f64;
        assert!(band.contains(&ratio), "{what}: {ratio:.3}");
    }
}

/// Without checks 1 and 10 a run after a start is the same, call by call.
#[test]
fn unchecked_model_agrees() {
    for seed in 0..400 {
        let run = random::run(seed);
        let (mut state, mut cache, mut memory) = run.begin(Right::step);
        let (mut again, mut cached, mut stored) = run.begin(Unchecked::step);
        for &call in &run.calls {
            let answer = Right::step(&mut state, &mut cache, &mut memory, call);
            let unchecked = Unchecked::step(&mut again, &mut cached, &mut stored, call);
            assert_eq!(answer, unchecked, "seed {seed}, {call:?}");
        }
        assert!((state, cache, memory) == (again, cached, stored), "seed {seed}");
    }
}

#[test]
fn every_figure_is_met() {
    let mut met = std::collections::BTreeSet::new();
    for seed in 0..1000 {
        let run = random::run(seed);
        met.insert((run.figures.sets, run.figures.ways, run.figures.policy as u32));
    }
    assert_eq!(met.len(), 56);
}

const LOAD: Call = Call::Load { address: 0, width: 1 };
const BAD_LOAD: Call = Call::Load { address: 0, width: 3 };

/// The stretches of a run with these calls after a start.
fn stretches(calls: &[Call]) -> Vec<(usize, usize, u32)> {
    let (figures, found) = (Figures::new(1, 1), vec![0; 32]);
    let run = Run { seed: 0, figures, found, numbered: 0, calls: calls.to_vec() };
    let step = Fault::None.step();
    let whole = dropped::play(&run, step, calls.iter().copied());
    for stretch in stretch::stretches(1, &whole.given) {
        dropped::compare(&run, step, &whole, stretch).unwrap();
    }
    let found = stretch::stretches(1, &whole.given).into_iter();
    found.map(|Stretch { first, end, n, .. }| (first, end, n)).collect()
}

fn abort(number: u32) -> Call {
    Call::Abort { number }
}

fn set(name: u32) -> Call {
    Call::Checkpoint { name }
}

fn back(name: u32) -> Call {
    Call::Restore { name }
}

#[test]
fn stretches_of_small_runs() {
    assert_eq!(stretches(&[]), []);
    assert_eq!(stretches(&[LOAD, LOAD]), []);
    // The abort alone.
    assert_eq!(stretches(&[abort(1)]), [(0, 0, 1)]);
    // A refused abort ends no stretch.
    assert_eq!(stretches(&[LOAD, abort(0), abort(3)]), []);
    assert_eq!(stretches(&[LOAD, abort(1)]), [(0, 1, 1)]);
    // The first call may come before the loads.
    assert_eq!(stretches(&[Call::Idle, LOAD, abort(1)]), [(1, 2, 1), (0, 2, 1)]);
    // A refused load gives no number.
    assert_eq!(stretches(&[BAD_LOAD, abort(1)]), [(1, 1, 1), (0, 1, 1)]);
}

#[test]
fn nested_stretches() {
    let calls = [LOAD, LOAD, abort(2), LOAD, abort(1), LOAD, abort(1)];
    let expected = [(1, 2, 2), (0, 4, 1), (5, 6, 1), (0, 6, 1)];
    assert_eq!(stretches(&calls), expected);
    // An abort below n parts the stretches for n.
    let calls = [LOAD, LOAD, abort(1), LOAD, LOAD, abort(2)];
    assert_eq!(stretches(&calls), [(0, 2, 1), (4, 5, 2)]);
}

#[test]
fn mark_stretches() {
    assert_eq!(stretches(&[set(1)]), []);
    assert_eq!(stretches(&[set(1), back(1)]), [(0, 1, 1)]);
    assert_eq!(stretches(&[LOAD, set(1), LOAD, LOAD, back(1)]), [(1, 4, 2)]);
    // A refused set opens no stretch and a refused return ends none.
    assert_eq!(stretches(&[set(1), LOAD, set(1), back(2), back(0), back(1)]), [(0, 5, 1)]);
    assert_eq!(stretches(&[set(9), back(9), back(1)]), []);
    // The latest accepted setting is that of the mark returned to.
    let calls = [set(1), LOAD, back(1), LOAD, set(1), LOAD, back(1)];
    assert_eq!(stretches(&calls), [(0, 2, 1), (4, 6, 2)]);
    // A mark that an abort or a commit forgot is set anew.
    let calls = [LOAD, set(1), abort(1), set(1), back(1)];
    assert_eq!(stretches(&calls), [(3, 4, 1)]);
    let commit = Call::Commit { number: 1 };
    assert_eq!(stretches(&[set(1), LOAD, commit, set(1), back(1)]), [(3, 4, 2)]);
    // One in another, and one that the return to an older mark ended.
    assert_eq!(stretches(&[set(1), set(2), back(2), back(1)]), [(1, 2, 1), (0, 3, 1)]);
    assert_eq!(stretches(&[set(1), set(2), back(1), back(2)]), [(0, 2, 1)]);
}

/// A plain stretch has no call on marks in it, accepted or refused.
#[test]
fn plain_stretches_beside_marks() {
    assert_eq!(stretches(&[set(1), LOAD, abort(1)]), [(1, 2, 1)]);
    for call in [set(1), set(0), back(1), back(0)] {
        assert_eq!(stretches(&[LOAD, call, abort(1)]), [], "{call:?}");
        assert_eq!(stretches(&[call, Call::Idle, abort(1)]), [(2, 2, 1), (1, 2, 1)], "{call:?}");
    }
    // The next number after a return is that of the mark.
    let calls = [LOAD, set(1), LOAD, back(1), LOAD, abort(2)];
    assert_eq!(stretches(&calls), [(4, 5, 2), (1, 3, 2)]);
}

#[test]
fn struck_calls() {
    let retry = |number| Call::Retry { number };
    let commit = Call::Commit { number: 5 };
    let show = Call::ShowLine { address: 0 };
    for call in [LOAD, BAD_LOAD, retry(3), retry(4), abort(3), abort(9)] {
        assert!((stretch::PLAIN.struck)(call, 3), "{call:?}");
    }
    let [idle, reply, flush, preview] = [Call::Idle, Call::Reply, Call::Flush, Call::Preview];
    for call in [retry(2), abort(2), commit, show, idle, reply, flush, preview] {
        assert!(!(stretch::PLAIN.struck)(call, 3), "{call:?}");
        assert!(!(stretch::MARK.struck)(call, 3), "{call:?}");
    }
    let of_marks = [set(1), set(0), back(8), back(9)];
    for call in [LOAD, BAD_LOAD, retry(3), retry(4), abort(3), abort(9)].iter().chain(&of_marks) {
        assert!((stretch::MARK.struck)(*call, 3), "{call:?}");
    }
}
