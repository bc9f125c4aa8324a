//! Loads fed from held stores: which are marked, that a commit does not use their lines,
//! and that nothing else changes the mark.

mod judged;

use compare::dropped;
use compare::fault::Fault;
use compare::random::Run;
use compare::stretch;
use compare::types::{Answer, Call, Figures, LoadEntry, WritePolicy, LOADS};
use judged::{value, Judged};

/// Both write profiles, with one set of so many ways and 16 lines.
fn both(ways: u32) -> [Judged; 2] {
    [WritePolicy::WriteBack, WritePolicy::WriteThrough]
        .map(|policy| Judged::start(Figures::new(1, ways).with_policy(policy), 256))
}

/// Both with lines 0 and 1 present, line 0 used first; last is 2.
fn two_lines() -> [Judged; 2] {
    both(2).map(|mut judged| {
        judged.bring(0);
        judged.bring(1);
        assert_eq!(ages(&judged), [1, 0]);
        judged
    })
}

/// The ages of the records, in order of the ways.
fn ages(judged: &Judged) -> Vec<u32> {
    let Judged { state, .. } = judged;
    state.tags[..state.figures.ways as usize].iter().map(|tag| tag.age).collect()
}

/// Which of the listed loads are marked, by number.
fn marks(judged: &Judged) -> Vec<(u32, bool)> {
    let listed = judged.state.loads.iter().take_while(|load| load.number != 0);
    listed.map(|load| (load.number, load.forwarded)).collect()
}

/// Stores, each by its address and width, and whether a load of address 4 and width 4
/// behind them is marked.
const STORES: [(&[(u32, u32)], bool); 12] = [
    (&[], false),
    (&[(4, 4)], true),
    (&[(4, 2)], false),
    (&[(6, 2)], false),
    (&[(4, 2), (6, 2)], true),
    (&[(6, 2), (4, 2)], true),
    (&[(4, 1), (7, 1)], false),
    (&[(5, 1), (6, 1)], false),
    (&[(4, 1), (5, 1), (6, 1)], false),
    (&[(4, 1), (5, 1), (6, 1), (7, 1)], true),
    (&[(4, 4), (5, 1)], true),
    (&[(0, 4), (8, 4), (20, 4)], false),
];

/// The same whether the line is present or absent, and whether stores are committed.
#[test]
fn marked_by_every_byte() {
    for (stores, marked) in STORES {
        for (mut judged, present) in two_lines().into_iter().zip([true; 2]).chain(absent()) {
            for (address, width) in stores {
                judged.store(*address, *width, 1);
            }
            for committed in [false, true] {
                if committed {
                    judged.commit(2 + stores.len() as u32);
                }
                let answered = matches!(judged.load(4, 4), Answer::Value { .. });
                let load = judged.state.loads[usize::from(committed)];
                assert_eq!(load.answered, answered);
                assert_eq!(answered, present || marked, "{stores:?}");
                assert_eq!(load.forwarded, marked, "{stores:?}");
            }
        }
    }
}

/// Both write profiles with lines 2 and 3 present, and not line 0.
fn absent() -> impl Iterator<Item = (Judged, bool)> {
    both(2).into_iter().map(|mut judged| {
        judged.bring(2);
        judged.bring(3);
        (judged, false)
    })
}

/// A narrow load of a wide store, and not the bytes beside a narrow store.
#[test]
fn marked_by_its_own_bytes() {
    for mut judged in two_lines() {
        judged.store(4, 4, 0x0403_0201);
        judged.store(8, 1, 9);
        for (address, width, marked) in
            [(4, 1, true), (7, 1, true), (6, 2, true), (8, 1, true), (8, 2, false), (9, 1, false)]
        {
            judged.load(address, width);
            let load = judged.state.loads.iter().rfind(|load| load.number != 0).unwrap();
            assert_eq!(load.forwarded, marked, "{address} {width}");
        }
    }
}

/// Store 3 has drained when load 5 is committed: its drain and that of store 4 are the last
/// uses, and line 0 is evicted.
#[test]
fn stores_drained_before_the_commit() {
    for mut judged in two_lines() {
        judged.store(0, 1, 200);
        judged.store(16, 1, 201);
        assert_eq!(judged.load(0, 1), value(5, 200));
        judged.commit(4);
        assert_eq!((judged.idle(), ages(&judged)), (Answer::Drained(3), vec![0, 1]));
        assert_eq!((judged.idle(), ages(&judged)), (Answer::Drained(4), vec![1, 0]));
        assert_eq!(marks(&judged), [(5, true)]);
        judged.commit(5);
        assert_eq!((marks(&judged), ages(&judged)), (vec![], vec![1, 0]));
        judged.bring(2);
        assert!(judged.shown(0).is_empty() && judged.shown(16)[0] == 201);
    }
}

/// The ages after a commit on a machine with a fault.
fn ages_by(fault: Fault, mut judged: Judged, number: u32) -> Vec<u32> {
    let Judged { state, cache, memory } = &mut judged;
    let answer = fault.step()(state, cache, memory, Call::Commit { number });
    assert_eq!(answer, Answer::Committed(number), "{fault:?}");
    ages(&judged)
}

/// One of two stores has drained. A machine that asks for all bytes at the commit is wrong
/// here, and one that asks for any of them is not.
#[test]
fn one_store_drained_before_the_commit() {
    for mut judged in two_lines() {
        judged.store(0, 1, 200);
        judged.store(16, 1, 201);
        judged.store(1, 1, 202);
        assert_eq!(judged.load(0, 2), value(6, 202 * 256 + 200));
        judged.commit(4);
        assert_eq!((judged.idle(), judged.idle()), (Answer::Drained(3), Answer::Drained(4)));
        assert_eq!(ages(&judged), [1, 0]);
        assert_eq!(ages_by(Fault::ForwardedAtCommit, judged.clone(), 6), [0, 1]);
        assert_eq!(ages_by(Fault::ForwardedUsesDrained, judged.clone(), 6), [1, 0]);
        judged.commit(6);
        assert_eq!(ages(&judged), [1, 0]);
    }
}

/// Store 4 is held behind load 3, and line 0 is evicted under it.
#[test]
fn stores_held_at_the_commit() {
    for mut judged in two_lines() {
        judged.load(32, 1);
        judged.store(0, 1, 200);
        assert_eq!(judged.load(0, 1), value(5, 200));
        judged.commit(5);
        assert_eq!((marks(&judged), ages(&judged)), (vec![(3, false)], vec![1, 0]));
        assert_eq!((judged.idle(), judged.reply()), (Answer::Requested(32), Answer::Filled(32)));
        assert!(judged.shown(0).is_empty() && !judged.shown(16).is_empty());
    }
}

/// A load with one byte in the line uses it, whichever byte that is.
#[test]
fn partly_fed_loads_use_their_lines() {
    for (held, expected) in [(0, 2 * 256 + 200), (1, 200 * 256 + 1)] {
        for mut judged in two_lines() {
            judged.store(held, 1, 200);
            assert_eq!(judged.load(0, 2), value(4, expected));
            assert_eq!(marks(&judged), [(4, false)]);
            judged.commit(4);
            assert_eq!(ages(&judged), [0, 1]);
        }
    }
}

/// Load 5 is answered while line 0 is absent; at its commit the line is there.
#[test]
fn line_filled_before_the_commit() {
    for mut judged in both(2) {
        judged.load(4, 1);
        judged.load(20, 1);
        judged.store(0, 1, 200);
        judged.store(16, 1, 201);
        assert_eq!(judged.load(0, 1), value(5, 200));
        judged.commit(4);
        for line in [0, 16] {
            assert_eq!(judged.idle(), Answer::Requested(line));
            assert_eq!(judged.reply(), Answer::Filled(line));
        }
        assert_eq!((judged.retry(1), judged.retry(2)), (value(1, 5), value(2, 21)));
        assert_eq!((judged.idle(), judged.idle()), (Answer::Drained(3), Answer::Drained(4)));
        assert_eq!(ages(&judged), [1, 0]);
        judged.commit(5);
        assert_eq!(ages(&judged), [1, 0]);
    }
}

/// Four lines, used in order, and stores 5 to line 0 and 6 to line 2. Loads 7 and 9 are
/// forwarded, 8 and 10 use lines 1 and 0.
fn four_loads() -> [Judged; 2] {
    both(4).map(|mut judged| {
        (0..4).for_each(|line| judged.bring(line));
        assert_eq!(ages(&judged), [3, 2, 1, 0]);
        judged.store(0, 1, 200);
        judged.store(32, 1, 201);
        for address in [0, 16, 32, 4] {
            judged.load(address, 1);
        }
        assert_eq!(marks(&judged), [(7, true), (8, false), (9, true), (10, false)]);
        judged
    })
}

#[test]
fn several_loads_in_one_commit() {
    for mut judged in four_loads() {
        // By 01 alone each of the four uses its line.
        assert_eq!(ages_by(Fault::ForwardedIgnored, judged.clone(), 10), [0, 2, 1, 3]);
        judged.commit(10);
        assert_eq!(ages(&judged), [0, 1, 3, 2]);
    }
}

/// A commit leaves the marks of the loads above it.
#[test]
fn commits_one_by_one() {
    for mut judged in four_loads() {
        let expected = [[3, 2, 1, 0], [3, 0, 2, 1], [3, 0, 2, 1], [0, 1, 3, 2]];
        let all = marks(&judged);
        for (number, expected) in (7..).zip(expected) {
            judged.commit(number);
            assert_eq!(ages(&judged), expected, "{number}");
            assert_eq!(marks(&judged), all[number as usize - 6..], "{number}");
        }
    }
}

/// The forwarded loads taken off the list before, a commit does the same to the lines.
#[test]
fn commit_as_without_them() {
    for mut judged in four_loads() {
        let mut fewer = judged.clone();
        let [_, second, _, fourth, ..] = judged.state.loads;
        fewer.state.loads = [LoadEntry::default(); LOADS];
        fewer.state.loads[..2].copy_from_slice(&[second, fourth]);
        judged.commit(10);
        fewer.commit(10);
        assert_eq!(judged, fewer);
    }
}

/// Load 5 waits with a byte in store 4, and store 6 behind it has both its bytes.
fn waiting() -> [Judged; 2] {
    both(2).map(|mut judged| {
        for address in [4, 16, 32] {
            judged.load(address, 1);
        }
        judged.store(0, 1, 200);
        assert_eq!(judged.load(0, 2), Answer::Waits(5));
        judged.store(0, 2, 9);
        judged
    })
}

/// Fills lines 0 and 1 for loads 1 and 2.
fn fill(judged: &mut Judged) {
    for line in [0, 16] {
        assert_eq!(judged.idle(), Answer::Requested(line));
        assert_eq!(judged.reply(), Answer::Filled(line));
    }
    assert_eq!(ages(judged), [1, 0]);
}

/// An inquiry about it uses its line: no load that waits is fed from older stores alone.
#[test]
fn inquiry_of_a_committed_load() {
    for mut judged in waiting() {
        judged.commit(5);
        fill(&mut judged);
        assert_eq!(judged.retry(5), value(5, 2 * 256 + 200));
        assert_eq!(ages(&judged), [0, 1]);
        assert_eq!(marks(&judged), [(1, false), (2, false), (3, false)]);
    }
}

#[test]
fn inquiry_of_an_uncommitted_load() {
    for mut judged in waiting() {
        judged.commit(3);
        fill(&mut judged);
        assert_eq!(judged.retry(5), value(5, 2 * 256 + 200));
        assert_eq!(ages(&judged), [1, 0]);
        assert!(judged.state.loads[3].answered && !judged.state.loads[3].forwarded);
        judged.commit(5);
        assert_eq!(ages(&judged), [0, 1]);
    }
}

/// A dropped load leaves its place zero, and the next one there is marked by itself.
#[test]
fn dropped_loads_leave_no_mark() {
    for last in [Call::Abort { number: 3 }, Call::Restore { name: 1 }] {
        for mut judged in two_lines() {
            judged.checkpoint(1);
            judged.store(0, 1, 200);
            judged.load(0, 1);
            assert_eq!(marks(&judged), [(4, true)]);
            assert_eq!(judged.call(last), Answer::Kept(2));
            assert_eq!(judged.state.loads, [LoadEntry::default(); LOADS]);
            assert_eq!(judged.load(0, 1), value(3, 1));
            assert_eq!(marks(&judged), [(3, false)]);
            judged.commit(3);
            assert_eq!(ages(&judged), [0, 1]);
        }
    }
}

/// No call but its own commit, abort or return changes a mark: that of load 5, beside load 3,
/// which waits, is asked about, and leaves. Each call is accepted.
#[test]
fn other_calls_keep_the_mark() {
    let calls = [
        Call::Store { address: 0, width: 4, value: 1 },
        Call::Commit { number: 3 },
        Call::Idle,
        Call::Retry { number: 3 },
        Call::Preview,
        Call::Reply,
        Call::Retry { number: 3 },
        Call::Commit { number: 4 },
        Call::Idle,
        Call::Flush,
        Call::ShowLine { address: 0 },
        Call::Checkpoint { name: 1 },
        Call::Load { address: 0, width: 1 },
        Call::Restore { name: 1 },
        Call::Load { address: 64, width: 1 },
        Call::Retry { number: 7 },
        Call::Abort { number: 7 },
    ];
    for mut judged in both(3) {
        judged.bring(0);
        judged.bring(1);
        judged.load(32, 1);
        judged.store(0, 1, 200);
        judged.load(0, 1);
        for call in calls {
            assert!(judged.call(call).accepted(), "{call:?}");
            assert!(marks(&judged).contains(&(5, true)), "{call:?}");
        }
    }
}

/// A mark that a dropped load leaves behind is a trace.
#[test]
fn dropped_marks_leave_no_trace() {
    let access = (0, 1);
    let store = Call::Store { address: access.0, width: access.1, value: 7 };
    let load = Call::Load { address: access.0, width: access.1 };
    let calls = vec![store, load, Call::Abort { number: 1 }];
    let (figures, found) = (Figures::new(1, 1), vec![0; 32]);
    let run = Run { seed: 0, figures, found, numbered: 0, calls };
    let differs = |fault: Fault| {
        let whole = dropped::play(&run, fault.step(), run.calls.iter().copied());
        let stretches = stretch::stretches(1, &whole.given);
        assert_eq!(stretches.len(), 1);
        dropped::compare(&run, fault.step(), &whole, stretches[0]).is_err()
    };
    assert!(!differs(Fault::None));
    assert!(differs(Fault::AbortLeavesForwarded));
}
