//! Branch marks: set, returned to and forgotten, and stretches that leave no trace.

mod judged;

use compare::types::{Answer, Call, Checkpoint, Figures, Request, WritePolicy, CHECKPOINTS};
use judged::{value, Judged};

/// The marks in force, by name and number; their ranks are 1, 2 and so on.
fn marks(judged: &Judged) -> Vec<(u32, u32)> {
    let in_force: Vec<Checkpoint> =
        judged.state.checkpoints.iter().copied().take_while(|mark| mark.name != 0).collect();
    let ranks: Vec<u32> = in_force.iter().map(|mark| mark.rank).collect();
    assert_eq!(ranks, (1..=in_force.len() as u32).collect::<Vec<_>>());
    let free = &judged.state.checkpoints[in_force.len()..];
    assert!(free.iter().all(|mark| *mark == Checkpoint::default()));
    in_force.iter().map(|mark| (mark.name, mark.number)).collect()
}

/// A machine after a start of one set, one way and two lines.
fn small() -> Judged {
    Judged::new(1, 1, 32)
}

/// Refuses a call by a number and changes nothing.
fn refused(judged: &Judged, call: Call, no: u32) {
    let mut after = judged.clone();
    assert_eq!(after.call(call), Answer::Refused(no), "{call:?}");
    assert_eq!(after, *judged, "{call:?}");
}

fn set(name: u32) -> Call {
    Call::Checkpoint { name }
}

fn back(name: u32) -> Call {
    Call::Restore { name }
}

#[test]
fn start_has_no_marks() {
    let mut judged = small();
    judged.checkpoint(1);
    assert_eq!(marks(&judged), [(1, 1)]);
    judged.call(Call::Start { figures: Figures::new(1, 1) });
    assert_eq!(marks(&judged), []);
}

#[test]
fn set_answers_the_next_number() {
    let mut judged = small();
    assert_eq!(judged.checkpoint(8), Answer::Checkpointed(1));
    judged.store(0, 1, 1);
    judged.load(0, 1);
    assert_eq!(judged.checkpoint(3), Answer::Checkpointed(3));
    judged.abort(3);
    assert_eq!(judged.checkpoint(1), Answer::Checkpointed(3));
    assert_eq!(marks(&judged), [(8, 1), (3, 3), (1, 3)]);
    // Setting takes no number.
    assert_eq!(judged.store(0, 1, 1), Answer::Stored(3));
}

#[test]
fn two_marks_at_one_number() {
    let mut judged = small();
    let before = judged.clone();
    assert_eq!(judged.checkpoint(1), Answer::Checkpointed(1));
    assert_eq!(judged.checkpoint(2), Answer::Checkpointed(1));
    let both = judged.clone();
    assert_eq!(judged.restore(1), Answer::Kept(0));
    assert_eq!(judged, before);
    refused(&judged, back(2), 21);
    // The other way round the first one is left.
    judged = both;
    assert_eq!(judged.restore(2), Answer::Kept(0));
    assert_eq!(marks(&judged), [(1, 1)]);
    refused(&judged, back(2), 21);
    assert_eq!(judged.restore(1), Answer::Kept(0));
    assert_eq!(judged, before);
}

#[test]
fn return_drops_as_an_abort_does() {
    let mut judged = small();
    judged.store(0, 1, 7);
    judged.checkpoint(4);
    judged.store(0, 1, 8);
    judged.load(0, 1);
    let mut aborted = judged.clone();
    assert_eq!(aborted.abort(2), Answer::Kept(1));
    assert_eq!(judged.restore(4), Answer::Kept(1));
    assert_eq!((marks(&judged), marks(&aborted)), (vec![], vec![(4, 2)]));
    aborted.state.checkpoints = judged.state.checkpoints;
    assert_eq!(judged, aborted);
    assert_eq!(judged.load(0, 1), value(2, 7));
}

/// A return forgets by order of setting and not by number.
#[test]
fn return_keeps_what_was_set_earlier() {
    let mut judged = small();
    for name in [5, 3] {
        judged.checkpoint(name);
    }
    judged.store(0, 1, 1);
    for name in [8, 1, 6] {
        judged.checkpoint(name);
    }
    judged.store(0, 1, 1);
    judged.checkpoint(2);
    assert_eq!(marks(&judged), [(5, 1), (3, 1), (8, 2), (1, 2), (6, 2), (2, 3)]);
    assert_eq!(judged.restore(1), Answer::Kept(1));
    assert_eq!(marks(&judged), [(5, 1), (3, 1), (8, 2)]);
    assert_eq!(judged.restore(3), Answer::Kept(0));
    assert_eq!(marks(&judged), [(5, 1)]);
}

#[test]
fn return_at_the_next_number_drops_marks_alone() {
    let mut judged = small();
    judged.store(0, 1, 1);
    let before = judged.clone();
    judged.checkpoint(1);
    assert_eq!(judged.restore(1), Answer::Kept(1));
    assert_eq!(judged, before);
}

#[test]
fn abort_keeps_marks_at_its_number() {
    let mut judged = small();
    for name in [1, 2, 3] {
        judged.checkpoint(name);
        judged.store(0, 1, 1);
    }
    judged.checkpoint(4);
    assert_eq!(marks(&judged), [(1, 1), (2, 2), (3, 3), (4, 4)]);
    let left = |n: u32| {
        let mut judged = judged.clone();
        assert_eq!(judged.abort(n), Answer::Kept(n - 1));
        marks(&judged)
    };
    assert_eq!(left(4), [(1, 1), (2, 2), (3, 3), (4, 4)]);
    assert_eq!(left(3), [(1, 1), (2, 2), (3, 3)]);
    assert_eq!(left(2), [(1, 1), (2, 2)]);
    assert_eq!(left(1), [(1, 1)]);
}

#[test]
fn commit_forgets_the_oldest_marks() {
    let mut judged = small();
    for name in [7, 6, 5] {
        judged.checkpoint(name);
        judged.store(0, 1, 1);
    }
    let left = |k: u32| {
        let mut judged = judged.clone();
        assert_eq!(judged.commit(k), Answer::Committed(k));
        marks(&judged)
    };
    assert_eq!(left(0), [(7, 1), (6, 2), (5, 3)]);
    assert_eq!(left(1), [(6, 2), (5, 3)]);
    assert_eq!(left(2), [(5, 3)]);
    assert_eq!(left(3), []);
    // What is forgotten can be set anew, and a rank closes up.
    judged.commit(1);
    assert_eq!(judged.state.checkpoints[0], Checkpoint { name: 6, number: 2, rank: 1 });
    refused(&judged, back(7), 21);
    assert_eq!(judged.checkpoint(7), Answer::Checkpointed(4));
    assert_eq!(marks(&judged), [(6, 2), (5, 3), (7, 4)]);
}

#[test]
fn eight_marks() {
    let mut judged = small();
    for name in [3, 8, 1, 6, 2, 7, 5, 4] {
        assert_eq!(judged.checkpoint(name), Answer::Checkpointed(1));
    }
    assert_eq!(marks(&judged).len(), CHECKPOINTS);
    for name in 1..=8 {
        refused(&judged, set(name), 20);
    }
    for (name, left) in [(4, 7), (7, 5), (3, 0)] {
        assert_eq!(judged.restore(name), Answer::Kept(0));
        assert_eq!(marks(&judged).len(), left);
    }
}

#[test]
fn names_outside() {
    let mut judged = small();
    judged.checkpoint(2);
    for name in [0, 9, 10, 256, u32::MAX] {
        refused(&judged, set(name), 19);
        refused(&judged, back(name), 19);
    }
    for name in [1, 3, 4, 5, 6, 7, 8] {
        refused(&judged, back(name), 21);
    }
    refused(&judged, set(2), 20);
}

#[test]
fn marks_at_the_last_number() {
    let mut judged = small();
    (judged.state.last, judged.state.committed) = (u32::MAX - 2, u32::MAX - 2);
    assert_eq!(judged.checkpoint(1), Answer::Checkpointed(u32::MAX - 1));
    judged.store(0, 1, 1);
    assert_eq!(judged.checkpoint(2), Answer::Checkpointed(u32::MAX));
    judged.store(0, 1, 2);
    refused(&judged, set(3), 21);
    refused(&judged, set(2), 20);
    refused(&judged, set(0), 19);
    let spent = judged.clone();
    assert_eq!(judged.restore(2), Answer::Kept(u32::MAX - 1));
    assert_eq!(judged.checkpoint(3), Answer::Checkpointed(u32::MAX));
    judged = spent;
    assert_eq!(judged.restore(1), Answer::Kept(u32::MAX - 2));
    assert_eq!(marks(&judged), []);
}

/// The other calls leave the marks alone.
#[test]
fn other_calls_keep_marks() {
    for policy in [WritePolicy::WriteBack, WritePolicy::WriteThrough] {
        let mut judged = Judged::start(Figures::new(1, 1).with_policy(policy), 32);
        judged.load(0, 1);
        judged.store(16, 1, 9);
        judged.checkpoint(4);
        judged.checkpoint(2);
        let expected = marks(&judged);
        judged.commit(2);
        let retry = Call::Retry { number: 1 };
        for call in [Call::Idle, Call::Preview, Call::Reply, retry, Call::Idle, Call::Idle] {
            assert!(judged.call(call).accepted(), "{call:?}");
        }
        while judged.call(Call::Idle) != Answer::Idle {
            judged.call(Call::Reply);
        }
        judged.flush();
        judged.call(Call::ShowLine { address: 0 });
        judged.load(0, 1);
        judged.store(0, 1, 1);
        assert_eq!(marks(&judged), expected, "{policy:?}");
    }
}

/// Plays some calls; those that remain when a stretch is struck are marked.
fn play(judged: &mut Judged, calls: &[(Call, bool)], struck: bool) -> Vec<Answer> {
    let left = calls.iter().filter(|(_, remains)| *remains || !struck);
    left.map(|(call, remains)| (judged.call(*call), *remains))
        .filter(|(_, remains)| *remains)
        .map(|(answer, _)| answer)
        .collect()
}

/// A mark stretch with a load that waits, a reply that evicts, a second mark at the same
/// number, refused calls on marks, and a commit of older work: nothing of it is left.
#[test]
fn stretch_leaves_no_trace() {
    let calls = [
        (set(1), false),
        (set(2), false),
        (set(1), false),
        (back(3), false),
        (Call::Load { address: 0, width: 1 }, false),
        (Call::Commit { number: 3 }, true),
        (Call::Idle, true),
        (Call::Reply, true),
        (Call::Idle, true),
        (Call::Store { address: 4, width: 1, value: 1 }, false),
        (Call::Retry { number: 4 }, false),
        (set(4), false),
        (Call::Abort { number: 4 }, false),
        (Call::Store { address: 4, width: 4, value: 1 }, false),
        (back(1), false),
        (Call::Flush, true),
    ];
    for policy in [WritePolicy::WriteBack, WritePolicy::WriteThrough] {
        let mut judged = Judged::start(Figures::new(1, 1).with_policy(policy), 48);
        judged.bring(0);
        judged.checkpoint(7);
        judged.load(32, 1);
        judged.checkpoint(8);
        judged.store(16, 1, 9);
        assert_eq!((judged.state.committed, judged.state.request), (1, Request::Free));
        let mut whole = judged.clone();
        let answers = play(&mut whole, &calls, false);
        assert_eq!(play(&mut judged, &calls, true), answers, "{policy:?}");
        assert_eq!(whole, judged, "{policy:?}");
        assert_eq!(marks(&whole), []);
    }
}

#[test]
fn refused_calls_change_nothing() {
    let mut judged = small();
    judged.load(0, 1);
    judged.checkpoint(1);
    judged.store(0, 1, 1);
    judged.checkpoint(2);
    for (call, no) in [
        (set(1), 20),
        (set(2), 20),
        (set(9), 19),
        (back(0), 19),
        (back(3), 21),
        (Call::Abort { number: 0 }, 16),
        (Call::Abort { number: 4 }, 16),
        (Call::Commit { number: 3 }, 15),
        (Call::Reply, 17),
        (Call::Retry { number: 2 }, 14),
    ] {
        refused(&judged, call, no);
    }
    judged.state.tags[200].age = 1;
    refused(&judged, set(3), 10);
    refused(&judged, back(1), 10);
    judged.memory.push(0);
    refused(&judged, set(3), 1);
    refused(&judged, back(1), 1);
}
