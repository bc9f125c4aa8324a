//! The two words of a load that waits, and the lookup that tells them apart.

mod judged;

use compare::dropped;
use compare::fault::Fault;
use compare::model::{Machine, Right};
use compare::random::Run;
use compare::script::{play, play_stream};
use compare::stretch;
use compare::types::{Answer, Call, Figures, Lookup, Request, State, WritePolicy};
use judged::{value, Judged};

const WAITS: fn(u32) -> Answer = Answer::Waits;
const REQUESTED: fn(u32) -> Answer = Answer::WaitsRequested;

/// Both write profiles, with four sets of two ways and 16 lines.
fn both() -> [Judged; 2] {
    [WritePolicy::WriteBack, WritePolicy::WriteThrough]
        .map(|policy| Judged::start(Figures::new(4, 2).with_policy(policy), 256))
}

#[test]
fn requested_for_another_load() {
    for mut judged in both() {
        assert_eq!(judged.load(32, 1), WAITS(1));
        assert_eq!(judged.load(40, 4), WAITS(2));
        judged.commit(1);
        assert_eq!((judged.retry(1), judged.retry(2)), (WAITS(1), WAITS(2)));
        assert_eq!(judged.idle(), Answer::Requested(32));
        assert_eq!((judged.retry(1), judged.retry(2)), (REQUESTED(1), REQUESTED(2)));
        assert_eq!(judged.load(47, 1), REQUESTED(3));
        // The line before, the line behind, and one of the same set.
        for (address, number) in [(31, 4), (48, 5), (96, 6)] {
            assert_eq!(judged.load(address, 1), WAITS(number));
            assert_eq!(judged.retry(number), WAITS(number));
        }
        assert_eq!(judged.retry(3), REQUESTED(3));
        assert_eq!(judged.reply(), Answer::Filled(32));
        assert_eq!(judged.retry(2), value(2, 0x2C2B_2A29));
        assert_eq!((judged.retry(1), judged.retry(3)), (value(1, 33), value(3, 48)));
        assert_eq!(judged.retry(4), WAITS(4));
    }
}

#[test]
fn requested_for_a_store() {
    let mut judged = Judged::new(1, 1, 32);
    judged.store(16, 1, 7);
    assert_eq!(judged.load(18, 1), WAITS(2));
    judged.commit(1);
    assert_eq!(judged.retry(2), WAITS(2));
    assert_eq!(judged.idle(), Answer::Requested(16));
    assert_eq!(judged.retry(2), REQUESTED(2));
    // One byte in the store, all of them, none.
    assert_eq!(judged.load(16, 2), REQUESTED(3));
    assert_eq!(judged.load(16, 1), value(4, 7));
    assert_eq!(judged.load(20, 4), REQUESTED(5));
    assert_eq!(judged.load(0, 1), WAITS(6));
}

/// An abort leaves the request, and the next load of the line says it again.
#[test]
fn request_outlives_an_abort() {
    for mut judged in both() {
        judged.load(32, 1);
        judged.commit(1);
        judged.idle();
        for _ in 0..2 {
            assert_eq!(judged.load(33, 1), REQUESTED(2));
            assert_eq!(judged.abort(2), Answer::Kept(1));
            assert_eq!(judged.load(64, 1), WAITS(2));
            assert_eq!(judged.abort(2), Answer::Kept(1));
        }
    }
}

/// The word is no part of the state: either way the load is listed, and waits.
#[test]
fn the_word_changes_no_state() {
    for mut judged in both() {
        judged.load(32, 1);
        judged.commit(1);
        judged.idle();
        let before = judged.clone();
        assert_eq!(judged.retry(1), REQUESTED(1));
        assert_eq!(judged, before);
        assert_eq!(judged.load(32, 1), REQUESTED(2));
        assert!(!judged.state.loads[1].answered);
        assert_eq!(
            (judged.state.request, judged.state.tags),
            (Request::Line(2), before.state.tags)
        );
    }
}

/// What the lookup says of each line: presence comes first, whatever the register says.
#[test]
fn lookup_of_every_line() {
    for mut judged in both() {
        judged.bring(5);
        judged.bring(1);
        judged.load(9 * 16, 1);
        judged.commit(3);
        assert_eq!(judged.idle(), Answer::Requested(9 * 16));
        let looked = |state: &State| -> Vec<(u32, Lookup)> {
            let all = (0..4096).map(|line| (line, Right::lookup(state, line)));
            all.filter(|(_, looked)| *looked != Lookup::Absent).collect()
        };
        let present = [(1, Lookup::Present(1)), (5, Lookup::Present(0))];
        assert_eq!(looked(&judged.state)[..2], present);
        assert_eq!(looked(&judged.state)[2..], [(9, Lookup::Requested)]);
        // No well-formed state has a line both present and requested.
        judged.state.request = Request::Line(5);
        assert_eq!(looked(&judged.state), present);
        assert_eq!(judged.load(5 * 16, 1), Answer::Refused(10));
    }
}

/// A word that depends on another load is not a word that demand 3 allows.
#[test]
fn dropped_loads_leave_the_word() {
    let load = Call::Load { address: 0, width: 1 };
    let calls = vec![load, load, Call::Retry { number: 1 }, Call::Abort { number: 2 }];
    let (figures, found) = (Figures::new(1, 1), vec![0; 32]);
    let run = Run { seed: 0, figures, found, numbered: 0, calls };
    let differs = |fault: Fault| {
        let whole = dropped::play(&run, fault.step(), run.calls.iter().copied());
        let stretches = stretch::stretches(1, &whole.given);
        assert_eq!(stretches.len(), 1);
        dropped::compare(&run, fault.step(), &whole, stretches[0]).is_err()
    };
    assert!(!differs(Fault::None));
    assert!(differs(Fault::RequestedBySecondLoad));
}

#[test]
fn words_as_printed() {
    let script = b"G 1 1 32\nL 0 1\nL 16 1\nC 1\nI\nA 1\nA 2\nL 4 4\nR\nA 3\n";
    let expected = "ready\nwaits 1\nwaits 2\ncommitted 1\nrequest 0\nwaits-requested 1\nwaits 2\n\
                    waits-requested 3\nfilled 0\nvalue 3 0\n";
    assert_eq!(String::from_utf8(play(script)).unwrap(), expected);
}

/// A machine whose every load waits with the largest number.
fn largest(_: &mut State, _: &mut [u8], _: &mut [u8], call: Call) -> Answer {
    match call {
        Call::Start { .. } => Answer::Ready,
        Call::Load { .. } => Answer::WaitsRequested(u32::MAX),
        _ => Answer::Value { number: u32::MAX, value: u32::MAX },
    }
}

#[test]
fn longest_lines_printed() {
    let mut output = Vec::new();
    play_stream(largest, &b"G 1 1 32\nL 0 1\nI\n"[..], &mut output).unwrap();
    let expected = "ready\nwaits-requested 4294967295\nvalue 4294967295 4294967295\n";
    assert_eq!(String::from_utf8(output).unwrap(), expected);
}
