//! The write profiles side by side: the same calls after a start of each, the use of
//! a drained store's line, a drain to a line that is requested, and a dirty line in
//! write-through.

mod judged;

use compare::types::{Answer, Call, Figures, Request, State, WritePolicy};
use judged::{value, Judged};

/// A start in a write profile.
fn started(ways: u32, length: usize, policy: WritePolicy) -> Judged {
    Judged::start(Figures::new(1, ways).with_policy(policy), length)
}

/// A call, its answer, and the bytes of memory at 4 and 5 after it.
type Row = (Call, Answer, [u8; 2]);

/// Plays the rows after a start of one set, one way and 32 bytes.
fn played(policy: WritePolicy, rows: &[Row]) -> Judged {
    let mut judged = started(1, 32, policy);
    for (call, answer, bytes) in rows {
        assert_eq!(judged.call(*call), *answer, "{policy:?}, {call:?}");
        assert_eq!(judged.memory[4..6], *bytes, "{policy:?}, {call:?}");
    }
    judged
}

const STORE: Call = Call::Store { address: 4, width: 1, value: 200 };
const LOAD: Call = Call::Load { address: 0, width: 1 };
const STORE_AGAIN: Call = Call::Store { address: 5, width: 1, value: 201 };

const fn commit(number: u32) -> Call {
    Call::Commit { number }
}

#[test]
fn write_back() {
    let judged = played(
        WritePolicy::WriteBack,
        &[
            (STORE, Answer::Stored(1), [5, 6]),
            (commit(1), Answer::Committed(1), [5, 6]),
            (Call::Idle, Answer::Requested(0), [5, 6]),
            (Call::Reply, Answer::Filled(0), [5, 6]),
            (Call::Idle, Answer::Drained(1), [5, 6]),
            (LOAD, value(2, 1), [5, 6]),
            (commit(2), Answer::Committed(2), [5, 6]),
            (Call::Idle, Answer::Idle, [5, 6]),
            (Call::Reply, Answer::Refused(17), [5, 6]),
            (Call::Retry { number: 2 }, Answer::Refused(14), [5, 6]),
            (STORE_AGAIN, Answer::Stored(3), [5, 6]),
            (commit(3), Answer::Committed(3), [5, 6]),
            (Call::Idle, Answer::Drained(3), [5, 6]),
            (Call::Flush, Answer::Flushed(1), [200, 201]),
        ],
    );
    assert_eq!(judged.cache[4..6], [200, 201]);
}

#[test]
fn write_through() {
    let rows = [
        (STORE, Answer::Stored(1), [5, 6]),
        (commit(1), Answer::Committed(1), [5, 6]),
        (Call::Idle, Answer::Drained(1), [200, 6]),
        (Call::Reply, Answer::Refused(17), [200, 6]),
        (Call::Idle, Answer::Idle, [200, 6]),
        (LOAD, Answer::Waits(2), [200, 6]),
        (commit(2), Answer::Committed(2), [200, 6]),
        (Call::Idle, Answer::Requested(0), [200, 6]),
        (Call::Reply, Answer::Filled(0), [200, 6]),
        (Call::Retry { number: 2 }, value(2, 1), [200, 6]),
        (STORE_AGAIN, Answer::Stored(3), [200, 6]),
        (commit(3), Answer::Committed(3), [200, 6]),
        (Call::Idle, Answer::Drained(3), [200, 201]),
        (Call::Flush, Answer::Flushed(0), [200, 201]),
    ];
    // The first drain brings no line in.
    let drained = played(WritePolicy::WriteThrough, &rows[..3]);
    assert_eq!(drained.cache, [0; 16]);
    assert_eq!(drained.state.tags, started(1, 32, WritePolicy::WriteThrough).state.tags);
    let judged = played(WritePolicy::WriteThrough, &rows);
    assert_eq!(judged.cache[4..6], [200, 201]);
    assert!(judged.state.tags[0].valid && judged.state.tags[0].dirty == 0);
}

/// Both lines of a set present, and a store to the one used first drained.
fn drained(policy: WritePolicy) -> Judged {
    let mut judged = started(2, 48, policy);
    judged.bring(0);
    judged.bring(1);
    assert_eq!(ages(&judged.state), [1, 0]);
    judged.store(4, 1, 200);
    judged.commit(3);
    assert_eq!(judged.idle(), Answer::Drained(3));
    judged
}

/// The ages of the first two records.
fn ages(state: &State) -> [u32; 2] {
    [state.tags[0].age, state.tags[1].age]
}

#[test]
fn drain_uses_its_line() {
    for (policy, dirty, byte) in
        [(WritePolicy::WriteBack, 0b10, 5), (WritePolicy::WriteThrough, 0, 200)]
    {
        let judged = drained(policy);
        assert_eq!(ages(&judged.state), [0, 1], "{policy:?}");
        assert_eq!(judged.state.tags[0].dirty, dirty, "{policy:?}");
        assert_eq!((judged.cache[4], judged.memory[4]), (200, byte), "{policy:?}");
    }
}

/// Store 2 waits for load 1, whose line is present but which has not been answered;
/// so line 1 is requested for load 3 before the store drains to it.
#[test]
fn drain_to_a_requested_line() {
    let mut judged = started(2, 48, WritePolicy::WriteThrough);
    judged.load(0, 1);
    judged.store(16, 1, 200);
    judged.load(24, 1);
    judged.commit(3);
    assert_eq!(judged.idle(), Answer::Requested(0));
    assert_eq!(judged.reply(), Answer::Filled(0));
    assert_eq!(judged.idle(), Answer::Requested(16));
    assert_eq!(judged.retry(1), value(1, 1));
    assert_eq!(judged.idle(), Answer::Drained(2));
    assert_eq!(judged.state.request, Request::Line(1));
    assert_eq!(judged.reply(), Answer::Filled(16));
    assert_eq!((judged.shown(16)[0], judged.memory[16]), (200, 200));
    assert_eq!(judged.retry(3), value(3, 25));
}

#[test]
fn dirty_line_in_write_through() {
    for call in [LOAD, STORE, commit(3), Call::Idle, Call::Reply, Call::Flush] {
        for dirty in [1, 2, 4, 8, 15] {
            let mut judged = drained(WritePolicy::WriteThrough);
            judged.state.tags[0].dirty = dirty;
            assert_eq!(judged.call(call), Answer::Refused(10), "{call:?}");
            assert!(judged.shown(0).is_empty());
        }
    }
}
