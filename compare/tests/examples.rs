//! The worked script and every bench example of the paper.

mod judged;

use compare::check;
use compare::script;
use compare::types::{Answer, Request};
use judged::{value, Judged};

#[test]
fn worked_script() {
    let input = b"G 1 1 32\nS 4 1 7\nL 4 1\nL 5 1\nX 3\nC 2\nI\nR\nI\nF\nL 5 1\n";
    let output = "ready\nstored 1\nvalue 2 7\nwaits 3\nkept 2\ncommitted 2\n\
                  request 0\nfilled 0\ndrained 1\nflushed 1\nvalue 3 0\n";
    assert_eq!(String::from_utf8(script::play(input)).unwrap(), output);
}

#[test]
fn two_stores_give_one_value() {
    let mut judged = Judged::new(1, 1, 32);
    judged.store(4, 2, 43707);
    judged.store(5, 1, 17);
    assert_eq!(judged.load(4, 2), value(3, 4539));
}

#[test]
fn address_52_of_two_sets() {
    let mut judged = Judged::new(2, 1, 64);
    judged.bring(3);
    assert!(judged.state.tags[1].valid);
    assert_eq!(judged.state.tags[1].line, 3);
    assert!(!judged.state.tags[0].valid);
    let number = judged.state.last + 1;
    assert_eq!(judged.load(52, 1), value(number, 53));
}

/// A machine with h 2 and last 4.
fn two_of_four() -> Judged {
    let mut judged = Judged::new(1, 1, 32);
    for at in 0..4 {
        judged.store(at, 1, at);
    }
    judged.commit(2);
    judged
}

#[test]
fn aborts_at_h_2_last_4() {
    for n in [3, 4, 5] {
        assert_eq!(two_of_four().abort(n), Answer::Kept(n - 1));
    }
    for n in [2, 6] {
        assert_eq!(two_of_four().abort(n), Answer::Refused(16));
    }
}

#[test]
fn commits_at_h_2_last_4() {
    for k in [2, 3, 4] {
        assert_eq!(two_of_four().commit(k), Answer::Committed(k));
    }
    for k in [1, 5] {
        assert_eq!(two_of_four().commit(k), Answer::Refused(15));
    }
}

#[test]
fn words_at_the_end_of_memory() {
    let mut judged = Judged::new(1, 1, 32);
    assert_eq!(judged.load(28, 4), Answer::Waits(1));
    assert_eq!(judged.load(30, 4), Answer::Refused(3));
    assert_eq!(judged.load(32, 4), Answer::Refused(4));
    assert_eq!(check::access(32, 28, 4), None);
    assert_eq!(judged.store(28, 4, 0), Answer::Stored(2));
    assert_eq!(judged.store(30, 4, 0), Answer::Refused(3));
    assert_eq!(judged.store(32, 4, 0), Answer::Refused(4));
}

#[test]
fn byte_values() {
    let mut judged = Judged::new(1, 1, 32);
    assert_eq!(judged.store(0, 1, 255), Answer::Stored(1));
    assert_eq!(judged.store(0, 1, 256), Answer::Refused(5));
}

#[test]
fn older_load_before_younger_store() {
    let mut judged = Judged::new(1, 1, 32);
    assert_eq!(judged.load(0, 1), Answer::Waits(1));
    assert_eq!(judged.store(0, 1, 99), Answer::Stored(2));
    judged.commit(2);
    assert_eq!(judged.idle(), Answer::Requested(0));
    assert_eq!(judged.reply(), Answer::Filled(0));
    assert_eq!(judged.idle(), Answer::Idle);
    assert_eq!(judged.retry(1), value(1, 1));
    assert_eq!(judged.idle(), Answer::Drained(2));
}

#[test]
fn used_line_stays() {
    let mut judged = Judged::new(1, 2, 48);
    judged.bring(0);
    judged.bring(1);
    let number = judged.state.last + 1;
    assert_eq!(judged.load(0, 1), value(number, 1));
    judged.commit(number);
    judged.bring(2);
    assert_eq!(judged.shown(0).len(), 16);
    assert!(judged.shown(16).is_empty());
    assert_eq!(judged.shown(32), &judged.memory[32..48]);
}

#[test]
fn queues_fill_up() {
    let mut judged = Judged::new(1, 1, 32);
    for number in 1..=16 {
        assert_eq!(judged.store(0, 1, 1), Answer::Stored(number));
    }
    assert_eq!(judged.store(0, 1, 1), Answer::Refused(11));
    for number in 17..=24 {
        assert_eq!(judged.load(16, 1), Answer::Waits(number));
    }
    assert_eq!(judged.load(16, 1), Answer::Refused(12));
}

#[test]
fn dirty_line_is_written_first() {
    let mut judged = Judged::new(1, 1, 32);
    judged.store(3, 1, 200);
    judged.commit(1);
    assert_eq!(judged.idle(), Answer::Requested(0));
    assert_eq!(judged.reply(), Answer::Filled(0));
    assert_eq!(judged.idle(), Answer::Drained(1));
    assert_eq!(judged.memory[3], 4);
    judged.bring(1);
    assert_eq!(judged.memory[3], 200);
    assert_eq!(judged.shown(16), &judged.memory[16..32]);
}

#[test]
fn aborted_load_leaves_the_line() {
    let mut judged = Judged::new(1, 1, 32);
    judged.bring(0);
    let before = judged.clone();
    assert_eq!(judged.load(16, 1), Answer::Waits(2));
    assert_eq!(judged.idle(), Answer::Idle);
    assert_eq!(judged.state.request, Request::Free);
    assert_eq!(judged.abort(2), Answer::Kept(1));
    assert_eq!(judged, before);
    assert_eq!(judged.load(0, 1), value(2, 1));
}
