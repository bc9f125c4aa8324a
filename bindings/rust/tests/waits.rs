//! Loads that wait, their line requested or not: the two words by calls, by numbers and in
//! lists; lines whose numbers differ from the requested one's in a bit; and images with any
//! line in the miss register, or any address of a load. Each call is answered as the Rust
//! model answers it.

mod beside;
mod numbered;
mod told;

use beside::refused::{all_refused, answers};
use beside::{in_each_profile, layout, played, stands, with_word, Bench};
use compare::types::{Answer, Call, Setup, WritePolicy};
use nicoisetarn::LINE;
use told::{tells, Told};
use Answer::{Committed, Drained, Filled, Kept, Refused, Requested, Stored};
use Answer::{Value, Waits, WaitsRequested};

const fn load(address: u32, width: u32) -> Call {
    Call::Load { address, width }
}

const fn store(address: u32, width: u32, value: u32) -> Call {
    Call::Store { address, width, value }
}

const fn retry(number: u32) -> Call {
    Call::Retry { number }
}

const fn commit(number: u32) -> Call {
    Call::Commit { number }
}

/// Four sets of two ways over 16 lines.
const SETUP: Setup = Setup::new(4, 2, 256);

// ---- the two words

/// Calls in `SETUP`.
const FOR_A_LOAD: [Told; 27] = [
    (load(32, 1), Waits(1)),
    (load(40, 4), Waits(2)),
    (commit(1), Committed(1)),
    // Wanted, and not yet requested.
    (retry(1), Waits(1)),
    (Call::Idle, Requested(32)),
    (retry(1), WaitsRequested(1)),
    // Load 2 is not committed, nor are those that follow.
    (retry(2), WaitsRequested(2)),
    (load(47, 1), WaitsRequested(3)),
    // The line before, the line behind, and one of the same set.
    (load(31, 1), Waits(4)),
    (load(48, 1), Waits(5)),
    (load(96, 1), Waits(6)),
    (retry(6), Waits(6)),
    (Call::Abort { number: 5 }, Kept(4)),
    // A store has all of a load, then a byte of it.
    (store(36, 1, 200), Stored(5)),
    (load(36, 1), Value { number: 6, value: 200 }),
    (load(36, 2), WaitsRequested(7)),
    (Call::Idle, Answer::Idle),
    (retry(7), WaitsRequested(7)),
    (Call::Reply, Filled(32)),
    (retry(7), Value { number: 7, value: 0x26C8 }),
    (retry(1), Value { number: 1, value: 33 }),
    (retry(1), Refused(14)),
    (retry(4), Waits(4)),
    (commit(4), Committed(4)),
    (Call::Idle, Requested(16)),
    (retry(4), WaitsRequested(4)),
    (retry(2), Value { number: 2, value: 0x2C2B_2A29 }),
];

/// Calls in write-back: a line is requested for a store.
const FOR_A_STORE: [Told; 8] = [
    (store(16, 1, 7), Stored(1)),
    (load(18, 1), Waits(2)),
    (commit(1), Committed(1)),
    (retry(2), Waits(2)),
    (Call::Idle, Requested(16)),
    (retry(2), WaitsRequested(2)),
    (load(16, 2), WaitsRequested(3)),
    (load(0, 1), Waits(4)),
];

/// The same in write-through: none is.
const FOR_NO_STORE: [Told; 8] = [
    (store(16, 1, 7), Stored(1)),
    (load(18, 1), Waits(2)),
    (commit(1), Committed(1)),
    (retry(2), Waits(2)),
    (Call::Idle, Drained(1)),
    (retry(2), Waits(2)),
    (load(16, 2), Waits(3)),
    (load(0, 1), Waits(4)),
];

#[test]
fn requested_for_a_load() {
    for setup in in_each_profile(&[SETUP]) {
        tells(setup, &FOR_A_LOAD);
    }
}

#[test]
fn requested_for_a_store() {
    for setup in in_each_profile(&[Setup::new(1, 1, 32), Setup::new(2, 4, 256)]) {
        let told = match setup.figures.policy {
            WritePolicy::WriteBack => &FOR_A_STORE,
            WritePolicy::WriteThrough => &FOR_NO_STORE,
        };
        tells(setup, told);
    }
}

/// Lines of the largest memory whose numbers differ from the requested one's in one bit.
#[test]
fn one_bit_beside_the_requested_line() {
    let setups = [1, 2, 4, 8, 16, 32, 64].map(|sets| Setup::new(sets, 2, 65536));
    for setup in in_each_profile(&setups) {
        for line in [0, 1, 63, 64, 0x555, 0xAAA, 4095] {
            let first = line * LINE as u32;
            let mut told = vec![
                (load(first, 1), Waits(1)),
                (commit(1), Committed(1)),
                (Call::Idle, Requested(first)),
                (load(first + 15, 1), WaitsRequested(2)),
            ];
            for bit in 0..12 {
                let beside = (line ^ 1 << bit) * LINE as u32;
                told.extend([(load(beside, 4), Waits(3)), (retry(3), Waits(3))]);
                told.push((Call::Abort { number: 3 }, Kept(2)));
            }
            told.push((retry(2), WaitsRequested(2)));
            tells(setup, &told);
        }
    }
}

// ---- images with any line in the miss register

/// Calls in `SETUP`. Then lines 1 and 5 are present, store 3 to line 9 is committed, loads 4
/// to 7 of lines 2, 3, 6 and 0 are committed and wait, loads 8 and 9 of lines 10 and 2 wait,
/// load 10 is answered, and store 11 to line 2 is held.
const MANY: [Told; 20] = [
    (load(80, 1), Waits(1)),
    (load(16, 1), Waits(2)),
    (commit(2), Committed(2)),
    (Call::Idle, Requested(80)),
    (Call::Reply, Filled(80)),
    (Call::Idle, Requested(16)),
    (Call::Reply, Filled(16)),
    (retry(1), Value { number: 1, value: 81 }),
    (retry(2), Value { number: 2, value: 17 }),
    (store(148, 1, 200), Stored(3)),
    (load(32, 1), Waits(4)),
    (load(63, 1), Waits(5)),
    (load(100, 4), Waits(6)),
    (load(0, 2), Waits(7)),
    (commit(7), Committed(7)),
    (load(160, 1), Waits(8)),
    (load(44, 4), Waits(9)),
    (load(18, 2), Value { number: 10, value: 0x1413 }),
    (store(36, 1, 200), Stored(11)),
    (retry(9), Waits(9)),
];

/// The loads among them that wait, with their lines.
const WAITING: [(u32, u32); 6] = [(4, 2), (5, 3), (6, 6), (7, 0), (8, 10), (9, 2)];
/// The lines that committed ones wait for, and that of the oldest store.
const OF_LOADS: [u32; 4] = [2, 3, 6, 0];
const OF_STORE: u32 = 9;

fn many_waiting(setup: Setup) -> Bench {
    tells(setup, &MANY)
}

/// The bench with other numbers in its register: whether it is free, and its line.
fn with_register(bench: &Bench, requested: u32, line: u32) -> Bench {
    let image = with_word(&bench.image, layout::REQUESTED, requested);
    let image = with_word(&image, layout::REQUESTED_LINE, line);
    Bench { image, ..bench.clone() }
}

/// The word of a load that waits for a line, by the line that is requested.
fn word(number: u32, line: u32, requested: Option<u32>) -> Answer {
    match requested == Some(line) {
        true => WaitsRequested(number),
        false => Waits(number),
    }
}

/// A load in `many_waiting`: lines 1 and 5 have its bytes, or the stores to lines 2 and 9
/// have its one byte, or it waits.
fn new_load(line: u32, at: u32, width: u32, requested: Option<u32>) -> Told {
    let (number, address) = (12, line * LINE as u32 + at);
    let found = |a: u32| (a + 1) << (8 * (a - address));
    let answer = match (line, at, width) {
        (1 | 5, ..) => Value { number, value: (address..address + width).map(found).sum() },
        (2 | 9, 4, 1) => Value { number, value: 200 },
        _ => word(number, line, requested),
    };
    (load(address, width), answer)
}

/// Loads of every line, each alone, and inquiries about every load that waits, also in a
/// list.
fn tells_by_line(bench: &Bench, requested: Option<u32>, what: &str) {
    for line in 0..16 {
        for (at, width) in [(0, 1), (4, 1), (4, 2), (12, 4), (15, 1)] {
            let (call, expected) = new_load(line, at, width, requested);
            assert_eq!(answers(bench, &[call]), [expected], "{what}, {call:?}");
        }
    }
    let inquiries = WAITING.map(|(number, _)| retry(number));
    let words = WAITING.map(|(number, line)| word(number, line, requested));
    let (seen, left) = played(bench, &inquiries);
    assert_eq!(seen, words, "{what}");
    assert!(left == *bench, "{what}: something has changed");
}

/// Calls that are refused with the image.
const CALLS: [Call; 7] = [
    load(32, 1),
    load(36, 1),
    retry(4),
    retry(9),
    Call::Idle,
    Call::Preview,
    Call::ShowLine { address: 80 },
];

/// Taken are a free register, the lines that committed loads wait for and, in write-back,
/// that of the oldest store: each load and each inquiry has its word by that line alone.
/// With any other line every call is refused.
#[test]
fn any_line_in_the_register() {
    for setup in in_each_profile(&[SETUP]) {
        let found = many_waiting(setup);
        let back = setup.figures.policy == WritePolicy::WriteBack;
        tells_by_line(&found, None, &format!("{setup:?}, free"));
        for line in (0..20).chain([8, 12, 16, 28, 31].map(|bit| 1 << bit | 2)).chain([u32::MAX]) {
            let what = format!("{setup:?}, line {line}");
            let bench = with_register(&found, 1, line);
            match OF_LOADS.contains(&line) || back && line == OF_STORE {
                true => tells_by_line(&bench, Some(line), &what),
                false => all_refused(&bench, &CALLS, &what),
            }
        }
    }
}

/// A free register with a line, and one that is neither free nor not, stand for no state.
#[test]
fn registers_of_no_state() {
    for setup in in_each_profile(&[SETUP]) {
        let found = many_waiting(setup);
        for (requested, line) in [(0, 2), (0, 1), (2, 2), (2, 0), (1 << 31, 2), (u32::MAX, 2)] {
            let bench = with_register(&found, requested, line);
            assert!(!stands(&bench.image), "{requested} {line}");
            assert_eq!(answers(&bench, &CALLS[..6]), [Refused(10); 6], "{requested} {line}");
            assert_eq!(bench.clone().run(&CALLS[..6]), [Refused(10); 6], "{requested} {line}");
        }
    }
}

/// Load 8 with any address, while line 2 is requested. It is answered in lines 1 and 5; no
/// load waits for the byte of store 3, or outside memory.
#[test]
fn any_address_of_a_load() {
    let at = layout::LOADS_AT + 4 * layout::ENTRY;
    for setup in in_each_profile(&[SETUP]) {
        let found = with_register(&many_waiting(setup), 1, 2);
        assert_eq!(found.image.loads()[4].number, 8);
        for address in 0..272 {
            let image = with_word(&found.image, at + layout::ADDRESS, address);
            let bench = Bench { image, ..found.clone() };
            let expected = match (address / LINE as u32, address) {
                (1 | 5, _) => Value { number: 8, value: address + 1 },
                (16, _) | (_, 148) => Refused(10),
                (line, _) => word(8, line, Some(2)),
            };
            let (seen, left) = played(&bench, &[retry(8)]);
            assert_eq!(seen, [expected], "{setup:?}, {address}");
            assert_eq!(left != bench, matches!(expected, Value { .. }), "{setup:?}, {address}");
        }
    }
}
