//! Loads fed from held stores, in the images that they leave: which are forwarded, what a
//! commit uses of their lines, and any flag in the place of each load and in free places. Each
//! call is answered as the Rust model answers it, alone and in a list.

mod beside;

use beside::refused::{all_refused, answers};
use beside::{in_each_profile, layout, played, stands, with_word, Bench};
use compare::types::{Answer, Call, Setup};
use nicoisetarn::LOADS;
use Answer::{Committed, Filled, Refused, Requested, Stored, Value, Waits};

const fn load(address: u32, width: u32) -> Call {
    Call::Load { address, width }
}

const fn commit(number: u32) -> Call {
    Call::Commit { number }
}

/// One set of two ways over three lines.
const SETUP: Setup = Setup::new(1, 2, 48);

/// Lines 0 and 1 come, line 1 last. Two stores are held, and four loads listed: load 5 is fed
/// from store 3, load 6 in part, load 7 waits and store 4 has one byte of it, and load 8 reads
/// line 1.
const CALLS: [(Call, Answer); 16] = [
    (load(0, 1), Waits(1)),
    (commit(1), Committed(1)),
    (Call::Idle, Requested(0)),
    (Call::Reply, Filled(0)),
    (Call::Retry { number: 1 }, Value { number: 1, value: 1 }),
    (load(16, 1), Waits(2)),
    (commit(2), Committed(2)),
    (Call::Idle, Requested(16)),
    (Call::Reply, Filled(16)),
    (Call::Retry { number: 2 }, Value { number: 2, value: 17 }),
    (Call::Store { address: 0, width: 2, value: 0x0908 }, Stored(3)),
    (Call::Store { address: 32, width: 1, value: 7 }, Stored(4)),
    (load(0, 2), Value { number: 5, value: 0x0908 }),
    (load(0, 4), Value { number: 6, value: 0x0403_0908 }),
    (load(32, 2), Waits(7)),
    (load(16, 1), Value { number: 8, value: 17 }),
];

fn four_loads(setup: Setup) -> Bench {
    let calls = CALLS.map(|(call, _)| call);
    let (answers, bench) = played(&Bench::start(setup), &calls);
    assert_eq!(answers, CALLS.map(|(_, answer)| answer));
    bench
}

/// The flags of the listed loads in their places.
fn forwarded(bench: &Bench) -> [bool; LOADS] {
    bench.image.loads().map(|load| load.forwarded)
}

/// The ages of both ways.
fn ages(bench: &Bench) -> [u32; 2] {
    [0, 1].map(|record| bench.image.tag(record).map_or(9, |tag| tag.age))
}

/// The bench with another flag in a place of the load queue.
fn flagged(bench: &Bench, place: usize, flag: u16) -> Bench {
    let waiting = u32::from(bench.image.loads()[place].waiting);
    let at = layout::LOADS_AT + layout::ENTRY * place + layout::WAITING;
    let image = with_word(&bench.image, at, waiting | u32::from(flag) << 16);
    Bench { image, ..bench.clone() }
}

#[test]
fn which_are_forwarded() {
    for setup in in_each_profile(&[SETUP]) {
        let found = four_loads(setup);
        let first = |many: &[bool]| {
            let mut flags = [false; LOADS];
            flags[..many.len()].copy_from_slice(many);
            flags
        };
        assert_eq!((forwarded(&found), ages(&found)), (first(&[true]), [1, 0]));
        let (_, fed) = played(&found, &[commit(5)]);
        assert_eq!((forwarded(&fed), ages(&fed)), (first(&[]), [1, 0]));
        let (_, half) = played(&fed, &[commit(6)]);
        assert_eq!(ages(&half), [0, 1]);
        let (_, line) = played(&half, &[commit(8)]);
        assert_eq!((ages(&line), line.image.loads()[0].number), ([1, 0], 7));
        let (_, dropped) = played(&found, &[Call::Abort { number: 5 }, load(16, 2)]);
        assert_eq!((forwarded(&dropped), dropped.image.loads()[0].number), (first(&[]), 5));
    }
}

/// Each of the three answered loads forwarded or not: a commit uses the lines of those that
/// are not, in number order.
#[test]
fn what_a_commit_uses() {
    for setup in in_each_profile(&[SETUP]) {
        let found = four_loads(setup);
        for flags in 0..8u16 {
            let mut bench = found.clone();
            for (bit, place) in [0, 1, 3].into_iter().enumerate() {
                bench = flagged(&bench, place, flags >> bit & 1);
            }
            let (zero_used, one_used) = (flags & 3 != 3, flags & 4 == 0);
            let expected = if zero_used && !one_used { [0, 1] } else { [1, 0] };
            let (answers, left) = played(&bench, &[commit(8)]);
            assert_eq!((answers, ages(&left)), (vec![Committed(8)], expected), "{flags:#b}");
            let listed = left.image.loads().map(|load| load.number);
            assert_eq!(listed, [7, 0, 0, 0, 0, 0, 0, 0], "{flags:#b}");
        }
    }
}

/// A call of each kind; as found reply and preview alone are refused, since nothing is
/// requested.
const EACH: [Call; 12] = [
    Call::ShowLine { address: 0 },
    load(4, 4),
    Call::Store { address: 0, width: 1, value: 9 },
    Call::Retry { number: 7 },
    commit(6),
    Call::Abort { number: 8 },
    Call::Idle,
    Call::Reply,
    Call::Flush,
    Call::Checkpoint { name: 8 },
    Call::Restore { name: 1 },
    Call::Preview,
];

/// Flags of one bit, none, and several.
fn flags() -> impl Iterator<Item = u16> {
    (0..16).map(|bit| 1 << bit).chain([0, 3, 255, 257, u16::MAX])
}

/// A waiting load and a free place are not forwarded; an answered load may be or not; and any
/// other flag stands for no state.
#[test]
fn any_flag_in_any_place() {
    for setup in in_each_profile(&[SETUP]) {
        let (_, found) = played(&four_loads(setup), &[Call::Checkpoint { name: 1 }]);
        let as_found = answers(&found, &EACH);
        for (place, flag) in (0..LOADS).flat_map(|place| flags().map(move |flag| (place, flag))) {
            let what = format!("{setup:?}, place {place}, {flag:#x}");
            let bench = flagged(&found, place, flag);
            assert_eq!(stands(&bench.image), flag <= 1, "{what}");
            match (flag, place) {
                (0, _) | (1, 0 | 1 | 3) => assert_eq!(answers(&bench, &EACH), as_found, "{what}"),
                (1, _) => all_refused(&bench, &EACH, &what),
                _ => {
                    assert_eq!(answers(&bench, &EACH[1..]), [Refused(10); 11], "{what}");
                    assert_eq!(bench.clone().run(&EACH[1..]), [Refused(10); 11], "{what}");
                }
            }
        }
    }
}
