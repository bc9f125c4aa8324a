//! Dirty words: what is written back, of records and memories of any kind, the marks
//! that drains leave, and what both add up to.

mod judged;

use compare::fault::Fault;
use compare::model::{write_back, Machine, Right};
use compare::traffic::{Dirty, Traffic};
use compare::types::{Answer, Call, Tag, ALL_DIRTY};
use judged::Judged;

/// Writes record 1 of a cache of 2 back as line 2, over memory with byte 7 everywhere:
/// the count, and memory.
fn written(dirty: u8, memory: usize) -> (u32, Vec<u8>) {
    let (cache, mut memory): (Vec<u8>, _) = ((100..132).collect(), vec![7; memory]);
    let count = write_back(Tag { valid: true, dirty, line: 2, age: 0 }, 1, &cache, &mut memory);
    (count, memory)
}

/// Clean words stay as memory had them, though the cache has other bytes. In a
/// well-formed state it has the same ones, so that no run tells a machine that writes
/// the whole line; this record is in none. Bits above the four marks mean nothing.
#[test]
fn dirty_words_alone_are_written() {
    for dirty in 0..=u8::MAX {
        let mut expected = vec![7; 48];
        for word in (0..4).filter(|word| dirty >> word & 1 == 1) {
            for at in 4 * word..4 * word + 4 {
                expected[32 + at] = 100 + 16 + at as u8;
            }
        }
        let words = (dirty % 16).count_ones();
        assert_eq!(written(dirty, 48), (words, expected), "{dirty:b}");
    }
}

#[test]
fn words_outside_are_not_written() {
    assert_eq!(written(ALL_DIRTY, 32), (0, vec![7; 32]));
    let (count, memory) = written(ALL_DIRTY, 42);
    assert_eq!((count, &memory[32..]), (2, &[116, 117, 118, 119, 120, 121, 122, 123, 7, 7][..]));
    let mut memory = vec![7; 64];
    for (line, record) in [(4, 0), (u32::MAX, 0), (0, 1), (0, 255), (0, usize::MAX)] {
        let tag = Tag { valid: true, dirty: ALL_DIRTY, line, age: 0 };
        assert_eq!(write_back(tag, record, &[9; 16], &mut memory), 0, "{line} {record}");
    }
    assert_eq!(memory, vec![7; 64]);
}

/// Eviction and flush do the same, each of an ill-formed state: word 1 of its line is
/// dirty and no byte of the line is memory's.
#[test]
fn evictions_and_flushes_leave_clean_words() {
    let mut judged = Judged::new(1, 1, 32);
    judged.bring(0);
    judged.cache.fill(200);
    judged.state.tags[0].dirty = 0b10;
    let mut expected = judged.memory.clone();
    expected[4..8].fill(200);
    let mut evicted = judged.clone();
    Right::evict(&evicted.state, &evicted.cache, &mut evicted.memory, 0);
    assert_eq!(evicted.memory, expected);
    let count = Right::write_dirty(&mut judged.state, &judged.cache, &mut judged.memory);
    assert_eq!((count, judged.state.tags[0].dirty), (1, 0));
    assert_eq!(judged.memory, expected);
}

/// Stores to line 0, drained.
fn drained(stores: &[(u32, u32)]) -> Judged {
    let mut judged = Judged::new(1, 1, 32);
    judged.bring(0);
    let found = judged.memory.clone();
    for (address, width) in stores {
        judged.store(*address, *width, 0);
        let number = judged.state.last;
        judged.commit(number);
        assert_eq!(judged.idle(), Answer::Drained(number));
    }
    assert_eq!(judged.memory, found);
    judged
}

#[test]
fn drains_mark_their_word() {
    for width in [1, 2, 4] {
        for address in (0..16).step_by(width as usize) {
            let judged = drained(&[(address, width)]);
            assert_eq!(judged.state.tags[0].dirty, 1 << (address / 4), "{address} {width}");
        }
    }
    // A word that is dirty stays so.
    assert_eq!(drained(&[(5, 1), (6, 1), (4, 4)]).state.tags[0].dirty, 0b10);
}

/// A store that changes no byte marks its word all the same, and a flush counts it.
#[test]
fn drains_mark_words_they_leave() {
    for width in [1, 2, 4] {
        for address in (0..16).step_by(width as usize) {
            let mut judged = drained(&[]);
            let found = judged.cache.clone();
            let Answer::Value { value, .. } = judged.load(address, width) else {
                panic!("{address} {width}");
            };
            judged.store(address, width, value);
            judged.commit(judged.state.last);
            let mut other = judged.clone();
            judged.idle();
            assert_eq!(judged.cache, found);
            assert_eq!(judged.state.tags[0].dirty, 1 << (address / 4), "{address} {width}");
            assert_eq!(judged.flush(), Answer::Flushed(1));
            let step = Fault::DrainMarksChanged.step();
            step(&mut other.state, &mut other.cache, &mut other.memory, Call::Idle);
            assert_eq!((other.state.tags[0].dirty, other.flush()), (0, Answer::Flushed(0)));
        }
    }
}

/// Each of the 16 choices of words, stored to from the last one down: the marks, the
/// answer of a flush, and what an eviction and a flush leave in memory.
#[test]
fn marks_add_up() {
    for marks in 0..=ALL_DIRTY {
        let words = (0..4).rev().filter(|word| marks >> word & 1 == 1);
        let mut judged = drained(&words.map(|word| (4 * word + 1, 1)).collect::<Vec<_>>());
        assert_eq!(judged.state.tags[0].dirty, marks);
        let line = judged.shown(0).to_vec();
        let mut evicted = judged.clone();
        evicted.bring(1);
        assert_eq!(evicted.memory[..16], line);
        assert_eq!(judged.flush(), Answer::Flushed(marks.count_ones()));
        assert_eq!((judged.state.tags[0].dirty, judged.flush()), (0, Answer::Flushed(0)));
        assert_eq!(judged.memory[..16], line);
    }
}

/// Line 0 with one dirty word is evicted by line 1, of which then three are dirty.
#[test]
fn traffic_of_a_small_run() {
    let mut judged = drained(&[(4, 1), (6, 2)]);
    let mut traffic = Traffic::default();
    let mut take = |judged: &mut Judged, call: Call| {
        let before = Dirty::of(&judged.state);
        let answer = judged.call(call);
        traffic.take(answer, before, Dirty::of(&judged.state));
    };
    for address in [16, 20, 28] {
        take(&mut judged, Call::Store { address, width: 4, value: 9 });
    }
    let number = judged.state.last;
    for call in [Call::Commit { number }, Call::Idle, Call::Reply] {
        take(&mut judged, call);
    }
    for call in [Call::Idle, Call::Idle, Call::Idle, Call::Flush] {
        take(&mut judged, call);
    }
    assert_eq!(traffic.evicted, Dirty { lines: 1, words: 1, whole: 0 });
    assert_eq!(traffic.flushed, Dirty { lines: 1, words: 3, whole: 0 });
    let told = "bytes written by evictions         4, by whole lines        16, ratio 0.250\n\
                bytes written by flushes          12, by whole lines        16, ratio 0.750\n";
    assert_eq!(traffic.to_string(), told);
}

/// The words of a flush are those that it answers, those of an eviction its marks.
#[test]
fn traffic_is_what_flushes_answer() {
    let judged = drained(&[(0, 1), (4, 1), (8, 1)]);
    for (fault, words) in [(Fault::None, 3), (Fault::FlushCountsLines, 1)] {
        let (mut traffic, mut after) = (Traffic::default(), judged.clone());
        let step = fault.step();
        let answer = step(&mut after.state, &mut after.cache, &mut after.memory, Call::Flush);
        traffic.take(answer, Dirty::of(&judged.state), Dirty::of(&after.state));
        assert_eq!(traffic.flushed, Dirty { lines: 1, words, whole: 0 }, "{fault:?}");
    }
    let mut traffic = Traffic::default();
    traffic.take(Answer::Filled(16), Dirty::of(&judged.state), Dirty::default());
    assert_eq!(traffic.evicted, Dirty { lines: 1, words: 3, whole: 0 });
}
