//! Previews of a reply: what they tell of each kind of victim, when they are refused, that
//! they change nothing, and that no stretch strikes them.

mod judged;

use compare::dropped;
use compare::fault::Fault;
use compare::random::Run;
use compare::stretch;
use compare::types::{Answer, Call, Figures, Preview, Request, WritePolicy, ALL_DIRTY};
use judged::{value, Judged};

/// What a preview answers.
fn told(way: u32, evicted: Option<u32>, words: u8, ages: [u32; 4]) -> Answer {
    Answer::Previewed(Preview { way, evicted, words, ages })
}

/// Both write profiles, with so many sets and ways and 16 lines.
fn both(sets: u32, ways: u32) -> [Judged; 2] {
    [WritePolicy::WriteBack, WritePolicy::WriteThrough]
        .map(|policy| Judged::start(Figures::new(sets, ways).with_policy(policy), 256))
}

/// Has a line requested for a committed load of its first byte.
fn request(judged: &mut Judged, line: u32) {
    let Answer::Waits(number) = judged.load(line * 16, 1) else {
        panic!("line {line} is present");
    };
    judged.commit(number);
    assert_eq!(judged.idle(), Answer::Requested(line * 16));
}

/// Uses a present line by a committed load of its last byte.
fn use_line(judged: &mut Judged, line: u32) {
    assert!(matches!(judged.load(line * 16 + 15, 1), Answer::Value { .. }));
    judged.commit(judged.state.last);
}

/// Drains a store of a value to a present line.
fn drain(judged: &mut Judged, address: u32, value: u32) {
    judged.store(address, 1, value);
    judged.commit(judged.state.last);
    assert_eq!(judged.idle(), Answer::Drained(judged.state.last));
}

/// The ages of the first records, in order of the ways.
fn ages(judged: &Judged) -> [u32; 4] {
    [0, 1, 2, 3].map(|way| judged.state.tags[way].age)
}

/// After a start the lowest way is taken, and the ages stay as the start left them.
#[test]
fn empty_cache() {
    for (ways, ages) in [(1, [0; 4]), (2, [0, 1, 0, 0]), (3, [0, 1, 2, 0]), (4, [0, 1, 2, 3])] {
        for mut judged in both(1, ways) {
            request(&mut judged, 5);
            assert_eq!(judged.preview(), told(0, None, 0, ages));
        }
    }
}

/// The lowest invalid way is taken, though way 3 is invalid too and of greatest age, and
/// line 1 has been used before line 0.
#[test]
fn invalid_way_preferred() {
    for mut judged in both(1, 4) {
        judged.bring(0);
        judged.bring(1);
        use_line(&mut judged, 0);
        assert_eq!(ages(&judged), [0, 1, 2, 3]);
        request(&mut judged, 2);
        assert_eq!(judged.preview(), told(2, None, 0, [1, 2, 0, 3]));
        judged.reply();
        request(&mut judged, 3);
        assert_eq!(judged.preview(), told(3, None, 0, [2, 3, 1, 0]));
    }
}

/// A dirty line beside an invalid way is not the victim.
#[test]
fn dirty_line_beside_an_invalid_way() {
    let mut judged = Judged::new(1, 2, 256);
    judged.bring(0);
    drain(&mut judged, 4, 200);
    assert_eq!(judged.state.tags[0].dirty, 0b10);
    request(&mut judged, 1);
    assert_eq!(judged.preview(), told(1, None, 0, [1, 0, 0, 0]));
}

/// Line 0 with bytes of words 1 and 3 written, and line 1 used since. In write-through no
/// word is left to be written back.
#[test]
fn two_marked_words() {
    for (mut judged, words) in both(1, 2).into_iter().zip([0b1010, 0]) {
        judged.bring(0);
        judged.bring(1);
        drain(&mut judged, 5, 200);
        drain(&mut judged, 15, 201);
        assert_eq!(ages(&judged), [0, 1, 0, 0]);
        use_line(&mut judged, 1);
        request(&mut judged, 2);
        assert_eq!(judged.preview(), told(0, Some(0), words, [0, 1, 0, 0]));
    }
}

/// Each of the 16 choices of words: a mark is told whether memory has the word's bytes or
/// not, and the bytes beside it are not asked.
#[test]
fn every_choice_of_words() {
    for marks in 0..=ALL_DIRTY {
        for changes in [false, true] {
            let mut judged = Judged::new(1, 1, 256);
            judged.bring(3);
            for word in (0..4).filter(|word| marks >> word & 1 == 1) {
                let at = 48 + 4 * word;
                drain(&mut judged, at, if changes { 200 } else { at + 1 });
            }
            assert_eq!(judged.cache == judged.memory[48..64], !changes || marks == 0);
            request(&mut judged, 7);
            assert_eq!(judged.preview(), told(0, Some(3), marks, [0; 4]), "{marks:b}");
        }
    }
}

/// A line that was never written, and one whose words a flush has written.
#[test]
fn clean_line() {
    for mut judged in both(1, 2) {
        judged.bring(9);
        judged.bring(4);
        let mut flushed = judged.clone();
        request(&mut judged, 6);
        assert_eq!(judged.preview(), told(0, Some(9), 0, [0, 1, 0, 0]));
        drain(&mut flushed, 144, 200);
        flushed.flush();
        use_line(&mut flushed, 4);
        request(&mut flushed, 6);
        assert_eq!(flushed.preview(), told(0, Some(9), 0, [0, 1, 0, 0]));
    }
}

/// With one way the only line goes, and its age is 0.
#[test]
fn one_way() {
    for mut judged in both(1, 1) {
        judged.bring(2);
        request(&mut judged, 11);
        assert_eq!(judged.preview(), told(0, Some(2), 0, [0; 4]));
    }
}

/// Three ways used in the order 2, 0, 1, and four in the order 1, 3, 0, 2.
#[test]
fn three_and_four_ways() {
    for mut judged in both(1, 3) {
        (0..3).for_each(|line| judged.bring(line));
        [2, 0, 1].into_iter().for_each(|line| use_line(&mut judged, line));
        assert_eq!(ages(&judged), [1, 0, 2, 0]);
        request(&mut judged, 8);
        assert_eq!(judged.preview(), told(2, Some(2), 0, [2, 1, 0, 0]));
    }
    for mut judged in both(1, 4) {
        (0..4).for_each(|line| judged.bring(line));
        [1, 3, 0, 2].into_iter().for_each(|line| use_line(&mut judged, line));
        assert_eq!(ages(&judged), [1, 3, 0, 2]);
        request(&mut judged, 8);
        assert_eq!(judged.preview(), told(1, Some(1), 0, [2, 0, 1, 3]));
    }
}

/// Way and ages are those of the requested line's own set, here the last of four, and the
/// line evicted is told by its number.
#[test]
fn set_of_the_requested_line() {
    for mut judged in both(4, 2) {
        for line in [0, 4, 7, 15] {
            judged.bring(line);
        }
        use_line(&mut judged, 0);
        use_line(&mut judged, 7);
        request(&mut judged, 11);
        assert_eq!(judged.preview(), told(1, Some(15), 0, [1, 0, 0, 0]));
        assert_eq!(ages(&judged), [0, 1, 0, 1]);
    }
}

/// A line that is requested for a store is previewed like any other.
#[test]
fn requested_for_a_store() {
    let mut judged = Judged::new(1, 1, 256);
    judged.bring(1);
    drain(&mut judged, 16, 200);
    judged.store(32, 1, 7);
    judged.commit(judged.state.last);
    assert_eq!(judged.idle(), Answer::Requested(32));
    assert_eq!(judged.preview(), told(0, Some(1), 1, [0; 4]));
}

/// Refused while the register is free: before a request, and behind the reply.
#[test]
fn refused_while_free() {
    for mut judged in both(1, 2) {
        assert_eq!(judged.preview(), Answer::Refused(17));
        judged.load(0, 1);
        assert_eq!(judged.preview(), Answer::Refused(17));
        judged.commit(1);
        assert_eq!(judged.preview(), Answer::Refused(17));
        judged.idle();
        assert_eq!(judged.preview(), told(0, None, 0, [0, 1, 0, 0]));
        judged.reply();
        assert_eq!(judged.preview(), Answer::Refused(17));
    }
}

/// 1 before 10 before 17, as a reply has them.
#[test]
fn refusals_in_order() {
    for mut free in both(1, 2) {
        let mut requested = free.clone();
        request(&mut requested, 3);
        assert_eq!(free.preview(), Answer::Refused(17));
        assert!(requested.preview().accepted());
        for judged in [&mut free, &mut requested] {
            judged.state.tags[200].age = 1;
            let both = |judged: &mut Judged| [judged.preview(), judged.reply()];
            assert_eq!(both(judged), [Answer::Refused(10); 2]);
            judged.memory.push(0);
            assert_eq!(both(judged), [Answer::Refused(1); 2]);
        }
    }
}

/// Four ways with line 1 dirty and the first to go, a held store and listed loads: the
/// preview leaves all as it was, tells the same once more, and the reply does it.
#[test]
fn originals_unchanged() {
    let mut judged = Judged::new(1, 4, 256);
    (0..4).for_each(|line| judged.bring(line));
    drain(&mut judged, 16, 200);
    drain(&mut judged, 24, 201);
    [3, 0, 2].into_iter().for_each(|line| use_line(&mut judged, line));
    request(&mut judged, 5);
    judged.store(16, 4, 9);
    judged.load(48, 1);
    judged.checkpoint(2);
    let before = judged.clone();
    for _ in 0..2 {
        assert_eq!(judged.preview(), told(1, Some(1), 0b0101, [2, 0, 1, 3]));
        assert_eq!(judged, before);
    }
    assert_eq!((before.memory[16], before.memory[24]), (17, 25));
    assert_eq!(judged.reply(), Answer::Filled(80));
    assert_eq!((judged.state.tags[1].line, ages(&judged)), (5, [2, 0, 1, 3]));
    assert_eq!((judged.memory[16], judged.memory[24]), (200, 201));
    assert!(judged.shown(16).is_empty());
    assert_eq!(judged.state.request, Request::Free);
}

/// Line 1 is first to go while load 4 is listed, answered and uncommitted; once the load is
/// committed, line 0 is.
#[test]
fn listed_loads_use_nothing() {
    for mut judged in both(1, 2) {
        judged.bring(1);
        judged.bring(0);
        request(&mut judged, 2);
        assert_eq!(judged.load(16, 1), value(4, 17));
        let first = told(0, Some(1), 0, [0, 1, 0, 0]);
        let second = told(1, Some(0), 0, [1, 0, 0, 0]);
        assert_eq!(judged.preview(), first);
        let Judged { mut state, mut cache, mut memory } = judged.clone();
        let step = Fault::PreviewUsesListed.step();
        assert_eq!(step(&mut state, &mut cache, &mut memory, Call::Preview), second);
        judged.commit(4);
        assert_eq!(judged.preview(), second);
    }
}

/// A run in which line 2 is requested for load 3, with lines 0 and 1 present in the two ways
/// of the set, line 0 first to go, and then some more calls.
fn run_to(policy: WritePolicy, more: &[Call]) -> Run {
    let figures = Figures::new(1, 2).with_policy(policy);
    let bring = |line: u32, number: u32| {
        let load = Call::Load { address: 16 * line, width: 1 };
        [load, Call::Commit { number }, Call::Idle, Call::Reply, Call::Retry { number }]
    };
    let requested = &bring(2, 3)[..3];
    let calls = [&bring(0, 1)[..], &bring(1, 2), requested, more].concat();
    Run { seed: 0, figures, found: vec![1; 64], numbered: 0, calls }
}

/// A preview, a load that line 0 answers, a store to it, the preview once more, the reply,
/// a preview that is refused, and the last call of the stretch.
fn stretch_to(last: Call) -> [Call; 7] {
    let load = Call::Load { address: 0, width: 1 };
    let store = Call::Store { address: 0, width: 4, value: 7 };
    [Call::Preview, load, store, Call::Preview, Call::Reply, Call::Preview, last]
}

/// What the previews there answer.
fn expected() -> [Answer; 3] {
    let told = told(0, Some(0), 0, [0, 1, 0, 0]);
    [told, told, Answer::Refused(17)]
}

/// The answers of a run's previews; and how many stretches end with its last call, and how
/// many of them leave no trace. All previews remain when one is struck.
fn compared(run: &Run, fault: Fault) -> (Vec<Answer>, [usize; 2]) {
    let whole = dropped::play(run, fault.step(), run.calls.iter().copied());
    let previewed = |at: &usize| run.calls[*at] == Call::Preview;
    let places: Vec<usize> = (0..run.calls.len()).filter(previewed).collect();
    let mut stretches = stretch::stretches(1, &whole.given);
    stretches.retain(|stretch| stretch.end + 1 == run.calls.len());
    let same = stretches.iter().filter(|stretch| {
        let remaining = dropped::remaining(&whole.given, **stretch);
        assert!(places.iter().all(|place| remaining.contains(place)), "{stretch:?}");
        dropped::compare(run, fault.step(), &whole, **stretch).is_ok()
    });
    let counts = [stretches.len(), same.count()];
    (places.iter().map(|place| whole.given[*place].answer).collect(), counts)
}

/// Previews in a plain stretch remain and answer the same. The stretch begins with the last
/// commit, the idle call behind it, the first preview or the load.
#[test]
fn previews_in_a_dropped_stretch() {
    for policy in [WritePolicy::WriteBack, WritePolicy::WriteThrough] {
        let run = run_to(policy, &stretch_to(Call::Abort { number: 4 }));
        assert_eq!(compared(&run, Fault::None), (expected().to_vec(), [4, 4]), "{policy:?}");
        assert_eq!(compared(&run, Fault::PreviewUsesListed).1, [4, 0], "{policy:?}");
    }
}

/// Those between the setting of a mark and the return to it likewise.
#[test]
fn previews_in_a_mark_stretch() {
    for policy in [WritePolicy::WriteBack, WritePolicy::WriteThrough] {
        let inside = stretch_to(Call::Restore { name: 5 });
        let run = run_to(policy, &[&[Call::Checkpoint { name: 5 }][..], &inside].concat());
        assert_eq!(compared(&run, Fault::None), (expected().to_vec(), [1, 1]), "{policy:?}");
        assert_eq!(compared(&run, Fault::PreviewUsesListed).1, [1, 0], "{policy:?}");
    }
}

/// No kind of stretch strikes a preview.
#[test]
fn never_struck() {
    for kind in stretch::KINDS {
        for n in [1, 4, u32::MAX] {
            assert!(!(kind.struck)(Call::Preview, n), "{kind:?}");
        }
    }
}
