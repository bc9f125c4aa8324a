//! Every refusal and the order of refusals: all the conditions that can hold at
//! once are made to hold together, and the first in the paper's order wins.

mod judged;

use compare::types::{Answer, Call, Figures, LoadEntry, Part, State, StoreEntry, WritePolicy};
use judged::Judged;

/// Every list of some of the numbers, in their order.
fn subsets(numbers: &[u32]) -> Vec<Vec<u32>> {
    let mut all = vec![vec![]];
    for number in numbers {
        let with = all.clone().into_iter().map(|mut list: Vec<u32>| {
            list.push(*number);
            list
        });
        all = all.iter().cloned().chain(with).collect();
    }
    all
}

/// Makes the state refuse by 13, 11 or 12, and last by 10 and 1.
fn spoil(judged: &mut Judged, bad: &[u32]) {
    let has = |no| bad.contains(&no);
    if has(13) {
        judged.state.last = u32::MAX;
    }
    let first = if has(13) { u32::MAX - 15 } else { 1 };
    for place in 0..if has(11) { 16 } else { 0 } {
        let number = first + place as u32;
        judged.state.stores[place] = StoreEntry { number, address: 0, width: 1, value: 1 };
        judged.state.last = judged.state.last.max(number);
    }
    for place in 0..if has(12) { 8 } else { 0 } {
        let number = first + place as u32;
        judged.state.loads[place] =
            LoadEntry { number, address: 0, width: 1, ..LoadEntry::default() };
        judged.state.last = judged.state.last.max(number);
    }
    if has(10) {
        judged.state.tags[200].age = 1;
    }
    if has(1) {
        judged.memory.push(0);
    }
}

/// Address, width and value that are bad in the named ways and in no other.
fn access(bad: &[u32]) -> (u32, u32, u32) {
    let has = |no| bad.contains(&no);
    let width = if has(2) { 3 } else { 2 };
    let inside = if has(4) { 36 } else { 6 };
    let address = inside + u32::from(has(3));
    let value = if has(5) { 256u32.pow(width) } else { 1 };
    (address, width, value)
}

/// A refusal of the first number, or an accepted call, and nothing else.
fn expect(mut judged: Judged, call: Call, bad: &[u32]) {
    let before = judged.clone();
    let answer = judged.call(call);
    match bad.first() {
        Some(no) => {
            assert_eq!(answer, Answer::Refused(*no), "{call:?} {bad:?}");
            assert_eq!(judged, before, "{call:?} {bad:?}");
        }
        None => assert!(answer.accepted(), "{call:?} {answer:?}"),
    }
}

#[test]
fn store_refusals_in_order() {
    for bad in subsets(&[1, 10, 2, 3, 4, 5, 13, 11]) {
        let mut judged = Judged::new(1, 1, 32);
        spoil(&mut judged, &bad);
        let (address, width, value) = access(&bad);
        let call = Call::Store { address, width, value };
        expect(judged, call, &bad);
    }
}

#[test]
fn load_refusals_in_order() {
    for bad in subsets(&[1, 10, 2, 3, 4, 13, 12]) {
        let mut judged = Judged::new(1, 1, 32);
        spoil(&mut judged, &bad);
        let (address, width, _) = access(&bad);
        expect(judged, Call::Load { address, width }, &bad);
    }
}

/// A machine with h 1 and last 3, whose load 1 waits, whose store 2 is held and
/// whose load 3 is answered; the register names line 1.
fn busy() -> Judged {
    let mut judged = Judged::new(1, 1, 48);
    judged.load(16, 1);
    judged.store(0, 1, 7);
    judged.load(0, 1);
    judged.commit(1);
    judged.idle();
    judged
}

#[test]
fn other_refusals_in_order() {
    for bad in subsets(&[1, 10]) {
        expect_others(&bad, 14, &[1], &[0, 2, 3, 4, u32::MAX], |number| Call::Retry { number });
        expect_others(&bad, 15, &[1, 2, 3], &[0, 4, u32::MAX], |number| Call::Commit { number });
        expect_others(&bad, 16, &[2, 3, 4], &[0, 1, 5, u32::MAX], |number| Call::Abort { number });
    }
}

/// A call with a number: good numbers, and bad ones that add a refusal.
fn expect_others(bad: &[u32], no: u32, good: &[u32], wrong: &[u32], call: fn(u32) -> Call) {
    for &number in good {
        let mut judged = busy();
        spoil(&mut judged, bad);
        expect(judged, call(number), bad);
    }
    for &number in wrong {
        let mut judged = busy();
        spoil(&mut judged, bad);
        let with: Vec<u32> = bad.iter().copied().chain([no]).collect();
        expect(judged, call(number), &with);
    }
}

/// A busy machine with mark 5 in force, and a name of which the refusals tell: 19 bad, 20
/// in use, 21 for a set no number left.
fn marked(bad: &[u32]) -> (Judged, u32) {
    let mut judged = busy();
    judged.checkpoint(5);
    if bad.contains(&21) {
        judged.state.last = u32::MAX;
    }
    spoil(&mut judged, bad);
    let name = match (bad.contains(&19), bad.contains(&20)) {
        (true, _) => 9,
        (_, true) => 5,
        _ => 4,
    };
    (judged, name)
}

#[test]
fn checkpoint_refusals_in_order() {
    for bad in subsets(&[1, 10, 19, 20, 21]) {
        // A bad name is never in use.
        if !(bad.contains(&19) && bad.contains(&20)) {
            let (judged, name) = marked(&bad);
            expect(judged, Call::Checkpoint { name }, &bad);
        }
    }
}

#[test]
fn restore_refusals_in_order() {
    for bad in subsets(&[1, 10]) {
        for end in [vec![], vec![21]] {
            let (judged, _) = marked(&[bad.clone(), end].concat());
            let with = |no| [&bad[..], &[no]].concat();
            for name in [0, 9, 10, u32::MAX] {
                expect(judged.clone(), Call::Restore { name }, &with(19));
            }
            for name in [1, 2, 3, 4, 6, 7, 8] {
                expect(judged.clone(), Call::Restore { name }, &with(21));
            }
            expect(judged, Call::Restore { name: 5 }, &bad);
        }
    }
}

#[test]
fn idle_reply_and_flush_refusals_in_order() {
    for bad in subsets(&[1, 10]) {
        let spoilt = |mut judged: Judged| {
            spoil(&mut judged, &bad);
            judged
        };
        let with = |no| bad.iter().copied().chain([no]).collect::<Vec<u32>>();
        expect(spoilt(busy()), Call::Idle, &bad);
        expect(spoilt(busy()), Call::Reply, &bad);
        expect(spoilt(Judged::new(1, 1, 32)), Call::Reply, &with(17));
        expect(spoilt(busy()), Call::Flush, &bad);
        let mut committed = busy();
        committed.commit(2);
        expect(spoilt(committed), Call::Flush, &with(18));
    }
}

/// A preview is refused as a reply is.
#[test]
fn preview_refusals_in_order() {
    for bad in subsets(&[1, 10]) {
        for (free, mut judged) in [(false, busy()), (true, Judged::new(1, 1, 32))] {
            spoil(&mut judged, &bad);
            let with: Vec<u32> = bad.iter().copied().chain(free.then_some(17)).collect();
            expect(judged.clone(), Call::Preview, &with);
            expect(judged, Call::Reply, &with);
        }
    }
}

#[test]
fn show_line_names_no_refusal() {
    let mut judged = Judged::new(2, 2, 64);
    judged.bring(1);
    judged.bring(3);
    let shown = |judged: &Judged, address| {
        let mut judged = judged.clone();
        judged.call(Call::ShowLine { address })
    };
    let part = |place, length| Answer::Shown(Part { place, length });
    for address in 16..32 {
        assert_eq!(shown(&judged, address), part(32, 16));
    }
    assert_eq!(shown(&judged, 63), part(48, 16));
    for address in [0, 47, 64, 80, u32::MAX] {
        assert_eq!(shown(&judged, address), part(0, 0));
    }
    for bad in [1, 10] {
        let mut spoilt = judged.clone();
        spoil(&mut spoilt, &[bad]);
        assert_eq!(shown(&spoilt, 16), part(0, 0));
        assert!(spoilt.shown(16).is_empty());
    }
}

#[test]
fn start_refuses_by_1_alone() {
    for sets in 0..=130 {
        for ways in 0..=6 {
            for length in [0, 15, 16, 17, 24, 32, 65536, 65552] {
                start_with(sets, ways, (sets * ways * 16) as usize, length);
            }
            start_with(sets, ways, (sets * ways * 16) as usize + 1, 32);
            start_with(sets, ways, (sets * ways * 16).saturating_sub(16) as usize, 32);
        }
    }
    for figure in [1 << 16, 1 << 28, 1 << 31, u32::MAX] {
        start_with(figure, 1, 16, 32);
        start_with(1, figure, 16, 32);
        start_with(figure, figure, 0, 32);
    }
}

/// Starts in both write profiles.
fn start_with(sets: u32, ways: u32, cache: usize, memory: usize) {
    for policy in [WritePolicy::WriteBack, WritePolicy::WriteThrough] {
        start_over_rubbish(Figures::new(sets, ways).with_policy(policy), cache, memory);
    }
}

/// A start over a state that holds rubbish, judged; refused, it leaves all zero.
fn start_over_rubbish(figures: Figures, cache: usize, memory: usize) {
    let state = marked(&[]).0.state;
    let mut judged = Judged { state, cache: vec![9; cache], memory: vec![9; memory] };
    let Figures { sets, ways, .. } = figures;
    let allowed = [1, 2, 4, 8, 16, 32, 64].contains(&sets)
        && (1..=4).contains(&ways)
        && [16, 32, 65536].contains(&memory)
        && cache == (sets * ways * 16) as usize;
    let answer = judged.call(Call::Start { figures });
    if allowed {
        assert_eq!(answer, Answer::Ready);
        assert_eq!(judged.state.figures, figures);
        assert_eq!(judged.memory, vec![9; memory]);
    } else {
        assert_eq!(answer, Answer::Refused(1), "{figures:?} {cache} {memory}");
        assert_eq!(judged.state, State::zero());
        assert_eq!(judged.cache, vec![9; cache]);
        assert_eq!(judged.call(Call::Idle), Answer::Refused(1));
        assert_eq!(judged.call(Call::ShowLine { address: 0 }), Answer::Shown(Part::default()));
    }
}

#[test]
fn numbers_end_at_the_last_one() {
    let mut judged = Judged::new(1, 1, 32);
    judged.state.last = u32::MAX - 2;
    judged.state.committed = u32::MAX - 2;
    assert_eq!(judged.store(0, 1, 1), Answer::Stored(u32::MAX - 1));
    assert_eq!(judged.load(0, 1), judged::value(u32::MAX, 1));
    assert_eq!(judged.load(0, 1), Answer::Refused(13));
    assert_eq!(judged.store(0, 1, 1), Answer::Refused(13));
    assert_eq!(judged.abort(u32::MAX - 2), Answer::Refused(16));
    assert_eq!(judged.clone().abort(u32::MAX - 1), Answer::Kept(u32::MAX - 2));
    assert_eq!(judged.abort(u32::MAX), Answer::Kept(u32::MAX - 1));
    assert_eq!(judged.store(1, 1, 2), Answer::Stored(u32::MAX));
    assert_eq!(judged.commit(u32::MAX), Answer::Committed(u32::MAX));
    assert_eq!(judged.abort(u32::MAX), Answer::Refused(16));
}
