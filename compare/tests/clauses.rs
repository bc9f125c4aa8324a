//! Every clause of well-formedness, damaged alone; damaged figures and lengths;
//! random damage, judged by the plain rules; and the faults of states.

mod judged;

use compare::check::{self, CLAUSES};
use compare::counts::{refused, Counts};
use compare::fault::{Fault, OF_STATES};
use compare::model::{record_bytes, Machine, Right};
use compare::plain;
use compare::random::{self, Rng};
use compare::rules;
use compare::types::{
    Answer, Call, Checkpoint, Figures, LoadEntry, Part, Request, State, Step, Tag, WritePolicy,
    ALL_DIRTY, CHECKPOINTS, LINE, LOADS, RECORDS,
};
use judged::Judged;

/// A machine in which every part of the state is in use: word 0 of line 0 dirty, line
/// 2 clean, set 1 invalid, stores 4, 5, 8, loads 3 (committed, waits), 6 (waits)
/// and 7 (answered), line 1 requested, h 3 and last 8, marks 5, 2 and 7 at number 8.
fn rich() -> Judged {
    let mut judged = Judged::new(2, 2, 128);
    judged.store(0, 4, 0x0908_0706);
    judged.commit(1);
    judged.idle();
    judged.reply();
    judged.idle();
    judged.bring(2);
    judged.load(16, 1);
    judged.commit(3);
    judged.idle();
    judged.store(48, 2, 500);
    judged.store(4, 1, 9);
    judged.load(64, 2);
    judged.load(0, 2);
    for name in [5, 2, 7] {
        assert_eq!(judged.checkpoint(name), Answer::Checkpointed(8));
    }
    judged.store(64, 1, 77);
    assert_eq!(judged.state.request, Request::Line(1));
    assert_eq!((judged.state.committed, judged.state.last), (3, 8));
    judged
}

/// One call of each kind but the start, all with arguments that would pass.
fn calls() -> [Call; 12] {
    [
        Call::Load { address: 0, width: 1 },
        Call::Store { address: 0, width: 1, value: 1 },
        Call::Retry { number: 3 },
        Call::Commit { number: 3 },
        Call::Abort { number: 9 },
        Call::Idle,
        Call::Reply,
        Call::Flush,
        Call::ShowLine { address: 0 },
        Call::Checkpoint { name: 1 },
        Call::Restore { name: 5 },
        Call::Preview,
    ]
}

/// Every call refuses by this number and changes nothing.
fn all_refuse(judged: &Judged, no: u32, what: &str) {
    for call in calls() {
        let mut after = judged.clone();
        let expected = match call {
            Call::ShowLine { .. } => Answer::Shown(Part::default()),
            _ => Answer::Refused(no),
        };
        assert_eq!(after.call(call), expected, "{what}: {call:?}");
        assert_eq!(after, *judged, "{what}: {call:?}");
    }
    assert!(judged.shown(0).is_empty(), "{what}");
}

/// The names of the clauses that do not hold.
fn broken(judged: &Judged) -> Vec<&'static str> {
    CLAUSES
        .iter()
        .filter(|(_, clause)| !clause(&judged.state, &judged.cache, &judged.memory))
        .map(|(name, _)| *name)
        .collect()
}

/// A damaged machine breaks these clauses and no other, and refuses every call.
fn breaks(names: &[&str], judged: Judged) {
    assert_eq!(broken(&judged), names);
    assert!(plain::read(judged.snapshot()).is_err(), "{names:?}");
    all_refuse(&judged, 10, names[0]);
}

/// Damages a copy of the rich machine.
fn damage(names: &[&str], change: impl Fn(&mut Judged)) {
    let mut judged = rich();
    assert_eq!(broken(&judged), Vec::<&str>::new());
    change(&mut judged);
    breaks(names, judged);
}

#[test]
fn committed_at_most_last() {
    let mut judged = Judged::new(1, 1, 32);
    judged.state.committed = 1;
    breaks(&["committed at most last"], judged);
}

#[test]
fn unused_records() {
    let names = ["unused records zero"];
    damage(&names, |b| b.state.tags[4].valid = true);
    damage(&names, |b| b.state.tags[4].dirty = 1);
    damage(&names, |b| b.state.tags[255].dirty = 16);
    damage(&names, |b| b.state.tags[100].line = 1);
    damage(&names, |b| b.state.tags[255].age = 1);
}

#[test]
fn free_places() {
    let names = ["free places zero"];
    damage(&names, |b| b.state.stores[3].address = 1);
    damage(&names, |b| b.state.stores[9].width = 1);
    damage(&names, |b| b.state.stores[15].value = 1);
    damage(&names, |b| b.state.stores[4] = b.state.stores[2]);
    damage(&names, |b| b.state.loads[3].address = 1);
    damage(&names, |b| b.state.loads[5].width = 1);
    damage(&names, |b| b.state.loads[7].answered = true);
    for place in 3..8 {
        damage(&names, |b| b.state.loads[place].forwarded = true);
    }
    damage(&names, |b| b.state.stores[2].number = 0);
}

#[test]
fn ages() {
    let names = ["ages complete"];
    damage(&names, |b| b.state.tags[0].age = b.state.tags[1].age);
    damage(&names, |b| b.state.tags[3].age = 2);
    damage(&names, |b| b.state.tags[3].age = u32::MAX);
}

#[test]
fn valid_lines() {
    damage(&["valid lines in memory"], |b| b.state.tags[0].line = 8);
    damage(&["valid lines in memory"], |b| b.state.tags[0].line = 1 << 28);
    damage(&["valid lines in memory"], |b| b.state.tags[1].line = u32::MAX - 1);
    damage(&["valid lines in own set"], |b| {
        b.state.tags[0].line = 3;
        b.state.tags[0].dirty = ALL_DIRTY;
    });
    damage(&["valid lines once"], |b| {
        b.state.tags[1].line = 0;
        b.state.tags[1].dirty = ALL_DIRTY;
    });
}

#[test]
fn invalid_records() {
    for dirty in [1, 2, 4, 8, ALL_DIRTY] {
        damage(&["only valid lines dirty"], |b| b.state.tags[2].dirty = dirty);
    }
    damage(&["invalid records zero"], |b| b.state.tags[3].line = 5);
    damage(&["invalid bytes zero"], |b| b.cache[32] = 1);
    damage(&["invalid bytes zero"], |b| b.cache[63] = 1);
}

#[test]
fn clean_words() {
    let names = ["clean words equal memory"];
    damage(&names, |b| b.cache[16 + 5] ^= 1);
    damage(&names, |b| b.memory[32 + 15] ^= 128);
    damage(&names, |b| b.state.tags[0].dirty = 0);
    // Word 0 of line 0 is dirty, and each byte of the other words must be memory's.
    for at in 4..16 {
        damage(&names, |b| b.cache[at] ^= 1);
        damage(&names, |b| b.memory[at] ^= 128);
    }
    damage(&names, |b| b.state.tags[0].dirty = 0b1110);
}

/// A word may be dirty and equal memory; what it holds is not asked.
#[test]
fn dirty_words() {
    let mut judged = rich();
    judged.cache[..4].fill(0x5A);
    for dirty in [0b0001, 0b0011, 0b1001, ALL_DIRTY] {
        judged.state.tags[0].dirty = dirty;
        assert_eq!(broken(&judged), Vec::<&str>::new(), "{dirty:b}");
    }
}

#[test]
fn four_dirty_marks() {
    let names = ["four dirty marks"];
    for more in [16, 32, 64, 128, 240] {
        // Line 0 has a dirty word, line 2 none.
        damage(&names, |b| b.state.tags[0].dirty |= more);
        damage(&names, |b| b.state.tags[1].dirty = more);
        damage(&["only valid lines dirty", names[0]], |b| b.state.tags[2].dirty = more);
        let mut judged = ready_store(WritePolicy::WriteThrough);
        judged.state.tags[0].dirty = more;
        breaks(&["none dirty in write-through", names[0]], judged);
    }
}

#[test]
fn listed_numbers() {
    damage(&["numbers rising"], |b| b.state.stores[1].number = 4);
    damage(&["numbers rising"], |b| b.state.stores[0].number = 5);
    damage(&["numbers rising"], |b| b.state.loads[1].number = 3);
    damage(&["numbers rising"], |b| b.state.loads.swap(1, 2));
    damage(&["numbers up to last"], |b| b.state.last = 7);
    damage(&["numbers up to last"], |b| b.state.stores[2].number = u32::MAX);
    damage(&["numbers in one list"], |b| b.state.stores[1].number = 6);
}

#[test]
fn listed_accesses() {
    let names = ["accesses pass checks"];
    for width in [0, 3, 5, 8, u32::MAX] {
        damage(&names, |b| b.state.stores[0].width = width);
        damage(&names, |b| b.state.loads[2].width = width);
    }
    damage(&names, |b| b.state.stores[0].address = 49);
    damage(&names, |b| b.state.stores[0].address = 128);
    damage(&names, |b| b.state.stores[0].address = u32::MAX - 1);
    damage(&names, |b| b.state.stores[0].value = 65536);
    damage(&names, |b| b.state.stores[1].value = 256);
    damage(&names, |b| b.state.loads[2].address = 1);
    damage(&names, |b| b.state.loads[2].address = 128);
    damage(&names, |b| b.state.loads[2].address = u32::MAX - 1);
}

#[test]
fn listed_loads() {
    damage(&["committed loads wait"], |b| b.state.committed = 7);
    damage(&["waiting loads lack a byte"], |b| {
        b.state.stores[1].address = 64;
        b.state.stores[1].width = 2;
    });
    damage(&["waiting loads lack a byte"], |b| {
        b.state.stores[0] = b.state.stores[2];
        b.state.stores[0].number = 4;
        b.state.stores[1].address = 65;
    });
}

/// A load that waits is not forwarded: 3, which is committed, and 6. Load 7, which is
/// answered, may be either, whatever stores are held.
#[test]
fn forwarded_loads() {
    let names = ["waiting loads not forwarded"];
    damage(&names, |b| b.state.loads[0].forwarded = true);
    damage(&names, |b| b.state.loads[1].forwarded = true);
    damage(&names, |b| b.state.loads[..3].iter_mut().for_each(|load| load.forwarded = true));
    damage(&["committed loads wait"], |b| {
        b.state.loads[1].answered = true;
        b.state.loads[1].forwarded = true;
        b.state.committed = 6;
    });
    for forwarded in [false, true] {
        let mut judged = rich();
        judged.state.loads[2].forwarded = forwarded;
        assert_eq!(broken(&judged), Vec::<&str>::new(), "{forwarded}");
    }
}

#[test]
fn requested_lines() {
    damage(&["request absent"], |b| {
        b.state.tags[2].valid = true;
        b.state.tags[2].line = 1;
        let line: Vec<u8> = b.memory[16..32].to_vec();
        b.cache[32..48].copy_from_slice(&line);
    });
    damage(&["request wanted"], |b| b.state.request = Request::Line(5));
    // The oldest store's line: uncommitted, then committed behind load 3.
    damage(&["request wanted"], |b| b.state.request = Request::Line(3));
    damage(&["request wanted"], |b| {
        b.state.request = Request::Line(3);
        b.state.committed = 4;
    });
    // The line of an uncommitted waiting load.
    damage(&["request wanted"], |b| b.state.request = Request::Line(4));
    // A line that passing accesses want lies in memory, so this clause cannot
    // fail alone: either the want fails too, or an access does.
    let outside = ["request in memory", "request wanted"];
    damage(&outside, |b| b.state.request = Request::Line(8));
    damage(&outside, |b| b.state.request = Request::Line(u32::MAX));
    damage(&["accesses pass checks", "request in memory"], |b| {
        b.state.request = Request::Line(8);
        b.state.loads[0].address = 128;
    });
}

#[test]
fn free_checkpoints() {
    for place in 3..8 {
        damage(&["free checkpoints zero"], |b| b.state.checkpoints[place].number = 8);
        damage(&["free checkpoints zero"], |b| b.state.checkpoints[place].rank = 4);
    }
    // A mark that keeps its rank behind free places.
    for place in 3..8 {
        damage(&["free checkpoints last"], |b| b.state.checkpoints.swap(2, place));
    }
    damage(&["free checkpoints last"], |b| b.state.checkpoints.rotate_right(1));
    damage(&["free checkpoints zero", "free checkpoints last"], |b| {
        b.state.checkpoints[2].name = 0;
        b.state.checkpoints[3] = Checkpoint { name: 8, number: 8, rank: 3 };
    });
}

#[test]
fn checkpoint_names() {
    for name in [9, 10, 255, u32::MAX] {
        damage(&["checkpoint names 1 to 8"], |b| b.state.checkpoints[1].name = name);
    }
    for (place, name) in [(0, 2), (0, 7), (1, 5), (2, 5), (2, 2)] {
        damage(&["checkpoint names distinct"], |b| b.state.checkpoints[place].name = name);
    }
    damage(&["checkpoint names 1 to 8", "checkpoint names distinct"], |b| {
        b.state.checkpoints[0].name = 9;
        b.state.checkpoints[2].name = 9;
    });
}

#[test]
fn checkpoint_numbers() {
    for number in [0, 1, 3] {
        damage(&["checkpoints above committed"], |b| b.state.checkpoints[0].number = number);
    }
    for number in [10, u32::MAX] {
        damage(&["checkpoints up to last + 1"], |b| b.state.checkpoints[2].number = number);
    }
    damage(&["checkpoints never fall"], |b| b.state.checkpoints[0].number = 9);
    damage(&["checkpoints never fall"], |b| b.state.checkpoints[2].number = 4);
    damage(&["checkpoints never fall"], |b| b.state.checkpoints[1].number = 7);
}

#[test]
fn checkpoint_ranks() {
    for (place, rank) in [(0, 0), (0, 2), (1, 1), (1, 3), (2, 2), (2, 4), (2, u32::MAX)] {
        damage(&["checkpoint ranks in order"], |b| b.state.checkpoints[place].rank = rank);
    }
    damage(&["checkpoint ranks in order"], |b| {
        b.state.checkpoints.iter_mut().take(3).for_each(|mark| mark.rank -= 1);
    });
}

/// Marks from h + 1 to last + 1, those at one number among them, are well formed; and the
/// next number may be one past 32 bits.
#[test]
fn checkpoints_in_bounds() {
    for numbers in [[4, 4, 4], [4, 8, 9], [9, 9, 9], [5, 5, 9]] {
        let mut judged = rich();
        for (mark, number) in judged.state.checkpoints.iter_mut().zip(numbers) {
            mark.number = number;
        }
        assert_eq!(broken(&judged), Vec::<&str>::new(), "{numbers:?}");
    }
    let mut judged = Judged::new(1, 1, 32);
    judged.state.last = u32::MAX;
    judged.state.checkpoints[0] = Checkpoint { name: 1, number: u32::MAX, rank: 1 };
    assert_eq!(broken(&judged), Vec::<&str>::new());
    assert_eq!(judged.restore(1), Answer::Kept(u32::MAX - 1));
}

/// Line 2 present, and a committed store to line 3, which is absent.
fn ready_store(policy: WritePolicy) -> Judged {
    let mut judged = Judged::start(Figures::new(2, 2).with_policy(policy), 128);
    judged.bring(2);
    judged.store(48, 2, 500);
    judged.commit(2);
    judged
}

/// A dirty line beside that store.
fn dirty_line(policy: WritePolicy) -> Judged {
    let mut judged = ready_store(policy);
    judged.state.tags[0].dirty = 1;
    judged
}

/// That store with its line requested.
fn requested_for_store(policy: WritePolicy) -> Judged {
    let mut judged = ready_store(policy);
    judged.state.request = Request::Line(3);
    judged
}

/// States that are well formed in write-back and not in write-through.
#[test]
fn states_of_write_through() {
    let none: [&str; 0] = [];
    assert_eq!(broken(&dirty_line(WritePolicy::WriteBack)), none);
    assert_eq!(broken(&requested_for_store(WritePolicy::WriteBack)), none);
    breaks(&["none dirty in write-through"], dirty_line(WritePolicy::WriteThrough));
    breaks(&["request wanted"], requested_for_store(WritePolicy::WriteThrough));
}

/// For each of the faults of states, a state that breaks one clause alone and is well
/// formed to this fault.
#[test]
fn states_of_faults() {
    let [mut fifth_mark, mut clean_word] = [rich(), rich()];
    fifth_mark.state.tags[0].dirty |= 16;
    clean_word.cache[15] ^= 1;
    let mut unrequested = clean_word.clone();
    unrequested.state.request = Request::Free;
    let forwarded = |place: usize| {
        let mut judged = rich();
        judged.state.loads[place].forwarded = true;
        judged
    };
    let dirty = dirty_line(WritePolicy::WriteThrough);
    let requested = requested_for_store(WritePolicy::WriteThrough);
    let marks = |change: fn(&mut [Checkpoint; CHECKPOINTS])| {
        let mut judged = rich();
        change(&mut judged.state.checkpoints);
        judged
    };
    let free = marks(|marks| marks[7].rank = 8);
    let hole = marks(|marks| marks.swap(2, 3));
    let nine = marks(|marks| marks[2].name = 9);
    let twice = marks(|marks| marks[2].name = 5);
    let low = marks(|marks| marks[0].number = 3);
    let high = marks(|marks| marks[2].number = 10);
    let falling = marks(|marks| marks[0].number = 9);
    let ranks = marks(|marks| marks[2].rank = 4);
    let states = [
        (Fault::TakesFifthMark, "four dirty marks", fifth_mark),
        (Fault::TakesCleanWord, "clean words equal memory", clean_word.clone()),
        (Fault::TakesWaitingForwarded, "waiting loads not forwarded", forwarded(1)),
        (Fault::TakesFreeForwarded, "free places zero", forwarded(3)),
        (Fault::ThroughTakesDirty, "none dirty in write-through", dirty),
        (Fault::ThroughWantsForStore, "request wanted", requested),
        (Fault::TakesFreeCheckpoint, "free checkpoints zero", free),
        (Fault::TakesCheckpointBehindFree, "free checkpoints last", hole),
        (Fault::TakesNinthName, "checkpoint names 1 to 8", nine),
        (Fault::TakesNameTwice, "checkpoint names distinct", twice),
        (Fault::TakesCommittedCheckpoint, "checkpoints above committed", low),
        (Fault::TakesCheckpointAhead, "checkpoints up to last + 1", high),
        (Fault::TakesFallingCheckpoints, "checkpoints never fall", falling),
        (Fault::TakesOtherRanks, "checkpoint ranks in order", ranks),
        (Fault::PreviewFreeBeforeFormed, "clean words equal memory", unrequested),
        (Fault::PreviewTakesIllFormed, "clean words equal memory", clean_word),
    ];
    assert_eq!(states.iter().map(|(fault, ..)| *fault).collect::<Vec<_>>(), OF_STATES);
    for (fault, name, judged) in states {
        assert_eq!(check_call(Right::step, &judged, telling(fault)), Ok(()));
        assert!(check_call(fault.step(), &judged, telling(fault)).is_err(), "{fault:?}");
        breaks(&[name], judged);
    }
}

#[test]
fn waiting_load_with_its_line_present() {
    let mut judged = rich();
    judged.reply();
    assert_eq!(broken(&judged), Vec::<&str>::new());
    assert_eq!(judged.retry(3), judged::value(3, 17));
}

#[test]
fn figures_of_the_state() {
    for sets in [0, 1, 3, 4, 128, u32::MAX] {
        figures(|b| b.state.figures.sets = sets);
    }
    for ways in [0, 1, 3, 5, 256, u32::MAX] {
        figures(|b| b.state.figures.ways = ways);
    }
    for length in [0, 16, 127, 129, 144, 65552, u32::MAX] {
        figures(|b| b.state.memory_length = length);
    }
}

#[test]
fn lent_lengths() {
    for length in [0, 16, 63, 65, 80, 4096, 100_000] {
        figures(|b| b.cache.resize(length, 0));
    }
    for length in [0, 16, 112, 127, 129, 144, 65536, 100_000] {
        figures(|b| b.memory.resize(length, 0));
    }
    // Lengths that agree with figures that are not allowed.
    for length in [0, 8, 24, 65552] {
        figures(|b| {
            b.state.memory_length = length;
            b.memory.resize(length as usize, 0);
        });
    }
    for (sets, ways) in [(0, 2), (3, 2), (128, 2), (2, 0), (2, 5)] {
        figures(|b| {
            b.state.figures = Figures::new(sets, ways);
            b.cache.resize((sets * ways * 16) as usize, 0);
        });
    }
}

/// Damaged figures or lengths give 1, whatever else is damaged.
fn figures(change: impl Fn(&mut Judged)) {
    let mut judged = rich();
    change(&mut judged);
    all_refuse(&judged, 1, "figures");
    judged.state.tags[0].age = 9;
    judged.state.committed = 99;
    all_refuse(&judged, 1, "figures and clauses");
}

/// A number that is likely to matter somewhere.
fn odd_number(rng: &mut Rng) -> u32 {
    let any = rng.word() as u32;
    rng.pick(&[0, 1, 2, 3, 4, 5, 7, 8, 15, 16, 17, 255, 256, 65536, u32::MAX - 1, u32::MAX, any])
}

/// The other write profile.
fn other(policy: WritePolicy) -> WritePolicy {
    match policy {
        WritePolicy::WriteBack => WritePolicy::WriteThrough,
        WritePolicy::WriteThrough => WritePolicy::WriteBack,
    }
}

/// One of the write profiles.
fn any_policy(rng: &mut Rng) -> WritePolicy {
    rng.pick(&[WritePolicy::WriteBack, WritePolicy::WriteThrough])
}

/// Damages one field, byte or length at random, or the register with what a store asks.
fn damage_at_random(judged: &mut Judged, rng: &mut Rng) {
    let number = odd_number(rng);
    let state = &mut judged.state;
    match rng.below(44) {
        0 => state.figures.sets = number,
        1 => state.figures.ways = number,
        2 => state.memory_length = number,
        3 => state.last = number,
        4 => state.committed = number,
        5 => judged.cache.resize(rng.below(200) as usize, 1),
        6 => judged.memory.resize(rng.below(200) as usize, 1),
        7 => flip(&mut judged.cache, rng),
        8 => flip(&mut judged.memory, rng),
        9..=11 => state.figures.policy = other(state.figures.policy),
        12 => state.request = rng.pick(&[Request::Line(number), Request::Free]),
        13..=15 => request_for_store(state, rng),
        16..=23 => damage_line(judged, rng),
        24..=37 => damage_checkpoints(judged, number, rng),
        38..=41 => damage_forwarded(state, rng),
        _ => damage_entry(judged, number, rng),
    }
}

/// Damages one of the marks, or a free place, after one or two were set.
fn damage_checkpoints(judged: &mut Judged, number: u32, rng: &mut Rng) {
    let store = Call::Store { address: 0, width: 1, value: 1 };
    for call in [Call::Checkpoint { name: 6 }, store, Call::Checkpoint { name: 3 }] {
        Right::step(&mut judged.state, &mut judged.cache, &mut judged.memory, call);
    }
    let state = &mut judged.state;
    let used = check::in_force(state).count();
    if used == 0 {
        return;
    }
    let (low, high) = (state.committed, state.last.saturating_add(2));
    let marks = &mut state.checkpoints;
    let [one, other] = [(); 2].map(|()| rng.below(used as u64) as usize);
    let numbers = (marks[other].number, marks[one].number);
    match rng.below(8) {
        0 => marks[one].name = rng.pick(&[9, number]),
        1 => marks[one].name = marks[other].name,
        2 => marks[0].number = rng.pick(&[low, number]),
        3 => marks[used - 1].number = rng.pick(&[high, number]),
        4 => (marks[one].number, marks[other].number) = numbers,
        5 => marks[one].rank = rng.pick(&[0, number]),
        6 => marks[CHECKPOINTS - 1].rank = number,
        _ => marks[one..].rotate_right(1),
    }
}

/// Changes the mark of a load that waits, if there is one, or of any place.
fn damage_forwarded(state: &mut State, rng: &mut Rng) {
    let waits = |load: &LoadEntry| load.number != 0 && !load.answered;
    let any = rng.below(LOADS as u64) as usize;
    let place = state.loads.iter().position(waits).filter(|_| rng.one_in(2)).unwrap_or(any);
    state.loads[place].forwarded = !state.loads[place].forwarded;
}

/// Requests the oldest store's line, mostly with a commit of that store.
fn request_for_store(state: &mut State, rng: &mut Rng) {
    let store = state.stores[0];
    state.request = Request::Line(store.address / LINE as u32);
    if !rng.one_in(4) {
        state.committed = state.committed.max(store.number);
    }
}

/// Damages one field of a tag record, of a queue or of a mark, mostly of the first ones.
fn damage_entry(judged: &mut Judged, number: u32, rng: &mut Rng) {
    let few = rng.pick(&[1, 2, 4, 8, 256]);
    let tag = &mut judged.state.tags[rng.below(few) as usize];
    let store = &mut judged.state.stores[rng.below(few.min(16)) as usize];
    let load = &mut judged.state.loads[rng.below(few.min(8)) as usize];
    let mark = &mut judged.state.checkpoints[rng.below(few.min(8)) as usize];
    match rng.below(17) {
        0 => tag.valid = !tag.valid,
        1 => tag.dirty = other_marks(tag.dirty, rng),
        2 => tag.line = number,
        3 => tag.age = number,
        4 => *tag = Tag::default(),
        5 => store.number = number,
        6 => store.address = number,
        7 => store.width = number,
        8 => store.value = number,
        9 => load.number = number,
        10 => load.address = number,
        11 => load.width = number,
        12 => load.answered = !load.answered,
        13 => load.forwarded = !load.forwarded,
        14 => mark.name = number,
        15 => mark.number = number,
        _ => mark.rank = number,
    }
}

/// Damages the dirty marks or a cached byte of a present line, of a dirty one if there
/// is one.
fn damage_line(judged: &mut Judged, rng: &mut Rng) {
    let tags = &mut judged.state.tags;
    let present: Vec<usize> = (0..RECORDS).filter(|record| tags[*record].valid).collect();
    let is_dirty = |record: &usize| tags[*record].dirty != 0;
    let dirty: Vec<usize> = present.iter().copied().filter(is_dirty).collect();
    let Some(records) = [dirty, present].into_iter().find(|records| !records.is_empty()) else {
        return;
    };
    let record = rng.pick(&records);
    match judged.cache.get_mut(record_bytes(record)) {
        Some(bytes) if rng.one_in(2) => flip(bytes, rng),
        _ => tags[record].dirty = other_marks(tags[record].dirty, rng),
    }
}

/// Other dirty marks: one of the four changed, a bit alone, a fifth mark, or any byte.
fn other_marks(dirty: u8, rng: &mut Rng) -> u8 {
    let (mark, bit, any) = (1 << rng.below(4), 1 << rng.below(8), rng.word() as u8);
    rng.pick(&[dirty ^ mark, dirty ^ mark, bit, 16, dirty | 16, any])
}

/// Changes one byte.
fn flip(bytes: &mut [u8], rng: &mut Rng) {
    if !bytes.is_empty() {
        let at = rng.below(bytes.len() as u64) as usize;
        bytes[at] ^= 1 << rng.below(8);
    }
}

/// A call of any kind with odd arguments.
fn odd_call(rng: &mut Rng) -> Call {
    let (number, address) = (odd_number(rng), odd_number(rng));
    let (width, value) = (rng.pick(&[1, 2, 4, 4, number]), odd_number(rng));
    let figures = Figures::new(number, width).with_policy(any_policy(rng));
    let name = rng.pick(&[1, 2, 3, 6, number]);
    rng.pick(&[
        Call::Start { figures },
        Call::Load { address, width },
        Call::Store { address, width, value },
        Call::Retry { number },
        Call::Commit { number },
        Call::Abort { number },
        Call::Idle,
        Call::Reply,
        Call::Flush,
        Call::ShowLine { address },
        Call::Checkpoint { name },
        Call::Restore { name },
        Call::Preview,
    ])
}

/// The machine in the middle of the run of a seed.
fn middle_of_run(seed: u64, rng: &mut Rng) -> Judged {
    let run = random::run(seed);
    let (mut state, mut cache, mut memory) = run.begin(Right::step);
    let length = rng.below(run.calls.len() as u64) as usize;
    for &call in &run.calls[..length] {
        Right::step(&mut state, &mut cache, &mut memory, call);
    }
    Judged { state, cache, memory }
}

/// What random damage must meet, out of so many damaged machines.
const NEEDED: [(&str, u64); 3] = [("accepted", 15), ("refused 1", 15), ("refused 10", 15)];

/// The states that it must meet besides, out of as many: those that are well formed to
/// each of the faults of states.
const STATES: [(Fault, &str, u64); 16] = [
    (Fault::TakesFifthMark, "a fifth dirty mark", 150),
    (Fault::TakesCleanWord, "a clean word that differs, beside a dirty one", 100),
    (Fault::TakesWaitingForwarded, "a forwarded load that waits", 150),
    (Fault::TakesFreeForwarded, "a mark of forwarding in a free place", 75),
    (Fault::ThroughTakesDirty, "a dirty line in write-through", 75),
    (Fault::ThroughWantsForStore, "a line requested for a store in write-through", 1_000),
    (Fault::TakesFreeCheckpoint, "a free place of the marks that is not zero", 150),
    (Fault::TakesCheckpointBehindFree, "a mark behind a free place", 150),
    (Fault::TakesNinthName, "a mark with a name above 8", 150),
    (Fault::TakesNameTwice, "two marks of one name", 150),
    (Fault::TakesCommittedCheckpoint, "a committed mark", 150),
    (Fault::TakesCheckpointAhead, "a mark above last + 1", 150),
    (Fault::TakesFallingCheckpoints, "marks that fall", 150),
    (Fault::TakesOtherRanks, "marks with other ranks", 150),
    (Fault::PreviewFreeBeforeFormed, "an ill-formed state with a free register", 5),
    (Fault::PreviewTakesIllFormed, "an ill-formed state with a line requested", 15),
];

/// The call by which a fault of states is told.
fn telling(fault: Fault) -> Call {
    match fault {
        Fault::PreviewFreeBeforeFormed | Fault::PreviewTakesIllFormed => Call::Preview,
        _ => Call::Idle,
    }
}

/// Counts what a damage led to.
fn count(counts: &mut Counts, judged: &Judged) {
    let refusal = check::refusal(&judged.state, &judged.cache, &judged.memory);
    counts.runs += 1;
    counts.met(refusal.map_or("accepted", refused), true);
    for (fault, name, _) in STATES {
        counts.met(name, check_call(fault.step(), judged, telling(fault)).is_err());
    }
}

#[test]
fn random_damage() {
    assert_eq!(STATES.iter().map(|(fault, ..)| *fault).collect::<Vec<_>>(), OF_STATES);
    let mut counts = Counts::default();
    for seed in 0..3000 {
        let mut rng = Rng::new(seed ^ 0xDA3A_6E00);
        let mut judged = middle_of_run(seed, &mut rng);
        for _ in 0..1 + rng.below(2) {
            damage_at_random(&mut judged, &mut rng);
        }
        one_by_one(&judged, seed);
        count(&mut counts, &judged);
        for _ in 0..6 {
            right_call(&judged, odd_call(&mut rng), seed);
        }
    }
    let needed = [&NEEDED[..], &STATES.map(|(_, name, number)| (name, number))].concat();
    assert_eq!(counts.lacking_of(&needed, counts.runs), Vec::<String>::new());
}

/// Well-formedness is all the clauses one by one, once check 1 has passed.
fn one_by_one(judged: &Judged, seed: u64) {
    let Judged { state, cache, memory } = judged;
    if check::figures_agree(state, cache, memory) {
        let all = CLAUSES.iter().all(|(_, clause)| clause(state, cache, memory));
        assert_eq!(check::well_formed(state, cache, memory), all, "seed {seed}");
    }
}

/// The answer on a damaged machine is what the plain rules say.
fn check_call(step: Step, judged: &Judged, call: Call) -> Result<(), String> {
    let mut after = judged.clone();
    let answer = step(&mut after.state, &mut after.cache, &mut after.memory, call);
    rules::judge(judged.snapshot(), call, answer, after.snapshot())
}

/// The right model's answer is.
fn right_call(judged: &Judged, call: Call, seed: u64) {
    if let Err(what) = check_call(Right::step, judged, call) {
        panic!("seed {seed}, {call:?}: {what}");
    }
}

/// A machine with rubbish in every field, and figures that often agree.
fn rubbish(rng: &mut Rng) -> Judged {
    let mut judged = Judged {
        state: State::zero(),
        cache: vec![1; rng.below(300) as usize],
        memory: vec![1; rng.below(300) as usize],
    };
    for _ in 0..400 {
        let number = odd_number(rng);
        damage_entry(&mut judged, number, rng);
    }
    judged.state.last = odd_number(rng);
    judged.state.committed = odd_number(rng);
    judged.state.request = Request::Line(odd_number(rng));
    judged.state.figures = Figures::new(odd_number(rng), odd_number(rng));
    judged.state.memory_length = odd_number(rng);
    if rng.one_in(2) {
        let (sets, ways) = (rng.pick(&[1, 2, 4, 64]), 1 + rng.below(4) as u32);
        judged.state.figures = Figures::new(sets, ways);
        judged.cache.resize(check::cache_length(judged.state.figures), 1);
        judged.state.memory_length = 64;
        judged.memory.resize(64, 1);
    }
    judged.state.figures.policy = any_policy(rng);
    judged
}

#[test]
fn rubbish_is_refused() {
    for seed in 0..2000 {
        let mut rng = Rng::new(seed ^ 0x0B15);
        let judged = rubbish(&mut rng);
        broken(&judged);
        for _ in 0..4 {
            right_call(&judged, odd_call(&mut rng), seed);
        }
    }
}
