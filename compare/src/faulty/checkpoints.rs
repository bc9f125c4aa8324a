//! The machines that are wrong about marks.

use super::without;
use crate::check;
use crate::model::{keep_checkpoints, line_of, rank_checkpoints, Machine, Right};
use crate::types::{Answer, Checkpoint, Request, State, CHECKPOINTS};

/// A return to a mark and, if it is accepted, a change.
fn then(
    state: &mut State,
    cache: &[u8],
    memory: &[u8],
    name: u32,
    change: impl FnOnce(&mut State),
) -> Answer {
    let answer = Right::restore(state, cache, memory, name);
    if answer.accepted() {
        change(state);
    }
    answer
}

// Abort.

pub struct AbortForgetsAtNumber;

impl Machine for AbortForgetsAtNumber {
    fn forget_above(state: &mut State, n: u32) {
        keep_checkpoints(state, |mark| mark.number < n);
    }
}

pub struct AbortKeepsCheckpoints;

impl Machine for AbortKeepsCheckpoints {
    fn refusal(state: &State, cache: &[u8], memory: &[u8]) -> Option<u32> {
        without(check::checkpoints_up_to_next, state, cache, memory)
    }

    fn forget_above(_: &mut State, _: u32) {}
}

// Commit.

pub struct CommitKeepsAtNumber;

impl Machine for CommitKeepsAtNumber {
    fn refusal(state: &State, cache: &[u8], memory: &[u8]) -> Option<u32> {
        without(check::checkpoints_above_committed, state, cache, memory)
    }

    fn forget_committed(state: &mut State, k: u32) {
        Right::forget_committed(state, k.saturating_sub(1));
    }
}

pub struct CommitKeepsCheckpoints;

impl Machine for CommitKeepsCheckpoints {
    fn refusal(state: &State, cache: &[u8], memory: &[u8]) -> Option<u32> {
        without(check::checkpoints_above_committed, state, cache, memory)
    }

    fn forget_committed(_: &mut State, _: u32) {}
}

pub struct CommitForgetsAll;

impl Machine for CommitForgetsAll {
    fn forget_committed(state: &mut State, _: u32) {
        Right::forget_from(state, 0);
    }
}

pub struct CommitKeepsRanks;

impl Machine for CommitKeepsRanks {
    fn refusal(state: &State, cache: &[u8], memory: &[u8]) -> Option<u32> {
        without(check::checkpoint_ranks, state, cache, memory)
    }

    fn forget_committed(state: &mut State, k: u32) {
        keep_checkpoints(state, |mark| mark.number > k);
    }
}

pub struct CommitLeavesHole;

impl Machine for CommitLeavesHole {
    fn refusal(state: &State, cache: &[u8], memory: &[u8]) -> Option<u32> {
        without(check::free_checkpoints_last, state, cache, memory)
    }

    fn forget_committed(state: &mut State, k: u32) {
        let gone = state.checkpoints.iter_mut().filter(|mark| mark.number <= k);
        gone.for_each(|mark| *mark = Checkpoint::default());
        rank_checkpoints(state);
    }
}

// Setting.

pub struct CheckpointAtLast;

impl Machine for CheckpointAtLast {
    fn new_checkpoint(state: &State, name: u32) -> Checkpoint {
        Checkpoint { number: state.last, ..Right::new_checkpoint(state, name) }
    }
}

pub struct CheckpointRankFromZero;

impl Machine for CheckpointRankFromZero {
    fn refusal(state: &State, cache: &[u8], memory: &[u8]) -> Option<u32> {
        without(check::checkpoint_ranks, state, cache, memory)
    }

    fn new_checkpoint(state: &State, name: u32) -> Checkpoint {
        let mark = Right::new_checkpoint(state, name);
        Checkpoint { rank: mark.rank - 1, ..mark }
    }
}

pub struct CheckpointTakesNumber;

impl Machine for CheckpointTakesNumber {
    fn checkpoint(state: &mut State, cache: &[u8], memory: &[u8], name: u32) -> Answer {
        let answer = Right::checkpoint(state, cache, memory, name);
        if let Answer::Checkpointed(number) = answer {
            state.last = number;
        }
        answer
    }
}

pub struct CheckpointMoves;

impl Machine for CheckpointMoves {
    fn checkpoint(state: &mut State, cache: &[u8], memory: &[u8], name: u32) -> Answer {
        let old = state.checkpoints;
        keep_checkpoints(state, |mark| mark.name != name);
        rank_checkpoints(state);
        let answer = Right::checkpoint(state, cache, memory, name);
        if !answer.accepted() {
            state.checkpoints = old;
        }
        answer
    }
}

pub struct CheckpointTakesNine;

impl Machine for CheckpointTakesNine {
    fn refusal(state: &State, cache: &[u8], memory: &[u8]) -> Option<u32> {
        without(check::checkpoint_names, state, cache, memory)
    }

    fn checkpoint_refusal(state: &State, name: u32) -> Option<u32> {
        let full = state.checkpoints[CHECKPOINTS - 1].name != 0;
        match name {
            9 if full || check::checkpoint_of(state, name).is_some() => Some(20),
            9 => (state.last == u32::MAX).then_some(21),
            _ => Right::checkpoint_refusal(state, name),
        }
    }
}

pub struct CheckpointEndBeforeName;

impl Machine for CheckpointEndBeforeName {
    fn checkpoint_refusal(state: &State, name: u32) -> Option<u32> {
        let end = (state.last == u32::MAX).then_some(21);
        end.or_else(|| Right::checkpoint_refusal(state, name))
    }
}

pub struct CheckpointEndBeforeUse;

impl Machine for CheckpointEndBeforeUse {
    fn checkpoint_refusal(state: &State, name: u32) -> Option<u32> {
        let end = (state.last == u32::MAX).then_some(21);
        check::name(name).or(end).or_else(|| Right::checkpoint_refusal(state, name))
    }
}

pub struct CheckpointUsedGives21;

impl Machine for CheckpointUsedGives21 {
    fn checkpoint_refusal(state: &State, name: u32) -> Option<u32> {
        Right::checkpoint_refusal(state, name).map(|no| if no == 20 { 21 } else { no })
    }
}

// Returning.

pub struct RestoreKeepsCheckpoint;

impl Machine for RestoreKeepsCheckpoint {
    fn forget_from(state: &mut State, place: usize) {
        Right::forget_from(state, place + 1);
    }
}

pub struct RestoreForgetsByNumber;

impl Machine for RestoreForgetsByNumber {
    fn forget_from(state: &mut State, place: usize) {
        let Checkpoint { name, number, .. } = state.checkpoints[place];
        keep_checkpoints(state, |mark| mark.name != name && mark.number <= number);
        rank_checkpoints(state);
    }
}

pub struct RestoreForgetsEarlier;

impl Machine for RestoreForgetsEarlier {
    fn forget_from(state: &mut State, place: usize) {
        let Checkpoint { number, .. } = state.checkpoints[place];
        keep_checkpoints(state, |mark| mark.number < number);
    }
}

pub struct RestoreForgetsNames;

impl Machine for RestoreForgetsNames {
    fn refusal(state: &State, cache: &[u8], memory: &[u8]) -> Option<u32> {
        without(check::free_checkpoints_zero, state, cache, memory)
    }

    fn forget_from(state: &mut State, place: usize) {
        state.checkpoints[place..].iter_mut().for_each(|mark| mark.name = 0);
    }
}

pub struct RestoreByRank;

impl Machine for RestoreByRank {
    fn restore(state: &mut State, cache: &[u8], memory: &[u8], name: u32) -> Answer {
        let in_use = check::checkpoint_of(state, name).is_some();
        let ranked = check::in_force(state).find(|mark| mark.rank == name).filter(|_| in_use);
        let name = ranked.map_or(name, |mark| mark.name);
        Right::restore(state, cache, memory, name)
    }
}

pub struct RestoreOneHigh;

impl Machine for RestoreOneHigh {
    fn restored_number(mark: Checkpoint) -> u32 {
        mark.number.saturating_add(1)
    }
}

pub struct RestoreAnswersNumber;

impl Machine for RestoreAnswersNumber {
    fn restore(state: &mut State, cache: &[u8], memory: &[u8], name: u32) -> Answer {
        match Right::restore(state, cache, memory, name) {
            Answer::Kept(last) => Answer::Kept(last + 1),
            answer => answer,
        }
    }
}

pub struct RestoreKeepsLast;

impl Machine for RestoreKeepsLast {
    fn restore(state: &mut State, cache: &[u8], memory: &[u8], name: u32) -> Answer {
        let last = state.last;
        then(state, cache, memory, name, |state| state.last = last)
    }
}

pub struct RestoreKeepsEntries;

impl Machine for RestoreKeepsEntries {
    fn restore(state: &mut State, cache: &[u8], memory: &[u8], name: u32) -> Answer {
        let (last, stores, loads) = (state.last, state.stores, state.loads);
        then(state, cache, memory, name, |state| {
            (state.last, state.stores, state.loads) = (last, stores, loads);
        })
    }
}

pub struct RestoreFreesRegister;

impl Machine for RestoreFreesRegister {
    fn restore(state: &mut State, cache: &[u8], memory: &[u8], name: u32) -> Answer {
        then(state, cache, memory, name, |state| state.request = Request::Free)
    }
}

pub struct RestoreUsesLines;

impl Machine for RestoreUsesLines {
    fn restore(state: &mut State, cache: &[u8], memory: &[u8], name: u32) -> Answer {
        let loads = state.loads;
        then(state, cache, memory, name, |state| {
            let last = state.last;
            for load in loads.iter().filter(|load| load.answered && load.number > last) {
                Right::use_line(state, line_of(load.address));
            }
        })
    }
}

pub struct RestoreRefusedAtEnd;

impl Machine for RestoreRefusedAtEnd {
    fn restore_refusal(state: &State, name: u32) -> Option<u32> {
        let end = (state.last == u32::MAX).then_some(21);
        Right::restore_refusal(state, name).or(end)
    }
}

pub struct RestoreUseBeforeName;

impl Machine for RestoreUseBeforeName {
    fn restore_refusal(state: &State, name: u32) -> Option<u32> {
        Right::restore_refusal(state, name).map(|_| 21)
    }
}

pub struct RestoreUnusedGives20;

impl Machine for RestoreUnusedGives20 {
    fn restore_refusal(state: &State, name: u32) -> Option<u32> {
        Right::restore_refusal(state, name).map(|no| if no == 21 { 20 } else { no })
    }
}

// What counts as well formed.

/// A machine that does not know one of the clauses.
macro_rules! unknown {
    ($($name:ident $clause:ident),* $(,)?) => {
        $(
            pub struct $name;

            impl Machine for $name {
                fn refusal(state: &State, cache: &[u8], memory: &[u8]) -> Option<u32> {
                    without(check::$clause, state, cache, memory)
                }
            }
        )*
    };
}

unknown! {
    TakesFreeCheckpoint free_checkpoints_zero,
    TakesCheckpointBehindFree free_checkpoints_last,
    TakesNinthName checkpoint_names,
    TakesNameTwice checkpoint_names_distinct,
    TakesCommittedCheckpoint checkpoints_above_committed,
    TakesCheckpointAhead checkpoints_up_to_next,
    TakesFallingCheckpoints checkpoints_never_fall,
    TakesOtherRanks checkpoint_ranks,
}
