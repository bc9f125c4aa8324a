//! Demand 3 over a whole run: a dropped stretch of any kind is struck and the rest
//! played again from the same beginning; answers and end must be the same.

use std::fmt::Debug;

use crate::random::Run;
use crate::stretch::{Given, Stretch};
use crate::types::{Answer, Call, State, Step};

/// A run played to its end.
pub struct Played {
    pub given: Vec<Given>,
    pub state: State,
    pub cache: Vec<u8>,
    pub memory: Vec<u8>,
}

/// What a call gave, with the cache that it left.
pub fn given(call: Call, answer: Answer, cache: &[u8]) -> Given {
    let bytes = match answer {
        Answer::Shown(part) => cache[part.place..part.place + part.length].to_vec(),
        _ => Vec::new(),
    };
    Given { call, answer, bytes }
}

/// Plays a list of calls from a run's beginning.
pub fn play(run: &Run, step: Step, calls: impl Iterator<Item = Call>) -> Played {
    let (mut state, mut cache, mut memory) = run.begin(step);
    let given = calls
        .map(|call| {
            let answer = step(&mut state, &mut cache, &mut memory, call);
            given(call, answer, &cache)
        })
        .collect();
    Played { given, state, cache, memory }
}

/// The places of the run that remain when a stretch is struck.
pub fn remaining(given: &[Given], stretch: Stretch) -> Vec<usize> {
    (0..given.len()).filter(|at| !stretch.strikes(*at, given[*at].call)).collect()
}

/// Strikes a stretch, plays the rest from the same beginning and compares each
/// remaining answer and the end. An error names the place in the whole run.
pub fn compare(
    run: &Run,
    step: Step,
    whole: &Played,
    stretch: Stretch,
) -> Result<(), (usize, String)> {
    let kept = remaining(&whole.given, stretch);
    let again = play(run, step, kept.iter().map(|at| whole.given[*at].call));
    for (at, seen) in kept.iter().zip(&again.given) {
        let expected = &whole.given[*at];
        if expected != seen {
            return Err((*at, format!("{stretch:?}: whole {expected:?}, struck {seen:?}")));
        }
    }
    same_end(whole, &again).map_err(|what| (whole.given.len(), format!("{stretch:?}: {what}")))
}

/// Both ends are equal in every field.
fn same_end(whole: &Played, again: &Played) -> Result<(), String> {
    let (w, a) = (&whole.state, &again.state);
    same("memory", &whole.memory, &again.memory)?;
    same("cache", &whole.cache, &again.cache)?;
    same("figures", &[w.figures], &[a.figures])?;
    same("memory length", &[w.memory_length], &[a.memory_length])?;
    same("tags", &w.tags, &a.tags)?;
    same("stores", &w.stores, &a.stores)?;
    same("loads", &w.loads, &a.loads)?;
    same("checkpoints", &w.checkpoints, &a.checkpoints)?;
    same("request", &[w.request], &[a.request])?;
    same("last", &[w.last], &[a.last])?;
    same("committed", &[w.committed], &[a.committed])
}

/// A field is equal in both runs, or the first place where it is not.
fn same<T: PartialEq + Debug>(field: &str, whole: &[T], again: &[T]) -> Result<(), String> {
    if whole == again {
        return Ok(());
    }
    let at = (0..whole.len()).find(|at| whole.get(*at) != again.get(*at)).unwrap_or(whole.len());
    let (expected, seen) = (whole.get(at), again.get(at));
    Err(format!("{field} at the end, place {at}: whole {expected:?}, struck {seen:?}"))
}
