//! Benches that every call refuses by 10.

use compare::types::{Answer, Call, Part};

use super::{figures_of, stands, Bench, Beside};

/// What every call answers on an image that is refused by 10.
fn refused(call: &Call) -> Answer {
    match call {
        Call::ShowLine { .. } => Answer::Shown(Part::default()),
        _ => Answer::Refused(10),
    }
}

/// The answers to calls, each from the bench, compared with the model.
pub fn answers(bench: &Bench, calls: &[Call]) -> Vec<Answer> {
    calls.iter().map(|call| Beside::new(bench).play(*call).unwrap()).collect()
}

/// Each of the calls is refused by 10, alone and in a list, and all stays; where a length
/// disagrees it is 1. The image stands for a state all the same, and a start does not look
/// at it.
pub fn all_refused(bench: &Bench, calls: &[Call], what: &str) {
    let expected: Vec<Answer> = calls.iter().map(refused).collect();
    assert!(stands(&bench.image), "{what}");
    assert_eq!(answers(bench, calls), expected, "{what}");
    let mut after = bench.clone();
    assert_eq!(after.run(calls), expected, "{what}");
    for &call in calls {
        after.call(call);
    }
    assert!(after == *bench, "{what}: something has changed");
    after.memory.push(0);
    assert_eq!(after.call(Call::Idle), Answer::Refused(1), "{what}");
    after.memory.pop();
    let figures = figures_of(&bench.image);
    assert_eq!(after.call(Call::Start { figures }), Answer::Ready, "{what}");
}
