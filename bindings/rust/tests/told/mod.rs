//! Calls with the answers that are expected of them: one by one and in a list, by the crate
//! and by numbers.

use compare::types::{Answer, Call, Setup};

use crate::beside::{played, Bench};
use crate::numbered::{self, Numbers};

/// A call with its answer.
pub type Told = (Call, Answer);

/// Plays calls from a start in each of these ways; what they leave.
pub fn tells(setup: Setup, told: &[Told]) -> Bench {
    let (calls, expected): (Vec<Call>, Vec<Answer>) = told.iter().copied().unzip();
    let start = Bench::start(setup);
    let (seen, left) = played(&start, &calls);
    assert_eq!(seen, expected, "{setup:?}");
    let listed: Vec<_> = calls.iter().filter_map(|call| numbered::call_of(*call)).collect();
    let expected: Vec<_> = expected.into_iter().map(numbered::answer_of).collect();
    let Bench { mut image, mut cache, mut memory } = start.clone();
    for ([call, x, y, z, ..], expected) in listed.iter().zip(&expected) {
        let seen = numbered::step(&mut image, &mut cache, &mut memory, *call, [*x, *y, *z]);
        assert_eq!(seen, Numbers(*expected), "{setup:?}");
    }
    assert!(Bench { image, cache, memory } == left, "{setup:?}: not as by calls");
    let Bench { mut image, mut cache, mut memory } = start;
    let seen = numbered::run_list(&mut image, &mut cache, &mut memory, &listed);
    assert_eq!(seen, expected, "{setup:?}");
    assert!(Bench { image, cache, memory } == left, "{setup:?}: not as by calls");
    left
}
