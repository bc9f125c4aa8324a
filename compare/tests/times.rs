//! Medians of what was timed.

use compare::times::{median, Times};

#[test]
fn medians_and_ratios() {
    assert_eq!(median([3.0, 1.0, 2.0].into_iter()), 2.0);
    assert_eq!(median([4.0, 1.0].into_iter()), 4.0);
    let round = |ours, checked, unchecked| Times { ours, checked, unchecked };
    let rounds = [round(1.0, 4.0, 1.0), round(3.0, 6.0, 2.0), round(2.0, 2.0, 4.0)];
    assert_eq!(Times::medians(&rounds), round(2.0, 4.0, 2.0));
    assert_eq!(Times::ratios(&rounds), [0.5, 1.0]);
}
