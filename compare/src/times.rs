//! Medians of times.

/// The middle one of some measurements, the upper one of two.
pub fn median(values: impl Iterator<Item = f64>) -> f64 {
    let mut sorted: Vec<f64> = values.collect();
    sorted.sort_by(f64::total_cmp);
    sorted.get(sorted.len() / 2).copied().unwrap_or(f64::NAN)
}

/// What is timed with the two that stand beside it: the Rust model with its checks
/// and the one without checks 1 and 10.
#[derive(Clone, Copy, Debug, PartialEq)]
pub struct Times {
    pub ours: f64,
    pub checked: f64,
    pub unchecked: f64,
}

impl Times {
    /// The medians of the rounds, one by one.
    pub fn medians(rounds: &[Times]) -> Times {
        let of = |time: fn(&Times) -> f64| median(rounds.iter().map(time));
        Times { ours: of(|t| t.ours), checked: of(|t| t.checked), unchecked: of(|t| t.unchecked) }
    }

    /// Ours by each of the two: the medians of the ratios, each taken in one round.
    pub fn ratios(rounds: &[Times]) -> [f64; 2] {
        let to = |time: fn(&Times) -> f64| median(rounds.iter().map(|t| t.ours / time(t)));
        [to(|t| t.checked), to(|t| t.unchecked)]
    }
}
