//! What random inputs of the study met, and how much of it must be met.

use std::collections::BTreeMap;

use super::plain::{outside, Expected};
use super::random::{Input, ONE_CACHE};
use super::{Hits, Study, LINES, MAX_ITEMS, PER_THOUSAND, SCRATCH, WAYS};
use crate::counts::{Counts, Needed};

/// What must be met, each with a number: once in so many inputs is enough.
pub const NEEDED: &Needed = &[
    ("study", 2),
    ("study of 1 set", 6),
    ("study of 2 sets", 10),
    ("study of 4 sets", 20),
    ("study of 8 sets", 20),
    ("study of 16 sets", 20),
    ("study of 32 sets", 20),
    ("study of 64 sets", 20),
    ("study of no items", 50),
    ("study of one item", 70),
    ("study of 65,536 items", 120),
    ("study in a scratch that is not zero", 2),
    ("study of no items in a scratch that is not zero", 60),
    ("study with line 0", 8),
    ("study with line 4,095", 10),
    ("hit with 1 way", 3),
    ("hit with 2 ways and no fewer", 3),
    ("hit with 3 ways and no fewer", 3),
    ("hit with 4 ways and no fewer", 4),
    ("miss with 4 ways of a line used before", 4),
    ("eviction with 1 way", 2),
    ("eviction with 2 ways", 3),
    ("eviction with 3 ways", 3),
    ("eviction with 4 ways", 3),
    ("rate at a half, 1 way", 16),
    ("rate at a half, 2 ways", 16),
    ("rate at a half, 3 ways", 16),
    ("rate at a half, 4 ways", 16),
    ("rate at a half above an even number", 12),
    ("rate at a half above an odd number", 14),
    ("rate rounded up", 4),
    ("rate rounded down", 4),
    ("rate of a thousand", 600),
    ("refused", 6),
    ("refused for the list alone", 400),
    ("refused for an item alone", 20),
    ("refused for the set count alone", 20),
    ("refused for the scratch alone", 20),
    ("refused for several", 200),
    ("refused with no items", 400),
    ("refused for the first item", 40),
    ("refused for the last item", 40),
    ("refused for item 4,096", 60),
    ("refused for 0 sets", 160),
    ("refused for 3 sets", 160),
    ("refused for 128 sets", 160),
    ("refused for a scratch of 639", 200),
    ("refused for a scratch of 641", 200),
    ("refused for a scratch of 256", 200),
    ("refused with a scratch that is not zero", 6),
];

/// The names of the set counts, from one set on, each twice the last.
const OF_SETS: [&str; 7] = [
    "study of 1 set",
    "study of 2 sets",
    "study of 4 sets",
    "study of 8 sets",
    "study of 16 sets",
    "study of 32 sets",
    "study of 64 sets",
];

/// The names that are there for each of the ways.
const HITS: [&str; WAYS] = [
    "hit with 1 way",
    "hit with 2 ways and no fewer",
    "hit with 3 ways and no fewer",
    "hit with 4 ways and no fewer",
];
const EVICTIONS: [&str; WAYS] =
    ["eviction with 1 way", "eviction with 2 ways", "eviction with 3 ways", "eviction with 4 ways"];
const HALVES: [&str; WAYS] = [
    "rate at a half, 1 way",
    "rate at a half, 2 ways",
    "rate at a half, 3 ways",
    "rate at a half, 4 ways",
];

/// The names of what alone is outside the figures.
const ALONE: [&str; 4] = [
    "refused for the list alone",
    "refused for an item alone",
    "refused for the set count alone",
    "refused for the scratch alone",
];

/// What an input met, by what the card says of it. A name counts once for an input.
pub fn count(input: &Input, expected: &Expected) -> Counts {
    let mut counts = Counts::one_run(input.items.len());
    match &expected.answer {
        Ok(study) => {
            count_input(&mut counts, input);
            count_hits(&mut counts, input, &expected.hits);
            count_evictions(&mut counts, input, &expected.hits);
            count_rates(&mut counts, input.items.len() as u32, study);
        }
        Err(_) => count_refusal(&mut counts, input),
    }
    counts
}

/// Is some number of the scratch not zero?
fn is_dirty(input: &Input) -> bool {
    input.scratch.iter().any(|number| *number != 0)
}

/// Counts what an accepted input is.
fn count_input(counts: &mut Counts, input: &Input) {
    let items = input.items.len();
    counts.met("study", true);
    counts.met(OF_SETS[input.sets.ilog2() as usize], true);
    counts.met("study of no items", items == 0);
    counts.met("study of one item", items == 1);
    counts.met("study of 65,536 items", items == MAX_ITEMS);
    counts.met("study in a scratch that is not zero", is_dirty(input));
    counts.met("study of no items in a scratch that is not zero", items == 0 && is_dirty(input));
    counts.met("study with line 0", input.items.contains(&0));
    counts.met("study with line 4,095", input.items.contains(&(LINES - 1)));
}

/// Counts hits by the fewest ways that do, and late misses.
fn count_hits(counts: &mut Counts, input: &Input, hits: &[Hits]) {
    for (at, name) in HITS.into_iter().enumerate() {
        counts.met(name, hits.iter().any(|item| item[at] && !item[..at].contains(&true)));
    }
    let mut used = vec![false; LINES as usize];
    let again = input.items.iter().zip(hits).any(|(line, item)| {
        let before = std::mem::replace(&mut used[*line as usize], true);
        before && !item[WAYS - 1]
    });
    counts.met("miss with 4 ways of a line used before", again);
}

/// Counts evictions: each miss fetches a line, and with w ways a set has room for w.
fn count_evictions(counts: &mut Counts, input: &Input, hits: &[Hits]) {
    let mut fetched: BTreeMap<u32, [usize; WAYS]> = BTreeMap::new();
    for (line, item) in input.items.iter().zip(hits) {
        let set = fetched.entry(line % input.sets).or_default();
        set.iter_mut().zip(item).for_each(|(misses, hit)| *misses += usize::from(!hit));
    }
    let evicted = |at: usize| fetched.values().any(|misses| misses[at] > at + 1);
    EVICTIONS.into_iter().enumerate().for_each(|(at, name)| counts.met(name, evicted(at)));
}

/// Counts where the rates lie between whole numbers.
fn count_rates(counts: &mut Counts, items: u32, study: &Study) {
    if items == 0 {
        return;
    }
    // The whole number below each rate, and the rest, in parts of the number of items.
    let whole = study.hits.map(|hits| PER_THOUSAND * hits / items);
    let above = study.hits.map(|hits| PER_THOUSAND * hits % items);
    let half = above.map(|above| 2 * above == items);
    for (name, half) in HALVES.into_iter().zip(half) {
        counts.met(name, half);
    }
    let parity = |odd: u32| (0..WAYS).any(|at| half[at] && whole[at] % 2 == odd);
    counts.met("rate at a half above an even number", parity(0));
    counts.met("rate at a half above an odd number", parity(1));
    counts.met("rate rounded up", above.iter().any(|above| 2 * above > items));
    counts.met("rate rounded down", above.iter().any(|above| *above != 0 && 2 * above < items));
    counts.met("rate of a thousand", study.rates.contains(&PER_THOUSAND));
}

/// Counts what is outside the figures.
fn count_refusal(counts: &mut Counts, input: &Input) {
    let outside = outside(input);
    let several = outside.iter().filter(|outside| **outside).count() > 1;
    counts.met("refused", true);
    counts.met("refused for several", several);
    for (name, outside) in ALONE.into_iter().zip(outside) {
        counts.met(name, outside && !several);
    }
    let Input { items, sets, scratch, .. } = input;
    let bad = |item: Option<&u32>| !several && item.is_some_and(|item| *item >= LINES);
    counts.met("refused with no items", items.is_empty());
    counts.met("refused for the first item", bad(items.first()));
    counts.met("refused for the last item", bad(items.last()));
    counts.met("refused for item 4,096", !several && items.contains(&LINES));
    counts.met("refused for 0 sets", !several && *sets == 0);
    counts.met("refused for 3 sets", !several && *sets == 3);
    counts.met("refused for 128 sets", !several && *sets == 128);
    counts.met("refused for a scratch of 639", !several && scratch.len() == SCRATCH - 1);
    counts.met("refused for a scratch of 641", !several && scratch.len() == SCRATCH + 1);
    counts.met("refused for a scratch of 256", !several && scratch.len() == ONE_CACHE);
    counts.met("refused with a scratch that is not zero", is_dirty(input));
}

/// What inputs met too seldom.
pub fn lacking(counts: &Counts) -> Vec<String> {
    counts.lacking_of(NEEDED, counts.runs)
}
