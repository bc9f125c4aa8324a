//! Card 5 once more, plain and from the list alone: no tags and no ages. It shares nothing
//! but data types with the study.

use std::collections::BTreeMap;

use super::random::Input;
use super::{Hits, Study};

/// What the card says of an input.
#[derive(Clone, Debug, PartialEq, Eq)]
pub struct Expected {
    pub answer: Result<Study, u32>,
    /// The scratch as it is left.
    pub scratch: Vec<u32>,
    /// The hits of each item; none where the study is refused.
    pub hits: Vec<Hits>,
}

/// What the card says of an input.
pub fn expected(input: &Input) -> Expected {
    if outside(input).contains(&true) {
        return Expected { answer: Err(22), scratch: input.scratch.clone(), hits: vec![] };
    }
    let hits = hits(&input.items, input.sets);
    let counts = [0, 1, 2, 3].map(|at| hits.iter().filter(|item| item[at]).count());
    let rates = counts.map(|count| rate(count, hits.len()));
    let answer = Ok(Study { hits: counts.map(|count| count as u32), rates });
    Expected { answer, scratch: vec![0; 640], hits }
}

impl Expected {
    /// Holds when the answer and the scratch after it are what the card says.
    pub fn judge(&self, answer: &Result<Study, u32>, scratch: &[u32]) -> Result<(), String> {
        if *answer != self.answer {
            return Err(format!("answered {answer:?} and not {:?}", self.answer));
        }
        if scratch.len() != self.scratch.len() {
            return Err(format!("left a scratch of {}", scratch.len()));
        }
        match scratch.iter().zip(&self.scratch).position(|(left, right)| left != right) {
            Some(at) => Err(format!("left {} at place {at} of the scratch", scratch[at])),
            None => Ok(()),
        }
    }

    /// Holds when each item hits as the card says.
    pub fn judge_items(&self, hits: &[Hits]) -> Result<(), String> {
        if hits.len() != self.hits.len() {
            return Err(format!("told the hits of {} items", hits.len()));
        }
        match hits.iter().zip(&self.hits).position(|(told, right)| told != right) {
            Some(at) => Err(format!("item {at} hits {:?}", hits[at])),
            None => Ok(()),
        }
    }
}

/// Which of the four lie outside the figures: the list, an item, the set count, the scratch.
pub fn outside(input: &Input) -> [bool; 4] {
    let Input { items, sets, scratch, .. } = input;
    [
        items.len() > 65_536,
        items.iter().any(|item| *item > 4_095),
        ![1, 2, 4, 8, 16, 32, 64].contains(sets),
        scratch.len() != 640,
    ]
}

/// The hits of each item: with w ways it hits exactly if its line was used before and
/// fewer than w different other lines of its set were used since.
pub fn hits(items: &[u32], sets: u32) -> Vec<Hits> {
    let mut used: BTreeMap<u32, Vec<u32>> = BTreeMap::new();
    let mut hits = Vec::new();
    for line in items {
        let before = used.entry(line % sets).or_default();
        let others = others_since(before, *line);
        hits.push([1, 2, 3, 4].map(|ways| others.is_some_and(|others| others < ways)));
        before.push(*line);
    }
    hits
}

/// How many different other lines were used since a line was, out of those of its set in
/// order. None if it was not used, or if they are four or more.
fn others_since(used: &[u32], line: u32) -> Option<usize> {
    let mut others = vec![];
    for other in used.iter().rev() {
        if *other == line {
            return Some(others.len());
        }
        if !others.contains(other) {
            others.push(*other);
        }
        if others.len() == 4 {
            return None;
        }
    }
    None
}

/// The first item that hits with some ways and not with more.
pub fn not_included(hits: &[Hits]) -> Option<usize> {
    hits.iter().position(|item| item.windows(2).any(|pair| pair[0] && !pair[1]))
}

/// The whole number r with r - 1/2 <= 1000 hits / items < r + 1/2; of no items 0.
pub fn rate(hits: usize, items: usize) -> u32 {
    if items == 0 {
        return 0;
    }
    let (twice, items) = (2000 * hits as i64, items as i64);
    let nearest = |r: &i64| (2 * r - 1) * items <= twice && twice < (2 * r + 1) * items;
    (0..=1000).find(nearest).expect("hits are at most the items") as u32
}
