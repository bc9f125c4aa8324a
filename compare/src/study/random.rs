//! Random inputs of the study: lists, set counts and scratches, bad ones among them.

use super::{Planning, Study, LINES, MAX_ITEMS, MAX_SETS, SCRATCH, WAYS};
use crate::random::Rng;

/// An input of the study, with the scratch as it is found.
#[derive(Clone, Debug, PartialEq, Eq)]
pub struct Input {
    pub seed: u64,
    pub items: Vec<u32>,
    pub sets: u32,
    pub scratch: Vec<u32>,
}

impl Input {
    /// What a study answers, and the scratch as it leaves it.
    pub fn play(&self, planning: Planning) -> (Result<Study, u32>, Vec<u32>) {
        let mut scratch = self.scratch.clone();
        let answer = planning(&self.items, self.sets, &mut scratch);
        (answer, scratch)
    }
}

/// Lengths at which many rates lie at an exact half.
const HALVES: [usize; 8] = [16, 16, 32, 48, 80, 80, 160, 400];
/// The length at which a rate rises by a half with each hit, and its neighbours.
const BY_HALVES: [usize; 4] = [1_999, 2_000, 2_000, 2_001];
/// The longest list, and one that is too long.
const LONGEST: [usize; 3] = [MAX_ITEMS, MAX_ITEMS, MAX_ITEMS + 1];
/// Items of the other lists are fewer than this.
const SOME_HUNDREDS: u64 = 400;
/// More lines of a set than there are ways.
const TOO_MANY: u32 = 2 * WAYS as u32;
/// Small numbers of a scratch are below this.
const SMALL: u64 = 64;

/// Numbers that are no line number.
const BAD_ITEMS: [u32; 7] = [LINES, LINES, LINES + 1, 2 * LINES, 65_536, 1 << 31, u32::MAX];
/// Numbers that are no set count.
const BAD_SETS: [u32; 14] = [0, 0, 3, 3, 128, 128, 5, 6, 48, 63, 65, 256, 1 << 31, u32::MAX];
/// Records of the cache of most ways.
pub(super) const ONE_CACHE: usize = MAX_SETS as usize * WAYS;
/// Lengths that are not that of the scratch.
const BAD_SCRATCHES: [usize; 6] = [0, 1, ONE_CACHE, SCRATCH - 1, SCRATCH + 1, 2 * SCRATCH];

/// Makes so many items for so many sets.
type Pattern = fn(&mut Rng, u32, usize) -> Vec<u32>;

/// Every pattern, each as often as it stands here.
const PATTERNS: [Pattern; 8] =
    [crowded, crowded, anywhere, crossing, recent, recent, sweep_of_set, sweep_of_sets];

/// Makes the input of a seed.
pub fn input(seed: u64) -> Input {
    let mut rng = Rng::new(seed);
    let sets = 1 << rng.pick(&[0, 0, 0, 1, 1, 2, 3, 4, 5, 6]);
    let length = length(&mut rng);
    let items = items(&mut rng, sets, length);
    let scratch = scratch(&mut rng, &items, SCRATCH);
    let mut input = Input { seed, items, sets, scratch };
    if rng.one_in(4) {
        spoil(&mut rng, &mut input);
    }
    if rng.one_in(20) {
        spoil(&mut rng, &mut input);
    }
    input
}

/// The length of a list.
fn length(rng: &mut Rng) -> usize {
    match rng.below(128) {
        0..=2 => rng.pick(&LONGEST),
        3..=7 => 0,
        8..=11 => 1,
        12..=62 => rng.pick(&HALVES),
        63..=70 => rng.pick(&BY_HALVES),
        _ => rng.below(SOME_HUNDREDS) as usize,
    }
}

/// A list of one pattern or of several, one behind the other.
fn items(rng: &mut Rng, sets: u32, length: usize) -> Vec<u32> {
    let mut items = Vec::with_capacity(length);
    while items.len() < length {
        let left = length - items.len();
        let part = if rng.one_in(2) { left } else { 1 + rng.below(left as u64) as usize };
        let pattern = rng.pick(&PATTERNS);
        items.extend(pattern(rng, sets, part));
    }
    items
}

/// Some line.
fn line(rng: &mut Rng) -> u32 {
    rng.below(u64::from(LINES)) as u32
}

/// The first of some lines: any, or one with which the last line and line 0 are soon used.
fn first(rng: &mut Rng) -> u32 {
    match rng.below(3) {
        0 => behind(LINES - 2, rng.below(3) as u32),
        _ => line(rng),
    }
}

/// A number of lines about that of the ways.
fn few(rng: &mut Rng) -> u32 {
    1 + rng.below(WAYS as u64 + 2) as u32
}

/// The line that is so far behind another; behind the last one is the first.
fn behind(first: u32, lines: u32) -> u32 {
    (first + lines) % LINES
}

/// A few lines of one set, near each other or so far that they differ in one high bit.
fn crowded(rng: &mut Rng, sets: u32, length: usize) -> Vec<u32> {
    let doubled = (LINES / sets).ilog2();
    let (first, lines) = (first(rng), few(rng));
    let apart = sets << if rng.one_in(2) { 0 } else { rng.below(u64::from(doubled)) };
    (0..length).map(|_| behind(first, rng.below(u64::from(lines)) as u32 * apart)).collect()
}

/// All lines.
fn anywhere(rng: &mut Rng, _: u32, length: usize) -> Vec<u32> {
    (0..length).map(|_| line(rng)).collect()
}

/// About as many lines of every set as there are ways.
fn crossing(rng: &mut Rng, sets: u32, length: usize) -> Vec<u32> {
    let (first, lines) = (first(rng), few(rng) * sets);
    (0..length).map(|_| behind(first, rng.below(u64::from(lines)) as u32)).collect()
}

/// Mostly lines that were used a short time ago, now and then another.
fn recent(rng: &mut Rng, sets: u32, length: usize) -> Vec<u32> {
    let (first, lines, fresh) = (first(rng), u64::from(TOO_MANY * sets), rng.pick(&[3, 6, 20]));
    let mut items: Vec<u32> = Vec::with_capacity(length);
    while items.len() < length {
        let ago = rng.below(lines) as usize;
        let other = behind(first, rng.below(lines) as u32);
        let item = items.iter().rev().nth(ago).copied().filter(|_| !rng.one_in(fresh));
        items.push(item.unwrap_or(other));
    }
    items
}

/// A few lines of one set, again and again in order.
fn sweep_of_set(rng: &mut Rng, sets: u32, length: usize) -> Vec<u32> {
    let (first, lines) = (first(rng), few(rng));
    (0..length as u32).map(|at| behind(first, at % lines * sets)).collect()
}

/// Lines in order, again and again: as many as a cache holds, or one more or fewer.
fn sweep_of_sets(rng: &mut Rng, sets: u32, length: usize) -> Vec<u32> {
    let (first, held) = (first(rng), few(rng) * sets);
    let lines = (held + rng.pick(&[0, 1, 2])).saturating_sub(1).max(1);
    (0..length as u32).map(|at| behind(first, at % lines)).collect()
}

/// A scratch of so many numbers: zero, full of anything, or of what may pass for tags of
/// the list's lines.
fn scratch(rng: &mut Rng, items: &[u32], length: usize) -> Vec<u32> {
    let mut scratch = vec![0; length];
    match rng.below(8) {
        0 => {}
        1 => scratch.fill(u32::MAX),
        2 => scratch.iter_mut().rev().take(1).for_each(|last| *last = 1),
        3 => scratch.fill_with(|| rng.below(SMALL) as u32),
        4..=5 if !items.is_empty() => {
            let low_bits = rng.below(5) as u32;
            scratch.fill_with(|| (rng.pick(items) << low_bits) | rng.below(1 << low_bits) as u32);
        }
        _ => scratch.fill_with(|| rng.word() as u32),
    }
    scratch
}

/// Brings an item, the set count or the scratch outside the figures. A list that is empty
/// gets a bad item.
fn spoil(rng: &mut Rng, input: &mut Input) {
    match rng.below(3) {
        0 => {
            input.items.resize(input.items.len().max(1), 0);
            let last = input.items.len() - 1;
            let between = rng.below(input.items.len() as u64) as usize;
            input.items[rng.pick(&[0, between, last])] = rng.pick(&BAD_ITEMS);
        }
        1 => input.sets = rng.pick(&BAD_SETS),
        _ => {
            let length = rng.pick(&BAD_SCRATCHES);
            input.scratch = scratch(rng, &input.items, length);
        }
    }
}
