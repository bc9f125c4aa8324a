//! The ways study of card 5: a list of line numbers run through the tags of four caches,
//! of 1, 2, 3 and 4 ways, which keep their records in a lent scratch.
//!
//! `Planner` has the right study as steps that ask for each other by `Self`; `Right`
//! overrides none of them, a planner of `faulty` one.
//!
//! - `plain`: the card once more, from the list alone.
//! - `fault`: the named ways of being wrong; `faulty` has a planner for each.
//! - `random`: random inputs.
//! - `counts`: what they met, and what they must meet.

pub mod counts;
pub mod fault;
mod faulty;
pub mod plain;
pub mod random;

/// Items of the longest list.
pub const MAX_ITEMS: usize = 65_536;
/// Each line number is below this.
pub const LINES: u32 = 4_096;
/// The most sets; each power of two up to it is a set count.
pub const MAX_SETS: u32 = 64;
/// The most ways. The four caches have 1 to so many.
pub const WAYS: usize = 4;
/// Records of a set in all four caches.
pub const RECORDS: usize = WAYS * (WAYS + 1) / 2;
/// Numbers of the scratch: a record for each way of each set of each cache.
pub const SCRATCH: usize = MAX_SETS as usize * RECORDS;
/// What the rates are out of.
pub const PER_THOUSAND: u32 = 1_000;
/// The refusal of a list, item, set count or scratch outside the figures.
pub const REFUSAL: u32 = 22;

/// What a study finds, for 1, 2, 3 and 4 ways.
#[derive(Clone, Copy, Debug, Default, PartialEq, Eq)]
pub struct Study {
    pub hits: [u32; WAYS],
    /// The hits per thousand items, rounded half up.
    pub rates: [u32; WAYS],
}

/// With which ways an item hits.
pub type Hits = [bool; WAYS];

/// A study of items with so many sets in a lent scratch, or its refusal.
pub type Planning = fn(items: &[u32], sets: u32, scratch: &mut [u32]) -> Result<Study, u32>;

/// The right study. The scratch is zero after an accepted one and else left as it is.
pub fn study(items: &[u32], sets: u32, scratch: &mut [u32]) -> Result<Study, u32> {
    Right::study(items, sets, scratch)
}

/// The bits of the age in a record; above them are the valid mark and the line.
const AGE: u32 = 0b11;
/// The valid mark of a record.
const VALID: u32 = 0b100;
/// The lowest bit of the line in a record.
const LINE_UNIT: u32 = 0b1000;

/// The record of a line that is present, with age 0.
fn present(line: u32) -> u32 {
    (line * LINE_UNIT) | VALID
}

/// The age of a record.
fn age(record: u32) -> u32 {
    record & AGE
}

/// The records of a set in the cache of `W` ways, behind those of fewer ways.
fn ways<const W: usize>(set: &mut [u32]) -> &mut [u32; W] {
    let first = W * (W - 1) / 2;
    set[first..].first_chunk_mut().expect("a set has ten records")
}

/// The right planner.
pub struct Right;

impl Planner for Right {}

/// A planner. What stands here is right.
pub trait Planner {
    // The checks.

    /// Is the list short enough?
    fn list_allowed(items: &[u32]) -> bool {
        items.len() <= MAX_ITEMS
    }

    /// Is each item a line number?
    fn items_allowed(items: &[u32]) -> bool {
        items.iter().all(|item| *item < LINES)
    }

    /// Is it a set count?
    fn sets_allowed(sets: u32) -> bool {
        sets.is_power_of_two() && sets <= MAX_SETS
    }

    /// Is the scratch of the right length?
    fn scratch_allowed(scratch: &[u32]) -> bool {
        scratch.len() == SCRATCH
    }

    /// Refusal 22, or none.
    fn refusal(items: &[u32], sets: u32, scratch: &[u32]) -> Option<u32> {
        let allowed = Self::list_allowed(items)
            && Self::items_allowed(items)
            && Self::sets_allowed(sets)
            && Self::scratch_allowed(scratch);
        (!allowed).then_some(REFUSAL)
    }

    // The steps of a cache. They have the records of one set, by their ways.

    /// Leaves a set empty: every way is invalid, and way w has age w.
    fn empty(records: &mut [u32]) {
        for (record, age) in records.iter_mut().zip(0..) {
            *record = age;
        }
    }

    /// The way that a line is in.
    fn find(records: &[u32], line: u32) -> Option<usize> {
        records.iter().position(|record| record & !AGE == present(line))
    }

    /// The lowest invalid way.
    fn invalid_way(records: &[u32]) -> Option<usize> {
        records.iter().position(|record| record & VALID == 0)
    }

    /// The way of greatest age.
    fn oldest_way(records: &[u32]) -> usize {
        let older =
            |oldest, way| if age(records[way]) > age(records[oldest]) { way } else { oldest };
        (1..records.len()).fold(0, older)
    }

    /// The way that a fetched line takes.
    fn victim(records: &[u32]) -> usize {
        Self::invalid_way(records).unwrap_or_else(|| Self::oldest_way(records))
    }

    /// Gives a way age 0 and adds 1 to each smaller age.
    fn use_way(records: &mut [u32], way: usize) {
        let old = age(records[way]);
        for record in records.iter_mut() {
            *record += u32::from(age(*record) < old);
        }
        records[way] &= !AGE;
    }

    /// An item whose line is present.
    fn hit(records: &mut [u32], way: usize) {
        Self::use_way(records, way);
    }

    /// An item whose line is absent.
    fn fetch(records: &mut [u32], line: u32) {
        let way = Self::victim(records);
        Self::use_way(records, way);
        records[way] = present(line);
    }

    /// Runs an item through its set of one cache. Does it hit?
    fn item<const W: usize>(records: &mut [u32; W], line: u32) -> bool {
        match Self::find(records, line) {
            Some(way) => {
                Self::hit(records, way);
                true
            }
            None => {
                Self::fetch(records, line);
                false
            }
        }
    }

    // The steps of a study.

    /// The set of a line.
    fn set_of(line: u32, sets: u32) -> usize {
        (line & (sets - 1)) as usize // sets is a power of two
    }

    /// Leaves the four caches empty, whatever the scratch held.
    fn begin(scratch: &mut [u32]) {
        for set in scratch.chunks_exact_mut(RECORDS) {
            Self::empty(ways::<1>(set));
            Self::empty(ways::<2>(set));
            Self::empty(ways::<3>(set));
            Self::empty(ways::<4>(set));
        }
    }

    /// Runs an item through its set of the four caches.
    fn item_hits(set: &mut [u32], line: u32) -> Hits {
        [
            Self::item(ways::<1>(set), line),
            Self::item(ways::<2>(set), line),
            Self::item(ways::<3>(set), line),
            Self::item(ways::<4>(set), line),
        ]
    }

    /// Runs a list through the four caches and tells the hits of each item.
    fn run(items: &[u32], sets: u32, scratch: &mut [u32], mut tell: impl FnMut(Hits)) {
        Self::begin(scratch);
        for &line in items {
            let first = Self::set_of(line, sets) * RECORDS;
            tell(Self::item_hits(&mut scratch[first..first + RECORDS], line));
        }
    }

    /// The hits per thousand items, rounded half up; of no items 0.
    fn rate(hits: u32, items: u32) -> u32 {
        if items == 0 {
            return 0;
        }
        (2 * PER_THOUSAND * hits + items) / (2 * items)
    }

    /// Leaves the scratch zero.
    fn end(scratch: &mut [u32]) {
        scratch.fill(0);
    }

    /// A study whose checks are made.
    fn accepted(items: &[u32], sets: u32, scratch: &mut [u32]) -> Study {
        let mut hits = [0; WAYS];
        Self::run(items, sets, scratch, |item| {
            for (hits, hit) in hits.iter_mut().zip(item) {
                *hits += u32::from(hit);
            }
        });
        Self::end(scratch);
        Study { hits, rates: hits.map(|hits| Self::rate(hits, items.len() as u32)) }
    }

    /// The study.
    fn study(items: &[u32], sets: u32, scratch: &mut [u32]) -> Result<Study, u32> {
        match Self::refusal(items, sets, scratch) {
            Some(no) => Err(no),
            None => Ok(Self::accepted(items, sets, scratch)),
        }
    }

    /// The hits of each item of a list that is allowed, in a scratch of its own.
    fn by_item(items: &[u32], sets: u32) -> Vec<Hits> {
        let mut hits = Vec::with_capacity(items.len());
        Self::run(items, sets, &mut [0; SCRATCH], |item| hits.push(item));
        hits
    }
}
