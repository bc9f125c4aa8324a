//! The ways study: how often a list of line numbers would hit in caches of 1, 2, 3 and
//! 4 ways.

use crate::answers::{refusal_of, Refusal};
use crate::boundary;

/// A study is made with 1 to so many ways.
pub const STUDY_WAYS: usize = 4;
/// Line numbers of the longest list.
pub const STUDY_ITEMS: usize = 65_536;
/// Each line number is below so many.
pub const STUDY_LINES: u32 = 4_096;
/// Numbers of the scratch.
pub const STUDY_SCRATCH: usize = 640;

/// What a study gives, with 1, 2, 3 and 4 ways, in this order.
#[derive(Clone, Copy, Debug, PartialEq, Eq, Hash)]
pub struct Study {
    /// The items that hit.
    pub hits: [u32; STUDY_WAYS],
    /// Those hits per thousand items, rounded to the nearest, a half up; 0 for an empty
    /// list.
    pub rates: [u32; STUDY_WAYS],
}

/// Runs a list of line numbers through the tags of four caches of so many sets, with 1,
/// 2, 3 and 4 ways. All begin empty. An item hits where its line is present; an absent
/// line takes the lowest invalid way of its set, else the one used longest ago; every item
/// uses its line. What hits with some ways hits with more.
///
/// The scratch has exactly [`STUDY_SCRATCH`] numbers, which may be any, and is zero
/// afterwards.
///
/// # Errors
///
/// [`Refusal::Study`], and the scratch stays as it was: more than [`STUDY_ITEMS`] items,
/// one that is not below [`STUDY_LINES`], sets that are not 1, 2, 4, 8, 16, 32 or 64, or a
/// scratch of another length.
pub fn study_ways(items: &[u32], sets: u32, scratch: &mut [u32]) -> Result<Study, Refusal> {
    let result = boundary::study_ways(items, sets, scratch);
    match result.refusal {
        0 => Ok(Study { hits: result.hits, rates: result.rates }),
        number => Err(refusal_of(number)),
    }
}
