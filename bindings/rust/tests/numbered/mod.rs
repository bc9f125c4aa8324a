//! Starts, calls, batches and studies by numbers, which the crate does not offer: what
//! the library says of a number that no profile or no call has, which operands it looks
//! at, and all that a refused study gives.
#![allow(dead_code)]

use compare::types::{Answer, Call, Preview};
use nicoisetarn::{Image, STUDY_WAYS};

/// The numbers of a call, or of an answer, in the lists of a batch.
pub type Listed = [u32; 6];

/// An answer of the library: its kind and five numbers, as in the lists of a batch.
#[derive(Clone, Copy, Debug, PartialEq, Eq)]
#[repr(C)]
pub struct Numbers(pub Listed);

/// What a batch answers to a call that there is not.
pub const UNKNOWN: Listed = [255, 0, 0, 0, 0, 0];
/// No call, or no profile of a start, has that number.
pub const NO_SUCH_CALL: Numbers = Numbers(UNKNOWN);
/// How many calls have a number, from 0 on.
pub const CALLS: u32 = 12;
/// Numbers that no call has.
pub const NO_CALLS: [u32; 8] = [CALLS, 13, 14, 254, 255, 256, 257, u32::MAX];
/// Numbers that no profile has.
pub const NO_PROFILES: [u32; 8] = [2, 3, 4, 255, 256, 257, 1 << 31 | 1, u32::MAX];
/// A batch was run.
pub const RAN: Numbers = Numbers([254, 0, 0, 0, 0, 0]);
/// A number that is in no answer, to see what is written.
pub const UNTOUCHED: u32 = 0xA5A5_A5A5;

/// What the library gives for a ways study: the refusal, or 0, the hits and the rates.
#[derive(Clone, Copy, Debug, PartialEq, Eq)]
#[repr(C)]
pub struct StudyNumbers {
    pub refusal: u32,
    pub hits: [u32; STUDY_WAYS],
    pub rates: [u32; STUDY_WAYS],
}

/// A refused study.
pub const STUDY_REFUSED: StudyNumbers =
    StudyNumbers { refusal: 22, hits: [0; STUDY_WAYS], rates: [0; STUDY_WAYS] };

extern "C" {
    fn nicoisetarn_start_2048_24_in(
        image: *mut Image,
        sets: u32,
        ways: u32,
        profile: u32,
        cache: *mut u8,
        cache_length: usize,
        memory: *const u8,
        memory_length: usize,
    ) -> Numbers;

    fn nicoisetarn_step_24_in(
        image: *mut Image,
        call: u32,
        x: u32,
        y: u32,
        z: u32,
        cache: *mut u8,
        cache_length: usize,
        memory: *mut u8,
        memory_length: usize,
    ) -> Numbers;

    fn nicoisetarn_run_24_in(
        image: *mut Image,
        calls: *const u32,
        calls_length: usize,
        answers: *mut u32,
        answers_length: usize,
        cache: *mut u8,
        cache_length: usize,
        memory: *mut u8,
        memory_length: usize,
    ) -> Numbers;

    fn nicoisetarn_study_ways(
        items: *const u32,
        items_length: usize,
        sets: u32,
        scratch: *mut u32,
        scratch_length: usize,
    ) -> StudyNumbers;
}

/// A start by its sets, its ways and the number of its profile.
pub fn start(
    image: &mut Image,
    cache: &mut [u8],
    memory: &[u8],
    [sets, ways, profile]: [u32; 3],
) -> Numbers {
    let (cached, stored) = (cache.len(), memory.len());
    let (cache, memory) = (cache.as_mut_ptr(), memory.as_ptr());
    // SAFETY: three references, all but the memory exclusive, each slice with its own
    // length; the library keeps no pointer, and any bytes are an image.
    unsafe {
        nicoisetarn_start_2048_24_in(image, sets, ways, profile, cache, cached, memory, stored)
    }
}

/// A call by its number.
pub fn step(
    image: &mut Image,
    cache: &mut [u8],
    memory: &mut [u8],
    call: u32,
    operands: [u32; 3],
) -> Numbers {
    let [x, y, z] = operands;
    let (cache_length, memory_length) = (cache.len(), memory.len());
    let (cache, memory) = (cache.as_mut_ptr(), memory.as_mut_ptr());
    // SAFETY: three exclusive references, each slice with its own length; the
    // library keeps no pointer, and any bytes are an image.
    unsafe {
        nicoisetarn_step_24_in(image, call, x, y, z, cache, cache_length, memory, memory_length)
    }
}

/// A batch of any lengths.
pub fn run(
    image: &mut Image,
    calls: &[u32],
    answers: &mut [u32],
    cache: &mut [u8],
    memory: &mut [u8],
) -> Numbers {
    let (to_calls, to_answers) = (calls.as_ptr(), answers.as_mut_ptr());
    let (to_cache, to_memory) = (cache.as_mut_ptr(), memory.as_mut_ptr());
    let (cached, stored) = (cache.len(), memory.len());
    let (called, answered) = (calls.len(), answers.len());
    // SAFETY: five references, all but the calls exclusive, each slice with its own
    // length; the library keeps no pointer, and any bytes are an image.
    unsafe {
        nicoisetarn_run_24_in(
            image, to_calls, called, to_answers, answered, to_cache, cached, to_memory, stored,
        )
    }
}

/// A batch whose lengths fit: its answers.
pub fn run_list(
    image: &mut Image,
    cache: &mut [u8],
    memory: &mut [u8],
    calls: &[Listed],
) -> Vec<Listed> {
    let mut answers = vec![UNTOUCHED; calls.len() * 6];
    let ran = run(image, &calls.concat(), &mut answers, cache, memory);
    assert_eq!(ran, RAN);
    answers.chunks_exact(6).map(|answer| answer.try_into().unwrap()).collect()
}

/// A call of the model in a batch; a start has no number.
pub fn call_of(call: Call) -> Option<Listed> {
    let (number, [x, y, z]) = match call {
        Call::Start { .. } => return None,
        Call::Load { address, width } => (0, [address, width, 0]),
        Call::Store { address, width, value } => (1, [address, width, value]),
        Call::Retry { number } => (2, [number, 0, 0]),
        Call::Commit { number } => (3, [number, 0, 0]),
        Call::Abort { number } => (4, [number, 0, 0]),
        Call::Idle => (5, [0; 3]),
        Call::Reply => (6, [0; 3]),
        Call::Flush => (7, [0; 3]),
        Call::ShowLine { address } => (8, [address, 0, 0]),
        Call::Checkpoint { name } => (9, [name, 0, 0]),
        Call::Restore { name } => (10, [name, 0, 0]),
        Call::Preview => (11, [0; 3]),
    };
    Some([number, x, y, z, 0, 0])
}

/// An answer of the model in a batch.
pub fn answer_of(answer: Answer) -> Listed {
    let (kind, first, second) = match answer {
        Answer::Refused(no) => (0, no, 0),
        Answer::Stored(number) => (1, number, 0),
        Answer::Value { number, value } => (2, number, value),
        Answer::Waits(number) => (3, number, 0),
        Answer::Committed(number) => (4, number, 0),
        Answer::Kept(number) => (5, number, 0),
        Answer::Drained(number) => (6, number, 0),
        Answer::Requested(address) => (7, address, 0),
        Answer::Idle => (8, 0, 0),
        Answer::Filled(address) => (9, address, 0),
        Answer::Flushed(words) => (10, words, 0),
        Answer::Shown(part) => (11, part.place as u32, part.length as u32),
        Answer::Ready => (12, 0, 0),
        Answer::Checkpointed(number) => (13, number, 0),
        Answer::WaitsRequested(number) => (14, number, 0),
        Answer::Previewed(preview) => return preview_of(preview),
    };
    [kind, first, second, 0, 0, 0]
}

/// A preview of the model in a batch, the age of way w in byte w of the last number.
fn preview_of(preview: Preview) -> Listed {
    let Preview { way, evicted, words, ages } = preview;
    let ages = ages.into_iter().rev().fold(0, |packed, age| packed << 8 | age);
    [15, way, evicted.is_some().into(), evicted.unwrap_or(0), words.into(), ages]
}

/// A ways study.
pub fn study(items: &[u32], sets: u32, scratch: &mut [u32]) -> StudyNumbers {
    let (listed, lent) = (items.len(), scratch.len());
    // SAFETY: two slices with their lengths, of which one is exclusive.
    unsafe { nicoisetarn_study_ways(items.as_ptr(), listed, sets, scratch.as_mut_ptr(), lent) }
}
