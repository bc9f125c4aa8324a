//! The functions of the library, made safe, its numbers, and images as bytes. All
//! the unsafe code of this crate stands here.

use std::mem::{align_of, offset_of, size_of, transmute};

use crate::image::{Figures, Image};
use crate::study::STUDY_WAYS;

// Kinds of answers.
pub const KIND_REFUSED: u32 = 0;
pub const KIND_STORED: u32 = 1;
pub const KIND_VALUE: u32 = 2;
pub const KIND_WAITS: u32 = 3;
pub const KIND_COMMITTED: u32 = 4;
pub const KIND_KEPT: u32 = 5;
pub const KIND_DRAINED: u32 = 6;
pub const KIND_REQUEST: u32 = 7;
pub const KIND_IDLE: u32 = 8;
pub const KIND_FILLED: u32 = 9;
pub const KIND_FLUSHED: u32 = 10;
pub const KIND_SHOWN: u32 = 11;
pub const KIND_READY: u32 = 12;
pub const KIND_CHECKPOINTED: u32 = 13;
pub const KIND_WAITS_REQUESTED: u32 = 14;
pub const KIND_PREVIEWED: u32 = 15;
pub const KIND_RAN: u32 = 254;

// Calls by their numbers.
pub const CALL_LOAD: u32 = 0;
pub const CALL_STORE: u32 = 1;
pub const CALL_RETRY: u32 = 2;
pub const CALL_COMMIT: u32 = 3;
pub const CALL_ABORT: u32 = 4;
pub const CALL_IDLE: u32 = 5;
pub const CALL_REPLY: u32 = 6;
pub const CALL_FLUSH: u32 = 7;
pub const CALL_SHOW_LINE: u32 = 8;
pub const CALL_CHECKPOINT: u32 = 9;
pub const CALL_RESTORE: u32 = 10;
pub const CALL_PREVIEW: u32 = 11;

// Profiles by their numbers.
pub const PROFILE_WRITE_BACK: u32 = 0;
pub const PROFILE_WRITE_THROUGH: u32 = 1;

// Numbers of a call and of an answer in a batch.
pub const CALL_STRIDE: usize = 6;
pub const ANSWER_STRIDE: usize = 6;

/// An answer, as the library lays it out: its kind, and the numbers that the kind has;
/// the others are 0.
#[derive(Clone, Copy, Debug)]
#[repr(C)]
pub struct AnswerImage {
    pub kind: u32,
    pub first: u32,
    pub second: u32,
    pub third: u32,
    pub fourth: u32,
    pub fifth: u32,
}

const _: () = {
    assert!(size_of::<AnswerImage>() == 4 * ANSWER_STRIDE && align_of::<AnswerImage>() == 4);
    assert!(size_of::<AnswerImage>() == 24 && offset_of!(AnswerImage, kind) == 0);
    assert!(offset_of!(AnswerImage, first) == 4 && offset_of!(AnswerImage, second) == 8);
    assert!(offset_of!(AnswerImage, third) == 12 && offset_of!(AnswerImage, fourth) == 16);
    assert!(offset_of!(AnswerImage, fifth) == 20);
};

impl AnswerImage {
    /// The answer whose numbers stand in the list of a batch.
    pub fn listed(numbers: &[u32]) -> AnswerImage {
        let &[kind, first, second, third, fourth, fifth] = numbers else {
            panic!("an answer has {ANSWER_STRIDE} numbers, not {}", numbers.len());
        };
        AnswerImage { kind, first, second, third, fourth, fifth }
    }
}

/// What a ways study gives, as the library lays it out.
#[derive(Clone, Copy, Debug)]
#[repr(C)]
pub struct StudyResult {
    /// The number of the refusal, 0 where there is none.
    pub refusal: u32,
    pub hits: [u32; STUDY_WAYS],
    pub rates: [u32; STUDY_WAYS],
}

const _: () = {
    assert!(size_of::<StudyResult>() == 36 && align_of::<StudyResult>() == 4);
    assert!(offset_of!(StudyResult, refusal) == 0);
    assert!(offset_of!(StudyResult, hits) == 4 && offset_of!(StudyResult, rates) == 20);
};

// The names have the length of an answer, and that of the start the length of an image
// too: for other lengths there are no such functions to link with.
extern "C" {
    fn nicoisetarn_start_2048_24_in(
        image: *mut Image,
        sets: u32,
        ways: u32,
        profile: u32,
        cache: *mut u8,
        cache_length: usize,
        memory: *const u8,
        memory_length: usize,
    ) -> AnswerImage;

    fn nicoisetarn_step_24_in(
        image: *mut Image,
        call: u32,
        x: u32,
        y: u32,
        z: u32,
        cache: *mut u8,
        cache_length: usize,
        memory: *mut u8,
        memory_length: usize,
    ) -> AnswerImage;

    fn nicoisetarn_run_24_in(
        image: *mut Image,
        calls: *const u32,
        calls_length: usize,
        answers: *mut u32,
        answers_length: usize,
        cache: *mut u8,
        cache_length: usize,
        memory: *mut u8,
        memory_length: usize,
    ) -> AnswerImage;

    fn nicoisetarn_show_line_24_in(
        image: *const Image,
        address: u32,
        cache: *const u8,
        cache_length: usize,
        memory: *const u8,
        memory_length: usize,
    ) -> AnswerImage;

    fn nicoisetarn_study_ways(
        items: *const u32,
        items_length: usize,
        sets: u32,
        scratch: *mut u32,
        scratch_length: usize,
    ) -> StudyResult;
}

/// A start on an image.
pub fn start(image: &mut Image, figures: Figures, cache: &mut [u8], memory: &[u8]) -> AnswerImage {
    let (sets, ways, profile) = (figures.sets, figures.ways, figures.profile());
    let (cache_length, memory_length) = (cache.len(), memory.len());
    let (cache, memory) = (cache.as_mut_ptr(), memory.as_ptr());
    // SAFETY: the three references are live and not null, and do not overlap, as
    // two of them are exclusive; each slice goes with its own length; the library
    // reads the memory only and keeps no pointer; any bytes are an image.
    unsafe {
        nicoisetarn_start_2048_24_in(
            image,
            sets,
            ways,
            profile,
            cache,
            cache_length,
            memory,
            memory_length,
        )
    }
}

/// A call by its number on an image.
pub fn step(
    image: &mut Image,
    call: u32,
    operands: [u32; 3],
    cache: &mut [u8],
    memory: &mut [u8],
) -> AnswerImage {
    let [x, y, z] = operands;
    let (cache_length, memory_length) = (cache.len(), memory.len());
    let (cache, memory) = (cache.as_mut_ptr(), memory.as_mut_ptr());
    // SAFETY: the three references are live, not null and exclusive, so they do
    // not overlap; each slice goes with its own length; the library keeps no
    // pointer; any bytes are an image, and it writes whole images only.
    unsafe {
        nicoisetarn_step_24_in(image, call, x, y, z, cache, cache_length, memory, memory_length)
    }
}

/// A batch on an image: its calls and its answers in numbers.
pub fn run(
    image: &mut Image,
    calls: &[u32],
    answers: &mut [u32],
    cache: &mut [u8],
    memory: &mut [u8],
) -> AnswerImage {
    let (calls_length, answers_length) = (calls.len(), answers.len());
    let (calls, answers) = (calls.as_ptr(), answers.as_mut_ptr());
    let (cache_length, memory_length) = (cache.len(), memory.len());
    let (cache, memory) = (cache.as_mut_ptr(), memory.as_mut_ptr());
    // SAFETY: the five references are live, not null, aligned and initialised, and do
    // not overlap, as all but the calls are exclusive; each slice goes with its own
    // length; the library only reads the calls and keeps no pointer; any bytes are an
    // image, and it writes whole images only.
    unsafe {
        nicoisetarn_run_24_in(
            image,
            calls,
            calls_length,
            answers,
            answers_length,
            cache,
            cache_length,
            memory,
            memory_length,
        )
    }
}

/// Show line on an image and bytes that are only read.
pub fn show_line(image: &Image, address: u32, cache: &[u8], memory: &[u8]) -> AnswerImage {
    let (cache_length, memory_length) = (cache.len(), memory.len());
    let (cache, memory) = (cache.as_ptr(), memory.as_ptr());
    // SAFETY: the three references are live and not null, and each slice goes with
    // its own length; the library only reads them and keeps no pointer; any bytes
    // are an image.
    unsafe {
        nicoisetarn_show_line_24_in(image, address, cache, cache_length, memory, memory_length)
    }
}

/// A ways study in a scratch.
pub fn study_ways(items: &[u32], sets: u32, scratch: &mut [u32]) -> StudyResult {
    let (items_length, scratch_length) = (items.len(), scratch.len());
    let (items, scratch) = (items.as_ptr(), scratch.as_mut_ptr());
    // SAFETY: both references are live, not null, aligned and initialised, and do not
    // overlap, as the scratch is exclusive; each slice goes with its own length; the
    // library only reads the items and keeps no pointer.
    unsafe { nicoisetarn_study_ways(items, items_length, sets, scratch, scratch_length) }
}

/// The image with these bytes.
pub fn image_of(bytes: [u8; Image::SIZE]) -> Image {
    // SAFETY: of the same size (asserted where it is laid out); every field is an
    // integer, so any bytes are a value of it.
    unsafe { transmute::<[u8; Image::SIZE], Image>(bytes) }
}

/// The bytes of an image.
pub fn bytes_of(image: &Image) -> [u8; Image::SIZE] {
    // SAFETY: of the same size, with no bytes between or behind the fields (both
    // asserted where it is laid out), so every byte is initialised.
    unsafe { transmute::<Image, [u8; Image::SIZE]>(image.clone()) }
}
