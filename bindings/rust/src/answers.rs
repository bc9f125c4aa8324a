//! What calls answer, and the refusals.

use std::fmt;

use crate::boundary::{self, AnswerImage};
use crate::image::MAX_WAYS;

/// Why a call was refused, with the scope paper's number. A refused call has
/// changed nothing.
///
/// The first that applies is given, in the order 1, 10, 2, 3, 4, 5, 13, then 11 or
/// 12; each of 14 to 18 follows 10, and so do 19, 20 and 21, in this order. 22 is the
/// ways study's, and its only one. (6 is the script player's.)
#[derive(Clone, Copy, Debug, PartialEq, Eq, Hash)]
#[repr(u32)]
pub enum Refusal {
    /// Sets, ways or a length is not allowed, or a lent length disagrees with the image;
    /// also a zeroed image that was never started.
    Figures = 1,
    /// Load or store: the width is not 1, 2 or 4.
    Width = 2,
    /// Load or store: the address is not a multiple of the width.
    Alignment = 3,
    /// Load or store: address + width exceeds the memory length.
    Address = 4,
    /// Store: the value is 256 to the power width or more.
    Value = 5,
    /// The state with its cache and memory is not well formed: it was damaged.
    State = 10,
    /// Store: 16 are held.
    StoresFull = 11,
    /// Load: 8 are listed.
    LoadsFull = 12,
    /// Load or store: the last number is 4294967295.
    Numbers = 13,
    /// Retry: no waiting load has that number.
    Retry = 14,
    /// Commit: the number is below the committed one or above the last.
    Commit = 15,
    /// Abort: the number is at most the committed one, or above last + 1.
    Abort = 16,
    /// Reply or preview: the miss register is free.
    NoRequest = 17,
    /// Flush: a committed store is held.
    Flush = 18,
    /// Checkpoint or restore: the name is not 1 to 8.
    Name = 19,
    /// Checkpoint: a mark in force has the name.
    NameInUse = 20,
    /// Restore: no mark in force has the name. Checkpoint: the last number is
    /// 4294967295.
    NoCheckpoint = 21,
    /// Ways study: the list, an item, the set count or the scratch is not allowed.
    Study = 22,
}

impl Refusal {
    /// All refusals, by rising numbers.
    pub const ALL: [Refusal; 18] = [
        Refusal::Figures,
        Refusal::Width,
        Refusal::Alignment,
        Refusal::Address,
        Refusal::Value,
        Refusal::State,
        Refusal::StoresFull,
        Refusal::LoadsFull,
        Refusal::Numbers,
        Refusal::Retry,
        Refusal::Commit,
        Refusal::Abort,
        Refusal::NoRequest,
        Refusal::Flush,
        Refusal::Name,
        Refusal::NameInUse,
        Refusal::NoCheckpoint,
        Refusal::Study,
    ];

    /// The scope paper's number.
    pub const fn number(self) -> u32 {
        self as u32
    }

    /// The refusal of a number, if there is one.
    pub fn of_number(number: u32) -> Option<Refusal> {
        Refusal::ALL.into_iter().find(|refusal| refusal.number() == number)
    }

    /// When it is given, in the scope paper's words.
    pub const fn reason(self) -> &'static str {
        match self {
            Refusal::Figures => {
                "sets, ways, memory or cache length is not allowed, \
                 or a lent length disagrees with the state"
            }
            Refusal::Width => "width is not 1, 2 or 4",
            Refusal::Alignment => "address is not a multiple of width",
            Refusal::Address => "address + width exceeds memory length",
            Refusal::Value => "a stored value is 256 to the power width or more",
            Refusal::State => "state not well formed",
            Refusal::StoresFull => "store: 16 are held",
            Refusal::LoadsFull => "load: 8 are listed",
            Refusal::Numbers => "load or store: last is 4294967295",
            Refusal::Retry => "inquiry: no waiting load of that number",
            Refusal::Commit => "commit: k is below h or above last",
            Refusal::Abort => "abort: n is at most h or above last + 1",
            Refusal::NoRequest => "reply or preview: register free",
            Refusal::Flush => "flush: a committed store is held",
            Refusal::Name => "name outside 1 to 8",
            Refusal::NameInUse => "set: name in use",
            Refusal::NoCheckpoint => "return: name not in use, or set when last is 4294967295",
            Refusal::Study => "study: list, item, set count or scratch outside its figures",
        }
    }
}

impl fmt::Display for Refusal {
    fn fmt(&self, f: &mut fmt::Formatter) -> fmt::Result {
        write!(f, "refused {}: {}", self.number(), self.reason())
    }
}

impl std::error::Error for Refusal {}

/// What a preview tells: all that a reply would do.
#[derive(Clone, Copy, Debug, Default, PartialEq, Eq, Hash)]
pub struct Preview {
    /// The way of its set that the requested line will take, from 0.
    pub way: u32,
    /// The number of the line that is evicted, its first address divided by 16; none
    /// where the way is invalid.
    pub evicted: Option<u32>,
    /// Which of its words are written to memory, 0 to 15: that of word n is `1 << n`, as
    /// in [`Tag::dirty`](crate::Tag::dirty). None in write-through.
    pub words: u8,
    /// The ages of the set after the reply, by way; 0 for ways that the set has not.
    pub ages: [u32; MAX_WAYS as usize],
}

/// What an accepted call answers.
#[derive(Clone, Copy, Debug, PartialEq, Eq, Hash)]
pub enum Answer {
    /// The store's number.
    Stored(u32),
    /// A load or a retry has its value.
    Value {
        /// The load's number.
        number: u32,
        /// The value.
        value: u32,
    },
    /// The number of a load that waits, its line not requested.
    Waits(u32),
    /// The number of a load that waits, its line requested.
    WaitsRequested(u32),
    /// The committed number that is in force.
    Committed(u32),
    /// The last number that is in force.
    Kept(u32),
    /// The number of the store that was written.
    Drained(u32),
    /// The first address of the requested line.
    Requested(u32),
    /// An idle call had nothing to do.
    Idle,
    /// The first address of the line that was filled.
    Filled(u32),
    /// The words of 4 bytes written to memory.
    Flushed(u32),
    /// A line's bytes as a part of the lent cache.
    Shown {
        /// Where the part begins; 0 where it is empty.
        place: u32,
        /// 16, or 0 where the line is not shown.
        length: u32,
    },
    /// An accepted start.
    Ready,
    /// The operation number that the mark remembers.
    Checkpointed(u32),
    /// What a reply would do.
    Previewed(Preview),
}

impl Answer {
    /// The number of a load that waits, by either word.
    pub const fn waits(&self) -> Option<u32> {
        match *self {
            Answer::Waits(number) | Answer::WaitsRequested(number) => Some(number),
            _ => None,
        }
    }
}

/// What an answer of the library stands for.
pub(crate) fn told(answer: AnswerImage) -> Result<Answer, Refusal> {
    let AnswerImage { kind, first, second, .. } = answer;
    Ok(match kind {
        boundary::KIND_REFUSED => return Err(refusal_of(first)),
        boundary::KIND_STORED => Answer::Stored(first),
        boundary::KIND_VALUE => Answer::Value { number: first, value: second },
        boundary::KIND_WAITS => Answer::Waits(first),
        boundary::KIND_COMMITTED => Answer::Committed(first),
        boundary::KIND_KEPT => Answer::Kept(first),
        boundary::KIND_DRAINED => Answer::Drained(first),
        boundary::KIND_REQUEST => Answer::Requested(first),
        boundary::KIND_IDLE => Answer::Idle,
        boundary::KIND_FILLED => Answer::Filled(first),
        boundary::KIND_FLUSHED => Answer::Flushed(first),
        boundary::KIND_SHOWN => Answer::Shown { place: first, length: second },
        boundary::KIND_READY => Answer::Ready,
        boundary::KIND_CHECKPOINTED => Answer::Checkpointed(first),
        boundary::KIND_WAITS_REQUESTED => Answer::WaitsRequested(first),
        boundary::KIND_PREVIEWED => Answer::Previewed(preview_of(answer)),
        // "No such call" and "ran" among them: this crate makes only calls that there are,
        // starts only in profiles that there are, and a batch is no call.
        _ => panic!("the library answers no call of this crate by kind {kind}"),
    })
}

/// The parts of a preview. Byte w of its last number is the age of way w.
fn preview_of(answer: AnswerImage) -> Preview {
    let AnswerImage { first: way, second: evicts, third: line, fourth: words, fifth, .. } = answer;
    let ages = fifth.to_le_bytes().map(u32::from);
    Preview { way, evicted: (evicts != 0).then_some(line), words: words as u8, ages }
}

/// The refusal of a number that the library gave.
pub(crate) fn refusal_of(number: u32) -> Refusal {
    match Refusal::of_number(number) {
        Some(refusal) => refusal,
        None => panic!("the library has no refusal {number}"),
    }
}
