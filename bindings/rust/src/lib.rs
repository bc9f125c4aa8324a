//! The proved load/store unit for benches in Rust: a data cache, a store queue, a
//! load queue, one miss register and a main memory.
//!
//! A [`Unit`] owns all that it works on, and has a method for each call. A call
//! that is refused says why and has changed nothing, byte for byte.
//!
//! Needs libnicoisetarn.a: `bindings/library`, or its folder in
//! `NICOISETARN_LIB_DIR`.
//!
//! ```
//! use nicoisetarn::{Answer, Figures, Refusal, Unit};
//!
//! let mut unit = Unit::start(Figures::new(1, 1), vec![0; 32])?;
//! assert_eq!(unit.store(4, 1, 7)?, Answer::Stored(1));
//! assert_eq!(unit.load(4, 1)?, Answer::Value { number: 2, value: 7 });
//! assert_eq!(unit.load(5, 1)?, Answer::Waits(3));
//! assert_eq!(unit.load(5, 3), Err(Refusal::Width));
//! assert_eq!((unit.image().last(), unit.image().committed()), (3, 0));
//! # Ok::<(), Refusal>(())
//! ```
//!
//! A load that waits: commit it, idle (request), reply (filled), retry (value). An
//! uncommitted load never asks for its line. An idle call may write an older store
//! first (drained), and there is one request at a time. While its line is requested, for
//! whichever load or store, a load that waits answers [`Answer::WaitsRequested`] in place
//! of [`Answer::Waits`].
//!
//! ```
//! # use nicoisetarn::{Answer, Figures, Refusal, Unit};
//! # let mut unit = Unit::start(Figures::new(1, 1), vec![9; 32])?;
//! assert_eq!(unit.load(20, 1)?, Answer::Waits(1));
//! assert_eq!(unit.idle()?, Answer::Idle);
//! assert_eq!(unit.commit(1)?, Answer::Committed(1));
//! assert_eq!(unit.idle()?, Answer::Requested(16));
//! assert_eq!(unit.retry(1)?, Answer::WaitsRequested(1));
//! assert_eq!(unit.load(4, 1)?, Answer::Waits(2));
//! assert_eq!(unit.reply()?, Answer::Filled(16));
//! assert_eq!(unit.retry(1)?, Answer::Value { number: 1, value: 9 });
//! # Ok::<(), Refusal>(())
//! ```
//!
//! Many calls cost less in one list, for which the state is checked once. A [`Batch`]
//! keeps its list, to be run again without allocating.
//!
//! ```
//! # use nicoisetarn::{Answer, Batch, Call, Figures, Refusal, Unit};
//! # let mut unit = Unit::start(Figures::new(1, 1), vec![0; 32])?;
//! let answers = unit.run(&[Call::Store(4, 1, 7), Call::Load(4, 3), Call::Commit(1)]);
//! assert_eq!(answers, [Ok(Answer::Stored(1)), Err(Refusal::Width), Ok(Answer::Committed(1))]);
//!
//! let mut batch: Batch = [Call::Load(4, 1), Call::Abort(2)].into_iter().collect();
//! for _ in 0..3 {
//!     unit.run_batch(&mut batch);
//!     let value = Answer::Value { number: 2, value: 7 };
//!     assert!(batch.answers().eq([Ok(value), Ok(Answer::Kept(1))]));
//! }
//! # Ok::<(), Refusal>(())
//! ```
//!
//! In write-back a drain writes the line, not memory, and marks the word of 4 bytes as
//! dirty. Evictions and flushes write dirty words alone to memory, and a flush answers
//! how many.
//!
//! ```
//! # use nicoisetarn::{Answer, Call, Figures, Refusal, Unit};
//! # let mut unit = Unit::start(Figures::new(1, 1), vec![0; 32])?;
//! unit.run(&[Call::Store(5, 1, 7), Call::Store(6, 2, 8), Call::Store(12, 4, 9), Call::Commit(3)]);
//! unit.run(&[Call::Idle, Call::Reply, Call::Idle, Call::Idle, Call::Idle]);
//! let tag = unit.image().tag(0).unwrap_or_default();
//! assert_eq!((tag.dirty, tag.dirty_words()), (0b1010, 2));
//! assert!(tag.is_dirty(1) && !tag.is_dirty(2));
//! assert_eq!((unit.flush()?, unit.memory()[12]), (Answer::Flushed(2), 9));
//! # Ok::<(), Refusal>(())
//! ```
//!
//! A preview (02: preview of a reply) tells what a reply would do, and changes nothing: the
//! way that the line will take, the line that is evicted, which of its words are written to
//! memory, and the ages of the set after it.
//!
//! ```
//! # use nicoisetarn::{Answer, Call, Figures, Preview, Refusal, Unit};
//! # let mut unit = Unit::start(Figures::new(1, 2), vec![0; 48])?;
//! // Word 1 of line 0 is dirty, line 1 is used last, and line 2 is requested.
//! unit.run(&[Call::Store(5, 1, 7), Call::Commit(1), Call::Idle, Call::Reply, Call::Idle]);
//! unit.run(&[Call::Load(16, 1), Call::Commit(2), Call::Idle, Call::Reply, Call::Retry(2)]);
//! unit.run(&[Call::Load(32, 1), Call::Commit(3), Call::Idle]);
//! let preview = Preview { way: 0, evicted: Some(0), words: 0b10, ages: [0, 1, 0, 0] };
//! assert_eq!((unit.preview()?, unit.memory()[5]), (preview, 0));
//! assert_eq!((unit.reply()?, unit.memory()[5]), (Answer::Filled(32), 7));
//! assert_eq!(unit.image().tag(0).map(|tag| (tag.line, tag.age)), Some((2, 0)));
//! assert_eq!(unit.preview(), Err(Refusal::NoRequest));
//! # Ok::<(), Refusal>(())
//! ```
//!
//! A checkpoint (02: a mark) has a name, 1 to 8, and remembers the next operation number.
//! A restore (02: return to a mark) drops what was loaded and stored since.
//!
//! ```
//! # use nicoisetarn::{Answer, Checkpoint, Figures, Refusal, Unit};
//! # let mut unit = Unit::start(Figures::new(1, 1), vec![0; 32])?;
//! assert_eq!(unit.store(4, 1, 7)?, Answer::Stored(1));
//! assert_eq!(unit.checkpoint(3)?, Answer::Checkpointed(2));
//! assert_eq!(unit.image().checkpoints()[0], Checkpoint { name: 3, number: 2, rank: 1 });
//! assert_eq!(unit.store(4, 1, 8)?, Answer::Stored(2));
//! assert_eq!(unit.restore(3)?, Answer::Kept(1));
//! assert_eq!(unit.load(4, 1)?, Answer::Value { number: 2, value: 7 });
//! assert_eq!(unit.restore(3), Err(Refusal::NoCheckpoint));
//! # Ok::<(), Refusal>(())
//! ```
//!
//! A start may choose write-through without write-allocate in place of write-back. A
//! drain then needs no line and writes memory at once.
//!
//! ```
//! # use nicoisetarn::{Answer, Figures, Refusal, Unit, WritePolicy};
//! let figures = Figures::new(1, 1).with_policy(WritePolicy::WriteThrough);
//! let mut unit = Unit::start(figures, vec![0; 32])?;
//! assert_eq!(unit.store(20, 1, 7)?, Answer::Stored(1));
//! assert_eq!(unit.commit(1)?, Answer::Committed(1));
//! assert_eq!(unit.idle()?, Answer::Drained(1));
//! assert_eq!((unit.memory()[20], unit.flush()?), (7, Answer::Flushed(0)));
//! # Ok::<(), Refusal>(())
//! ```
//!
//! A bench with a memory of its own lends it to each call, with the cache bytes and
//! an [`Image`] of the state. The library keeps nothing between calls.
//!
//! ```
//! use nicoisetarn::{Answer, Call, Figures, Image, Refusal};
//!
//! let (mut cache, mut memory) = ([0; 16], [0; 32]);
//! let mut image = Image::start(Figures::new(1, 1), &mut cache, &memory)?;
//! let stored = image.call(&mut cache, &mut memory, Call::Store(4, 1, 7))?;
//! assert_eq!(stored, Answer::Stored(1));
//! assert!(image.show_line(&cache, &memory, 4).bytes.is_empty());
//! # Ok::<(), Refusal>(())
//! ```
//!
//! The ways study needs no unit: a planner gives the line numbers of a program, one for
//! each access, and learns how often they would hit with 1, 2, 3 and 4 ways. The program
//! `ways` of this crate reads such a list, prints the table and draws it.
//!
//! ```
//! use nicoisetarn::{study_ways, Refusal, STUDY_SCRATCH};
//!
//! let mut scratch = [7; STUDY_SCRATCH];
//! let study = study_ways(&[0, 1, 0, 1], 1, &mut scratch)?;
//! assert_eq!((study.hits, study.rates), ([0, 2, 2, 2], [0, 500, 500, 500]));
//! assert_eq!(scratch, [0; STUDY_SCRATCH]);
//! assert_eq!(study_ways(&[4096], 1, &mut scratch), Err(Refusal::Study));
//! # Ok::<(), Refusal>(())
//! ```

#![deny(missing_docs)]
#![deny(unsafe_code)]

mod answers;
mod batch;
// The one place with code that the compiler has to be told is sound.
#[allow(unsafe_code)]
mod boundary;
mod calls;
mod image;
mod study;
mod unit;

pub use answers::{Answer, Preview, Refusal};
pub use batch::Batch;
pub use calls::{Call, Part};
pub use image::{
    Checkpoint, Figures, HeldStore, Image, ListedLoad, Tag, WritePolicy, CHECKPOINTS, LINE, LOADS,
    MAX_MEMORY, MAX_SETS, MAX_WAYS, MIN_MEMORY, RECORDS, STORES, WORD,
};
pub use study::{study_ways, Study, STUDY_ITEMS, STUDY_LINES, STUDY_SCRATCH, STUDY_WAYS};
pub use unit::Unit;
