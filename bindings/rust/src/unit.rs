//! The unit with all that it works on: its image, cache and memory.

use crate::answers::{Answer, Preview, Refusal};
use crate::batch::Batch;
use crate::calls::{Call, Part};
use crate::image::{Figures, Image, MAX_SETS, MAX_WAYS};

/// A load/store unit that owns its state, its cache and its memory.
///
/// A refused call has changed nothing, byte for byte. A unit that `start` made is
/// never refused by 1 or 10.
#[derive(Clone, Debug, PartialEq, Eq, Hash)]
pub struct Unit {
    image: Image,
    cache: Vec<u8>,
    memory: Vec<u8>,
}

impl Unit {
    /// Start over a memory, which stays as found: both queues empty, no checkpoint, no
    /// line present, last and committed number 0; way w of each set has age w. The unit
    /// keeps the figures' write policy.
    ///
    /// Refused by 1 alone: sets is not 1, 2, 4, 8, 16, 32 or 64, ways is not 1 to 4,
    /// or the memory is no multiple of 16 bytes from 16 to 65,536.
    pub fn start(figures: Figures, memory: Vec<u8>) -> Result<Unit, Refusal> {
        // Figures that are not allowed are refused whatever the cache is.
        let bounded = Figures::new(figures.sets.min(MAX_SETS), figures.ways.min(MAX_WAYS));
        let mut cache = vec![0; bounded.cache_length()];
        let image = Image::start(figures, &mut cache, &memory)?;
        Ok(Unit { image, cache, memory })
    }

    /// A unit put together again, from [`Unit::into_parts`] or any other bytes:
    /// where they do not go together every call is refused, by 1 or 10.
    pub fn from_parts(image: Image, cache: Vec<u8>, memory: Vec<u8>) -> Unit {
        Unit { image, cache, memory }
    }

    /// The image, the cache and the memory, to be stored.
    pub fn into_parts(self) -> (Image, Vec<u8>, Vec<u8>) {
        (self.image, self.cache, self.memory)
    }

    /// What the state holds: numbers, queues, checkpoints, tag records, the miss register.
    pub fn image(&self) -> &Image {
        &self.image
    }

    /// The cache bytes: those of tag record r stand at 16 × r.
    pub fn cache(&self) -> &[u8] {
        &self.cache
    }

    /// The memory bytes. Dirty words are not yet in them (see [`Unit::flush`]), nor
    /// are held stores.
    pub fn memory(&self) -> &[u8] {
        &self.memory
    }

    /// Any call but a start.
    pub fn call(&mut self, call: Call) -> Result<Answer, Refusal> {
        self.image.call(&mut self.cache, &mut self.memory, call)
    }

    /// Calls one after the other, and their answers: all as by [`Unit::call`], but the
    /// state is checked once, and where it is refused by 1 or 10 so is each call. A
    /// refused call changes nothing, and the list goes on. Of a [`Call::ShowLine`] the
    /// answer says where in the cache the bytes stood; a later call of the list may
    /// have written there.
    pub fn run(&mut self, calls: &[Call]) -> Vec<Result<Answer, Refusal>> {
        self.image.run(&mut self.cache, &mut self.memory, calls)
    }

    /// The same of a batch, which then has the answers.
    pub fn run_batch(&mut self, batch: &mut Batch) {
        self.image.run_batch(&mut self.cache, &mut self.memory, batch);
    }

    /// Load of width bytes: it takes the next number and joins the load queue. Each
    /// byte comes from the youngest older held store that covers it, else from the
    /// cached line: [`Answer::Value`]. While some byte has neither the load waits:
    /// [`Answer::WaitsRequested`] where the miss register names its line, for whichever
    /// load or store, else [`Answer::Waits`]. It requests nothing and changes no age. The
    /// queue keeps whether all of its bytes came from held stores
    /// ([`ListedLoad::forwarded`](crate::ListedLoad::forwarded)).
    ///
    /// Refused by 2 (width), 3 (alignment), 4 (address), 13 (no number left) or 12
    /// (8 loads are listed).
    pub fn load(&mut self, address: u32, width: u32) -> Result<Answer, Refusal> {
        self.call(Call::Load(address, width))
    }

    /// Store: it takes the next number and is held, uncommitted:
    /// [`Answer::Stored`]. The lowest byte of the value goes to the address.
    ///
    /// Refused by 2 (width), 3 (alignment), 4 (address), 5 (value), 13 (no number
    /// left) or 11 (16 stores are held).
    pub fn store(&mut self, address: u32, width: u32, value: u32) -> Result<Answer, Refusal> {
        self.call(Call::Store(address, width, value))
    }

    /// Retry of a load that waits, the scope paper's inquiry: [`Answer::Value`], or
    /// [`Answer::Waits`] or [`Answer::WaitsRequested`] still, as the miss register is now.
    /// Once answered, a committed load leaves the queue and uses its line if that is
    /// present; an uncommitted one is marked answered.
    ///
    /// Refused by 14: no waiting load has that number.
    pub fn retry(&mut self, number: u32) -> Result<Answer, Refusal> {
        self.call(Call::Retry(number))
    }

    /// Commit of everything up to a number: [`Answer::Committed`]. Answered loads up
    /// to it leave the queue in number order, each using its line if that is present,
    /// but for those that are forwarded, which use none, also where their stores have
    /// drained since; waiting ones stay. Checkpoints at or below it are forgotten.
    ///
    /// Refused by 15: the number is below the committed one or above the last.
    pub fn commit(&mut self, number: u32) -> Result<Answer, Refusal> {
        self.call(Call::Commit(number))
    }

    /// Abort of everything from a number on (a squash): [`Answer::Kept`]. No trace of
    /// it is left in any line or age. Checkpoints above that number are forgotten.
    ///
    /// Refused by 16: the number is at most the committed one, or above last + 1.
    pub fn abort(&mut self, number: u32) -> Result<Answer, Refusal> {
        self.call(Call::Abort(number))
    }

    /// Checkpoint (02: set a mark): [`Answer::Checkpointed`], with the next operation
    /// number, which the mark remembers. It takes none.
    ///
    /// Refused by 19 (the name is not 1 to 8), 20 (a mark in force has it) or 21 (no
    /// number left).
    pub fn checkpoint(&mut self, name: u32) -> Result<Answer, Refusal> {
        self.call(Call::Checkpoint(name))
    }

    /// Restore (02: return to a mark): [`Answer::Kept`], as the abort at the number that
    /// the mark remembers. The mark is forgotten, and all that were set later; those set
    /// earlier stay, also at the same number.
    ///
    /// Refused by 19 (the name is not 1 to 8) or 21 (no mark in force has it).
    pub fn restore(&mut self, name: u32) -> Result<Answer, Refusal> {
        self.call(Call::Restore(name))
    }

    /// Idle, the background work, does the first of these that it can.
    ///
    /// - [`Answer::Drained`]: the oldest held store is committed, no older load waits,
    ///   and its line is present: it is written there, its word becomes dirty, the line
    ///   is used, and the store leaves the queue.
    /// - [`Answer::Requested`]: the miss register is free, and a committed load waits
    ///   whose line is absent (the oldest such load), or else the oldest held store is
    ///   committed, no older load waits and its line is absent: the line is asked for.
    /// - [`Answer::Idle`]: there is nothing to do.
    ///
    /// In [`WritePolicy::WriteThrough`](crate::WritePolicy::WriteThrough) a drain needs no
    /// line: the store is written to memory, and to its line where that is present, which
    /// is used and stays clean. No line is requested for a store.
    pub fn idle(&mut self) -> Result<Answer, Refusal> {
        self.call(Call::Idle)
    }

    /// The memory's reply: [`Answer::Filled`]. The requested line is copied from memory
    /// into the lowest invalid way of its set, else into the way of greatest age, whose
    /// dirty words are written to memory first. The line is clean and used, and the miss
    /// register becomes free.
    ///
    /// Refused by 17: the miss register is free.
    pub fn reply(&mut self) -> Result<Answer, Refusal> {
        self.call(Call::Reply)
    }

    /// Preview (02: preview of a reply): what a reply would do, its four parts. Nothing
    /// changes: image, cache and memory stay, and the request stands.
    ///
    /// Refused as a reply is, by 17: the miss register is free.
    pub fn preview(&mut self) -> Result<Preview, Refusal> {
        match self.call(Call::Preview)? {
            Answer::Previewed(preview) => Ok(preview),
            other => panic!("the library answers a preview by {other:?}"),
        }
    }

    /// Writes every dirty word to memory and marks it clean: [`Answer::Flushed`]. Ages
    /// stay. In write-through no word is dirty, and none is written.
    ///
    /// Refused by 18: a committed store is held.
    pub fn flush(&mut self) -> Result<Answer, Refusal> {
        self.call(Call::Flush)
    }

    /// Show line: the bytes of the line of an address, if it is present. It is
    /// never refused and changes nothing.
    pub fn show_line(&self, address: u32) -> Part<'_> {
        self.image.show_line(&self.cache, &self.memory, address)
    }
}
