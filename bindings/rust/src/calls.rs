//! The calls on an image, with the cache and the memory lent to each of them.

use crate::answers::{told, Answer, Refusal};
use crate::batch::Batch;
use crate::boundary;
use crate::image::{Figures, Image};

/// A call on a started unit, with its operands.
#[derive(Clone, Copy, Debug, PartialEq, Eq, Hash)]
pub enum Call {
    /// Address and width.
    Load(u32, u32),
    /// Address, width and value.
    Store(u32, u32, u32),
    /// The number of a waiting load: the inquiry of the scope paper.
    Retry(u32),
    /// The number up to which all is committed.
    Commit(u32),
    /// The number from which on all is dropped.
    Abort(u32),
    /// Carries the committed work on.
    Idle,
    /// The memory's reply to the request.
    Reply,
    /// Writes every dirty word to memory.
    Flush,
    /// An address of the line.
    ShowLine(u32),
    /// The name of the mark to be set.
    Checkpoint(u32),
    /// The name of the mark to return to.
    Restore(u32),
    /// Tells what a reply would do, and changes nothing.
    Preview,
}

impl Call {
    /// The library's number of the call, and its operands.
    pub(crate) fn numbered(self) -> (u32, [u32; 3]) {
        match self {
            Call::Load(address, width) => (boundary::CALL_LOAD, [address, width, 0]),
            Call::Store(address, width, value) => (boundary::CALL_STORE, [address, width, value]),
            Call::Retry(number) => (boundary::CALL_RETRY, [number, 0, 0]),
            Call::Commit(number) => (boundary::CALL_COMMIT, [number, 0, 0]),
            Call::Abort(number) => (boundary::CALL_ABORT, [number, 0, 0]),
            Call::Idle => (boundary::CALL_IDLE, [0; 3]),
            Call::Reply => (boundary::CALL_REPLY, [0; 3]),
            Call::Flush => (boundary::CALL_FLUSH, [0; 3]),
            Call::ShowLine(address) => (boundary::CALL_SHOW_LINE, [address, 0, 0]),
            Call::Checkpoint(name) => (boundary::CALL_CHECKPOINT, [name, 0, 0]),
            Call::Restore(name) => (boundary::CALL_RESTORE, [name, 0, 0]),
            Call::Preview => (boundary::CALL_PREVIEW, [0; 3]),
        }
    }
}

/// What show line gives: a part of the cache.
#[derive(Clone, Copy, Debug, PartialEq, Eq, Hash)]
pub struct Part<'a> {
    /// Where it begins in the cache; 0 where it is empty.
    pub place: usize,
    /// 16 bytes, or none where the line is absent, the address is outside memory,
    /// or another call would be refused by 1 or 10.
    pub bytes: &'a [u8],
}

/// The calls. Each is lent the cache and the memory that go with the image:
/// sets × ways × 16 bytes, and as many bytes of memory as at the start. Other
/// lengths are refused, never read past.
impl Image {
    /// Start: an image of the unit as it starts, and zeroed cache bytes; memory
    /// stays as found. Refused by 1 alone, by its figures and the two lengths; the
    /// cache then stays.
    pub fn start(figures: Figures, cache: &mut [u8], memory: &[u8]) -> Result<Image, Refusal> {
        let mut image = Image::from_bytes([0; Image::SIZE]);
        image.restart(figures, cache, memory)?;
        Ok(image)
    }

    /// A start where the image is stored, whatever it held: [`Answer::Ready`].
    /// Refused, it leaves image and cache as they were.
    pub fn restart(
        &mut self,
        figures: Figures,
        cache: &mut [u8],
        memory: &[u8],
    ) -> Result<Answer, Refusal> {
        told(boundary::start(self, figures, cache, memory))
    }

    /// Any call but a start. Refused, it leaves image, cache and memory as they
    /// were, byte for byte. [`Unit`](crate::Unit) says what each call does.
    pub fn call(
        &mut self,
        cache: &mut [u8],
        memory: &mut [u8],
        call: Call,
    ) -> Result<Answer, Refusal> {
        let (number, operands) = call.numbered();
        told(boundary::step(self, number, operands, cache, memory))
    }

    /// Calls one after the other, and their answers: all as by [`Image::call`], but
    /// the state is checked once, and where it is refused by 1 or 10 so is each call.
    /// A refused call changes nothing, and the list goes on. Of a [`Call::ShowLine`]
    /// the answer says where in the cache the bytes stood; a later call of the list
    /// may have written there.
    pub fn run(
        &mut self,
        cache: &mut [u8],
        memory: &mut [u8],
        calls: &[Call],
    ) -> Vec<Result<Answer, Refusal>> {
        let mut batch = calls.iter().copied().collect();
        self.run_batch(cache, memory, &mut batch);
        batch.answers().collect()
    }

    /// The same of a batch, which then has the answers.
    pub fn run_batch(&mut self, cache: &mut [u8], memory: &mut [u8], batch: &mut Batch) {
        batch.run(self, cache, memory);
    }

    /// Show line: the present line's bytes in the lent cache. It is never refused,
    /// and image, cache and memory are only read.
    pub fn show_line<'a>(&self, cache: &'a [u8], memory: &[u8], address: u32) -> Part<'a> {
        let (place, length) = match told(boundary::show_line(self, address, cache, memory)) {
            Ok(Answer::Shown { place, length }) => (place as usize, length as usize),
            other => panic!("the library answers show line by {other:?}"),
        };
        Part { place, bytes: &cache[place..place + length] }
    }
}
