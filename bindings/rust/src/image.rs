//! The image of a state, as the library lays it out, and what it holds.

use std::mem::{align_of, offset_of, size_of};

use crate::boundary;

/// Bytes of a line.
pub const LINE: usize = 16;
/// Bytes of a word: each aligned word of a line has a dirty mark.
pub const WORD: usize = 4;
/// The most sets that a start may choose.
pub const MAX_SETS: u32 = 64;
/// The most ways that a start may choose.
pub const MAX_WAYS: u32 = 4;
/// The fewest bytes of memory; there may be any multiple of 16 from here to the most.
pub const MIN_MEMORY: usize = 16;
/// The most bytes of memory.
pub const MAX_MEMORY: usize = 65536;
/// Places of the tag table.
pub const RECORDS: usize = 256;
/// Places of the store queue.
pub const STORES: usize = 16;
/// Places of the load queue.
pub const LOADS: usize = 8;
/// Places of checkpoints; their names are 1 to so many.
pub const CHECKPOINTS: usize = 8;

/// Where a drain writes a store, and what it needs for it: the write profile.
#[derive(Clone, Copy, Debug, Default, PartialEq, Eq, Hash)]
pub enum WritePolicy {
    /// Write-back with write-allocate: a store is written to its line, where its word
    /// becomes dirty; an absent line is requested first.
    #[default]
    WriteBack,
    /// Write-through without write-allocate: a store is written to memory, and to its
    /// line where that is present. No line is requested for a store, and none is dirty.
    WriteThrough,
}

/// The figures that a start chooses. Made by [`Figures::new`], so that a bench need not
/// name a figure that it does not choose.
#[derive(Clone, Copy, Debug, Default, PartialEq, Eq, Hash)]
#[non_exhaustive]
pub struct Figures {
    /// Sets of the cache: 1, 2, 4, 8, 16, 32 or 64.
    pub sets: u32,
    /// Ways of each set: 1 to 4.
    pub ways: u32,
    /// The write policy.
    pub policy: WritePolicy,
}

impl Figures {
    /// Figures of write-back.
    pub const fn new(sets: u32, ways: u32) -> Figures {
        Figures { sets, ways, policy: WritePolicy::WriteBack }
    }

    /// The same with a write policy.
    pub const fn with_policy(self, policy: WritePolicy) -> Figures {
        Figures { policy, ..self }
    }

    /// The library's number of the profile.
    pub(crate) const fn profile(self) -> u32 {
        match self.policy {
            WritePolicy::WriteBack => boundary::PROFILE_WRITE_BACK,
            WritePolicy::WriteThrough => boundary::PROFILE_WRITE_THROUGH,
        }
    }

    /// Bytes of the cache that a start of these figures asks for, sets × ways × 16;
    /// `usize::MAX` where that is more.
    pub const fn cache_length(self) -> usize {
        (self.sets as usize).saturating_mul(self.ways as usize).saturating_mul(LINE)
    }
}

/// A held store; all zero where the place is free.
#[derive(Clone, Copy, Debug, Default, PartialEq, Eq, Hash)]
#[repr(C)]
pub struct HeldStore {
    /// The operation number; 0 where the place is free.
    pub number: u32,
    /// The address of its lowest byte.
    pub address: u32,
    /// Its bytes: 1, 2 or 4.
    pub width: u32,
    /// The stored value.
    pub value: u32,
}

/// A listed load; all zero where the place is free.
#[derive(Clone, Copy, Debug, Default, PartialEq, Eq, Hash)]
pub struct ListedLoad {
    /// The operation number; 0 where the place is free.
    pub number: u32,
    /// The address of its lowest byte.
    pub address: u32,
    /// Its bytes: 1, 2 or 4.
    pub width: u32,
    /// It waits, else it is answered.
    pub waiting: bool,
    /// Each of its bytes came from a held store when it was answered (02: fed from held
    /// stores): it does not use its line when it commits. An image with a load that
    /// waits and is forwarded is refused by 10.
    pub forwarded: bool,
}

/// A checkpoint (02: a mark in force); all zero where the place is free.
#[derive(Clone, Copy, Debug, Default, PartialEq, Eq, Hash)]
#[repr(C)]
pub struct Checkpoint {
    /// The name, 1 to 8; 0 where the place is free.
    pub name: u32,
    /// The operation number that it remembers.
    pub number: u32,
    /// 1 for the one set first, 2 for the next, and so on.
    pub rank: u32,
}

/// A tag record. The bytes of record r stand at 16 × r in the cache.
#[derive(Clone, Copy, Debug, Default, PartialEq, Eq, Hash)]
pub struct Tag {
    /// A line is present here.
    pub valid: bool,
    /// The dirty marks of the line's four words, 0 to 15: that of word n is `1 << n`; an
    /// image with a fifth mark is refused by 10. A word is dirty when a store was
    /// written to it since the line was filled or last flushed; never in write-through.
    /// See [`Tag::is_dirty`].
    pub dirty: u8,
    /// The line number: its first address divided by 16.
    pub line: u32,
    /// 0 for the way of its set that was used last; after a start way w has age w,
    /// invalid ways too. A use of a line gives its way age 0 and adds 1 to each
    /// smaller age of the set.
    pub age: u32,
}

impl Tag {
    /// Whether a word of the line is dirty; a line has words 0 to 3.
    pub const fn is_dirty(&self, word: usize) -> bool {
        word < LINE / WORD && (self.dirty >> word) & 1 != 0
    }

    /// How many words of the line are dirty: what an eviction writes to memory.
    pub const fn dirty_words(&self) -> u32 {
        (self.dirty % (1 << (LINE / WORD))).count_ones()
    }
}

/// A listed load as it is laid out.
#[derive(Clone, Copy, Debug, PartialEq, Eq, Hash)]
#[repr(C)]
struct LoadImage {
    number: u32,
    address: u32,
    width: u32,
    waiting: u16,
    forwarded: u16,
}

/// A tag record as it is laid out.
#[derive(Clone, Copy, Debug, PartialEq, Eq, Hash)]
#[repr(C)]
struct TagImage {
    valid: u8,
    dirty: u8,
    line: u16,
    age: u8,
    unused: u8,
}

/// The image of a state: opaque bytes that the bench stores and lends to each call.
///
/// An image goes with its cache and its memory; all three together can be copied
/// and stored. Any bytes are an image, but one that is not well formed (damaged, or
/// never started) is refused by every call but a start (show line gives the empty
/// part), and never repaired. [`Unit`](crate::Unit) holds all three.
#[derive(Clone, Debug, PartialEq, Eq, Hash)]
#[repr(C)]
pub struct Image {
    sets: u32,
    ways: u32,
    profile: u32,
    memory_length: u32,
    last: u32,
    committed: u32,
    requested: u32,
    line: u32,
    stores: [HeldStore; STORES],
    loads: [LoadImage; LOADS],
    checkpoints: [Checkpoint; CHECKPOINTS],
    tags: [TagImage; RECORDS],
}

// The library's layout. No struct has bytes between or behind its fields.
const _: () = {
    assert!(size_of::<Image>() == Image::SIZE && align_of::<Image>() == 4);
    assert!(size_of::<HeldStore>() == 16 && size_of::<LoadImage>() == 16);
    assert!(size_of::<Checkpoint>() == 12);
    assert!(size_of::<TagImage>() == 6 && align_of::<TagImage>() == 2);
    assert!(offset_of!(Image, sets) == 0 && offset_of!(Image, ways) == 4);
    assert!(offset_of!(Image, profile) == 8 && offset_of!(Image, memory_length) == 12);
    assert!(offset_of!(Image, last) == 16 && offset_of!(Image, committed) == 20);
    assert!(offset_of!(Image, requested) == 24 && offset_of!(Image, line) == 28);
    assert!(offset_of!(Image, stores) == 32 && offset_of!(Image, loads) == 288);
    assert!(offset_of!(Image, checkpoints) == 416 && offset_of!(Image, tags) == 512);
    assert!(offset_of!(HeldStore, address) == 4 && offset_of!(HeldStore, width) == 8);
    assert!(offset_of!(HeldStore, value) == 12 && offset_of!(LoadImage, address) == 4);
    assert!(offset_of!(LoadImage, width) == 8 && offset_of!(LoadImage, waiting) == 12);
    assert!(offset_of!(LoadImage, forwarded) == 14);
    assert!(offset_of!(Checkpoint, number) == 4 && offset_of!(Checkpoint, rank) == 8);
    assert!(offset_of!(TagImage, dirty) == 1 && offset_of!(TagImage, line) == 2);
    assert!(offset_of!(TagImage, age) == 4 && offset_of!(TagImage, unused) == 5);
};

/// What an image holds, whether or not a call would refuse it.
impl Image {
    /// Bytes of an image.
    pub const SIZE: usize = 2048;

    /// The image with these bytes.
    pub fn from_bytes(bytes: [u8; Image::SIZE]) -> Image {
        boundary::image_of(bytes)
    }

    /// The bytes of the image.
    pub fn to_bytes(&self) -> [u8; Image::SIZE] {
        boundary::bytes_of(self)
    }

    /// Sets and ways of the cache, and the write policy: write-back where
    /// [`Image::policy`] tells none.
    pub fn figures(&self) -> Figures {
        let policy = self.policy().unwrap_or_default();
        Figures { sets: self.sets, ways: self.ways, policy }
    }

    /// The write policy; none where the image has a number that stands for no profile,
    /// and so is refused.
    pub fn policy(&self) -> Option<WritePolicy> {
        match self.profile {
            boundary::PROFILE_WRITE_BACK => Some(WritePolicy::WriteBack),
            boundary::PROFILE_WRITE_THROUGH => Some(WritePolicy::WriteThrough),
            _ => None,
        }
    }

    /// Bytes of the memory.
    pub fn memory_length(&self) -> u32 {
        self.memory_length
    }

    /// The last operation number given.
    pub fn last(&self) -> u32 {
        self.last
    }

    /// The committed number (the scope paper's h): everything up to it is committed.
    pub fn committed(&self) -> u32 {
        self.committed
    }

    /// The line number (first address / 16) that the miss register names, or none
    /// where it is free.
    pub fn requested(&self) -> Option<u32> {
        (self.requested != 0).then_some(self.line)
    }

    /// The store queue, the oldest store first.
    pub fn stores(&self) -> &[HeldStore; STORES] {
        &self.stores
    }

    /// The load queue, the oldest load first.
    pub fn loads(&self) -> [ListedLoad; LOADS] {
        self.loads.map(|load| ListedLoad {
            number: load.number,
            address: load.address,
            width: load.width,
            waiting: load.waiting != 0,
            forwarded: load.forwarded != 0,
        })
    }

    /// The checkpoints, in the order in which they were set.
    pub fn checkpoints(&self) -> &[Checkpoint; CHECKPOINTS] {
        &self.checkpoints
    }

    /// The tag record of a number, set × ways + way; none past the table.
    pub fn tag(&self, record: usize) -> Option<Tag> {
        self.tags.get(record).map(|tag| Tag {
            valid: tag.valid != 0,
            dirty: tag.dirty,
            line: u32::from(tag.line),
            age: u32::from(tag.age),
        })
    }
}
