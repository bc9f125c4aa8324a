//! Where the parts of an image stand, in bytes.

pub const SETS: usize = 0;
pub const WAYS: usize = 4;
pub const PROFILE: usize = 8;
pub const MEMORY_LENGTH: usize = 12;
pub const LAST: usize = 16;
pub const COMMITTED: usize = 20;
pub const REQUESTED: usize = 24;
pub const REQUESTED_LINE: usize = 28;
/// The queues, the checkpoints and the tag records, one after the other.
pub const STORES_AT: usize = 32;
pub const LOADS_AT: usize = 288;
pub const CHECKPOINTS_AT: usize = 416;
pub const TAGS_AT: usize = 512;

/// Bytes of a place of a queue, of a checkpoint and of a tag record.
pub const ENTRY: usize = 16;
pub const CHECKPOINT: usize = 12;
pub const TAG: usize = 6;

/// In a place of a queue: behind its number.
pub const ADDRESS: usize = 4;
pub const WIDTH: usize = 8;
pub const VALUE: usize = 12;
pub const WAITING: usize = 12;
pub const FORWARDED: usize = 14;

/// In a checkpoint: behind its name.
pub const NUMBER: usize = 4;
pub const RANK: usize = 8;

/// In a tag record: behind its valid flag, the dirty marks first.
pub const DIRTY: usize = 1;
pub const LINE: usize = 2;
pub const AGE: usize = 4;
pub const UNUSED: usize = 5;

/// Where the dirty marks of a tag record stand.
pub const fn marks_at(record: usize) -> usize {
    TAGS_AT + TAG * record + DIRTY
}
