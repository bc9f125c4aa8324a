//! The data of the machine: its state, the calls and the answers. Data only,
//! so that the model and the plain rules can share it.

/// Bytes of a line.
pub const LINE: usize = 16;
/// Bytes of a word, the unit of the dirty marks.
pub const WORD: usize = 4;
/// Words of a line.
pub const WORDS: usize = LINE / WORD;
/// The dirty marks of a line whose every word is dirty.
pub const ALL_DIRTY: u8 = (1 << WORDS) - 1;
/// Places of the tag table.
pub const RECORDS: usize = 256;
/// Ways of a set, at most.
pub const WAYS: usize = 4;
/// Places of the store queue.
pub const STORES: usize = 16;
/// Places of the load queue.
pub const LOADS: usize = 8;
/// Places of the checkpoints, and their names from 1.
pub const CHECKPOINTS: usize = 8;

/// A place of the store queue: a held store, or free when its number is 0.
#[derive(Clone, Copy, Debug, Default, PartialEq, Eq)]
pub struct StoreEntry {
    pub number: u32,
    pub address: u32,
    pub width: u32,
    pub value: u32,
}

/// A place of the load queue: a listed load, or free when its number is 0.
/// A listed load that is not answered waits.
#[derive(Clone, Copy, Debug, Default, PartialEq, Eq)]
pub struct LoadEntry {
    pub number: u32,
    pub address: u32,
    pub width: u32,
    pub answered: bool,
    /// Answered by store-to-load forwarding alone: held stores gave all of its bytes
    /// (card 6's load fed from held stores).
    pub forwarded: bool,
}

/// A place of the checkpoints (the branch marks of the paper): a mark in force, or free
/// when its name is 0.
#[derive(Clone, Copy, Debug, Default, PartialEq, Eq)]
pub struct Checkpoint {
    pub name: u32,
    /// The next operation number when it was set.
    pub number: u32,
    /// Its rank, from 1, by order of setting among the marks in force.
    pub rank: u32,
}

/// A tag record of one set and way. Age 0 is the line used last.
#[derive(Clone, Copy, Debug, Default, PartialEq, Eq)]
pub struct Tag {
    pub valid: bool,
    /// The dirty marks: bit q is that of word q, bytes 4q to 4q + 3 of the line.
    pub dirty: u8,
    pub line: u32,
    pub age: u32,
}

/// The miss register (the request register of the paper).
#[derive(Clone, Copy, Debug, Default, PartialEq, Eq)]
pub enum Request {
    #[default]
    Free,
    Line(u32),
}

/// What the tag lookup says of a line.
#[derive(Clone, Copy, Debug, PartialEq, Eq)]
pub enum Lookup {
    /// The way of its set that the line is in.
    Present(usize),
    /// It is not present, and the miss register names it.
    Requested,
    /// It is neither present nor requested.
    Absent,
}

/// Where a drain writes a store: the write profile.
#[derive(Clone, Copy, Debug, Default, PartialEq, Eq)]
pub enum WritePolicy {
    /// Write-back, with write-allocate: to the cached line, whose word is then dirty.
    #[default]
    WriteBack = 0,
    /// Write-through, without write-allocate: to memory, and to the cached line where
    /// there is one.
    WriteThrough = 1,
}

/// What a start chooses. Made by `new` and `with_policy` alone, so that a further
/// figure stands here and where it is chosen.
#[derive(Clone, Copy, Debug, Default, PartialEq, Eq)]
pub struct Figures {
    pub sets: u32,
    pub ways: u32,
    pub policy: WritePolicy,
}

impl Figures {
    /// Figures of write-back.
    pub const fn new(sets: u32, ways: u32) -> Figures {
        Figures { sets, ways, policy: WritePolicy::WriteBack }
    }

    /// The same in a write profile.
    pub const fn with_policy(self, policy: WritePolicy) -> Figures {
        Figures { policy, ..self }
    }
}

/// What a long run begins with: the figures, and so much zeroed memory. Those of
/// scripts are of write-back.
#[derive(Clone, Copy, Debug, PartialEq, Eq)]
pub struct Setup {
    pub figures: Figures,
    pub memory: u32,
}

impl Setup {
    pub const fn new(sets: u32, ways: u32, memory: u32) -> Setup {
        Setup { figures: Figures::new(sets, ways), memory }
    }
}

/// The state. Cache and memory bytes are lent beside it.
#[derive(Clone, Debug, PartialEq, Eq)]
pub struct State {
    pub figures: Figures,
    pub memory_length: u32,
    /// The last operation number given.
    pub last: u32,
    /// The committed number, h in the paper.
    pub committed: u32,
    pub request: Request,
    pub stores: [StoreEntry; STORES],
    pub loads: [LoadEntry; LOADS],
    /// The marks in force, in order of setting.
    pub checkpoints: [Checkpoint; CHECKPOINTS],
    pub tags: [Tag; RECORDS],
}

impl State {
    /// The all-zero state, which a refused start hands back.
    pub fn zero() -> State {
        State {
            figures: Figures::default(),
            memory_length: 0,
            last: 0,
            committed: 0,
            request: Request::Free,
            stores: [StoreEntry::default(); STORES],
            loads: [LoadEntry::default(); LOADS],
            checkpoints: [Checkpoint::default(); CHECKPOINTS],
            tags: [Tag::default(); RECORDS],
        }
    }
}

/// State, cache and memory together, as they stand at one moment.
#[derive(Clone, Copy, Debug, PartialEq, Eq)]
pub struct Snapshot<'a> {
    pub state: &'a State,
    pub cache: &'a [u8],
    pub memory: &'a [u8],
}

/// The thirteen calls with their arguments.
#[derive(Clone, Copy, Debug, PartialEq, Eq)]
pub enum Call {
    Start {
        figures: Figures,
    },
    Load {
        address: u32,
        width: u32,
    },
    Store {
        address: u32,
        width: u32,
        value: u32,
    },
    /// The inquiry of the paper.
    Retry {
        number: u32,
    },
    Commit {
        number: u32,
    },
    Abort {
        number: u32,
    },
    Idle,
    Reply,
    Flush,
    ShowLine {
        address: u32,
    },
    /// Sets a mark of this name.
    Checkpoint {
        name: u32,
    },
    /// Returns to the mark of this name.
    Restore {
        name: u32,
    },
    /// Tells what a reply would do.
    Preview,
}

/// A part of the lent cache. The empty part is place 0, length 0.
#[derive(Clone, Copy, Debug, Default, PartialEq, Eq)]
pub struct Part {
    pub place: usize,
    pub length: usize,
}

/// What a reply would do.
#[derive(Clone, Copy, Debug, Default, PartialEq, Eq)]
pub struct Preview {
    /// The way of its set that the requested line would be in, counted from 0.
    pub way: u32,
    /// The number of the line evicted; none where the way is invalid.
    pub evicted: Option<u32>,
    /// The words of that line to be written back: bit q is that of word q.
    pub words: u8,
    /// The ages of the set after the reply, by way. Those of ways that it has not are zero.
    pub ages: [u32; WAYS],
}

/// What a call answers.
#[derive(Clone, Copy, Debug, PartialEq, Eq)]
pub enum Answer {
    Ready,
    /// The store's number.
    Stored(u32),
    Value {
        number: u32,
        value: u32,
    },
    /// The load's number.
    Waits(u32),
    /// The load's number; its line is requested.
    WaitsRequested(u32),
    /// The committed number now in force.
    Committed(u32),
    /// The last number now in force.
    Kept(u32),
    /// The first address of the requested line.
    Requested(u32),
    /// The first address of the filled line.
    Filled(u32),
    /// The number of the store written.
    Drained(u32),
    Idle,
    /// Words written back.
    Flushed(u32),
    Shown(Part),
    /// The next operation number, which the mark remembers.
    Checkpointed(u32),
    Previewed(Preview),
    /// The number of the refusal.
    Refused(u32),
}

impl Answer {
    /// Accepted in the sense of the paper: no refusal.
    pub fn accepted(&self) -> bool {
        !matches!(self, Answer::Refused(_))
    }

    /// The number of a load that waits, by either word.
    pub fn waits(&self) -> Option<u32> {
        match *self {
            Answer::Waits(number) | Answer::WaitsRequested(number) => Some(number),
            _ => None,
        }
    }
}

/// A machine: one call on a lent state, cache and memory.
pub type Step = fn(&mut State, &mut [u8], &mut [u8], Call) -> Answer;
