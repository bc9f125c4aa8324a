//! A machine for the tests: a state with its cache and memory, each of whose
//! calls is judged by the plain rules too.
#![allow(dead_code)]

use compare::check;
use compare::model::{Machine, Right};
use compare::rules;
use compare::types::{Answer, Call, Figures, Snapshot, State};

/// A state with what is lent to it.
#[derive(Clone, Debug, PartialEq, Eq)]
pub struct Judged {
    pub state: State,
    pub cache: Vec<u8>,
    pub memory: Vec<u8>,
}

impl Judged {
    /// An accepted start in write-back.
    pub fn new(sets: u32, ways: u32, length: usize) -> Judged {
        Judged::start(Figures::new(sets, ways), length)
    }

    /// An accepted start over memory that is found with byte a % 251 + 1 at a.
    pub fn start(figures: Figures, length: usize) -> Judged {
        let memory = (0..length).map(|a| (a % 251 + 1) as u8).collect();
        let cache = vec![0xA5; check::cache_length(figures)];
        let mut judged = Judged { state: State::zero(), cache, memory };
        assert_eq!(judged.call(Call::Start { figures }), Answer::Ready);
        judged
    }

    pub fn snapshot(&self) -> Snapshot<'_> {
        Snapshot { state: &self.state, cache: &self.cache, memory: &self.memory }
    }

    /// One call, judged.
    pub fn call(&mut self, call: Call) -> Answer {
        let before = self.clone();
        let answer = Right::step(&mut self.state, &mut self.cache, &mut self.memory, call);
        if let Err(what) = rules::judge(before.snapshot(), call, answer, self.snapshot()) {
            panic!("{call:?}: {what}");
        }
        answer
    }

    pub fn load(&mut self, address: u32, width: u32) -> Answer {
        self.call(Call::Load { address, width })
    }

    pub fn store(&mut self, address: u32, width: u32, value: u32) -> Answer {
        self.call(Call::Store { address, width, value })
    }

    pub fn retry(&mut self, number: u32) -> Answer {
        self.call(Call::Retry { number })
    }

    pub fn commit(&mut self, number: u32) -> Answer {
        self.call(Call::Commit { number })
    }

    pub fn abort(&mut self, number: u32) -> Answer {
        self.call(Call::Abort { number })
    }

    pub fn idle(&mut self) -> Answer {
        self.call(Call::Idle)
    }

    pub fn reply(&mut self) -> Answer {
        self.call(Call::Reply)
    }

    pub fn flush(&mut self) -> Answer {
        self.call(Call::Flush)
    }

    pub fn checkpoint(&mut self, name: u32) -> Answer {
        self.call(Call::Checkpoint { name })
    }

    pub fn restore(&mut self, name: u32) -> Answer {
        self.call(Call::Restore { name })
    }

    pub fn preview(&mut self) -> Answer {
        self.call(Call::Preview)
    }

    /// The bytes that show line gives.
    pub fn shown(&self, address: u32) -> &[u8] {
        Right::shown_bytes(&self.state, &self.cache, &self.memory, address)
    }

    /// Brings a line in by a committed load of its first byte.
    pub fn bring(&mut self, line: u32) {
        let number = self.state.last + 1;
        assert_eq!(self.load(line * 16, 1), Answer::Waits(number));
        self.commit(number);
        assert_eq!(self.idle(), Answer::Requested(line * 16));
        assert_eq!(self.reply(), Answer::Filled(line * 16));
        assert!(matches!(self.retry(number), Answer::Value { .. }));
    }
}

/// A value that an answer must be.
pub fn value(number: u32, value: u32) -> Answer {
    Answer::Value { number, value }
}
