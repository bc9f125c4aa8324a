//! What write-back writes to memory: dirty words, beside the whole lines that they lie
//! in, apart for evictions and flushes.

use std::fmt;

use crate::types::{Answer, State, ALL_DIRTY, LINE, WORD};

/// Lines with a dirty word, and the dirty words in them.
#[derive(Clone, Copy, Debug, Default, PartialEq, Eq)]
pub struct Dirty {
    pub lines: u64,
    pub words: u64,
    /// Lines whose every word is dirty.
    pub whole: u64,
}

impl Dirty {
    /// Those of a state.
    pub fn of(state: &State) -> Dirty {
        let mut dirty = Dirty::default();
        for tag in state.tags.iter().filter(|tag| tag.dirty != 0) {
            dirty.lines += 1;
            dirty.words += u64::from(tag.dirty.count_ones());
            dirty.whole += u64::from(tag.dirty == ALL_DIRTY);
        }
        dirty
    }

    /// Those that are no longer dirty after a call.
    pub fn gone(self, after: Dirty) -> Dirty {
        Dirty {
            lines: self.lines.saturating_sub(after.lines),
            words: self.words.saturating_sub(after.words),
            whole: self.whole.saturating_sub(after.whole),
        }
    }

    /// Those that a reply or a flush wrote back. The words of a flush are those that it
    /// answers; the rules have it that as many are no longer dirty. A reply answers no
    /// count, so that its words are the marks that went with the line evicted.
    pub fn written(answer: Answer, before: Dirty, after: Dirty) -> Dirty {
        let gone = before.gone(after);
        match answer {
            Answer::Flushed(words) => Dirty { words: u64::from(words), ..gone },
            _ => gone,
        }
    }

    /// Bytes of the dirty words.
    pub fn word_bytes(self) -> u64 {
        self.words * WORD as u64
    }

    /// Bytes of the whole lines.
    pub fn line_bytes(self) -> u64 {
        self.lines * LINE as u64
    }

    fn add(&mut self, more: Dirty) {
        self.lines += more.lines;
        self.words += more.words;
        self.whole += more.whole;
    }
}

/// What evictions and flushes wrote back.
#[derive(Clone, Copy, Debug, Default, PartialEq, Eq)]
pub struct Traffic {
    pub evicted: Dirty,
    pub flushed: Dirty,
}

impl Traffic {
    /// Takes in a call, by what was dirty before and after it.
    pub fn take(&mut self, answer: Answer, before: Dirty, after: Dirty) {
        let written = Dirty::written(answer, before, after);
        match answer {
            Answer::Filled(_) => self.evicted.add(written),
            Answer::Flushed(_) => self.flushed.add(written),
            _ => {}
        }
    }

    /// Adds that of other runs.
    pub fn add(&mut self, other: Traffic) {
        self.evicted.add(other.evicted);
        self.flushed.add(other.flushed);
    }
}

impl fmt::Display for Traffic {
    fn fmt(&self, f: &mut fmt::Formatter) -> fmt::Result {
        for (what, written) in [("evictions", self.evicted), ("flushes", self.flushed)] {
            let (words, lines) = (written.word_bytes(), written.line_bytes());
            let ratio = words as f64 / lines.max(1) as f64;
            let what = format!("bytes written by {what}");
            writeln!(f, "{what:<27}{words:>9}, by whole lines {lines:>9}, ratio {ratio:.3}")?;
        }
        Ok(())
    }
}
