//! The turns that lead to loads fed from held stores, wholly or in part.

use std::cmp::Reverse;

use super::Maker;
use crate::check;
use crate::types::{Answer, Call, LoadEntry, Request, Tag, LINE};

impl Maker {
    /// A load with bytes in held stores, mostly with all of them there and now and then in
    /// younger ones too, mostly committed once some have drained; and then a fill.
    pub(super) fn forwarded_load(&mut self) {
        let width = self.rng.pick(&[1, 2, 2, 4]);
        let address = self.address(width);
        if self.rng.one_in(2) {
            self.push(Call::Load { address: address ^ 8, width });
        }
        self.feed(address, width);
        if self.rng.one_in(2) {
            self.store();
        }
        let number = self.state.last.saturating_sub(self.rng.pick(&[0, 0, 1, 2]));
        self.push(Call::Load { address, width });
        if self.rng.one_in(3) {
            self.feed(address, width);
        }
        if self.rng.one_in(3) {
            self.load();
        }
        if !self.rng.one_in(4) {
            self.push(Call::Commit { number });
            self.carry_on(10);
        }
        self.load();
        self.commit_all();
        self.carry_on(6);
    }

    /// A forwarded load of the line that the next fill of its set evicts, and that fill.
    pub(super) fn forwarded_victim(&mut self) {
        if self.rng.one_in(2) {
            self.settle();
        }
        let (lines, absent) = self.crowded_set();
        let (Some((&oldest, others)), Some(&other)) = (lines.split_first(), absent.first()) else {
            return self.forwarded_load();
        };
        let (address, width) = (oldest * LINE as u32 + self.rng.pick(&[0, 4, 8]), 2);
        let fill = Call::Load { address: other * LINE as u32, width };
        if self.rng.one_in(3) {
            // Its stores are held behind the load that waits for the fill.
            self.push(fill);
            self.feed(address, width);
            self.push(Call::Load { address, width });
        } else {
            self.fed_and_drained(address, width, others);
            self.push(fill);
        }
        self.commit_all();
        self.push(Call::Idle);
        self.push(Call::Reply);
    }

    /// A load of held stores, which drain while it is listed, and behind them stores that
    /// use other lines. A younger load is aborted.
    fn fed_and_drained(&mut self, address: u32, width: u32, others: &[u32]) {
        self.feed(address, width);
        for line in others {
            self.push(Call::Store { address: line * LINE as u32, width: 1, value: 7 });
        }
        let number = self.state.last;
        self.push(Call::Load { address, width });
        if let Some(number) = self.state.last.checked_add(1) {
            self.load();
            self.push(Call::Abort { number });
        }
        self.push(Call::Commit { number });
        while matches!(self.push(Call::Idle), Answer::Drained(_)) {}
    }

    /// The present lines of the crowded set, from the one used first on, and the crowded
    /// lines of that set that are absent.
    fn crowded_set(&self) -> (Vec<u32>, Vec<u32>) {
        let sets = self.run.figures.sets;
        let of_set = |line: &u32| line % sets == self.crowded[0] % sets;
        let mut tags: Vec<Tag> = self.state.tags.iter().copied().filter(|tag| tag.valid).collect();
        tags.sort_by_key(|tag| Reverse(tag.age));
        let lines: Vec<u32> = tags.iter().map(|tag| tag.line).filter(of_set).collect();
        let absent = |line: &u32| of_set(line) && !lines.contains(line);
        let absent = self.crowded.iter().copied().filter(absent).collect();
        (lines, absent)
    }

    /// Stores to the bytes of an access: one, or one to each half, of which now and then
    /// one is left out.
    pub(super) fn feed(&mut self, address: u32, width: u32) {
        let part = if width > 1 && self.rng.one_in(2) { width / 2 } else { width };
        for at in (0..width).step_by(part as usize) {
            if part == width || !self.rng.one_in(4) {
                let value = (self.rng.word() as u32) >> (32 - 8 * part);
                self.push(Call::Store { address: address + at, width: part, value });
            }
        }
    }

    fn commit_all(&mut self) {
        let number = self.state.last;
        self.push(Call::Commit { number });
    }

    /// Fewer than so many calls that carry the committed work on, and inquiries about
    /// waiting loads whose lines are present.
    fn carry_on(&mut self, most: u64) {
        for _ in 0..self.rng.below(most) {
            let numbers = self.answerable();
            let call = match self.state.request {
                Request::Line(_) => Call::Reply,
                _ if numbers.is_empty() || self.rng.one_in(4) => Call::Idle,
                _ => Call::Retry { number: self.rng.pick(&numbers) },
            };
            self.push(call);
        }
    }

    /// The waiting loads whose lines are present.
    fn answerable(&self) -> Vec<u32> {
        let present = |load: &&LoadEntry| {
            let line = load.address / LINE as u32;
            !load.answered && check::find(&self.state, line).is_some()
        };
        check::listed(&self.state).iter().filter(present).map(|load| load.number).collect()
    }
}
