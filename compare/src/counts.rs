//! What random runs met, counted by name and apart for each write profile, and how
//! much of it must be met.

use std::collections::BTreeMap;

use crate::traffic::{Dirty, Traffic};
use crate::types::{Answer, WritePolicy};

/// What must be met, each with a number: one in so many is enough.
pub type Needed = [(&'static str, u64)];

/// What the runs of each write profile must meet, out of so many runs of all.
const OF_ALL: [(&str, u64); 1] = [("run after a start", 3)];

/// What they must meet out of so many of their own.
const NEEDED: [(&str, u64); 89] = [
    ("run from a well-formed state", 40),
    ("value", 1),
    ("load waits", 1),
    ("load waits, its line requested", 2),
    ("load waits, another line requested", 2),
    ("inquiry waits", 1),
    ("inquiry waits, its line requested", 2),
    ("inquiry waits, another line requested", 3),
    ("wait beside a request in its set", 5),
    ("wait for a requested line, a byte in a store", 16),
    ("value of stores alone, its line requested", 10),
    ("fill", 1),
    ("eviction of a clean line", 2),
    ("drain to a present line", 1),
    ("idle with nothing to do", 1),
    ("inquiry answered, committed", 2),
    ("inquiry answered, uncommitted", 5),
    ("line shown", 3),
    ("flush", 2),
    ("value of a number used again", 2),
    ("value of several stores and the cache", 30),
    ("load waits, a byte in a store", 5),
    ("load forwarded", 1),
    ("load forwarded by several stores", 4),
    ("inquiry answered, committed, a byte in a store", 30),
    ("inquiry answered, uncommitted, a byte in a store", 150),
    ("load partly of stores committed", 4),
    ("forwarded load committed, stores held", 2),
    ("forwarded load committed, stores drained", 12),
    ("forwarded load committed, a store drained", 150),
    ("forwarded load committed, line filled since", 12),
    ("forwarded load committed, line there before", 2),
    ("commit of forwarded and other loads of a set", 4),
    ("commit with other ages than by 01 alone", 12),
    ("eviction of another line than by 01 alone", 40),
    ("forwarded load aborted", 12),
    ("forwarded load dropped by a return", 12),
    ("preview", 1),
    ("preview of a fill that evicts nothing", 1),
    ("preview of an invalid way, another one older", 2),
    ("preview of an eviction behind the first set", 2),
    ("preview of an eviction, one way", 2),
    ("preview of an eviction, two ways", 4),
    ("preview of an eviction, three ways", 10),
    ("preview of an eviction, four ways", 20),
    ("preview of a clean line", 1),
    ("preview refused by 17", 1),
    ("reply behind its preview", 2),
    ("dropped stretch", 1),
    ("dropped stretch, load and drain inside", 2),
    ("dropped stretch, load and reply inside", 2),
    ("dropped stretch, load and eviction inside", 5),
    ("dropped stretch, forwarded load inside", 4),
    ("dropped stretch, load and preview inside", 2),
    ("dropped stretch at a mark, load inside", 5),
    ("mark set", 1),
    ("return to a mark", 1),
    ("return that forgets a later mark at its number", 5),
    ("return that keeps an earlier mark at its number", 10),
    ("return when no number is left", 50),
    ("abort that forgets a mark", 15),
    ("abort at the number of a mark", 5),
    ("commit that forgets marks and keeps others", 15),
    ("mark stretch", 1),
    ("mark stretch, load and drain inside", 5),
    ("mark stretch, load and reply inside", 5),
    ("mark stretch, load and eviction inside", 12),
    ("mark stretch, forwarded load inside", 10),
    ("mark stretch, load and preview inside", 8),
    ("mark stretch, waiting load and eviction inside", 20),
    ("mark stretch, second mark and refusals inside", 8),
    ("mark stretch, older work committed inside", 8),
    ("refused 2", 30),
    ("refused 3", 30),
    ("refused 4", 30),
    ("refused 5", 30),
    ("refused 11", 10),
    ("refused 12", 10),
    ("refused 13", 10),
    ("refused 14", 10),
    ("refused 15", 30),
    ("refused 16", 10),
    ("refused 17", 10),
    ("refused 18", 10),
    ("refused 19", 5),
    ("refused 20", 5),
    ("refused 21", 1),
    ("set refused by 21", 5),
    ("set refused by 20 when no number is left", 50),
];

/// What those of write-back must meet besides.
const OF_BACK: [(&str, u64); 13] = [
    ("wait for a line requested for a store", 5),
    ("eviction of a dirty line", 2),
    ("eviction of one dirty word", 4),
    ("eviction of two or three dirty words", 15),
    ("preview of one dirty word", 4),
    ("preview of several dirty words", 25),
    ("preview of a dirty word that memory has", 100),
    ("flush of several lines", 5),
    ("flush of more words than lines", 8),
    ("drain to a dirty word", 2),
    ("drain to a clean word of a dirty line", 2),
    ("drain that leaves a line dirty whole", 20),
    ("drain that marks a word and changes no byte", 15),
];

/// What those of write-through must meet besides.
const OF_THROUGH: [(&str, u64); 2] =
    [("drain to an absent line", 1), ("drain to a requested line", 20)];

/// The write profiles by their numbers, each with what its runs must meet besides.
const PROFILES: [(&str, &Needed); 2] = [("write-back", &OF_BACK), ("write-through", &OF_THROUGH)];

/// The names under which refusals are counted.
const REFUSALS: [&str; 22] = [
    "refused 0",
    "refused 1",
    "refused 2",
    "refused 3",
    "refused 4",
    "refused 5",
    "refused 6",
    "refused 7",
    "refused 8",
    "refused 9",
    "refused 10",
    "refused 11",
    "refused 12",
    "refused 13",
    "refused 14",
    "refused 15",
    "refused 16",
    "refused 17",
    "refused 18",
    "refused 19",
    "refused 20",
    "refused 21",
];

/// The name under which a refusal is counted.
pub fn refused(no: u32) -> &'static str {
    REFUSALS.get(no as usize).copied().unwrap_or("refused otherwise")
}

/// What was met.
#[derive(Clone, Debug, Default, PartialEq, Eq)]
pub struct Counts {
    pub runs: u64,
    pub calls: u64,
    pub traffic: Traffic,
    met: BTreeMap<&'static str, u64>,
}

impl Counts {
    /// The counts of one run of so many calls.
    pub fn one_run(calls: usize) -> Counts {
        Counts { runs: 1, calls: calls as u64, ..Counts::default() }
    }

    /// Counts one more when it was met.
    pub fn met(&mut self, name: &'static str, met: bool) {
        *self.met.entry(name).or_default() += u64::from(met);
    }

    /// Counts what a call did with dirty words, by what was dirty before and after it.
    pub fn met_dirty(&mut self, answer: Answer, before: Dirty, after: Dirty) {
        self.traffic.take(answer, before, after);
        let Dirty { lines, words, .. } = Dirty::written(answer, before, after);
        match answer {
            Answer::Filled(_) => {
                self.met("eviction of a dirty line", lines > 0);
                self.met("eviction of one dirty word", words == 1);
                self.met("eviction of two or three dirty words", words == 2 || words == 3);
            }
            Answer::Flushed(_) => {
                self.met("flush of a dirty line", lines > 0);
                self.met("flush of several lines", lines > 1);
                self.met("flush of more words than lines", words > lines);
            }
            Answer::Drained(_) => {
                let (one_line, marked) = (before.lines == after.lines, before.words < after.words);
                self.met("drain to a dirty word", before.words > 0 && !marked);
                self.met("drain to a clean word of a dirty line", one_line && marked);
                self.met("drain that leaves a line dirty whole", before.whole < after.whole);
            }
            _ => {}
        }
    }

    /// How often it was met.
    pub fn of(&self, name: &str) -> u64 {
        self.met.get(name).copied().unwrap_or(0)
    }

    /// Adds what other runs met.
    pub fn add(&mut self, other: &Counts) {
        self.runs += other.runs;
        self.calls += other.calls;
        self.traffic.add(other.traffic);
        for (name, count) in &other.met {
            *self.met.entry(name).or_default() += count;
        }
    }

    /// What was met too seldom out of so many.
    pub fn lacking_of(&self, needed: &Needed, out_of: u64) -> Vec<String> {
        needed
            .iter()
            .filter(|(name, each)| self.of(name) < (out_of / each).max(1))
            .map(|(name, _)| format!("{name} (only {})", self.of(name)))
            .collect()
    }

    /// A row for each of the names.
    pub fn rows(&self, needed: &Needed) -> String {
        needed.iter().map(|(name, _)| format!("{name:<50}{:>12}\n", self.of(name))).collect()
    }
}

/// What random runs met, for each of `PROFILES`.
#[derive(Clone, Debug, Default, PartialEq, Eq)]
pub struct ByProfile([Counts; 2]);

impl ByProfile {
    /// Adds what runs of a write profile met.
    pub fn add(&mut self, policy: WritePolicy, met: &Counts) {
        self.0[policy as usize].add(met);
    }

    /// What those of write-back wrote back.
    pub fn traffic(&self) -> Traffic {
        self.0[WritePolicy::WriteBack as usize].traffic
    }

    /// What they met too seldom.
    pub fn lacking(&self) -> Vec<String> {
        let all = self.0.iter().map(|counts| counts.runs).sum();
        let mut lacking = Vec::new();
        for ((profile, besides), counts) in PROFILES.into_iter().zip(&self.0) {
            let mut rare = counts.lacking_of(&OF_ALL, all);
            rare.extend(counts.lacking_of(&NEEDED, counts.runs));
            rare.extend(counts.lacking_of(besides, counts.runs));
            lacking.extend(rare.iter().map(|what| format!("{profile}: {what}")));
        }
        lacking
    }
}

impl std::fmt::Display for ByProfile {
    fn fmt(&self, f: &mut std::fmt::Formatter) -> std::fmt::Result {
        let [(back, of_back), (through, of_through)] = PROFILES;
        writeln!(f, "{:<50}{back:>14}{through:>14}", "")?;
        let [back, through] = &self.0;
        writeln!(f, "{:<50}{:>14}{:>14}", "calls", back.calls, through.calls)?;
        for (name, _) in [&OF_ALL[..], &NEEDED, of_back, of_through].concat() {
            writeln!(f, "{name:<50}{:>14}{:>14}", back.of(name), through.of(name))?;
        }
        Ok(())
    }
}
