//! What scripts met, told by the model line by line, and what they must meet.

use crate::counts::{refused, Counts};
use crate::fed::{last_forwarded, Fed};
use crate::model::{Machine, Right};
use crate::script::{command, Command, Playing};
use crate::traffic::Dirty;
use crate::types::{Answer, Call, Request, State};

/// What long scripts must meet, out of so many lines.
pub const NEEDED: [(&str, u64); 53] = [
    ("accepted G", 40_000),
    ("accepted call", 2),
    ("stored", 20),
    ("value", 20),
    ("waits", 40),
    ("waits, another line requested", 800),
    ("waits-requested", 200),
    ("inquiry waits, another line requested", 1_500),
    ("inquiry waits, its line requested", 400),
    ("inquiry answered", 100),
    ("load waits, a byte in a store", 400),
    ("load forwarded", 100),
    ("load forwarded by several stores", 300),
    ("inquiry answered, committed, a byte in a store", 1_000),
    ("load partly of stores committed", 200),
    ("forwarded load committed, stores held", 200),
    ("forwarded load committed, stores drained", 600),
    ("forwarded load committed, line filled since", 1_500),
    ("commit of forwarded and other loads of a set", 400),
    ("commit with other ages than by 01 alone", 600),
    ("eviction of another line than by 01 alone", 1_200),
    ("forwarded load aborted", 800),
    ("kept", 100),
    ("committed", 40),
    ("request", 40),
    ("filled", 40),
    ("eviction of a dirty line", 80),
    ("eviction of one dirty word", 160),
    ("eviction of two or three dirty words", 500),
    ("drained", 20),
    ("drain to a dirty word", 100),
    ("drain to a clean word of a dirty line", 100),
    ("drain that leaves a line dirty whole", 1_000),
    ("idle", 50),
    ("flush of a dirty line", 400),
    ("flush of several lines", 1_000),
    ("flush of more words than lines", 1_000),
    ("malformed line", 120),
    ("line of more than 64 bytes", 1_500),
    ("last line without LF", 1_000_000),
    ("refused 1", 800),
    ("refused 2", 40_000),
    ("refused 3", 8_000),
    ("refused 4", 8_000),
    ("refused 5", 40_000),
    ("refused 6", 120),
    ("refused 11", 1_000),
    ("refused 12", 2_000),
    ("refused 14", 300),
    ("refused 15", 10_000),
    ("refused 16", 2_000),
    ("refused 17", 1_500),
    ("refused 18", 1_000),
];

/// What the model says of a line.
#[derive(Clone, Copy, Debug)]
pub struct Told {
    pub command: Option<Command>,
    pub answer: Answer,
    /// Did a request stand before the line?
    pub requested: bool,
    /// Did it make a load that was forwarded?
    pub forwarded: bool,
    /// What was dirty before the line, and after it.
    pub before: Dirty,
    pub after: Dirty,
}

impl Told {
    /// Is it a reply that writes a dirty line back?
    pub fn evicts(&self) -> bool {
        matches!(self.answer, Answer::Filled(_)) && self.before.gone(self.after).lines > 0
    }
}

/// A script in play that tells of each line.
pub struct Teller {
    playing: Playing,
    pub told: Vec<Told>,
}

impl Default for Teller {
    fn default() -> Teller {
        Teller { playing: Playing::new(Right::step), told: Vec::new() }
    }
}

impl Teller {
    /// The state, once there is one.
    fn state(&self) -> Option<State> {
        self.playing.now().map(|now| now.state.clone())
    }

    fn dirty(&self) -> Dirty {
        self.playing.now().map_or(Dirty::default(), |now| Dirty::of(now.state))
    }

    /// Plays a line.
    pub fn line(&mut self, line: &[u8]) -> Answer {
        let requested = self.playing.now().is_some_and(|now| now.state.request != Request::Free);
        let (command, before) = (command(line), self.dirty());
        let answer = self.playing.answer(Some(line));
        let made = matches!(command, Some(Command::Step(Call::Load { .. }))) && answer.accepted();
        let forwarded = made && self.playing.now().is_some_and(|now| last_forwarded(now.state));
        let after = self.dirty();
        self.told.push(Told { command, answer, requested, forwarded, before, after });
        answer
    }
}

/// The name under which an answer is counted.
pub fn name(answer: Answer) -> &'static str {
    match answer {
        Answer::Ready => "accepted G",
        Answer::Stored(_) => "stored",
        Answer::Value { .. } => "value",
        Answer::Waits(_) => "waits",
        Answer::WaitsRequested(_) => "waits-requested",
        Answer::Committed(_) => "committed",
        Answer::Kept(_) => "kept",
        Answer::Requested(_) => "request",
        Answer::Filled(_) => "filled",
        Answer::Drained(_) => "drained",
        Answer::Idle => "idle",
        Answer::Flushed(_) => "flush",
        Answer::Refused(no) => refused(no),
        Answer::Shown(_) => "shown",
        Answer::Checkpointed(_) => "mark set",
        Answer::Previewed(_) => "preview",
    }
}

/// Counts what a line met.
fn count_line(counts: &mut Counts, line: &[u8], told: Told) {
    counts.calls += 1;
    counts.met(name(told.answer), true);
    let called = matches!(told.command, Some(Command::Step(_)));
    counts.met("accepted call", called && told.answer.accepted());
    counts.met("malformed line", told.command.is_none());
    counts.met("line of more than 64 bytes", line.len() > 64);
    counts.met_dirty(told.answer, told.before, told.after);
    let inquiry = matches!(told.command, Some(Command::Step(Call::Retry { .. })));
    counts.met("inquiry answered", inquiry && matches!(told.answer, Answer::Value { .. }));
    let for_line = matches!(told.answer, Answer::WaitsRequested(_));
    let beside = matches!(told.answer, Answer::Waits(_)) && told.requested;
    counts.met("waits, another line requested", beside);
    counts.met("inquiry waits, another line requested", inquiry && beside);
    counts.met("inquiry waits, its line requested", inquiry && for_line);
}

/// Counts what a script met.
pub fn count_script(counts: &mut Counts, script: &[u8]) {
    let (mut teller, mut fed) = (Teller::default(), Fed::default());
    for line in script.split_inclusive(|byte| *byte == b'\n') {
        match line.strip_suffix(b"\n") {
            Some(line) => {
                let before = teller.state();
                teller.line(line);
                count_fed(counts, &mut fed, before, &teller);
                teller.told.drain(..).for_each(|told| count_line(counts, line, told));
            }
            None => counts.met("last line without LF", true),
        }
    }
    counts.runs += 1;
}

/// Counts what the last line met of loads fed from held stores.
fn count_fed(counts: &mut Counts, fed: &mut Fed, before: Option<State>, teller: &Teller) {
    let (Some(told), Some(after)) = (teller.told.last(), teller.playing.now()) else {
        return;
    };
    match (told.command, before) {
        (Some(Command::Step(call)), Some(before)) => {
            fed.take(counts, &before, call, told.answer, after);
        }
        _ if told.answer == Answer::Ready => *fed = Fed::default(),
        _ => {}
    }
}
