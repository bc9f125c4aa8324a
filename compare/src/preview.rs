//! Previews of a reply, over a whole run: each of them beside the reply itself, made on a
//! copy of state, cache and memory, and beside the run's own reply where that comes next;
//! and what runs met of them.

use crate::check;
use crate::counts::Counts;
use crate::model::{word_bytes, Machine, Right};
use crate::types::{
    Answer, Call, Figures, Preview, Request, Snapshot, State, Step, Tag, LINE, WAYS, WORD, WORDS,
};

/// What a run has previewed so far.
#[derive(Default)]
pub struct Previews {
    /// What the call before told, if it was an accepted preview.
    last: Option<Preview>,
}

/// The record that a line is in.
fn record_of(state: &State, line: u32) -> Option<usize> {
    let used = (state.figures.sets * state.figures.ways) as usize;
    state.tags[..used].iter().position(|tag| tag.valid && tag.line == line)
}

/// The record that a reply put the requested line in.
fn filled(before: Snapshot, after: Snapshot) -> Result<usize, String> {
    let record = match before.state.request {
        Request::Line(line) => record_of(after.state, line),
        Request::Free => None,
    };
    record.ok_or_else(|| "no requested line is present after the reply".to_string())
}

/// The line that a reply evicted, if any: present before it and absent after it.
fn evicted(before: &State, after: &State) -> Result<Option<u32>, String> {
    let present = before.tags.iter().filter(|tag| tag.valid).map(|tag| tag.line);
    let lost: Vec<u32> = present.filter(|line| record_of(after, *line).is_none()).collect();
    match lost[..] {
        [] => Ok(None),
        [line] => Ok(Some(line)),
        _ => Err(format!("a reply evicted the lines {lost:?}")),
    }
}

/// What a reply did, read off what stands before it and after it. The words are the dirty
/// marks that stood where the line is put: memory shows no word that had its bytes already.
fn shown(before: Snapshot, after: Snapshot) -> Result<Preview, String> {
    let (record, ways) = (filled(before, after)?, after.state.figures.ways as usize);
    let evicted = evicted(before.state, after.state)?;
    let (set, way) = (record / ways * ways, record % ways);
    let mut ages = [0; WAYS];
    for (age, tag) in ages.iter_mut().zip(&after.state.tags[set..set + ways]) {
        *age = tag.age;
    }
    let words = evicted.map_or(0, |_| before.state.tags[record].dirty);
    Ok(Preview { way: way as u32, evicted, words, ages })
}

/// After a reply memory has what the cache had in the words that a preview told, and nothing
/// else in it changed.
fn written(before: Snapshot, preview: Preview, after: Snapshot) -> Result<(), String> {
    let first = filled(before, after)? * LINE;
    for (at, (old, new)) in before.memory.iter().zip(after.memory).enumerate() {
        let of_line = preview.evicted == Some((at / LINE) as u32);
        let told = of_line && preview.words >> (at % LINE / WORD) & 1 == 1;
        let expected = if told { before.cache[first + at % LINE] } else { *old };
        if *new != expected {
            return Err(format!("memory at {at} after the reply: {new}, told {preview:?}"));
        }
    }
    Ok(())
}

/// A reply did what a preview told, in all four parts.
fn as_told(before: Snapshot, preview: Preview, after: Snapshot) -> Result<(), String> {
    let shown = shown(before, after)?;
    if shown != preview {
        return Err(format!("preview: expected {shown:?}, seen {preview:?}"));
    }
    written(before, preview, after)
}

/// The reply on a copy is refused as the preview is, or does what that tells.
fn beside_reply(step: Step, before: Snapshot, answer: Answer) -> Result<(), String> {
    let mut state = before.state.clone();
    let (mut cache, mut memory) = (before.cache.to_vec(), before.memory.to_vec());
    let reply = step(&mut state, &mut cache, &mut memory, Call::Reply);
    let after = Snapshot { state: &state, cache: &cache, memory: &memory };
    match (answer, reply) {
        (Answer::Previewed(preview), Answer::Filled(_)) => as_told(before, preview, after),
        (Answer::Refused(no), Answer::Refused(other)) if no == other => Ok(()),
        _ => Err(format!("a reply answers {reply:?}, its preview {answer:?}")),
    }
}

impl Previews {
    /// Takes in a call and its answer; an error tells what is not as it should be.
    pub fn observe(
        &mut self,
        step: Step,
        before: Snapshot,
        call: Call,
        answer: Answer,
        after: Snapshot,
    ) -> Result<(), String> {
        let last = self.last.take();
        match (call, answer, last) {
            (Call::Preview, _, _) if before != after => {
                Err("a preview changed the state, the cache or the memory".to_string())
            }
            (Call::Preview, _, _) => {
                self.last = told(answer);
                beside_reply(step, before, answer)
            }
            (Call::Reply, Answer::Filled(_), Some(preview)) => as_told(before, preview, after),
            _ => Ok(()),
        }
    }
}

/// What an accepted preview tells.
fn told(answer: Answer) -> Option<Preview> {
    match answer {
        Answer::Previewed(preview) => Some(preview),
        _ => None,
    }
}

/// The names under which previews of evictions are counted, by the ways of a set.
const AT_WAYS: [&str; WAYS] = [
    "preview of an eviction, one way",
    "preview of an eviction, two ways",
    "preview of an eviction, three ways",
    "preview of an eviction, four ways",
];

/// Has a record a dirty word whose bytes memory has already?
fn has_unchanged(before: Snapshot, record: usize) -> bool {
    let tag = before.state.tags[record];
    (0..WORDS).filter(|word| check::is_dirty(tag, *word)).any(|word| {
        let cached = before.cache.get(word_bytes(record, word));
        cached == before.memory.get(word_bytes(tag.line as usize, word))
    })
}

/// Counts what an accepted preview met, by the record that the reply would take.
pub fn count(counts: &mut Counts, before: Snapshot) {
    let (state, Figures { sets, ways, .. }) = (before.state, before.state.figures);
    let Request::Line(line) = state.request else {
        return;
    };
    let record = Right::victim(state, line);
    let Tag { valid: evicts, dirty, age, .. } = state.tags[record];
    let (words, older) = (dirty.count_ones(), age + 1 < ways);
    counts.met("preview", true);
    counts.met("preview of a fill that evicts nothing", !evicts);
    counts.met("preview of an invalid way, another one older", !evicts && older);
    counts.met("preview of an eviction behind the first set", evicts && line % sets != 0);
    counts.met(AT_WAYS[ways as usize - 1], evicts);
    counts.met("preview of a clean line", evicts && words == 0);
    counts.met("preview of one dirty word", words == 1);
    counts.met("preview of several dirty words", words > 1);
    counts.met("preview of a dirty word that memory has", has_unchanged(before, record));
}
