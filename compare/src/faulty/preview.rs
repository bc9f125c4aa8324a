//! The machines that are wrong about previews: what one tells, when it is refused, and that
//! it changes nothing.

use super::{VictimHighestInvalid, VictimLeastAge, VictimPassesInvalid};
use crate::model::{set_of, word_bytes, Machine, Right};
use crate::types::{Answer, Call, Preview, Request, State, Tag, ALL_DIRTY, LINE, WAYS, WORDS};

// What is told.

/// A machine that tells another preview, by the state, the requested line and the right one.
macro_rules! tells {
    ($($name:ident |$state:ident, $line:ident, $right:ident| $told:expr),* $(,)?) => {
        $(
            pub struct $name;

            impl Machine for $name {
                fn preview_of($state: &State, $line: u32) -> Preview {
                    let $right = Right::preview_of($state, $line);
                    $told
                }
            }
        )*
    };
}

/// The ages of a line's set as they stand, each changed, by way.
fn ages_by(state: &State, line: u32, change: impl Fn(u32) -> u32) -> [u32; WAYS] {
    let mut ages = [0; WAYS];
    for (age, tag) in ages.iter_mut().zip(&state.tags[set_of(state, line)]) {
        *age = change(tag.age);
    }
    ages
}

/// Such ages with 0 for one way.
fn with_zero(mut ages: [u32; WAYS], way: u32) -> [u32; WAYS] {
    ages[way as usize] = 0;
    ages
}

/// The ages of a set of so many ways, from its last way to its first.
fn reversed(mut ages: [u32; WAYS], ways: u32) -> [u32; WAYS] {
    ages[..ways as usize].reverse();
    ages
}

/// The ways of a set of so many in order of age, by its ages.
fn ways_by_age(ages: [u32; WAYS], ways: u32) -> [u32; WAYS] {
    let mut order = [0; WAYS];
    for way in 0..ways {
        order[ages[way as usize] as usize] = way;
    }
    order
}

tells! {
    PreviewAgesBefore |state, line, right| {
        Preview { ages: ages_by(state, line, |age| age), ..right }
    },
    PreviewAgesVictim |state, line, right| {
        Preview { ages: with_zero(ages_by(state, line, |age| age), right.way), ..right }
    },
    PreviewAgesAll |state, line, right| {
        Preview { ages: with_zero(ages_by(state, line, |age| age + 1), right.way), ..right }
    },
    PreviewAgesReversed |state, _l, right| {
        Preview { ages: reversed(right.ages, state.figures.ways), ..right }
    },
    PreviewOrder |state, _l, right| {
        Preview { ages: ways_by_age(right.ages, state.figures.ways), ..right }
    },
    PreviewAgesOfFirst |state, line, right| {
        let first = line.is_multiple_of(state.figures.sets);
        Preview { ages: if first { right.ages } else { ages_by(state, 0, |age| age) }, ..right }
    },
    PreviewAllWords |_s, _l, right| {
        Preview { words: if right.words == 0 { 0 } else { ALL_DIRTY }, ..right }
    },
    PreviewNoWords |_s, _l, right| Preview { words: 0, ..right },
    PreviewCleanWords |_s, _l, right| {
        Preview { words: right.evicted.map_or(0, |_| ALL_DIRTY ^ right.words), ..right }
    },
    PreviewCountsWords |_s, _l, right| {
        Preview { words: right.words.count_ones() as u8, ..right }
    },
    PreviewWordsReversed |_s, _l, right| {
        Preview { words: right.words.reverse_bits() >> (u8::BITS as usize - WORDS), ..right }
    },
    PreviewGivesRecord |state, line, right| {
        Preview { way: set_of(state, line).start as u32 + right.way, ..right }
    },
    PreviewFromOne |_s, _l, right| Preview { way: right.way + 1, ..right },
    PreviewLeastAge |state, line, _r| {
        Right::preview_at(state, VictimLeastAge::victim(state, line))
    },
    PreviewPassesInvalid |state, line, _r| {
        Right::preview_at(state, VictimPassesInvalid::victim(state, line))
    },
    PreviewHighestInvalid |state, line, _r| {
        Right::preview_at(state, VictimHighestInvalid::victim(state, line))
    },
    PreviewEvictsZero |_s, _l, right| {
        Preview { evicted: Some(right.evicted.unwrap_or(0)), ..right }
    },
    PreviewEvictsRequested |_s, line, right| {
        Preview { evicted: right.evicted.map(|_| line), ..right }
    },
    PreviewGivesAddress |_s, _l, right| {
        Preview { evicted: right.evicted.map(|line| line * LINE as u32), ..right }
    },
    PreviewHidesClean |_s, _l, right| {
        Preview { evicted: right.evicted.filter(|_| right.words != 0), ..right }
    },
    PreviewUsesListed |state, line, _r| {
        let mut used = state.clone();
        Right::use_leaving(&mut used, u32::MAX);
        Right::preview_of(&used, line)
    },
}

/// The words of a record whose bytes are not memory's.
fn changed_words(tag: Tag, record: usize, cache: &[u8], memory: &[u8]) -> u8 {
    let differs = |word: &usize| {
        cache.get(word_bytes(record, *word)) != memory.get(word_bytes(tag.line as usize, *word))
    };
    (0..WORDS).filter(differs).map(|word| 1 << word).sum()
}

pub struct PreviewChangedWords;

impl Machine for PreviewChangedWords {
    fn preview(state: &State, cache: &[u8], memory: &[u8]) -> Answer {
        match (Right::preview(state, cache, memory), state.request) {
            (Answer::Previewed(right), Request::Line(line)) if right.evicted.is_some() => {
                let record = Right::victim(state, line);
                let words = changed_words(state.tags[record], record, cache, memory);
                Answer::Previewed(Preview { words, ..right })
            }
            (answer, _) => answer,
        }
    }
}

// When it is refused.

/// A machine that answers otherwise, by the state and the right answer.
macro_rules! answers {
    ($($name:ident |$state:ident, $right:ident| $answer:expr),* $(,)?) => {
        $(
            pub struct $name;

            impl Machine for $name {
                fn preview($state: &State, cache: &[u8], memory: &[u8]) -> Answer {
                    let $right = Right::preview($state, cache, memory);
                    $answer
                }
            }
        )*
    };
}

answers! {
    PreviewOfFree |state, right| match right {
        Answer::Refused(17) => Answer::Previewed(Right::preview_of(state, 0)),
        _ => right,
    },
    PreviewRefuses |_s, right| match right {
        Answer::Previewed(_) => Answer::Refused(17),
        _ => right,
    },
    PreviewRefusesInvalid |_s, right| match right {
        Answer::Previewed(Preview { evicted: None, .. }) => Answer::Refused(17),
        _ => right,
    },
    PreviewFreeBeforeFormed |state, right| match right {
        Answer::Refused(10) if state.request == Request::Free => Answer::Refused(17),
        _ => right,
    },
    PreviewTakesIllFormed |state, right| match (right, state.request) {
        (Answer::Refused(10), Request::Line(line)) => {
            Answer::Previewed(Right::preview_of(state, line))
        }
        _ => right,
    },
}

// That it changes nothing.

/// A machine whose accepted previews do something besides, by the record that they are about.
macro_rules! does {
    ($($name:ident |$state:ident, $cache:ident, $memory:ident, $record:ident| $done:expr),*
        $(,)?) => {
        $(
            pub struct $name;

            impl Machine for $name {
                fn step(
                    $state: &mut State,
                    $cache: &mut [u8],
                    $memory: &mut [u8],
                    call: Call,
                ) -> Answer {
                    let answer = Right::step($state, $cache, $memory, call);
                    if let (Answer::Previewed(_), Request::Line(line)) = (answer, $state.request) {
                        let $record = Right::victim($state, line);
                        $done;
                    }
                    answer
                }
            }
        )*
    };
}

does! {
    PreviewFreesRegister |state, _c, _m, _r| state.request = Request::Free,
    PreviewUses |state, _c, _m, record| Right::use_record(state, record),
    PreviewReplies |state, cache, memory, _r| Right::reply(state, cache, memory),
    PreviewWritesBack |state, cache, memory, record| Right::evict(state, cache, memory, record),
    PreviewMarksClean |state, _c, _m, record| state.tags[record].dirty = 0,
}
