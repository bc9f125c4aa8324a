//! Whole random runs from a start, on the library beside the Rust model: after
//! every call image, cache and memory are the model's. What they met is counted apart
//! for each write profile.
//!
//! NICOISETARN_TIMES=N in the environment makes N times as many calls.

mod beside;

use beside::{in_each_profile, in_force, judge, previews_between, tags, times, with_marks};
use beside::{Bench, Beside};
use compare::counts::{Counts, Needed};
use compare::met;
use compare::random::{self, Mix, Rng, Run};
use compare::traffic::Dirty;
use compare::types::{Answer, Call, Setup};
use nicoisetarn::{Image, ListedLoad, CHECKPOINTS, LINE, WORD};

/// What runs met, for each of `PROFILES`.
type ByProfile = [Counts; 2];

/// Plays a run and counts what it met.
fn play(run: &Run, counts: &mut ByProfile) -> Result<(), String> {
    let counts = &mut counts[run.figures.policy as usize];
    let mut beside = Beside::new(&Bench::begin(run));
    for (place, &call) in run.calls.iter().enumerate() {
        let before = beside.library.image.clone();
        let answer = beside.play(call).map_err(|what| format!("call {place}, {what}"))?;
        counts.calls += 1;
        counts.met(met::name(answer), true);
        counts.met("accepted call", answer.accepted());
        let retried = matches!((call, answer), (Call::Retry { .. }, Answer::Value { .. }));
        counts.met("inquiry answered", retried);
        count_waits(counts, call, answer, &before);
        counts.met("line shown", matches!(answer, Answer::Shown(part) if part.length != 0));
        count_writes(counts, answer, &before, &beside.library.image);
        count_marks(counts, call, answer, [&before, &beside.library.image]);
        count_forwarded(counts, call, &before, &beside.library.image);
        count_previews(counts, call, answer, place > 0 && run.calls[place - 1] == Call::Preview);
    }
    Ok(())
}

/// Counts what a load or an inquiry that waits met, by the image before it.
fn count_waits(counts: &mut Counts, call: Call, answer: Answer, before: &Image) {
    let [for_line, beside] = match call {
        Call::Retry { .. } => {
            ["inquiry waits, its line requested", "inquiry waits, another line requested"]
        }
        _ => ["load waits, its line requested", "load waits, another line requested"],
    };
    match answer {
        Answer::Waits(_) => counts.met(beside, before.requested().is_some()),
        Answer::WaitsRequested(_) => {
            counts.met(for_line, true);
            let committed = |load: &ListedLoad| load.waiting && load.number <= before.committed();
            let lines = before.loads().into_iter().filter(committed);
            let mut lines = lines.map(|load| load.address / LINE as u32);
            let for_load = lines.any(|line| before.requested() == Some(line));
            counts.met("wait for a line requested for a store", !for_load);
        }
        _ => {}
    }
}

/// Counts where a call wrote, by the images before and after it.
fn count_writes(counts: &mut Counts, answer: Answer, before: &Image, after: &Image) {
    let (was, is) = (dirty_of(before), dirty_of(after));
    counts.met_dirty(answer, was, is);
    match answer {
        Answer::Drained(_) => {
            let line = before.stores()[0].address / LINE as u32;
            let present = tags(before).any(|(_, tag)| tag.valid && tag.line == line);
            counts.met("drain to an absent line", !present);
            counts.met("drain to a present line", present);
            counts.met("drain to a requested line", before.requested() == Some(line));
        }
        // "flush answers the count of words"
        Answer::Flushed(words) => assert_eq!((u64::from(words), is), (was.words, Dirty::default())),
        _ => {}
    }
}

/// Counts what a call did with the checkpoints of an image, by those before and after it.
fn count_marks(counts: &mut Counts, call: Call, answer: Answer, images: [&Image; 2]) {
    let [were, are] = images.map(|image| in_force(image).count());
    counts.met("all checkpoints in use", are == CHECKPOINTS);
    match call {
        Call::Restore { .. } if answer.accepted() => {
            counts.met("return to a mark", true);
            counts.met("return that forgets several marks", were > are + 1);
            counts.met("return that keeps a mark", are > 0);
        }
        Call::Abort { .. } => counts.met("abort that forgets a mark", were > are),
        Call::Commit { .. } => {
            counts.met("commit that forgets a mark", were > are);
            counts.met("commit that forgets a mark and keeps one", were > are && are > 0);
        }
        _ => {}
    }
}

/// An older held store of the image has a byte of the load.
fn has_held_byte(load: &ListedLoad, image: &Image) -> bool {
    let mut older = image.stores().iter().filter(|s| s.number != 0 && s.number < load.number);
    older.any(|s| s.address < load.address + load.width && load.address < s.address + s.width)
}

/// Counts forwarded loads that a call lists, and those that a commit takes off the list: with
/// their line present, and with no byte of theirs in a held store any more.
fn count_forwarded(counts: &mut Counts, call: Call, before: &Image, after: &Image) {
    let forwarded = |image: &Image| image.loads().into_iter().filter(|load| load.forwarded);
    match call {
        Call::Load { .. } if before.last() < after.last() => {
            let listed = forwarded(after).any(|load| load.number == after.last());
            counts.met("load forwarded", listed);
        }
        Call::Commit { .. } => {
            let left = || forwarded(before).filter(|load| load.number <= after.committed());
            let line = |load: ListedLoad| load.address / LINE as u32;
            let present = |line| tags(before).any(|(_, tag)| tag.valid && tag.line == line);
            let mut lines = left().map(line);
            counts.met("forwarded load committed, its line present", lines.any(present));
            let drained = left().any(|load| !has_held_byte(&load, before));
            counts.met("forwarded load committed, its stores drained", drained);
        }
        _ => {}
    }
}

/// Counts what a preview told, and a reply that comes behind its preview.
fn count_previews(counts: &mut Counts, call: Call, answer: Answer, behind_preview: bool) {
    let refused = call == Call::Preview && answer == Answer::Refused(17);
    counts.met("preview refused by 17", refused);
    match answer {
        Answer::Previewed(preview) => {
            counts.met("preview of an invalid way", preview.evicted.is_none());
            counts.met("preview of an eviction", preview.evicted.is_some());
            counts.met("preview of one dirty word", preview.words.count_ones() == 1);
            counts.met("preview of several dirty words", preview.words.count_ones() > 1);
        }
        Answer::Filled(_) => counts.met("reply behind its preview", behind_preview),
        _ => {}
    }
}

/// What is dirty in an image, as its accessors tell it.
fn dirty_of(image: &Image) -> Dirty {
    let words: Vec<u32> = tags(image).map(|(_, tag)| tag.dirty_words()).collect();
    let count = |counted: fn(&&u32) -> bool| words.iter().filter(counted).count() as u64;
    Dirty {
        lines: count(|words| **words > 0),
        words: words.iter().sum::<u32>().into(),
        whole: count(|words| **words as usize == LINE / WORD),
    }
}

/// What both kinds of runs must meet in each write profile, out of so many calls.
const NEEDED: [(&str, u64); 31] = [
    ("accepted call", 2),
    ("stored", 20),
    ("value", 20),
    ("waits", 100),
    ("waits-requested", 200),
    ("load waits, its line requested", 600),
    ("load waits, another line requested", 600),
    ("inquiry waits, its line requested", 400),
    ("inquiry waits, another line requested", 1_500),
    ("inquiry answered", 200),
    ("kept", 200),
    ("committed", 40),
    ("request", 40),
    ("filled", 40),
    ("drained", 40),
    ("drain to a present line", 200),
    ("idle", 50),
    ("flush", 500),
    ("mark set", 100),
    ("return to a mark", 100),
    ("return that keeps a mark", 1_000),
    ("commit that forgets a mark", 1_000),
    ("abort that forgets a mark", 2_000),
    ("preview", 100),
    ("preview of an invalid way", 1_000),
    ("preview of an eviction", 200),
    ("preview refused by 17", 100),
    ("reply behind its preview", 200),
    ("load forwarded", 100),
    ("forwarded load committed, its line present", 500),
    ("forwarded load committed, its stores drained", 2_000),
];

/// The write profiles by their numbers: what the runs of each must meet besides, and
/// what they must not.
const PROFILES: [(&str, &Needed, &[&str]); 2] = [
    (
        "write-back",
        &[
            ("wait for a line requested for a store", 1_000),
            ("eviction of a dirty line", 200),
            ("eviction of one dirty word", 500),
            ("eviction of two or three dirty words", 2_000),
            ("preview of one dirty word", 1_000),
            ("preview of several dirty words", 2_000),
            ("drain to a dirty word", 200),
            ("drain to a clean word of a dirty line", 200),
            ("drain that leaves a line dirty whole", 3_000),
            ("flush of several lines", 2_000),
            ("flush of more words than lines", 2_000),
        ],
        &["drain to an absent line"],
    ),
    (
        "write-through",
        &[("drain to an absent line", 200), ("drain to a requested line", 100_000)],
        &[
            "wait for a line requested for a store",
            "eviction of a dirty line",
            "flush of a dirty line",
            "drain to a dirty word",
            "preview of one dirty word",
            "preview of several dirty words",
        ],
    ),
];

/// Prints what the runs of each write profile met, and fails where it is too little
/// or what must not be.
fn judge_each(what: &str, counts: &ByProfile, needed: &Needed) {
    for ((profile, besides, never), counts) in PROFILES.iter().zip(counts) {
        judge(&format!("{what}, {profile}"), counts, &[needed, besides].concat());
        // "no call of a run after a start gives 1 or 10"
        for name in never.iter().chain(&["refused 1", "refused 10"]) {
            assert_eq!(counts.of(name), 0, "{what}, {profile}: {name}");
        }
    }
}

/// What short runs must meet besides.
const NEEDED_OF_SHORT: [(&str, u64); 19] = [
    ("line shown", 400),
    ("refused 2", 5_000),
    ("refused 3", 5_000),
    ("refused 4", 5_000),
    ("refused 5", 5_000),
    ("refused 11", 2_000),
    ("refused 12", 2_000),
    ("refused 13", 500),
    ("refused 14", 500),
    ("refused 15", 5_000),
    ("refused 16", 2_000),
    ("refused 17", 500),
    ("refused 18", 500),
    ("refused 19", 500),
    ("refused 20", 500),
    ("refused 21", 500),
    ("return that forgets several marks", 1_000),
    ("commit that forgets a mark and keeps one", 2_000),
    ("all checkpoints in use", 20_000),
];

#[test]
fn short_runs() {
    let mut counts = ByProfile::default();
    for seed in 0..1_500 * times() {
        let run = random::run(seed ^ 0x5407_0000);
        if let Err(what) = play(&run, &mut counts) {
            panic!("seed {seed}, {what}");
        }
    }
    let needed = [&NEEDED[..], &NEEDED_OF_SHORT[..]].concat();
    judge_each("short runs", &counts, &needed);
}

/// What the long runs begin with.
const SETUPS: [Setup; 5] = [
    Setup::new(1, 1, 32),
    Setup::new(2, 2, 256),
    Setup::new(4, 3, 512),
    Setup::new(16, 4, 2048),
    Setup::new(64, 4, 65536),
];

#[test]
fn long_runs() {
    let mut counts = ByProfile::default();
    for turn in 0..times() {
        let mut rng = Rng::new(turn ^ 0x1046_0000);
        for setup in in_each_profile(&SETUPS) {
            let run = random::script_run(&mut rng, setup, 20_000, Mix::Accepted);
            let run = previews_between(with_marks(run, &mut rng), &mut rng);
            if let Err(what) = play(&run, &mut counts) {
                panic!("turn {turn}, {setup:?}, {what}");
            }
        }
    }
    judge_each("long runs", &counts, &NEEDED);
}
