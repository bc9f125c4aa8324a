//! Previews of a reply through the boundary: what they tell, by calls, by numbers and in
//! lists; that the reply then does it, in every kind of set and along random runs; that they
//! leave no trace; and damaged images, which refuse them as they refuse a reply. Each call
//! is answered as the Rust model answers it.
//!
//! NICOISETARN_TIMES=N in the environment makes N times as many runs.

mod beside;
mod numbered;
mod told;

use beside::refused::answers;
use beside::{in_each_profile, judge, layout, played, previews_between, tags, times, with_byte};
use beside::{Bench, POLICIES};
use compare::counts::{refused, Counts};
use compare::random::{self, Rng};
use compare::types::{Answer, Call, Preview, Setup, WritePolicy};
use nicoisetarn::{Image, Tag, LINE, MAX_WAYS, WORD};
use numbered::Numbers;
use told::{tells, Told};
use Answer::{Committed, Drained, Filled, Flushed, Kept, Refused, Requested, Stored};
use Answer::{Value, Waits, WaitsRequested};

/// The ages of a set, of as many ways as there may be.
type Ages = [u32; MAX_WAYS as usize];

const fn load(address: u32, width: u32) -> Call {
    Call::Load { address, width }
}

const fn store(address: u32, width: u32, value: u32) -> Call {
    Call::Store { address, width, value }
}

const fn commit(number: u32) -> Call {
    Call::Commit { number }
}

const fn retry(number: u32) -> Call {
    Call::Retry { number }
}

/// A preview, and what it tells of an invalid way.
const fn invalid(way: u32, ages: Ages) -> Told {
    (Call::Preview, Answer::Previewed(Preview { way, evicted: None, words: 0, ages }))
}

/// A preview, and what it tells of a line that is evicted.
const fn evicts(way: u32, line: u32, words: u8, ages: Ages) -> Told {
    (Call::Preview, Answer::Previewed(Preview { way, evicted: Some(line), words, ages }))
}

/// A preview while nothing is requested.
const FREE: Told = (Call::Preview, Refused(17));

// ---- what previews tell

/// One set of two ways over four lines.
const SETUP: Setup = Setup::new(1, 2, 64);

/// Calls in `SETUP`, of loads alone: a preview is refused before the request and behind the
/// reply, and a commit while the line is on its way changes what it tells.
const OF_LOADS: [Told; 25] = [
    FREE,
    (load(16, 1), Waits(1)),
    FREE,
    (commit(1), Committed(1)),
    FREE,
    (Call::Idle, Requested(16)),
    invalid(0, [0, 1, 0, 0]),
    invalid(0, [0, 1, 0, 0]),
    (retry(1), WaitsRequested(1)),
    (Call::Reply, Filled(16)),
    FREE,
    (retry(1), Value { number: 1, value: 17 }),
    (load(0, 1), Waits(2)),
    (commit(2), Committed(2)),
    (Call::Idle, Requested(0)),
    invalid(1, [1, 0, 0, 0]),
    (Call::Reply, Filled(0)),
    (load(32, 1), Waits(3)),
    (load(20, 1), Value { number: 4, value: 21 }),
    (commit(3), Committed(3)),
    (Call::Idle, Requested(32)),
    evicts(0, 1, 0, [0, 1, 0, 0]),
    // Load 4 uses line 1, and line 0 is the older one.
    (commit(4), Committed(4)),
    evicts(1, 0, 0, [1, 0, 0, 0]),
    (Call::Reply, Filled(32)),
];

/// Calls in `SETUP` in write-back: a flush leaves no word to be written, and a store that is
/// dropped marks none.
const OF_STORES: [Told; 19] = [
    (store(5, 1, 200), Stored(1)),
    (store(12, 4, 0xCAFE), Stored(2)),
    (commit(2), Committed(2)),
    (Call::Idle, Requested(0)),
    invalid(0, [0, 1, 0, 0]),
    (Call::Reply, Filled(0)),
    (Call::Idle, Drained(1)),
    (Call::Idle, Drained(2)),
    (load(16, 1), Waits(3)),
    (load(48, 1), Waits(4)),
    (store(0, 1, 9), Stored(5)),
    (commit(4), Committed(4)),
    (Call::Idle, Requested(16)),
    (Call::Reply, Filled(16)),
    (Call::Idle, Requested(48)),
    evicts(0, 0, 0b1010, [0, 1, 0, 0]),
    (Call::Abort { number: 5 }, Kept(4)),
    (Call::Flush, Flushed(2)),
    evicts(0, 0, 0, [0, 1, 0, 0]),
];

#[test]
fn previews_of_loads() {
    for setup in in_each_profile(&[SETUP]) {
        tells(setup, &OF_LOADS);
    }
}

#[test]
fn previews_of_stores() {
    tells(SETUP, &OF_STORES);
}

/// The last line of the largest memory is evicted.
#[test]
fn the_largest_line() {
    let told = [
        (load(65535, 1), Waits(1)),
        (load(1008, 1), Waits(2)),
        (commit(2), Committed(2)),
        (Call::Idle, Requested(65520)),
        (Call::Reply, Filled(65520)),
        (Call::Idle, Requested(1008)),
        evicts(0, 4095, 0, [0; 4]),
    ];
    for setup in in_each_profile(&[Setup::new(64, 1, 65536)]) {
        tells(setup, &told);
    }
}

// ---- the reply does what was previewed

/// The lines that are present.
fn present(image: &Image) -> Vec<u32> {
    tags(image).filter(|(_, tag)| tag.valid).map(|(_, tag)| tag.line).collect()
}

/// The requested line stands in the way previewed, clean and used, the line evicted is gone
/// and no other, and the ages of the set are those previewed.
fn placed(before: &Image, preview: Preview, after: &Image) {
    let (figures, line) = (before.figures(), before.requested().unwrap());
    let set = (line % figures.sets * figures.ways) as usize;
    let filled = Tag { valid: true, dirty: 0, line, age: 0 };
    assert_eq!(after.tag(set + preview.way as usize), Some(filled), "{preview:?}");
    let (was, is) = (present(before), present(after));
    let gone: Vec<u32> = was.into_iter().filter(|line| !is.contains(line)).collect();
    assert_eq!(gone, Vec::from_iter(preview.evicted), "{preview:?}");
    let mut ages = Ages::default();
    for (way, age) in ages.iter_mut().enumerate().take(figures.ways as usize) {
        *age = after.tag(set + way).unwrap().age;
    }
    assert_eq!(ages, preview.ages);
}

/// Memory has the words previewed, which were the dirty ones, as they were in the cache, and
/// no other byte of it has changed.
fn written(before: &Bench, preview: Preview, after: &Bench) {
    let line = preview.evicted.map(|line| line as usize);
    let mut held = tags(&before.image).filter(|(_, tag)| tag.valid);
    let record = held.find(|(_, tag)| preview.evicted == Some(tag.line));
    assert_eq!(preview.words, record.map_or(0, |(_, tag)| tag.dirty), "{preview:?}");
    let mut expected = before.memory.clone();
    for word in (0..LINE / WORD).filter(|word| preview.words >> word & 1 == 1) {
        let of = |line: usize| LINE * line + WORD * word..LINE * line + WORD * (word + 1);
        let cached = &before.cache[of(record.unwrap().0)];
        expected[of(line.unwrap())].copy_from_slice(cached);
    }
    assert!(after.memory == expected, "{preview:?}: memory differs");
}

/// The preview of a bench with a request, alone, in a list and by its number, and then its
/// reply, which does what was previewed.
fn shown(bench: &Bench) -> Preview {
    let (seen, after) = played(bench, &[Call::Preview, Call::Preview, Call::Reply, Call::Preview]);
    let Answer::Previewed(preview) = seen[0] else {
        panic!("{:?}", seen[0]);
    };
    let filled = Filled(bench.image.requested().unwrap() * LINE as u32);
    assert_eq!(seen[1..], [seen[0], filled, Refused(17)]);
    let Bench { mut image, mut cache, mut memory } = bench.clone();
    let [call, ..] = numbered::call_of(Call::Preview).unwrap();
    let numbers = numbered::step(&mut image, &mut cache, &mut memory, call, [0; 3]);
    assert_eq!(numbers, Numbers(numbered::answer_of(seen[0])));
    assert!(Bench { image, cache, memory } == *bench, "{preview:?}: something has changed");
    placed(&bench.image, preview, &after.image);
    written(bench, preview, &after);
    preview
}

/// Two sets of so many ways, and line 1 requested for a load.
fn requested(ways: u32, policy: WritePolicy) -> Bench {
    let Setup { figures, memory } = Setup::new(2, ways, 2 * (ways + 1) * LINE as u32);
    let setup = Setup { figures: figures.with_policy(policy), memory };
    tells(setup, &[(load(16, 1), Waits(1)), (commit(1), Committed(1)), (Call::Idle, Requested(16))])
}

/// A way that is put into a set: its age, and its dirty marks where it is valid.
type Way = (u8, Option<u8>);

/// The line that is put into a way of set 1.
fn line_of(way: usize) -> u32 {
    2 * way as u32 + 3
}

/// The bytes of a line in the cache: those of its dirty words all differ from memory.
fn cached(line: &[u8], marks: u8) -> Vec<u8> {
    let dirty = |at: usize| marks >> (at / WORD) & 1 == 1;
    line.iter().enumerate().map(|(at, byte)| if dirty(at) { !byte } else { *byte }).collect()
}

/// The bench with these ways in set 1.
fn with_set(bench: &Bench, ways: &[Way]) -> Bench {
    let Bench { image, mut cache, memory } = bench.clone();
    let mut bytes = image.to_bytes();
    for (way, (age, marks)) in ways.iter().enumerate() {
        let (record, line) = (ways.len() + way, line_of(way));
        let mut tag = [0, 0, 0, 0, *age, 0];
        if let Some(marks) = *marks {
            tag[..3].copy_from_slice(&[1, marks, line as u8]);
            let first = LINE * line as usize;
            let line = cached(&memory[first..first + LINE], marks);
            cache[LINE * record..][..LINE].copy_from_slice(&line);
        }
        bytes[layout::TAGS_AT + layout::TAG * record..][..layout::TAG].copy_from_slice(&tag);
    }
    Bench { image: Image::from_bytes(bytes), cache, memory }
}

/// Every order of the ages 0 to ways − 1.
fn orders(ways: u8) -> Vec<Vec<u8>> {
    let mut orders = vec![Vec::new()];
    for age in 0..ways {
        let put = |order: &Vec<u8>| -> Vec<Vec<u8>> {
            let at = |place| [&order[..place], &[age], &order[place..]].concat();
            (0..=order.len()).map(at).collect()
        };
        orders = orders.iter().flat_map(put).collect();
    }
    orders
}

/// The way that a reply takes: the lowest invalid one, else the one of greatest age.
fn victim(ways: &[Way]) -> usize {
    let invalid = ways.iter().position(|(_, marks)| marks.is_none());
    let oldest = ways.iter().position(|(age, _)| usize::from(*age) == ways.len() - 1);
    invalid.or(oldest).unwrap()
}

/// The ages of a set after one of its ways is used.
fn ages_after(ways: &[Way], used: usize) -> Ages {
    let mut ages = Ages::default();
    for (into, (age, _)) in ages.iter_mut().zip(ways) {
        *into = u32::from(*age) + u32::from(*age < ways[used].0);
    }
    ages[used] = 0;
    ages
}

/// A set of these ages: way w is valid where bit w is set, and way 0 has the first marks, the
/// others three more each, below so many.
fn set_of(order: &[u8], valid: u8, first: u8, marks: u8) -> Vec<Way> {
    let marks = |way: u8| (first + 3 * way) % marks;
    let put = |(age, way): (&u8, u8)| (*age, (valid >> way & 1 == 1).then(|| marks(way)));
    order.iter().zip(0..).map(put).collect()
}

/// Every set of so many ways: each order of ages, each choice of valid ways, and dirty marks
/// below so many.
fn sets(ways: u8, marks: u8) -> impl Iterator<Item = Vec<Way>> {
    let valid_first =
        (0..1u8 << ways).flat_map(move |valid| (0..marks).map(move |first| (valid, first)));
    orders(ways).into_iter().flat_map(move |order| {
        valid_first.clone().map(move |(valid, first)| set_of(&order, valid, first, marks))
    })
}

/// A set is put into a bench, and a preview tells what the victim rule says of it.
fn by_the_victim_rule(found: &Bench, set: &[Way]) {
    let way = victim(set);
    let (_, marks) = set[way];
    let expected = Preview {
        way: way as u32,
        evicted: marks.map(|_| line_of(way)),
        words: marks.unwrap_or(0),
        ages: ages_after(set, way),
    };
    assert_eq!(shown(&with_set(found, set)), expected, "{set:?}");
}

#[test]
fn every_set() {
    for (ways, policy) in (1..=MAX_WAYS).flat_map(|ways| POLICIES.map(|policy| (ways, policy))) {
        let found = requested(ways, policy);
        let marks = if policy == WritePolicy::WriteBack { 16 } else { 1 };
        sets(ways as u8, marks).for_each(|set| by_the_victim_rule(&found, &set));
    }
}

/// Along random runs: wherever a line is requested the reply does what is previewed.
#[test]
fn along_random_runs() {
    let mut counts = Counts::default();
    for seed in 0..120 * times() {
        for bench in Bench::along_the_way(seed ^ 0x93E1_0000) {
            counts.calls += 1;
            if bench.image.requested().is_some() {
                let preview = shown(&bench);
                counts.met("preview of an invalid way", preview.evicted.is_none());
                counts.met("preview of an eviction", preview.evicted.is_some());
                counts.met("preview of dirty words", preview.words != 0);
            }
        }
    }
    let needed = [
        ("preview of an invalid way", 50),
        ("preview of an eviction", 10),
        ("preview of dirty words", 100),
    ];
    judge("previews along random runs", &counts, &needed);
}

// ---- no trace

/// A bench with both lines of a set present, one dirty in write-back, and a third requested.
fn crowded(setup: Setup) -> Bench {
    let calls = [
        load(16, 1),
        commit(1),
        Call::Idle,
        Call::Reply,
        retry(1),
        store(20, 1, 200),
        commit(2),
        Call::Idle,
        load(0, 1),
        commit(3),
        Call::Idle,
        Call::Reply,
        retry(3),
        load(32, 1),
        commit(4),
        Call::Idle,
    ];
    let (answers, bench) = played(&Bench::start(setup), &calls);
    assert_eq!(answers[15], Requested(32));
    bench
}

/// A preview inside a dropped stretch remains, with its answer, where the stretch is struck.
#[test]
fn inside_a_dropped_stretch() {
    for setup in in_each_profile(&[SETUP]) {
        let found = crowded(setup);
        let abort = Call::Abort { number: 5 };
        let stretch = [load(0, 1), store(20, 1, 9), Call::Preview, load(4, 4), abort];
        let (answers, left) = played(&found, &stretch);
        assert!(answers.iter().all(Answer::accepted), "{answers:?}");
        let (struck, same) = played(&found, &[Call::Preview]);
        assert_eq!(struck, answers[2..3]);
        assert!(left == same, "{setup:?}: the stretch left a trace");
    }
}

/// Without its previews a run has the same answers to all other calls, and leaves the same.
#[test]
fn previews_leave_no_trace() {
    let mut counts = Counts::default();
    for seed in 0..400 * times() {
        let mut rng = Rng::new(seed ^ 0x93E2_0000);
        let run = previews_between(random::run(seed ^ 0x93E2_4000), &mut rng);
        let begun = Bench::begin(&run);
        let (answers, left) = played(&begun, &run.calls);
        counts.calls += run.calls.len() as u64;
        for answer in &answers {
            counts.met("preview", matches!(answer, Answer::Previewed(_)));
        }
        let kept = run.calls.into_iter().zip(answers).filter(|(call, _)| *call != Call::Preview);
        let (calls, answers): (Vec<Call>, Vec<Answer>) = kept.unzip();
        assert!(played(&begun, &calls) == (answers, left), "seed {seed}: previews left a trace");
    }
    judge("runs without their previews", &counts, &[("preview", 50)]);
}

// ---- damaged images

/// The refusal of an answer, if it is one.
fn refusal(answer: Answer) -> Option<u32> {
    match answer {
        Refused(number) => Some(number),
        _ => None,
    }
}

/// A preview and a reply, each alone: both are refused by the same number, which is given, or
/// both are accepted. A refused preview has changed nothing, nor has an accepted one, in a
/// list neither.
fn refused_alike(bench: &Bench, what: &str) -> Option<u32> {
    let [preview, reply] = answers(bench, &[Call::Preview, Call::Reply])[..] else {
        panic!("{what}: two answers");
    };
    assert_eq!(refusal(preview), refusal(reply), "{what}");
    assert_eq!(matches!(preview, Answer::Previewed(_)), reply.accepted(), "{what}");
    let mut listed = bench.clone();
    assert_eq!(listed.run(&[Call::Preview, Call::Preview]), [preview; 2], "{what}");
    listed.call(Call::Preview);
    assert!(listed == *bench, "{what}: something has changed");
    refusal(reply)
}

/// Each byte of the image changed: a preview is refused where a reply is.
fn change_bytes(found: &Bench, counts: &mut Counts) {
    let bytes = found.image.to_bytes();
    for (at, flip) in (0..Image::SIZE).flat_map(|at| [1, 4, 0xFF].map(|flip| (at, flip))) {
        let image = with_byte(&found.image, at, bytes[at] ^ flip);
        let bench = Bench { image, ..found.clone() };
        let number = refused_alike(&bench, &format!("byte {at}, {flip:#x}"));
        counts.calls += 1;
        counts.met(number.map_or("accepted", refused), true);
    }
}

/// With a line requested and without: the refusals are 1, 10 and 17.
#[test]
fn bytes_of_images() {
    let mut counts = Counts::default();
    for setup in in_each_profile(&[SETUP]) {
        let requested = crowded(setup);
        let (_, free) = played(&requested, &[Call::Reply]);
        assert_eq!(refused_alike(&requested, "as found"), None);
        assert_eq!(refused_alike(&free, "nothing requested"), Some(17));
        change_bytes(&requested, &mut counts);
        change_bytes(&free, &mut counts);
    }
    let needed =
        [("accepted", 1_000), ("refused 1", 200), ("refused 10", 2), ("refused 17", 1_000)];
    judge("bytes of images", &counts, &needed);
}

/// Lengths that disagree are refused by 1.
fn change_lengths(found: &Bench) {
    for (cached, stored) in [(0, 64), (16, 64), (33, 64), (32, 0), (32, 48), (32, 65)] {
        let mut lent = found.clone();
        lent.cache.resize(cached, 0);
        lent.memory.resize(stored, 0);
        assert_eq!(refused_alike(&lent, "other lengths"), Some(1), "{cached}, {stored}");
    }
}

/// Also with a free register and with a damaged image.
#[test]
fn lent_lengths() {
    for setup in in_each_profile(&[SETUP]) {
        let found = crowded(setup);
        let (_, free) = played(&found, &[Call::Reply]);
        let image = with_byte(&found.image, layout::REQUESTED, 2);
        let damaged = Bench { image, ..found.clone() };
        assert_eq!(refused_alike(&damaged, "damaged"), Some(10));
        [found, free, damaged].iter().for_each(change_lengths);
    }
}
