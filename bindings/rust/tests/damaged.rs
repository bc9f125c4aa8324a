//! Calls on damaged benches: states that runs led to with one field damaged or in
//! another profile, images of random bytes, and lent buffers of wrong lengths. Each
//! call is answered as the Rust model answers it, and a refused one changes nothing;
//! so it is with all calls in one list. (`dirty_marks` tries every byte of dirty marks,
//! `checkpoints` every byte of checkpoints.)
//!
//! NICOISETARN_TIMES=N in the environment makes N times as many calls.

mod beside;
mod numbered;

use beside::layout;
use beside::{
    each_call, figures_agree, in_force, judge, odd_number, stands, state_of, tags, times,
    with_byte, with_word, Bench, Beside,
};
use compare::check::{self, CLAUSES};
use compare::counts::{refused, Counts};
use compare::met;
use compare::random::Rng;
use compare::types::{Answer, Call, Part, WritePolicy};
use nicoisetarn::{Figures, Image, Refusal, Tag, CHECKPOINTS, LINE, LOADS, RECORDS, STORES, WORD};
use numbered::{NO_CALLS, NO_PROFILES};

/// Where a damage is done: fields of the image by the place of the first, how
/// many there are, how far apart and of how many bytes; dirty marks; or what is lent,
/// a line with a dirty word among it.
#[derive(Clone, Copy, Debug)]
enum Field {
    Image(usize, usize, usize, usize),
    DirtyMarks,
    CacheByte,
    MemoryByte,
    DirtyLine,
    CacheLength,
    MemoryLength,
}

impl Field {
    /// A number of the image that stands alone.
    const fn word(at: usize) -> Field {
        Field::Image(at, 1, 0, 4)
    }

    /// A number of each store, so far into its place.
    const fn of_stores(at: usize) -> Field {
        Field::Image(layout::STORES_AT + at, STORES, layout::ENTRY, 4)
    }

    /// A number of each load.
    const fn of_loads(at: usize) -> Field {
        Field::Image(layout::LOADS_AT + at, LOADS, layout::ENTRY, 4)
    }

    /// A flag of each load, of two bytes.
    const fn flag_of_loads(at: usize) -> Field {
        Field::Image(layout::LOADS_AT + at, LOADS, layout::ENTRY, 2)
    }

    /// A number of each checkpoint.
    const fn of_checkpoints(at: usize) -> Field {
        Field::Image(layout::CHECKPOINTS_AT + at, CHECKPOINTS, layout::CHECKPOINT, 4)
    }

    /// A number of each tag record, of so many bytes.
    const fn of_tags(at: usize, width: usize) -> Field {
        Field::Image(layout::TAGS_AT + at, RECORDS, layout::TAG, width)
    }
}

/// Every field, with its name.
const FIELDS: [(&str, Field); 30] = [
    ("sets", Field::word(layout::SETS)),
    ("ways", Field::word(layout::WAYS)),
    ("profile", Field::word(layout::PROFILE)),
    ("memory length", Field::word(layout::MEMORY_LENGTH)),
    ("last", Field::word(layout::LAST)),
    ("committed", Field::word(layout::COMMITTED)),
    ("register: free or not", Field::word(layout::REQUESTED)),
    ("register: line", Field::word(layout::REQUESTED_LINE)),
    ("store: number", Field::of_stores(0)),
    ("store: address", Field::of_stores(layout::ADDRESS)),
    ("store: width", Field::of_stores(layout::WIDTH)),
    ("store: value", Field::of_stores(layout::VALUE)),
    ("load: number", Field::of_loads(0)),
    ("load: address", Field::of_loads(layout::ADDRESS)),
    ("load: width", Field::of_loads(layout::WIDTH)),
    ("load: waiting", Field::flag_of_loads(layout::WAITING)),
    ("load: forwarded", Field::flag_of_loads(layout::FORWARDED)),
    ("checkpoint: name", Field::of_checkpoints(0)),
    ("checkpoint: number", Field::of_checkpoints(layout::NUMBER)),
    ("checkpoint: rank", Field::of_checkpoints(layout::RANK)),
    ("tag: valid", Field::of_tags(0, 1)),
    ("tag: dirty marks", Field::DirtyMarks),
    ("tag: line", Field::of_tags(layout::LINE, 2)),
    ("tag: age", Field::of_tags(layout::AGE, 1)),
    ("tag: unused byte", Field::of_tags(layout::UNUSED, 1)),
    ("a byte of the cache", Field::CacheByte),
    ("a byte of the memory", Field::MemoryByte),
    ("a byte of a dirty line", Field::DirtyLine),
    ("length of the cache lent", Field::CacheLength),
    ("length of the memory lent", Field::MemoryLength),
];

/// What one field's damage led to.
#[derive(Clone, Copy, Debug, Default)]
struct Tally {
    by_1: u64,
    by_10: u64,
    accepted: u64,
    stands_for_none: u64,
}

/// Puts another value where so many bytes of the image stand, often one that is
/// close to it or that the next place has.
fn damage_number(bytes: &mut [u8], at: usize, width: usize, stride: usize, rng: &mut Rng) {
    let read = |bytes: &[u8], at: usize| {
        let mut word = [0; 4];
        word[..width].copy_from_slice(&bytes[at..at + width]);
        u32::from_le_bytes(word)
    };
    let old = read(bytes, at);
    let neighbour = if at + stride + width <= bytes.len() { read(bytes, at + stride) } else { 0 };
    let (odd, any, bit) = (odd_number(rng), rng.word() as u32, 1u32 << rng.below(32));
    let (less, more) = (old.wrapping_sub(1), old.wrapping_add(1));
    let new = rng.pick(&[less, more, less, more, neighbour, 0, 1, old ^ bit, old & 15, odd, any]);
    bytes[at..at + width].copy_from_slice(&new.to_le_bytes()[..width]);
    if read(bytes, at) == old {
        bytes[at] ^= 1;
    }
}

/// How many places are in use, of those among which a field stands.
fn places_in_use(image: &Image, at: usize) -> usize {
    let stores = || image.stores().iter().filter(|store| store.number != 0).count();
    let loads = || image.loads().iter().filter(|load| load.number != 0).count();
    match at {
        layout::STORES_AT..layout::LOADS_AT => stores(),
        layout::LOADS_AT..layout::CHECKPOINTS_AT => loads(),
        layout::CHECKPOINTS_AT..layout::TAGS_AT => in_force(image).count(),
        layout::TAGS_AT.. => (image.figures().sets * image.figures().ways) as usize,
        _ => 0,
    }
}

/// One of so many places of a field, mostly one in use or the next one.
fn place(image: &Image, at: usize, places: usize, rng: &mut Rng) -> usize {
    let most = (places_in_use(image, at) + 1).min(places);
    let within = if rng.one_in(4) { places } else { most };
    rng.below(within as u64) as usize
}

/// Puts other dirty marks into a record, often a valid one: four of them, a fifth beside
/// those that are there, or any.
fn damage_marks(image: &Image, rng: &mut Rng) -> Image {
    let valid: Vec<usize> = tags(image).filter(|(_, tag)| tag.valid).map(|it| it.0).collect();
    let record = match valid.is_empty() || rng.one_in(2) {
        true => place(image, layout::TAGS_AT, RECORDS, rng),
        false => rng.pick(&valid),
    };
    let old = image.tag(record).map_or(0, |tag| tag.dirty);
    let (four, any, mark) = (rng.below(16) as u8, rng.word() as u8, 1 << rng.below(8));
    let new = rng.pick(&[four, four, four, old ^ mark, 16, 16 | old, 16 | old, 16 | four, any]);
    with_byte(image, layout::marks_at(record), if new == old { old ^ 1 } else { new })
}

/// Changes one byte, if there is one.
fn damage_byte(bytes: &mut [u8], rng: &mut Rng) {
    if !bytes.is_empty() {
        let at = rng.below(bytes.len() as u64) as usize;
        bytes[at] ^= 1 << rng.below(8);
    }
}

/// Changes one byte of a line with a dirty word, in the cache or in memory; one of the
/// cache where there is no such line.
fn damage_dirty_line(bench: &mut Bench, rng: &mut Rng) {
    let Bench { image, cache, memory } = bench;
    let lines: Vec<(usize, Tag)> = tags(image).filter(|(_, tag)| tag.dirty != 0).collect();
    if lines.is_empty() {
        return damage_byte(cache, rng);
    }
    let (record, tag) = rng.pick(&lines);
    match rng.one_in(2) {
        true => damage_byte(&mut cache[LINE * record..][..LINE], rng),
        false => damage_byte(&mut memory[LINE * tag.line as usize..][..LINE], rng),
    }
}

/// Makes lent bytes too short, too long or empty; the new ones are zero.
fn damage_length(bytes: &mut Vec<u8>, rng: &mut Rng) {
    let old = bytes.len();
    let (less, any) = (old.saturating_sub(16), rng.below(70_000) as usize);
    let lengths = [0, old.saturating_sub(1), old + 1, less, old + 16, 2 * old, 16, 65536, any];
    let new = rng.pick(&lengths);
    bytes.resize(if new == old { old + 1 } else { new }, 0);
}

/// Damages one field.
fn damage(bench: &mut Bench, field: Field, rng: &mut Rng) {
    match field {
        Field::Image(first, places, stride, width) => {
            let at = first + stride * place(&bench.image, first, places, rng);
            let mut bytes = bench.image.to_bytes();
            damage_number(&mut bytes, at, width, stride, rng);
            bench.image = Image::from_bytes(bytes);
        }
        Field::DirtyMarks => bench.image = damage_marks(&bench.image, rng),
        Field::CacheByte => damage_byte(&mut bench.cache, rng),
        Field::MemoryByte => damage_byte(&mut bench.memory, rng),
        Field::DirtyLine => damage_dirty_line(bench, rng),
        Field::CacheLength => damage_length(&mut bench.cache, rng),
        Field::MemoryLength => damage_length(&mut bench.memory, rng),
    }
}

/// A number that no call has, whatever the image is.
fn play_no_call(bench: &mut Bench, rng: &mut Rng) -> numbered::Numbers {
    let call = rng.pick(&NO_CALLS);
    let operands = [rng.word() as u32, rng.word() as u32, 1];
    let Bench { image, cache, memory } = bench;
    numbered::step(image, cache, memory, call, operands)
}

/// A start in a profile that there is not, whatever the image and the lengths are, with
/// figures that may be allowed.
fn play_no_profile(bench: &mut Bench, rng: &mut Rng) -> numbered::Numbers {
    let (figures, odd) = (bench.image.figures(), odd_number(rng));
    let sets = rng.pick(&[figures.sets, figures.sets, 1, odd]);
    let ways = rng.pick(&[figures.ways, figures.ways, 1, odd]);
    let Bench { image, cache, memory } = bench;
    numbered::start(image, cache, memory, [sets, ways, rng.pick(&NO_PROFILES)])
}

/// Plays what there is not, and gives the answer.
type PlayNone = fn(&mut Bench, &mut Rng) -> numbered::Numbers;

/// What there is not, by its name.
const NONE: [(&str, PlayNone); 2] =
    [("no such call", play_no_call), ("no such profile", play_no_profile)];

/// Plays what there is not: the library says so, and all stays as it was.
fn play_none(bench: &Bench, rng: &mut Rng, counts: &mut Counts) -> Result<(), String> {
    let mut played = bench.clone();
    for (what, play) in NONE {
        let answer = play(&mut played, rng);
        counts.calls += 1;
        counts.met(what, true);
        if answer != numbered::NO_SUCH_CALL || played != *bench {
            return Err(format!("{what}: {answer:?}, or it has changed something"));
        }
    }
    Ok(())
}

/// Plays every call on a bench, each from the beginning; a refused one, a show line and a
/// preview have left all as it was. Gives what an idle call answered, which has no operands.
fn play_each(bench: &Bench, rng: &mut Rng, counts: &mut Counts) -> Result<Answer, String> {
    let mut beside = Beside::new(bench);
    let mut idle = Answer::Idle;
    let calls = each_call(&bench.image, rng);
    for call in calls {
        let answer = beside.play(call)?;
        count(counts, call, answer);
        if call == Call::Idle {
            idle = answer;
        }
        if answer.accepted() && !matches!(call, Call::ShowLine { .. } | Call::Preview) {
            beside.reset(bench);
        } else if beside.library != *bench {
            return Err(format!("{call:?}: {answer:?}, but it has changed something"));
        }
    }
    play_none(bench, rng, counts)?;
    counts.met("image that stands for no state", !stands(&bench.image));
    play_list(bench, &calls, idle)?;
    counts.met("list refused", !idle.accepted());
    counts.met("list accepted", idle.accepted());
    Ok(idle)
}

/// Plays calls in one list, between two that are none. Where an idle call is refused,
/// by 1 or 10, so is each of them, and nothing changes; else all is as call by call.
fn play_list(bench: &Bench, calls: &[Call], idle: Answer) -> Result<(), String> {
    let mut beside = Beside::new(bench);
    let (mut list, mut expected) =
        (vec![[numbered::CALLS, 0, 1, 0, 0, 0]], vec![numbered::UNKNOWN]);
    for &call in calls {
        let Some(numbers) = numbered::call_of(call) else {
            continue;
        };
        list.push(numbers);
        expected.push(numbered::answer_of(match (idle, call) {
            (Answer::Refused(_), Call::ShowLine { .. }) => Answer::Shown(Part::default()),
            (Answer::Refused(_), _) => idle,
            _ => beside.play(call)?,
        }));
    }
    list.push([5, 0, 0, 0, 1, 0]);
    expected.push(numbered::UNKNOWN);
    let Bench { mut image, mut cache, mut memory } = bench.clone();
    let seen = numbered::run_list(&mut image, &mut cache, &mut memory, &list);
    if seen != expected {
        return Err(format!("{list:?}: expected {expected:?}, seen {seen:?}"));
    }
    if (Bench { image, cache, memory }) != beside.library {
        return Err(format!("{list:?}: image, cache or memory differs"));
    }
    play_calls(bench, calls)
}

/// The same by the crate's own types: a list answers and leaves what single calls do.
fn play_calls(bench: &Bench, calls: &[Call]) -> Result<(), String> {
    let calls: Vec<_> = calls.iter().filter_map(|&call| beside::call_of(call)).collect();
    let (mut listed, mut single) = (bench.clone(), bench.clone());
    let seen = listed.image.run(&mut listed.cache, &mut listed.memory, &calls);
    let one_by_one = |call: &_| single.image.call(&mut single.cache, &mut single.memory, *call);
    let expected: Vec<_> = calls.iter().map(one_by_one).collect();
    if seen != expected || listed != single {
        return Err(format!("{calls:?}: expected {expected:?}, seen {seen:?}"));
    }
    Ok(())
}

/// Counts a call and its answer.
fn count(counts: &mut Counts, call: Call, answer: Answer) {
    counts.calls += 1;
    let shown = matches!(answer, Answer::Shown(part) if part.length != 0);
    counts.met("line shown", shown);
    counts.met("accepted start", answer == Answer::Ready);
    let plain = !matches!(call, Call::Start { .. } | Call::ShowLine { .. });
    counts.met("other call accepted", plain && answer.accepted());
    if answer.waits().is_some() || matches!(answer, Answer::Previewed(_)) {
        counts.met(met::name(answer), true);
    }
    counts.met("preview refused by 17", call == Call::Preview && answer == Answer::Refused(17));
    if let Answer::Refused(no) = answer {
        counts.met(refused(no), true);
    }
}

/// Why write-through refuses an image that write-back would take, where it has one
/// reason alone.
fn refused_through(bench: &Bench) -> Option<&'static str> {
    let Bench { image, cache, memory } = bench;
    let state = state_of(image)?;
    let mut back = state.clone();
    back.figures = state.figures.with_policy(WritePolicy::WriteBack);
    if check::refusal(&back, cache, memory).is_some() {
        return None;
    }
    let clean = check::none_dirty(&state, cache, memory);
    match (clean, check::request_wanted(&state, cache, memory)) {
        (false, true) => Some("dirty line in write-through"),
        (true, false) => Some("request for a store in write-through"),
        _ => None,
    }
}

/// The clause of well-formedness that an image breaks, where it breaks one alone.
fn broken_alone(bench: &Bench) -> Option<&'static str> {
    let Bench { image, cache, memory } = bench;
    let state = state_of(image).filter(|_| figures_agree(bench))?;
    let mut broken = CLAUSES.iter().filter(|(_, clause)| !clause(&state, cache, memory));
    match (broken.next(), broken.next()) {
        (Some((name, _)), None) => Some(name),
        _ => None,
    }
}

/// Why an image is refused for its dirty words, a forwarded load that waits or its checkpoints,
/// where it has one reason alone.
fn refused_alone(bench: &Bench) -> Option<&'static str> {
    match broken_alone(bench)? {
        "four dirty marks" => Some("fifth mark"),
        "clean words equal memory" if clean_word_differs(bench) => {
            Some("clean word of a dirty line differs")
        }
        "waiting loads not forwarded" => Some("waiting load forwarded"),
        clause => Some(clause).filter(|clause| clause.contains("checkpoint")),
    }
}

/// A line with a dirty word has a clean one that is not memory's. All lines lie in memory.
fn clean_word_differs(bench: &Bench) -> bool {
    let Bench { image, cache, memory } = bench;
    tags(image).filter(|(_, tag)| tag.dirty != 0).any(|(record, tag)| {
        let first = LINE * tag.line as usize;
        let mut clean = (0..LINE).filter(|at| !tag.is_dirty(at / WORD));
        clean.any(|at| cache[LINE * record + at] != memory[first + at])
    })
}

/// Counts an image with one of these reasons, which an idle call has refused.
fn count_reasons(counts: &mut Counts, bench: &Bench, idle: Answer) {
    for why in [refused_through(bench), refused_alone(bench)].into_iter().flatten() {
        assert_eq!(idle, Answer::Refused(10), "{why}");
        counts.met(why, true);
    }
}

/// Adds what a damage led to, as an idle call told it.
fn tally(tally: &mut Tally, bench: &Bench, idle: Answer) {
    match idle {
        Answer::Refused(1) => tally.by_1 += 1,
        Answer::Refused(_) => tally.by_10 += 1,
        _ => tally.accepted += 1,
    }
    tally.stands_for_none += u64::from(!stands(&bench.image));
}

/// Prints the table of the fields, and fails where damage was refused too seldom.
fn judge_fields(tallies: &[Tally]) {
    println!("{:<28}{:>10}{:>10}{:>10}{:>10}", "damaged", "by 1", "by 10", "accepted", "no state");
    let mut lacking = Vec::new();
    for ((name, field), tally) in FIELDS.iter().zip(tallies) {
        let Tally { by_1, by_10, accepted, stands_for_none } = tally;
        println!("{name:<28}{by_1:>10}{by_10:>10}{accepted:>10}{stands_for_none:>10}");
        let whole = by_1 + by_10 + accepted;
        // A byte of a memory of which little is present is damaged unnoticed.
        let often = if matches!(field, Field::MemoryByte) { 50 } else { 10 };
        if (by_1 + by_10) * often < whole || whole == 0 {
            lacking.push(*name);
        }
    }
    assert!(lacking.is_empty(), "damage refused too seldom: {lacking:?}");
    let made_none: u64 = tallies.iter().map(|tally| tally.stands_for_none).sum();
    assert!(made_none > 1000, "only {made_none} images stand for no state");
}

/// What damaged fields must meet, out of so many calls.
const NEEDED_OF_FIELDS: [(&str, u64); 42] = [
    ("other call accepted", 40),
    ("preview", 1_000),
    ("preview refused by 17", 500),
    ("waits", 1_000),
    ("waits-requested", 8_000),
    ("accepted start", 100),
    ("line shown", 500),
    ("image that stands for no state", 150),
    ("refused 1", 20),
    ("refused 2", 2_000),
    ("refused 3", 2_000),
    ("refused 4", 5_000),
    ("refused 5", 5_000),
    ("no such call", 20),
    ("no such profile", 20),
    ("dirty line in write-through", 2_000),
    ("request for a store in write-through", 100_000),
    ("fifth mark", 10_000),
    ("clean word of a dirty line differs", 10_000),
    ("byte of a dirty word changed", 10_000),
    ("waiting load forwarded", 5_000),
    ("free checkpoints zero", 1_000),
    ("checkpoint names 1 to 8", 20_000),
    ("checkpoint names distinct", 50_000),
    ("checkpoints above committed", 10_000),
    ("checkpoints up to last + 1", 30_000),
    ("checkpoints never fall", 150_000),
    ("checkpoint ranks in order", 5_000),
    ("list refused", 30),
    ("list accepted", 200),
    ("refused 10", 10),
    ("refused 11", 10_000),
    ("refused 12", 10_000),
    ("refused 13", 10_000),
    ("refused 14", 500),
    ("refused 15", 2_000),
    ("refused 16", 1_000),
    ("refused 17", 200),
    ("refused 18", 500),
    ("refused 19", 500),
    ("refused 20", 4_000),
    ("refused 21", 500),
];

#[test]
fn one_field_damaged() {
    let mut counts = Counts::default();
    let mut tallies = [Tally::default(); FIELDS.len()];
    for seed in 0..3_200 * times() {
        let mut rng = Rng::new(seed ^ 0xDA3A_6ED0);
        let found = Bench::on_the_way(seed, &mut rng);
        for ((name, field), into) in FIELDS.iter().zip(&mut tallies) {
            let mut bench = found.clone();
            damage(&mut bench, *field, &mut rng);
            match play_each(&bench, &mut rng, &mut counts) {
                Ok(idle) => {
                    tally(into, &bench, idle);
                    let dirty_line = matches!(field, Field::DirtyLine);
                    counts.met("byte of a dirty word changed", dirty_line && idle.accepted());
                    count_reasons(&mut counts, &bench, idle);
                }
                Err(what) => panic!("seed {seed}, {name}: {what}"),
            }
        }
    }
    judge_fields(&tallies);
    judge("one field damaged", &counts, &NEEDED_OF_FIELDS);
    assert!(counts.calls >= 1_000_000, "only {} calls", counts.calls);
}

/// Counts what an idle call said of a state that a run led to, in another profile.
fn count_profile(counts: &mut Counts, found: &Bench, bench: &Bench, idle: Answer) {
    use nicoisetarn::WritePolicy::{WriteBack, WriteThrough};
    count_reasons(counts, bench, idle);
    match (found.image.policy(), bench.image.policy()) {
        (_, None) => assert_eq!(idle, Answer::Refused(10)),
        (Some(WriteBack), Some(WriteThrough)) => {
            counts.met("state of write-back in write-through", idle.accepted());
        }
        (Some(WriteThrough), Some(WriteBack)) => {
            counts.met("state of write-through in write-back", true);
            assert!(idle.accepted());
        }
        _ => assert!(idle.accepted()),
    }
}

/// Plays a state that a run led to in each profile and in one that there is not.
fn play_profiles(found: &Bench, rng: &mut Rng, counts: &mut Counts) -> Result<(), String> {
    for profile in [0, 1, rng.pick(&NO_PROFILES)] {
        let image = with_word(&found.image, layout::PROFILE, profile);
        let bench = Bench { image, ..found.clone() };
        let idle = play_each(&bench, rng, counts);
        let idle = idle.map_err(|what| format!("profile {profile}: {what}"))?;
        count_profile(counts, found, &bench, idle);
    }
    Ok(())
}

/// A number of no profile stands for no state. Write-back takes any state that a run
/// led to, write-through its own and those with no line dirty or requested for a store.
#[test]
fn profile_damaged() {
    let mut counts = Counts::default();
    for seed in 0..150 * times() {
        let mut rng = Rng::new(seed ^ 0x9F0F_11E0);
        for found in Bench::along_the_way(seed) {
            if let Err(what) = play_profiles(&found, &mut rng, &mut counts) {
                panic!("seed {seed}, {what}");
            }
        }
    }
    let needed = [
        ("image that stands for no state", 50),
        ("state of write-back in write-through", 400),
        ("state of write-through in write-back", 100),
        ("dirty line in write-through", 200),
        ("request for a store in write-through", 20_000),
    ];
    judge("profile damaged", &counts, &needed);
}

/// Bytes at random.
fn random_bytes(length: usize, rng: &mut Rng) -> Vec<u8> {
    let words = std::iter::repeat_with(|| rng.word().to_le_bytes());
    words.take(length / 8 + 1).flatten().take(length).collect()
}

/// Makes the profile and every flag 0 or 1, the dirty marks four, the register that of a
/// state and the unused bytes 0.
fn mend_flags(bytes: &mut [u8]) {
    let [profile, names] = [layout::PROFILE, layout::REQUESTED].map(|at| u32::from(bytes[at] & 1));
    let mut put = |at: usize, word: u32| bytes[at..at + 4].copy_from_slice(&word.to_ne_bytes());
    put(layout::PROFILE, profile);
    put(layout::REQUESTED, names);
    put(layout::REQUESTED_LINE, names * 2);
    for load in bytes[layout::LOADS_AT..layout::CHECKPOINTS_AT].chunks_exact_mut(layout::ENTRY) {
        for flag in [layout::WAITING, layout::FORWARDED] {
            let set = u16::from(load[flag] & 1);
            load[flag..flag + 2].copy_from_slice(&set.to_ne_bytes());
        }
    }
    for tag in bytes[layout::TAGS_AT..].chunks_exact_mut(layout::TAG) {
        let (valid, dirty) = (tag[0] & 1, tag[layout::DIRTY] & 15);
        (tag[0], tag[layout::DIRTY], tag[layout::UNUSED]) = (valid, dirty, 0);
    }
}

/// An image of random bytes: also with figures that are allowed and agree, and
/// then also with flags that are 0 or 1.
fn random_bench(rng: &mut Rng) -> Bench {
    let (sets, ways) = (rng.pick(&[1, 2, 4, 16, 64]), 1 + rng.below(4) as u32);
    let lines = 1 + rng.below(40) as u32;
    let mut bytes = [0; Image::SIZE];
    bytes.copy_from_slice(&random_bytes(Image::SIZE, rng));
    let kind = rng.below(8);
    if kind != 0 {
        let figures =
            [(layout::SETS, sets), (layout::WAYS, ways), (layout::MEMORY_LENGTH, lines * 16)];
        for (at, figure) in figures {
            bytes[at..at + 4].copy_from_slice(&figure.to_ne_bytes());
        }
    }
    if kind >= 4 {
        mend_flags(&mut bytes);
    }
    let mut cache = random_bytes((sets * ways * 16) as usize, rng);
    let mut memory = random_bytes(lines as usize * 16, rng);
    match kind {
        1 | 4 => damage_length(&mut cache, rng),
        2 | 5 => damage_length(&mut memory, rng),
        _ => {}
    }
    Bench { image: Image::from_bytes(bytes), cache, memory }
}

#[test]
fn random_images() {
    let mut counts = Counts::default();
    for seed in 0..20_000 * times() {
        let mut rng = Rng::new(seed ^ 0x0B17_E500);
        let bench = random_bench(&mut rng);
        let formed = stands(&bench.image);
        match play_each(&bench, &mut rng, &mut counts) {
            Ok(Answer::Refused(no)) => {
                assert_eq!(no == 10, figures_agree(&bench), "seed {seed}");
                counts.met("no state, refused 1", !formed && no == 1);
                counts.met("no state, refused 10", !formed && no == 10);
                counts.met("state, refused 1", formed && no == 1);
                counts.met("state, refused 10", formed && no == 10);
            }
            Ok(answer) => panic!("seed {seed}: an image of random bytes: {answer:?}"),
            Err(what) => panic!("seed {seed}: {what}"),
        }
    }
    let needed = [
        ("image that stands for no state", 40),
        ("no state, refused 1", 60),
        ("no state, refused 10", 150),
        ("state, refused 1", 120),
        ("state, refused 10", 80),
        ("accepted start", 200),
        ("no such call", 20),
        ("no such profile", 20),
    ];
    judge("random images", &counts, &needed);
}

#[test]
fn wrong_lengths() {
    let mut counts = Counts::default();
    for seed in 0..8_000 * times() {
        let mut rng = Rng::new(seed ^ 0x1E6_7450);
        let mut bench = Bench::on_the_way(seed, &mut rng);
        let which = 1 + rng.below(3);
        if which & 1 != 0 {
            damage_length(&mut bench.cache, &mut rng);
        }
        if which & 2 != 0 {
            damage_length(&mut bench.memory, &mut rng);
        }
        counts.met("empty cache lent", bench.cache.is_empty());
        counts.met("empty memory lent", bench.memory.is_empty());
        match play_each(&bench, &mut rng, &mut counts) {
            Ok(idle) => assert_eq!(idle, Answer::Refused(1), "seed {seed}"),
            Err(what) => panic!("seed {seed}: {what}"),
        }
    }
    let needed = [
        ("refused 1", 2),
        ("empty cache lent", 300),
        ("empty memory lent", 300),
        ("accepted start", 500),
        ("no such profile", 20),
    ];
    judge("wrong lengths", &counts, &needed);
}

/// A length that agrees only in its lowest 32 bits is refused. The bytes behind it
/// are never touched, so they cost no memory; none are lent where there is no room.
#[test]
fn lengths_beyond_32_bits() {
    let beyond = (1usize << 32) + 32;
    if Vec::<u8>::new().try_reserve_exact(beyond).is_err() {
        println!("no room for a length beyond 32 bits");
        return;
    }
    let (mut cache, mut memory) = (vec![0; 32], vec![0; 32]);
    let figures = Figures::new(2, 1);
    let mut image = Image::start(figures, &mut cache, &memory).unwrap();
    let before = image.clone();
    let load = nicoisetarn::Call::Load(0, 1);
    let mut long = vec![0; beyond];
    assert_eq!(image.call(&mut long, &mut memory, load), Err(Refusal::Figures));
    assert_eq!(image.call(&mut cache, &mut long, load), Err(Refusal::Figures));
    assert_eq!(image.run(&mut long, &mut memory, &[load]), [Err(Refusal::Figures)]);
    assert_eq!(image.run(&mut cache, &mut long, &[load]), [Err(Refusal::Figures)]);
    assert_eq!(Image::start(figures, &mut long, &memory), Err(Refusal::Figures));
    assert_eq!(Image::start(figures, &mut cache, &long), Err(Refusal::Figures));
    assert!(image.show_line(&long, &memory, 0).bytes.is_empty());
    assert_eq!(image, before);
}
