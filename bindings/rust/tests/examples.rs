//! The scope paper's worked script by calls, every refusal, starts, loads that wait,
//! write-through, dirty words, previews, show line's part, and what an image tells.
//! (`checkpoints` has those of marks, `waits` more of loads that wait, `previews` more of
//! previews.)

mod beside;
mod numbered;

use beside::layout::{self, LOADS_AT, TAGS_AT};
use nicoisetarn::WritePolicy::{WriteBack, WriteThrough};
use nicoisetarn::{
    Answer, Call, Checkpoint, Figures, HeldStore, Image, ListedLoad, Part, Preview, Refusal, Tag,
    Unit, MAX_MEMORY, MAX_SETS, MAX_WAYS, MIN_MEMORY,
};
use numbered::{NO_CALLS, NO_PROFILES};

const fn figures(sets: u32, ways: u32) -> Figures {
    Figures::new(sets, ways)
}

/// A start over memory that is found with byte a + 1 at a.
fn started_with(figures: Figures, length: usize) -> Unit {
    Unit::start(figures, (0..length).map(|a| a as u8 + 1).collect()).unwrap()
}

/// The same in write-back.
fn started(sets: u32, ways: u32, length: usize) -> Unit {
    started_with(figures(sets, ways), length)
}

/// The unit with four bytes of its image changed.
fn damaged(unit: &Unit, at: usize, word: u32) -> Unit {
    let (image, cache, memory) = unit.clone().into_parts();
    Unit::from_parts(beside::with_word(&image, at, word), cache, memory)
}

/// The unit with other lengths of what it lends.
fn resized(unit: &Unit, cache_length: usize, memory_length: usize) -> Unit {
    let (image, mut cache, mut memory) = unit.clone().into_parts();
    cache.resize(cache_length, 0);
    memory.resize(memory_length, 0);
    Unit::from_parts(image, cache, memory)
}

/// A call is refused so, and all stays as it was.
fn refuses<A>(unit: &Unit, refusal: Refusal, call: impl Fn(&mut Unit) -> Result<A, Refusal>) {
    let mut after = unit.clone();
    assert_eq!(call(&mut after).err(), Some(refusal));
    assert_eq!(after, *unit, "{refusal}");
}

#[test]
fn worked_script() -> Result<(), Refusal> {
    let mut unit = Unit::start(figures(1, 1), vec![0; 32])?;
    assert_eq!(unit.store(4, 1, 7)?, Answer::Stored(1));
    assert_eq!(unit.load(4, 1)?, Answer::Value { number: 2, value: 7 });
    assert_eq!(unit.load(5, 1)?, Answer::Waits(3));
    assert_eq!(unit.abort(3)?, Answer::Kept(2));
    assert_eq!(unit.commit(2)?, Answer::Committed(2));
    assert_eq!(unit.idle()?, Answer::Requested(0));
    assert_eq!(unit.reply()?, Answer::Filled(0));
    assert_eq!(unit.idle()?, Answer::Drained(1));
    assert_eq!(unit.flush()?, Answer::Flushed(1));
    assert_eq!(unit.load(5, 1)?, Answer::Value { number: 3, value: 0 });
    assert_eq!(unit.memory()[4], 7);
    assert_eq!(unit.idle()?, Answer::Idle);
    Ok(())
}

/// The figures in each write policy.
fn in_each_policy(figures: Figures) -> [Figures; 2] {
    [WriteBack, WriteThrough].map(|policy| figures.with_policy(policy))
}

/// A unit with h 1 and last 3: load 1 waits and its line is requested, store 2 is
/// held, load 3 is answered, and mark 1 remembers 4.
fn busy_with(figures: Figures) -> Unit {
    let mut unit = started_with(figures, 48);
    assert_eq!(unit.load(16, 2), Ok(Answer::Waits(1)));
    assert_eq!(unit.commit(1), Ok(Answer::Committed(1)));
    assert_eq!(unit.idle(), Ok(Answer::Requested(16)));
    assert_eq!(unit.store(8, 4, 0xCAFE), Ok(Answer::Stored(2)));
    assert_eq!(unit.load(8, 2), Ok(Answer::Value { number: 3, value: 0xCAFE }));
    assert_eq!(unit.checkpoint(1), Ok(Answer::Checkpointed(4)));
    unit
}

/// The same of one set and two ways in write-back.
fn busy() -> Unit {
    busy_with(figures(1, 2))
}

#[test]
fn refusals_of_the_input() {
    let unit = busy();
    refuses(&unit, Refusal::Width, |u| u.load(0, 3));
    refuses(&unit, Refusal::Alignment, |u| u.load(2, 4));
    refuses(&unit, Refusal::Address, |u| u.load(48, 4));
    refuses(&unit, Refusal::Address, |u| u.store(u32::MAX - 3, 4, 0));
    refuses(&unit, Refusal::Value, |u| u.store(0, 1, 256));
    for (cache, memory) in [(0, 48), (16, 48), (33, 48), (32, 0), (32, 32), (32, 49), (0, 0)] {
        let lent = resized(&unit, cache, memory);
        refuses(&lent, Refusal::Figures, |u| u.idle());
        refuses(&lent, Refusal::Figures, |u| u.preview());
        assert_eq!(lent.show_line(0), Part { place: 0, bytes: &[] });
    }
}

#[test]
fn refusals_of_the_state() {
    let unit = busy();
    refuses(&unit, Refusal::Retry, |u| u.retry(3));
    refuses(&unit, Refusal::Commit, |u| u.commit(0));
    refuses(&unit, Refusal::Commit, |u| u.commit(4));
    refuses(&unit, Refusal::Abort, |u| u.abort(1));
    refuses(&unit, Refusal::Abort, |u| u.abort(5));
    refuses(&started(1, 1, 16), Refusal::NoRequest, |u| u.reply());
    refuses(&started(1, 1, 16), Refusal::NoRequest, |u| u.preview());
    let mut committed = unit.clone();
    assert_eq!(committed.commit(2), Ok(Answer::Committed(2)));
    refuses(&committed, Refusal::Flush, |u| u.flush());
    let spent = damaged(&started(1, 1, 16), layout::LAST, u32::MAX);
    refuses(&spent, Refusal::Numbers, |u| u.load(0, 1));
    refuses(&spent, Refusal::Numbers, |u| u.store(0, 1, 0));
    let ill = damaged(&unit, layout::COMMITTED, 4);
    refuses(&ill, Refusal::State, |u| u.idle());
    refuses(&ill, Refusal::State, |u| u.preview());
    refuses(&damaged(&ill, layout::SETS, 3), Refusal::Figures, |u| u.idle());
}

#[test]
fn full_queues() {
    let mut unit = started(1, 1, 32);
    for number in 1..=16 {
        assert_eq!(unit.store(0, 1, 1), Ok(Answer::Stored(number)));
    }
    for number in 17..=24 {
        assert_eq!(unit.load(16, 1), Ok(Answer::Waits(number)));
    }
    refuses(&unit, Refusal::StoresFull, |u| u.store(0, 1, 1));
    refuses(&unit, Refusal::LoadsFull, |u| u.load(16, 1));
}

/// An image that stands for no state is refused and stays, byte for byte.
#[test]
fn images_that_stand_for_no_state() {
    for figures in in_each_policy(figures(1, 2)) {
        stand_for_no_state(busy_with(figures));
    }
}

fn stand_for_no_state(unit: Unit) {
    let flags = [(layout::REQUESTED, 2), (layout::REQUESTED, u32::MAX), (layout::REQUESTED, 0)];
    let of_load = [(LOADS_AT + layout::WAITING, 2)];
    // Its flag with its dirty marks and its line, and its unused byte with the next record.
    let of_tag = [(TAGS_AT, 2), (TAGS_AT + layout::UNUSED, 1)];
    let profiles = NO_PROFILES.map(|profile| (layout::PROFILE, profile));
    for (at, word) in flags.into_iter().chain(of_load).chain(of_tag).chain(profiles) {
        let ill = damaged(&unit, at, word);
        assert!(!beside::stands(ill.image()), "{at} {word}");
        refuses(&ill, Refusal::State, |u| u.idle());
        refuses(&ill, Refusal::State, |u| u.load(0, 3));
        assert_eq!(ill.show_line(16), Part { place: 0, bytes: &[] });
        refuses(&resized(&ill, 32, 49), Refusal::Figures, |u| u.idle());
    }
    let (_, cache, memory) = unit.into_parts();
    let rubbish = Unit::from_parts(Image::from_bytes([0xA5; Image::SIZE]), cache, memory);
    refuses(&rubbish, Refusal::Figures, |u| u.idle());
    let (_, cache, memory) = rubbish.into_parts();
    let never_started = Unit::from_parts(Image::from_bytes([0; Image::SIZE]), cache, memory);
    refuses(&never_started, Refusal::Figures, |u| u.idle());
    assert_eq!(never_started.show_line(0), Part { place: 0, bytes: &[] });
}

/// A unit, and the same with an image and with lengths that are refused.
fn fit_and_unfit() -> [Unit; 3] {
    let unit = busy();
    [damaged(&unit, layout::REQUESTED, 2), resized(&unit, 0, 49), unit]
}

/// A start in a profile that there is not: the library says so and changes nothing,
/// also where figures and lengths would be refused.
#[test]
fn numbers_of_no_profile() {
    for unit in fit_and_unfit() {
        for (profile, sets) in NO_PROFILES.into_iter().flat_map(|it| [(it, 1), (it, 3)]) {
            let (mut image, mut cache, memory) = unit.clone().into_parts();
            let answer = numbered::start(&mut image, &mut cache, &memory, [sets, 2, profile]);
            assert_eq!(answer, numbered::NO_SUCH_CALL);
            assert_eq!(Unit::from_parts(image, cache, memory), unit, "{profile} {sets}");
        }
    }
}

/// A number that no call has: the library says so and changes nothing, also where
/// image and lengths would be refused.
#[test]
fn numbers_of_no_call() {
    for unit in fit_and_unfit() {
        for call in NO_CALLS {
            let (mut image, mut cache, mut memory) = unit.clone().into_parts();
            let answer = numbered::step(&mut image, &mut cache, &mut memory, call, [0, 1, 0]);
            assert_eq!(answer, numbered::NO_SUCH_CALL);
            assert_eq!(Unit::from_parts(image, cache, memory), unit, "{call}");
        }
    }
}

#[test]
fn refused_starts_leave_all() {
    let mut unit = busy();
    assert_eq!(unit.reply(), Ok(Answer::Filled(16)));
    let (mut image, mut cache, memory) = unit.clone().into_parts();
    for (sets, ways) in [(0, 1), (3, 1), (128, 1), (1, 0), (1, 5), (1, 1), (2, 2), (u32::MAX, 2)] {
        for figures in in_each_policy(figures(sets, ways)) {
            assert_eq!(image.restart(figures, &mut cache, &memory), Err(Refusal::Figures));
            assert_eq!(Image::start(figures, &mut cache, &memory), Err(Refusal::Figures));
            assert_eq!((&image, &*cache), (unit.image(), unit.cache()), "{figures:?}");
        }
    }
    for length in [0, 15, 47, 65552] {
        let refused = image.restart(figures(1, 2), &mut cache, &vec![0; length]);
        assert_eq!(refused, Err(Refusal::Figures));
        assert_eq!((&image, &*cache), (unit.image(), unit.cache()), "{length}");
    }
    for figures in in_each_policy(figures(1, 2)) {
        assert_eq!(image.restart(figures, &mut cache, &memory), Ok(Answer::Ready));
        let restarted = Unit::from_parts(image.clone(), cache.clone(), memory.clone());
        assert_eq!(restarted, started_with(figures, 48));
    }
}

/// A load that waits says whether its line is requested, and either word has its number.
#[test]
fn words_of_waits() -> Result<(), Refusal> {
    for figures in in_each_policy(figures(1, 2)) {
        let mut unit = busy_with(figures);
        let asked = unit.clone();
        assert_eq!(unit.retry(1)?, Answer::WaitsRequested(1));
        assert_eq!(unit, asked);
        assert_eq!(unit.load(20, 4)?, Answer::WaitsRequested(4));
        assert_eq!(unit.load(32, 4)?, Answer::Waits(5));
        let listed = unit.run(&[Call::Retry(4), Call::Retry(5), Call::Load(8, 4)]);
        let value = Answer::Value { number: 6, value: 0xCAFE };
        assert_eq!(listed, [Ok(Answer::WaitsRequested(4)), Ok(Answer::Waits(5)), Ok(value)]);
        let numbers: Vec<_> = listed.into_iter().flatten().map(|it| it.waits()).collect();
        assert_eq!(numbers, [Some(4), Some(5), None]);
        assert_eq!((unit.reply()?, unit.retry(5)?), (Answer::Filled(16), Answer::Waits(5)));
        assert_eq!((unit.idle()?.waits(), unit.load(32, 1)?.waits()), (None, Some(7)));
    }
    Ok(())
}

/// Stores a byte, commits all and makes an idle call.
fn drain(unit: &mut Unit, address: u32, value: u32) -> Result<Answer, Refusal> {
    unit.store(address, 1, value)?;
    unit.commit(unit.image().last())?;
    unit.idle()
}

/// Makes a line present by a load.
fn fill(unit: &mut Unit, address: u32) -> Result<Answer, Refusal> {
    unit.load(address, 1)?;
    let number = unit.image().last();
    unit.commit(number)?;
    unit.idle()?;
    unit.reply()?;
    unit.retry(number)
}

/// A drain to an absent line writes memory alone and requests nothing.
#[test]
fn write_through_to_an_absent_line() -> Result<(), Refusal> {
    let mut unit = started_with(figures(1, 2).with_policy(WriteThrough), 48);
    assert_eq!(drain(&mut unit, 20, 200)?, Answer::Drained(1));
    assert_eq!((unit.memory()[20], unit.cache()), (200, &[0; 32][..]));
    assert_eq!((unit.idle()?, unit.flush()?), (Answer::Idle, Answer::Flushed(0)));
    assert_eq!(fill(&mut unit, 20)?, Answer::Value { number: 2, value: 200 });
    // In write-back the line is requested first.
    let mut unit = started(1, 2, 48);
    assert_eq!(drain(&mut unit, 20, 200)?, Answer::Requested(16));
    assert_eq!(unit.memory()[20], 21);
    Ok(())
}

/// A drain to a present line writes memory and the line, and uses it. The word becomes
/// dirty in write-back alone, where memory stays.
#[test]
fn drains_to_a_present_line() -> Result<(), Refusal> {
    for (policy, stored, dirty, words) in [(WriteBack, 5, 0b10, 1), (WriteThrough, 200, 0, 0)] {
        let mut unit = started_with(figures(1, 2).with_policy(policy), 48);
        fill(&mut unit, 0)?;
        fill(&mut unit, 16)?;
        assert_eq!(unit.image().tag(0).map(|tag| tag.age), Some(1));
        assert_eq!(drain(&mut unit, 4, 200)?, Answer::Drained(3));
        assert_eq!((unit.cache()[4], unit.memory()[4]), (200, stored), "{policy:?}");
        let used = Tag { valid: true, dirty, line: 0, age: 0 };
        assert_eq!(unit.image().tag(0), Some(used));
        assert_eq!(unit.flush()?, Answer::Flushed(words));
        assert_eq!(unit.memory()[4], 200);
    }
    Ok(())
}

/// The dirty marks of record 0.
fn marks(unit: &Unit) -> Option<u8> {
    unit.image().tag(0).map(|tag| tag.dirty)
}

/// Drains mark the words that they write, each once, and leave memory. A flush writes the
/// words marked, answers how many and leaves them clean.
#[test]
fn drains_mark_words_and_flushes_write_them() -> Result<(), Refusal> {
    let rounds = [
        (vec![5, 6], 0b10, 1),
        (vec![11, 12], 0b1100, 2),
        (vec![15, 3, 8, 4, 9, 0], 0b1111, 4),
        (vec![], 0, 0),
    ];
    let mut unit = started(1, 1, 48);
    fill(&mut unit, 0)?;
    for (value, (addresses, dirty, words)) in (200..).zip(rounds) {
        let (found, mut expected) = (unit.memory().to_vec(), unit.memory().to_vec());
        for &address in &addresses {
            let drained = drain(&mut unit, address, value)?;
            assert_eq!(drained, Answer::Drained(unit.image().last()));
            expected[address as usize] = value as u8;
        }
        assert_eq!((marks(&unit), unit.memory()), (Some(dirty), &found[..]), "{addresses:?}");
        assert_eq!(unit.flush()?, Answer::Flushed(words), "{addresses:?}");
        assert_eq!((marks(&unit), unit.memory()), (Some(0), &expected[..]), "{addresses:?}");
    }
    Ok(())
}

/// A store of each width to each place of a line marks one word, the one that it lies in.
#[test]
fn words_of_stores() -> Result<(), Refusal> {
    for width in [1, 2, 4] {
        for address in (0..16).step_by(width as usize) {
            let mut unit = started(1, 1, 32);
            fill(&mut unit, 0)?;
            unit.store(address, width, 1)?;
            unit.commit(2)?;
            assert_eq!(unit.idle()?, Answer::Drained(2));
            assert_eq!(marks(&unit), Some(1 << (address / 4)), "{address} {width}");
            assert_eq!(unit.flush()?, Answer::Flushed(1));
        }
    }
    Ok(())
}

/// Each choice of words of a line, drained to and then evicted: memory has the line, and
/// the new one is clean.
#[test]
fn evictions_write_dirty_words() -> Result<(), Refusal> {
    for dirty in 0..16 {
        let mut unit = started(1, 1, 48);
        let mut expected = unit.memory().to_vec();
        fill(&mut unit, 0)?;
        for address in (1..16).step_by(4).filter(|address| dirty >> (address / 4) & 1 == 1) {
            drain(&mut unit, address, 200)?;
            expected[address as usize] = 200;
        }
        assert_eq!(marks(&unit), Some(dirty));
        let next = unit.image().last() + 1;
        assert_eq!(fill(&mut unit, 16)?, Answer::Value { number: next, value: 17 });
        assert_eq!(unit.memory(), expected, "{dirty:#b}");
        let filled = Tag { valid: true, dirty: 0, line: 1, age: 0 };
        assert_eq!((unit.image().tag(0), unit.flush()?), (Some(filled), Answer::Flushed(0)));
        assert_eq!(unit.memory(), expected, "{dirty:#b}");
    }
    Ok(())
}

/// A preview tells all that the reply will do, and leaves all as it was.
#[test]
fn previews_of_replies() -> Result<(), Refusal> {
    let mut unit = busy();
    let invalid = Preview { way: 0, evicted: None, words: 0, ages: [0, 1, 0, 0] };
    assert_eq!((unit.preview()?, unit.clone()), (invalid, busy()));
    let mut unit = started(1, 2, 48);
    for address in [0, 16] {
        fill(&mut unit, address)?;
    }
    drain(&mut unit, 21, 200)?;
    // A load of line 0 is committed, and line 1 is the older one.
    unit.run(&[Call::Load(0, 1), Call::Load(32, 1), Call::Commit(5), Call::Idle]);
    let (asked, dirty) =
        (unit.clone(), Preview { way: 1, evicted: Some(1), words: 0b10, ages: [1, 0, 0, 0] });
    assert_eq!((unit.preview()?, &unit), (dirty, &asked));
    let listed = unit.run(&[Call::Preview, Call::Reply, Call::Preview]);
    let expected = [Ok(Answer::Previewed(dirty)), Ok(Answer::Filled(32)), Err(Refusal::NoRequest)];
    assert_eq!(listed, expected);
    let filled = Tag { valid: true, dirty: 0, line: 2, age: 0 };
    assert_eq!(unit.image().tag(1), Some(filled));
    assert_eq!((asked.memory()[21], unit.memory()[21]), (22, 200));
    Ok(())
}

/// What a tag record tells of its words, marks above the fourth left out.
#[test]
fn words_of_tags() {
    for dirty in 0..=u8::MAX {
        let tag = Tag { dirty, ..Tag::default() };
        let told = [0, 1, 2, 3, 4, 7, 8, usize::MAX].map(|word| tag.is_dirty(word));
        let [first, second, third, fourth] = [1, 2, 4, 8].map(|mark| dirty & mark != 0);
        assert_eq!(told, [first, second, third, fourth, false, false, false, false], "{dirty}");
        let words = told.into_iter().filter(|dirty| *dirty).count();
        assert_eq!(tag.dirty_words() as usize, words, "{dirty}");
    }
}

/// Write-through takes no state with a dirty line, and none with a line requested for a
/// store.
#[test]
fn states_of_write_back_alone() {
    let mut requested = started(1, 1, 32);
    assert_eq!(drain(&mut requested, 0, 9), Ok(Answer::Requested(0)));
    let mut dirty = requested.clone();
    assert_eq!(dirty.reply(), Ok(Answer::Filled(0)));
    assert_eq!(dirty.idle(), Ok(Answer::Drained(1)));
    for unit in [requested, dirty] {
        let ill = damaged(&unit, layout::PROFILE, 1);
        assert_eq!(ill.image().policy(), Some(WriteThrough));
        refuses(&ill, Refusal::State, |u| u.idle());
        assert_eq!(damaged(&ill, layout::PROFILE, 0), unit);
    }
}

/// Figures that ask for more cache than there may be cost none.
#[test]
fn units_of_bad_figures() {
    for (sets, ways) in [(0, 1), (3, 1), (65, 4), (64, 5), (u32::MAX, u32::MAX), (1, 0)] {
        assert_eq!(Unit::start(figures(sets, ways), vec![0; 32]), Err(Refusal::Figures));
    }
    for length in [MIN_MEMORY - 16, 24, MAX_MEMORY + 16] {
        assert_eq!(Unit::start(figures(1, 1), vec![0; length]), Err(Refusal::Figures));
    }
}

/// The smallest and the largest unit, and the cache bytes that each has.
#[test]
fn units_of_extreme_figures() {
    let (least, most) = (figures(1, 1), figures(MAX_SETS, MAX_WAYS));
    assert_eq!((least.cache_length(), most.cache_length()), (16, 4096));
    for (figures, length) in [(least, MIN_MEMORY), (most, MAX_MEMORY)] {
        let unit = Unit::start(figures, vec![0; length]).unwrap();
        assert_eq!(unit.cache().len(), figures.cache_length());
    }
    assert_eq!(figures(u32::MAX, u32::MAX).cache_length(), usize::MAX);
}

#[test]
fn shown_part() {
    let mut unit = started(2, 2, 64);
    assert_eq!(unit.load(52, 4), Ok(Answer::Waits(1)));
    assert_eq!(unit.commit(1), Ok(Answer::Committed(1)));
    assert_eq!(unit.idle(), Ok(Answer::Requested(48)));
    assert_eq!(unit.show_line(52), Part { place: 0, bytes: &[] });
    assert_eq!(unit.reply(), Ok(Answer::Filled(48)));
    // Line 3, the first way of set 1: record 2.
    let bytes: Vec<u8> = (49..=64).collect();
    for address in [48, 52, 63] {
        assert_eq!(unit.show_line(address), Part { place: 32, bytes: &bytes });
        let shown = unit.call(Call::ShowLine(address));
        assert_eq!(shown, Ok(Answer::Shown { place: 32, length: 16 }));
    }
    for address in [0, 47, 64, u32::MAX] {
        assert_eq!(unit.show_line(address), Part { place: 0, bytes: &[] });
    }
}

/// Operands that a call does not take are not looked at.
#[test]
fn operands_not_taken() {
    let taken = [2, 3, 1, 1, 1, 0, 0, 0, 1, 1, 1, 0];
    for (call, taken) in (0..).zip(taken) {
        let made = [0, u32::MAX].map(|not_taken| {
            let (mut image, mut cache, mut memory) = busy().into_parts();
            let mut operands = [not_taken; 3];
            operands[..taken].fill(1);
            let answer = numbered::step(&mut image, &mut cache, &mut memory, call, operands);
            (answer, image, cache, memory)
        });
        assert_ne!(made[0].0, numbered::NO_SUCH_CALL);
        assert_eq!(made[0], made[1], "{call}");
    }
}

#[test]
fn what_an_image_tells() {
    let mut unit = busy();
    let image = unit.image();
    assert_eq!((image.figures(), image.memory_length()), (figures(1, 2), 48));
    assert_eq!(image.policy(), Some(WriteBack));
    assert_eq!((image.last(), image.committed(), image.requested()), (3, 1, Some(1)));
    let store = HeldStore { number: 2, address: 8, width: 4, value: 0xCAFE };
    assert_eq!(image.stores()[..2], [store, HeldStore::default()]);
    let waits = ListedLoad { number: 1, address: 16, width: 2, waiting: true, forwarded: false };
    let fed = ListedLoad { number: 3, address: 8, width: 2, waiting: false, forwarded: true };
    assert_eq!(image.loads()[..3], [waits, fed, ListedLoad::default()]);
    let mark = Checkpoint { name: 1, number: 4, rank: 1 };
    assert_eq!(image.checkpoints()[..2], [mark, Checkpoint::default()]);
    assert_eq!(image.tag(1), Some(Tag { age: 1, ..Tag::default() }));
    assert_eq!(unit.reply(), Ok(Answer::Filled(16)));
    let image = unit.image();
    assert_eq!(image.requested(), None);
    let filled = Tag { valid: true, dirty: 0, line: 1, age: 0 };
    assert_eq!(image.tag(0), Some(filled));
    assert_eq!(image.tag(256), None);
    assert_eq!(Image::from_bytes(image.to_bytes()), *image);
}

#[test]
fn policies_of_images() {
    let unit = started_with(figures(1, 2).with_policy(WriteThrough), 48);
    assert_eq!(unit.image().figures(), figures(1, 2).with_policy(WriteThrough));
    assert_eq!(damaged(&unit, layout::PROFILE, 0), started(1, 2, 48));
    for profile in NO_PROFILES {
        let image = beside::with_word(unit.image(), layout::PROFILE, profile);
        assert_eq!((image.policy(), image.figures()), (None, figures(1, 2)));
    }
}

#[test]
fn refusals_have_their_numbers() {
    let numbers: Vec<u32> = Refusal::ALL.iter().map(|refusal| refusal.number()).collect();
    assert_eq!(numbers, [1, 2, 3, 4, 5, 10, 11, 12, 13, 14, 15, 16, 17, 18, 19, 20, 21, 22]);
    for refusal in Refusal::ALL {
        assert_eq!(Refusal::of_number(refusal.number()), Some(refusal));
    }
    assert_eq!([6, 7, 23].map(Refusal::of_number), [None; 3]);
    assert_eq!(Refusal::NoRequest.to_string(), "refused 17: reply or preview: register free");
    assert_eq!(Refusal::Flush.to_string(), "refused 18: flush: a committed store is held");
}
