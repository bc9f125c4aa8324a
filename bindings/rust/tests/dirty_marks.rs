//! Dirty marks of images, one by one: a fifth mark, marks of records that hold no line,
//! and words that differ from memory under each choice of marks. Each call is answered
//! as the Rust model answers it, alone and in a list, and a refused one changes nothing.

mod beside;

use beside::refused::{all_refused, answers};
use beside::{layout, library_figures, with_byte, with_word, Bench};
use compare::types::{Answer, Call, Figures, Part};
use nicoisetarn::{Image, Tag, LINE, WORD};

/// The dirty marks of the line in `half_dirty`.
const HALF: u8 = 0b1010;

/// One set of two ways.
const FIGURES: Figures = Figures::new(1, 2);

/// The profile of write-through.
const THROUGH: u32 = 1;

/// A start over 48 bytes, byte a + 1 at a, and then line 0 in record 0 with words 1 and 3
/// dirty, record 1 invalid, line 1 requested for load 3, and checkpoint 3.
fn half_dirty() -> Bench {
    let (mut cache, memory) = (vec![0; 2 * LINE], (1..=48).collect::<Vec<u8>>());
    let image = Image::start(library_figures(FIGURES), &mut cache, &memory).unwrap();
    let mut bench = Bench { image, cache, memory };
    let calls = [
        Call::Store { address: 5, width: 1, value: 200 },
        Call::Store { address: 12, width: 4, value: 0xCAFE_CAFE },
        Call::Commit { number: 2 },
        Call::Idle,
        Call::Reply,
        Call::Idle,
        Call::Idle,
        Call::Load { address: 16, width: 1 },
        Call::Commit { number: 3 },
        Call::Idle,
        Call::Checkpoint { name: 3 },
    ];
    assert_eq!(calls.map(|call| bench.call(call))[9], Answer::Requested(16));
    assert_eq!(bench.image.tag(0), Some(Tag { valid: true, dirty: HALF, line: 0, age: 0 }));
    assert_eq!(bench.image.tag(1), Some(Tag { age: 1, ..Tag::default() }));
    bench
}

/// A call of each kind, all of which `half_dirty` takes.
const CALLS: [Call; 12] = [
    Call::ShowLine { address: 0 },
    Call::Load { address: 4, width: 4 },
    Call::Store { address: 0, width: 1, value: 9 },
    Call::Retry { number: 3 },
    Call::Commit { number: 3 },
    Call::Abort { number: 4 },
    Call::Idle,
    Call::Reply,
    Call::Flush,
    Call::Checkpoint { name: 8 },
    Call::Restore { name: 3 },
    Call::Preview,
];

/// Every call is accepted, the line is shown, and a flush writes the words marked: so many,
/// after which memory has the line.
fn all_taken(bench: &Bench, what: &str) {
    let words = bench.image.tag(0).map_or(0, |tag| tag.dirty.count_ones());
    let answers = answers(bench, &CALLS);
    assert!(answers.iter().all(Answer::accepted), "{what}: {answers:?}");
    assert_eq!(answers[0], Answer::Shown(Part { place: 0, length: LINE }), "{what}");
    let mut after = bench.clone();
    assert_eq!(after.call(Call::Flush), Answer::Flushed(words), "{what}");
    assert_eq!(after.image.tag(0).map(|tag| tag.dirty), Some(0), "{what}");
    assert_eq!(after.memory[..LINE], bench.cache[..LINE], "{what}");
    assert_eq!(after.memory[LINE..], bench.memory[LINE..], "{what}");
}

/// The bench with other dirty marks of a record.
fn marked(bench: &Bench, record: usize, marks: u8) -> Bench {
    let image = with_byte(&bench.image, layout::marks_at(record), marks);
    Bench { image, ..bench.clone() }
}

#[test]
fn fifth_marks() {
    let found = half_dirty();
    all_taken(&found, "as found");
    for marks in 16..=u8::MAX {
        all_refused(&marked(&found, 0, marks), &CALLS, &format!("marks {marks:#b}"));
    }
}

/// An invalid record and unused ones have no mark, a fifth one neither.
#[test]
fn marks_of_records_without_a_line() {
    let found = half_dirty();
    for record in [1, 2, 3, 255] {
        all_taken(&marked(&found, record, 0), "no mark");
        for marks in 1..=u8::MAX {
            let bench = marked(&found, record, marks);
            all_refused(&bench, &CALLS, &format!("record {record}, {marks:#b}"));
        }
    }
}

/// The bench with a line that differs from memory in these words alone, in one byte each.
fn differing(bench: &Bench, words: u8) -> Bench {
    let Bench { image, mut cache, memory } = bench.clone();
    for word in 0..LINE / WORD {
        let at = WORD * word..WORD * (word + 1);
        cache[at.clone()].copy_from_slice(&memory[at]);
        cache[WORD * word + word] ^= words >> word & 1;
    }
    Bench { image, cache, memory }
}

/// Write-back takes a line with four marks, where each word that differs has one: a mark
/// of a word that does not is no damage, and that word is flushed too. Write-through takes
/// a line without marks that does not differ.
#[test]
fn marks_and_words_that_differ() {
    let back = half_dirty();
    let through = with_word(&back.image, layout::PROFILE, THROUGH);
    let through = Bench { image: through, ..back.clone() };
    for marks in 0..=u8::MAX {
        for words in 0..16 {
            let what = format!("marks {marks:#b}, differing {words:#b}");
            let [back, through] =
                [&back, &through].map(|found| differing(&marked(found, 0, marks), words));
            match marks < 16 && words & !marks == 0 {
                true => all_taken(&back, &what),
                false => all_refused(&back, &CALLS, &what),
            }
            match marks == 0 && words == 0 {
                true => all_taken(&through, &what),
                false => all_refused(&through, &CALLS, &what),
            }
        }
    }
}

/// Each byte of a line with two dirty words, changed in the cache or in memory: under a
/// clean word it is refused, under a dirty one it is not seen.
#[test]
fn bytes_of_a_half_dirty_line() {
    let found = half_dirty();
    for at in 0..LINE {
        let (mut cached, mut stored) = (found.clone(), found.clone());
        cached.cache[at] ^= 1;
        stored.memory[at] ^= 1;
        for bench in [cached, stored] {
            match HALF >> (at / WORD) & 1 == 1 {
                true => all_taken(&bench, &format!("byte {at}")),
                false => all_refused(&bench, &CALLS, &format!("byte {at}")),
            }
        }
    }
}
