//! The stored examples: the model gives each expected output, every step of
//! them is right by the plain rules too, and the page beside them names them all.

use std::fs;
use std::path::PathBuf;

use compare::fault::{self, Fault};
use compare::model::{Machine, Right};
use compare::program::{difference, Player};
use compare::rules;
use compare::script::{self, Command, Playing};
use compare::stored::{self, Example};
use compare::types::Snapshot;

fn folder() -> PathBuf {
    [env!("CARGO_MANIFEST_DIR"), "..", "examples"].iter().collect()
}

fn examples() -> Vec<Example> {
    stored::read(&folder()).unwrap()
}

#[test]
fn stored_examples_play() {
    for example in examples() {
        stored::check(&Player::MODEL, &example).unwrap();
    }
}

/// Plays a line, a call judged by the plain rules.
fn judged(playing: &mut Playing, line: &[u8]) -> Result<(), String> {
    let before =
        playing.now().map(|now| (now.state.clone(), now.cache.to_vec(), now.memory.to_vec()));
    let answer = playing.answer(Some(line));
    let (Some(Command::Step(call)), Some((state, cache, memory)), Some(after)) =
        (script::command(line), &before, playing.now())
    else {
        return Ok(());
    };
    rules::judge(Snapshot { state, cache, memory }, call, answer, after)
}

#[test]
fn stored_examples_by_the_rules() {
    for Example { name, script, .. } in examples() {
        let mut playing = Playing::new(Right::step);
        for line in script.split(|byte| *byte == b'\n') {
            judged(&mut playing, line).unwrap_or_else(|what| panic!("{name}: {what}"));
        }
    }
}

#[test]
fn page_names_every_example() {
    let page = fs::read_to_string(folder().join("README.md")).unwrap();
    for Example { name, .. } in examples() {
        assert_eq!(page.matches(&format!("| `{name}` |")).count(), 1, "{name}");
    }
}

#[test]
fn first_difference_is_named() {
    let (script, right) = (b"I\nR\nF\n", b"idle\nrefused 17\nflushed 0\n");
    assert_eq!(difference(script, right, right), None);
    let found = |seen: &[u8]| difference(script, right, seen).unwrap().to_string();
    let expected = r#"line 2 "R\n": expected "refused 17\n", seen "refused 1\n""#;
    assert_eq!(found(b"idle\nrefused 1\nflushed 0\n"), expected);
    let expected = r#"line 3 "F\n": expected "flushed 0\n", seen """#;
    assert_eq!(found(b"idle\nrefused 17\n"), expected);
    let expected = r#"line 4 "": expected "", seen "idle\n""#;
    assert_eq!(found(b"idle\nrefused 17\nflushed 0\nidle\n"), expected);
}

/// Faults that no short script tells: what free places and an empty cache hold, which
/// invalid way is filled, what memory holds under a dirty word, what a load is marked
/// while it waits, and what counts as well formed.
const UNSEEN: [Fault; 12] = [
    Fault::DroppedNumberOnly,
    Fault::VictimPassesInvalid,
    Fault::VictimHighestInvalid,
    Fault::BackWritesMemory,
    Fault::StartKeepsCache,
    Fault::ShowFirstWay,
    Fault::TakesFifthMark,
    Fault::TakesCleanWord,
    Fault::WaitsForwarded,
    Fault::AbortLeavesForwarded,
    Fault::TakesWaitingForwarded,
    Fault::TakesFreeForwarded,
];

#[test]
fn stored_examples_notice_faults() {
    let examples = examples();
    let missed = |fault: &Fault| {
        let player = Player::Machine(fault.step());
        examples.iter().all(|example| stored::check(&player, example).is_ok())
    };
    let missed: Vec<Fault> = fault::ALL.iter().copied().filter(missed).collect();
    let no_script = [&fault::THROUGH[..], &fault::CHECKPOINTS, &fault::PREVIEWS].concat();
    assert_eq!(missed, [&UNSEEN[..], &no_script].concat());
}
