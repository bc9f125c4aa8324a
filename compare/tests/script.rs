//! The script player: limits of lines and numbers, G, and any bytes at all.

use compare::dropped;
use compare::model::{Machine, Right};
use compare::random::{self, Rng};
use compare::script::{begin_line, line_of, play, play_stream};
use compare::types::{Answer, WritePolicy};

/// The output lines of a script.
fn lines(script: &str) -> Vec<String> {
    let output = String::from_utf8(play(script.as_bytes())).unwrap();
    output.lines().map(str::to_string).collect()
}

/// A store line with leading zeros that has so many bytes before its LF.
fn long_line(length: usize) -> String {
    let zeros = "0".repeat(length - "S 4 1 7".len());
    format!("S {zeros}4 1 7\n")
}

#[test]
fn empty_input_and_empty_line() {
    assert_eq!(play(b""), b"");
    assert_eq!(play(b"\n"), b"refused 6\n");
    assert_eq!(play(b"\n\n"), b"refused 6\nrefused 6\n");
}

#[test]
fn longest_line() {
    assert_eq!(long_line(64).len(), 65);
    let script = format!("G 1 1 32\n{}{}I\n", long_line(64), long_line(65));
    assert_eq!(lines(&script), ["ready", "stored 1", "refused 6", "idle"]);
    let script = format!("G 1 1 32\n{}\nI\n", "9".repeat(100_000));
    assert_eq!(lines(&script), ["ready", "refused 6", "idle"]);
}

#[test]
fn last_line_without_end() {
    assert_eq!(lines("G 1 1 32"), ["refused 6"]);
    assert_eq!(lines("G 1 1 32\nS 4 1 7"), ["ready", "refused 6"]);
    let script = format!("G 1 1 32\n{}", "0".repeat(90));
    assert_eq!(lines(&script), ["ready", "refused 6"]);
}

#[test]
fn numbers_of_32_bits() {
    let script = "G 1 1 32\nL 4294967295 1\nL 4294967296 1\nL 4294967295 4294967295\n\
                  L 99999999999999999999999999 1\nL 00000000000000000000 0001\nA 4294967296\n";
    let expected =
        ["ready", "refused 4", "refused 6", "refused 2", "refused 6", "waits 1", "refused 6"];
    assert_eq!(lines(script), expected);
}

#[test]
fn malformed_lines() {
    let wrong_letters = "Z|i|g 1 1 32|4 1 7|SS 4 1 7|S4 1 7|T 0|\u{e4}|\r|I\r|\0";
    let wrong_counts = "I 0|R 1|F 1|A|A 1 2|C|C 1 1|X|X 1 1|L 4|L 4 1 1|S 4 1|S 4 1 7 1";
    let wrong_starts = "G|G 1|G 1 1|G 1 1 32 0";
    let wrong_spaces = " |I | I|A |A  1|A 1 |S\t4\t1\t7|S 4,1,7|L  4 1|L 4  1|L 4 1 |L 4 1\0";
    let wrong_digits = "A x|A -1|A +1|A 1.0|A 0x1|A 1e1|A 1_0|A \u{661}";
    for list in [wrong_letters, wrong_counts, wrong_starts, wrong_spaces, wrong_digits] {
        for line in list.split('|') {
            let script = format!("G 1 1 32\n{line}\nI\n");
            assert_eq!(lines(&script), ["ready", "refused 6", "idle"], "{line:?}");
        }
    }
}

#[test]
fn calls_before_an_accepted_start() {
    let script = "I\nS 4 1 7\nG 3 1 32\nL 4 1\nG 1 1 32\nL 4 1\n";
    let expected = ["refused 6", "refused 6", "refused 1", "refused 6", "ready", "waits 1"];
    assert_eq!(lines(script), expected);
}

#[test]
fn refused_start_leaves_the_run() {
    let bad = "0 1 32|3 1 32|128 1 32|1 0 32|1 5 32|1 1 0|1 1 8|1 1 24|1 1 65552|1 1 4294967280|\
               4294967295 4294967295 4294967295|65536 65536 32|2147483648 2 32|64 4 65537";
    for figures in bad.split('|') {
        let script = format!("G 2 2 64\nS 4 1 7\nG {figures}\nL 4 1\n");
        assert_eq!(lines(&script), ["ready", "stored 1", "refused 1", "value 2 7"], "{figures}");
    }
}

#[test]
fn new_start_begins_anew() {
    let script = "G 1 1 32\nS 4 1 7\nC 1\nI\nR\nI\nF\nG 1 1 32\nL 4 1\nC 1\nI\nR\nA 1\n";
    let out = lines(script);
    assert_eq!(out[7..], ["ready", "waits 1", "committed 1", "request 0", "filled 0", "value 1 0"]);
}

#[test]
fn every_allowed_start() {
    for sets in [1, 2, 4, 8, 16, 32, 64] {
        for ways in 1..=4 {
            for length in [16, 32, 65520, 65536] {
                assert_eq!(lines(&format!("G {sets} {ways} {length}\n")), ["ready"]);
            }
        }
    }
}

#[test]
fn refusals_print_their_number() {
    let script =
        "G 1 1 32\nL 0 3\nL 1 2\nL 32 1\nS 0 1 256\nA 1\nC 1\nX 2\nR\nS 0 1 1\nC 1\nF\nX 1\n";
    let expected = [
        "ready",
        "refused 2",
        "refused 3",
        "refused 4",
        "refused 5",
        "refused 14",
        "refused 15",
        "refused 16",
        "refused 17",
        "stored 1",
        "committed 1",
        "refused 18",
        "refused 16",
    ];
    assert_eq!(lines(script), expected);
}

#[test]
fn any_bytes_give_one_answer_a_line() {
    let mut rng = Rng::new(5);
    let letters = b"GSLACXIRF  00112468\n\n\n\r\xff";
    for seed in 0..300 {
        let mut script: Vec<u8> = b"G 2 2 64\n".to_vec();
        script.extend((0..rng.below(600)).map(|_| rng.pick(letters)));
        let ends = script.iter().filter(|byte| **byte == b'\n').count();
        let open = usize::from(script.last() != Some(&b'\n'));
        let output = play(&script);
        let answers = output.iter().filter(|byte| **byte == b'\n').count();
        assert_eq!(answers, ends + open, "script {seed}");
        let mut streamed = Vec::new();
        let reader = std::io::BufReader::with_capacity(1 + seed % 7, &script[..]);
        play_stream(Right::step, reader, &mut streamed).unwrap();
        assert_eq!(streamed, output, "script {seed}");
    }
}

/// An answer as an output line.
fn text_of(answer: Answer) -> String {
    match answer {
        Answer::Ready | Answer::Shown(_) | Answer::Previewed(_) => {
            unreachable!("no such line in these scripts")
        }
        Answer::Value { number, value } => format!("value {number} {value}"),
        Answer::WaitsRequested(number) => format!("waits-requested {number}"),
        Answer::Requested(address) => format!("request {address}"),
        Answer::Idle => "idle".to_string(),
        other => format!("{other:?}").to_lowercase().replace('(', " ").replace(')', ""),
    }
}

#[test]
fn random_runs_as_scripts() {
    for seed in 0..300 {
        let mut run = random::run(seed);
        run.found.fill(0);
        run.numbered = 0;
        run.figures = run.figures.with_policy(WritePolicy::WriteBack);
        run.calls.retain(|call| line_of(*call).is_some());
        let mut script = begin_line(run.setup()) + "\n";
        for line in run.calls.iter().copied().filter_map(line_of) {
            script += &format!("{line}\n");
        }
        let played = dropped::play(&run, Right::step, run.calls.iter().copied());
        let mut expected = vec!["ready".to_string()];
        expected.extend(played.given.iter().map(|one| text_of(one.answer)));
        assert_eq!(lines(&script), expected, "seed {seed}");
    }
}
