//! The program `ways`: its table and its picture of a stored list, which stand in docs/,
//! and what it says of input that it cannot read.

use std::ffi::OsStr;
use std::io::Write;
use std::os::unix::ffi::OsStrExt;
use std::path::{Path, PathBuf};
use std::process::{Command, Output, Stdio};
use std::{env, fs, process};

/// A file of docs/.
fn page(name: &str) -> PathBuf {
    Path::new(env!("CARGO_MANIFEST_DIR")).join("../../docs").join(name)
}

/// Runs the program with some words on its command line and this input.
fn run(words: &[&OsStr], input: &[u8]) -> Output {
    let mut program = Command::new(env!("CARGO_BIN_EXE_ways"))
        .args(words)
        .stdin(Stdio::piped())
        .stdout(Stdio::piped())
        .stderr(Stdio::piped())
        .spawn()
        .expect("ways is built");
    // It may end before it has read all.
    let _ = program.stdin.take().expect("a pipe").write_all(input);
    program.wait_with_output().expect("ways ends")
}

/// What the program prints of an input that it accepts.
fn printed(input: &[u8]) -> String {
    let output = run(&[], input);
    assert!(output.status.success() && output.stderr.is_empty(), "{output:?}");
    String::from_utf8(output.stdout).expect("text")
}

/// The one line in which the program refuses an input: nothing else is printed.
fn refused(input: &[u8]) -> String {
    let output = run(&[], input);
    assert!(!output.status.success() && output.stdout.is_empty(), "{output:?}");
    let line = String::from_utf8(output.stderr).expect("text");
    let line = line.strip_suffix('\n').expect("a line");
    line.strip_prefix("ways: ").expect("its name").to_string()
}

#[test]
fn the_stored_list_has_this_table_and_this_picture() {
    let list = fs::read(page("ways.txt")).expect("the list is there");
    let rows = ["1     96           240", "2    190           475", "3    323           808"];
    let heading = "16 sets, 400 line numbers\n\nways   hits  per thousand";
    let [one, two, three] = rows;
    let table = format!("{heading}\n   {one}\n   {two}\n   {three}\n   4    349           873\n");
    assert_eq!(printed(&list), table);

    let drawn = env::temp_dir().join(format!("ways-{}.svg", process::id()));
    let output = run(&["--svg".as_ref(), drawn.as_os_str()], &list);
    let picture = fs::read_to_string(&drawn).expect("it is drawn");
    fs::remove_file(&drawn).expect("it goes");
    assert!(output.status.success());
    assert_eq!(String::from_utf8(output.stdout).expect("text"), table);
    let stored = fs::read_to_string(page("ways.svg")).expect("the picture is there");
    assert!(picture == stored, "docs/ways.svg is not what is drawn");
}

#[test]
fn blanks_and_a_missing_last_newline_are_accepted() {
    let row = |ways| format!("   {ways}      1           500\n");
    let rows: String = (1..=4).map(row).collect();
    let table = format!("4 sets, 2 line numbers\n\nways   hits  per thousand\n{rows}");
    for input in ["4\n7\n7\n", "4\n7\n7", " 4 \r\n\t7\r\n007\r\n"] {
        assert_eq!(printed(input.as_bytes()), table, "{input:?}");
    }
    let zero = |ways| format!("   {ways}      0             0\n");
    let zeros: String = (1..=4).map(zero).collect();
    let none = format!("1 set, 0 line numbers\n\nways   hits  per thousand\n{zeros}");
    assert_eq!(printed(b"1\n"), none);
}

#[test]
fn malformed_input_is_refused_at_its_line() {
    let sets = "a set count (1, 2, 4, 8, 16, 32 or 64)";
    let line = "a line number (0 to 4095)";
    let wrong = [
        ("", "line 1: no set count: the input is empty".to_string()),
        ("\n", format!("line 1: empty, in place of {sets}")),
        ("3\n1\n", format!("line 1: \"3\" is not {sets}")),
        ("0\n", format!("line 1: \"0\" is not {sets}")),
        ("128\n", format!("line 1: \"128\" is not {sets}")),
        ("+4\n", format!("line 1: \"+4\" is not {sets}")),
        ("4 sets\n", format!("line 1: \"4 sets\" is not {sets}")),
        ("4\n1\n4096\n", format!("line 3: \"4096\" is not {line}")),
        ("4\n-1\n", format!("line 2: \"-1\" is not {line}")),
        ("4\n1 2\n", format!("line 2: \"1 2\" is not {line}")),
        ("4\n1\n\n2\n", format!("line 3: empty, in place of {line}")),
        ("4\n99999999999999999999\n", format!("line 2: \"99999999999999999999\" is not {line}")),
        ("4\n0x10\n", format!("line 2: \"0x10\" is not {line}")),
    ];
    for (input, said) in wrong {
        assert_eq!(refused(input.as_bytes()), said, "{input:?}");
    }
    assert_eq!(refused(b"4\n1\n\xFF\n"), format!("line 3: \"\u{FFFD}\" is not {line}"));
}

#[test]
fn long_lines_are_refused_unread() {
    let said = |line| format!("line {line}: longer than 64 bytes");
    let line = |length: usize| " ".repeat(length - 1) + "7";
    assert!(printed(format!("1\n{}\n{}", line(63), line(63)).as_bytes()).contains("500"));
    assert_eq!(refused(format!("1\n{}\n", line(64)).as_bytes()), said(2));
    assert_eq!(refused(&b"\0".repeat(10_000_000)), said(1));
}

#[test]
fn the_longest_list_is_accepted_and_no_longer_one() {
    let longest = "2\n".to_string() + &"5\n".repeat(65_536);
    assert!(printed(longest.as_bytes()).contains("   1  65535          1000\n"));
    let refused = |more| refused((longest.clone() + more).as_bytes());
    assert_eq!(refused("5\n"), "line 65538: more than 65536 line numbers");
    assert_eq!(refused("\n"), "line 65538: empty, in place of a line number (0 to 4095)");
}

#[test]
fn other_words_are_refused() {
    let odd = OsStr::from_bytes(b"\xFF");
    let [svg, name] = ["--svg", "list.txt"].map(OsStr::new);
    for words in [&[svg][..], &[svg, name, name], &[name], &[odd], &[odd, name]] {
        let output = run(words, b"4\n");
        assert!(!output.status.success() && output.stdout.is_empty(), "{words:?}");
        assert_eq!(output.stderr, b"ways: called as ways [--svg FILE] < LIST\n", "{words:?}");
    }
}

#[test]
fn a_picture_that_cannot_be_written_is_told_before_the_table() {
    let nowhere = OsStr::from_bytes(b"no such folder/\xFF.svg");
    let output = run(&["--svg".as_ref(), nowhere], b"4\n");
    assert!(!output.status.success() && output.stdout.is_empty(), "{output:?}");
    assert!(output.stderr.starts_with(b"ways: no such folder/"), "{output:?}");
}
