//! Choosing the ways: reads a set count and the line numbers of a program, and prints how
//! often they would hit with 1, 2, 3 and 4 ways. The study is the proved library's.
//!
//! `ways [--svg FILE] < LIST` prints a table, and draws it where a file is named. The list
//! has the set count on its first line and a line number on each line behind it.

mod input;
mod picture;
mod table;

use std::ffi::OsString;
use std::io::{self, Write};
use std::path::PathBuf;
use std::process::ExitCode;
use std::{env, fs};

use input::List;
use nicoisetarn::{study_ways, STUDY_SCRATCH};

/// How the program is called.
const USAGE: &str = "ways [--svg FILE] < LIST";

/// Reads the command line: the file to draw into.
fn read_words(mut words: impl Iterator<Item = OsString>) -> Result<Option<PathBuf>, String> {
    match (words.next(), words.next(), words.next()) {
        (None, _, _) => Ok(None),
        (Some(word), Some(file), None) if word == "--svg" => Ok(Some(file.into())),
        _ => Err(format!("called as {USAGE}")),
    }
}

/// Studies the list of standard input, draws the study and prints its table.
fn run() -> Result<(), String> {
    let drawn = read_words(env::args_os().skip(1))?;
    let list = List::read(io::stdin().lock()).map_err(|wrong| wrong.to_string())?;
    let mut scratch = [0; STUDY_SCRATCH];
    let study =
        study_ways(&list.items, list.sets, &mut scratch).map_err(|refusal| refusal.to_string())?;
    if let Some(file) = drawn {
        let named = |wrong| format!("{}: {wrong}", file.display());
        fs::write(&file, picture::picture(&list, &study)).map_err(named)?;
    }
    let text = table::table(&list, &study);
    io::stdout().write_all(text.as_bytes()).map_err(|wrong| format!("standard output: {wrong}"))
}

fn main() -> ExitCode {
    match run() {
        Ok(()) => ExitCode::SUCCESS,
        Err(wrong) => {
            eprintln!("ways: {wrong}");
            ExitCode::FAILURE
        }
    }
}
