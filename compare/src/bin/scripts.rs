//! Plays the stored examples of a folder and compares each output byte for byte.
//!
//! `scripts PROGRAM FOLDER` plays them through a program; `scripts FOLDER`
//! through the model in this process.

use std::path::Path;
use std::process::ExitCode;

use compare::arguments;
use compare::program::Player;
use compare::stored;

/// Plays every example and tells how many there are.
fn play_all(words: &[String]) -> Result<(), String> {
    let (player, folder) = match words {
        [folder] => (Player::MODEL, folder),
        [program, folder] => (Player::Program(program.clone()), folder),
        _ => return Err("wanted: [PROGRAM] FOLDER".to_string()),
    };
    let examples = stored::read(Path::new(folder))?;
    for example in &examples {
        stored::check(&player, example)?;
    }
    println!("{} stored examples give their expected output", examples.len());
    Ok(())
}

fn main() -> ExitCode {
    let words: Vec<String> = std::env::args().skip(1).collect();
    arguments::end(play_all(&words))
}
