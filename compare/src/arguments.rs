//! What the programs share: numbers of the command line, and how they end.

use std::process::ExitCode;

/// Reads words with a number behind each. A word that is not known is not taken.
pub fn numbers(
    mut words: impl Iterator<Item = String>,
    mut take: impl FnMut(&str, u64) -> bool,
) -> Result<(), String> {
    while let Some(word) = words.next() {
        let value = words.next().and_then(|value| value.parse().ok());
        let value = value.ok_or(format!("{word} wants a number"))?;
        if !take(&word, value) {
            return Err(format!("no such argument: {word}"));
        }
    }
    Ok(())
}

/// Ends a program: a failure is told and gives 1.
pub fn end(done: Result<(), String>) -> ExitCode {
    match done {
        Ok(()) => ExitCode::SUCCESS,
        Err(what) => {
            eprintln!("FAILED: {what}");
            ExitCode::FAILURE
        }
    }
}
