//! Stored examples: scripts with the output that they must give, as files
//! NAME.script and NAME.expected of one folder.

use std::fs;
use std::path::Path;

use crate::program::{difference, Player};

/// Sizes of the pieces that each script is played in.
const PIECES: [usize; 5] = [1, 63, 65, 4096, 1 << 20];

/// A script and its output.
#[derive(Clone, Debug)]
pub struct Example {
    pub name: String,
    pub script: Vec<u8>,
    pub expected: Vec<u8>,
}

/// Reads a file.
fn bytes(path: &Path) -> Result<Vec<u8>, String> {
    fs::read(path).map_err(|error| format!("{}: {error}", path.display()))
}

/// The names of the files of a folder that end so, in order.
fn names(folder: &Path, end: &str) -> Result<Vec<String>, String> {
    let found = fs::read_dir(folder).map_err(|error| format!("{}: {error}", folder.display()))?;
    let mut names: Vec<String> = found
        .filter_map(|entry| entry.ok()?.file_name().into_string().ok())
        .filter_map(|file| file.strip_suffix(end).map(str::to_string))
        .collect();
    names.sort();
    Ok(names)
}

/// Reads every example of a folder; each script has its output and no other is there.
pub fn read(folder: &Path) -> Result<Vec<Example>, String> {
    let scripts = names(folder, ".script")?;
    if scripts.is_empty() || scripts != names(folder, ".expected")? {
        return Err(format!("{}: scripts and outputs do not pair", folder.display()));
    }
    let example = |name: String| {
        let script = bytes(&folder.join(format!("{name}.script")))?;
        let expected = bytes(&folder.join(format!("{name}.expected")))?;
        Ok(Example { name, script, expected })
    };
    scripts.into_iter().map(example).collect()
}

/// Plays an example in pieces of every size and compares byte for byte.
pub fn check(player: &Player, example: &Example) -> Result<(), String> {
    let Example { name, script, expected } = example;
    for piece in PIECES {
        let seen = player.play(script, piece)?;
        if let Some(found) = difference(script, expected, &seen) {
            return Err(format!("{name}, in pieces of {piece}: {found}"));
        }
    }
    Ok(())
}
