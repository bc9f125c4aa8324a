//! The list that a study is made of, and what is wrong with one, named by its place.

use std::fmt;
use std::io::{BufRead, Read};

use nicoisetarn::{MAX_SETS, STUDY_ITEMS, STUDY_LINES};

/// The most bytes of a line, its end among them.
const LINE_BYTES: usize = 64;

/// A set count and line numbers.
pub struct List {
    pub sets: u32,
    pub items: Vec<u32>,
}

/// What is wrong with a line of the input.
pub struct Wrong {
    /// The line, counted from 1.
    pub line: usize,
    pub what: String,
}

impl fmt::Display for Wrong {
    fn fmt(&self, f: &mut fmt::Formatter) -> fmt::Result {
        write!(f, "line {}: {}", self.line, self.what)
    }
}

/// The whole number that a line has and nothing else, but for blanks around it. One that is
/// too large for any use here is the largest.
fn number(text: &str, wanted: &str) -> Result<u32, String> {
    let digits = text.trim();
    if digits.is_empty() {
        return Err(format!("empty, in place of {wanted}"));
    }
    if !digits.bytes().all(|byte| byte.is_ascii_digit()) {
        return Err(format!("{digits:?} is not {wanted}"));
    }
    Ok(digits.parse().unwrap_or(u32::MAX))
}

/// The set count of the first line.
fn set_count(text: &str) -> Result<u32, String> {
    let wanted = "a set count (1, 2, 4, 8, 16, 32 or 64)";
    match number(text, wanted)? {
        sets if sets.is_power_of_two() && sets <= MAX_SETS => Ok(sets),
        _ => Err(format!("{:?} is not {wanted}", text.trim())),
    }
}

/// The line number of a later line, behind so many.
fn item(text: &str, before: usize) -> Result<u32, String> {
    let wanted = format!("a line number (0 to {})", STUDY_LINES - 1);
    match number(text, &wanted)? {
        line if line >= STUDY_LINES => Err(format!("{:?} is not {wanted}", text.trim())),
        _ if before == STUDY_ITEMS => Err(format!("more than {STUDY_ITEMS} line numbers")),
        line => Ok(line),
    }
}

/// Reads a line, its end with it; none behind the last one.
fn line(input: &mut impl BufRead) -> Result<Option<String>, String> {
    let mut bytes = Vec::new();
    let mut cut = input.take(LINE_BYTES as u64);
    cut.read_until(b'\n', &mut bytes).map_err(|error| error.to_string())?;
    match bytes.last() {
        None => Ok(None),
        Some(last) if bytes.len() == LINE_BYTES && *last != b'\n' => {
            Err(format!("longer than {LINE_BYTES} bytes"))
        }
        Some(_) => Ok(Some(String::from_utf8_lossy(&bytes).into_owned())),
    }
}

impl List {
    /// Reads the set count, and a line number from each line behind it.
    pub fn read(mut input: impl BufRead) -> Result<List, Wrong> {
        let at = |line| move |what| Wrong { line, what };
        let missing = || "no set count: the input is empty".to_string();
        let first = line(&mut input).and_then(|text| text.ok_or_else(missing));
        let sets = first.and_then(|text| set_count(&text)).map_err(at(1))?;
        let mut items = Vec::new();
        for number in 2.. {
            let Some(text) = line(&mut input).map_err(at(number))? else { break };
            items.push(item(&text, items.len()).map_err(at(number))?);
        }
        Ok(List { sets, items })
    }
}
