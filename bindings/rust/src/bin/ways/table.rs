//! The table of a study.

use nicoisetarn::Study;

use crate::input::List;

/// A number with its noun.
fn counted(number: usize, noun: &str) -> String {
    match number {
        1 => format!("1 {noun}"),
        _ => format!("{number} {noun}s"),
    }
}

/// What was studied.
pub fn heading(list: &List) -> String {
    let (sets, items) = (list.sets as usize, list.items.len());
    format!("{}, {}", counted(sets, "set"), counted(items, "line number"))
}

/// A row for each number of ways: how many hit, and how many of a thousand.
pub fn table(list: &List, study: &Study) -> String {
    let mut text = format!("{}\n\nways   hits  per thousand\n", heading(list));
    for (place, (hits, rate)) in study.hits.iter().zip(study.rates).enumerate() {
        text += &format!("{:4}  {hits:5}  {rate:12}\n", place + 1);
    }
    text
}
